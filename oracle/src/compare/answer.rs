//! One call that answers a float: what the archive gave, held beside what it should give.

use super::libc::printf;
use super::run::{same, Run};
use core::ffi::CStr;

/// What one call gives: a number, and with number 0 an answer.
#[derive(Clone, Copy)]
pub struct Outcome {
    pub number: u32,
    pub answer: f32,
}

/// One call of the archive, and what it left in memory.
pub struct Call<const N: usize> {
    name: &'static CStr,
    operation: u32,
    arguments: [f32; N],
    number: u32,
    before: f32,
    /// The answer, between two words that are not the archive's to write.
    memory: [f32; 3],
}

impl<const N: usize> Call<N> {
    /// `call` takes the place of the answer and gives the number.
    pub fn make(
        run: &mut Run,
        (name, operation): (&'static CStr, u32),
        arguments: [f32; N],
        call: impl FnOnce(*mut f32) -> u32,
    ) -> Self {
        // some finite float
        let before = f32::from_bits(run.random.bits() & !0x0080_0000);
        let mut memory = [before; 3];
        let number = call(&mut memory[1]);
        run.count_call();
        Self {
            name,
            operation,
            arguments,
            number,
            before,
            memory,
        }
    }

    pub fn expect(&self, run: &mut Run, wanted: Outcome, by: &CStr) {
        let kept = |word: f32| word.to_bits() == self.before.to_bits();
        let [left, answer, right] = self.memory;
        let answered = if wanted.number == 0 {
            same(answer, wanted.answer)
        } else {
            kept(answer)
        };
        if self.number == wanted.number && answered && kept(left) && kept(right) {
            return;
        }
        if run.differs() {
            self.show(wanted, by);
        }
    }

    fn show(&self, wanted: Outcome, by: &CStr) {
        let [left, answer, right] = self.memory.map(f32::to_bits);
        unsafe {
            printf(
                c"  DIFFERENT: %s (%u) of".as_ptr(),
                self.name.as_ptr(),
                self.operation,
            );
            for argument in self.arguments {
                let bits = argument.to_bits();
                printf(c" %08X (%.9g)".as_ptr(), bits, argument as f64);
            }
            printf(
                c": the archive gives %u and leaves %08X %08X %08X where %08X was; ".as_ptr(),
                self.number,
                left,
                answer,
                right,
                self.before.to_bits(),
            );
            if wanted.number == 0 {
                let bits = wanted.answer.to_bits();
                printf(c"%s gives 0 and %08X\n".as_ptr(), by.as_ptr(), bits);
            } else {
                printf(c"%s gives %u\n".as_ptr(), by.as_ptr(), wanted.number);
            }
        }
    }
}
