//! All memory that one call is lent, as one row of words, held beside what the call should leave.

use super::libc::printf;
use super::random::Random;
use super::run::Run;
use core::ffi::CStr;

/// Where in a row each part begins: the words up to the next part are its own. The words between
/// and behind what is lent are not the archive's to write, and are parts too.
pub type Parts = [(usize, &'static CStr)];

/// A row of any words.
pub fn filled<const N: usize>(random: &mut Random) -> [u32; N] {
    core::array::from_fn(|_| random.bits())
}

pub fn lay(row: &mut [u32], place: usize, words: &[u32]) {
    row[place..place + words.len()].copy_from_slice(words);
}

pub fn lay_floats(row: &mut [u32], place: usize, floats: &[f32]) {
    for (word, float) in row[place..].iter_mut().zip(floats) {
        *word = float.to_bits();
    }
}

/// One call, what was in memory before it and what it left there.
pub struct Lent<const N: usize> {
    pub name: &'static CStr,
    pub operation: u32,
    pub number: u32,
    pub before: [u32; N],
    pub after: [u32; N],
    pub parts: &'static Parts,
}

impl<const N: usize> Lent<N> {
    /// A flag that is true before and after the call may keep its word.
    pub fn keep_flag(&self, wanted: &mut [u32; N], flag: usize) {
        if wanted[flag] == 1 && self.before[flag] != 0 && self.after[flag] != 1 {
            wanted[flag] = self.before[flag];
        }
    }

    /// The answer is whether a difference was shown.
    pub fn expect(&self, run: &mut Run, number: u32, wanted: &[u32; N], by: &CStr) -> bool {
        let shows = (self.number != number || self.after != *wanted) && run.differs();
        if shows {
            self.show(number, wanted, by);
        }
        shows
    }

    fn show(&self, number: u32, wanted: &[u32; N], by: &CStr) {
        unsafe {
            printf(
                c"  DIFFERENT: %s (%u): the archive gives %u, %s %u; the words before:\n   "
                    .as_ptr(),
                self.name.as_ptr(),
                self.operation,
                self.number,
                by.as_ptr(),
                number,
            );
            for word in &self.before {
                printf(c" %08X".as_ptr(), *word);
            }
            printf(c"\n".as_ptr());
            for place in (0..N).filter(|&place| self.after[place] != wanted[place]) {
                let part = self.parts.iter().rev().find(|part| part.0 <= place);
                let &(first, name) = part.unwrap_or(&(0, c"lent to no one"));
                printf(
                    c"    word %u (%s from word %u) is %08X, by %s %08X\n".as_ptr(),
                    place as u32,
                    name.as_ptr(),
                    first as u32,
                    self.after[place],
                    by.as_ptr(),
                    wanted[place],
                );
            }
        }
    }
}
