//! How often the judge gave what, and how often it has to.

use super::record::Input;
use super::scope::reasons;
use super::{Learner, Outcome};
use crate::compare::libc::printf;
use crate::compare::run::{has_payload, Run};

const LEARNS: usize = 16;
const EDGES: usize = 48;

pub struct Counts {
    /// By operation (the last one is the unknown) and number.
    numbers: [[u64; 7]; 9],
    several_reasons: u64,
    /// Refused calls that leave a NaN with a payload as it is.
    payloads: u64,
    learns: [u64; LEARNS],
    edges: [u64; EDGES],
}

impl Default for Counts {
    fn default() -> Self {
        Self {
            numbers: [[0; 7]; 9],
            several_reasons: 0,
            payloads: 0,
            learns: [0; LEARNS],
            edges: [0; EDGES],
        }
    }
}

impl Counts {
    pub fn call<L: Learner>(&mut self, input: &Input, outcome: &Outcome) {
        let row = (input.operation as usize).min(L::OPERATIONS.len());
        self.numbers[row][outcome.number as usize] += 1;
        if let Some(known) = L::OPERATIONS.get(row) {
            let reasons = reasons::<L>(known, input);
            let applying = reasons.iter().filter(|&&applies| applies).count();
            self.several_reasons += (applying > 1) as u64;
        }
        let mut numbers = input.record.numbers.iter().take(L::NUMBERS.len());
        let payload = numbers.any(|&number| has_payload(number));
        self.payloads += (payload && outcome.number != 0) as u64;
        self.learns::<L>(input, outcome);
        const { assert!(L::EDGES.len() + L::COURSES.len() <= EDGES) };
        for (count, (_, taken)) in self.edges.iter_mut().zip(L::edges()) {
            *count += taken(input, outcome) as u64;
        }
    }

    pub fn learns<L: Learner>(&mut self, input: &Input, outcome: &Outcome) {
        const { assert!(L::LEARNS.len() <= LEARNS) };
        for (count, (_, taken)) in self.learns.iter_mut().zip(L::LEARNS) {
            *count += taken(input, outcome) as u64;
        }
    }

    pub fn report<L: Learner>(&self, run: &mut Run) {
        let least = run.many() / 100;
        for (operation, row) in L::OPERATIONS.iter().zip(&self.numbers) {
            let can = |number: &u32| operation.can::<L>(*number);
            let count = |number: u32| (number, row[number as usize]);
            run.expect_each(operation.name, (0..7).filter(can).map(count), least);
            for (number, count) in (0..7).filter(|number| !can(number)).map(count) {
                if count > 0 && run.differs() {
                    let name = operation.name.as_ptr();
                    unsafe { printf(c"  DIFFERENT: %s gives %u\n".as_ptr(), name, number) };
                }
            }
        }
        let unknown = self.numbers[L::OPERATIONS.len()][2];
        run.expect_each(c"unknown operation", [(2, unknown)], least);
        let several = self.several_reasons;
        run.expect(c"refusals with several reasons", several, least);
        run.expect(c"NaN kept with its payload", self.payloads, least);
        self.report_learns::<L>(run, least);
        for ((name, _), count) in L::edges().zip(self.edges) {
            run.expect(name, count, least);
        }
    }

    pub fn report_learns<L: Learner>(&self, run: &mut Run, least: u64) {
        for ((name, _), count) in L::LEARNS.iter().zip(self.learns) {
            run.expect(name, count, least);
        }
    }
}
