//! How often the judge stopped and answered how, and how often it has to.

use super::replay::{calls, Step, MARKS, STOPS};
use crate::compare::component::{ACCEPTED, DONE, REJECTED};
use crate::compare::ekf::filter::{Filter, FLAGS, NIS_COUNT, TALLIES};
use crate::compare::ekf::judge::Outcome;
use crate::compare::ekf::scope::*;
use crate::compare::libc::printf;
use crate::compare::run::Run;
use core::ffi::CStr;

/// Stops that can apply at once: the place of the first, and of those that can apply beside it.
pub type Pairs = [(usize, &'static [usize])];

/// A header that is cut shows a tag only; an unknown tag has no length; a mark is no configuration.
const PAIRS: &Pairs = &[
    (0, &[1, 4]),
    (1, &[3, 4]),
    (2, &[3, 4, 5, 6]),
    (3, &[4, 6]),
    (4, &[5, 6]),
    (5, &[]),
    (6, &[]),
];

/// By the stop and another that applies beside it; in its own column those that are alone.
#[derive(Default)]
pub struct Stops([[u64; 7]; 7]);

impl Stops {
    pub fn count(&mut self, first: usize, applies: &[bool; 7]) {
        let mut alone = true;
        for also in (first + 1..7).filter(|&also| applies[also]) {
            self.0[first][also] += 1;
            alone = false;
        }
        self.0[first][first] += alone as u64;
    }

    pub fn report(&self, run: &mut Run, name: &CStr, pairs: &Pairs, least: u64) {
        let beside = c"alone (its own place) and beside another";
        unsafe { printf(c"  %s, %s:\n".as_ptr(), name.as_ptr(), beside.as_ptr()) };
        for &(first, beside) in pairs {
            let count = |&also: &usize| (also as u32 + 1, self.0[first][also]);
            let alone = [first];
            let counts = alone.iter().chain(beside).map(count);
            run.expect_each(STOPS[first].0, counts, least);
        }
    }
}

#[derive(Default)]
pub struct Counts {
    stops: Stops,
    /// By operation and verdict, by operation and refusal.
    verdicts: [[u64; 3]; OPERATIONS.len()],
    refusals: [[u64; 7]; OPERATIONS.len()],
    /// How often a mark changed the filter: 2 and 4 leave different variances, and no other two
    /// change the same words.
    marks: [u64; 6],
    /// How often a mark met tallies, a NIS and a last fix.
    met: [u64; 6],
    /// Replays that write no filter.
    pub unwritten: u64,
    pub empty: u64,
    pub short: u64,
}

impl Counts {
    /// What a record comes to on a filter; one that makes no call counts nothing.
    pub fn step(&mut self, before: &Filter, step: &Step) {
        match step {
            Step::Stop { first, applies } => self.stops.count(*first, applies),
            Step::Line {
                call: Some(call),
                outcome,
                ..
            } => self.call(*call, before, outcome),
            _ => {}
        }
    }

    fn call(&mut self, operation: u32, before: &Filter, outcome: &Outcome) {
        if let Some(mark) = MARKS.iter().position(|&mark| mark == operation) {
            self.mark(mark, before, &outcome.filter);
        }
        let row = operation as usize;
        match outcome.number {
            0 => self.verdicts[row][outcome.answer.kind as usize] += 1,
            number => self.refusals[row][number as usize] += 1,
        }
    }

    fn mark(&mut self, mark: usize, before: &Filter, after: &Filter) {
        let tallied = before.counts[..TALLIES].iter().any(|&tally| tally > 0);
        let fixed = before.counts[NIS_COUNT] > 0 && before.counts[FLAGS[0]] > 0;
        self.marks[mark] += (after != before) as u64;
        self.met[mark] += (tallied && fixed) as u64;
    }

    pub fn report(&self, run: &mut Run) {
        let least = run.wanted() / 1000;
        self.report_steps(run, least, true);
        self.report_marks(run, 10 * least);
        run.expect(c"replays that write no filter", self.unwritten, least);
        run.expect(c"empty listings", self.empty, least);
        run.expect(c"buffers too short", self.short, run.wanted());
    }

    /// `sound`: whether every call met a sound filter, as a log's replay leaves it.
    pub fn report_steps(&self, run: &mut Run, least: u64, sound: bool) {
        self.stops.report(run, c"Stops", PAIRS, least);
        unsafe { printf(c"  Calls: done 0, accepted 1, rejected 2; refusals:\n".as_ptr()) };
        for call in calls() {
            self.report_call(run, call, least, sound);
        }
    }

    pub fn report_marks(&self, run: &mut Run, least: u64) {
        run.expect_each(c"marks that change", (1..).zip(self.marks), least);
        run.expect_each(c"marks after a fix", (1..).zip(self.met), least);
    }

    /// On a sound filter no call gives 3 or 4, and none gives 5. A configuration that is refused is a stop.
    fn report_call(&self, run: &mut Run, call: u32, least: u64, sound: bool) {
        let row = call as usize;
        let operation = &OPERATIONS[row];
        let gated: &[u32] = match call {
            UPDATE_POSITION | UPDATE_YAW | UPDATE_YAW_SOFT => &[ACCEPTED, REJECTED],
            _ => &[DONE],
        };
        let verdict = |&verdict: &u32| (verdict, self.verdicts[row][verdict as usize]);
        run.expect_each(operation.name, gated.iter().map(verdict), least);
        let can = |number: &u32| match number {
            1 | 2 => !operation.arguments.is_empty(),
            3 => !sound && call != WITH_CONFIG && !operation.looks.configuration.is_empty(),
            4 => !sound && !operation.looks.state.is_empty(),
            6 => operation.overflows,
            _ => false,
        };
        let count = |number: u32| (number, self.refusals[row][number as usize]);
        if (1..7).any(|number| can(&number)) {
            run.expect_each(c"  refused", (1..7).filter(can).map(count), least);
        }
        for (number, count) in (1..7).filter(|number| !can(number)).map(count) {
            if count > 0 && run.differs() {
                let name = operation.name.as_ptr();
                unsafe { printf(c"  DIFFERENT: %s gives %u\n".as_ptr(), name, number) };
            }
        }
    }
}
