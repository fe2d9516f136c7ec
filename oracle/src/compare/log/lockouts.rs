//! How often fixes of a log ended a run of rejections, what came behind that, and how single records met a run.

use super::replay::{Before, Step, CONFIGURE};
use crate::compare::component::ACCEPTED;
use crate::compare::ekf::filter::RUN;
use crate::compare::ekf::lockout::LAST;
use crate::compare::ekf::scope::{OPERATIONS, UPDATE_POSITION};
use crate::compare::run::Run;

#[derive(Default)]
pub struct Lockouts {
    eighths: u64,
    /// The next fix behind an eighth rejection: taken, and not.
    next: [u64; 2],
    /// Eighth rejections in whose runs other records, or refused fixes, stand.
    through: [u64; 2],
    /// Accepted fixes that end a shorter run.
    ended: u64,
    log: SoFar,
}

/// What came about in a log.
#[derive(Default)]
struct SoFar {
    run: u32,
    /// Whether the last verdict on a fix was an eighth rejection.
    raised: bool,
    /// Since the run began: other records and refused fixes.
    between: [bool; 2],
}

impl Lockouts {
    pub fn step(&mut self, step: &Step) {
        let Step::Line {
            tag, call, outcome, ..
        } = step
        else {
            return;
        };
        if *tag == CONFIGURE {
            self.log = SoFar::default();
        }
        let SoFar { run, .. } = self.log;
        self.log.run = outcome.filter.counts[RUN];
        if *call != Some(UPDATE_POSITION) || outcome.number != 0 {
            let refused = (*call == Some(UPDATE_POSITION)) as usize;
            self.log.between[refused] |= run > 0;
            return;
        }
        let accepted = outcome.answer.kind == ACCEPTED;
        if self.log.raised {
            self.next[!accepted as usize] += 1;
        }
        self.log.raised = !accepted && run == LAST;
        if self.log.raised {
            self.eighths += 1;
            for (through, between) in self.through.iter_mut().zip(self.log.between) {
                *through += between as u64;
            }
        }
        self.ended += (accepted && run > 0) as u64;
        if self.log.run == 0 {
            self.log.between = [false; 2];
        }
    }

    pub fn report(&self, run: &mut Run, least: u64) {
        let [[taken, not_taken], [others, refused]] = [self.next, self.through];
        run.expect(c"eighth rejections", self.eighths, least);
        run.expect(c"  with other records between", others, least / 2);
        run.expect(c"  with refused fixes between", refused, least / 10);
        run.expect(c"  and the next fix is taken", taken, least / 2);
        run.expect(c"  and the next one is not", not_taken, least / 10);
        run.expect(c"fixes that end a shorter run", self.ended, least);
    }
}

/// How single records met a run.
#[derive(Default)]
pub struct Met {
    /// By the run before it, up to the eighth rejection.
    rejected: [u64; 8],
    accepted: [u64; 8],
    /// By operation, with a run above 7: refused with 4, and answered. Behind them a record that makes no call.
    refused: [u64; OPERATIONS.len()],
    answered: [u64; OPERATIONS.len() + 1],
}

impl Met {
    pub fn step(&mut self, before: &Before, step: &Step) {
        let Step::Line { call, outcome, .. } = step else {
            return;
        };
        let run = before.filter.counts[RUN];
        if run > LAST {
            let row = call.map_or(OPERATIONS.len(), |call| call as usize);
            match outcome.number {
                0 => self.answered[row] += 1,
                4 => self.refused[row] += 1,
                _ => {}
            }
        } else if *call == Some(UPDATE_POSITION) && outcome.number == 0 {
            let accepted = outcome.answer.kind == ACCEPTED;
            let counts = if accepted {
                &mut self.accepted
            } else {
                &mut self.rejected
            };
            counts[run as usize] += 1;
        }
    }

    /// `calls` are all that a record can make.
    pub fn report(&self, run: &mut Run, calls: impl Iterator<Item = u32> + Clone, least: u64) {
        run.expect_each(c"rejected, by the run", (0..).zip(self.rejected), least);
        run.expect_each(c"accepted, by the run", (0..).zip(self.accepted), least / 2);
        let looks = |call: &u32| OPERATIONS[*call as usize].looks.at_count(RUN);
        let looking = calls.clone().filter(looks);
        let refused = looking.map(|call| (call, self.refused[call as usize]));
        run.expect_each(c"4 with a run above 7", refused, least);
        let others = calls
            .filter(|call| !looks(call))
            .chain([OPERATIONS.len() as u32]);
        let answered = others.map(|call| (call, self.answered[call as usize]));
        run.expect_each(c"answered with one", answered, least);
    }
}
