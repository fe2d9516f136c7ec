//! How often the run of position rejections went on, ended, stayed and was refused, and how often it has to.

use super::filter::*;
use super::inputs::Input;
use super::judge::Outcome;
use super::lockout::{LAST, LEAST};
use super::scope::*;
use crate::compare::component::ACCEPTED;
use crate::compare::ranges::place;
use crate::compare::run::Run;

/// Calls that keep the run, though they look at it or clear other counts.
const KEEPING: [u32; 5] = [
    PREDICT,
    LOCK_POSITION,
    SKIP_PREDICTION,
    RESET_NIS_STATS,
    RESET_GATE_STATS,
];

#[derive(Default)]
pub struct Runs {
    /// Fixes by the run before them; the eighth rejection by what it raises: nothing, p[0] alone, p[1] alone
    /// and both.
    accepted: [u64; 8],
    rejected: [u64; 7],
    eighth: [u64; 4],
    /// The eighth by axis: with a variance one float below 100, of just 100 and one float above it.
    about: [[u64; 3]; 2],
    tally_at_end: u64,
    /// Fixes that are refused, by the number, and calls that keep the run: each with a sound one above 0.
    refused: [u64; 4],
    kept: [u64; KEEPING.len()],
    /// By operation, with a run above 7: refused for it alone, and answered.
    alone: [u64; OPERATIONS.len()],
    answered: [u64; OPERATIONS.len()],
}

impl Runs {
    pub fn call(&mut self, input: &Input, judged: &Outcome) {
        let Some(known) = OPERATIONS.get(input.operation as usize) else {
            return;
        };
        let (row, run) = (input.operation as usize, input.filter.counts[RUN]);
        if run > LAST {
            self.answered[row] += (judged.number == 0) as u64;
            let mut sound = *input;
            sound.filter.counts[RUN] = LAST;
            let others = reasons(known, input.edition, &sound.filter, &input.arguments);
            self.alone[row] += (judged.number == 4 && others == [false; 4]) as u64;
            return;
        }
        match (input.operation, judged.number) {
            (UPDATE_POSITION, 0) => self.fix(input, judged, run as usize),
            (UPDATE_POSITION, number) => self.refused[number as usize - 1] += (run > 0) as u64,
            (operation, 0) => {
                if let Some(place) = KEEPING.iter().position(|&keeping| keeping == operation) {
                    self.kept[place] += (run > 0) as u64;
                }
            }
            _ => {}
        }
    }

    fn fix(&mut self, input: &Input, judged: &Outcome, run: usize) {
        if judged.answer.kind == ACCEPTED {
            self.accepted[run] += 1;
        } else if run < self.rejected.len() {
            self.rejected[run] += 1;
        } else {
            let [before, after] = [&input.filter, &judged.filter].map(|filter| &filter.numbers);
            let raised = [0, 1].map(|axis| (before[P + axis] < after[P + axis]) as usize);
            self.eighth[raised[0] + 2 * raised[1]] += 1;
            for (axis, about) in self.about.iter_mut().enumerate() {
                let from = place(before[P + axis]) - place(LEAST);
                if (-1..=1).contains(&from) {
                    about[(from + 1) as usize] += 1;
                }
            }
            self.tally_at_end += (input.filter.counts[0] == u32::MAX) as u64;
        }
    }

    pub fn report(&self, run: &mut Run) {
        let many = run.many();
        run.expect_each(c"accepted, by the run", (0..).zip(self.accepted), many / 50);
        run.expect_each(c"rejected, by the run", (0..).zip(self.rejected), many / 50);
        run.expect_each(c"eighth: p[0] 1, p[1] 2", (0..).zip(self.eighth), many / 50);
        for (name, about) in [c"  p[0] about 100", c"  p[1] about 100"]
            .into_iter()
            .zip(self.about)
        {
            run.expect_each(name, (0..).zip(about), many / 400);
        }
        run.expect(
            c"eighth with the tally at its end",
            self.tally_at_end,
            many / 100,
        );
        run.expect_each(c"fix refused in a run", (1..).zip(self.refused), many / 50);
        run.expect_each(
            c"run kept, by operation",
            KEEPING.into_iter().zip(self.kept),
            many / 50,
        );
        let rows = |looks: bool| {
            let rows = (0u32..).zip(&OPERATIONS);
            let rows = rows.filter(move |(_, known)| known.looks.at_count(RUN) == looks);
            rows.map(|(operation, _)| operation)
        };
        let count = |counts: &[u64; OPERATIONS.len()], row: u32| (row, counts[row as usize]);
        run.expect_each(
            c"4 for the run alone",
            rows(true).map(|row| count(&self.alone, row)),
            many / 400,
        );
        run.expect_each(
            c"answered with run 8 on",
            rows(false).map(|row| count(&self.answered, row)),
            many / 200,
        );
    }
}
