//! The filter's part of the stored sample: the settled cases, of the runs those that have an outcome of their
//! own, the default filter, each number and argument at its ends and one beyond, and each outcome.

use super::counts::Counts;
use super::filter::*;
use super::inputs::{sound_filter, Input};
use super::lockout;
use super::scope::*;
use super::turn::{FIRST, SECOND};
use super::{random_change, random_read, settled};
use crate::compare::ranges::{at, place, Range};
use crate::compare::sample::{Row, Sample, Shows, EKF};
use crate::ekf::Ekf;

/// So many random inputs are looked at: changes and readers.
const TRIED: u32 = 150_000;
const TRIED_READERS: u32 = 50_000;

pub fn sample(to: &mut Sample) {
    let mut kept = Counts::default();
    settled::inputs(|input| store(to, &mut kept, &input, true));
    numbers(to, &mut kept);
    arguments(to, &mut kept);
    edges(to, &mut kept);
    // one of each outcome: most of them are settled on paper or met at an end
    let each = core::mem::replace(&mut to.each, 1);
    settled::run_inputs(|input| store(to, &mut kept, &input, false));
    for _ in 0..TRIED {
        let input = random_change(&mut to.random);
        store(to, &mut kept, &input, false);
    }
    for _ in 0..TRIED_READERS {
        let input = random_read(&mut to.random);
        store(to, &mut kept, &input, false);
    }
    to.each = each;
    if to.shows == Shows::Outcomes {
        kept.report(&mut to.run);
    }
}

/// The ends of a range and the floats beyond them.
pub fn ends(range: Range) -> [f32; 4] {
    let (low, high) = (place(range.low), place(range.high));
    [low - 1, low, high, high + 1].map(at)
}

/// A call of an operation, by either edition, that nothing is wrong with; if it does not look at the run, with
/// one that is too long.
fn good(to: &mut Sample, operation: u32, known: &Operation) -> Input {
    let mut filter = sound_filter(&mut to.random);
    if !known.looks.at_count(RUN) {
        filter.counts[RUN] = lockout::LAST + 1;
    }
    Input {
        operation,
        edition: FIRST + to.random.below(2) as u32,
        filter,
        arguments: super::inputs::arguments(&mut to.random, known),
    }
}

/// By some call that looks at the number.
fn numbers(to: &mut Sample, kept: &mut Counts) {
    for (number, &range) in NUMBERS.iter().enumerate() {
        let looks = |known: &Operation| {
            known.looks.state.contains(&number) || known.looks.configuration.contains(&number)
        };
        for end in ends(range) {
            let looking = operations(false).filter(|(_, known)| looks(known));
            let chosen = to.random.below(looking.clone().count() as u64) as usize;
            let Some((operation, known)) = looking.clone().nth(chosen) else {
                continue;
            };
            let mut input = good(to, operation, known);
            input.filter.numbers[number] = end;
            store(to, kept, &input, true);
        }
    }
}

fn arguments(to: &mut Sample, kept: &mut Counts) {
    for (operation, known) in operations(false) {
        for (argument, &range) in known.arguments.iter().enumerate() {
            for end in ends(range).into_iter().chain([f32::NAN]) {
                let mut input = good(to, operation, known);
                input.arguments[argument] = end;
                store(to, kept, &input, true);
            }
        }
    }
}

/// The default filter in place of another; and where one step more is another outcome: the turn rate at
/// 1e-4, and the NIS count at its end, by a gate value that rounds otherwise if it is divided earlier
/// or later, in short runs.
fn edges(to: &mut Sample, kept: &mut Counts) {
    let fresh = Input {
        operation: NEW,
        edition: FIRST,
        filter: Filter::of(&Ekf::new()),
        arguments: [0.0; 4],
    };
    let filter = sound_filter(&mut to.random);
    store(to, kept, &Input { filter, ..fresh }, true);
    for rate in [1e-4, -1e-4].map(place) {
        for wz in [rate - 1, rate, rate + 1].map(at) {
            let mut input = Input {
                operation: PREDICT,
                arguments: [0.5, -0.5, wz, 0.1],
                ..fresh
            };
            input.filter.numbers[X + 3] = 10.0;
            for edition in [FIRST, SECOND] {
                store(to, kept, &input.by(edition), true);
            }
        }
    }
    for (run, count) in (1..).zip([16_777_214, 16_777_215, 16_777_216]) {
        let mut input = Input {
            operation: UPDATE_POSITION,
            arguments: [1.1, 2.5, 0.0, 0.0],
            ..fresh
        };
        input.filter.counts[NIS_COUNT] = count;
        input.filter.counts[RUN] = run;
        store(to, kept, &input, true);
    }
}

fn store(to: &mut Sample, kept: &mut Counts, input: &Input, always: bool) {
    let outcome = input.judged();
    let count = |counts: &mut Counts| counts.call(input, &outcome);
    if !to.keeps(kept, always, count) {
        return;
    }
    let given = (input.operation, &input.arguments[..], &[input.edition][..]);
    let rows = [&input.filter.row(), &outcome.filter.row()];
    to.component(EKF, outcome.number, given, rows, &outcome.answer);
}

impl Filter {
    pub fn row(&self) -> Row {
        Row::new().floats(&self.numbers).words(&self.counts)
    }
}
