//! Lists of calls: each side goes on from what itself stored, and everything is compared after each call.

mod merged;

use super::filter::*;
use super::inputs::{self, any_run, Input};
use super::judge::Outcome;
use super::lockout::LAST;
use super::scope::*;
use super::turn::FIRST;
use super::{call, expect};
use crate::compare::component::{Call, ACCEPTED, REJECTED};
use crate::compare::random::Random;
use crate::compare::ranges::{outside, side, sized};
use crate::compare::run::Run;
use crate::ekf::Ekf;

/// One list to so many random calls.
const LISTS: u64 = 400;

pub fn compare(run: &mut Run) {
    let mut counts = Listed::default();
    for _ in 0..run.wanted() / LISTS {
        list(run, &mut counts);
    }
    counts.report(run);
    merged::compare(run);
}

/// The filter of each side.
#[derive(Clone, Copy)]
struct Sides {
    judged: Filter,
    archive: Filter,
}

impl Sides {
    fn at(filter: Filter) -> Self {
        Self {
            judged: filter,
            archive: filter,
        }
    }

    fn call(&mut self, run: &mut Run, given: &Given) -> (Outcome, Call) {
        let judged = given.on(&self.judged).judged();
        let call = call(run, &given.on(&self.archive));
        expect(run, &call, given.operation, &judged, c"the judge");
        self.judged = judged.filter;
        call.left(&mut self.archive.numbers, &mut self.archive.counts);
        (judged, call)
    }
}

/// A call, whatever the filter is.
#[derive(Clone, Copy)]
struct Given {
    operation: u32,
    edition: u32,
    arguments: [f32; 4],
}

impl Given {
    fn on(&self, filter: &Filter) -> Input {
        Input {
            operation: self.operation,
            edition: self.edition,
            filter: *filter,
            arguments: self.arguments,
        }
    }

    fn new(operation: u32, arguments: [f32; 4]) -> Self {
        Self {
            operation,
            edition: FIRST,
            arguments,
        }
    }

    /// Any call of an operation, with arguments in their ranges.
    fn any(random: &mut Random, operation: u32) -> Self {
        let known = &OPERATIONS[operation as usize];
        Self {
            operation,
            edition: FIRST + random.below(2) as u32,
            arguments: inputs::arguments(random, known),
        }
    }

    /// One of the operations that `chosen` is true of.
    fn of(random: &mut Random, chosen: fn(&Looks) -> bool) -> Self {
        let calls = (0u32..).zip(&OPERATIONS);
        let calls = calls.filter(|(_, known)| chosen(&known.looks));
        let place = random.below(calls.clone().count() as u64) as usize;
        let operation = calls.map(|(operation, _)| operation).nth(place);
        Self::any(random, operation.unwrap_or(RESET_GATE_STATS))
    }

    /// About a place, as a receiver gives it.
    fn fix(random: &mut Random, place: [f32; 2]) -> Self {
        let [x, y] = place.map(|at| at + random.between(-16, 16) as f32 / 16.0);
        Self::new(UPDATE_POSITION, [x, y, 0.0, 0.0])
    }

    /// One that is not finite or out of range.
    fn refused_fix(random: &mut Random, [x, y]: [f32; 2]) -> Self {
        let mut fix = [x, y, 0.0, 0.0];
        fix[random.below(2) as usize] = outside(random, POSITION);
        Self::new(UPDATE_POSITION, fix)
    }
}

/// A car at rest or any sound filter, with a run from 0 to 9 or, seldom, of any length; few have something
/// else that is unsound.
fn start(random: &mut Random) -> Filter {
    let mut filter = match random.below(4) {
        0 => inputs::sound_filter(random),
        _ => Filter::of(&Ekf::new()),
    };
    for flag in FLAGS {
        filter.counts[flag] = (filter.counts[flag] != 0) as u32;
    }
    for axis in 0..2 {
        filter.numbers[P + axis] = sized(random, 1e-2, 300.0);
    }
    filter.counts[RUN] = match random.below(16) {
        0 => any_run(random),
        1..=4 => random.below(LAST as u64 + 3) as u32,
        _ => random.below(LAST as u64 + 1) as u32,
    };
    if random.below(16) == 0 {
        let all = &OPERATIONS[PREDICT as usize];
        inputs::spoil(random, all, &mut filter, &mut [0.0; 4]);
    }
    filter
}

/// Where the receiver is: some ten metres from where the filter has it.
fn elsewhere(random: &mut Random, filter: &Filter) -> [f32; 2] {
    [0, 1].map(|axis| {
        let at = filter.numbers[X + axis] + sized(random, 5.0, 90.0) * side(random);
        // of a filter that is not sound, at some place
        if at.abs() < 9e6 {
            at
        } else {
            100.0
        }
    })
}

fn list(run: &mut Run, counts: &mut Listed) {
    let random = &mut run.random;
    let mut sides = Sides::at(start(random));
    let place = elsewhere(random, &sides.judged);
    let length = random.between(24, 72);
    let mut so_far = SoFar::default();
    for _ in 0..length {
        let random = &mut run.random;
        let given = match random.below(32) {
            0 => Given::refused_fix(random, place),
            1 => Given::fix(random, [0, 1].map(|axis| sides.judged.numbers[X + axis])),
            2 => Given::any(random, PREDICT),
            3..=5 => Given::new(PREDICT, [0.0, 0.0, 0.0, sized(random, 0.005, 0.5)]),
            6 => Given::any(random, RESET_GATE_STATS),
            7 | 8 => Given::of(random, is_position),
            9 | 10 => Given::of(random, is_another_channel),
            _ => Given::fix(random, place),
        };
        let before = sides.judged;
        let (judged, _) = sides.call(run, &given);
        counts.call(&mut so_far, &given, &before, &judged);
    }
}

/// Position calls, the readers too; a prediction alone looks at the run besides.
fn is_position(looks: &Looks) -> bool {
    looks.at_count(RUN) && !looks.state.contains(&(X + 2))
}

fn is_another_channel(looks: &Looks) -> bool {
    !looks.at_count(RUN) && !looks.state.is_empty()
}

/// What came about in a list.
#[derive(Default)]
struct SoFar {
    eighths: u32,
    /// Whether the last verdict was an eighth rejection.
    raised: bool,
    /// Since the last run began: calls that are no fixes, and fixes that are refused.
    others: u32,
    refused: u32,
}

/// How often lists came to what.
#[derive(Default)]
struct Listed {
    accepted: u64,
    rejected: u64,
    eighths: u64,
    /// Eighth rejections in whose runs other calls, or refused fixes, came between.
    through_others: u64,
    through_refused: u64,
    /// Not the first one of the list.
    again: u64,
    /// Fixes that are taken as the next one behind an eighth rejection, and such that are not.
    taken: u64,
    not_taken: u64,
    /// Accepted fixes that end a run before it is at its end.
    ended: u64,
    unsound: u64,
}

impl Listed {
    fn call(&mut self, so_far: &mut SoFar, given: &Given, before: &Filter, judged: &Outcome) {
        let in_run = before.counts[RUN] > 0;
        self.unsound += (judged.number == 4) as u64;
        if given.operation != UPDATE_POSITION {
            so_far.others += in_run as u32;
            return;
        }
        if judged.number != 0 {
            so_far.refused += in_run as u32;
            return;
        }
        let raised = core::mem::take(&mut so_far.raised);
        if judged.answer.kind == ACCEPTED {
            self.accepted += 1;
            self.taken += raised as u64;
            self.ended += in_run as u64;
        } else {
            self.rejected += 1;
            self.not_taken += raised as u64;
        }
        let eighth = judged.answer.kind == REJECTED && before.counts[RUN] == LAST;
        if eighth {
            self.eighths += 1;
            self.through_others += (so_far.others > 0) as u64;
            self.through_refused += (so_far.refused > 0) as u64;
            self.again += (so_far.eighths > 0) as u64;
            so_far.eighths += 1;
            so_far.raised = true;
        }
        if judged.filter.counts[RUN] == 0 {
            (so_far.others, so_far.refused) = (0, 0);
        }
    }

    fn report(&self, run: &mut Run) {
        let lists = run.wanted() / LISTS;
        let rows = [
            (c"lists: accepted fixes", self.accepted, 5 * lists),
            (c"lists: rejected fixes", self.rejected, 5 * lists),
            (c"lists: eighth rejections", self.eighths, lists),
            (
                c"  with other calls between",
                self.through_others,
                lists / 2,
            ),
            (
                c"  with refused fixes between",
                self.through_refused,
                lists / 20,
            ),
            (c"  not the first one of a list", self.again, lists / 4),
            (c"  and the next fix is taken", self.taken, lists / 4),
            (c"  and the next one is not", self.not_taken, lists / 20),
            (c"lists: fixes that end a run early", self.ended, lists / 20),
            (c"lists: calls that give 4", self.unsound, lists),
        ];
        for (name, count, least) in rows {
            run.expect(name, count, least);
        }
    }
}
