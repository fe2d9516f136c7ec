//! Random filters, arguments and editions: sound ones of all magnitudes, and spoilt ones.

use super::filter::*;
use super::judge::{judge, Outcome};
use super::lockout;
use super::scope::*;
use super::turn::{FIRST, SECOND};
use crate::compare::random::Random;
use crate::compare::ranges::{any_word, beside, one_of, outside, within};

/// What a call takes. The edition is its first word, at which `predict` alone looks.
#[derive(Clone, Copy)]
pub struct Input {
    pub operation: u32,
    pub edition: u32,
    pub filter: Filter,
    pub arguments: [f32; 4],
}

impl Input {
    pub fn judged(&self) -> Outcome {
        judge(self.operation, self.edition, &self.filter, &self.arguments)
    }

    /// The same call by another edition.
    pub fn by(&self, edition: u32) -> Self {
        Self { edition, ..*self }
    }
}

/// Both editions as often, and numbers that are none: seldom for a prediction, mostly for another call.
pub fn edition(random: &mut Random, operation: u32) -> u32 {
    let spoilt = if operation == PREDICT { 3 } else { 24 };
    match random.below(32) {
        choice if choice < spoilt => match random.below(4) {
            0 => 0,
            1 => SECOND + 1,
            2 => u32::MAX,
            _ => random.bits(),
        },
        _ => FIRST + random.below(2) as u32,
    }
}

/// A filter whose numbers are all sound and in range.
pub fn sound_filter(random: &mut Random) -> Filter {
    let tame = random.below(2) == 0;
    let numbers = NUMBERS.map(|range| within(random, range, tame));
    let mut counts = [0; 10];
    for tally in &mut counts[..TALLIES] {
        *tally = match random.below(8) {
            0 => u32::MAX - random.below(2) as u32,
            1 => random.bits(),
            _ => random.below(1000) as u32,
        };
    }
    counts[NIS_COUNT] = match random.below(8) {
        0 => 0,
        1 | 2 => NIS_END - random.below(2) as u32,
        3 => random.below(NIS_END as u64) as u32,
        _ => random.below(100) as u32,
    };
    for flag in FLAGS {
        counts[flag] = match random.below(16) {
            0 => random.bits(),
            word => word as u32 % 2,
        };
    }
    counts[RUN] = match random.below(4) {
        0 => lockout::LAST,
        _ => random.between(0, lockout::LAST as i64) as u32,
    };
    Filter { numbers, counts }
}

/// A run of any length: one above the last sound one, any of the first ten, or any word.
pub fn any_run(random: &mut Random) -> u32 {
    match random.below(4) {
        0 => random.bits(),
        1 => lockout::LAST + 1,
        _ => random.between(0, lockout::LAST as i64 + 2) as u32,
    }
}

/// Arguments in their ranges; those that the operation does not have are any words.
pub fn arguments(random: &mut Random, operation: &Operation) -> [f32; 4] {
    let tame = random.below(2) == 0;
    let mut arguments = [0.0; 4];
    for (place, argument) in arguments.iter_mut().enumerate() {
        *argument = match operation.arguments.get(place) {
            Some(&range) => within(random, range, tame),
            None => f32::from_bits(any_word(random)),
        };
    }
    if operation.arguments.len() == 4 {
        fit_turn(random, &mut arguments);
    }
    arguments
}

/// Where wz * dt would be refused, mostly takes a wz for which it is not, often just so.
fn fit_turn(random: &mut Random, [_, _, wz, dt]: &mut [f32; 4]) {
    if TURN.has(*wz * *dt) || random.below(16) == 0 {
        return;
    }
    let most = beside(random, TURN.high / *dt, 2);
    *wz = match random.below(4) {
        0 => most,
        _ => most * (random.below(1 << 24) as f32 / (1 << 24) as f32),
    };
}

/// Words that a call does not look at become any words.
pub fn free(random: &mut Random, looks: &Looks, filter: &mut Filter) {
    for (place, number) in filter.numbers.iter_mut().enumerate() {
        if !looks.state.contains(&place) && !looks.configuration.contains(&place) {
            *number = f32::from_bits(any_word(random));
        }
    }
    if !looks.at_count(NIS_COUNT) {
        filter.counts[NIS_COUNT] = random.bits();
    }
}

/// A run that a call does not look at is of any length.
pub fn free_run(random: &mut Random, looks: &Looks, filter: &mut Filter) {
    if !looks.at_count(RUN) {
        filter.counts[RUN] = any_run(random);
    }
}

/// Puts one of the arguments, of the configuration or of the state outside its range.
pub fn spoil(
    random: &mut Random,
    operation: &Operation,
    filter: &mut Filter,
    arguments: &mut [f32; 4],
) {
    let looks = &operation.looks;
    match random.below(3) {
        0 => {
            if let Some(place) = one_of(random, operation.arguments.len()) {
                arguments[place] = outside(random, operation.arguments[place]);
            }
        }
        1 => spoil_number(random, looks.configuration, filter),
        _ if !looks.counts.is_empty() && random.below(4) == 0 => {
            spoil_count(random, looks.counts, filter)
        }
        _ => spoil_number(random, looks.state, filter),
    }
}

/// One or two above the last sound one, or any one above it.
fn spoil_count(random: &mut Random, counts: &[(usize, u32)], filter: &mut Filter) {
    if let Some(chosen) = one_of(random, counts.len()) {
        let (place, last) = counts[chosen];
        filter.counts[place] = match random.below(3) {
            choice @ 0..2 => last + 1 + choice as u32,
            _ => random.between(last as i64 + 1, u32::MAX as i64) as u32,
        };
    }
}

fn spoil_number(random: &mut Random, places: &[usize], filter: &mut Filter) {
    if let Some(place) = one_of(random, places.len()) {
        filter.numbers[places[place]] = outside(random, NUMBERS[places[place]]);
    }
}
