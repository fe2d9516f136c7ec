//! Random records and arguments: sound ones of all magnitudes, sought ones, and spoilt ones.

use super::record::{Input, BLANK};
use super::scope::{Count, Operation};
use super::{judge, Learner};
use crate::compare::component::Kind;
use crate::compare::floats::unknown;
use crate::compare::random::Random;
use crate::compare::ranges::{any_word, at, edge, one_of, outside, within, Range};

/// An input of any operation: half of them a scene, a third of them spoilt.
pub fn random<L: Learner>(random: &mut Random) -> Input {
    let operation = pick::<L>(random);
    let mut input = sound::<L>(random, operation);
    let Some(known) = L::OPERATIONS.get(input.operation as usize) else {
        return input;
    };
    if random.below(2) == 0 {
        L::scene(random, &mut input);
    }
    if random.below(L::SELDOM) == 0 {
        seek::<L>(random, known, &mut input);
    }
    while random.below(3) == 0 {
        spoil::<L>(random, known, &mut input);
    }
    if known.kind == Kind::Making && random.below(2) == 0 {
        for number in &mut input.record.numbers {
            *number = f32::from_bits(any_word(random));
        }
        input.record.counts = [random.bits(); 8];
    }
    input
}

/// More often a change, and the more arguments and words it has, the more often.
fn pick<L: Learner>(random: &mut Random) -> u32 {
    let count = L::OPERATIONS.len() as u32;
    let weight = |known: &Operation| match known.kind {
        Kind::Change => (known.arguments.len() + known.words) as u64,
        _ => 0,
    };
    match random.below(32) {
        0 => return unknown(random, count),
        1..=9 => return random.below(count as u64) as u32,
        _ => {}
    }
    let mut left = random.below(L::OPERATIONS.iter().map(weight).sum());
    for (operation, known) in (0..).zip(L::OPERATIONS) {
        if left < weight(known) {
            return operation;
        }
        left -= weight(known);
    }
    count
}

/// A sound record and arguments in their ranges; those that the operation does not have are any
/// words.
pub fn sound<L: Learner>(random: &mut Random, operation: u32) -> Input {
    let tame = random.below(2) == 0;
    let mut record = BLANK;
    for (number, kind) in record.numbers.iter_mut().zip(L::NUMBERS) {
        *number = within(random, kind.range, tame);
    }
    for (count, kind) in record.counts.iter_mut().zip(L::COUNTS) {
        *count = sound_count(random, *kind);
    }
    let known = L::OPERATIONS.get(operation as usize);
    let ranges = known.map_or(&[][..], |known| known.arguments);
    let arguments = core::array::from_fn(|place| match ranges.get(place) {
        Some(&range) => within(random, range, tame),
        None => f32::from_bits(any_word(random)),
    });
    Input {
        operation,
        record,
        arguments,
        words: core::array::from_fn(|place| match place {
            0 => sound_count(random, Count::Flag),
            _ => random.bits(),
        }),
    }
}

fn sound_count(random: &mut Random, kind: Count) -> u32 {
    match (kind, random.below(16)) {
        (Count::Flag, 0) | (Count::Free, _) => random.bits(),
        (Count::Flag, choice) => choice as u32 % 2,
        (Count::UpTo(_), 0) => 0,
        (Count::UpTo(end), 1..=4) => end - random.below(2) as u32,
        (Count::UpTo(end), 5) => random.between(0, end as i64) as u32,
        (Count::UpTo(end), _) => random.between(0, end.min(100) as i64) as u32,
    }
}

/// A word of the input.
#[derive(Clone, Copy)]
enum Word {
    Number(usize),
    Argument(usize),
}

impl Word {
    fn of(self, input: &mut Input) -> &mut f32 {
        match self {
            Self::Number(place) => &mut input.record.numbers[place],
            Self::Argument(place) => &mut input.arguments[place],
        }
    }
}

/// Changes some word until something else comes about, and takes a neighbour of the last value
/// before that.
fn seek<L: Learner>(random: &mut Random, known: &Operation, input: &mut Input) {
    let (word, range) = match one_of(random, known.arguments.len()) {
        Some(place) if random.below(2) == 0 => (Word::Argument(place), known.arguments[place]),
        _ => {
            let place = random.below(L::NUMBERS.len() as u64) as usize;
            (Word::Number(place), L::NUMBERS[place].range)
        }
    };
    let (start, mut tried) = (taken::<L>(input), *input);
    let mut holds = |value: f32| {
        *word.of(&mut tried) = value;
        taken::<L>(&tried) == start
    };
    let (from, to) = (*word.of(input), way(random, range));
    if !holds(to) {
        let last = at(edge(from, to, holds) + random.between(-1, 1));
        *word.of(input) = range.nearest(last);
    }
}

/// Half of the ways lead to what a car meets.
fn way(random: &mut Random, range: Range) -> f32 {
    let tame = random.below(2) == 0;
    within(random, range, tame)
}

/// The number and the branches that a call takes.
fn taken<L: Learner>(input: &Input) -> (u32, u64) {
    let outcome = judge::<L>(input);
    let branches = L::LEARNS.iter().chain(L::edges());
    let taken = branches.fold(0, |taken, (_, branch)| {
        taken << 1 | branch(input, &outcome) as u64
    });
    (outcome.number, taken)
}

/// Puts one of the arguments or of the record outside its range.
fn spoil<L: Learner>(random: &mut Random, known: &Operation, input: &mut Input) {
    match (random.below(4), one_of(random, known.arguments.len())) {
        (0 | 1, Some(place)) => {
            input.arguments[place] = outside(random, known.arguments[place]);
        }
        (2, _) if !L::COUNTS.is_empty() => {
            let place = random.below(L::COUNTS.len() as u64) as usize;
            if let Count::UpTo(end) = L::COUNTS[place] {
                let far = random.between(end as i64 + 1, u32::MAX as i64) as u32;
                input.record.counts[place] = if random.below(2) == 0 { end + 1 } else { far };
            }
        }
        _ => {
            let place = random.below(L::NUMBERS.len() as u64) as usize;
            input.record.numbers[place] = outside(random, L::NUMBERS[place].range);
        }
    }
}
