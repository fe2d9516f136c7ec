//! `track_ekf`: the filter beside the original `Ekf`.
//!
//! Every number, count and gate value is compared bit by bit, and with it all memory that the archive is
//! lent.

mod aims;
mod counts;
mod editions;
pub mod filter;
pub mod inputs;
pub mod judge;
mod lists;
pub mod lockout;
mod runs;
pub mod sample;
pub mod scope;
mod settled;
pub mod tunnel;
pub mod turn;

use super::archive::track_ekf;
use super::component::{self, Call, Given, Wanted};
use super::floats::unknown;
use super::random::Random;
use super::ranges::{self, range};
use super::run::Run;
use core::ffi::CStr;
use counts::Counts;
use filter::{Filter, FLAGS, P, RUN, X};
use inputs::Input;
use judge::Outcome;
use scope::*;
use turn::{FIRST, SECOND};

pub fn compare(run: &mut Run) {
    let mut counts = Counts::default();
    settled::compare(run);
    for _ in 0..20 {
        ends(run, &mut counts);
    }
    for _ in 0..run.wanted() {
        let input = match run.random.below(4) {
            0 => random_read(&mut run.random),
            _ => random_change(&mut run.random),
        };
        beside(run, &mut counts, &input);
    }
    counts.report(run);
    lists::compare(run);
}

/// Each number, the run and each argument, looked at or not, at and beside the ends of its range.
fn ends(run: &mut Run, counts: &mut Counts) {
    let filter = inputs::sound_filter(&mut run.random);
    for place in 0..NUMBERS.len() {
        for number in ranges::ends(&mut run.random, NUMBERS[place]) {
            let mut filter = filter;
            filter.numbers[place] = number;
            each_operation(run, counts, &filter);
        }
    }
    for rejections in RUNS {
        let mut filter = filter;
        filter.counts[RUN] = rejections;
        each_operation(run, counts, &filter);
        rejected(run, counts, &filter);
    }
    for (operation, known) in (0..).zip(&OPERATIONS) {
        for (place, &range) in known.arguments.iter().enumerate() {
            for argument in ranges::ends(&mut run.random, range) {
                let mut arguments = inputs::arguments(&mut run.random, known);
                arguments[place] = argument;
                by_editions(run, counts, operation, &filter, &arguments);
            }
        }
    }
}

fn each_operation(run: &mut Run, counts: &mut Counts, filter: &Filter) {
    for (operation, known) in (0..).zip(&OPERATIONS) {
        let arguments = inputs::arguments(&mut run.random, known);
        by_editions(run, counts, operation, filter, &arguments);
    }
}

/// The ends of the run and others beside them.
pub const RUNS: [u32; 6] = [0, 6, 7, 8, 9, u32::MAX];

/// A fix that the gate rejects, whatever the variances are, which are at, beside, below and above those that
/// an eighth one leaves, each axis by itself.
fn rejected(run: &mut Run, counts: &mut Counts, filter: &Filter) {
    let about = ranges::ends(&mut run.random, range(lockout::LEAST, lockout::LEAST));
    let variances = [1.0, 99.0, about[0], about[1], about[2], 101.0, 1e9];
    let [x, y] = [X, X + 1].map(|place| filter.numbers[place]);
    let far = |at: f32| if at < 0.0 { at + 1e6 } else { at - 1e6 };
    for variance in variances {
        for other in variances {
            let mut filter = *filter;
            filter.numbers[P..P + 2].copy_from_slice(&[variance, other]);
            let arguments = [far(x), far(y), 0.0, 0.0];
            by_editions(run, counts, UPDATE_POSITION, &filter, &arguments);
        }
    }
}

/// A prediction by both editions; another call with any word in the edition's place.
fn by_editions(
    run: &mut Run,
    counts: &mut Counts,
    operation: u32,
    filter: &Filter,
    arguments: &[f32; 4],
) {
    let input = Input {
        operation,
        edition: inputs::edition(&mut run.random, operation),
        filter: *filter,
        arguments: *arguments,
    };
    if operation == PREDICT {
        beside(run, counts, &input.by(FIRST));
        beside(run, counts, &input.by(SECOND));
    } else {
        beside(run, counts, &input);
    }
}

/// A call that changes a filter: a third of them are spoilt.
fn random_change(random: &mut Random) -> Input {
    let operation = pick_change(random);
    let (filter, arguments) = given(random, operation);
    Input {
        operation,
        edition: inputs::edition(random, operation),
        filter,
        arguments,
    }
}

/// What such a call is given.
pub fn given(random: &mut Random, number: u32) -> (Filter, [f32; 4]) {
    let mut filter = inputs::sound_filter(random);
    let mut arguments = [f32::from_bits(random.bits()); 4];
    if let Some(operation) = OPERATIONS.get(number as usize) {
        arguments = inputs::arguments(random, operation);
        if random.below(2) == 0 {
            aims::aim(random, number, &mut filter, &mut arguments);
        }
        spoil(random, operation, &mut filter, &mut arguments);
    }
    (filter, arguments)
}

/// A call of a reader: a third of them are spoilt.
fn random_read(random: &mut Random) -> Input {
    let number = match random.below(16) {
        0 => unknown(random, OPERATIONS.len() as u32),
        1..=4 => GET_EFFECTIVE_POS_SIGMA,
        _ => pick(random, true),
    };
    let mut filter = inputs::sound_filter(random);
    let mut arguments = [f32::from_bits(random.bits()); 4];
    if random.below(4) == 0 {
        aims::aim_at_sigma(random, &mut filter);
    }
    if let Some(operation) = OPERATIONS.get(number as usize) {
        spoil(random, operation, &mut filter, &mut arguments);
    }
    Input {
        operation: number,
        edition: inputs::edition(random, number),
        filter,
        arguments,
    }
}

fn spoil(
    random: &mut Random,
    operation: &Operation,
    filter: &mut Filter,
    arguments: &mut [f32; 4],
) {
    if random.below(4) == 0 {
        inputs::free(random, &operation.looks, filter);
    }
    inputs::free_run(random, &operation.looks, filter);
    while random.below(3) == 0 {
        inputs::spoil(random, operation, filter, arguments);
    }
}

fn beside(run: &mut Run, counts: &mut Counts, input: &Input) {
    let wanted = input.judged();
    counts.call(input, &wanted);
    let call = call(run, input);
    expect(run, &call, input.operation, &wanted, c"the judge");
}

fn call(run: &mut Run, input: &Input) -> Call {
    let known = OPERATIONS.get(input.operation as usize);
    let given = Given {
        component: track_ekf,
        name: known.map_or(c"unknown operation", |known| known.name),
        operation: input.operation,
        numbers: &input.filter.numbers,
        counts: &input.filter.counts,
        arguments: &input.arguments,
        words: &[input.edition],
    };
    component::call(run, &given)
}

fn expect(run: &mut Run, call: &Call, operation: u32, outcome: &Outcome, by: &CStr) {
    let Filter { numbers, counts } = &outcome.filter;
    let wanted = Wanted {
        number: outcome.number,
        answer: outcome.answer,
        record: (!reads(operation)).then_some((numbers, counts)),
        flags: &FLAGS,
    };
    call.expect(run, &wanted, by);
}

/// Whether the call leaves the filter.
fn reads(operation: u32) -> bool {
    operations(true).any(|(reader, _)| reader == operation)
}

fn pick(random: &mut Random, reader: bool) -> u32 {
    let count = operations(reader).count() as u64;
    let chosen = operations(reader).nth(random.below(count) as usize);
    chosen.map_or(0, |(operation, _)| operation)
}

/// More often one that can end in many ways.
fn pick_change(random: &mut Random) -> u32 {
    match random.below(48) {
        0 => unknown(random, OPERATIONS.len() as u32),
        1..=8 => PREDICT,
        9..=15 => UPDATE_POSITION,
        16..=22 => UPDATE_YAW,
        23..=29 => UPDATE_YAW_SOFT,
        30..=32 => UPDATE_SPEED,
        _ => pick(random, false),
    }
}
