//! `track_gps`: the acceleration of two fixes, and the rate of fixes.
//!
//! Times are whole milliseconds, by a change request that departs from the original: `reading` is the
//! judge, and has the original in it.

mod branches;
mod reading;
mod settled;

use super::record::{joined, split, Field, Input, Record, BLANK};
use super::scope::*;
use super::{Branch, Learner, Outcome, Settled, CASE};
use crate::compare::archive::{track_gps, Component};
use crate::compare::component::{option, value, Answer, NOTHING};
use crate::compare::random::Random;
use crate::compare::ranges::{beside, side, sized};
use reading::{Reading, Stamp};

pub const UPDATE: u32 = 1;
pub const UPDATE_RATE: u32 = 2;
pub const ADVANCE_TIME: u32 = 3;
const GET_RATE: u32 = 4;

/// Where in the record what is; a stamp is a flag and a time.
const PREV_SPEED: usize = 0;
pub const ACCEL_LON: usize = 1;
const GPS_RATE: usize = 2;
pub const TIME_SINCE_FIX: usize = 3;
const RATE_EMA: usize = 4;
pub const VALID: usize = 0;
const LAST_FIX_COUNT: usize = 1;
const PREV_FIX: usize = 2;
const LAST_RATE: usize = 5;

/// An interval above this many milliseconds is outside the range of `update_rate`.
const LONGEST: i128 = 16_777_216;

/// The time that a call is given.
fn time(input: &Input) -> u64 {
    let [first, second, third, _] = input.words;
    match input.operation {
        UPDATE => joined(first, second),
        _ => joined(second, third),
    }
}

pub const fn fix_words(time: u64) -> [u32; 4] {
    let [low, high] = split(time);
    [low, high, 0, 0]
}

pub const fn rate_words(fix_count: u32, time: u64) -> [u32; 4] {
    let [low, high] = split(time);
    [fix_count, low, high, 0]
}

/// The stored time that a call looks at.
fn stored(input: &Input) -> Stamp {
    let place = match input.operation {
        UPDATE => PREV_FIX,
        _ => LAST_RATE,
    };
    Stamp::take(&mut input.record.counts[place..].iter())
}

/// The milliseconds since the stored time, if there is one: below 0 where the clock goes back.
fn passed(input: &Input) -> Option<i128> {
    let before = stored(input);
    let passed = time(input) as i128 - before.time as i128;
    before.there.then_some(passed)
}

fn fixes(input: &Input) -> u32 {
    input.words[0].saturating_sub(input.record.counts[LAST_FIX_COUNT])
}

pub struct Gps;

impl Learner for Gps {
    const ARCHIVE: Component = track_gps;
    const NUMBERS: &'static [Number] = &[state(STORED); 5];
    #[rustfmt::skip]
    const COUNTS: &'static [Count] = &[
        Count::Flag, Count::Free,
        Count::Flag, Count::Free, Count::Free,
        Count::Flag, Count::Free, Count::Free,
    ];
    const OPERATIONS: &'static [Operation] = &[
        making(c"new", &[]),
        overflows(taking(2, change(c"update", &[SPEED]))),
        bounded(taking(3, change(c"update_rate", &[]))),
        change(c"advance_time", &[STEP]),
        reader(c"get_rate", &[]),
    ];
    const LEARNS: &'static [Branch] = branches::LEARNS;
    const EDGES: &'static [Branch] = branches::EDGES;
    const SETTLED: &'static [Settled] = settled::SETTLED;

    laid! {
        Reading of Reading:
        prev_speed accel_lon gps_rate time_since_fix rate_ema;
        valid last_fix_count prev_fix last_rate
    }

    fn original(gps: &mut Reading, input: &Input) -> Answer {
        let argument = input.arguments[0];
        match input.operation {
            0 => *gps = Reading::fresh(),
            UPDATE => return option(gps.update(argument, time(input))),
            UPDATE_RATE => gps.update_rate(input.words[0], time(input)),
            ADVANCE_TIME => gps.advance_time(argument),
            _ => return value(gps.get_rate()),
        }
        NOTHING
    }

    fn beyond(input: &Input) -> bool {
        let beyond = |passed| passed > LONGEST || (passed >= 1_000 && fixes(input) > END);
        input.operation == UPDATE_RATE && passed(input).is_some_and(beyond)
    }

    fn scene(random: &mut Random, input: &mut Input) {
        let numbers = &mut input.record.numbers;
        numbers[PREV_SPEED] = match random.below(8) {
            0 => sized(random, 1e6, 1e9) * side(random),
            _ => sized(random, 0.01, 1e2),
        };
        match input.operation {
            // an acceleration of about 1e9
            UPDATE if random.below(16) == 0 => {
                numbers[PREV_SPEED] = beside(random, 2.5e8, 1) * side(random);
                input.arguments[0] = 0.0;
                clock(random, input, &[250]);
            }
            UPDATE => {
                input.arguments[0] = sized(random, 0.01, 1e2);
                clock(random, input, &INTERVALS);
            }
            UPDATE_RATE => {
                clock(random, input, &RATE_INTERVALS);
                let more = [END, END - 1, END + 1, 10][random.below(4) as usize] as i32;
                let more = more * side(random) as i32;
                let last = input.record.counts[LAST_FIX_COUNT];
                input.words[0] = last.saturating_add_signed(more);
            }
            ADVANCE_TIME => {
                numbers[TIME_SINCE_FIX] = beside(random, 0.5 - input.arguments[0], 1);
            }
            _ => {}
        }
    }
}

/// A word more than each is another interval, with the same low word.
const WORD: i64 = 1 << 32;
#[rustfmt::skip]
const INTERVALS: [i64; 16] = [
    -1, 0, 1, 19, 20, 21, 100, 125, 200, 250, 375, 499, 500, 501, WORD + 200, -200,
];
#[rustfmt::skip]
const RATE_INTERVALS: [i64; 16] = [
    -1, 0, 1, 875, 999, 1_000, 1_001, 1_125, 5_000,
    LONGEST as i64 - 1, LONGEST as i64, LONGEST as i64 + 1, WORD + 1_000, WORD, i64::MIN, -5_000,
];

/// Sets the stored time and the given one so far apart as one of these; either may pass the end of
/// all 64 bits.
fn clock(random: &mut Random, input: &mut Input, intervals: &[i64]) {
    let before = stored_time(random);
    let passed = intervals[random.below(intervals.len() as u64) as usize];
    let now = before.wrapping_add_signed(passed);
    let [low, high] = split(before);
    let (flag, place) = match input.operation {
        UPDATE => (PREV_FIX, 0),
        _ => (LAST_RATE, 1),
    };
    if random.below(2) == 0 {
        input.record.counts[flag] = 1;
    }
    (input.record.counts[flag + 1], input.record.counts[flag + 2]) = (low, high);
    (input.words[place], input.words[place + 1]) = (split(now)[0], split(now)[1]);
}

/// A time of a day, one at which the original's clock is exact, an end of all 64 bits, or one about
/// which a clock of fewer bits ends.
fn stored_time(random: &mut Random) -> u64 {
    match random.below(8) {
        0 => 0,
        1 => u64::MAX,
        2 => random.below(86_400_000),
        3 => 125 * random.below(1 << 24),
        4 => random.next(),
        _ => {
            let end = [24, 31, 32, 53, 63][random.below(5) as usize];
            (1u64 << end).wrapping_add_signed(random.between(-600, 600))
        }
    }
}
