//! `track_yawrate`: the yaw rate's bias, learned on straights.

use super::course::{self, COURSE};
use super::record::{Field, Input, Record, BLANK};
use super::scope::*;
use super::{two, Branch, Learner, Outcome, Settled, CASE};
use crate::compare::archive::{track_yawrate, Component};
use crate::compare::component::{flag, value, Answer, NOTHING};
use crate::compare::random::Random;
use crate::compare::ranges::{at, beside, edge, evenly, place, side, size, sized};
use crate::fusion::peek::{is_heading_stable, wrap_angle, RawYawRate};
use crate::fusion::YawRateCalibrator;
use crate::stepping;
use core::f32::consts::PI;

pub const UPDATE_HEADING: u32 = 1;
pub const UPDATE: u32 = 2;

/// Where in the record what is.
const BIAS: usize = 0;
const STRAIGHT_TIME: usize = 1;
const YAW_SUM: usize = 2;
const MIN_SPEED: usize = 3;
const TOLERANCE: usize = 4;
const LEARN_TIME: usize = 5;
const ALPHA: usize = 6;
const RING: usize = 7;
const VALID: usize = 0;
const INDEX: usize = 1;
const HEADINGS: usize = 2;
pub const SAMPLE_COUNT: usize = 3;

/// A yaw rate, a speed and a step.
const STRAIGHT: [f32; 6] = [0.5, 0.0, 0.1, 0.0, 0.0, 0.0];

fn is_update(input: &Input, outcome: &Outcome) -> bool {
    input.operation == UPDATE && outcome.number == 0
}

/// Whether an update with a sound record looks at the ring.
fn looks(input: &Input) -> bool {
    let fast = input.arguments[1] >= input.record.numbers[MIN_SPEED];
    input.operation == UPDATE && fast && input.record.counts[HEADINGS] >= 10
}

/// An answered update that looked at the ring raised the count, unless the ring is unstable, and
/// learning, which answers so, sets it back to 0.
fn stable(input: &Input, outcome: &Outcome) -> bool {
    let gathered = outcome.record.counts[SAMPLE_COUNT] > 0;
    is_update(input, outcome) && looks(input) && (gathered || learns(input, outcome))
}

fn unstable(input: &Input, outcome: &Outcome) -> bool {
    is_update(input, outcome) && looks(input) && !stable(input, outcome)
}

fn learns(input: &Input, outcome: &Outcome) -> bool {
    input.operation == UPDATE && outcome.answer.is_true()
}

/// Samples and time, before they may be set back.
fn gathered(input: &Input) -> (u32, f32) {
    let time = input.record.numbers[STRAIGHT_TIME] + input.arguments[2];
    (input.record.counts[SAMPLE_COUNT] + 1, time)
}

/// Whether the ring is stable, and is not with the tolerance next below.
fn at_tolerance(input: &Input, outcome: &Outcome) -> bool {
    let mut less = input.record;
    less.numbers[TOLERANCE] = at(place(less.numbers[TOLERANCE]) - 1);
    stable(input, outcome) && !is_heading_stable(&YawRate::build(&less))
}

/// Whether the ring that an update looks at would be stable with sines and cosines of the steps.
fn stable_by_steps(input: &Input) -> bool {
    let numbers = &input.record.numbers;
    let fresh = stepping::peek::RawYawRate::of(&stepping::YawRateCalibrator::new());
    let calibrator = stepping::peek::RawYawRate {
        heading_history: core::array::from_fn(|slot| numbers[RING + slot]),
        heading_count: input.record.counts[HEADINGS],
        heading_tolerance: numbers[TOLERANCE],
        ..fresh
    };
    stepping::peek::is_heading_stable(&calibrator.build())
}

/// The place of the least tolerance with which the ring is stable.
fn least_tolerance(record: &Record) -> i64 {
    let mut record = *record;
    record.counts[HEADINGS] = record.counts[HEADINGS].max(10);
    edge(LIMIT.high, 0.0, |tolerance| {
        record.numbers[TOLERANCE] = tolerance;
        is_heading_stable(&YawRate::build(&record))
    })
}

pub struct YawRate;

impl Learner for YawRate {
    const ARCHIVE: Component = track_yawrate;
    #[rustfmt::skip]
    const NUMBERS: &'static [Number] = &{
        let mut numbers = [state(ANGLE); 27];
        (numbers[BIAS], numbers[STRAIGHT_TIME]) = (state(STORED), state(STORED));
        (numbers[YAW_SUM], numbers[MIN_SPEED]) = (state(STORED), parameter(LIMIT));
        (numbers[TOLERANCE], numbers[LEARN_TIME]) = (parameter(LIMIT), parameter(LIMIT));
        numbers[ALPHA] = parameter(SHARE);
        numbers
    };
    const COUNTS: &'static [Count] = &[
        Count::Flag,
        Count::UpTo(19),
        Count::UpTo(20),
        Count::UpTo(END),
    ];
    const RING: Option<usize> = Some(RING);
    const OPERATIONS: &'static [Operation] = &[
        making(c"new", &[LIMIT, LIMIT, LIMIT, SHARE]),
        change(c"update_heading", &[COURSE]),
        raises(overflows(change(c"update", &[YAW_RATE, SPEED, STEP]))),
        reader(c"get_bias", &[]),
        reader(c"is_valid", &[]),
    ];
    const SELDOM: u64 = 8;
    const LEARNS: &'static [Branch] = &[
        (c"learns for the first time", |input, outcome| {
            learns(input, outcome) && input.record.counts[VALID] == 0
        }),
        (c"learns by EMA", |input, outcome| {
            learns(input, outcome) && input.record.counts[VALID] != 0
        }),
        (c"a stable ring gathers", |input, outcome| {
            stable(input, outcome) && !learns(input, outcome)
        }),
        (c"an unstable ring", unstable),
        (c"the ring begins again", |input, outcome| {
            let last = input.record.counts[INDEX] == 19;
            input.operation == UPDATE_HEADING && outcome.number == 0 && last
        }),
    ];
    const EDGES: &'static [Branch] = &[
        (c"9 headings do not do", |input, outcome| {
            is_update(input, outcome) && input.record.counts[HEADINGS] == 9
        }),
        (c"10 headings do", |input, outcome| {
            stable(input, outcome) && input.record.counts[HEADINGS] == 10
        }),
        (c"11 to 19 headings, stable", |input, outcome| {
            stable(input, outcome) && (11..20).contains(&input.record.counts[HEADINGS])
        }),
        (c"stable at the tolerance", at_tolerance),
        (c"stable by the tables alone", |input, outcome| {
            stable(input, outcome) && !stable_by_steps(input)
        }),
        (c"stable by the steps alone", |input, outcome| {
            unstable(input, outcome) && stable_by_steps(input)
        }),
        (c"stable across PI", |input, outcome| {
            let [first, second, ..] = input.record.numbers[RING..] else {
                return false;
            };
            stable(input, outcome) && (first - second).abs() > 6.0
        }),
        (c"yaw sum at 1e9", |input, outcome| {
            stable(input, outcome) && outcome.record.numbers[YAW_SUM].abs() == 1e9
        }),
        (c"speed at min_speed", |input, outcome| {
            let least = input.record.numbers[MIN_SPEED];
            stable(input, outcome) && input.arguments[1] == least
        }),
        (c"learns at learn_time", |input, outcome| {
            learns(input, outcome) && gathered(input).1 == input.record.numbers[LEARN_TIME]
        }),
        (c"50 samples do not learn", |input, outcome| {
            let (samples, time) = gathered(input);
            let long = time >= input.record.numbers[LEARN_TIME];
            stable(input, outcome) && samples == 50 && long
        }),
        (c"51 samples learn", |input, outcome| {
            learns(input, outcome) && gathered(input).0 == 51
        }),
    ];
    const COURSES: &'static [Branch] = course::BRANCHES;
    const SETTLED: &'static [Settled] = &[
        Settled {
            arguments: two(f32::INFINITY, 0.0),
            gives: (3, NOTHING),
            ..CASE
        },
        // all 20 slots are looked at, whatever the count
        Settled {
            operation: 4,
            numbers: &[(RING + 19, 3.141_593)],
            gives: (4, NOTHING),
            ..CASE
        },
        Settled {
            operation: 4,
            numbers: &[(RING + 19, PI)],
            counts: &[(VALID, 2)],
            gives: (0, flag(true)),
            ..CASE
        },
        // the twenty-first heading takes the first one's place
        Settled {
            operation: UPDATE_HEADING,
            counts: &[(INDEX, 19), (HEADINGS, 20)],
            arguments: two(0.5, 0.0),
            ..CASE
        },
        // the first and the last of ten headings are tested, and the last of twenty; an eleventh of ten
        // is not
        Settled {
            operation: UPDATE,
            numbers: &[(TOLERANCE, 0.1), (RING, 1.0), (RING + 19, 0.0)],
            counts: &[(VALID, 0), (HEADINGS, 10), (SAMPLE_COUNT, 50)],
            arguments: STRAIGHT,
            gives: (0, flag(false)),
            ..CASE
        },
        Settled {
            operation: UPDATE,
            numbers: &[(RING, 0.0), (RING + 9, 1.0)],
            counts: &[(SAMPLE_COUNT, 50)],
            arguments: STRAIGHT,
            gives: (0, flag(false)),
            ..CASE
        },
        Settled {
            operation: UPDATE,
            numbers: &[(RING + 9, 0.0), (RING + 19, 1.0)],
            counts: &[(HEADINGS, 20), (SAMPLE_COUNT, 50)],
            arguments: STRAIGHT,
            gives: (0, flag(false)),
            ..CASE
        },
        Settled {
            operation: UPDATE,
            numbers: &[(RING + 10, 1.0), (RING + 19, 0.0)],
            counts: &[(HEADINGS, 10), (SAMPLE_COUNT, 50)],
            arguments: STRAIGHT,
            gives: (0, flag(true)),
            ..CASE
        },
        // headings about north, of a receiver that counts from 0 to 2π
        course::entered(6.2, RING, f32::from_bits(0xBDAA_5D40)),
        course::entered(0.05, RING + 1, 0.05),
        Settled {
            operation: UPDATE,
            counts: &[(HEADINGS, 10), (SAMPLE_COUNT, 50)],
            arguments: STRAIGHT,
            gives: (0, flag(true)),
            ..CASE
        },
        // a turn at a time: all five at once would leave 3F1585C8
        course::entered(32.0, RING + 2, f32::from_bits(0x3F15_85B0)),
        course::entered(-32.0, RING + 3, f32::from_bits(0xBF15_85B0)),
        course::entered(PI, RING + 4, PI),
        course::entered(-PI, RING + 5, -PI),
        course::entered(-0.0, RING + 6, -0.0),
        // 1 and 2 are lower than 3 and 4
        Settled {
            numbers: &[(BIAS, f32::NAN), (ALPHA, f32::NAN)],
            ..course::refused(f32::from_bits(0x4200_0001), 2)
        },
        course::refused(f32::NAN, 1),
        course::refused(f32::NEG_INFINITY, 1),
        course::refused(-32.0, 3),
    ];

    laid! {
        RawYawRate of YawRateCalibrator:
        bias straight_time yaw_sum min_speed heading_tolerance learn_time alpha heading_history;
        valid heading_idx heading_count sample_count
    }

    fn original(calibrator: &mut YawRateCalibrator, input: &Input) -> Answer {
        let [a, b, c, d, ..] = input.arguments;
        match input.operation {
            0 => {
                let fresh = RawYawRate::of(&YawRateCalibrator::new());
                *calibrator = RawYawRate {
                    min_speed: a,
                    heading_tolerance: b,
                    learn_time: c,
                    alpha: d,
                    ..fresh
                }
                .build();
            }
            UPDATE_HEADING => calibrator.update_heading(course::stored(a)),
            UPDATE => return flag(calibrator.update(a, b, c)),
            3 => return value(calibrator.get_bias()),
            _ => return flag(calibrator.is_valid()),
        }
        NOTHING
    }

    fn raised(input: &Input) -> Option<u32> {
        let count = input.record.counts[SAMPLE_COUNT];
        (count == END && looks(input) && is_heading_stable(&Self::build(&input.record)))
            .then_some(count)
    }

    fn scene(random: &mut Random, input: &mut Input) {
        let numbers = &mut input.record.numbers;
        let (middle, spread) = match random.below(3) {
            0 => (ANGLE.high, size(0.1)),
            1 => (evenly(random, ANGLE), size(0.02)),
            _ => (evenly(random, ANGLE), size(1.0)),
        };
        for heading in &mut numbers[RING..] {
            let heading_about = wrap_angle(middle + evenly(random, spread));
            *heading = ANGLE.nearest(heading_about);
        }
        numbers[MIN_SPEED] = sized(random, 0.1, 50.0);
        numbers[TOLERANCE] = spread.high * sized(random, 0.5, 4.0);
        numbers[LEARN_TIME] = sized(random, 0.5, 10.0);
        numbers[ALPHA] = evenly(random, SHARE);
        numbers[BIAS] = sized(random, 1e-4, 1.0) * side(random);
        let counts = &mut input.record.counts;
        counts[HEADINGS] = match random.below(4) {
            0 => 20,
            1 => random.between(0, 20) as u32,
            _ => random.between(9, 11) as u32,
        };
        counts[SAMPLE_COUNT] = match random.below(16) {
            0 => END,
            1..=5 => random.between(0, 400) as u32,
            _ => random.between(48, 51) as u32,
        };
        if input.operation == UPDATE_HEADING {
            input.arguments[0] = course::drawn(random);
        }
        if input.operation != UPDATE {
            return;
        }
        if random.below(8) == 0 {
            let least = least_tolerance(&input.record);
            input.record.numbers[TOLERANCE] = at(least + random.between(-1, 1)).max(0.0);
        }
        let numbers = &mut input.record.numbers;
        let [rate, speed, step, ..] = &mut input.arguments;
        *rate = sized(random, 1e-4, 1.0) * side(random);
        *speed = match random.below(4) {
            0 => beside(random, numbers[MIN_SPEED], 1),
            _ => 2.0 * numbers[MIN_SPEED],
        };
        *step = sized(random, 1e-3, 0.5);
        numbers[STRAIGHT_TIME] = match random.below(4) {
            0 => beside(random, numbers[LEARN_TIME] - *step, 1),
            _ => sized(random, 0.5, 20.0),
        };
        numbers[YAW_SUM] = sized(random, 1e-2, 50.0) * side(random);
        if random.below(16) == 0 {
            (numbers[YAW_SUM], *rate) = (beside(random, 1e9, 2).min(1e9), 1e3);
        }
    }
}
