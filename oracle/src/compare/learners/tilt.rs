//! `track_tilt`: the offsets learned at a stop.

use super::record::{Field, Input, Record, BLANK};
use super::scope::*;
use super::{two, Branch, Learner, Outcome, Settled, CASE};
use crate::compare::archive::{track_tilt, Component};
use crate::compare::component::{flag, Answer, NOTHING};
use crate::compare::random::Random;
use crate::compare::ranges::{beside, side, sized};
use crate::fusion::peek::RawTilt;
use crate::fusion::TiltEstimator;
use crate::math::root;

pub const UPDATE_STATIONARY: u32 = 1;
pub const RESET_STATIONARY: u32 = 2;

/// Where in the record what is.
const SUM_X: usize = 0;
const SUM_Y: usize = 1;
const STATIONARY_TIME: usize = 2;
const OFFSET_X: usize = 3;
const OFFSET_Y: usize = 4;
const LEARN_TIME: usize = 5;
const SAMPLE_COUNT: usize = 0;
const VALID: usize = 1;

/// Samples, time and whether there are offsets, of an answered update before it may learn.
fn gathered(input: &Input, outcome: &Outcome) -> Option<(u32, f32, bool)> {
    let time = input.record.numbers[STATIONARY_TIME] + input.arguments[2];
    let samples = input.record.counts[SAMPLE_COUNT] + 1;
    let answered = input.operation == UPDATE_STATIONARY && outcome.number == 0;
    answered.then_some((samples, time, input.record.counts[VALID] != 0))
}

fn learns(outcome: &Outcome) -> bool {
    outcome.answer.is_true()
}

/// Mean and offset on both axes, once a sample is added.
fn means(input: &Input) -> [f32; 2] {
    let mean = |axis: usize| {
        let sum = input.record.numbers[SUM_X + axis] + input.arguments[axis];
        sum / (input.record.counts[SAMPLE_COUNT] + 1) as f32
    };
    [mean(0), mean(1)]
}

fn moved(input: &Input) -> f32 {
    let [x, y] = means(input);
    let (x, y) = (
        x - input.record.numbers[OFFSET_X],
        y - input.record.numbers[OFFSET_Y],
    );
    root(x * x + y * y)
}

/// Whether enough was gathered for the change to decide.
fn decides(input: &Input, outcome: &Outcome) -> bool {
    let least = input.record.numbers[LEARN_TIME];
    gathered(input, outcome)
        .is_some_and(|(samples, time, valid)| samples > 50 && time >= least && valid)
}

pub struct Tilt;

impl Learner for Tilt {
    const ARCHIVE: Component = track_tilt;
    #[rustfmt::skip]
    const NUMBERS: &'static [Number] = &[
        state(STORED), state(STORED), state(STORED), state(STORED), state(STORED),
        parameter(LIMIT),
    ];
    const COUNTS: &'static [Count] = &[Count::UpTo(END), Count::Flag];
    const OPERATIONS: &'static [Operation] = &[
        making(c"new", &[LIMIT]),
        raises(overflows(change(
            c"update_stationary",
            &[ACCELERATION, ACCELERATION, STEP],
        ))),
        change(c"reset_stationary", &[]),
        reader(c"get_offsets", &[]),
    ];
    const LEARNS: &'static [Branch] = &[
        (c"learns for the first time", |input, outcome| {
            input.operation == UPDATE_STATIONARY
                && learns(outcome)
                && input.record.counts[VALID] == 0
        }),
        (c"learns again", |input, outcome| {
            decides(input, outcome) && learns(outcome)
        }),
        (c"too small a change", |input, outcome| {
            decides(input, outcome) && !learns(outcome)
        }),
        (c"too short", |input, outcome| {
            let least = input.record.numbers[LEARN_TIME];
            gathered(input, outcome).is_some_and(|(_, time, _)| time < least)
        }),
    ];
    const EDGES: &'static [Branch] = &[
        (c"learns at learn_time", |input, outcome| {
            let least = input.record.numbers[LEARN_TIME];
            learns(outcome) && gathered(input, outcome).is_some_and(|(_, time, _)| time == least)
        }),
        (c"50 samples do not learn", |input, outcome| {
            let least = input.record.numbers[LEARN_TIME];
            gathered(input, outcome)
                .is_some_and(|(samples, time, _)| samples == 50 && time >= least)
        }),
        (c"51 samples learn", |input, outcome| {
            learns(outcome) && gathered(input, outcome).is_some_and(|(samples, ..)| samples == 51)
        }),
        (c"a change at 0.05", |input, outcome| {
            decides(input, outcome) && moved(input) == 0.05
        }),
        (c"a change just above 0.05", |input, outcome| {
            decides(input, outcome) && learns(outcome) && moved(input) < 0.050_001
        }),
        (c"a sum at 1e9", |input, outcome| {
            let sum = outcome.record.numbers[SUM_Y];
            gathered(input, outcome).is_some() && sum.abs() == 1e9
        }),
        (c"a sum beyond 1e9 is set back", |input, outcome| {
            let sum = input.record.numbers[SUM_X] + input.arguments[0];
            input.operation == UPDATE_STATIONARY && learns(outcome) && sum.abs() > 1e9
        }),
    ];
    const SETTLED: &'static [Settled] = &[
        Settled {
            arguments: two(-1.0, 0.0),
            gives: (3, NOTHING),
            ..CASE
        },
        // 6 is judged on what stands stored at the end
        Settled {
            operation: UPDATE_STATIONARY,
            numbers: &[(SUM_X, 1e9)],
            counts: &[(SAMPLE_COUNT, 50)],
            arguments: two(1e6, 0.0),
            gives: (0, flag(true)),
            ..CASE
        },
        Settled {
            operation: UPDATE_STATIONARY,
            numbers: &[(SUM_X, 1e9)],
            counts: &[(SAMPLE_COUNT, 49)],
            arguments: two(1e6, 0.0),
            gives: (6, NOTHING),
            ..CASE
        },
        // 5 also where the count would be set back, and below 6
        Settled {
            operation: UPDATE_STATIONARY,
            counts: &[(SAMPLE_COUNT, END), (VALID, 0)],
            arguments: two(1e6, 0.0),
            gives: (5, NOTHING),
            ..CASE
        },
    ];

    laid! {
        RawTilt of TiltEstimator:
        accel_x_sum accel_y_sum stationary_time offset_x offset_y learn_time;
        sample_count offset_valid
    }

    fn original(tilt: &mut TiltEstimator, input: &Input) -> Answer {
        let [a, b, c, ..] = input.arguments;
        match input.operation {
            0 => *tilt = TiltEstimator::new(a),
            UPDATE_STATIONARY => return flag(tilt.update_stationary(a, b, c)),
            RESET_STATIONARY => tilt.reset_stationary(),
            _ => {
                let (x, y, valid) = tilt.get_offsets();
                return Answer {
                    values: [Some(x), Some(y)],
                    ..flag(valid)
                };
            }
        }
        NOTHING
    }

    fn raised(input: &Input) -> Option<u32> {
        (input.operation == UPDATE_STATIONARY).then_some(input.record.counts[SAMPLE_COUNT])
    }

    fn scene(random: &mut Random, input: &mut Input) {
        if input.operation != UPDATE_STATIONARY {
            return;
        }
        let [x, y, step, ..] = &mut input.arguments;
        let numbers = &mut input.record.numbers;
        *step = sized(random, 1e-3, 0.5);
        numbers[LEARN_TIME] = sized(random, 0.5, 10.0);
        numbers[STATIONARY_TIME] = match random.below(4) {
            0 => beside(random, numbers[LEARN_TIME] - *step, 1),
            _ => sized(random, 0.5, 20.0),
        };
        input.record.counts[SAMPLE_COUNT] = match random.below(16) {
            0 => END,
            1..=5 => random.between(40, 400) as u32,
            _ => random.between(48, 51) as u32,
        };
        for (axis, acceleration) in [x, y].into_iter().enumerate() {
            *acceleration = sized(random, 1e-3, 20.0) * side(random);
            numbers[SUM_X + axis] = sized(random, 1e-2, 1e3) * side(random);
        }
        if random.below(8) == 0 {
            numbers[SUM_Y] = 1e9 * side(random);
            input.arguments[1] = 1e3 * side(random);
        }
        // a change of about 0.05: exactly so where the mean is 0
        let means = if random.below(2) == 0 {
            (numbers[SUM_X], numbers[SUM_Y]) = (0.0, 0.0);
            (input.arguments[0], input.arguments[1]) = (0.0, 0.0);
            [0.0, 0.0]
        } else {
            means(input)
        };
        let [x, y] = [[0.05, 0.0], [0.03, 0.04], [0.0, 1.0]][random.below(3) as usize];
        let numbers = &mut input.record.numbers;
        let offset = means[0] + x * side(random);
        numbers[OFFSET_X] = STORED.nearest(beside(random, offset, 1));
        numbers[OFFSET_Y] = STORED.nearest(means[1] + y * side(random));
    }
}
