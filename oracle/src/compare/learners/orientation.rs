//! `track_orientation`: pitch, roll and cruise bias, learned from GPS.

use super::record::{Field, Input, Record, BLANK};
use super::scope::*;
use super::{two, Branch, Learner, Outcome, Settled, CASE};
use crate::compare::archive::{track_orientation, Component};
use crate::compare::component::{value, Answer, NOTHING};
use crate::compare::random::Random;
use crate::compare::ranges::{beside, evenly, side, sized};
use crate::fusion::peek::RawOrientation;
use crate::fusion::OrientationCorrector;

pub const UPDATE: u32 = 1;
pub const GET_PITCH_CONFIDENCE: u32 = 6;

/// Where in the record what is.
const PITCH: usize = 0;
const ROLL: usize = 1;
const PITCH_CONFIDENCE: usize = 2;
const CRUISE_BIAS: usize = 4;
const CRUISE_SUM: usize = 5;
const CRUISE_TIME: usize = 6;
const ALPHA: usize = 7;
const MIN_SPEED: usize = 8;
const MIN_ACCEL: usize = 9;
const MAX_CORRECTION: usize = 10;
const CRUISE_COUNT: usize = 0;
const UPDATE_COUNT: usize = 1;

/// Whether an update with a sound record looks at the accelerations.
fn looks(input: &Input) -> bool {
    let fast = input.arguments[4] >= input.record.numbers[MIN_SPEED];
    input.operation == UPDATE && fast && input.words[0] != 0
}

fn answered(input: &Input, outcome: &Outcome) -> bool {
    outcome.number == 0 && looks(input)
}

fn above(input: &Input, argument: usize) -> bool {
    input.arguments[argument].abs() > input.record.numbers[MIN_ACCEL]
}

fn pitch(input: &Input, outcome: &Outcome) -> bool {
    answered(input, outcome) && above(input, 1)
}

fn roll(input: &Input, outcome: &Outcome) -> bool {
    answered(input, outcome) && above(input, 3)
}

fn cruise(input: &Input, outcome: &Outcome) -> bool {
    answered(input, outcome) && !above(input, 1)
}

/// Learning sets the count, which was raised, back to 0.
fn cruise_learns(input: &Input, outcome: &Outcome) -> bool {
    cruise(input, outcome) && outcome.record.counts[CRUISE_COUNT] == 0
}

fn cruise_time(input: &Input) -> f32 {
    input.record.numbers[CRUISE_TIME] + input.arguments[5]
}

fn at_limit(outcome: &Outcome, place: usize) -> bool {
    outcome.record.numbers[place].abs() == outcome.record.numbers[MAX_CORRECTION]
}

pub struct Orientation;

impl Learner for Orientation {
    const ARCHIVE: Component = track_orientation;
    #[rustfmt::skip]
    const NUMBERS: &'static [Number] = &[
        state(STORED), state(STORED), state(STORED), state(STORED),
        state(STORED), state(STORED), state(STORED),
        parameter(SHARE), parameter(LIMIT), parameter(LIMIT), parameter(LIMIT),
    ];
    const COUNTS: &'static [Count] = &[Count::UpTo(END), Count::UpTo(END)];
    #[rustfmt::skip]
    const OPERATIONS: &'static [Operation] = &[
        making(c"new", &[SHARE, LIMIT, LIMIT, LIMIT]),
        raises(overflows(taking(1, change(
            c"update",
            &[ACCELERATION, ACCELERATION, ACCELERATION, ACCELERATION, SPEED, STEP],
        )))),
        change(c"reset", &[]),
        reader(c"get_cruise_bias", &[]),
        reader(c"get_pitch_correction_deg", &[]),
        reader(c"get_roll_correction_deg", &[]),
        reader(c"get_pitch_confidence", &[]),
        reader(c"get_roll_confidence", &[]),
    ];
    const STOPS: Option<usize> = Some(UPDATE_COUNT);
    const LEARNS: &'static [Branch] = &[
        (c"pitch learns", pitch),
        (c"roll learns", roll),
        (c"cruise bias gathers", |input, outcome| {
            cruise(input, outcome) && !cruise_learns(input, outcome)
        }),
        (c"cruise bias learns", cruise_learns),
    ];
    const EDGES: &'static [Branch] = &[
        (c"too slow", |input, outcome| {
            let slow = input.arguments[4] < input.record.numbers[MIN_SPEED];
            input.operation == UPDATE && outcome.number == 0 && slow
        }),
        (c"GPS not fresh", |input, outcome| {
            input.operation == UPDATE && outcome.number == 0 && input.words[0] == 0
        }),
        (c"speed at min_speed", |input, outcome| {
            let least = input.record.numbers[MIN_SPEED];
            answered(input, outcome) && input.arguments[4] == least
        }),
        (c"lon_gps at min_accel", |input, outcome| {
            let least = input.record.numbers[MIN_ACCEL];
            answered(input, outcome) && input.arguments[1].abs() == least
        }),
        (c"lat_gps at min_accel", |input, outcome| {
            let least = input.record.numbers[MIN_ACCEL];
            answered(input, outcome) && input.arguments[3].abs() == least
        }),
        (c"pitch at max_correction", |input, outcome| {
            pitch(input, outcome) && at_limit(outcome, PITCH)
        }),
        (c"roll at max_correction", |input, outcome| {
            roll(input, outcome) && at_limit(outcome, ROLL)
        }),
        (c"pitch at a max_correction of zero", |input, outcome| {
            pitch(input, outcome) && outcome.record.numbers[MAX_CORRECTION] == 0.0
        }),
        (c"cruise bias at 1.5", |input, outcome| {
            cruise_learns(input, outcome) && outcome.record.numbers[CRUISE_BIAS].abs() == 1.5
        }),
        (c"cruise bias learns at 2.0 s", |input, outcome| {
            cruise_learns(input, outcome) && cruise_time(input) == 2.0
        }),
        (c"cruise sum at 1e9", |input, outcome| {
            cruise(input, outcome) && outcome.record.numbers[CRUISE_SUM].abs() == 1e9
        }),
        (c"30 samples do not learn", |input, outcome| {
            let count = outcome.record.counts[CRUISE_COUNT];
            cruise(input, outcome) && cruise_time(input) >= 2.0 && count == 30
        }),
        (c"31 samples learn", |input, outcome| {
            cruise_learns(input, outcome) && input.record.counts[CRUISE_COUNT] == 30
        }),
        (
            c"pitch learns, update_count at its end",
            |input, outcome| pitch(input, outcome) && input.record.counts[UPDATE_COUNT] == END,
        ),
        (c"roll learns, pitch does not", |input, outcome| {
            roll(input, outcome) && !pitch(input, outcome)
        }),
        (c"confidence below 1", |input, outcome| {
            pitch(input, outcome) && outcome.record.numbers[PITCH_CONFIDENCE] < 1.0
        }),
    ];
    const SETTLED: &'static [Settled] = &[
        Settled {
            arguments: two(f32::NAN, 0.0),
            gives: (3, NOTHING),
            ..CASE
        },
        // readers store nothing, and so give no 6
        Settled {
            operation: 4,
            numbers: &[(PITCH, 1e9)],
            gives: (0, value(57_295_781_888.0)),
            ..CASE
        },
        // 5 only where the count would be raised
        Settled {
            operation: UPDATE,
            counts: &[(CRUISE_COUNT, END)],
            words: [1, 0, 0, 0],
            gives: (5, NOTHING),
            ..CASE
        },
        Settled {
            operation: UPDATE,
            arguments: two(0.0, 1.0),
            words: [1, 0, 0, 0],
            ..CASE
        },
        // pitch and roll are errors over G to its last bit, and the cruise bias is taken off first
        Settled {
            operation: UPDATE,
            numbers: &[(CRUISE_BIAS, 1.1), (ALPHA, 1.0), (MAX_CORRECTION, 1e4)],
            arguments: [10.0, -5.7, 3.0, 1.0, 0.0, 0.0],
            words: [1, 0, 0, 0],
            ..CASE
        },
        // a clamp keeps a zero of either sign
        Settled {
            operation: UPDATE,
            numbers: &[
                (PITCH, 0.0),
                (ROLL, -0.0),
                (ALPHA, 0.0),
                (MAX_CORRECTION, 0.0),
            ],
            arguments: [10.0, 1.0, -10.0, 1.0, 0.0, 0.0],
            words: [1, 0, 0, 0],
            ..CASE
        },
        // the cruise bias at its two ends
        Settled {
            operation: UPDATE,
            numbers: &[(CRUISE_SUM, 3100.0), (CRUISE_TIME, 2.0)],
            counts: &[(CRUISE_COUNT, 30)],
            words: [1, 0, 0, 0],
            ..CASE
        },
        Settled {
            operation: UPDATE,
            numbers: &[(CRUISE_SUM, -6200.0), (CRUISE_TIME, 2.0)],
            counts: &[(CRUISE_COUNT, 30)],
            words: [1, 0, 0, 0],
            ..CASE
        },
    ];

    laid! {
        RawOrientation of OrientationCorrector:
        pitch_correction roll_correction pitch_confidence roll_confidence
        cruise_bias cruise_bias_sum cruise_time alpha min_speed min_accel max_correction;
        cruise_bias_count update_count
    }

    fn original(corrector: &mut OrientationCorrector, input: &Input) -> Answer {
        let [a, b, c, d, e, f] = input.arguments;
        match input.operation {
            0 => {
                let fresh = RawOrientation::of(&OrientationCorrector::new());
                *corrector = RawOrientation {
                    alpha: a,
                    min_speed: b,
                    min_accel: c,
                    max_correction: d,
                    ..fresh
                }
                .build();
            }
            UPDATE => corrector.update(a, b, c, d, e, input.words[0] != 0, f),
            2 => corrector.reset(),
            3 => return value(corrector.get_cruise_bias()),
            4 => return value(corrector.get_pitch_correction_deg()),
            5 => return value(corrector.get_roll_correction_deg()),
            GET_PITCH_CONFIDENCE => return value(corrector.get_pitch_confidence()),
            _ => return value(corrector.get_roll_confidence()),
        }
        NOTHING
    }

    fn raised(input: &Input) -> Option<u32> {
        (looks(input) && !above(input, 1)).then_some(input.record.counts[CRUISE_COUNT])
    }

    fn scene(random: &mut Random, input: &mut Input) {
        let numbers = &mut input.record.numbers;
        numbers[ALPHA] = evenly(random, SHARE);
        numbers[MIN_SPEED] = sized(random, 0.1, 50.0);
        numbers[MIN_ACCEL] = sized(random, 0.01, 5.0);
        numbers[MAX_CORRECTION] = match random.below(8) {
            0 => 0.0 * side(random),
            _ => sized(random, 1e-3, 1.0),
        };
        for place in [PITCH, ROLL, CRUISE_BIAS] {
            numbers[place] = sized(random, 1e-3, 2.0) * side(random);
        }
        numbers[CRUISE_SUM] = match random.below(8) {
            0 => 1e9 * side(random),
            _ => sized(random, 0.1, 1e3) * side(random),
        };
        if input.operation != UPDATE {
            return;
        }
        for acceleration in &mut input.arguments[..4] {
            *acceleration = sized(random, 1e-2, 20.0) * side(random);
        }
        if numbers[CRUISE_SUM].abs() == 1e9 {
            input.arguments[0] = 1e3 * side(random);
        }
        if random.below(2) == 0 {
            input.arguments[1] = evenly(random, SHARE) * numbers[MIN_ACCEL];
        }
        input.arguments[4] = match random.below(4) {
            0 => beside(random, numbers[MIN_SPEED], 1),
            _ => 2.0 * numbers[MIN_SPEED],
        };
        input.arguments[5] = sized(random, 1e-3, 0.5);
        numbers[CRUISE_TIME] = match random.below(4) {
            0 => beside(random, 2.0 - input.arguments[5], 1),
            _ => sized(random, 1.0, 3.0),
        };
        input.words[0] = (random.below(16) > 0) as u32;
        input.record.counts[CRUISE_COUNT] = match random.below(8) {
            0 => END,
            1 | 2 => random.between(20, 200) as u32,
            _ => random.between(28, 31) as u32,
        };
    }
}
