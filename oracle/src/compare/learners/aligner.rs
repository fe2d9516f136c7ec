//! `track_aligner`: the offset from the filter's yaw to the GPS course.

use super::course::{self, COURSE};
use super::record::{Field, Input, Record, BLANK};
use super::scope::*;
use super::{two, Branch, Learner, Outcome, Settled, CASE};
use crate::compare::archive::{track_aligner, Component};
use crate::compare::component::{flag, value, Answer, NOTHING};
use crate::compare::random::Random;
use crate::compare::ranges::{beside, evenly, sized};
use crate::fusion::peek::{angle_diff, RawHeading};
use crate::fusion::HeadingAligner;
use core::f32::consts::PI;

pub const UPDATE_GPS_COURSE: u32 = 1;
pub const UPDATE: u32 = 2;
pub const GET_ALIGNED_HEADING: u32 = 3;

/// Where in the record what is.
const OFFSET: usize = 0;
const MIN_SPEED: usize = 2;
const LAST_COURSE: usize = 3;
const TIME_SINCE_GPS: usize = 4;
const MAX_AGE: usize = 5;
const VALID: usize = 0;
const UPDATE_COUNT: usize = 1;

fn is_update(input: &Input, outcome: &Outcome) -> bool {
    input.operation == UPDATE && outcome.number == 0
}

fn learns(input: &Input, outcome: &Outcome) -> bool {
    is_update(input, outcome) && outcome.answer.is_true()
}

/// Whether it learns from so many updates.
fn learns_after(input: &Input, outcome: &Outcome, counts: core::ops::RangeInclusive<u32>) -> bool {
    let valid = input.record.counts[VALID] != 0;
    learns(input, outcome) && valid && counts.contains(&input.record.counts[UPDATE_COUNT])
}

fn slow(input: &Input) -> bool {
    input.arguments[1] < input.record.numbers[MIN_SPEED]
}

/// One float above it.
const ABOVE_PI: f32 = f32::from_bits(0x4049_0FDC);

/// A settled case: an update that learns for the first time leaves an offset.
const fn first(yaw: f32, offset: f32) -> Settled {
    Settled {
        operation: UPDATE,
        counts: &[(VALID, 0)],
        arguments: two(yaw, 10.0),
        gives: (0, flag(true)),
        leaves: Some((OFFSET, offset)),
        ..CASE
    }
}

/// The yaw with which a course leaves the offset of a record.
fn yaw_by_offset(record: &Record, course: f32) -> f32 {
    angle_diff(course::stored(course), record.numbers[OFFSET])
}

pub struct Aligner;

impl Learner for Aligner {
    const ARCHIVE: Component = track_aligner;
    #[rustfmt::skip]
    const NUMBERS: &'static [Number] = &[
        state(ANGLE), parameter(SHARE), parameter(LIMIT),
        state(ANGLE), state(STORED), parameter(LIMIT),
    ];
    const COUNTS: &'static [Count] = &[Count::Flag, Count::UpTo(END)];
    const OPERATIONS: &'static [Operation] = &[
        making(c"new", &[SHARE, LIMIT, LIMIT]),
        change(c"update_gps_course", &[COURSE]),
        change(c"update", &[ANGLE, SPEED, STEP]),
        reader(c"get_aligned_heading", &[ANGLE]),
        reader(c"is_valid", &[]),
        reader(c"get_offset", &[]),
        reader(c"get_confidence", &[]),
        change(c"reset", &[]),
    ];
    const STOPS: Option<usize> = Some(UPDATE_COUNT);
    const LEARNS: &'static [Branch] = &[
        (c"learns for the first time", |input, outcome| {
            learns(input, outcome) && input.record.counts[VALID] == 0
        }),
        (c"learns by alpha", |input, outcome| {
            learns_after(input, outcome, 0..=49)
        }),
        (c"learns by 0.02", |input, outcome| {
            learns_after(input, outcome, 50..=END)
        }),
        (c"too slow", |input, outcome| {
            is_update(input, outcome) && slow(input)
        }),
        (c"too old", |input, outcome| {
            is_update(input, outcome) && !slow(input) && !learns(input, outcome)
        }),
    ];
    const EDGES: &'static [Branch] = &[
        (c"speed at min_speed", |input, outcome| {
            learns(input, outcome) && input.arguments[1] == input.record.numbers[MIN_SPEED]
        }),
        (c"age at max_gps_age", |input, outcome| {
            let age = outcome.record.numbers[TIME_SINCE_GPS];
            learns(input, outcome) && age == input.record.numbers[MAX_AGE]
        }),
        (c"alpha, the last time", |input, outcome| {
            learns_after(input, outcome, 49..=49)
        }),
        (c"0.02, the first time", |input, outcome| {
            learns_after(input, outcome, 50..=50)
        }),
        (c"update_count at its end", |input, outcome| {
            learns_after(input, outcome, END..=END)
        }),
        (c"a difference at PI", |input, outcome| {
            let difference = input.record.numbers[LAST_COURSE] - input.arguments[0];
            learns(input, outcome) && difference.abs() == PI
        }),
        (c"a difference folded down", |input, outcome| {
            let difference = input.record.numbers[LAST_COURSE] - input.arguments[0];
            learns(input, outcome) && difference > PI
        }),
        (c"a difference folded up", |input, outcome| {
            let difference = input.record.numbers[LAST_COURSE] - input.arguments[0];
            learns(input, outcome) && difference < -PI
        }),
        (c"an innovation folded", |input, outcome| {
            let offset = angle_diff(input.record.numbers[LAST_COURSE], input.arguments[0]);
            let folded = (offset - input.record.numbers[OFFSET]).abs() > PI;
            learns_after(input, outcome, 0..=END) && folded
        }),
        (c"the offset wrapped", |input, outcome| {
            let moved = outcome.record.numbers[OFFSET] - input.record.numbers[OFFSET];
            learns_after(input, outcome, 0..=END) && moved.abs() > PI
        }),
        (c"an aligned heading wrapped", |input, outcome| {
            let heading = input.arguments[0] + input.record.numbers[OFFSET];
            let valid = input.record.counts[VALID] != 0;
            let read = input.operation == GET_ALIGNED_HEADING && outcome.number == 0;
            read && valid && heading.abs() > PI
        }),
        (c"a yaw given back", |input, outcome| {
            let valid = input.record.counts[VALID] != 0;
            input.operation == GET_ALIGNED_HEADING && outcome.number == 0 && !valid
        }),
        (c"unfolded, an offset outside PI", |input, outcome| {
            course::taken(input, outcome).is_some_and(course::strays)
        }),
        (c"unfolded, the first such course", |input, outcome| {
            course::taken(input, outcome).is_some_and(course::strays_first)
        }),
        (c"unfolded, the last one before", |input, outcome| {
            course::taken(input, outcome).is_some_and(course::strays_next)
        }),
        (c"unfolded, another offset within PI", |input, outcome| {
            let blurs = |course| course::blurs(course, yaw_by_offset(&input.record, course));
            course::taken(input, outcome).is_some_and(blurs)
        }),
    ];
    const COURSES: &'static [Branch] = course::BRANCHES;
    const SETTLED: &'static [Settled] = &[
        Settled {
            arguments: two(1.5, 0.0),
            gives: (3, NOTHING),
            ..CASE
        },
        // fresh, but old: no course was heard
        Settled {
            arguments: [0.1, 5.0, 0.5, 0.0, 0.0, 0.0],
            ..CASE
        },
        Settled {
            operation: UPDATE,
            arguments: two(0.0, 10.0),
            gives: (0, flag(false)),
            ..CASE
        },
        Settled {
            operation: UPDATE_GPS_COURSE,
            arguments: two(1.0, 0.0),
            ..CASE
        },
        Settled {
            operation: UPDATE,
            arguments: two(0.25, 10.0),
            gives: (0, flag(true)),
            ..CASE
        },
        Settled {
            operation: GET_ALIGNED_HEADING,
            arguments: two(0.25, 0.0),
            gives: (0, value(1.0)),
            ..CASE
        },
        // by the course that is stored; unfolded, the offsets would be 404DE04A, 40490FDE and BF936760
        course::entered(6.5, LAST_COURSE, f32::from_bits(0x3E5E_04A0)),
        first(-3.0, f32::from_bits(0xC044_3F6C)),
        course::entered(
            f32::from_bits(0x40C9_0FDC),
            LAST_COURSE,
            f32::from_bits(0x3500_0000),
        ),
        first(-PI, f32::from_bits(0xC049_0FD9)),
        course::entered(ABOVE_PI, LAST_COURSE, f32::from_bits(0xC049_0FDA)),
        first(-1.990_000_1, f32::from_bits(0xBF93_6761)),
        // a turn at a time: all five at once would leave 3F1585C8; the third one is above 9 PI, but is folded
        // four times
        course::entered(32.0, LAST_COURSE, f32::from_bits(0x3F15_85B0)),
        course::entered(-32.0, LAST_COURSE, f32::from_bits(0xBF15_85B0)),
        course::entered(
            f32::from_bits(0x41E2_31D7),
            LAST_COURSE,
            f32::from_bits(0x4049_0FDA),
        ),
        course::entered(PI, LAST_COURSE, PI),
        course::entered(-PI, LAST_COURSE, -PI),
        course::entered(-0.0, LAST_COURSE, -0.0),
        // a yaw is no course
        Settled {
            operation: UPDATE,
            arguments: two(ABOVE_PI, 10.0),
            gives: (2, NOTHING),
            ..CASE
        },
        Settled {
            operation: GET_ALIGNED_HEADING,
            arguments: two(ABOVE_PI, 0.0),
            gives: (2, NOTHING),
            ..CASE
        },
        // 1 and 2 are lower than 3 and 4
        Settled {
            numbers: &[(OFFSET, f32::NAN), (MIN_SPEED, f32::NAN)],
            ..course::refused(f32::from_bits(0x4200_0001), 2)
        },
        course::refused(f32::NAN, 1),
        course::refused(f32::INFINITY, 1),
        course::refused(32.0, 3),
    ];

    laid! {
        RawHeading of HeadingAligner:
        offset alpha min_speed last_gps_course time_since_gps max_gps_age;
        valid update_count
    }

    fn original(aligner: &mut HeadingAligner, input: &Input) -> Answer {
        let [a, b, c, ..] = input.arguments;
        match input.operation {
            0 => {
                let fresh = RawHeading::of(&HeadingAligner::new());
                *aligner = RawHeading {
                    alpha: a,
                    min_speed: b,
                    max_gps_age: c,
                    ..fresh
                }
                .build();
            }
            UPDATE_GPS_COURSE => aligner.update_gps_course(course::stored(a)),
            UPDATE => return flag(aligner.update(a, b, c)),
            GET_ALIGNED_HEADING => return value(aligner.get_aligned_heading(a)),
            4 => return flag(aligner.is_valid()),
            5 => return value(aligner.get_offset()),
            6 => return value(aligner.get_confidence()),
            _ => aligner.reset(),
        }
        NOTHING
    }

    fn scene(random: &mut Random, input: &mut Input) {
        let numbers = &mut input.record.numbers;
        numbers[MIN_SPEED] = sized(random, 0.1, 50.0);
        numbers[MAX_AGE] = sized(random, 0.1, 2.0);
        let [yaw, speed, step, ..] = &mut input.arguments;
        *yaw = match random.below(4) {
            0 => beside(random, ANGLE.high, 2),
            _ => evenly(random, ANGLE),
        };
        *yaw = ANGLE.nearest(*yaw);
        numbers[LAST_COURSE] = match random.below(4) {
            0 => *yaw,
            1 => angle_diff(*yaw, PI),
            _ => evenly(random, ANGLE),
        };
        numbers[OFFSET] = match random.below(2) {
            0 => ANGLE.nearest(-beside(random, ANGLE.high, 1 << 20)),
            _ => evenly(random, ANGLE),
        };
        input.record.counts[UPDATE_COUNT] = match random.below(8) {
            0 => END,
            1 | 2 => random.between(0, 100) as u32,
            _ => random.between(48, 51) as u32,
        };
        if input.operation == UPDATE_GPS_COURSE {
            *yaw = course::drawn(random);
        }
        if input.operation != UPDATE {
            return;
        }
        *speed = match random.below(4) {
            0 => beside(random, numbers[MIN_SPEED], 1),
            _ => 2.0 * numbers[MIN_SPEED],
        };
        *step = sized(random, 1e-3, 0.5);
        numbers[TIME_SINCE_GPS] = match random.below(2) {
            0 => beside(random, numbers[MAX_AGE] - *step, 1),
            _ => sized(random, 1e-3, 1.0),
        };
    }
}
