//! A second reading of the change request for courses from 0 to 2π, over the original.
//!
//! The reading decides which courses are taken, and which one the original is given: within PI the
//! course as it is, beyond that what the original's own wrap makes of it. Where reading and original do
//! not agree, the run stops.

mod branches;

pub use branches::{blurs, strays, strays_first, strays_next, taken, BRANCHES};

use super::scope::ANGLE;
use super::{aligner, two, yawrate, Settled, CASE};
use crate::compare::component::NOTHING;
use crate::compare::random::Random;
use crate::compare::ranges::{beside, evenly, range, side, size, sized, Range};
use crate::fusion::peek::wrap_angle;
use core::f32::consts::PI;

/// The largest course that is taken.
const MOST: f32 = 32.0;
pub const COURSE: Range = size(MOST);
const TURN: f32 = 2.0 * PI;

/// The operation of either learner that is given a course.
const ENTERS: u32 = yawrate::UPDATE_HEADING;
const _: () = assert!(ENTERS == aligner::UPDATE_GPS_COURSE);

/// What is stored of a course, so that the original is given this one.
pub fn stored(course: f32) -> f32 {
    let folded = wrap_angle(course);
    assert!(ANGLE.has(folded) && folded.to_bits() == turned(course).0.to_bits());
    if ANGLE.has(course) {
        assert!(folded.to_bits() == course.to_bits());
        return course;
    }
    folded
}

/// A course a turn nearer at a time, each difference rounded, until it is within PI; and how many turns
/// that took.
fn turned(mut course: f32) -> (f32, u32) {
    let mut turns = 0;
    while course.abs() > PI {
        course -= TURN.copysign(course);
        turns += 1;
    }
    (course, turns)
}

/// A course within PI as a receiver gives it that counts from 0 up to a full turn.
pub fn counted(course: f32) -> f32 {
    if course < 0.0 {
        course + TURN
    } else {
        course
    }
}

/// A settled case: a course is taken, and this is in a place of the record then.
pub const fn entered(course: f32, place: usize, stored: f32) -> Settled {
    Settled {
        operation: ENTERS,
        arguments: two(course, 0.0),
        leaves: Some((place, stored)),
        ..CASE
    }
}

/// A settled case: a course gives a number.
pub const fn refused(course: f32, number: u32) -> Settled {
    Settled {
        operation: ENTERS,
        arguments: two(course, 0.0),
        gives: (number, NOTHING),
        ..CASE
    }
}

/// From 0 to a turn; about PI, a turn and 32; about where one fold more is due, and about whole turns;
/// a zero; of any size.
pub fn drawn(random: &mut Random) -> f32 {
    let course = match random.below(16) {
        0..=3 => return evenly(random, range(0.0, TURN)),
        4..=6 => {
            let end = [PI, TURN, MOST][random.below(3) as usize];
            beside(random, end, 1)
        }
        7 | 8 => {
            let half_turns = 2 * random.between(1, 4) + 1;
            beside(random, half_turns as f32 * PI, 4)
        }
        9 => {
            let turns = random.between(2, 5);
            beside(random, turns as f32 * TURN, 4)
        }
        10 => 0.0,
        11 | 12 => sized(random, PI, MOST),
        _ => evenly(random, COURSE),
    };
    course * side(random)
}
