//! What becomes of a course, from both sides of each threshold, and what the original makes of it where
//! it is not folded.

use super::*;
use crate::compare::floats::SIGN;
use crate::compare::learners::record::Input;
use crate::compare::learners::{Branch, Outcome};
use crate::compare::ranges::{at, place};
use crate::fusion::HeadingAligner;

/// The course of a call that gave this number.
fn given(input: &Input, outcome: &Outcome, number: u32) -> Option<f32> {
    (input.operation == ENTERS && outcome.number == number).then_some(input.arguments[0])
}

pub fn taken(input: &Input, outcome: &Outcome) -> Option<f32> {
    given(input, outcome, 0)
}

/// For its size.
fn refused(input: &Input, outcome: &Outcome) -> Option<f32> {
    given(input, outcome, 2)
}

fn turns(course: f32) -> u32 {
    turned(course).1
}

/// The course so many floats farther from 0.
fn farther(course: f32, floats: i64) -> f32 {
    at(place(course.abs()) + floats).copysign(course)
}

fn is_last(course: f32) -> bool {
    turns(course) > 0 && turns(farther(course, 1)) > turns(course)
}

fn is_first(course: f32) -> bool {
    turns(course) > 1 && turns(farther(course, -1)) < turns(course)
}

/// All turns at once, rounded once.
fn at_once(course: f32) -> f32 {
    let turns = turns(course) as f64 * TURN as f64;
    (course as f64 - turns.copysign(course as f64)) as f32
}

/// A branch for each line: its name, what the call does with the course, and which one that is.
macro_rules! courses {
    ($course:ident: $($name:literal $does:ident if $such:expr;)*) => {
        &[$(($name, |input, outcome| $does(input, outcome).is_some_and(|$course| $such))),*]
    };
}

pub const BRANCHES: &[Branch] = courses! { course:
    c"a course kept" taken if turns(course) == 0;
    c"a course kept at PI" taken if course == PI;
    c"a course kept at -PI" taken if course == -PI;
    c"a course kept at -0" taken if course.to_bits() == SIGN;
    c"a course folded beside PI" taken if course == farther(PI, 1);
    c"a course folded beside -PI" taken if course == farther(-PI, 1);
    c"a course folded down once" taken if turns(course) == 1 && course > 0.0;
    c"a course folded up once" taken if turns(course) == 1 && course < 0.0;
    c"a course folded down several times" taken if turns(course) > 1 && course > 0.0;
    c"a course folded up several times" taken if turns(course) > 1 && course < 0.0;
    c"the last course with so many folds" taken if is_last(course);
    c"the first course with so many folds" taken if is_first(course);
    c"a course of whole turns" taken if turns(course) > 0 && stored(course).abs() < 1e-5;
    c"a course that all turns at once leave otherwise" taken if at_once(course) != stored(course);
    c"a course taken at 32" taken if course == MOST;
    c"a course taken at -32" taken if course == -MOST;
    c"a course refused beside 32" refused if course == farther(MOST, 1);
    c"a course refused beside -32" refused if course == farther(-MOST, 1);
};

/// The offset that a fresh original learns from a course as it is.
fn learned(course: f32, yaw: f32) -> f32 {
    let mut aligner = HeadingAligner::new();
    aligner.update_gps_course(course);
    assert!(aligner.update(yaw, 10.0, 0.0));
    aligner.get_offset()
}

/// Whether that offset is outside PI with some yaw: if so, it is with the one on the other side.
pub fn strays(course: f32) -> bool {
    !ANGLE.has(learned(course, -PI.copysign(course)))
}

/// The course nearest to 0 of these.
pub fn strays_first(course: f32) -> bool {
    strays(course) && !strays(farther(course, -1))
}

/// The one before it.
pub fn strays_next(course: f32) -> bool {
    !strays(course) && strays(farther(course, 1))
}

/// Whether that offset is within PI, but another one than from what is stored.
pub fn blurs(course: f32, yaw: f32) -> bool {
    let (theirs, ours) = (learned(course, yaw), learned(stored(course), yaw));
    ANGLE.has(theirs) && theirs.to_bits() != ours.to_bits()
}
