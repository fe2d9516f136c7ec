//! Inputs that are sought: beside a gate, at the edge of a model, at opposite ends.

use super::filter::*;
use super::lockout;
use super::scope::*;
use crate::compare::random::Random;
use crate::compare::ranges::{at, beside, edge, place, side, sized, Range};
use crate::ekf::peek::wrap_angle;
use core::f32::consts::PI;

/// The gate value of a gated call, and its limit.
pub fn gate(operation: u32, filter: &Filter, arguments: &[f32; 4]) -> Option<(f32, f32)> {
    let numbers = &filter.numbers;
    let square = |innovation: f32, variance: f32| innovation * innovation / variance;
    let noise = match operation {
        UPDATE_POSITION => {
            let axis = |axis: usize| {
                let variance = numbers[P + axis] + numbers[R_POS];
                square(arguments[axis] - numbers[X + axis], variance)
            };
            return Some((axis(0) + axis(1), 32.0));
        }
        UPDATE_YAW => numbers[R_YAW],
        UPDATE_YAW_SOFT => numbers[R_YAW] * arguments[1],
        _ => return None,
    };
    let innovation = wrap_angle(arguments[0] - numbers[X + 2]);
    Some((square(innovation, numbers[P + 2] + noise), 12.0))
}

/// A word of the input.
#[derive(Clone, Copy)]
enum Word {
    Number(usize),
    Argument(usize),
}

/// Makes some of the inputs of an operation lie where its outcome changes.
pub fn aim(random: &mut Random, operation: u32, filter: &mut Filter, arguments: &mut [f32; 4]) {
    match operation {
        PREDICT => match random.below(4) {
            0 | 1 => aim_at_model(random, filter, arguments),
            2 => aim_at_turn(random, filter, arguments),
            _ => aim_beyond_position(random, filter, arguments),
        },
        UPDATE_POSITION if random.below(8) == 0 => aim_at_ends(random, X, filter, arguments),
        UPDATE_POSITION if random.below(6) == 0 => aim_at_lockout(random, filter, arguments),
        UPDATE_POSITION => {
            for axis in 0..2 {
                let innovation = sized(random, 1e-3, 1e5) * side(random);
                arguments[axis] = POSITION.nearest(filter.numbers[X + axis] + innovation);
            }
            aim_at_gate(random, operation, filter, arguments);
        }
        UPDATE_YAW | UPDATE_YAW_SOFT => {
            filter.numbers[P + 2] = sized(random, 1e-6, 1.0);
            filter.numbers[R_YAW] = sized(random, 1e-6, 1.0);
            if operation == UPDATE_YAW_SOFT {
                arguments[1] = sized(random, 0.001, 10.0);
            }
            aim_at_gate(random, operation, filter, arguments);
        }
        UPDATE_VELOCITY => aim_at_ends(random, X + 3, filter, arguments),
        UPDATE_BIAS => aim_at_ends(random, X + 5, filter, arguments),
        UPDATE_SPEED if random.below(2) == 0 => arguments[0] = beside(random, 0.3, 3),
        // rounding makes about one variance of a hundred such ones negative
        UPDATE_SPEED => {
            for axis in 3..5 {
                filter.numbers[X + axis] = sized(random, 1.0, 1e4) * side(random);
                filter.numbers[P + axis] = sized(random, 1.0, 1e9);
            }
        }
        _ => {}
    }
}

/// A word, and two values of it between which the gate should lie: accepted first.
fn way(random: &mut Random, operation: u32, filter: &Filter) -> (Word, f32, f32) {
    let down = |place: usize| {
        let Range { low, high } = NUMBERS[place];
        (Word::Number(place), high, low)
    };
    if operation == UPDATE_POSITION {
        let axis = random.below(2) as usize;
        let end = POSITION.high * side(random);
        return match random.below(4) {
            0 => down(P + axis),
            1 => down(R_POS),
            _ => (Word::Argument(axis), filter.numbers[X + axis], end),
        };
    }
    let yaw = filter.numbers[X + 2];
    match random.below(4) {
        0 => down(P + 2),
        1 if operation == UPDATE_YAW => down(R_YAW),
        1 => (Word::Argument(1), FACTOR.high, FACTOR.low),
        _ => (Word::Argument(0), yaw, yaw + PI * side(random)),
    }
}

/// Looks for the last value of some word that is accepted, and takes a neighbour of it.
fn aim_at_gate(random: &mut Random, operation: u32, filter: &mut Filter, arguments: &mut [f32; 4]) {
    let (word, from, to) = way(random, operation, filter);
    let (mut tried, mut given) = (*filter, *arguments);
    let mut accepts = |value: f32| {
        match word {
            Word::Number(number) => tried.numbers[number] = value,
            Word::Argument(argument) => given[argument] = value,
        }
        gate(operation, &tried, &given).is_some_and(|(value, limit)| value <= limit)
    };
    if !accepts(from) || accepts(to) {
        return;
    }
    let found = at(edge(from, to, accepts) + random.between(-4, 4));
    match word {
        Word::Number(number) => filter.numbers[number] = found,
        Word::Argument(argument) => arguments[argument] = found,
    }
}

/// A `min_speed` about the speed, or a turn rate about 1e-4 in size, or both.
fn aim_at_model(random: &mut Random, filter: &mut Filter, [_, _, wz, _]: &mut [f32; 4]) {
    let choice = random.below(4);
    if choice > 0 {
        let speed = filter.build().speed();
        filter.numbers[MIN_SPEED] = SPEED.nearest(beside(random, speed, 1));
    }
    if choice < 2 {
        *wz = beside(random, 1e-4, 1) * side(random);
    }
}

/// A turn of any size, often of just 0.5 or of 0, from a heading of any size, often of 0.
fn aim_at_turn(random: &mut Random, filter: &mut Filter, [_, _, wz, dt]: &mut [f32; 4]) {
    let turn = match random.below(8) {
        0 => 0.0,
        1 | 2 => beside(random, TURN.high, 2),
        _ => sized(random, 1e-9, TURN.high),
    };
    let rate = sized(random, (turn / TIME.high).max(1e-4), BIAS.high);
    (*wz, *dt) = (rate * side(random), TIME.nearest(turn / rate));
    filter.numbers[X + 2] = match random.below(4) {
        0 => f32::from_bits(random.sign()),
        _ => sized(random, 1e-9, PI) * side(random),
    };
    let_turn(filter);
}

/// A turn about the ends of the position, so wide that its way may leave them or not.
fn aim_beyond_position(random: &mut Random, filter: &mut Filter, [_, _, wz, dt]: &mut [f32; 4]) {
    *dt = sized(random, 0.01, TIME.high);
    *wz = sized(random, 0.01, TURN.high) / *dt * side(random);
    for axis in 0..2 {
        let speed = sized(random, 100.0, SPEED.high / 2.0);
        filter.numbers[X + 3 + axis] = speed * side(random);
        let way = sized(random, 1.0, speed * *dt);
        filter.numbers[X + axis] = (POSITION.high - way) * side(random);
    }
    let_turn(filter);
}

/// A `min_speed` below the speed, if that is not 0.
fn let_turn(filter: &mut Filter) {
    filter.numbers[MIN_SPEED] = SPEED.nearest(filter.build().speed() / 2.0);
}

/// Numbers at one end and arguments at the other, so that their difference is rounded, and variances
/// that hardly weigh the numbers.
fn aim_at_ends(random: &mut Random, first: usize, filter: &mut Filter, arguments: &mut [f32; 4]) {
    for axis in 0..2 {
        let limit = NUMBERS[first].high * side(random);
        let mut end = || at(place(limit) - place(limit).signum() * random.between(0, 2));
        filter.numbers[first + axis] = end();
        arguments[axis] = -end();
        filter.numbers[first + P + axis] = sized(random, 1e6, 1e9);
    }
}

/// A fix that the gate mostly rejects, often as the eighth, with variances below, about and above those that
/// it would leave.
fn aim_at_lockout(random: &mut Random, filter: &mut Filter, arguments: &mut [f32; 4]) {
    if random.below(2) == 0 {
        filter.counts[RUN] = lockout::LAST;
    }
    filter.numbers[R_POS] = sized(random, 1e-6, 1e3);
    for axis in 0..2 {
        filter.numbers[P + axis] = match random.below(4) {
            0 => lockout::LEAST,
            1 => beside(random, lockout::LEAST, 2),
            2 => sized(random, 1e-3, lockout::LEAST),
            _ => sized(random, lockout::LEAST, 1e4),
        };
        let innovation = sized(random, 100.0, 1e6) * side(random);
        arguments[axis] = POSITION.nearest(filter.numbers[X + axis] + innovation);
    }
}

/// Makes the average of the NIS lie about 2, the discrepancy about 5 and the sigma about its floor.
pub fn aim_at_sigma(random: &mut Random, filter: &mut Filter) {
    let count = random.between(1, 1000);
    filter.counts[NIS_COUNT] = count as u32;
    filter.numbers[NIS_SUM] = beside(random, 2.0 * count as f32, 2);
    filter.counts[FLAGS[0]] = 1;
    for (axis, leg) in [(0, 3.0), (1, 4.0)] {
        filter.numbers[X + axis] = random.between(-16, 16) as f32;
        let fix = filter.numbers[X + axis] + leg;
        filter.numbers[LAST_FIX + axis] = beside(random, fix, 1);
        filter.numbers[P + axis] = beside(random, 3.125, 2);
    }
}
