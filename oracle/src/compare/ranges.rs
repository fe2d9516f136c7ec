//! Ranges of the scope paper, and numbers taken from inside and outside of them.
//!
//! A range is numeric: -0 is in "0 to ..", a NaN is in none.

use super::floats::{non_finite, SIGN};
use super::random::Random;

/// Both ends belong to it.
#[derive(Clone, Copy)]
pub struct Range {
    pub low: f32,
    pub high: f32,
}

pub const fn range(low: f32, high: f32) -> Range {
    Range { low, high }
}

/// So much in size.
pub const fn size(limit: f32) -> Range {
    range(-limit, limit)
}

impl Range {
    pub fn has(self, number: f32) -> bool {
        self.low <= number && number <= self.high
    }

    pub fn nearest(self, number: f32) -> f32 {
        number.clamp(self.low, self.high)
    }
}

/// The place of a float in the order of all floats; both zeros have place 0.
pub fn place(float: f32) -> i64 {
    let size = (float.to_bits() & !SIGN) as i64;
    if float.is_sign_negative() {
        -size
    } else {
        size
    }
}

/// The float at a place.
pub fn at(place: i64) -> f32 {
    let sign = if place < 0 { SIGN } else { 0 };
    f32::from_bits(place.unsigned_abs() as u32 | sign)
}

/// A float or one of so many neighbours on each side.
pub fn beside(random: &mut Random, float: f32, neighbours: i64) -> f32 {
    at(place(float) + random.between(-neighbours, neighbours))
}

/// Of any size between two.
pub fn sized(random: &mut Random, low: f32, high: f32) -> f32 {
    at(random.between(place(low), place(high)))
}

/// 1 or -1.
pub fn side(random: &mut Random) -> f32 {
    if random.sign() == 0 {
        1.0
    } else {
        -1.0
    }
}

/// The last place on the way from one float to another at which `holds` is still true. It has to be
/// true of the first float and false of the second.
pub fn edge(from: f32, to: f32, mut holds: impl FnMut(f32) -> bool) -> i64 {
    let (mut inside, mut outside) = (place(from), place(to));
    while (inside - outside).abs() > 1 {
        let middle = (inside + outside) / 2;
        if holds(at(middle)) {
            inside = middle;
        } else {
            outside = middle;
        }
    }
    inside
}

/// A number of a range: an end or a neighbour, a zero, a subnormal, evenly, of any size or, mostly
/// if it is to be tame, one that a car meets.
pub fn within(random: &mut Random, range: Range, tame: bool) -> f32 {
    let number = match random.below(if tame { 32 } else { 8 }) {
        0 => at(place(range.low) + random.between(0, 3)),
        1 => at(place(range.high) - random.between(0, 3)),
        2 => f32::from_bits(random.sign()),
        3 => f32::from_bits(random.sign() | random.bits() >> random.between(9, 31)),
        4 => evenly(random, range),
        5 | 6 => at(random.between(place(range.low), place(range.high))),
        // few digits, so that ties come about
        7..=15 => random.between(-256, 256) as f32 / 16.0,
        _ => f32::from_bits(random.sign() | random.between(0x3A80_0000, 0x4480_0000) as u32),
    };
    if range.has(number) {
        number
    } else if range.has(-number) {
        -number
    } else {
        evenly(random, range)
    }
}

pub fn evenly(random: &mut Random, range: Range) -> f32 {
    let share = random.bits() as f64 / u32::MAX as f64;
    (range.low as f64 + share * (range.high as f64 - range.low as f64)) as f32
}

/// A number outside a range: not finite, beside an end, or any.
pub fn outside(random: &mut Random, range: Range) -> f32 {
    let number = match random.below(4) {
        0 => at(place(range.low) - random.between(1, 3)),
        1 => at(place(range.high) + random.between(1, 3)),
        2 => f32::from_bits(random.bits()),
        _ => f32::NAN,
    };
    if range.has(number) || number.is_nan() {
        f32::from_bits(non_finite(random))
    } else {
        number
    }
}

/// The ends of a range, their neighbours on both sides, both zeros, and numbers that are not finite.
pub fn ends(random: &mut Random, range: Range) -> [f32; 11] {
    let (low, high) = (place(range.low), place(range.high));
    let nan = f32::from_bits(f32::INFINITY.to_bits() | random.sign() | 1 << random.below(23));
    [
        at(low - 1),
        at(low),
        at(low + 1),
        at(high - 1),
        at(high),
        at(high + 1),
        0.0,
        -0.0,
        f32::INFINITY,
        f32::NEG_INFINITY,
        nan,
    ]
}

/// Any bits, half of them not finite.
pub fn any_word(random: &mut Random) -> u32 {
    match random.below(2) {
        0 => non_finite(random),
        _ => random.bits(),
    }
}

/// One of so many places, if there is any.
pub fn one_of(random: &mut Random, count: usize) -> Option<usize> {
    (count > 0).then(|| random.below(count as u64) as usize)
}
