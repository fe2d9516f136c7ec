//! Verdicts and summaries: chosen gate values, and random ones.

use super::reading::{quarter, Summary, Verdict, BUCKETS, GATE, STOP, WORDS};
use crate::compare::component::{ACCEPTED, REJECTED};
use crate::compare::floats::{around, every_exponent, near, non_finite, SIGN};
use crate::compare::random::Random;
use crate::compare::ranges::sized;

/// Words that are no verdict: those beside them, and some whose low bits say something else.
const OTHERS: [u32; 10] = [
    0,
    3,
    4,
    5,
    0x101,
    0x102,
    0x1_0001,
    0x8000_0002,
    u32::MAX - 1,
    u32::MAX,
];

/// Each end of a bucket and its middle, with neighbours and of both signs; every exponent.
pub fn gate_values(take: &mut dyn FnMut(u32)) {
    for half in 0..=2 * BUCKETS as u32 {
        around(half as f32 / 8.0, 2, take);
    }
    every_exponent(take);
}

/// A word that is no verdict.
pub fn another(random: &mut Random) -> u32 {
    OTHERS[random.below(OTHERS.len() as u64) as usize]
}

pub fn verdict(random: &mut Random) -> Verdict {
    let word = match random.below(16) {
        0..=8 => ACCEPTED,
        9..=13 => REJECTED,
        14 => another(random),
        _ => random.bits(),
    };
    let bits = match random.below(16) {
        0 => random.bits(),
        1 => non_finite(random),
        2 => {
            let end = [GATE, f32::MAX][random.below(2) as usize];
            near(random, end, 4)
        }
        3 => near(random, 0.0, 4) ^ random.sign(),
        4 => sized(random, 0.0, GATE).to_bits() | SIGN,
        5 => sized(random, GATE, f32::MAX).to_bits(),
        6..=8 => sized(random, 0.0, GATE).to_bits(),
        9..=11 => (random.bits() as f32 / STOP as f32 * GATE).to_bits(),
        _ => {
            let end = quarter(random.below(WORDS as u64) as usize);
            near(random, end, 1)
        }
    };
    Verdict {
        word,
        value: f32::from_bits(bits),
    }
}

/// Counts of all sizes, and those about the stop.
pub fn summary(random: &mut Random) -> Summary {
    match random.below(16) {
        0 => Summary::EMPTY,
        1 => Summary([STOP; WORDS]),
        _ => Summary([0; WORDS].map(|_| count(random))),
    }
}

fn count(random: &mut Random) -> u32 {
    let any = random.next();
    match any % 8 {
        0 => 0,
        1 => STOP,
        2 => STOP - 1,
        3 => 1,
        _ => (any >> 32) as u32 >> (any >> 3) % 32,
    }
}

/// A summary for another one: some of the sums are about the stop.
pub fn beside(random: &mut Random, other: &Summary) -> Summary {
    if random.below(4) == 0 {
        return summary(random);
    }
    Summary(other.0.map(|other| match random.below(2) {
        0 => (STOP - other).wrapping_add_signed(random.between(-2, 2) as i32),
        _ => count(random),
    }))
}
