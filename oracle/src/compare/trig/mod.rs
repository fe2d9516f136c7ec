//! `track_trig`: sine, cosine and arc tangent beside the same steps in `crate::steps`, and sine and
//! cosine from the tables beside the second reading in `crate::table`.
//!
//! The refusals are judged by a reading of the scope paper on the arguments' bits.

mod edges;
mod readings;

use super::answer::{Call, Outcome};
use super::archive::track_trig;
use super::floats::{
    around, every_exponent, near, non_finite, powers_of_two, unknown, INFINITY, SIGN,
};
use super::random::Random;
use super::run::Run;
use super::sample::{filler, Row, Sample, Shows, TRIG};
use crate::{steps, table};
use core::f32::consts::PI;
use core::f64::consts::FRAC_PI_8;
pub use edges::terms;

const SINE: u32 = 0;
const COSINE: u32 = 1;
const ARC_TANGENT: u32 = 2;
const TABLE_SINE: u32 = 3;
const TABLE_COSINE: u32 = 4;
/// The first number that is no operation.
const UNKNOWN: u32 = 5;

/// The ends of an angle and of a leg of the arc tangent, as bits of their sizes.
const FOUR: u32 = 0x4080_0000;
const LEG_LOW: u32 = 0x3380_0000;
const LEG_HIGH: u32 = 0x4200_0000;

/// A case settled on paper: operation, arguments, number, answer.
type Settled = (u32, [f32; 2], u32, f32);

const SETTLED: [Settled; 13] = [
    (COSINE, [0.0, f32::NAN], 0, 1.0),
    (SINE, [4.000_000_5, 0.0], 2, 0.0),
    (COSINE, [-4.000_000_5, 0.0], 2, 0.0),
    (SINE, [f32::NAN, 0.0], 1, 0.0),
    (ARC_TANGENT, [0.0, 0.0], 0, 0.0),
    (ARC_TANGENT, [0.0, 1.0], 0, 0.0),
    (ARC_TANGENT, [0.0, -1.0], 0, PI),
    (ARC_TANGENT, [-0.0, -1.0], 0, PI),
    (ARC_TANGENT, [32.000_004, 1.0], 2, 0.0),
    (ARC_TANGENT, [1.0, 5e-8], 2, 0.0),
    (ARC_TANGENT, [64.0, f32::INFINITY], 1, 0.0),
    (UNKNOWN, [0.0, f32::NAN], 1, 0.0),
    (UNKNOWN, [0.0, 0.0], 2, 0.0),
];

/// Pairs y, x at which each coefficient of the arc tangent's guess decides: one unit more, or one
/// less, gives another answer at the first or at the second.
const GUESSED: [[f32; 2]; 2] = [[0.855_468_75, 1.0], [0.858_886_7, 1.0]];

/// How often the judge gave what.
#[derive(Default)]
struct Counts {
    /// By operation (the last one is the unknown) and number.
    outcomes: [[u64; 3]; 6],
    /// Answered angles of at least 2^-28 in size, by sign.
    turned: [u64; 2],
    /// Answered pairs by the signs of y and x (positive, zero, negative).
    pairs: [[u64; 3]; 3],
}

pub fn compare(run: &mut Run) {
    let mut counts = Counts::default();
    for &(operation, arguments, number, answer) in SETTLED.iter().chain(&readings::SETTLED) {
        let call = call(run, operation, arguments);
        call.expect(run, Outcome { number, answer }, c"the paper");
        call.expect(run, judge(operation, arguments), c"the judge");
    }
    for pair in GUESSED {
        beside(run, &mut counts, ARC_TANGENT, pair);
    }
    angles(&mut |bits| {
        let other = f32::from_bits(run.random.bits());
        for operation in [SINE, COSINE, UNKNOWN, u32::MAX] {
            beside(run, &mut counts, operation, [f32::from_bits(bits), other]);
        }
    });
    legs(&mut |y| {
        legs(&mut |x| {
            let pair = [f32::from_bits(y), f32::from_bits(x)];
            beside(run, &mut counts, ARC_TANGENT, pair);
        })
    });
    for _ in 0..run.wanted() {
        let random = &mut run.random;
        let (operation, arguments) = match random.below(16) {
            0 => (unknown(random, UNKNOWN), [random.bits(), random.bits()]),
            1 => (unknown(random, UNKNOWN), [non_finite(random); 2]),
            2..=5 => (SINE, [angle(random), random.bits()]),
            6..=9 => (COSINE, [angle(random), random.bits()]),
            _ => (ARC_TANGENT, pair(random)),
        };
        beside(run, &mut counts, operation, arguments.map(f32::from_bits));
    }
    edges::compare(run, &mut counts);
    readings::compare(run, &mut counts);
    report(run, &counts);
}

/// The settled cases, those of the guess, each outcome, and ends of the ranges with their neighbours.
pub fn sample(to: &mut Sample) {
    let mut kept = Counts::default();
    let readings = &readings::SETTLED[..READINGS];
    for &(operation, arguments, ..) in SETTLED.iter().chain(readings) {
        store(to, &mut kept, operation, arguments, true);
    }
    for pair in GUESSED {
        store(to, &mut kept, ARC_TANGENT, pair, true);
    }
    for end in [FOUR, LEG_LOW, LEG_HIGH].map(f32::from_bits) {
        around(end, 1, &mut |bits| {
            let end = f32::from_bits(bits);
            for (operation, arguments) in [
                (SINE, [end, 0.0]),
                (COSINE, [end, 0.0]),
                (ARC_TANGENT, [end, 1.0]),
                (ARC_TANGENT, [1.0, end]),
            ] {
                store(to, &mut kept, operation, arguments, true);
            }
        });
    }
    for tried in 0..20_000 {
        let random = &mut to.random;
        let (operation, bits) = match random.below(5) {
            0 => (unknown(random, UNKNOWN), [random.bits(), random.bits()]),
            1 => (unknown(random, UNKNOWN), [non_finite(random); 2]),
            2 => (SINE, [angle(random), random.bits()]),
            3 => (COSINE, [angle(random), random.bits()]),
            _ => (ARC_TANGENT, pair(random)),
        };
        let arguments = bits.map(f32::from_bits);
        // a wrong step shows at few angles
        let always = tried < SAMPLED && judge(operation, arguments).number == 0;
        store(to, &mut kept, operation, arguments, always);
    }
    if to.shows == Shows::Outcomes {
        report(&mut to.run, &kept);
    }
}

/// Both sides of each edge of the evaluation.
pub fn sample_edges(to: &mut Sample) {
    edges::sample(to);
}

/// The answers to the first random ones are stored, whatever their outcome.
const SAMPLED: u32 = 300;

/// So many of the settled readings from the tables are stored. None is random: each takes many steps.
const READINGS: usize = readings::SETTLED.len();

fn store(to: &mut Sample, kept: &mut Counts, operation: u32, arguments: [f32; 2], always: bool) {
    let outcome = judge(operation, arguments);
    let one = |counts: &mut Counts| count(counts, operation, arguments, outcome);
    if !to.keeps(kept, always, one) {
        return;
    }
    let Outcome { number, answer } = outcome;
    let before = filler::<1>(&mut to.random);
    let given = Row::of(&[operation]).floats(&arguments);
    let after = Row::new().answers([Some(answer)], before);
    to.record(TRIG, number, [&given, &Row::of(&before), &after]);
}

fn report(run: &mut Run, counts: &Counts) {
    let many = run.many();
    let names = [
        c"sine",
        c"cosine",
        c"arc tangent",
        c"sine from the table",
        c"cosine from the table",
        c"unknown operation",
    ];
    for (name, outcomes) in names.into_iter().zip(counts.outcomes) {
        let first = (name == c"unknown operation") as u32;
        let count = |number: u32| (number, outcomes[number as usize]);
        run.expect_each(name, (first..3).map(count), many / 2);
    }
    run.expect(c"angles above 0, not cut to 0", counts.turned[0], many);
    run.expect(c"angles below 0, not cut to 0", counts.turned[1], many);
    let [above, level, below] = counts.pairs;
    run.expect(c"y above 0, x above 0", above[0], many);
    run.expect(c"y above 0, x zero", above[1], many / 10);
    run.expect(c"y above 0, x below 0", above[2], many);
    run.expect(c"y zero, x above 0", level[0], many / 10);
    run.expect(c"y zero, x zero", level[1], many / 100);
    run.expect(c"y zero, x below 0", level[2], many / 10);
    run.expect(c"y below 0, x above 0", below[0], many);
    run.expect(c"y below 0, x zero", below[1], many / 10);
    run.expect(c"y below 0, x below 0", below[2], many);
}

/// One call beside the judge.
fn beside(run: &mut Run, counts: &mut Counts, operation: u32, arguments: [f32; 2]) {
    let wanted = judge(operation, arguments);
    count(counts, operation, arguments, wanted);
    call(run, operation, arguments).expect(run, wanted, c"the judge");
}

fn judge(operation: u32, [a, b]: [f32; 2]) -> Outcome {
    let number = refusal(operation, [a, b].map(f32::to_bits));
    let answer = match operation {
        _ if number != 0 => 0.0,
        SINE => steps::sin(a),
        COSINE => steps::cos(a),
        TABLE_SINE => table::sin(a),
        TABLE_COSINE => table::cos(a),
        _ => steps::atan2(a, b),
    };
    Outcome { number, answer }
}

/// The lowest number that applies, or 0. Sines and cosines do not look at the second argument.
fn refusal(operation: u32, bits: [u32; 2]) -> u32 {
    let [a, b] = bits.map(|bits| bits & !SIGN);
    let leg = |size| size == 0 || (LEG_LOW..=LEG_HIGH).contains(&size);
    let (outside, looks_at_b) = match operation {
        SINE | COSINE | TABLE_SINE | TABLE_COSINE => (a > FOUR, false),
        ARC_TANGENT => (!leg(a) || !leg(b), true),
        _ => (true, true),
    };
    if a >= INFINITY || (looks_at_b && b >= INFINITY) {
        1
    } else if outside {
        2
    } else {
        0
    }
}

fn count(counts: &mut Counts, operation: u32, [a, b]: [f32; 2], judged: Outcome) {
    counts.outcomes[operation.min(UNKNOWN) as usize][judged.number as usize] += 1;
    if judged.number != 0 {
        return;
    }
    let side = |leg: f32| (leg <= 0.0) as usize + (leg < 0.0) as usize;
    if operation == ARC_TANGENT {
        counts.pairs[side(a)][side(b)] += 1;
    } else if a.abs() >= 1.0 / (1u32 << 28) as f32 {
        counts.turned[(a < 0.0) as usize] += 1;
    }
}

fn call(run: &mut Run, operation: u32, [a, b]: [f32; 2]) -> Call<2> {
    let name = match operation {
        SINE => c"sine",
        COSINE => c"cosine",
        ARC_TANGENT => c"arc tangent",
        TABLE_SINE => c"sine from the table",
        TABLE_COSINE => c"cosine from the table",
        _ => c"unknown operation",
    };
    Call::make(run, (name, operation), [a, b], |answer| unsafe {
        track_trig(operation, a, b, answer)
    })
}

/// The angles that every run takes, as bits.
fn angles(take: &mut dyn FnMut(u32)) {
    every_exponent(take);
    powers_of_two(take);
    for eighth in 1..=11 {
        around((eighth as f64 * FRAC_PI_8) as f32, 48, take);
        around(eighth as f32 * (PI / 8.0), 48, take);
    }
    around(4.0, 512, take);
}

/// The legs that every run takes, each with each: some 670, as bits.
fn legs(take: &mut dyn FnMut(u32)) {
    around(0.0, 2, take);
    for exponent in LEG_LOW >> 23..=LEG_HIGH >> 23 {
        let power = f32::from_bits(exponent << 23);
        around(power, 3, take);
        around(power * 1.5, 1, take);
    }
    take(INFINITY);
    take(INFINITY | SIGN | 1);
}

fn angle(random: &mut Random) -> u32 {
    match random.below(10) {
        0 => non_finite(random),
        1 => random.sign() | random.between(FOUR as i64 + 1, INFINITY as i64 - 1) as u32,
        // any size up to 4
        2 => random.sign() | random.between(0, FOUR as i64) as u32,
        3..=6 => evenly(random),
        // about a multiple of an eighth of PI
        _ => {
            let multiple = (random.between(1, 10) as f64 * FRAC_PI_8) as f32;
            random.sign() | near(random, multiple, 2000)
        }
    }
}

/// An angle, evenly up to 4.
fn evenly(random: &mut Random) -> u32 {
    let whole = random.between(-(1 << 40), 1 << 40);
    ((whole as f64 / (1u64 << 38) as f64) as f32).to_bits()
}

fn pair(random: &mut Random) -> [u32; 2] {
    if random.below(4) > 0 {
        return [leg(random), leg(random)];
    }
    // two legs about a multiple of an eighth of PI
    let turn = f32::from_bits(near(random, PI / 8.0, 4)) * random.between(-8, 8) as f32;
    let size = f32::from_bits(random.between(0x3400_0000, LEG_HIGH as i64) as u32);
    [steps::sin(turn) * size, steps::cos(turn) * size].map(f32::to_bits)
}

fn leg(random: &mut Random) -> u32 {
    let size = match random.below(32) {
        0 => non_finite(random),
        1 => random.between(1, LEG_LOW as i64 - 1) as u32,
        2 => random.between(LEG_HIGH as i64 + 1, INFINITY as i64 - 1) as u32,
        3 | 4 => 0,
        5 => near(random, 32.0, 3),
        6 => LEG_LOW + random.below(4) as u32,
        // evenly up to 32
        7..=15 => (random.between(1 << 16, 1 << 40) as f32 / (1u64 << 35) as f32).to_bits(),
        _ => random.between(LEG_LOW as i64, LEG_HIGH as i64) as u32,
    };
    size ^ random.sign()
}
