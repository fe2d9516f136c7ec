//! `track_float`: the wrap and the root.
//!
//! The wrap is judged by both private `wrap_angle`s of the original, the root by the hardware's,
//! and the refusals by a reading of the scope paper on the argument's bits.

use super::answer::{Call, Outcome};
use super::archive::track_float;
use super::floats::{
    around, every_exponent, near, non_finite, powers_of_two, unknown, INFINITY, SIGN,
};
use super::random::Random;
use super::run::Run;
use super::sample::{filler, Row, Sample, Shows, FLOAT};
use crate::{ekf, fusion, math};
use core::f32::consts::PI;
use core::f64::consts::{FRAC_PI_2, PI as EXACT_PI};

const WRAP: u32 = 0;
const ROOT: u32 = 1;
/// The first number that is no operation.
const UNKNOWN: u32 = 2;

const SIXTY_FOUR: u32 = 0x4280_0000;

/// Cases settled on paper: operation, argument, number, answer.
const SETTLED: [(u32, f32, u32, f32); 9] = [
    (WRAP, PI, 0, PI),
    (WRAP, -PI, 0, -PI),
    (WRAP, -0.0, 0, -0.0),
    (WRAP, 64.5, 2, 0.0),
    (WRAP, f32::NEG_INFINITY, 1, 0.0),
    (ROOT, -0.0, 0, -0.0),
    (ROOT, 2.25, 0, 1.5),
    (ROOT, -2.25, 2, 0.0),
    (UNKNOWN, f32::INFINITY, 1, 0.0),
];

/// How often the judge gave what.
#[derive(Default)]
struct Counts {
    /// By operation (the last one is the unknown) and number.
    outcomes: [[u64; 3]; 3],
    folded_down: u64,
    folded_up: u64,
    wrapped_zero: u64,
    root_of_zero: u64,
    root_of_subnormal: u64,
    root_exact: u64,
}

pub fn compare(run: &mut Run) {
    let mut counts = Counts::default();
    for (operation, argument, number, answer) in SETTLED {
        let wanted = Outcome { number, answer };
        call(run, operation, argument).expect(run, wanted, c"the paper");
    }
    chosen(&mut |bits| {
        for operation in [WRAP, ROOT, UNKNOWN, u32::MAX] {
            beside(run, &mut counts, operation, bits);
        }
    });
    for _ in 0..run.wanted() {
        let (operation, bits) = match run.random.below(20) {
            0 => (
                unknown(&mut run.random, UNKNOWN),
                non_finite(&mut run.random),
            ),
            1 => (unknown(&mut run.random, UNKNOWN), run.random.bits()),
            2..=10 => (WRAP, for_wrap(&mut run.random)),
            _ => (ROOT, for_root(&mut run.random)),
        };
        beside(run, &mut counts, operation, bits);
    }
    report(run, &counts);
}

/// The settled cases, each outcome, and ends of the ranges with their neighbours.
pub fn sample(to: &mut Sample) {
    let mut kept = Counts::default();
    for (operation, argument, ..) in SETTLED {
        store(to, &mut kept, operation, argument, true);
    }
    for end in [PI, 64.0] {
        around(end, 1, &mut |bits| {
            store(to, &mut kept, WRAP, f32::from_bits(bits), true)
        });
    }
    for tried in 0..20_000 {
        let random = &mut to.random;
        let (operation, bits) = match random.below(4) {
            0 => (unknown(random, UNKNOWN), random.bits()),
            1 => (unknown(random, UNKNOWN), non_finite(random)),
            2 => (WRAP, for_wrap(random)),
            _ => (ROOT, for_root(random)),
        };
        let always = tried < SAMPLED && operation < UNKNOWN;
        store(to, &mut kept, operation, f32::from_bits(bits), always);
    }
    if to.shows == Shows::Outcomes {
        report(&mut to.run, &kept);
    }
}

/// The first random ones are stored whatever their outcome.
const SAMPLED: u32 = 100;

fn store(to: &mut Sample, kept: &mut Counts, operation: u32, argument: f32, always: bool) {
    let outcome = judge(operation, argument);
    let one = |counts: &mut Counts| count(counts, operation, argument, outcome);
    if !to.keeps(kept, always, one) {
        return;
    }
    let Outcome { number, answer } = outcome;
    let before = filler::<1>(&mut to.random);
    let given = Row::of(&[operation]).floats(&[argument]);
    let after = Row::new().answers([Some(answer)], before);
    to.record(FLOAT, number, [&given, &Row::of(&before), &after]);
}

fn report(run: &mut Run, counts: &Counts) {
    let [wrap, root, unknown] = counts.outcomes;
    let many = run.many();
    run.expect(c"wrap: answered", wrap[0], many);
    run.expect(
        c"wrap: answered after folding down",
        counts.folded_down,
        many,
    );
    run.expect(c"wrap: answered after folding up", counts.folded_up, many);
    run.expect(
        c"wrap: answered a zero of either sign",
        counts.wrapped_zero,
        2,
    );
    run.expect(c"wrap: refused with 1", wrap[1], many);
    run.expect(c"wrap: refused with 2", wrap[2], many);
    run.expect(c"root: answered", root[0], many);
    run.expect(
        c"root: answered for a subnormal",
        counts.root_of_subnormal,
        many,
    );
    run.expect(c"root: answered exactly", counts.root_exact, many);
    run.expect(
        c"root: answered for a zero of either sign",
        counts.root_of_zero,
        2,
    );
    run.expect(c"root: refused with 1", root[1], many);
    run.expect(c"root: refused with 2", root[2], many);
    run.expect(c"unknown operation: refused with 1", unknown[1], many);
    run.expect(c"unknown operation: refused with 2", unknown[2], many);
}

/// One call beside the judge.
fn beside(run: &mut Run, counts: &mut Counts, operation: u32, bits: u32) {
    let argument = f32::from_bits(bits);
    let wanted = judge(operation, argument);
    count(counts, operation, argument, wanted);
    let call = call(run, operation, argument);
    call.expect(run, wanted, c"the judge");
    if operation == WRAP && wanted.number == 0 {
        let answer = fusion::peek::wrap_angle(argument);
        call.expect(run, Outcome { number: 0, answer }, c"fusion.rs");
    }
}

/// The judge's outcome. The original's wrap is only called where it ends.
fn judge(operation: u32, argument: f32) -> Outcome {
    let number = refusal(operation, argument.to_bits());
    let answer = match operation {
        WRAP if number == 0 => ekf::peek::wrap_angle(argument),
        ROOT if number == 0 => math::root(argument),
        _ => 0.0,
    };
    Outcome { number, answer }
}

/// The lowest number that applies, or 0.
fn refusal(operation: u32, bits: u32) -> u32 {
    let size = bits & !SIGN;
    let outside = match operation {
        WRAP => size > SIXTY_FOUR,
        ROOT => bits > SIGN,
        _ => true,
    };
    if size >= INFINITY {
        1
    } else if outside {
        2
    } else {
        0
    }
}

fn count(counts: &mut Counts, operation: u32, argument: f32, judged: Outcome) {
    counts.outcomes[operation.min(UNKNOWN) as usize][judged.number as usize] += 1;
    if judged.number != 0 {
        return;
    }
    if operation == WRAP {
        counts.folded_down += (argument > PI) as u64;
        counts.folded_up += (argument < -PI) as u64;
        counts.wrapped_zero += (argument == 0.0) as u64;
    } else {
        let square = judged.answer as f64 * judged.answer as f64;
        counts.root_of_zero += (argument == 0.0) as u64;
        counts.root_of_subnormal += argument.is_subnormal() as u64;
        counts.root_exact += (square == argument as f64) as u64;
    }
}

fn call(run: &mut Run, operation: u32, argument: f32) -> Call<1> {
    let name = match operation {
        WRAP => c"wrap",
        ROOT => c"root",
        _ => c"unknown operation",
    };
    Call::make(run, (name, operation), [argument], |answer| unsafe {
        track_float(operation, argument, answer)
    })
}

/// The arguments that every run takes, as bits.
fn chosen(take: &mut dyn FnMut(u32)) {
    every_exponent(take);
    // multiples of half of PI, exact and as the f32 PI goes, up to beyond 64
    for half in 1..=42 {
        around((half as f64 * FRAC_PI_2) as f32, 48, take);
        around(half as f32 * (PI / 2.0), 48, take);
    }
    powers_of_two(take);
    around(64.0, 512, take);
    around(64.5, 8, take);
    // whole squares
    for whole in 1..=4096 {
        around((whole * whole) as f32, 2, take);
    }
}

fn for_wrap(random: &mut Random) -> u32 {
    match random.below(10) {
        0 => non_finite(random),
        1 => random.bits(),
        // beyond 64
        2 => random.sign() | random.between(SIXTY_FOUR as i64 + 1, INFINITY as i64 - 1) as u32,
        // any size up to 64
        3 => random.sign() | random.between(0, SIXTY_FOUR as i64) as u32,
        // evenly up to 64
        4..=6 => {
            ((random.between(-(1 << 40), 1 << 40) as f64 / (1u64 << 34) as f64) as f32).to_bits()
        }
        // about a multiple of PI
        _ => {
            let multiple = (random.between(1, 20) as f64 * EXACT_PI) as f32;
            random.sign() | near(random, multiple, 2000)
        }
    }
}

fn for_root(random: &mut Random) -> u32 {
    match random.below(10) {
        0 => non_finite(random),
        1 => random.bits(),
        // below zero
        2 => random.between(SIGN as i64 + 1, (SIGN | INFINITY) as i64 - 1) as u32,
        // subnormal
        3 => random.between(1, 0x7F_FFFF) as u32,
        4 | 5 => random.between(1, INFINITY as i64 - 1) as u32,
        // the square of a float with few digits: the root is exact, or just beside it
        6 | 7 => {
            let root = random.between(1, 4095) as f64;
            let square = scaled(random, root * root);
            let neighbours = random.between(0, 1);
            near(random, square, neighbours)
        }
        // the square of a middle between two floats: the root is as near to a tie as can be
        _ => {
            let root = random.between(1 << 23, (1 << 24) - 1) as f64 + 0.5;
            let square = scaled(random, root * root);
            near(random, square, 1)
        }
    }
}

/// The value times an even power of two, so that any f32 exponent comes about.
fn scaled(random: &mut Random, value: f64) -> f32 {
    let exponent = (value.to_bits() >> 52) as i64 - 1023;
    let even = (random.between(-140, 125) - exponent) & !1;
    (value * f64::from_bits(((even + 1023) as u64) << 52)) as f32
}
