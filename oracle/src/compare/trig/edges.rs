//! Angles about the edges at which the evaluation of a sine or a cosine takes another way: how many
//! terms its sums need, and how many digits and which sign its answer has. Each edge is sought by the
//! steps themselves, and angles are taken on both sides of it.

use super::{beside, evenly, judge, store, Counts, COSINE, FOUR, SINE};
use crate::compare::floats::{around, near, SIGN};
use crate::compare::random::Random;
use crate::compare::run::Run;
use crate::compare::sample::{Sample, Shows};
use core::f32::consts::{FRAC_PI_2, PI};
use core::ffi::CStr;

/// What changes at an edge: the terms of the sums, or the digits of a sine or of a cosine.
#[derive(Clone, Copy)]
enum Kind {
    Terms,
    Sine,
    Cosine,
}

/// Where what changes never comes back to what it was.
const STRETCHES: [(Kind, f32, f32); 5] = [
    (Kind::Terms, 0.0, 4.0),
    (Kind::Sine, 0.0, FRAC_PI_2),
    (Kind::Sine, FRAC_PI_2, 4.0),
    (Kind::Cosine, 0.0, PI),
    (Kind::Cosine, PI, 4.0),
];

/// How many edges of each kind there are. A sine rises through the 25 powers of two from 2^-24 to 1, falls
/// through them and goes below 0 to more than a half in size; a cosine falls through them, goes down to -1
/// and leaves it. About 0 an answer may pass several with one float.
const EDGES: [usize; 3] = [3, 71, 50];
const ALL: usize = EDGES[0] + EDGES[1] + EDGES[2];

/// An edge: the bits of the first angle behind it.
#[derive(Clone, Copy)]
struct Edge {
    kind: Kind,
    first: u32,
}

/// The edges of all stretches, and how many were found.
struct Edges {
    list: [Edge; ALL],
    found: [u64; 3],
}

impl Edges {
    fn sought() -> Self {
        let nowhere = Edge {
            kind: Kind::Terms,
            first: 1,
        };
        let (mut list, mut found) = ([nowhere; ALL], [0; 3]);
        let mut count = 0;
        for (kind, from, to) in STRETCHES {
            let (mut at, end) = (from.to_bits(), to.to_bits());
            while kind.of(at) != kind.of(end) {
                at = change(kind, at, end);
                list[count] = Edge { kind, first: at };
                count += 1;
                found[kind as usize] += 1;
            }
        }
        Self { list, found }
    }

    fn any(&self, random: &mut Random) -> f32 {
        f32::from_bits(self.list[random.below(ALL as u64) as usize].first)
    }
}

/// The first angle of a stretch at which the kind is not what it is at its beginning.
fn change(kind: Kind, begin: u32, end: u32) -> u32 {
    let (mut before, mut behind) = (begin, end);
    while before + 1 < behind {
        let middle = before + (behind - before) / 2;
        if kind.of(middle) == kind.of(begin) {
            before = middle;
        } else {
            behind = middle;
        }
    }
    behind
}

impl Kind {
    fn of(self, bits: u32) -> i32 {
        let angle = f32::from_bits(bits);
        match self {
            Self::Terms => terms(angle) as i32,
            Self::Sine => signed_digits(SINE, angle),
            Self::Cosine => signed_digits(COSINE, angle),
        }
    }

    fn operations(self) -> &'static [u32] {
        match self {
            Self::Terms => &[SINE, COSINE],
            Self::Sine => &[SINE],
            Self::Cosine => &[COSINE],
        }
    }
}

/// The size of an angle, its square and its fourth power, in the units of the steps.
fn powers(angle: f32) -> (u64, u64, u64) {
    let n = (angle.abs() as f64 * (1u64 << 28) as f64) as u64;
    let z = (n * n) >> 28;
    (n, z, (z * (z / 2)) >> 32)
}

/// How far the sums of an angle go, by its size n in units of 2^-28 and its fourth power v, in those of the
/// steps: 0 if n is 0, 1 if v is (the first term alone), 2 if v is below 16384 (the first three), else 3.
pub fn terms(angle: f32) -> usize {
    let (n, _, v) = powers(angle);
    (n > 0) as usize + (v > 0) as usize + (v >= 16_384) as usize
}

/// The first two divisors of the sums that are added and subtracted, by operation.
const DIVISORS: [[[u64; 2]; 2]; 2] = [[[120, 3024], [840, 7920]], [[24, 1680], [360, 5040]]];

/// The answer of an angle above 0 in units of 2^-24, if its sums ended after so many steps, at most two.
fn ended(operation: u32, angle: f32, steps: usize) -> i64 {
    let (n, z, v) = powers(angle);
    let sum = |divisors: [u64; 2]| {
        let step = |sum: u64, divisor: &u64| (1 << 30) + v * sum / (divisor << 23);
        divisors[..steps].iter().rev().fold(1 << 30, step)
    };
    let [up, down] = DIVISORS[(operation == COSINE) as usize].map(sum);
    if operation == SINE {
        (n as i64 * (up as i64 - (z * down / (6 << 28)) as i64)) >> 34
    } else {
        (up as i64 - (z * down / (2 << 28)) as i64) >> 6
    }
}

/// An angle at which it shows that the sums have more than so many steps, as bits: the least ones behind
/// an edge have the same answer without them. Every 16th float is looked at.
fn shown(operation: u32, steps: usize) -> u32 {
    let behind = if steps == 0 { 2 } else { 3 };
    let mut bits = SMALL;
    while Kind::Terms.of(bits) < behind {
        bits = change(Kind::Terms, bits, FOUR);
    }
    let units = |angle| (judge(operation, [angle, 0.0]).answer * (1u32 << 24) as f32) as i64;
    while units(f32::from_bits(bits)) == ended(operation, f32::from_bits(bits), steps) {
        bits += 16;
    }
    bits
}

/// The operations, and the steps that the sums have before an edge of the terms.
const SHOWN: [(u32, usize); 4] = [(SINE, 0), (COSINE, 0), (SINE, 2), (COSINE, 2)];

/// How many binary digits an answer has in units of 2^-24.
fn digits(answer: f32) -> usize {
    let size = (answer.abs() * (1u32 << 24) as f32) as u32;
    (32 - size.leading_zeros()) as usize
}

fn signed_digits(operation: u32, angle: f32) -> i32 {
    let answer = judge(operation, [angle, 0.0]).answer;
    let digits = digits(answer) as i32;
    if answer < 0.0 {
        -digits
    } else {
        digits
    }
}

/// How often angles were taken.
#[derive(Default)]
struct Taken {
    /// By the kind of an edge and its side.
    sides: [[u64; 2]; 3],
    /// Random ones: evenly up to 4, of any size from 2^-30 on, about an edge.
    random: [u64; 3],
    /// By operation and `terms`.
    terms: [[u64; 4]; 2],
    /// By operation and the answer's digits.
    digits: [[u64; 26]; 2],
}

impl Taken {
    fn angle(&mut self, operation: u32, angle: f32) {
        let row = (operation == COSINE) as usize;
        self.terms[row][terms(angle)] += 1;
        self.digits[row][digits(judge(operation, [angle, 0.0]).answer)] += 1;
    }
}

/// 2^-30, a quarter of the least angle that is not cut to 0, as bits.
const SMALL: u32 = 0x3080_0000;

/// An angle of any size from 2^-30 to 4.
fn any_size(random: &mut Random) -> u32 {
    random.sign() | random.between(SMALL as i64, FOUR as i64) as u32
}

/// So many floats on each side of an edge, of both signs.
const BESIDE: i32 = 4;

/// Each edge by sine and cosine, then half as many random angles as there are random calls.
pub(super) fn compare(run: &mut Run, counts: &mut Counts) {
    let (edges, mut taken) = (Edges::sought(), Taken::default());
    let mut both = |run: &mut Run, taken: &mut Taken, angle: f32| {
        for operation in [SINE, COSINE] {
            let other = f32::from_bits(run.random.bits());
            taken.angle(operation, angle);
            beside(run, counts, operation, [angle, other]);
        }
    };
    for edge in edges.list {
        around(f32::from_bits(edge.first), BESIDE, &mut |bits| {
            let side = (bits & !SIGN >= edge.first) as usize;
            taken.sides[edge.kind as usize][side] += 1;
            both(run, &mut taken, f32::from_bits(bits));
        });
    }
    for (operation, steps) in SHOWN {
        let first = f32::from_bits(shown(operation, steps));
        around(first, BESIDE, &mut |bits| {
            both(run, &mut taken, f32::from_bits(bits));
        });
    }
    for _ in 0..run.wanted() / 2 {
        let random = &mut run.random;
        let (way, bits) = match random.below(3) {
            0 => (0, evenly(random)),
            1 => (1, any_size(random)),
            _ => {
                let edge = edges.any(random);
                (2, random.sign() | near(random, edge, 200))
            }
        };
        taken.random[way] += 1;
        both(run, &mut taken, f32::from_bits(bits));
    }
    let many = run.many();
    run.expect(c"random angles, evenly up to 4", taken.random[0], 6 * many);
    run.expect(
        c"random angles of any size from 2^-30 on",
        taken.random[1],
        6 * many,
    );
    run.expect(c"random angles about an edge", taken.random[2], 6 * many);
    report(run, &edges, &taken, 2 * BESIDE as u64);
}

/// The two angles at each edge, and those at which an early end shows.
pub(super) fn sample(to: &mut Sample) {
    let (edges, mut taken) = (Edges::sought(), Taken::default());
    for edge in edges.list {
        let sign = to.random.sign();
        for (side, bits) in [edge.first - 1, edge.first].into_iter().enumerate() {
            taken.sides[edge.kind as usize][side] += 1;
            for &operation in edge.kind.operations() {
                let angle = f32::from_bits(sign | bits);
                taken.angle(operation, angle);
                store(to, &mut Counts::default(), operation, [angle, 0.0], true);
            }
        }
    }
    for (operation, steps) in SHOWN {
        let angle = f32::from_bits(shown(operation, steps));
        taken.angle(operation, angle);
        store(to, &mut Counts::default(), operation, [angle, 0.0], true);
    }
    if to.shows == Shows::Outcomes {
        report(&mut to.run, &edges, &taken, 1);
    }
}

/// With so many angles on each side of an edge.
fn report(run: &mut Run, edges: &Edges, taken: &Taken, beside: u64) {
    let names = [
        [c"edges of the terms", c"before them", c"behind them"],
        [c"edges of a sine's digits", c"before them", c"behind them"],
        [
            c"edges of a cosine's digits",
            c"before them",
            c"behind them",
        ],
    ];
    for (kind, [found, before, behind]) in names.into_iter().enumerate() {
        let wanted = EDGES[kind] as u64;
        run.expect(found, edges.found[kind], wanted);
        run.expect(before, taken.sides[kind][0], beside * wanted);
        run.expect(behind, taken.sides[kind][1], beside * wanted);
    }
    each(run, [c"sine, by terms", c"cosine, by terms"], taken.terms);
    each(run, [c"sine, by digits", c"cosine, by digits"], taken.digits);
}

/// Expects a few of each in both rows.
fn each<const N: usize>(run: &mut Run, names: [&CStr; 2], rows: [[u64; N]; 2]) {
    let few = run.many() / 1000;
    for (name, row) in names.into_iter().zip(rows) {
        let counts = row.into_iter().enumerate();
        run.expect_each(name, counts.map(|(of, count)| (of as u32, count)), few);
    }
}
