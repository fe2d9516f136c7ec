//! Sines and cosines from the tables: at the angle of each entry, and on each straight line between two.

use super::{angle, angles, beside, judge, Counts, Settled, TABLE_COSINE, TABLE_SINE};
use crate::compare::floats::{around, near};
use crate::compare::run::Run;
use crate::table::{COSINES, SINES};
use core::ffi::CStr;

/// So many units of 2^-24.
const fn units(count: i32) -> f32 {
    count as f32 / (1 << 24) as f32
}

/// A reading settled on paper, by exact fractions.
const fn settled(operation: u32, angle: f32, count: i32) -> Settled {
    (operation, [angle, 0.0], 0, units(count))
}

const fn refused(operation: u32, angle: f32, number: u32) -> Settled {
    (operation, [angle, 0.0], number, 0.0)
}

/// Behind the refusals, those come first that more wrong readings answer otherwise.
pub(super) const SETTLED: [Settled; 27] = [
    refused(TABLE_SINE, 4.000_000_5, 2),
    refused(TABLE_COSINE, -4.000_000_5, 2),
    refused(TABLE_SINE, f32::NAN, 1),
    refused(TABLE_COSINE, f32::NEG_INFINITY, 1),
    // the unit above is nearer
    settled(TABLE_SINE, 0.7, 10_808_165),
    settled(TABLE_COSINE, -2.3, -11_178_243),
    // middles between two entries: half a unit below 0 is rounded down, and turned behind that
    settled(TABLE_COSINE, 403.5 / 256.0, -90_187),
    settled(TABLE_SINE, 896.5 / 256.0, -5_915_830),
    settled(TABLE_SINE, -896.5 / 256.0, 5_915_830),
    // the last entry, and the float before it
    settled(TABLE_SINE, 4.0, -12_697_039),
    settled(TABLE_SINE, -4.0, 12_697_039),
    settled(TABLE_COSINE, 4.0, -10_966_320),
    settled(TABLE_COSINE, -4.0, -10_966_320),
    settled(TABLE_SINE, f32::from_bits(0x407F_FFFF), -12_697_037),
    // the second entry, and the float before the one of 1, which is 14,117,540
    settled(TABLE_SINE, 1.0 / 256.0, 65_536),
    settled(TABLE_COSINE, 1.0 / 256.0, 16_777_088),
    settled(TABLE_SINE, f32::from_bits(0x3F7F_FFFF), 14_117_539),
    // 2^-28, and the float before it, which is cut to 0; the float before 2^-24, which is cut to 15 * 2^-28
    settled(TABLE_COSINE, f32::from_bits(0x3180_0000), 16_777_215),
    settled(TABLE_COSINE, f32::from_bits(0x317F_FFFF), 16_777_216),
    settled(TABLE_SINE, f32::from_bits(0x337F_FFFF), 0),
    // zeros, and the second argument is not looked at
    (TABLE_SINE, [0.0, f32::NAN], 0, 0.0),
    (TABLE_SINE, [-0.0, f32::INFINITY], 0, -0.0),
    (TABLE_COSINE, [0.0, f32::NAN], 0, 1.0),
    settled(TABLE_COSINE, -0.0, 16_777_216),
    settled(TABLE_SINE, f32::from_bits(1), 0),
    (TABLE_SINE, [f32::from_bits(0x8000_0001), 0.0], 0, -0.0),
    settled(TABLE_COSINE, f32::from_bits(1), 16_777_216),
];

const LAST: usize = 1024;

/// The angle of an entry.
fn angle_of(entry: usize) -> f32 {
    entry as f32 / 256.0
}

/// How often answers were read where.
struct Taken {
    /// Just at an entry's angle, by table, sign and entry.
    at: [[[u64; LAST + 1]; 2]; 2],
    /// Strictly between an entry and the next, by table and entry.
    between: [[u64; LAST]; 2],
    /// Where the straight line is no whole unit, by table: below 0, so that cutting would give the unit
    /// above, and where that unit is nearer.
    below_zero: [u64; 2],
    nearer_above: [u64; 2],
}

impl Taken {
    fn reading(&mut self, operation: u32, angle: f32) {
        let outcome = judge(operation, [angle, 0.0]);
        if outcome.number != 0 {
            return;
        }
        let (table, entries) = match operation {
            TABLE_SINE => (0, &SINES),
            _ => (1, &COSINES),
        };
        let negative = angle.is_sign_negative();
        let steps = angle.abs() * 256.0;
        let place = steps as usize;
        if steps == place as f32 {
            self.at[table][negative as usize][place] += 1;
            return;
        }
        let turned = negative && operation == TABLE_SINE;
        let answer = if turned {
            -outcome.answer
        } else {
            outcome.answer
        };
        let answer = (answer * (1 << 24) as f32) as i64;
        let [from, to] = [entries[place], entries[place + 1]];
        self.between[table][place] += (from.min(to) < answer && answer < from.max(to)) as u64;
        let line = from as f64 + (to - from) as f64 * (steps as f64 - place as f64);
        let above = line - answer as f64;
        self.below_zero[table] += (line < 0.0 && above > 0.0) as u64;
        self.nearer_above[table] += (above > 0.5) as u64;
    }

    fn report(&self, run: &mut Run) {
        let many = run.many();
        let names: [[&CStr; 5]; 2] = [
            [
                c"sines at their angles",
                c"sines at their angles below 0",
                c"lines between two sines",
                c"sines rounded down below 0",
                c"sines rounded down, the unit above is nearer",
            ],
            [
                c"cosines at their angles",
                c"cosines at their angles below 0",
                c"lines between two cosines",
                c"cosines rounded down below 0",
                c"cosines rounded down, the unit above is nearer",
            ],
        ];
        let read = |counts: &[u64]| counts.iter().filter(|&&count| count > 0).count() as u64;
        for (table, [above, below, lines, below_zero, nearer]) in names.into_iter().enumerate() {
            run.expect(above, read(&self.at[table][0]), LAST as u64 + 1);
            run.expect(below, read(&self.at[table][1]), LAST as u64 + 1);
            run.expect(lines, read(&self.between[table]), LAST as u64);
            run.expect(below_zero, self.below_zero[table], many);
            run.expect(nearer, self.nearer_above[table], many);
        }
    }
}

/// Each entry and its neighbours, all angles that sines and cosines take, then half as many random ones as
/// there are random calls.
pub(super) fn compare(run: &mut Run, counts: &mut Counts) {
    let mut taken = Taken {
        at: [[[0; LAST + 1]; 2]; 2],
        between: [[0; LAST]; 2],
        below_zero: [0; 2],
        nearer_above: [0; 2],
    };
    let mut both = |run: &mut Run, bits: u32| {
        let (angle, other) = (f32::from_bits(bits), f32::from_bits(run.random.bits()));
        for operation in [TABLE_SINE, TABLE_COSINE] {
            taken.reading(operation, angle);
            beside(run, counts, operation, [angle, other]);
        }
    };
    angles(&mut |bits| both(run, bits));
    for entry in 0..=LAST {
        around(angle_of(entry), 1, &mut |bits| both(run, bits));
    }
    for _ in 0..run.wanted() / 2 {
        let random = &mut run.random;
        let bits = if random.below(2) == 0 {
            angle(random)
        } else {
            let entry = angle_of(random.between(0, LAST as i64) as usize);
            random.sign() | near(random, entry, 200)
        };
        both(run, bits);
    }
    taken.report(run);
}
