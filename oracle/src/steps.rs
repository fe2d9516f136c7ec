//! Sine, cosine and arc tangent by the steps of the definition, written again in Rust: whole-number
//! operators, bit patterns, and one exact product at the end. An angle above 4 in size, an argument
//! of the arc tangent out of its domain, a NaN and an infinity have a NaN.

/// 2, in units of 2^-24: results are raised by it, so that they have no sign.
const TWO: u64 = 1 << 25;

const QUARTER: u64 = 6_588_397;
const HALF: u64 = 13_176_795;

/// The sine of an angle of at most 4 in size.
pub fn sin(a: f32) -> f32 {
    if !within(a, 4.0) {
        return f32::NAN;
    }
    turned(negative(a), lowered(raised_sine(units(28, a))))
}

/// The cosine of an angle of at most 4 in size.
pub fn cos(a: f32) -> f32 {
    if !within(a, 4.0) {
        return f32::NAN;
    }
    lowered(raised_cosine(units(28, a)))
}

/// The angle of (x, y); each is 0 or of size 2^-24 to 32.
pub fn atan2(y: f32, x: f32) -> f32 {
    if !usable(y) || !usable(x) {
        return f32::NAN;
    }
    if y == 0.0 {
        return if x < 0.0 { core::f32::consts::PI } else { 0.0 };
    }
    let k = bearing(negative(x), units(47, y), units(47, x));
    turned(negative(y), k as f32 * f32::from_bits(0x3480_0000))
}

fn within(v: f32, limit: f32) -> bool {
    -limit <= v && v <= limit
}

fn negative(v: f32) -> bool {
    v.to_bits() >> 31 == 1
}

fn turned(turn: bool, v: f32) -> f32 {
    if turn {
        -v
    } else {
        v
    }
}

/// The size of v in units of 2^-places, cut toward zero.
fn units(places: u32, v: f32) -> u64 {
    let size = v.to_bits() & 0x7FFF_FFFF;
    let (field, fraction) = (size >> 23, u64::from(size & 0x7F_FFFF));
    let (digits, exponent) = if field == 0 {
        (fraction, 1)
    } else {
        (fraction | 0x80_0000, field)
    };
    // v is digits * 2^(exponent - 150), and at most 32
    let up = exponent + places;
    if up >= 150 {
        digits << (up - 150)
    } else if up > 126 {
        digits >> (150 - up)
    } else {
        0
    }
}

/// 1 + x^4/d1 * (1 + x^4/d2 * (..)) in units of 2^-30, with v = x^4/128 in units of 2^-30.
fn nest(v: u64, divisors: &[u64]) -> u64 {
    let mut sum = 1 << 30;
    let mut i = divisors.len();
    while i > 0 {
        i -= 1;
        sum = (1 << 30) + v * sum / (divisors[i] << 23);
    }
    sum
}

fn powers(n: u64) -> (u64, u64) {
    let z = (n * n) >> 28;
    (z, (z * (z / 2)) >> 32)
}

fn raised_sine(n: u64) -> u64 {
    let (z, v) = powers(n);
    let up = nest(v, &[120, 3024, 17160, 57120, 143640]);
    let down = z * nest(v, &[840, 7920, 32760, 93024, 212520]) / (6 << 28);
    if down <= up {
        TWO + ((n * (up - down)) >> 34)
    } else {
        TWO - ((n * (down - up)) >> 34)
    }
}

fn raised_cosine(n: u64) -> u64 {
    let (z, v) = powers(n);
    let up = nest(v, &[24, 1680, 11880, 43680, 116280, 255024]);
    let down = z * nest(v, &[360, 5040, 24024, 73440, 175560]) / (2 << 28);
    if down <= up {
        TWO + ((up - down) >> 6)
    } else {
        TWO - ((down - up) >> 6)
    }
}

fn lowered(t: u64) -> f32 {
    let unit = f32::from_bits(0x3380_0000);
    if t < TWO {
        -((TWO - t) as f32 * unit)
    } else {
        (t - TWO) as f32 * unit
    }
}

fn usable(v: f32) -> bool {
    let least = f32::from_bits(0x3380_0000);
    within(v, 32.0) && (v == 0.0 || least <= v || v <= -least)
}

/// The angle of (x, y) in units of 2^-22, of sizes in units of 2^-47; `left` says that x is below
/// zero.
fn bearing(left: bool, y: u64, x: u64) -> u64 {
    let sum = x + y;
    let places = if sum >= 1 << 44 {
        16
    } else if sum >= 1 << 36 {
        8
    } else {
        0
    };
    let (v, u) = (y >> places, x >> places);
    match (y <= x, left) {
        (true, false) => sought(false, v, u, 0, 3_294_207, slant(v, u)),
        (false, false) => sought(false, v, u, 3_294_190, 6_588_405, QUARTER - slant(u, v)),
        (false, true) => sought(true, v, u, 6_588_389, 9_882_604, QUARTER + slant(u, v)),
        (true, true) => sought(true, v, u, 9_882_587, HALF, HALF - slant(v, u)),
    }
}

/// The bracket is narrowed until an angle is close enough, or nothing lies between its ends.
fn sought(left: bool, y: u64, x: u64, low: u64, high: u64, guess: u64) -> u64 {
    let (mut lo, mut hi) = (low, high);
    while lo + 1 < hi {
        let k = if lo < guess && guess < hi {
            guess
        } else {
            (lo + hi) / 2
        };
        let sine = raised_sine(64 * k);
        let side = if left { 2 * TWO - sine } else { sine };
        let ahead = y * raised_cosine(64 * k) + x * TWO;
        let behind = x * side + y * TWO;
        let slack = 10 * (x + y);
        if ahead + slack >= behind {
            lo = k;
        }
        if behind + slack >= ahead {
            hi = k;
        }
    }
    lo
}

/// About the arc tangent of small / large, in units of 2^-22, and at least 1.
fn slant(small: u64, large: u64) -> u64 {
    let t = if large == 0 { 0 } else { (small << 26) / large };
    let w = (t * t) >> 26;
    let coefficients = [
        67_108_819, 22_367_288, 13_385_894, 9_333_859, 6_470_640, 3_752_049, 1_467_082,
    ];
    let mut sum = 272_063;
    let mut i = coefficients.len();
    while i > 0 {
        i -= 1;
        sum = coefficients[i] - ((w * sum) >> 26);
    }
    let k = ((t * sum) >> 26) / 16;
    if k == 0 {
        1
    } else {
        k
    }
}
