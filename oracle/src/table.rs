//! Sines and cosines read from tables, by a second reading of the change request for them. An angle
//! above 4 in size, a NaN and an infinity have a NaN.
//!
//! The tables are not stored here: `oracle/tables.py` writes them beside this file, in units of 2^-24.

pub use crate::tables::{COSINES, SINES};

/// The sine of an angle of at most 4 in size: that of its size, turned with the sign, of a zero too.
pub fn sin(a: f32) -> f32 {
    let sine = read(&SINES, a.abs());
    if a.is_sign_negative() {
        -sine
    } else {
        sine
    }
}

/// The cosine of an angle of at most 4 in size.
pub fn cos(a: f32) -> f32 {
    read(&COSINES, a.abs())
}

/// From one entry to the next, in units of 2^-28.
const STEP: i64 = 1 << 20;

/// The entry before the angle, and what the straight line to the next one has risen since, rounded
/// down. Behind the last entry there is none: it is its own next one.
fn read(table: &[i64; 1025], size: f32) -> f32 {
    if !(0.0..=4.0).contains(&size) {
        return f32::NAN;
    }
    // the product is exact, and the cast cuts it
    let n = (size as f64 * (1 << 28) as f64) as i64;
    let (place, part) = ((n / STEP) as usize, n % STEP);
    let entry = table[place];
    let next = table.get(place + 1).unwrap_or(&entry);
    let rise = ((next - entry) * part).div_euclid(STEP);
    (entry + rise) as f32 / (1 << 24) as f32
}
