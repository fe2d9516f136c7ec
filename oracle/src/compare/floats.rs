//! Floats that a comparison takes: ends and their neighbours, and numbers that are not finite.

use super::random::Random;

pub const SIGN: u32 = 0x8000_0000;
pub const INFINITY: u32 = 0x7F80_0000;

/// Every exponent, NaNs and infinities among them, of both signs; one digit set, one digit clear.
pub fn every_exponent(take: &mut dyn FnMut(u32)) {
    for top in 0..512 {
        let top = top << 23;
        take(top);
        take(top | 0x7F_FFFF);
        for bit in 0..23 {
            take(top | 1 << bit);
            take(top | (0x7F_FFFF ^ 1 << bit));
        }
    }
}

/// Powers of two, down to the least subnormal, and their neighbours.
pub fn powers_of_two(take: &mut dyn FnMut(u32)) {
    for exponent in 1..255 {
        around(f32::from_bits(exponent << 23), 8, take);
    }
    for bit in 0..23 {
        around(f32::from_bits(1 << bit), 8, take);
    }
}

/// A float and so many neighbours on each side, of both signs.
pub fn around(middle: f32, neighbours: i32, take: &mut dyn FnMut(u32)) {
    for step in -neighbours..=neighbours {
        let bits = middle.to_bits().wrapping_add_signed(step);
        take(bits);
        take(bits ^ SIGN);
    }
}

/// A float or one of so many neighbours on each side.
pub fn near(random: &mut Random, middle: f32, neighbours: i64) -> u32 {
    let step = random.between(-neighbours, neighbours) as i32;
    middle.to_bits().wrapping_add_signed(step)
}

/// An infinity or a NaN of any payload.
pub fn non_finite(random: &mut Random) -> u32 {
    let payload = match random.below(4) {
        0 => 0,
        1 => 1 << random.below(23),
        _ => random.bits() & 0x7F_FFFF,
    };
    random.sign() | INFINITY | payload
}

/// A number that is no operation: `first` or any one above it.
pub fn unknown(random: &mut Random, first: u32) -> u32 {
    match random.below(4) {
        0 => first,
        1 => random.between(first as i64, 300) as u32,
        _ => random.between(first as i64, u32::MAX as i64) as u32,
    }
}
