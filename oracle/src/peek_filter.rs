//! Becomes a child module of the original `filter.rs`, and so sees what is private there.

use super::BiquadFilter;

raw! {
    /// All numbers of the low-pass: five coefficients and four samples.
    RawBiquad of BiquadFilter {
        b0: f32,
        b1: f32,
        b2: f32,
        a1: f32,
        a2: f32,
        x1: f32,
        x2: f32,
        y1: f32,
        y2: f32,
    }
}
