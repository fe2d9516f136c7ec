//! What the original takes from Rust's std, supplied here.

use crate::{steps, table};

pub trait Math: Sized {
    fn atan2(self, x: Self) -> Self;
    fn sqrt(self) -> Self;
    fn powi(self, exponent: i32) -> Self;
}

/// Sine and cosine by the steps.
pub trait Steps: Sized {
    fn sin(self) -> Self;
    fn cos(self) -> Self;
}

/// Sine and cosine read from the tables.
pub trait Tables: Sized {
    fn sin(self) -> Self;
    fn cos(self) -> Self;
}

/// What a copy has in scope over the steps.
pub mod over_steps {
    pub use super::{Math as _, Steps as _};
}

/// What a copy has in scope over the tables.
pub mod over_tables {
    pub use super::{Math as _, Tables as _};
}

impl Math for f32 {
    fn atan2(self, x: f32) -> f32 {
        steps::atan2(self, x)
    }

    fn sqrt(self) -> f32 {
        root(self)
    }

    /// The original squares only.
    fn powi(self, exponent: i32) -> f32 {
        assert!(exponent == 2);
        self * self
    }
}

impl Steps for f32 {
    fn sin(self) -> f32 {
        steps::sin(self)
    }

    fn cos(self) -> f32 {
        steps::cos(self)
    }
}

impl Tables for f32 {
    fn sin(self) -> f32 {
        table::sin(self)
    }

    fn cos(self) -> f32 {
        table::cos(self)
    }
}

/// One function of `transforms.rs` takes the cosine of an `f64`. It is no part of the port, and a
/// comparison that reached it would see a NaN.
impl Steps for f64 {
    fn sin(self) -> f64 {
        f64::NAN
    }

    fn cos(self) -> f64 {
        f64::NAN
    }
}

/// The hardware's root of one `f32`: a single instruction, rounded once.
#[cfg(target_arch = "x86_64")]
pub fn root(argument: f32) -> f32 {
    use core::arch::x86_64::{_mm_cvtss_f32, _mm_set_ss, _mm_sqrt_ss};
    unsafe { _mm_cvtss_f32(_mm_sqrt_ss(_mm_set_ss(argument))) }
}

/// The hardware's root of one `f32`: a single instruction, rounded once.
#[cfg(target_arch = "aarch64")]
pub fn root(argument: f32) -> f32 {
    use core::arch::aarch64::{vdup_n_f32, vget_lane_f32, vsqrt_f32};
    unsafe { vget_lane_f32::<0>(vsqrt_f32(vdup_n_f32(argument))) }
}
