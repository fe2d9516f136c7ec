//! The gate value of a call of `noting.rs`, where a line of ours behind each gives it to `note`.

use core::sync::atomic::{AtomicU32, Ordering::Relaxed};

static TIMES: AtomicU32 = AtomicU32::new(0);
static BITS: AtomicU32 = AtomicU32::new(0);

pub fn note(value: f32) {
    TIMES.store(TIMES.load(Relaxed) + 1, Relaxed);
    BITS.store(value.to_bits(), Relaxed);
}

/// The one value that was noted since the last was taken.
pub fn take() -> f32 {
    assert!(TIMES.load(Relaxed) == 1);
    TIMES.store(0, Relaxed);
    f32::from_bits(BITS.load(Relaxed))
}
