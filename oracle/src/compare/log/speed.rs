//! How long a listing takes, as a ratio to the judge's, and how that grows with the log.

use super::inputs::{drive, Log};
use super::replay::replay;
use super::{list, room, Counts};
use crate::compare::libc::{clock_gettime, printf, Timespec};
use crate::compare::random::Random;
use core::hint::black_box;

const FULL: usize = 65_536;
const ROUNDS: usize = 50;

/// The judge tests and copies the whole filter at each call, and makes a gated one twice, so that a ratio
/// below 1 says little.
pub fn speed() {
    let random = &mut Random::new(1);
    let (mut log, mut out) = ([0; FULL], [0; room(FULL)]);
    for length in [FULL / 8, FULL / 4, FULL / 2, FULL] {
        let mut counts = Counts::default();
        drive(
            random,
            &mut Log {
                bytes: &mut log,
                length: 0,
            },
            None,
            length,
        );
        let ours = best(|| list(black_box(&log[..length]), &mut out));
        let theirs = best(|| replay(black_box(&log[..length]), &mut out, &mut counts).listed);
        unsafe {
            printf(
                c"listing of %5u bytes, to the judge's      %8.0f ns  %8.0f ns  ratio %5.2f  %5.2f ns a byte\n"
                    .as_ptr(),
                length as u32,
                ours,
                theirs,
                ours / theirs,
                ours / length as f64,
            );
        }
    }
}

fn best(mut list: impl FnMut() -> usize) -> f64 {
    let mut best = f64::INFINITY;
    for _ in 0..ROUNDS {
        let start = now();
        black_box(list());
        best = f64::min(best, now() - start);
    }
    best
}

/// Nanoseconds on a clock that goes forward.
fn now() -> f64 {
    let mut time = Timespec {
        seconds: 0,
        nanoseconds: 0,
    };
    unsafe { clock_gettime(1, &mut time) };
    time.seconds as f64 * 1e9 + time.nanoseconds as f64
}
