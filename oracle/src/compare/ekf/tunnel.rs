//! After how many fixes a car is found again that left a tunnel some metres from where its filter has it:
//! the archive's filter and the original's, each from the same words.

use super::filter::*;
use super::scope::*;
use super::turn::FIRST;
use crate::compare::archive::track_ekf;
use crate::compare::component::ACCEPTED;
use crate::compare::libc::{fflush, printf};
use crate::ekf::{Ekf, UpdateResult};
use core::ffi::CStr;

/// So many fixes are given at most.
const FIXES: u32 = 2_000_000;
/// Two runs of rejections: a variance that is the same after each of so many fixes will not move.
const STILL: u32 = 16;

const OFFSETS: [f32; 6] = [40.0, 61.0, 61.9, 61.96, 62.0, 100.0];

/// What happens between two fixes: so many predictions of so many seconds, then a lock or none.
struct Between {
    name: &'static CStr,
    predictions: u32,
    dt: f32,
    locks: bool,
}

const fn between(name: &'static CStr, predictions: u32, dt: f32) -> Between {
    Between {
        name,
        predictions,
        dt,
        locks: false,
    }
}

const BETWEEN: [Between; 5] = [
    between(c"no prediction", 0, 0.0),
    between(c"one of 0.5 s", 1, 0.5),
    between(c"five of 0.5 s", 5, 0.5),
    between(c"ten of 0.1 s", 10, 0.1),
    between(c"twenty of 0.005 s", 20, 0.005),
];

const LOCKED: Between = Between {
    locks: true,
    ..between(c"lock_position", 0, 0.0)
};

/// One filter of the two.
trait Side {
    /// The gate value if the fix is accepted.
    fn fix(&mut self, x: f32) -> Option<f32>;
    fn predict(&mut self, dt: f32);
    fn lock(&mut self);
    fn variance(&self) -> f32;
}

/// Its gate value is in no answer.
impl Side for Ekf {
    fn fix(&mut self, x: f32) -> Option<f32> {
        (self.update_position(x, 0.0) == UpdateResult::Accepted).then_some(0.0)
    }

    fn predict(&mut self, dt: f32) {
        self.predict(0.0, 0.0, 0.0, dt);
    }

    fn lock(&mut self) {
        self.lock_position();
    }

    fn variance(&self) -> f32 {
        self.p[0]
    }
}

/// The archive's.
impl Side for Filter {
    fn fix(&mut self, x: f32) -> Option<f32> {
        let (kind, value) = self.call(UPDATE_POSITION, [x, 0.0, 0.0, 0.0, 0.0, 0.0]);
        (kind == ACCEPTED).then_some(value)
    }

    fn predict(&mut self, dt: f32) {
        self.call(PREDICT, [0.0, 0.0, 0.0, dt, 0.0, 0.0]);
    }

    fn lock(&mut self) {
        self.call(LOCK_POSITION, [0.0; 6]);
    }

    fn variance(&self) -> f32 {
        self.numbers[P]
    }
}

impl Filter {
    /// The kind of the answer and its value.
    fn call(&mut self, operation: u32, arguments: [f32; 6]) -> (u32, f32) {
        let (mut values, mut shown) = ([0.0; 2], [0; 4]);
        let number = unsafe {
            track_ekf(
                operation,
                self.numbers.as_mut_ptr(),
                self.counts.as_mut_ptr(),
                arguments.as_ptr(),
                [FIRST; 4].as_ptr(),
                values.as_mut_ptr(),
                shown.as_mut_ptr(),
            )
        };
        assert!(number == 0);
        (shown[0], values[0])
    }
}

enum Found {
    /// The fix that is taken, counted from 1, and its gate value.
    By(u32, f32),
    Never,
    NotYet,
}

impl Found {
    fn word(&self) -> &'static CStr {
        match self {
            Found::Never => c"never",
            _ => c"not in 2,000,000 fixes",
        }
    }
}

fn found(side: &mut impl Side, offset: f32, between: &Between) -> Found {
    let (mut variance, mut still) = (side.variance(), 0);
    for fix in 1..=FIXES {
        if let Some(value) = side.fix(offset) {
            return Found::By(fix, value);
        }
        for _ in 0..between.predictions {
            side.predict(between.dt);
        }
        if between.locks {
            side.lock();
        }
        still = if side.variance() == variance {
            still + 1
        } else {
            0
        };
        if still == STILL {
            return Found::Never;
        }
        variance = side.variance();
    }
    Found::NotYet
}

/// The answer is whether a car 40 m off is taken at the ninth fix, unless its position is locked again.
pub fn tunnel() -> bool {
    unsafe {
        printf(c"The fix that is taken behind a tunnel, counted from 1.\n".as_ptr());
        printf(
            c"%8s  %-18s %-24s %s\n".as_ptr(),
            c"offset".as_ptr(),
            c"between two fixes".as_ptr(),
            c"here (gate value)".as_ptr(),
            c"the Rust".as_ptr(),
        );
    }
    let mut good = true;
    for offset in OFFSETS {
        for between in &BETWEEN {
            let ninth = row(offset, between);
            good &= ninth || offset != 40.0;
        }
    }
    row(40.0, &LOCKED);
    let verdict = if good { c"is" } else { c"IS NOT" };
    unsafe {
        printf(
            c"tunnel: a car 40 m off %s taken at the ninth fix\n".as_ptr(),
            verdict.as_ptr(),
        )
    };
    good
}

/// The answer is whether the archive takes the ninth fix.
fn row(offset: f32, between: &Between) -> bool {
    let mut original = Ekf::new();
    original.lock_position();
    let here = found(&mut Filter::of(&original), offset, between);
    let theirs = found(&mut original, offset, between);
    let name = between.name.as_ptr();
    unsafe { printf(c"%8g  %-18s ".as_ptr(), offset as f64, name) };
    match here {
        Found::By(fix, value) => unsafe {
            let bits = value.to_bits();
            printf(c"%-8u %08X %-6.2f".as_ptr(), fix, bits, value as f64);
        },
        _ => unsafe {
            printf(c"%-24s".as_ptr(), here.word().as_ptr());
        },
    }
    match theirs {
        Found::By(fix, _) => unsafe {
            printf(c" %u\n".as_ptr(), fix);
        },
        _ => unsafe {
            printf(c" %s\n".as_ptr(), theirs.word().as_ptr());
        },
    }
    unsafe { fflush(core::ptr::null_mut()) };
    matches!(here, Found::By(9, _))
}
