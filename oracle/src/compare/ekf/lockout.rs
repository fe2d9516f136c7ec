//! The run of position rejections: a second reading of the change request that ends a lockout. The original
//! knows no run, so that it is carried beside its filter, and the variances are raised behind its verdict.

use super::filter::{Filter, P, RUN};
use crate::compare::component::{ACCEPTED, REJECTED};

/// So many rejections in a row end the run, so that a sound one is shorter.
const ENDS: u32 = 8;
pub const LAST: u32 = ENDS - 1;

/// What the variances of a position are at least, once a run has ended.
pub const LEAST: f32 = 100.0;

/// What a call makes of the run before it, by the verdict on a fix; any other call keeps it.
pub fn follow(before: &Filter, fix: Option<u32>, next: &mut Filter) {
    let mut run = before.counts[RUN];
    match fix {
        Some(ACCEPTED) => run = 0,
        Some(REJECTED) => run += 1,
        _ => {}
    }
    if fix == Some(REJECTED) && run == ENDS {
        run = 0;
        for variance in &mut next.numbers[P..P + 2] {
            *variance = variance.max(LEAST);
        }
    }
    next.counts[RUN] = run;
}
