//! Verdicts, sums of counts and logs settled on paper.

use super::reading::{REJECTIONS, STOP};
use crate::compare::component::{ACCEPTED, REJECTED};
use crate::compare::log::inputs::{Log, DEFAULT};
use crate::compare::log::replay::CONFIGURE;
use crate::compare::log::settled::{busy, configured, sample, turn};

/// The verdict, the bits of the gate value, and the place of the count that is raised, or the refusal's
/// number.
pub type Case = (u32, u32, Result<usize, u32>);

#[rustfmt::skip]
pub const CASES: [Case; 31] = [
    // -0 and the least float
    (ACCEPTED, 0x8000_0000, Ok(0)),
    (ACCEPTED, 0x0000_0001, Ok(0)),
    (REJECTED, 0x8000_0000, Ok(REJECTIONS)),
    // 0.25, the float below it and the middle of its bucket; 16 and 31.75
    (ACCEPTED, 0x3E7F_FFFF, Ok(0)),
    (ACCEPTED, 0x3E80_0000, Ok(1)),
    (ACCEPTED, 0x3EC0_0000, Ok(1)),
    (ACCEPTED, 0x417F_FFFF, Ok(63)),
    (ACCEPTED, 0x4180_0000, Ok(64)),
    (ACCEPTED, 0x41FD_FFFF, Ok(126)),
    // 32.0 and its neighbours; the largest float
    (ACCEPTED, 0x41FF_FFFF, Ok(127)),
    (ACCEPTED, 0x4200_0000, Ok(127)),
    (ACCEPTED, 0x4200_0001, Err(2)),
    (REJECTED, 0x4200_0000, Ok(REJECTIONS)),
    (REJECTED, 0x4200_0001, Ok(REJECTIONS)),
    (REJECTED, 0x7F7F_FFFF, Ok(REJECTIONS)),
    // negative
    (ACCEPTED, 0x8000_0001, Err(2)),
    (REJECTED, 0x8000_0001, Err(2)),
    // not finite, alone; negative; above 32.0; with another verdict
    (ACCEPTED, 0x7FC0_0000, Err(1)),
    (REJECTED, 0x7FC0_0000, Err(1)),
    (REJECTED, 0x7F80_0000, Err(1)),
    (ACCEPTED, 0xFF80_0000, Err(1)),
    (REJECTED, 0xFF80_0000, Err(1)),
    (ACCEPTED, 0x7F80_0000, Err(1)),
    (0, 0x7FC0_0000, Err(1)),
    (3, 0x7F80_0000, Err(1)),
    // another verdict, alone, with 0.5; negative
    (0, 0x3F00_0000, Err(2)),
    (3, 0x3F00_0000, Err(2)),
    (0x0000_0101, 0x3F00_0000, Err(2)),
    (0x0001_0002, 0x3F00_0000, Err(2)),
    (0xFFFF_FFFF, 0x3F00_0000, Err(2)),
    (3, 0xBF00_0000, Err(2)),
];

/// A count before a verdict raises it, and after.
pub const RAISED: [(u32, u32); 3] = [(0, 1), (STOP - 1, STOP), (STOP, STOP)];

/// Two counts and the one that they merge to.
#[rustfmt::skip]
pub const MERGED: [(u32, u32, u32); 14] = [
    (0, 0, 0),
    (0, 5, 5),
    (5, 0, 5),
    (7, 8, 15),
    (0xFFFF, 1, 0x1_0000),
    // one below the stop, at it, one above it
    (0x8000_0000, 0x7FFF_FFFE, STOP - 1),
    (0x8000_0000, 0x7FFF_FFFF, STOP),
    (0x8000_0000, 0x8000_0000, STOP),
    (STOP - 1, 0, STOP - 1),
    (STOP - 1, 1, STOP),
    (STOP - 1, 2, STOP),
    // at the stop already
    (STOP, 0, STOP),
    (0, STOP, STOP),
    (STOP, STOP, STOP),
];

/// A log, the number of its stop or 0, and the counts of its summary that are not 0, with their places.
pub type Summarized = (fn(&mut Log), u32, &'static [(usize, u32)]);

pub const LOGS: [Summarized; 12] = [
    (|_| {}, 0, &[]),
    // at the gate
    (sample, 0, &[(127, 1)]),
    // fixes accepted, rejected and refused, and a yaw of either verdict, by tag 6 and by tag 9
    (busy, 0, &[(0, 1), (REJECTIONS, 1)]),
    (soft, 0, &[(0, 1)]),
    (fixes, 0, &[(2, 1), (6, 1), (50, 1)]),
    // a fix behind a turn by edition 2
    (turned, 0, &[(41, 1), (127, 1)]),
    // each stop behind a fix, and a fix behind each that is not a cut
    (cut, 7, &[(0, 1)]),
    (|log| between_fixes(log, b"\x0B\0\0"), 8, &[(0, 1)]),
    (
        |log| between_fixes(log, b"\x05\x05\0\0\0\0\0\0"),
        9,
        &[(0, 1)],
    ),
    (twice, 10, &[(0, 1)]),
    // no configuration is taken
    (|log| fix(log, 1.0), 10, &[]),
    (unsound, 3, &[]),
];

/// In a filter that is fresh but for its configuration, which is the default, (1, 0) has gate value 1/120.
fn fix(log: &mut Log, x: f32) {
    log.floats(3, &[x, 0.0]);
}

fn between_fixes(log: &mut Log, record: &[u8]) {
    configured(log);
    fix(log, 1.0);
    log.put(record);
    fix(log, 1.0);
}

fn cut(log: &mut Log) {
    between_fixes(log, &[]);
    log.length -= 1;
}

fn twice(log: &mut Log) {
    configured(log);
    fix(log, 1.0);
    configured(log);
    fix(log, 1.0);
}

fn unsound(log: &mut Log) {
    log.floats(CONFIGURE, &[f32::NAN; 7]);
    fix(log, 1.0);
}

/// A yaw far from one that is locked is rejected.
fn soft(log: &mut Log) {
    configured(log);
    fix(log, 1.0);
    log.floats(9, &[3.0, 100.0]);
    log.mark(3);
    log.floats(9, &[1.0, 0.001]);
    fix(log, f32::NAN);
    fix(log, 1.1e7);
}

/// With r_pos 100: gate value 100/200, exactly; then 225/150 and 1681/133.3, about.
fn fixes(log: &mut Log) {
    r_pos_100(log);
    fix(log, 10.0);
    fix(log, 20.0);
    fix(log, 51.0);
}

/// A fix about 40 m east of where the turn ends, with variances of 150.0625: gate value 10.43 by edition 2, and
/// 10.62 by edition 1, which is in the next bucket.
fn turned(log: &mut Log) {
    turn(log, Some(2));
    log.floats(3, &[73.0, 24.0]);
}

/// The configuration of the scope paper's sample.
pub fn r_pos_100(log: &mut Log) {
    let mut configuration = DEFAULT;
    configuration[3] = 100.0;
    log.floats(CONFIGURE, &configuration);
}
