//! The scope paper's ranges and refusals 1 to 4, read once more, and what the original's readers show; 6 is `judge.rs`'s.

use super::filter::*;
use super::lockout;
use super::turn::{FIRST, SECOND};
use crate::compare::component::*;
use crate::compare::ranges::{range, size, Range};
use crate::ekf::Ekf;
use core::f32::consts::PI;
use core::ffi::CStr;

pub const POSITION: Range = size(1e7);
const VELOCITY: Range = size(1e4);
pub const BIAS: Range = size(1e3);
const ANGLE: Range = size(32.0);
pub const SPEED: Range = range(0.0, 1e4);
const UP_TO_1E9: Range = range(0.0, 1e9);
const Q: Range = range(0.0, 1e6);
const R: Range = range(1e-6, 1e6);
pub const FACTOR: Range = range(0.001, 1e6);
pub const TIME: Range = range(0.0, 0.5);
/// Of the product wz * dt.
pub const TURN: Range = size(0.5);

/// Each number of the filter. The rows: x, p, configuration, NIS sum, last fix and moving yaw.
#[rustfmt::skip]
pub const NUMBERS: [Range; 25] = [
    POSITION, POSITION, size(PI), VELOCITY, VELOCITY, BIAS, BIAS,
    UP_TO_1E9, UP_TO_1E9, UP_TO_1E9, UP_TO_1E9, UP_TO_1E9, UP_TO_1E9, UP_TO_1E9,
    Q, Q, Q, R, R, R, SPEED,
    UP_TO_1E9, POSITION, POSITION, ANGLE,
];

/// Where the NIS count ends and stands still.
pub const NIS_END: u32 = 16_777_216;

/// The counts of the position channel, each with its last sound one.
const COUNTS: &[(usize, u32)] = &[(NIS_COUNT, NIS_END), (RUN, lockout::LAST)];

/// The numbers and counts that a call looks at.
pub struct Looks {
    pub configuration: &'static [usize],
    pub state: &'static [usize],
    pub counts: &'static [(usize, u32)],
}

impl Looks {
    pub fn at_count(&self, count: usize) -> bool {
        self.counts.iter().any(|&(place, _)| place == count)
    }
}

const fn looks(
    configuration: &'static [usize],
    state: &'static [usize],
    counts: &'static [(usize, u32)],
) -> Looks {
    Looks {
        configuration,
        state,
        counts,
    }
}

const AT_POSITION: Looks = looks(
    &[R_POS],
    &[0, 1, 7, 8, NIS_SUM, LAST_FIX, LAST_FIX + 1],
    COUNTS,
);
const AT_VELOCITY: Looks = looks(&[R_VEL], &[3, 4, 10, 11], &[]);
const AT_YAW: Looks = looks(&[R_YAW], &[2, 9, MOVING_YAW], &[]);
const AT_BIAS: Looks = looks(&[], &[5, 6, 12, 13], &[]);
const AT_CONFIGURATION: Looks = looks(&[14, 15, 16, 17, 18, 19, 20], &[], &[]);
const AT_ALL: Looks = looks(
    AT_CONFIGURATION.configuration,
    &[0, 1, 2, 3, 4, 5, 6, 7, 8, 9, 10, 11, 12, 13, 21, 22, 23, 24],
    COUNTS,
);
const AT_NOTHING: Looks = looks(&[], &[], &[]);

pub struct Operation {
    pub name: &'static CStr,
    pub kind: Kind,
    pub looks: Looks,
    pub arguments: &'static [Range],
    /// Whether a sound filter can become unsound by it: then it can give 6.
    pub overflows: bool,
    /// What a reader of the original shows.
    pub shows: fn(&Ekf) -> Answer,
}

const fn operation(
    name: &'static CStr,
    kind: Kind,
    looks: Looks,
    arguments: &'static [Range],
) -> Operation {
    Operation {
        name,
        kind,
        looks,
        arguments,
        overflows: false,
        shows: |_| NOTHING,
    }
}

const fn making(name: &'static CStr, looks: Looks, arguments: &'static [Range]) -> Operation {
    operation(name, Kind::Making, looks, arguments)
}

const fn change(name: &'static CStr, looks: Looks, arguments: &'static [Range]) -> Operation {
    operation(name, Kind::Change, looks, arguments)
}

const fn reader(name: &'static CStr, looks: Looks, shows: fn(&Ekf) -> Answer) -> Operation {
    Operation {
        shows,
        ..operation(name, Kind::Reader, looks, &[])
    }
}

fn pair((first, second): (f32, f32)) -> Answer {
    values([Some(first), Some(second)])
}

fn tallies((accepted, rejected): (u32, u32)) -> Answer {
    counts(accepted, rejected)
}

const fn overflows(operation: Operation) -> Operation {
    Operation {
        overflows: true,
        ..operation
    }
}

/// What `track_ekf` does, by operation number. Accelerations and wz have the bias's range.
#[rustfmt::skip]
pub const OPERATIONS: [Operation; 28] = [
    making(c"with_config", AT_CONFIGURATION, &[]),
    overflows(change(c"predict", AT_ALL, &[BIAS, BIAS, BIAS, TIME])),
    change(c"update_position", AT_POSITION, &[POSITION, POSITION]),
    change(c"lock_position", AT_POSITION, &[]),
    change(c"skip_prediction", AT_POSITION, &[]),
    change(c"reset_nis_stats", AT_POSITION, &[]),
    overflows(change(c"update_velocity", AT_VELOCITY, &[VELOCITY, VELOCITY])),
    overflows(change(c"update_speed", AT_VELOCITY, &[SPEED])),
    change(c"zupt", AT_VELOCITY, &[]),
    change(c"update_yaw", AT_YAW, &[ANGLE]),
    change(c"update_yaw_soft", AT_YAW, &[ANGLE, FACTOR]),
    change(c"lock_yaw", AT_YAW, &[]),
    change(c"store_moving_yaw", AT_YAW, &[ANGLE]),
    overflows(change(c"update_bias", AT_BIAS, &[BIAS, BIAS])),
    change(c"reset_gate_stats", AT_NOTHING, &[]),
    making(c"new", AT_NOTHING, &[]),
    reader(c"position", AT_POSITION, |ekf| pair(ekf.position())),
    reader(c"position_gate_stats", AT_POSITION, |ekf| tallies(ekf.position_gate_stats())),
    reader(c"get_nis_position_avg", AT_POSITION, |ekf| value(ekf.get_nis_position_avg())),
    reader(c"get_gps_discrepancy", AT_POSITION, |ekf| value(ekf.get_gps_discrepancy())),
    reader(c"get_effective_pos_sigma", AT_POSITION, |ekf| value(ekf.get_effective_pos_sigma())),
    reader(c"velocity", AT_VELOCITY, |ekf| pair(ekf.velocity())),
    reader(c"speed", AT_VELOCITY, |ekf| value(ekf.speed())),
    reader(c"velocity_gate_stats", AT_VELOCITY, |ekf| tallies(ekf.velocity_gate_stats())),
    reader(c"yaw", AT_YAW, |ekf| value(ekf.yaw())),
    reader(c"yaw_gate_stats", AT_YAW, |ekf| tallies(ekf.yaw_gate_stats())),
    reader(c"get_last_moving_yaw", AT_YAW, |ekf| option(ekf.get_last_moving_yaw())),
    reader(c"biases", AT_BIAS, |ekf| pair(ekf.biases())),
];

/// The operations that are readers, or those that are not, with their numbers.
pub fn operations(readers: bool) -> impl Iterator<Item = (u32, &'static Operation)> + Clone {
    let all = (0..).zip(&OPERATIONS);
    all.filter(move |(_, known)| (known.kind == Kind::Reader) == readers)
}

pub const WITH_CONFIG: u32 = 0;
pub const PREDICT: u32 = 1;
pub const UPDATE_POSITION: u32 = 2;
pub const LOCK_POSITION: u32 = 3;
pub const SKIP_PREDICTION: u32 = 4;
pub const RESET_NIS_STATS: u32 = 5;
pub const UPDATE_VELOCITY: u32 = 6;
pub const UPDATE_SPEED: u32 = 7;
pub const ZUPT: u32 = 8;
pub const UPDATE_YAW: u32 = 9;
pub const UPDATE_YAW_SOFT: u32 = 10;
pub const LOCK_YAW: u32 = 11;
pub const UPDATE_BIAS: u32 = 13;
pub const RESET_GATE_STATS: u32 = 14;
pub const NEW: u32 = 15;

pub const GET_NIS_POSITION_AVG: u32 = 18;
pub const GET_GPS_DISCREPANCY: u32 = 19;
pub const GET_EFFECTIVE_POS_SIGMA: u32 = 20;
pub const GET_LAST_MOVING_YAW: u32 = 26;

/// Which of the refusals 1 to 4 apply.
pub fn reasons(
    operation: &Operation,
    edition: u32,
    filter: &Filter,
    arguments: &[f32; 4],
) -> [bool; 4] {
    let given = &arguments[..operation.arguments.len()];
    let mut ranges = given.iter().zip(operation.arguments);
    // only `predict` has four arguments
    let good_turn = match given {
        [_, _, wz, dt] => TURN.has(wz * dt) && [FIRST, SECOND].contains(&edition),
        _ => true,
    };
    [
        !given.iter().all(|argument| argument.is_finite()),
        !ranges.all(|(&argument, range)| range.has(argument)) || !good_turn,
        !in_range(operation.looks.configuration, filter),
        !sound(&operation.looks, filter),
    ]
}

/// Whether all state numbers and counts that are looked at are sound.
pub fn sound(looks: &Looks, filter: &Filter) -> bool {
    let mut counts = looks.counts.iter();
    in_range(looks.state, filter) && counts.all(|&(place, last)| filter.counts[place] <= last)
}

fn in_range(places: &[usize], filter: &Filter) -> bool {
    places
        .iter()
        .all(|&place| NUMBERS[place].has(filter.numbers[place]))
}
