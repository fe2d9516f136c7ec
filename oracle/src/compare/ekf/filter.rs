//! The filter as the archive takes it: the numbers and counts of docs/BOUNDARY.md, in its order.

use crate::{ekf, noting};

#[derive(Clone, Copy, PartialEq)]
pub struct Filter {
    pub numbers: [f32; 25],
    pub counts: [u32; 10],
}

/// Where in `numbers` what begins.
pub const X: usize = 0;
pub const P: usize = 7;
pub const CONFIGURATION: usize = 14;
pub const R_POS: usize = 17;
pub const R_VEL: usize = 18;
pub const R_YAW: usize = 19;
pub const MIN_SPEED: usize = 20;
pub const NIS_SUM: usize = 21;
pub const LAST_FIX: usize = 22;
pub const MOVING_YAW: usize = 24;

/// Where in `counts`: before the NIS count are the six tallies, behind it two flags and the run of position
/// rejections.
pub const TALLIES: usize = 6;
pub const NIS_COUNT: usize = 6;
pub const FLAGS: [usize; 2] = [7, 8];
pub const RUN: usize = 9;

/// Each copy of the original has a filter of its own. None of them knows a run: a filter of one has run 0.
macro_rules! filter_of {
    ($copy:ident) => {
        impl From<&$copy::Ekf> for Filter {
            fn from(ekf: &$copy::Ekf) -> Self {
                let raw = $copy::peek::RawEkf::of(ekf);
                let config = &raw.config;
                let mut numbers = [0.0; 25];
                numbers[X..P].copy_from_slice(&raw.x);
                numbers[P..CONFIGURATION].copy_from_slice(&raw.p);
                numbers[CONFIGURATION..].copy_from_slice(&[
                    config.q_acc,
                    config.q_gyro,
                    config.q_bias,
                    config.r_pos,
                    config.r_vel,
                    config.r_yaw,
                    config.min_speed,
                    raw.nis_position_sum,
                    raw.last_gps_x,
                    raw.last_gps_y,
                    raw.last_moving_yaw,
                ]);
                let counts = [
                    raw.rejected_position,
                    raw.rejected_velocity,
                    raw.rejected_yaw,
                    raw.accepted_position,
                    raw.accepted_velocity,
                    raw.accepted_yaw,
                    raw.nis_position_count,
                    raw.has_last_gps as u32,
                    raw.has_last_moving_yaw as u32,
                    0,
                ];
                Self { numbers, counts }
            }
        }

        impl From<&Filter> for $copy::Ekf {
            fn from(filter: &Filter) -> Self {
                let [q_acc, q_gyro, q_bias, r_pos, r_vel, r_yaw, min_speed, nis_sum, fix_x, fix_y, yaw] =
                    filter.part(CONFIGURATION);
                $copy::peek::RawEkf {
                    x: filter.part(X),
                    p: filter.part(P),
                    config: $copy::EkfConfig {
                        q_acc,
                        q_gyro,
                        q_bias,
                        r_pos,
                        r_vel,
                        r_yaw,
                        min_speed,
                    },
                    rejected_position: filter.counts[0],
                    rejected_velocity: filter.counts[1],
                    rejected_yaw: filter.counts[2],
                    accepted_position: filter.counts[3],
                    accepted_velocity: filter.counts[4],
                    accepted_yaw: filter.counts[5],
                    nis_position_sum: nis_sum,
                    nis_position_count: filter.counts[NIS_COUNT],
                    last_gps_x: fix_x,
                    last_gps_y: fix_y,
                    has_last_gps: filter.counts[7] != 0,
                    last_moving_yaw: yaw,
                    has_last_moving_yaw: filter.counts[8] != 0,
                }
                .build()
            }
        }
    };
}

filter_of!(ekf);
filter_of!(noting);

impl Filter {
    pub fn of(ekf: &ekf::Ekf) -> Self {
        ekf.into()
    }

    pub fn build(&self) -> ekf::Ekf {
        self.into()
    }

    /// Bit by bit.
    pub fn is(&self, other: &Self) -> bool {
        let bits = |filter: &Self| filter.numbers.map(f32::to_bits);
        bits(self) == bits(other) && self.counts == other.counts
    }

    fn part<const N: usize>(&self, first: usize) -> [f32; N] {
        core::array::from_fn(|place| self.numbers[first + place])
    }
}
