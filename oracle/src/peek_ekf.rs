//! Becomes a child module of the original `ekf.rs`, and so sees what is private there.

use super::{Ekf, EkfConfig};

raw! {
    /// All numbers of the filter.
    RawEkf of Ekf {
        x: [f32; 7],
        p: [f32; 7],
        config: EkfConfig,
        rejected_position: u32,
        rejected_velocity: u32,
        rejected_yaw: u32,
        accepted_position: u32,
        accepted_velocity: u32,
        accepted_yaw: u32,
        nis_position_sum: f32,
        nis_position_count: u32,
        last_gps_x: f32,
        last_gps_y: f32,
        has_last_gps: bool,
        last_moving_yaw: f32,
        has_last_moving_yaw: bool,
    }
}

raw! {
    /// The configuration's seven numbers.
    RawConfig of EkfConfig {
        q_acc: f32,
        q_gyro: f32,
        q_bias: f32,
        r_pos: f32,
        r_vel: f32,
        r_yaw: f32,
        min_speed: f32,
    }
}

/// It ends for angles of size at most 64, and does not for infinities and very large ones.
pub fn wrap_angle(angle: f32) -> f32 {
    super::wrap_angle(angle)
}
