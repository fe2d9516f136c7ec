//! Becomes a child module of the original `fusion.rs`, and so sees what is private there.

use super::{
    GpsAcceleration, HeadingAligner, OrientationCorrector, SensorFusion, TiltEstimator,
    YawRateCalibrator,
};
use crate::filter::BiquadFilter;

raw! {
    /// All numbers of the orientation corrector.
    RawOrientation of OrientationCorrector {
        pitch_correction: f32,
        roll_correction: f32,
        pitch_confidence: f32,
        roll_confidence: f32,
        cruise_bias: f32,
        cruise_bias_sum: f32,
        cruise_bias_count: u32,
        cruise_time: f32,
        alpha: f32,
        min_speed: f32,
        min_accel: f32,
        max_correction: f32,
        update_count: u32,
    }
}

raw! {
    /// All numbers of the GPS acceleration.
    RawGps of GpsAcceleration {
        prev_speed: f32,
        prev_time: f32,
        accel_lon: f32,
        valid: bool,
        gps_rate: f32,
        time_since_fix: f32,
        rate_ema: f32,
        last_fix_count: u32,
        last_rate_time: f32,
    }
}

raw! {
    /// All numbers of the tilt estimator.
    RawTilt of TiltEstimator {
        accel_x_sum: f32,
        accel_y_sum: f32,
        sample_count: u32,
        stationary_time: f32,
        offset_x: f32,
        offset_y: f32,
        offset_valid: bool,
        learn_time: f32,
    }
}

raw! {
    /// All numbers of the yaw rate calibrator, its ring of headings included.
    RawYawRate of YawRateCalibrator {
        bias: f32,
        valid: bool,
        heading_history: [f32; 20],
        heading_idx: usize,
        heading_count: u32,
        straight_time: f32,
        yaw_sum: f32,
        sample_count: u32,
        min_speed: f32,
        heading_tolerance: f32,
        learn_time: f32,
        alpha: f32,
    }
}

raw! {
    /// All numbers of the heading aligner.
    RawHeading of HeadingAligner {
        offset: f32,
        valid: bool,
        update_count: u32,
        alpha: f32,
        min_speed: f32,
        last_gps_course: f32,
        time_since_gps: f32,
        max_gps_age: f32,
    }
}

/// It ends for angles of size at most 64, and does not for infinities and very large ones.
pub fn wrap_angle(angle: f32) -> f32 {
    super::wrap_angle(angle)
}

pub fn angle_diff(a: f32, b: f32) -> f32 {
    super::angle_diff(a, b)
}

pub fn is_heading_stable(calibrator: &YawRateCalibrator) -> bool {
    calibrator.is_heading_stable()
}

/// The blend is a step inside `process_imu`: this low-pass makes the IMU's value that it takes.
pub fn set_lon_filter(fusion: &mut SensorFusion, filter: BiquadFilter) {
    fusion.lon_filter = filter;
}

/// What the blend answered last: value and weight.
pub fn blended(fusion: &SensorFusion) -> (f32, f32) {
    (fusion.blended_lon, fusion.last_gps_weight)
}
