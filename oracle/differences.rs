//! What the original Rust gives for each entry D1, D2, .. of docs/DIFFERENCES.md: a line each.
//!
//! The original is there three times: over our trigonometry, the same with sums that are checked, as in
//! a debug build, and over the platform's trigonometry.

use ours::ekf::peek::{wrap_angle, RawEkf};
use ours::ekf::{Ekf, UpdateResult};
use ours::filter::peek::RawBiquad;
use ours::filter::BiquadFilter;
use ours::fusion::peek::{RawGps, RawHeading, RawOrientation, RawTilt};
use ours::fusion::{GpsAcceleration, HeadingAligner, OrientationCorrector, TiltEstimator};
use platform::fusion::peek::RawYawRate;
use platform::fusion::YawRateCalibrator;
use std::f32::consts::PI;
use std::panic::{catch_unwind, set_hook};
use std::sync::mpsc::channel;
use std::time::Duration;

const END: u32 = 16_777_216;

fn main() {
    set_hook(Box::new(|_| ()));
    refusals();
    added();
    // what follows depends on the library, and on the processor that it is for
    if cfg!(target_env = "gnu") {
        println!("glibc on {}", std::env::consts::ARCH);
        trigonometry();
    }
    let mut ekf = with(|raw| raw.x[3] = -1e4);
    ekf.update_velocity(1e4, 0.0);
    println!("D26 x[3] {}", bits(ekf.x[3]));
    let mut ekf = with(|raw| raw.config.r_pos = 100.0);
    println!("D27 {}", word(ekf.update_position(80.0, 0.0)));
    println!("D40 {} accepted", ekf.position_gate_stats().0);
    fix_times();
    println!("D41 {}", turned(|x| (x[2], x[3]) = (3.0, 4.0), 1.0, 0.5));
    println!("D42 {}", turned(|x| (x[0], x[3]) = (-0.0, 4.0), -1.0, 0.0));
    courses();
    straight();
    eighth();
}

/// A rejection of a position that is locked: the original counts none in a row.
fn eighth() {
    let mut ekf = with(|raw| (raw.p[0], raw.p[1]) = (1.0, 1.0));
    ekf.update_position(40.0, 0.0);
    println!("D51 p[0] {}, p[1] {}", bits(ekf.p[0]), bits(ekf.p[1]));
}

/// Ten equal headings and no tolerance. The sines and cosines of the ring are ours, by the steps.
fn straight() {
    use ours::stepping::{peek::RawYawRate, YawRateCalibrator};
    let mut calibrator = RawYawRate {
        heading_tolerance: 0.0,
        ..RawYawRate::of(&YawRateCalibrator::new())
    }
    .build();
    for _ in 0..10 {
        calibrator.update_heading(1.2);
    }
    calibrator.update(0.0, 10.0, 0.1);
    let count = RawYawRate::of(&calibrator).sample_count;
    println!("D50 sample_count {count}");
}

/// Courses beyond PI. The ring's sines and cosines are the platform's: the other ones end at 4.
fn courses() {
    let above_pi = f32::from_bits(0x4049_0FDC);
    let slot = RawYawRate::of(&calibrator(&[above_pi])).heading_history[0];
    println!("D43 heading_history[0] {}", bits(slot));
    println!("D44 offset {}", offset(above_pi, -1.990_000_1));
    println!("D45 offset {}", offset(f32::from_bits(0x40C9_0FDC), -PI));
    println!("D46 offset {}", offset(6.5, -3.0));
    let mut aligner = HeadingAligner::new();
    aligner.update_gps_course(f32::from_bits(0x4200_0001));
    let course = RawHeading::of(&aligner).last_gps_course;
    println!("D47 last_gps_course {}", bits(course));
    let mut calibrator = calibrator(&[10.0; 10]);
    calibrator.update(0.0, 10.0, 0.1);
    let count = RawYawRate::of(&calibrator).sample_count;
    println!("D48 sample_count {count}");
    let least_yaw = f32::from_bits(0x3400_0001);
    println!("D49 offset {}", offset(above_pi, least_yaw));
}

/// A fresh yaw rate calibrator after these headings.
fn calibrator(headings: &[f32]) -> YawRateCalibrator {
    let mut calibrator = YawRateCalibrator::new();
    for &heading in headings {
        calibrator.update_heading(heading);
    }
    calibrator
}

/// The offset that a fresh aligner learns from a course and a yaw.
fn offset(course: f32, yaw: f32) -> String {
    let mut aligner = HeadingAligner::new();
    aligner.update_gps_course(course);
    aligner.update(yaw, 10.0, 0.0);
    bits(aligner.get_offset())
}

/// The position after a prediction of a fresh filter but for some numbers of its state.
fn turned(change: impl FnOnce(&mut [f32; 7]), wz: f32, dt: f32) -> String {
    let mut ekf = with(|raw| change(&mut raw.x));
    ekf.predict(0.0, 0.0, wz, dt);
    format!("x[0] {}, x[1] {}", bits(ekf.x[0]), bits(ekf.x[1]))
}

fn refusals() {
    println!("D1 {}", bits(wrap_angle(64.5)));
    println!("D2 {}", fold(f32::INFINITY));
    println!("D3 {}", fold(1e9));
    println!("D4 {}", bits(ours::math::root(-1.0)));
    let mut ekf = Ekf::new();
    let verdict = ekf.update_position(f32::NAN, 0.0);
    println!("D5 {}, x[0] {}", word(verdict), bits(ekf.x[0]));
    println!(
        "D6 {}",
        panics(|| drop(BiquadFilter::new_lowpass(100.0, 200.0)))
    );
    let made = RawBiquad::of(&BiquadFilter::new_lowpass(0.001, 200.0));
    println!(
        "D7 {}",
        if made.b0.is_finite() {
            "a filter"
        } else {
            "none"
        }
    );
    println!("D8 {}", panics(learn_backwards));
    println!(
        "D9 {}",
        bits(HeadingAligner::new().get_aligned_heading(4.0))
    );
    let mut gps = RawGps {
        last_rate_time: 1.0,
        ..RawGps::of(&GpsAcceleration::new())
    }
    .build();
    gps.update_rate(20_000_001, 3.0);
    println!("D10 gps_rate {}", bits(RawGps::of(&gps).gps_rate));
    let mut ekf = with(|raw| (raw.x[5], raw.p[5]) = (f32::from_bits(0xC479_FFFF), 1e9));
    ekf.update_bias(1000.0, 0.0);
    println!("D11 x[5] {}", bits(ekf.x[5]));
    let mut ekf = with(|raw| (raw.x[0], raw.x[3]) = (1e7, 1e4));
    ekf.predict(0.0, 0.0, 0.0, 0.5);
    println!("D12 x[0] {}", bits(ekf.x[0]));
    let mut ekf = with(|raw| {
        (raw.x[3], raw.x[4]) = (f32::from_bits(0xC5FD_1800), f32::from_bits(0xC3A2_4924));
        (raw.p[3], raw.p[4]) = (f32::from_bits(0x4D07_7AF0), f32::from_bits(0x4562_48F0));
    });
    ekf.update_speed(f32::from_bits(0x3ED5_7A78));
    println!("D13 p[3] {}", bits(ekf.p[3]));
}

fn added() {
    let mut ekf = with(|raw| raw.accepted_position = u32::MAX);
    ekf.update_position(0.0, 0.0);
    println!("D14 {}", RawEkf::of(&ekf).accepted_position);
    println!("D15 {}", panics(tally_checked));
    let mut ekf = with(|raw| raw.nis_position_count = END);
    ekf.update_position(0.0, 0.0);
    let count = RawEkf::of(&ekf).nis_position_count;
    println!("D16 {count}, as f32 {}", count as f32);
    let mut tilt = RawTilt {
        sample_count: END,
        ..RawTilt::of(&TiltEstimator::new(1e4))
    }
    .build();
    tilt.update_stationary(0.0, 0.0, 0.1);
    println!("D17 {}", RawTilt::of(&tilt).sample_count);
    println!("D18 {}, {}", counted(END), counted(u32::MAX));
    let fresh = RawGps::of(&GpsAcceleration::new());
    println!("D19 {}", fresh.time_since_fix);
    let fresh = RawOrientation::of(&OrientationCorrector::new());
    println!("D20 alpha {}", fresh.alpha);
}

/// By its clock of seconds.
fn fix_times() {
    let fixes = [[10.0, 131_072.2], [12.0, 131_072.4], [14.0, 131_072.6]];
    println!("D28 {}", accelerations(&fixes));
    let two = |from, to| accelerations(&[[10.0, from], [12.0, to]]);
    println!("D29 {}", two(0.005, 0.026));
    println!("D30 {}", two(4_194_304.0, 4_194_304.25));
    println!("D31 {}", two(0.0, 0.25));
    println!("D32 {}", two(0.012, 0.032));
    println!("D33 {}", two(16_384.001, 16_384.022));
    println!("D34 {}", two(16_383.502, 16_384.001));
    println!("D35 {}", two(0.002, 0.502));
    println!("D36 gps_rate {}", rate_of_one(0.0, 1.0));
    println!("D37 gps_rate {}", rate_of_one(16_383.002, 16_384.001));
    println!("D38 gps_rate {}", rate_of_one(0.004, 1.004));
    println!("D39 gps_rate {}", rate_of_one(0.001, 16_777.218));
}

/// What fixes with a speed and a time give, the first one left out.
fn accelerations(fixes: &[[f32; 2]]) -> String {
    let mut gps = GpsAcceleration::new();
    let gives = fixes.iter().map(|&[speed, time]| gps.update(speed, time));
    let gives = gives.map(|answer| answer.map_or("nothing".into(), bits));
    gives.skip(1).collect::<Vec<String>>().join(", ")
}

/// After no fix up to one time, and one up to another.
fn rate_of_one(from: f32, to: f32) -> String {
    let mut gps = GpsAcceleration::new();
    gps.update_rate(0, from);
    gps.update_rate(1, to);
    bits(gps.get_rate())
}

fn trigonometry() {
    use platform::ekf::Ekf;
    println!("D21 {}", bits(0.5f32.sin()));
    println!("D22 {}", bits(0.001f32.sin()));
    println!("D23 {}", bits(PI.sin()));
    println!("D24 {}", bits(1.0f32.atan2(1.0)));
    // the records of samples/gate.log
    let log = std::env::args().nth(1).expect("a log");
    let log = std::fs::read(log).expect("the log");
    let float = |at: usize| f32::from_le_bytes(log[at..at + 4].try_into().expect("four bytes"));
    let mut ekf = Ekf::new();
    ekf.update_velocity(float(34), float(38));
    ekf.update_yaw(float(45));
    ekf.predict(float(52), float(56), float(60), float(64));
    let verdict = ekf.update_position(float(71), float(75));
    let accepted = verdict == platform::ekf::UpdateResult::Accepted;
    println!("D25 {}", if accepted { "accepted" } else { "rejected" });
}

fn bits(float: f32) -> String {
    if float.is_nan() {
        return "NaN".into();
    }
    format!("{:08X}", float.to_bits())
}

fn word(verdict: UpdateResult) -> &'static str {
    match verdict {
        UpdateResult::Accepted => "accepted",
        UpdateResult::Rejected => "rejected",
    }
}

/// A fresh filter but for some numbers.
fn with(change: impl FnOnce(&mut RawEkf)) -> Ekf {
    let mut raw = RawEkf::of(&Ekf::new());
    change(&mut raw);
    raw.build()
}

/// It does not end if it has not after a second, and a fold leaves the angle as it is.
fn fold(angle: f32) -> String {
    let (done, ended) = channel();
    std::thread::spawn(move || done.send(wrap_angle(angle)));
    let turn = 2.0 * PI;
    match ended.recv_timeout(Duration::from_secs(1)) {
        Ok(angle) => bits(angle),
        Err(_) if angle - turn == angle => "does not end".into(),
        Err(_) => "has not ended".into(),
    }
}

fn panics(body: impl FnOnce() + std::panic::UnwindSafe) -> String {
    let Err(payload) = catch_unwind(body) else {
        return "does not panic".into();
    };
    let text = payload.downcast_ref::<&str>().map(|text| text.to_string());
    let text = text.or(payload.downcast_ref::<String>().cloned());
    format!("panics: {}", text.unwrap_or_default())
}

fn learn_backwards() {
    let mut corrector = RawOrientation {
        max_correction: -1.0,
        ..RawOrientation::of(&OrientationCorrector::new())
    }
    .build();
    corrector.update(1.0, 1.0, 0.0, 0.0, 10.0, true, 0.1);
}

fn tally_checked() {
    use checked::ekf::peek::RawEkf;
    let mut ekf = RawEkf {
        accepted_position: u32::MAX,
        ..RawEkf::of(&checked::ekf::Ekf::new())
    }
    .build();
    ekf.update_position(0.0, 0.0);
}

/// `update_count` after one more.
fn counted(count: u32) -> u32 {
    let mut corrector = RawOrientation {
        update_count: count,
        ..RawOrientation::of(&OrientationCorrector::new())
    }
    .build();
    corrector.update(1.0, 1.0, 0.0, 0.0, 10.0, true, 0.1);
    RawOrientation::of(&corrector).update_count
}
