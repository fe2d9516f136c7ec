//! The low-pass and the learners: the calls that a box makes at each sample or fix. Beside them the
//! original, over our trigonometry by its steps and over the platform's; neither of the two tests
//! anything. The parameters are those of the original's constructors.

use crate::archive::*;
use crate::timing::{given, pair, Random};

/// A call: its number at the boundary, its arguments and its words.
type Call = (u32, [f32; 6], [u32; 4]);

const NONE: [u32; 4] = [0; 4];
/// A flag that is true.
const FLAG: [u32; 4] = [1, 0, 0, 0];

const CALLS: usize = 20_000;
const STEP: f32 = 0.005;
const STEP_MILLISECONDS: u32 = 5;

/// The originals of one judge, each made anew and led through all calls.
macro_rules! originals {
    ($name:ident, $judge:ident) => {
        mod $name {
            use super::{Call, STEP};
            use std::hint::black_box;
            use $judge::filter::BiquadFilter;
            use $judge::fusion::{GpsAcceleration, HeadingAligner, OrientationCorrector, TiltEstimator};
            use $judge::stepping::YawRateCalibrator;

            pub fn lowpass(calls: &[Call]) {
                let mut filter = BiquadFilter::new_lowpass(10.0, 200.0);
                for (_, a, _) in calls {
                    black_box(black_box(&mut filter).process(a[0]));
                }
            }

            pub fn orientation(calls: &[Call]) {
                let mut learner = OrientationCorrector::new();
                for (_, a, words) in calls {
                    black_box(&mut learner).update(a[0], a[1], a[2], a[3], a[4], words[0] != 0, a[5]);
                }
            }

            // the time in seconds stands behind the speed
            pub fn gps(calls: &[Call]) {
                let mut learner = GpsAcceleration::new();
                for (operation, a, _) in calls {
                    match operation {
                        1 => {
                            black_box(black_box(&mut learner).update(a[0], a[1]));
                        }
                        _ => black_box(&mut learner).advance_time(a[0]),
                    }
                }
            }

            pub fn tilt(calls: &[Call]) {
                let mut learner = TiltEstimator::new(3.0);
                for (_, a, _) in calls {
                    black_box(black_box(&mut learner).update_stationary(a[0], a[1], STEP));
                }
            }

            pub fn yawrate(calls: &[Call]) {
                let mut learner = YawRateCalibrator::new();
                for (operation, a, _) in calls {
                    match operation {
                        1 => black_box(&mut learner).update_heading(a[0]),
                        _ => {
                            black_box(black_box(&mut learner).update(a[0], a[1], a[2]));
                        }
                    }
                }
            }

            pub fn aligner(calls: &[Call]) {
                let mut learner = HeadingAligner::new();
                for (operation, a, _) in calls {
                    match operation {
                        1 => black_box(&mut learner).update_gps_course(a[0]),
                        _ => {
                            black_box(black_box(&mut learner).update(a[0], a[1], a[2]));
                        }
                    }
                }
            }
        }
    };
}
originals!(over_ours, ours);
originals!(over_platform, platform);

fn list(mut make: impl FnMut(usize, &mut Random) -> Call) -> Vec<Call> {
    let mut random = Random(42);
    (0..CALLS).map(|i| make(i, &mut random)).collect()
}

/// A record in lent memory, made by `parameters`, through all calls; none may be refused.
fn lent(component: Component, parameters: &[f32], calls: &[Call]) {
    let (mut numbers, mut counts) = ([0.0f32; 27], [0u32; 8]);
    let (mut values, mut shown) = ([0.0f32; 2], [0u32; 4]);
    let mut call = |operation: u32, arguments: &[f32; 6], words: &[u32; 4]| unsafe {
        let (n, c) = (numbers.as_mut_ptr(), counts.as_mut_ptr());
        component(operation, n, c, arguments.as_ptr(), words.as_ptr(), values.as_mut_ptr(), shown.as_mut_ptr())
    };
    assert_eq!(call(0, &given(parameters), &NONE), 0);
    let refused: u32 = calls.iter().map(|(operation, arguments, words)| call(*operation, arguments, words)).sum();
    assert_eq!(refused, 0);
}

fn beside(name: &str, calls: &[Call], this: impl Fn(&[Call]), ours: fn(&[Call]), platform: fn(&[Call])) {
    pair(&format!("{name}, to ours under the Rust"), calls.len(), || this(calls), || ours(calls));
    pair(&format!("{name}, to the platform's"), calls.len(), || this(calls), || platform(calls));
}

/// 200 samples a second, ten fixes a second where a learner takes fixes.
pub fn time() {
    let lowpass = list(|_, r| (1, given(&[r.between(-5.0, 5.0)]), NONE));
    beside("low-pass, process", &lowpass, |c| lent(track_lowpass, &[10.0, 200.0], c), over_ours::lowpass, over_platform::lowpass);
    let orientation = list(|_, r| {
        let (lon, lat) = (r.between(-3.0, 3.0), r.between(-3.0, 3.0));
        (1, given(&[lon + 0.1, lon, lat - 0.1, lat, 20.0, STEP]), FLAG)
    });
    beside("orientation, update", &orientation, |c| lent(track_orientation, &[0.05, 3.0, 0.3, 0.26], c), over_ours::orientation, over_platform::orientation);
    let gps = list(|i, r| match i % 20 {
        0 => {
            let time = 1_000 + i as u32 * STEP_MILLISECONDS;
            (1, given(&[r.between(18.0, 22.0), time as f32 / 1000.0]), [time, 0, 0, 0])
        }
        _ => (3, given(&[STEP]), NONE),
    });
    beside("GPS, update and advance_time", &gps, |c| lent(track_gps, &[], c), over_ours::gps, over_platform::gps);
    let tilt = list(|_, r| (1, given(&[r.between(-0.2, 0.2), r.between(-0.2, 0.2), STEP]), NONE));
    beside("tilt, update_stationary", &tilt, |c| lent(track_tilt, &[3.0], c), over_ours::tilt, over_platform::tilt);
    let yawrate = list(|i, r| match i % 20 {
        0 => (1, given(&[r.between(0.99, 1.01)]), NONE),
        _ => (2, given(&[r.between(-0.01, 0.01), 20.0, STEP]), NONE),
    });
    beside("yaw rate, update and update_heading", &yawrate, |c| lent(track_yawrate, &[8.0, 0.035, 3.0, 0.1], c), over_ours::yawrate, over_platform::yawrate);
    let aligner = list(|i, r| match i % 20 {
        0 => (1, given(&[r.between(0.9, 1.1)]), NONE),
        _ => (2, given(&[r.between(0.4, 0.6), 20.0, STEP]), NONE),
    });
    beside("aligner, update and update_gps_course", &aligner, |c| lent(track_aligner, &[0.1, 5.0, 0.5], c), over_ours::aligner, over_platform::aligner);
}
