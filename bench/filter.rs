//! The filter: each call by itself, and a drive of ten minutes with predictions at 200 Hz, fixes at
//! 10 Hz and yaw samples at 20 Hz. Beside it the original, over our trigonometry and over the
//! platform's; neither of the two tests anything. The original has one rule for a turn, and the
//! predictions of both editions are beside it.
//!
//! All of it twice: on one filter, where a call may have to wait for what the one before it stored,
//! and on 64 filters in turn, where those stores are long done and calls may overlap.

use crate::archive::track_ekf;
use crate::timing::{given, row, Pair, Random};
use std::array;
use std::hint::black_box;

/// The filter in lent memory, and the edition that its predictions name.
struct Lent {
    edition: u32,
    numbers: [f32; 25],
    counts: [u32; 10],
}

/// The original's.
pub fn configuration() -> [f32; 7] {
    let config = ours::ekf::EkfConfig::default();
    [
        config.q_acc,
        config.q_gyro,
        config.q_bias,
        config.r_pos,
        config.r_vel,
        config.r_yaw,
        config.min_speed,
    ]
}

impl Lent {
    fn new(edition: u32) -> Self {
        let mut numbers = [0.0; 25];
        numbers[14..21].copy_from_slice(&configuration());
        let mut lent = Lent {
            edition,
            numbers,
            counts: [0; 10],
        };
        assert_eq!(lent.call(0, &[0.0; 6]), 0);
        lent
    }

    fn call(&mut self, operation: u32, arguments: &[f32; 6]) -> u32 {
        let (words, mut values, mut shown) = ([self.edition, 0, 0, 0], [0.0; 2], [0; 4]);
        unsafe {
            track_ekf(
                operation,
                self.numbers.as_mut_ptr(),
                self.counts.as_mut_ptr(),
                arguments.as_ptr(),
                words.as_ptr(),
                values.as_mut_ptr(),
                shown.as_mut_ptr(),
            )
        }
    }
}

/// A call: its number at the boundary, and its arguments.
pub type Call = (u32, [f32; 6]);

pub const PREDICT: u32 = 1;
pub const POSITION: u32 = 2;
pub const VELOCITY: u32 = 6;
const SPEED: u32 = 7;
const YAW: u32 = 9;
const BIAS: u32 = 13;

/// How many filters take turns.
const MANY: usize = 64;

/// Leads so many filters in lent memory through all calls: each call is made of one after the other.
fn this<const FILTERS: usize>(edition: u32, calls: &[Call]) {
    let mut filters: [Lent; FILTERS] = array::from_fn(|_| Lent::new(edition));
    for (operation, arguments) in calls {
        for lent in &mut filters {
            black_box(lent.call(*operation, arguments));
        }
    }
    black_box(&filters);
}

/// The same with filters of an original.
macro_rules! original {
    ($name:ident, $judge:ident) => {
        fn $name<const FILTERS: usize>(calls: &[Call]) {
            let mut filters: [$judge::ekf::Ekf; FILTERS] = array::from_fn(|_| $judge::ekf::Ekf::new());
            for &(operation, [a, b, c, d, ..]) in calls {
                for filter in &mut filters {
                    let filter = black_box(filter);
                    match operation {
                        PREDICT => filter.predict(a, b, c, d),
                        POSITION => {
                            black_box(filter.update_position(a, b));
                        }
                        VELOCITY => filter.update_velocity(a, b),
                        SPEED => filter.update_speed(a),
                        YAW => {
                            black_box(filter.update_yaw(a));
                        }
                        _ => filter.update_bias(a, b),
                    }
                }
            }
            black_box(&filters);
        }
    };
}
original!(over_ours, ours);
original!(over_platform, platform);

pub fn time() {
    let mut random = Random(42);
    let mut list = |make: fn(&mut Random) -> Call| -> Vec<Call> {
        let mut calls = vec![(VELOCITY, given(&[20.0, 1.0]))];
        calls.extend((0..20_000).map(|_| make(&mut random)));
        calls
    };
    let straight = list(|r| (PREDICT, given(&[r.between(-0.1, 0.1), r.between(-0.1, 0.1), 0.0, 0.005])));
    let turning = list(|r| (PREDICT, given(&[r.between(-0.1, 0.1), r.between(-0.1, 0.1), r.between(-0.5, 0.5), 0.005])));
    let position = list(|r| (POSITION, given(&[r.between(-3.0, 3.0), r.between(-3.0, 3.0)])));
    let velocity = list(|r| (VELOCITY, given(&[r.between(18.0, 22.0), r.between(-1.0, 1.0)])));
    let speed = list(|r| (SPEED, given(&[r.between(18.0, 22.0)])));
    let yaw = list(|r| (YAW, given(&[r.between(-0.1, 0.1)])));
    let bias = list(|r| (BIAS, given(&[r.between(-0.1, 0.1), r.between(-0.1, 0.1)])));
    for (name, edition, calls) in [
        ("predict, straight", 1, &straight),
        ("predict, turning", 1, &turning),
        ("predict, turning, edition 2", 2, &turning),
        ("update_position", 1, &position),
        ("update_velocity", 1, &velocity),
        ("update_speed", 1, &speed),
        ("update_yaw", 1, &yaw),
        ("update_bias", 1, &bias),
        ("ten minutes of driving, a call", 1, &drive()),
    ] {
        answered(name, edition, calls);
        beside(name, edition, calls);
    }
}

/// Ten minutes in a circle that widens and narrows.
pub fn drive() -> Vec<Call> {
    let mut random = Random(7);
    let (mut x, mut y, mut heading) = (0.0f32, 0.0f32, 0.0f32);
    let (speed, dt) = (20.0f32, 0.005f32);
    let mut calls = vec![(VELOCITY, given(&[speed]))];
    for step in 0..120_000u32 {
        let wz = 0.2 * (step as f32 * dt / 30.0).sin();
        heading += wz * dt;
        heading = heading.sin().atan2(heading.cos());
        let (vx, vy) = (speed * heading.cos(), speed * heading.sin());
        x += vx * dt;
        y += vy * dt;
        calls.push((PREDICT, given(&[-vy * wz, vx * wz, wz, dt])));
        if step % 20 == 19 {
            calls.push((POSITION, given(&[x + random.between(-1.0, 1.0), y + random.between(-1.0, 1.0)])));
            calls.push((VELOCITY, given(&[vx, vy])));
        }
        if step % 10 == 9 {
            calls.push((YAW, given(&[heading])));
        }
    }
    calls
}

/// A refusal takes less time than an answer: none is timed here.
fn answered(name: &str, edition: u32, calls: &[Call]) {
    let mut lent = Lent::new(edition);
    for (place, (operation, arguments)) in calls.iter().enumerate() {
        let number = lent.call(*operation, arguments);
        assert_eq!(number, 0, "{name}: call {place} is refused with {number}, give it arguments that are answered");
    }
}

fn beside(name: &str, edition: u32, calls: &[Call]) {
    type Work = fn(&[Call]);
    let others: [(&str, Work, Work); 2] = [
        ("ours under the Rust", over_ours::<1>, over_ours::<MANY>),
        ("the platform's", over_platform::<1>, over_platform::<MANY>),
    ];
    for (to, one, many) in others {
        row(
            &format!("{name}, to {to}"),
            &[
                Pair {
                    operations: calls.len(),
                    this: &|| this::<1>(edition, calls),
                    other: &|| one(calls),
                },
                Pair {
                    operations: calls.len() * MANY,
                    this: &|| this::<MANY>(edition, calls),
                    other: &|| many(calls),
                },
            ],
        );
    }
}
