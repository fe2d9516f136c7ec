//! The root, the wrap, the sine, the cosine and the arc tangent, and readings from the tables.

use crate::archive::{track_float, track_trig};
use crate::timing::{pair, Random};
use std::hint::black_box;

const INPUTS: usize = 4096;
const TIMES: usize = 200;

type Unary = unsafe extern "C" fn(u32, f32, *mut f32) -> u32;
type Binary = unsafe extern "C" fn(u32, f32, f32, *mut f32) -> u32;

/// What a counterpart does before it computes: document 01's 1 and 2.
fn refusal(finite: bool, in_range: bool) -> u32 {
    match (finite, in_range) {
        (false, _) => 1,
        (true, false) => 2,
        (true, true) => 0,
    }
}

unsafe fn give(number: u32, value: impl Fn() -> f32, answer: *mut f32) -> u32 {
    if number == 0 {
        *answer = value();
    }
    number
}

unsafe extern "C" fn root(_: u32, a: f32, answer: *mut f32) -> u32 {
    give(refusal(a.is_finite(), a >= 0.0), || ours::math::root(a), answer)
}

unsafe extern "C" fn wrap(_: u32, a: f32, answer: *mut f32) -> u32 {
    let number = refusal(a.is_finite(), a.abs() <= 64.0);
    give(number, || ours::ekf::peek::wrap_angle(a), answer)
}

unsafe extern "C" fn sine(_: u32, a: f32, _: f32, answer: *mut f32) -> u32 {
    give(refusal(a.is_finite(), a.abs() <= 4.0), || a.sin(), answer)
}

unsafe extern "C" fn cosine(_: u32, a: f32, _: f32, answer: *mut f32) -> u32 {
    give(refusal(a.is_finite(), a.abs() <= 4.0), || a.cos(), answer)
}

unsafe extern "C" fn arc_tangent(_: u32, y: f32, x: f32, answer: *mut f32) -> u32 {
    let usable = |v: f32| v == 0.0 || (v.abs() >= 2f32.powi(-24) && v.abs() <= 32.0);
    let number = refusal(y.is_finite() && x.is_finite(), usable(y) && usable(x));
    give(number, || y.atan2(x), answer)
}

pub fn time() {
    let mut random = Random(88172645463325252);
    let mut inputs = |make: fn(&mut Random) -> f32| -> Vec<f32> {
        (0..INPUTS).map(|_| make(&mut random)).collect()
    };
    let above = inputs(|r| f32::from_bits(0x0080_0000 + (r.bits() % 0x7EFF_FFFF) as u32));
    let wide = inputs(|r| r.between(-64.0, 64.0));
    let angles = inputs(|r| r.between(-4.0, 4.0));
    let small = inputs(|r| r.between(-0.0185, 0.0185));
    let legs = inputs(|r| r.between(-20.0, 20.0));
    let others = inputs(|r| r.between(-20.0, 20.0));
    unary("root, to the hardware's", 1, &above, root);
    unary("wrap, to the original's", 0, &wide, wrap);
    binary("sine, to the platform's", 0, &angles, &others, sine);
    binary("cosine, to the platform's", 1, &angles, &others, cosine);
    binary("sine of angles up to 0.0185, to the platform's", 0, &small, &others, sine);
    binary("cosine of angles up to 0.0185, to the platform's", 1, &small, &others, cosine);
    binary("arc tangent, to the platform's", 2, &legs, &others, arc_tangent);
    binary("sine from the table, to the platform's", 3, &angles, &others, sine);
    binary("cosine from the table, to the platform's", 4, &angles, &others, cosine);
}

fn unary(name: &str, operation: u32, inputs: &[f32], other: Unary) {
    let run = |call: Unary| {
        let call = black_box(call);
        move || {
            for _ in 0..TIMES {
                for &a in inputs {
                    let mut answer = 0.0;
                    black_box(unsafe { call(operation, a, &mut answer) });
                    black_box(answer);
                }
            }
        }
    };
    pair(name, INPUTS * TIMES, run(track_float), run(other));
}

fn binary(name: &str, operation: u32, a: &[f32], b: &[f32], other: Binary) {
    let run = |call: Binary| {
        let call = black_box(call);
        move || {
            for _ in 0..TIMES {
                for (&a, &b) in a.iter().zip(b) {
                    let mut answer = 0.0;
                    black_box(unsafe { call(operation, a, b, &mut answer) });
                    black_box(answer);
                }
            }
        }
    };
    pair(name, INPUTS * TIMES, run(track_trig), run(other));
}
