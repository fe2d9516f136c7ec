//! What the archive gives for each entry D1, D2, .. of docs/DIFFERENCES.md: a line each.
//!
//! `oracle/differences.rs` has the original's side of the same inputs.

use super::archive::*;
use super::component::{ACCEPTED, SHOWN};
use super::ekf::filter::*;
use super::ekf::scope::*;
use super::ekf::turn::{FIRST, SECOND};
use super::learners::{fix_words, rate_words};
use super::libc::printf;
use crate::ekf::Ekf;
use core::ffi::CStr;

const END: u32 = 16_777_216;

pub fn differences(gate: &[u8]) {
    refusals();
    added();
    trigonometry(gate);
    let (_, filter) = change(UPDATE_VELOCITY, &[(X + 3, -1e4)], &[], [1e4, 0.0, 0.0, 0.0]);
    say(c"D26 x[3] %08X\n", filter.numbers[X + 3].to_bits());
    let fix = [80.0, 0.0, 0.0, 0.0];
    let (k1, _) = change(UPDATE_POSITION, &[(R_POS, 100.0)], &[], fix);
    let (word, bits) = (word(k1.kind == ACCEPTED), k1.value.to_bits());
    unsafe { printf(c"D27 %s, %08X\n".as_ptr(), word.as_ptr(), bits) };
    let mut summary = [0; 129];
    unsafe { track_summary_add(summary.as_mut_ptr(), k1.kind, k1.value) };
    say(c"D40 %u in bucket 127\n", summary[127]);
    fix_times();
    second_edition();
    courses();
    straight();
    eighth();
}

fn refusals() {
    say(c"D1 %u\n", float(0, 64.5).0);
    say(c"D2 %u\n", float(0, f32::INFINITY).0);
    say(c"D3 %u\n", float(0, 1e9).0);
    say(c"D4 %u\n", float(1, -1.0).0);
    let refused = |operation, but: &[(usize, f32)], arguments| {
        let (called, _) = change(operation, but, &[], arguments);
        called.number
    };
    say(
        c"D5 %u\n",
        refused(UPDATE_POSITION, &[], [f32::NAN, 0.0, 0.0, 0.0]),
    );
    say(c"D6 %u\n", lowpass(100.0, 200.0));
    say(c"D7 %u\n", lowpass(0.001, 200.0));
    // parameters are numbers 7 to 10; the last one is the largest correction
    let mut backwards = Learner::made(track_orientation, &[0.05, 3.0, 0.3, 0.26]);
    backwards.numbers[10] = -1.0;
    say(c"D8 %u\n", backwards.call(1, &LEARNS, FLAG).number);
    let mut aligner = Learner::made(track_aligner, &ALIGNER);
    say(c"D9 %u\n", aligner.call(3, &[4.0], NONE).number);
    let mut gps = Learner::made(track_gps, &[]);
    gps.count(0, 1_000);
    say(c"D10 %u\n", gps.count(20_000_001, 3_000));
    let bits = f32::from_bits;
    let bias = [(X + 5, bits(0xC479_FFFF)), (P + 5, 1e9)];
    say(
        c"D11 %u\n",
        refused(UPDATE_BIAS, &bias, [1000.0, 0.0, 0.0, 0.0]),
    );
    let far = [(X, 1e7), (X + 3, 1e4)];
    say(c"D12 %u\n", refused(PREDICT, &far, [0.0, 0.0, 0.0, 0.5]));
    let fast = [
        (X + 3, bits(0xC5FD_1800)),
        (X + 4, bits(0xC3A2_4924)),
        (P + 3, bits(0x4D07_7AF0)),
        (P + 4, bits(0x4562_48F0)),
    ];
    say(
        c"D13 %u\n",
        refused(UPDATE_SPEED, &fast, [bits(0x3ED5_7A78), 0.0, 0.0, 0.0]),
    );
}

/// The parameters of the Rust's heading aligner.
const ALIGNER: [f32; 3] = [0.1, 5.0, 0.5];

/// Lon and lat as they are for a pitch that is learned, 10 m/s, a tenth of a second.
const LEARNS: [f32; 6] = [1.0, 1.0, 0.0, 0.0, 10.0, 0.1];

fn added() {
    let counts = |but: &[(usize, u32)]| change(UPDATE_POSITION, &[], but, [0.0; 4]).1;
    for name in [c"D14", c"D15"] {
        unsafe { printf(c"%s ".as_ptr(), name.as_ptr()) };
        say(c"%u\n", counts(&[(3, u32::MAX)]).counts[3]);
    }
    let still = counts(&[(NIS_COUNT, END)]);
    let sum = still.numbers[NIS_SUM].to_bits();
    unsafe { printf(c"D16 %u, sum %08X\n".as_ptr(), still.counts[NIS_COUNT], sum) };
    let mut tilt = Learner::made(track_tilt, &[1e4]);
    tilt.counts[0] = END;
    say(c"D17 %u\n", tilt.call(1, &[0.0, 0.0, 0.1], NONE).number);
    let mut corrector = Learner::made(track_orientation, &[0.05, 3.0, 0.3, 0.26]);
    corrector.counts[1] = END;
    corrector.call(1, &LEARNS, FLAG);
    say(c"D18 %u\n", corrector.counts[1]);
    let gps = Learner::made(track_gps, &[]);
    unsafe { printf(c"D19 %g\n".as_ptr(), gps.numbers[3] as f64) };
    let corrector = Learner::made(track_orientation, &[0.25, 3.0, 0.3, 0.26]);
    unsafe { printf(c"D20 alpha %g\n".as_ptr(), corrector.numbers[7] as f64) };
}

/// By a clock of milliseconds.
fn fix_times() {
    let fixes = [
        (10.0, 131_072_200),
        (12.0, 131_072_400),
        (14.0, 131_072_600),
    ];
    accelerations(c"D28", &fixes);
    let two = |name, from, to| accelerations(name, &[(10.0, from), (12.0, to)]);
    two(c"D29", 5, 26);
    two(c"D30", 4_194_304_000, 4_194_304_250);
    two(c"D31", 0, 250);
    two(c"D32", 12, 32);
    two(c"D33", 16_384_001, 16_384_022);
    two(c"D34", 16_383_502, 16_384_001);
    two(c"D35", 2, 502);
    rate_of_one(c"D36", 0, 1_000);
    rate_of_one(c"D37", 16_383_002, 16_384_001);
    rate_of_one(c"D38", 4, 1_004);
    rate_of_one(c"D39", 1, 16_777_218);
}

/// What fixes with a speed and a time give, the first one left out.
fn accelerations(name: &CStr, fixes: &[(f32, u64)]) {
    let mut gps = Learner::made(track_gps, &[]);
    unsafe { printf(c"%s".as_ptr(), name.as_ptr()) };
    for (place, &(speed, time)) in fixes.iter().enumerate() {
        let Called { kind, value, .. } = gps.fix(speed, time);
        let before = if place > 1 { c", " } else { c" " };
        match (place, kind) {
            (0, _) => {}
            (_, SHOWN) => unsafe {
                printf(c"%s%08X".as_ptr(), before.as_ptr(), value.to_bits());
            },
            _ => unsafe {
                printf(c"%snothing".as_ptr(), before.as_ptr());
            },
        }
    }
    unsafe { printf(c"\n".as_ptr()) };
}

/// After no fix up to one time, and one up to another: the rate, or the refusal.
fn rate_of_one(name: &CStr, from: u64, to: u64) {
    let mut gps = Learner::made(track_gps, &[]);
    gps.count(0, from);
    unsafe { printf(c"%s ".as_ptr(), name.as_ptr()) };
    match gps.count(1, to) {
        0 => say(c"gps_rate %08X\n", gps.numbers[2].to_bits()),
        number => say(c"%u\n", number),
    }
}

/// Predictions by edition 2 of the turn rule.
fn second_edition() {
    let turned = |name: &CStr, but: &[(usize, f32)], wz, dt| {
        let (_, filter) = change_by(SECOND, PREDICT, but, &[], [0.0, 0.0, wz, dt]);
        let [x, y] = [0, 1].map(|axis| filter.numbers[X + axis].to_bits());
        unsafe { printf(c"%s x[0] %08X, x[1] %08X\n".as_ptr(), name.as_ptr(), x, y) };
    };
    turned(c"D41", &[(X + 2, 3.0), (X + 3, 4.0)], 1.0, 0.5);
    turned(c"D42", &[(X, -0.0), (X + 3, 4.0)], -1.0, 0.0);
}

/// Courses beyond PI.
fn courses() {
    let above_pi = f32::from_bits(0x4049_0FDC);
    let calibrator = calibrator_of(0.035, &[above_pi]);
    let slot = calibrator.numbers[7].to_bits();
    say(c"D43 heading_history[0] %08X\n", slot);
    offset(c"D44", above_pi, -1.990_000_1);
    offset(c"D45", f32::from_bits(0x40C9_0FDC), -core::f32::consts::PI);
    offset(c"D46", 6.5, -3.0);
    let mut aligner = Learner::made(track_aligner, &ALIGNER);
    let above_32 = f32::from_bits(0x4200_0001);
    say(c"D47 %u\n", aligner.call(1, &[above_32], NONE).number);
    let mut calibrator = calibrator_of(0.035, &[10.0; 10]);
    calibrator.call(2, &[0.0, 10.0, 0.1], NONE);
    say(c"D48 sample_count %u\n", calibrator.counts[3]);
    offset(c"D49", above_pi, f32::from_bits(0x3400_0001));
}

/// Ten equal headings and no tolerance.
fn straight() {
    let mut calibrator = calibrator_of(0.0, &[1.2; 10]);
    calibrator.call(2, &[0.0, 10.0, 0.1], NONE);
    say(c"D50 sample_count %u\n", calibrator.counts[3]);
}

/// The eighth rejection in a row, of a position that is locked.
fn eighth() {
    let locked = [(P, 1.0), (P + 1, 1.0)];
    let fix = [40.0, 0.0, 0.0, 0.0];
    let (_, filter) = change(UPDATE_POSITION, &locked, &[(RUN, 7)], fix);
    let [p, q] = [0, 1].map(|axis| filter.numbers[P + axis].to_bits());
    unsafe { printf(c"D51 p[0] %08X, p[1] %08X\n".as_ptr(), p, q) };
}

/// A fresh yaw rate calibrator with a tolerance after these headings.
fn calibrator_of(tolerance: f32, headings: &[f32]) -> Learner {
    let mut calibrator = Learner::made(track_yawrate, &[8.0, tolerance, 3.0, 0.1]);
    for &heading in headings {
        calibrator.call(1, &[heading], NONE);
    }
    calibrator
}

/// The offset that a fresh aligner learns from a course and a yaw.
fn offset(name: &CStr, course: f32, yaw: f32) {
    let mut aligner = Learner::made(track_aligner, &ALIGNER);
    aligner.call(1, &[course], NONE);
    aligner.call(2, &[yaw, 10.0, 0.0], NONE);
    unsafe { printf(c"%s ".as_ptr(), name.as_ptr()) };
    say(c"offset %08X\n", aligner.numbers[0].to_bits());
}

fn trigonometry(gate: &[u8]) {
    say(c"D21 %08X\n", trig(0, 0.5, 0.0));
    say(c"D22 %08X\n", trig(0, 0.001, 0.0));
    say(c"D23 %08X\n", trig(0, core::f32::consts::PI, 0.0));
    say(c"D24 %08X\n", trig(2, 1.0, 1.0));
    let mut listing = [0; 1024];
    let length = super::log::listed(gate, &mut listing);
    let accepted = listing[..length].windows(6).any(|line| line == b"5 3 A ");
    unsafe { printf(c"D25 %s\n".as_ptr(), word(accepted).as_ptr()) };
}

fn word(accepted: bool) -> &'static CStr {
    if accepted {
        c"accepted"
    } else {
        c"rejected"
    }
}

fn say(format: &CStr, number: u32) {
    unsafe { printf(format.as_ptr(), number) };
}

fn float(operation: u32, argument: f32) -> (u32, f32) {
    let mut answer = 0.0;
    let number = unsafe { track_float(operation, argument, &mut answer) };
    (number, answer)
}

fn trig(operation: u32, a: f32, b: f32) -> u32 {
    let mut answer = 0.0;
    let number = unsafe { track_trig(operation, a, b, &mut answer) };
    assert!(number == 0);
    answer.to_bits()
}

fn lowpass(cutoff: f32, rate: f32) -> u32 {
    call(
        track_lowpass,
        &mut [0.0; 9],
        &mut [0],
        0,
        &[cutoff, rate],
        NONE,
    )
    .number
}

/// What a call gives: the number, the kind of the answer and its first value.
struct Called {
    number: u32,
    kind: u32,
    value: f32,
}

const NONE: [u32; 4] = [0; 4];
/// A flag that is true.
const FLAG: [u32; 4] = [1, 0, 0, 0];

fn call(
    component: Component,
    numbers: &mut [f32],
    counts: &mut [u32],
    operation: u32,
    given: &[f32],
    words: [u32; 4],
) -> Called {
    let (mut arguments, mut values, mut shown) = ([0.0; 6], [0.0; 2], [0; 4]);
    arguments[..given.len()].copy_from_slice(given);
    let number = unsafe {
        component(
            operation,
            numbers.as_mut_ptr(),
            counts.as_mut_ptr(),
            arguments.as_ptr(),
            words.as_ptr(),
            values.as_mut_ptr(),
            shown.as_mut_ptr(),
        )
    };
    Called {
        number,
        kind: shown[0],
        value: values[0],
    }
}

/// A call of a fresh filter but for some numbers and counts: what it gives, and the filter. A prediction is
/// by edition 1, which is the Rust's.
fn change(
    operation: u32,
    but: &[(usize, f32)],
    counts: &[(usize, u32)],
    arguments: [f32; 4],
) -> (Called, Filter) {
    change_by(FIRST, operation, but, counts, arguments)
}

/// The same by an edition.
fn change_by(
    edition: u32,
    operation: u32,
    but: &[(usize, f32)],
    counts: &[(usize, u32)],
    arguments: [f32; 4],
) -> (Called, Filter) {
    let mut filter = Filter::of(&Ekf::new());
    for &(place, number) in but {
        filter.numbers[place] = number;
    }
    for &(place, count) in counts {
        filter.counts[place] = count;
    }
    let Filter { numbers, counts } = &mut filter;
    let words = [edition, 0, 0, 0];
    let called = call(track_ekf, numbers, counts, operation, &arguments, words);
    (called, filter)
}

/// A learner of the archive, with room for the longest.
struct Learner {
    archive: Component,
    numbers: [f32; 27],
    counts: [u32; 8],
}

impl Learner {
    fn made(archive: Component, parameters: &[f32]) -> Self {
        let mut made = Self {
            archive,
            numbers: [0.0; 27],
            counts: [0; 8],
        };
        let called = made.call(0, parameters, NONE);
        assert!(called.number == 0);
        made
    }

    fn call(&mut self, operation: u32, given: &[f32], words: [u32; 4]) -> Called {
        let (numbers, counts) = (&mut self.numbers, &mut self.counts);
        call(self.archive, numbers, counts, operation, given, words)
    }

    /// `update` of GPS acceleration, with a time in milliseconds.
    fn fix(&mut self, speed: f32, time: u64) -> Called {
        self.call(1, &[speed], fix_words(time))
    }

    /// Its `update_rate`.
    fn count(&mut self, fix_count: u32, time: u64) -> u32 {
        self.call(2, &[], rate_words(fix_count, time)).number
    }
}
