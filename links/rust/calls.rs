//! Calls each function of the module with numbers where the exports are these, which write down what they
//! are called with, and those that give a verdict with each kind of answer. `links/names --calls rust`
//! makes the calls from docs/boundary.txt: TRACK_CALLS names its file when this is compiled. `links/names
//! --told rust` holds the lines to the table.

#[allow(dead_code)]
#[path = "src/track.rs"]
mod track;

use std::cell::Cell;
use std::fmt::Display;
use std::mem::MaybeUninit;
use std::slice::from_raw_parts;
use track::*;

/// The rest of a line that begins with the call.
fn told(export: &str, arguments: &[f32], words: &[impl Display]) -> u32 {
    print!("{export}");
    arguments.iter().for_each(|number| print!(" {number}"));
    words.iter().for_each(|word| print!(" {word}"));
    println!();
    0
}

const NONE: [u32; 0] = [];

thread_local! {
    /// How a call on a record and the turn of a record are answered: a number and, if it is 0, a kind; 1
    /// and 2 have a gate value.
    static ANSWER: Cell<(u32, u32, f32)> = const { Cell::new((0, 0, 0.0)) };
}

unsafe fn answered(values: *mut f32, shown: *mut u32) -> u32 {
    let (number, kind, gate_value) = ANSWER.get();
    if number == 0 {
        unsafe { *shown = kind };
        if kind == 1 || kind == 2 {
            unsafe { *values = gate_value };
        }
    }
    number
}

#[unsafe(no_mangle)]
extern "C" fn track_float(operation: u32, argument: f32, _answer: *mut f32) -> u32 {
    told(&format!("float {operation}"), &[argument], &NONE)
}

#[unsafe(no_mangle)]
extern "C" fn track_trig(operation: u32, a: f32, b: f32, _answer: *mut f32) -> u32 {
    told(&format!("trig {operation}"), &[a, b], &NONE)
}

macro_rules! component {
    ($name:ident) => {
        #[unsafe(no_mangle)]
        unsafe extern "C" fn $name(
            operation: u32,
            _numbers: *mut f32,
            _counts: *mut u32,
            arguments: *const f32,
            words: *const u32,
            values: *mut f32,
            shown: *mut u32,
        ) -> u32 {
            let export = stringify!($name).trim_start_matches("track_");
            let (arguments, words) =
                unsafe { (from_raw_parts(arguments, 6), from_raw_parts(words, 4)) };
            told(&format!("{export} {operation}"), arguments, words);
            unsafe { answered(values, shown) }
        }
    };
}

#[unsafe(no_mangle)]
unsafe extern "C" fn track_blend(
    imu: f32,
    has_gps: u32,
    gps: f32,
    confidence: f32,
    weights: *const f32,
    _values: *mut f32,
) -> u32 {
    let weights = unsafe { from_raw_parts(weights, 3) };
    let arguments = [&[imu, gps, confidence], weights].concat();
    told("blend", &arguments, &[has_gps])
}

#[unsafe(no_mangle)]
extern "C" fn track_list(_log: *const u8, log_length: u64, _out: *mut u8, out_length: u64) -> u64 {
    told("list", &[], &[log_length, out_length]).into()
}

#[unsafe(no_mangle)]
extern "C" fn track_replay(
    _log: *const u8,
    log_length: u64,
    _numbers: *mut f32,
    _counts: *mut u32,
) -> u32 {
    told("replay", &[], &[log_length])
}

/// Both words are raised: the next call shows whether they were kept.
#[unsafe(no_mangle)]
unsafe extern "C" fn track_replay_record(
    _bytes: *const u8,
    bytes_length: u64,
    replay: *mut u32,
    _numbers: *mut f32,
    _counts: *mut u32,
    values: *mut f32,
    shown: *mut u32,
) -> u32 {
    let [number, edition] = unsafe { *replay.cast::<[u32; 2]>() }.map(u64::from);
    told("replay_record", &[], &[bytes_length, number, edition]);
    unsafe {
        *replay += 1;
        *replay.add(1) += 5;
        answered(values, shown)
    }
}

#[unsafe(no_mangle)]
unsafe extern "C" fn track_append(
    buf: *mut u8,
    buf_length: u64,
    used: *mut usize,
    tag: u32,
    payload: *const u8,
    payload_length: u64,
) -> u32 {
    let (first, used) = unsafe { (*buf, *used as u64) };
    let payload = unsafe { from_raw_parts(payload, payload_length as usize) };
    let mut words = vec![tag.into(), first.into(), buf_length, used];
    words.extend(payload.iter().copied().map(u64::from));
    told("append", &[], &words)
}

/// The ends of a summary.
unsafe fn ends(summary: *const u32) -> [u32; 2] {
    unsafe { [*summary, *summary.add(128)] }
}

#[unsafe(no_mangle)]
unsafe extern "C" fn track_summary_add(summary: *mut u32, verdict: u32, value: f32) -> u32 {
    let [first, last] = unsafe { ends(summary) };
    told("summary_add", &[value], &[verdict, first, last])
}

#[unsafe(no_mangle)]
unsafe extern "C" fn track_summary_merge(summary: *mut u32, other: *const u32) {
    let words = unsafe { [ends(summary), ends(other)] };
    told("summary_merge", &[], words.as_flattened());
}

#[unsafe(no_mangle)]
unsafe extern "C" fn track_summarize(log: *const u8, log_length: u64, _summary: *mut u32) -> u32 {
    let first = unsafe { *log }.into();
    told("summarize", &[], &[first, log_length])
}

/// Compiles if the word of a record stands at its place.
macro_rules! at {
    ($record:ident, $($word:ident).+ $([$index:literal])?, $place:literal) => {
        const _: () = {
            let record = MaybeUninit::<$record>::uninit();
            let word = unsafe { &raw const (*record.as_ptr()).$($word).+ $([$index])? };
            assert!(unsafe { word.byte_offset_from(record.as_ptr()) } == 4 * $place);
        };
    };
}

macro_rules! call {
    ($text:literal, $call:expr) => {
        print!("{} ", $text);
        let _ = $call;
    };
}

/// Writes down what a call gives that is answered so.
macro_rules! gives {
    ($text:literal, $call:expr, $answer:expr) => {
        ANSWER.set($answer);
        print!("{} ", $text);
        let given = $call;
        println!("{} gives {given:?}", $text);
    };
}

fn given() -> (EkfConfig, Weights, [u8; 5], [u8; 7], Replayer, [u8; 30]) {
    let filter = Ekf::new();
    let config = EkfConfig {
        q_acc: 1.0,
        q_gyro: 2.0,
        q_bias: 3.0,
        r_pos: 4.0,
        r_vel: 5.0,
        r_yaw: 6.0,
        min_speed: 7.0,
    };
    let weights = Weights {
        high: 4.0,
        medium: 5.0,
        low: 6.0,
    };
    let replayer = Replayer {
        number: 8,
        edition: 9,
        filter,
    };
    let mut buf = [0; 30];
    buf[0] = 7;
    (config, weights, [1, 2, 3, 4, 5], [0; 7], replayer, buf)
}

fn summary(first: u32, rejections: u32) -> Summary {
    let mut buckets = [0; 128];
    buckets[0] = first;
    Summary {
        buckets,
        rejections,
    }
}

include!(env!("TRACK_CALLS"));

fn main() {
    all();
}
