//! What the archive exports (docs/boundary.txt), for the comparisons and for bench/.

extern "C" {
    pub fn track_float(operation: u32, argument: f32, answer: *mut f32) -> u32;
    pub fn track_trig(operation: u32, a: f32, b: f32, answer: *mut f32) -> u32;
    pub fn track_blend(
        imu: f32,
        has_gps: u32,
        gps: f32,
        confidence: f32,
        weights: *const f32,
        values: *mut f32,
    ) -> u32;
    pub fn track_list(log: *const u8, log_length: u64, out: *mut u8, out_length: u64) -> u64;
    pub fn track_replay(
        log: *const u8,
        log_length: u64,
        numbers: *mut f32,
        counts: *mut u32,
    ) -> u32;
    pub fn track_replay_record(
        bytes: *const u8,
        bytes_length: u64,
        replay: *mut u32,
        numbers: *mut f32,
        counts: *mut u32,
        values: *mut f32,
        shown: *mut u32,
    ) -> u32;
    pub fn track_append(
        buf: *mut u8,
        buf_length: u64,
        used: *mut usize,
        tag: u32,
        payload: *const u8,
        payload_length: u64,
    ) -> u32;
    pub fn track_summary_add(summary: *mut u32, verdict: u32, value: f32) -> u32;
    pub fn track_summary_merge(summary: *mut u32, other: *const u32);
    pub fn track_summarize(log: *const u8, log_length: u64, summary: *mut u32) -> u32;
}

/// A function with a record.
pub type Component = unsafe extern "C" fn(
    operation: u32,
    numbers: *mut f32,
    counts: *mut u32,
    arguments: *const f32,
    words: *const u32,
    values: *mut f32,
    shown: *mut u32,
) -> u32;

macro_rules! components {
    ($($name:ident)*) => {
        extern "C" {
            $(pub fn $name(
                operation: u32,
                numbers: *mut f32,
                counts: *mut u32,
                arguments: *const f32,
                words: *const u32,
                values: *mut f32,
                shown: *mut u32,
            ) -> u32;)*
        }
    };
}

// table: exports
components! {
    track_ekf
    track_lowpass
    track_orientation
    track_gps
    track_tilt
    track_yawrate
    track_aligner
}
// end
