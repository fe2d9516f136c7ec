//! The estimator for Rust: safe types and named methods over the proved archive (docs/BOUNDARY.md).
//!
//! It needs no std. Every record lies in the caller's memory with the words that the archive takes, in
//! its order; a refused call changes none of it. A flag is true where its word is not 0. Of what a
//! caller keeps (docs/BOUNDARY.md), the types leave the floats: they round to nearest and keep subnormal
//! numbers ([`float_environment_ok`]), and float exceptions do not trap. What stands between `table` and
//! `end` is made from docs/boundary.txt by links/names.
#![deny(unsafe_op_in_unsafe_fn)]

use core::fmt;
use core::hint::black_box;

mod archive {
    unsafe extern "C" {
        // table: forms
        pub fn track_float(operation: u32, argument: f32, answer: *mut f32) -> u32;
        pub fn track_trig(operation: u32, a: f32, b: f32, answer: *mut f32) -> u32;
        pub fn track_blend(
            imu: f32,
            has_gps: u32,
            gps: f32,
            confidence: f32,
            weights: *const f32,
            values: *mut f32,
        ) -> u32;
        pub fn track_list(log: *const u8, log_length: u64, out: *mut u8, out_length: u64) -> u64;
        pub fn track_replay(
            log: *const u8,
            log_length: u64,
            numbers: *mut f32,
            counts: *mut u32,
        ) -> u32;
        pub fn track_replay_record(
            bytes: *const u8,
            bytes_length: u64,
            replay: *mut u32,
            numbers: *mut f32,
            counts: *mut u32,
            values: *mut f32,
            shown: *mut u32,
        ) -> u32;
        pub fn track_append(
            buf: *mut u8,
            buf_length: u64,
            used: *mut usize,
            tag: u32,
            payload: *const u8,
            payload_length: u64,
        ) -> u32;
        pub fn track_summary_add(summary: *mut u32, verdict: u32, value: f32) -> u32;
        pub fn track_summary_merge(summary: *mut u32, other: *const u32);
        pub fn track_summarize(log: *const u8, log_length: u64, summary: *mut u32) -> u32;
        // end
    }

    /// The form of every function with a record.
    macro_rules! components {
        ($($name:ident)*) => {
            unsafe extern "C" {
                $(pub fn $name(
                    operation: u32,
                    numbers: *mut f32,
                    counts: *mut u32,
                    arguments: *const f32,
                    words: *const u32,
                    values: *mut f32,
                    shown: *mut u32,
                ) -> u32;)*
            }
        };
    }

    // table: exports
    components! {
        track_ekf
        track_lowpass
        track_orientation
        track_gps
        track_tilt
        track_yawrate
        track_aligner
    }
    // end
}

/// Whether this thread's floats are as the archive needs them. Of two floats as near, the even one is
/// taken: down to 1, up to 1 + 2^-22. A subnormal number, 2^-127, is kept as an answer and then as an
/// argument: it is seen times 2^127, since a comparison might take it as zero too.
pub fn float_environment_ok() -> bool {
    let (one, half_step) = (black_box(1.0), black_box(f32::EPSILON / 2.0));
    let (normal, half, large) = (f32::MIN_POSITIVE, black_box(0.5), 2.0 / f32::MIN_POSITIVE);
    let halved = black_box(black_box(normal) * half);
    black_box(one + half_step) == 1.0
        && black_box(one + 3.0 * half_step) == 1.0 + 2.0 * f32::EPSILON
        && black_box(halved * black_box(large)) == 1.0
}

/// `numbers! { Name: number Variant "sentence", .. }` makes a type of document 01's numbers that carries
/// those that it does not name too: a later archive may give them.
macro_rules! numbers {
    ($(#[$note:meta])* $name:ident: $($number:literal $variant:ident $sentence:literal),*) => {
        $(#[$note])*
        #[derive(Clone, Copy, Debug, PartialEq, Eq)]
        #[non_exhaustive]
        pub enum $name {
            $($variant,)*
            Other(u32),
        }

        impl $name {
            pub fn number(self) -> u32 {
                match self {
                    $(Self::$variant => $number,)*
                    Self::Other(number) => number,
                }
            }

            pub fn sentence(self) -> &'static str {
                match self {
                    $(Self::$variant => $sentence,)*
                    Self::Other(_) => "a number that is not known here",
                }
            }

            /// `Ok` for number 0.
            fn of(number: u32) -> Result<(), Self> {
                Err(match number {
                    0 => return Ok(()),
                    $($number => Self::$variant,)*
                    _ => Self::Other(number),
                })
            }
        }

        impl fmt::Display for $name {
            fn fmt(&self, to: &mut fmt::Formatter) -> fmt::Result {
                write!(to, "{}: {}", self.number(), self.sentence())
            }
        }

        impl core::error::Error for $name {}
    };
}

numbers! {
    /// Why a call was refused, by document 01's number. The lowest that applies is given.
    Refusal:
    1 NotFinite "an argument is NaN or infinite",
    2 OutOfRange "an argument is outside its range",
    3 BadParameter "a configuration number or parameter is not finite or out of range",
    4 Unsound "a number of the state is unsound",
    5 CountAtEnd "a sample count that would be raised stands at 16,777,216",
    6 WouldBeUnsound "a number that would be stored is unsound"
}

fn float_answer(operation: u32, argument: f32) -> Result<f32, Refusal> {
    let mut answer = 0.0;
    Refusal::of(unsafe { archive::track_float(operation, argument, &mut answer) })?;
    Ok(answer)
}

fn trig_answer(operation: u32, a: f32, b: f32) -> Result<f32, Refusal> {
    let mut answer = 0.0;
    Refusal::of(unsafe { archive::track_trig(operation, a, b, &mut answer) })?;
    Ok(answer)
}

/// Of an angle of size at most 64.
pub fn wrap_angle(angle: f32) -> Result<f32, Refusal> {
    float_answer(0, angle)
}

pub fn sqrt(number: f32) -> Result<f32, Refusal> {
    float_answer(1, number)
}

/// Of an angle of size at most 4.
pub fn sin(angle: f32) -> Result<f32, Refusal> {
    trig_answer(0, angle, 0.0)
}

/// Of an angle of size at most 4.
pub fn cos(angle: f32) -> Result<f32, Refusal> {
    trig_answer(1, angle, 0.0)
}

/// Of y and x that are 0 or of size 2^-24 to 32.
pub fn atan2(y: f32, x: f32) -> Result<f32, Refusal> {
    trig_answer(2, y, x)
}

/// Of an angle of size at most 4, read from a table, for a display: within 34 * 2^-24 of the sine. Each call copies the
/// table of 4,100 bytes to the stack.
pub fn table_sin(angle: f32) -> Result<f32, Refusal> {
    trig_answer(3, angle, 0.0)
}

/// Of an angle of size at most 4, read from a table, for a display: within 34 * 2^-24 of the cosine. Each call copies
/// the table of 4,100 bytes to the stack.
pub fn table_cos(angle: f32) -> Result<f32, Refusal> {
    trig_answer(4, angle, 0.0)
}

/// What an answered call shows, from the front: its values, and its kind with the counts and flags behind it.
struct Answer {
    values: [f32; 2],
    shown: [u32; 4],
}

impl Answer {
    fn done(self) {}

    fn verdict(self) -> UpdateResult {
        let [gate_value, _] = self.values;
        match self.shown[0] {
            0 => UpdateResult::Done,
            1 => UpdateResult::Accepted(gate_value),
            2 => UpdateResult::Rejected(gate_value),
            kind => UpdateResult::Other(kind),
        }
    }

    fn value(self) -> f32 {
        self.values[0]
    }

    /// Kind 3 shows something, kind 4 says that there is nothing.
    fn option(self) -> Option<f32> {
        (self.shown[0] == 3).then_some(self.values[0])
    }

    fn pair(self) -> [f32; 2] {
        self.values
    }

    fn counts(self) -> GateStats {
        let [_, accepted, rejected, _] = self.shown;
        GateStats { accepted, rejected }
    }

    fn flag(self) -> bool {
        self.shown[1] != 0
    }

    fn offsets(self) -> ([f32; 2], bool) {
        (self.values, self.shown[1] != 0)
    }
}

type Component = unsafe extern "C" fn(
    operation: u32,
    numbers: *mut f32,
    counts: *mut u32,
    arguments: *const f32,
    words: *const u32,
    values: *mut f32,
    shown: *mut u32,
) -> u32;

/// A record lies as the archive takes it: its numbers, and behind them its counts.
trait Record: Sized {
    const COMPONENT: Component;
    const NUMBERS: usize;
    const ZEROS: Self;

    /// The one way to the archive.
    ///
    /// # Safety
    /// `record` is a record, and may be written if the operation changes it.
    unsafe fn call(
        record: *mut Self,
        operation: u32,
        floats: &[f32],
        given: &[u32],
    ) -> Result<Answer, Refusal> {
        let (mut arguments, mut words) = ([0.0; 6], [0; 4]);
        arguments[..floats.len()].copy_from_slice(floats);
        words[..given.len()].copy_from_slice(given);
        let (mut values, mut shown, mut none) = ([0.0; 2], [0; 4], 0);
        let counts = if size_of::<Self>() == 4 * Self::NUMBERS {
            &raw mut none
        } else {
            unsafe { record.cast::<u32>().add(Self::NUMBERS) }
        };
        Refusal::of(unsafe {
            (Self::COMPONENT)(
                operation,
                record.cast(),
                counts,
                arguments.as_ptr(),
                words.as_ptr(),
                values.as_mut_ptr(),
                shown.as_mut_ptr(),
            )
        })?;
        Ok(Answer { values, shown })
    }

    fn change(&mut self, operation: u32, floats: &[f32], words: &[u32]) -> Result<Answer, Refusal> {
        unsafe { Self::call(self, operation, floats, words) }
    }

    /// A reader is handed the words themselves: the archive writes a record only where it answers a
    /// call that makes or changes it.
    fn read(&self, operation: u32, floats: &[f32], words: &[u32]) -> Result<Answer, Refusal> {
        let record: *const Self = self;
        unsafe { Self::call(record.cast_mut(), operation, floats, words) }
    }

    fn make(operation: u32, floats: &[f32], words: &[u32]) -> Result<Self, Refusal> {
        let mut made = Self::ZEROS;
        made.change(operation, floats, words)?;
        Ok(made)
    }
}

/// `record! { Name, export: numbers; counts }` makes a record with the words of docs/boundary.txt.
macro_rules! record {
    (
        $(#[$note:meta])* $name:ident, $export:ident:
        $($number:ident: $kind:ty),*; $($count:ident: $words:ty),*
    ) => {
        $(#[$note])*
        #[derive(Clone, Copy, Debug, PartialEq)]
        #[repr(C)]
        pub struct $name {
            $(pub $number: $kind,)*
            $(pub $count: $words,)*
        }

        impl Record for $name {
            const COMPONENT: Component = archive::$export;
            const NUMBERS: usize = (0 $(+ size_of::<$kind>())*) / 4;
            const ZEROS: Self = unsafe { core::mem::zeroed() };
        }
    };
}

/// Whether a record is so many numbers and, behind them, so many counts.
const fn lies<R: Record>(numbers: usize, counts: usize) -> bool {
    R::NUMBERS == numbers && size_of::<R>() == 4 * (numbers + counts)
}

// table: layouts
const _: () = assert!(lies::<Ekf>(25, 10));
const _: () = assert!(lies::<BiquadFilter>(9, 0));
const _: () = assert!(lies::<OrientationCorrector>(11, 2));
const _: () = assert!(lies::<GpsAcceleration>(5, 8));
const _: () = assert!(lies::<TiltEstimator>(6, 2));
const _: () = assert!(lies::<YawRateCalibrator>(27, 4));
const _: () = assert!(lies::<HeadingAligner>(6, 2));
// end

#[derive(Clone, Copy, Debug, PartialEq)]
#[repr(C)]
pub struct EkfConfig {
    pub q_acc: f32,
    pub q_gyro: f32,
    pub q_bias: f32,
    pub r_pos: f32,
    pub r_vel: f32,
    pub r_yaw: f32,
    pub min_speed: f32,
}

/// The archive's, which is the original's.
impl Default for EkfConfig {
    fn default() -> Self {
        Ekf::new().config
    }
}

record! {
    /// The filter. x and p: position x and y, yaw, velocity x and y, bias x and y. `rejection_run`: of position.
    Ekf, track_ekf:
    x: [f32; 7], p: [f32; 7], config: EkfConfig, nis_position_sum: f32, last_gps: [f32; 2],
    last_moving_yaw: f32;
    rejected_position: u32, rejected_velocity: u32, rejected_yaw: u32,
    accepted_position: u32, accepted_velocity: u32, accepted_yaw: u32,
    nis_position_count: u32, has_last_gps: u32, has_last_moving_yaw: u32,
    rejection_run: u32
}

/// What an answered call said: a measurement with a gate is accepted or rejected, with the gate value that
/// was compared; any other call is done. A later archive may say something else.
#[derive(Clone, Copy, Debug, PartialEq)]
#[non_exhaustive]
pub enum UpdateResult {
    Done,
    Accepted(f32),
    Rejected(f32),
    Other(u32),
}

/// The edition of the turn rule, by request C-16: the first is the original's, the second takes the
/// velocity as what it is, one in the earth frame.
#[derive(Clone, Copy, Debug, PartialEq, Eq)]
pub enum Edition {
    First = 1,
    Second = 2,
}

/// By its number, as a setting or [`Replayer::edition`] has it; any other is out of range.
impl TryFrom<u32> for Edition {
    type Error = Refusal;

    fn try_from(number: u32) -> Result<Self, Refusal> {
        match number {
            1 => Ok(Self::First),
            2 => Ok(Self::Second),
            _ => Err(Refusal::OutOfRange),
        }
    }
}

#[derive(Clone, Copy, Debug, PartialEq, Eq)]
pub struct GateStats {
    pub accepted: u32,
    pub rejected: u32,
}

impl Default for Ekf {
    fn default() -> Self {
        Self::new()
    }
}

impl Ekf {
    /// A fresh filter with the default configuration: it is never refused.
    pub fn new() -> Self {
        let mut made = Self::ZEROS;
        let _ = made.change(15, &[], &[]);
        made
    }

    pub fn with_config(config: EkfConfig) -> Result<Self, Refusal> {
        let mut made = Self {
            config,
            ..Self::ZEROS
        };
        made.change(0, &[], &[])?;
        Ok(made)
    }

    // table: ekf
    pub fn predict(
        &mut self,
        edition: Edition,
        ax_earth: f32,
        ay_earth: f32,
        wz: f32,
        dt: f32,
    ) -> Result<(), Refusal> {
        self.change(1, &[ax_earth, ay_earth, wz, dt], &[edition as u32])
            .map(Answer::done)
    }

    /// Rejections in a row are counted in rejection_run, and an accepted position sets it to 0. The
    /// eighth raises both variances of the position to 100 where they are below, and begins a new run.
    /// With a run above 7 the calls of position and predict are refused with 4.
    pub fn update_position(&mut self, z_x: f32, z_y: f32) -> Result<UpdateResult, Refusal> {
        self.change(2, &[z_x, z_y], &[]).map(Answer::verdict)
    }

    pub fn lock_position(&mut self) -> Result<(), Refusal> {
        self.change(3, &[], &[]).map(Answer::done)
    }

    pub fn skip_prediction(&mut self) -> Result<(), Refusal> {
        self.change(4, &[], &[]).map(Answer::done)
    }

    pub fn reset_nis_stats(&mut self) -> Result<(), Refusal> {
        self.change(5, &[], &[]).map(Answer::done)
    }

    pub fn update_velocity(&mut self, z_vx: f32, z_vy: f32) -> Result<(), Refusal> {
        self.change(6, &[z_vx, z_vy], &[]).map(Answer::done)
    }

    pub fn update_speed(&mut self, z_speed: f32) -> Result<(), Refusal> {
        self.change(7, &[z_speed], &[]).map(Answer::done)
    }

    pub fn zupt(&mut self) -> Result<(), Refusal> {
        self.change(8, &[], &[]).map(Answer::done)
    }

    pub fn update_yaw(&mut self, z_yaw: f32) -> Result<UpdateResult, Refusal> {
        self.change(9, &[z_yaw], &[]).map(Answer::verdict)
    }

    pub fn update_yaw_soft(
        &mut self,
        z_yaw: f32,
        r_yaw_factor: f32,
    ) -> Result<UpdateResult, Refusal> {
        self.change(10, &[z_yaw, r_yaw_factor], &[])
            .map(Answer::verdict)
    }

    pub fn lock_yaw(&mut self) -> Result<(), Refusal> {
        self.change(11, &[], &[]).map(Answer::done)
    }

    pub fn store_moving_yaw(&mut self, yaw: f32) -> Result<(), Refusal> {
        self.change(12, &[yaw], &[]).map(Answer::done)
    }

    pub fn update_bias(&mut self, z_ax: f32, z_ay: f32) -> Result<(), Refusal> {
        self.change(13, &[z_ax, z_ay], &[]).map(Answer::done)
    }

    pub fn reset_gate_stats(&mut self) -> Result<(), Refusal> {
        self.change(14, &[], &[]).map(Answer::done)
    }

    pub fn position(&self) -> Result<[f32; 2], Refusal> {
        self.read(16, &[], &[]).map(Answer::pair)
    }

    pub fn position_gate_stats(&self) -> Result<GateStats, Refusal> {
        self.read(17, &[], &[]).map(Answer::counts)
    }

    pub fn get_nis_position_avg(&self) -> Result<f32, Refusal> {
        self.read(18, &[], &[]).map(Answer::value)
    }

    pub fn get_gps_discrepancy(&self) -> Result<f32, Refusal> {
        self.read(19, &[], &[]).map(Answer::value)
    }

    pub fn get_effective_pos_sigma(&self) -> Result<f32, Refusal> {
        self.read(20, &[], &[]).map(Answer::value)
    }

    pub fn velocity(&self) -> Result<[f32; 2], Refusal> {
        self.read(21, &[], &[]).map(Answer::pair)
    }

    pub fn speed(&self) -> Result<f32, Refusal> {
        self.read(22, &[], &[]).map(Answer::value)
    }

    pub fn velocity_gate_stats(&self) -> Result<GateStats, Refusal> {
        self.read(23, &[], &[]).map(Answer::counts)
    }

    pub fn yaw(&self) -> Result<f32, Refusal> {
        self.read(24, &[], &[]).map(Answer::value)
    }

    pub fn yaw_gate_stats(&self) -> Result<GateStats, Refusal> {
        self.read(25, &[], &[]).map(Answer::counts)
    }

    pub fn get_last_moving_yaw(&self) -> Result<Option<f32>, Refusal> {
        self.read(26, &[], &[]).map(Answer::option)
    }

    pub fn biases(&self) -> Result<[f32; 2], Refusal> {
        self.read(27, &[], &[]).map(Answer::pair)
    }
    // end
}

record! {
    /// The Butterworth low-pass of the second order.
    #[derive(Default)]
    BiquadFilter, track_lowpass:
    b0: f32, b1: f32, b2: f32, a1: f32, a2: f32, x1: f32, x2: f32, y1: f32, y2: f32;
}

impl BiquadFilter {
    // table: lowpass
    pub fn new_lowpass(cutoff: f32, rate: f32) -> Result<Self, Refusal> {
        Self::make(0, &[cutoff, rate], &[])
    }

    pub fn process(&mut self, input: f32) -> Result<f32, Refusal> {
        self.change(1, &[input], &[]).map(Answer::value)
    }

    pub fn reset_to(&mut self, value: f32) -> Result<(), Refusal> {
        self.change(2, &[value], &[]).map(Answer::done)
    }
    // end
}

record! {
    /// Learns by how much the mounting is off in pitch and roll.
    #[derive(Default)]
    OrientationCorrector, track_orientation:
    pitch_correction: f32, roll_correction: f32, pitch_confidence: f32, roll_confidence: f32,
    cruise_bias: f32, cruise_bias_sum: f32, cruise_time: f32,
    alpha: f32, min_speed: f32, min_accel: f32, max_correction: f32;
    cruise_bias_count: u32, update_count: u32
}

/// What the orientation corrector compares.
#[derive(Clone, Copy, Debug)]
pub struct Sample {
    pub lon_imu: f32,
    pub lon_gps: f32,
    pub lat_imu: f32,
    pub lat_gps: f32,
    pub speed: f32,
    pub dt: f32,
    pub is_gps_fresh: bool,
}

impl OrientationCorrector {
    pub fn update(&mut self, sample: Sample) -> Result<(), Refusal> {
        let Sample {
            lon_imu,
            lon_gps,
            lat_imu,
            lat_gps,
            speed,
            dt,
            is_gps_fresh,
        } = sample;
        let floats = [lon_imu, lon_gps, lat_imu, lat_gps, speed, dt];
        self.change(1, &floats, &[is_gps_fresh as u32])
            .map(Answer::done)
    }

    // table: orientation
    pub fn new(
        alpha: f32,
        min_speed: f32,
        min_accel: f32,
        max_correction: f32,
    ) -> Result<Self, Refusal> {
        Self::make(0, &[alpha, min_speed, min_accel, max_correction], &[])
    }

    pub fn reset(&mut self) -> Result<(), Refusal> {
        self.change(2, &[], &[]).map(Answer::done)
    }

    pub fn get_cruise_bias(&self) -> Result<f32, Refusal> {
        self.read(3, &[], &[]).map(Answer::value)
    }

    pub fn get_pitch_correction_deg(&self) -> Result<f32, Refusal> {
        self.read(4, &[], &[]).map(Answer::value)
    }

    pub fn get_roll_correction_deg(&self) -> Result<f32, Refusal> {
        self.read(5, &[], &[]).map(Answer::value)
    }

    pub fn get_pitch_confidence(&self) -> Result<f32, Refusal> {
        self.read(6, &[], &[]).map(Answer::value)
    }

    pub fn get_roll_confidence(&self) -> Result<f32, Refusal> {
        self.read(7, &[], &[]).map(Answer::value)
    }
    // end
}

record! {
    /// The acceleration of two fixes, and the rate of fixes. A time is whole milliseconds, and any 64 bits
    /// are one; in the record it is two words, the low one first. dt and time_since_fix are floats, in
    /// seconds.
    #[derive(Default)]
    GpsAcceleration, track_gps:
    prev_speed: f32, accel_lon: f32, gps_rate: f32, time_since_fix: f32, rate_ema: f32;
    valid: u32, last_fix_count: u32, has_prev_fix: u32, prev_time: [u32; 2],
    has_last_rate: u32, last_rate_time: [u32; 2]
}

impl GpsAcceleration {
    // table: gps
    pub fn new() -> Result<Self, Refusal> {
        Self::make(0, &[], &[])
    }

    /// The acceleration since the previous fix, if that is strictly between 20 and 500 ms back; else
    /// nothing. The fix is stored either way.
    pub fn update(&mut self, speed: f32, time: u64) -> Result<Option<f32>, Refusal> {
        self.change(1, &[speed], &[time as u32, (time >> 32) as u32])
            .map(Answer::option)
    }

    /// Learns the rate if the stored time is 1,000 ms or more back, and stores time and count; the
    /// first call only stores them, and any other changes nothing. After one gap above 16,777,216 ms
    /// (4.7 hours) each call at a later time is refused with 2, since a refused call stores nothing: a
    /// fresh learner is the way out.
    pub fn update_rate(&mut self, fix_count: u32, time: u64) -> Result<(), Refusal> {
        self.change(2, &[], &[fix_count, time as u32, (time >> 32) as u32])
            .map(Answer::done)
    }

    pub fn advance_time(&mut self, dt: f32) -> Result<(), Refusal> {
        self.change(3, &[dt], &[]).map(Answer::done)
    }

    pub fn get_rate(&self) -> Result<f32, Refusal> {
        self.read(4, &[], &[]).map(Answer::value)
    }
    // end
}

record! {
    /// Learns the offsets of the accelerations at rest.
    #[derive(Default)]
    TiltEstimator, track_tilt:
    accel_x_sum: f32, accel_y_sum: f32, stationary_time: f32, offset_x: f32, offset_y: f32,
    learn_time: f32;
    sample_count: u32, offset_valid: u32
}

impl TiltEstimator {
    // table: tilt
    pub fn new(learn_time: f32) -> Result<Self, Refusal> {
        Self::make(0, &[learn_time], &[])
    }

    /// Whether it learned.
    pub fn update_stationary(
        &mut self,
        ax_earth: f32,
        ay_earth: f32,
        dt: f32,
    ) -> Result<bool, Refusal> {
        self.change(1, &[ax_earth, ay_earth, dt], &[])
            .map(Answer::flag)
    }

    pub fn reset_stationary(&mut self) -> Result<(), Refusal> {
        self.change(2, &[], &[]).map(Answer::done)
    }

    pub fn get_offsets(&self) -> Result<([f32; 2], bool), Refusal> {
        self.read(3, &[], &[]).map(Answer::offsets)
    }
    // end
}

record! {
    /// Learns the bias of the yaw rate on straights.
    #[derive(Default)]
    YawRateCalibrator, track_yawrate:
    bias: f32, straight_time: f32, yaw_sum: f32, min_speed: f32, heading_tolerance: f32,
    learn_time: f32, alpha: f32, heading_history: [f32; 20];
    valid: u32, heading_idx: u32, heading_count: u32, sample_count: u32
}

impl YawRateCalibrator {
    // table: yawrate
    pub fn new(
        min_speed: f32,
        heading_tolerance: f32,
        learn_time: f32,
        alpha: f32,
    ) -> Result<Self, Refusal> {
        Self::make(0, &[min_speed, heading_tolerance, learn_time, alpha], &[])
    }

    /// A course in radians, from -PI to PI or from 0 to a full turn, up to 32 in size. It is stored
    /// folded into -PI to PI.
    pub fn update_heading(&mut self, heading: f32) -> Result<(), Refusal> {
        self.change(1, &[heading], &[]).map(Answer::done)
    }

    /// Whether it learned.
    pub fn update(&mut self, yaw_rate: f32, speed: f32, dt: f32) -> Result<bool, Refusal> {
        self.change(2, &[yaw_rate, speed, dt], &[])
            .map(Answer::flag)
    }

    pub fn get_bias(&self) -> Result<f32, Refusal> {
        self.read(3, &[], &[]).map(Answer::value)
    }

    pub fn is_valid(&self) -> Result<bool, Refusal> {
        self.read(4, &[], &[]).map(Answer::flag)
    }
    // end
}

record! {
    /// Learns by how much the filter's yaw is off the course.
    #[derive(Default)]
    HeadingAligner, track_aligner:
    offset: f32, alpha: f32, min_speed: f32, last_gps_course: f32, time_since_gps: f32,
    max_gps_age: f32;
    valid: u32, update_count: u32
}

impl HeadingAligner {
    // table: aligner
    pub fn new(alpha: f32, min_speed: f32, max_gps_age: f32) -> Result<Self, Refusal> {
        Self::make(0, &[alpha, min_speed, max_gps_age], &[])
    }

    /// A course in radians, from -PI to PI or from 0 to a full turn, up to 32 in size. It is stored
    /// folded into -PI to PI.
    pub fn update_gps_course(&mut self, gps_course: f32) -> Result<(), Refusal> {
        self.change(1, &[gps_course], &[]).map(Answer::done)
    }

    /// Whether it learned.
    pub fn update(&mut self, ekf_yaw: f32, speed: f32, dt: f32) -> Result<bool, Refusal> {
        self.change(2, &[ekf_yaw, speed, dt], &[]).map(Answer::flag)
    }

    pub fn get_aligned_heading(&self, ekf_yaw: f32) -> Result<f32, Refusal> {
        self.read(3, &[ekf_yaw], &[]).map(Answer::value)
    }

    pub fn is_valid(&self) -> Result<bool, Refusal> {
        self.read(4, &[], &[]).map(Answer::flag)
    }

    pub fn get_offset(&self) -> Result<f32, Refusal> {
        self.read(5, &[], &[]).map(Answer::value)
    }

    pub fn get_confidence(&self) -> Result<f32, Refusal> {
        self.read(6, &[], &[]).map(Answer::value)
    }

    pub fn reset(&mut self) -> Result<(), Refusal> {
        self.change(7, &[], &[]).map(Answer::done)
    }
    // end
}

#[derive(Clone, Copy, Debug)]
pub struct Weights {
    pub high: f32,
    pub medium: f32,
    pub low: f32,
}

#[derive(Clone, Copy, Debug, PartialEq)]
pub struct Blended {
    pub acceleration: f32,
    pub weight: f32,
}

/// The IMU's acceleration and that of GPS, if there is one.
pub fn blend(
    imu: f32,
    gps: Option<f32>,
    confidence: f32,
    weights: Weights,
) -> Result<Blended, Refusal> {
    let Weights { high, medium, low } = weights;
    let (row, mut values) = ([high, medium, low], [0.0; 2]);
    Refusal::of(unsafe {
        archive::track_blend(
            imu,
            gps.is_some() as u32,
            gps.unwrap_or(0.0),
            confidence,
            row.as_ptr(),
            values.as_mut_ptr(),
        )
    })?;
    let [acceleration, weight] = values;
    Ok(Blended {
        acceleration,
        weight,
    })
}

/// The room asked for, which depends on the log's length alone.
#[derive(Clone, Copy, Debug, PartialEq, Eq)]
pub struct TooShort(pub usize);

/// Replays a log and writes its listing to the front of `out`: the listing.
pub fn list<'a>(log: &[u8], out: &'a mut [u8]) -> Result<&'a [u8], TooShort> {
    let (log_length, out_length) = (log.len() as u64, out.len() as u64);
    let given =
        unsafe { archive::track_list(log.as_ptr(), log_length, out.as_mut_ptr(), out_length) };
    // above the length of `out` on any machine, if it does not fit
    let given = usize::try_from(given).unwrap_or(usize::MAX);
    out.get(..given).ok_or(TooShort(given))
}

/// The room that [`list`] asks for; it depends on the log's length alone.
pub fn list_room(log: &[u8]) -> usize {
    match list(log, &mut []) {
        Ok(listing) => listing.len(),
        Err(TooShort(room)) => room,
    }
}

numbers! {
    /// Why reading a log stopped, by document 01's number. It is no refusal of a call: those are listed,
    /// and reading goes on.
    Stop:
    3 Configuration "the configuration is not finite or out of range",
    7 Cut "the last record is cut",
    8 Unknown "a tag, a mark or an edition is unknown",
    9 Length "a record has the wrong length for its tag",
    10 Place "the first record is no configuration, a later one is, or an edition is not the second"
}

/// The filter at a log's end or before its stop, if a configuration was taken; and the stop, if there
/// was one.
#[derive(Clone, Copy, Debug, PartialEq)]
pub struct Replayed {
    pub filter: Option<Ekf>,
    pub stop: Option<Stop>,
}

/// Replays a log.
pub fn replay(log: &[u8]) -> Replayed {
    let mut filter = Ekf::ZEROS;
    let row: *mut Ekf = &mut filter;
    let number = unsafe {
        archive::track_replay(
            log.as_ptr(),
            log.len() as u64,
            row.cast(),
            row.cast::<u32>().add(Ekf::NUMBERS),
        )
    };
    Replayed {
        filter: (filter.config.r_pos != 0.0).then_some(filter),
        stop: Stop::of(number).err(),
    }
}

/// A log replayed one record at a time: the number of the next record, the number of the [`Edition`] by
/// which a prediction is made, and the filter. While the number is 1, no configuration was taken. The
/// edition is the first, or that of the log's second record.
#[derive(Clone, Copy, Debug, PartialEq)]
pub struct Replayer {
    pub number: u32,
    pub edition: u32,
    pub filter: Ekf,
}

/// What a record comes to.
#[derive(Clone, Copy, Debug, PartialEq)]
pub enum Turn {
    /// A line of the listing: what the record's call gave.
    Line(Result<UpdateResult, Refusal>),
    /// The replayer stays as it was.
    Stop(Stop),
    /// There was no record.
    End,
}

impl Default for Replayer {
    fn default() -> Self {
        Self::new()
    }
}

impl Replayer {
    pub fn new() -> Self {
        Self {
            number: 1,
            edition: Edition::First as u32,
            filter: Ekf::new(),
        }
    }

    /// The turn of the record that `record` begins with. At the log's end it is empty; bytes behind the
    /// record are not looked at. The archive tells a line by raising the number, but not beyond the
    /// largest: for that, one less is handed on.
    pub fn next(&mut self, record: &[u8]) -> Turn {
        let number = self.number.min(u32::MAX - 1);
        let mut replay = [number, self.edition];
        let (mut values, mut shown) = ([0.0; 2], [0; 4]);
        let row: *mut Ekf = &mut self.filter;
        let given = unsafe {
            archive::track_replay_record(
                record.as_ptr(),
                record.len() as u64,
                replay.as_mut_ptr(),
                row.cast(),
                row.cast::<u32>().add(Ekf::NUMBERS),
                values.as_mut_ptr(),
                shown.as_mut_ptr(),
            )
        };
        self.edition = replay[1];
        if replay[0] == number {
            return Stop::of(given).map_or_else(Turn::Stop, |()| Turn::End);
        }
        self.number = replay[0];
        Turn::Line(Refusal::of(given).map(|()| Answer { values, shown }.verdict()))
    }
}

/// The length of the record that begins with this header.
pub fn record_length(header: [u8; 3]) -> usize {
    let [_, low, high] = header;
    3 + usize::from(u16::from_le_bytes([low, high]))
}

/// How close to the gate fixes came, by request C-14. A count stops at 4,294,967,295.
#[derive(Clone, Copy, Debug, PartialEq, Eq)]
#[repr(C)]
pub struct Summary {
    /// Bucket k counts the accepted gate values of position from k/4 up to, and without, (k + 1)/4; the
    /// last one has 32.0 too.
    pub buckets: [u32; 128],
    pub rejections: u32,
}

const _: () = assert!(size_of::<Summary>() == 4 * 129);

impl Default for Summary {
    fn default() -> Self {
        Self::new()
    }
}

impl Summary {
    /// An empty one.
    pub const fn new() -> Self {
        Self {
            buckets: [0; 128],
            rejections: 0,
        }
    }

    /// The lowest value of a bucket.
    pub fn bucket_begin(bucket: usize) -> f32 {
        bucket as f32 / 4.0
    }

    /// Counts what [`Ekf::update_position`] gave. What is neither accepted nor rejected is out of range. A
    /// yaw has another gate, and does not belong here.
    pub fn add(&mut self, verdict: UpdateResult) -> Result<(), Refusal> {
        let (kind, gate_value) = match verdict {
            UpdateResult::Done => (0, 0.0),
            UpdateResult::Accepted(gate_value) => (1, gate_value),
            UpdateResult::Rejected(gate_value) => (2, gate_value),
            UpdateResult::Other(kind) => (kind, 0.0),
        };
        Refusal::of(unsafe { archive::track_summary_add(self.words(), kind, gate_value) })
    }

    /// Adds each count of the other to the one in its place.
    pub fn merge(&mut self, other: &Self) {
        let other: *const Self = other;
        unsafe { archive::track_summary_merge(self.words(), other.cast()) }
    }

    fn words(&mut self) -> *mut u32 {
        let words: *mut Self = self;
        words.cast()
    }
}

/// The summary of a log's position verdicts up to its end or its stop, an empty one where no configuration
/// was taken; and the stop, if there was one.
#[derive(Clone, Copy, Debug, PartialEq, Eq)]
pub struct Summarized {
    pub summary: Summary,
    pub stop: Option<Stop>,
}

/// Replays a log and counts its position verdicts.
pub fn summarize(log: &[u8]) -> Summarized {
    let mut summary = Summary::new();
    let number =
        unsafe { archive::track_summarize(log.as_ptr(), log.len() as u64, summary.words()) };
    Summarized {
        summary,
        stop: Stop::of(number).err(),
    }
}

numbers! {
    /// Why a record was not written, by the number of request C-11. Then nothing was, neither to the
    /// buffer nor to the used length.
    WriteRefusal:
    2 Used "the used length is beyond the buffer",
    8 Unknown "the tag, the mark or the edition is unknown",
    9 Length "the payload has the wrong length for its tag",
    11 Full "the record is longer than what is left of the buffer"
}

/// A log in the making, in the front of a buffer.
///
/// A writer knows neither a record's number nor the ranges of its floats: that the first record alone is
/// a configuration, and one in range, and that an edition is the second record is a caller's to keep, and
/// replaying tests it ([`Stop::Place`], [`Stop::Configuration`]). The bits of floats pass through
/// untouched, NaN too.
#[derive(Debug)]
pub struct LogWriter<'a> {
    buf: &'a mut [u8],
    used: usize,
}

impl<'a> LogWriter<'a> {
    /// Begins a log.
    pub fn new(buf: &'a mut [u8]) -> Self {
        Self { buf, used: 0 }
    }

    /// Goes on behind the log that the first `used` bytes of the buffer hold.
    pub fn behind(buf: &'a mut [u8], used: usize) -> Result<Self, WriteRefusal> {
        if used > buf.len() {
            return Err(WriteRefusal::Used);
        }
        Ok(Self { buf, used })
    }

    /// The log so far.
    pub fn written(&self) -> &[u8] {
        &self.buf[..self.used]
    }

    /// The length of the log so far.
    pub fn used(&self) -> usize {
        self.used
    }

    /// Writes any record.
    pub fn append(&mut self, tag: u32, payload: &[u8]) -> Result<(), WriteRefusal> {
        WriteRefusal::of(unsafe {
            archive::track_append(
                self.buf.as_mut_ptr(),
                self.buf.len() as u64,
                &mut self.used,
                tag,
                payload.as_ptr(),
                payload.len() as u64,
            )
        })
    }

    fn floats<const N: usize>(&mut self, tag: u32, floats: [f32; N]) -> Result<(), WriteRefusal> {
        self.append(tag, floats.map(f32::to_le_bytes).as_flattened())
    }

    fn mark(&mut self, mark: u8) -> Result<(), WriteRefusal> {
        self.append(8, &[mark])
    }

    pub fn write_config(&mut self, config: EkfConfig) -> Result<(), WriteRefusal> {
        let EkfConfig {
            q_acc,
            q_gyro,
            q_bias,
            r_pos,
            r_vel,
            r_yaw,
            min_speed,
        } = config;
        self.floats(1, [q_acc, q_gyro, q_bias, r_pos, r_vel, r_yaw, min_speed])
    }

    /// The edition of the log's predictions; without it they are by the first.
    pub fn write_edition(&mut self, edition: Edition) -> Result<(), WriteRefusal> {
        self.append(10, &[edition as u8])
    }

    pub fn write_predict(
        &mut self,
        ax_earth: f32,
        ay_earth: f32,
        wz: f32,
        dt: f32,
    ) -> Result<(), WriteRefusal> {
        self.floats(2, [ax_earth, ay_earth, wz, dt])
    }

    pub fn write_position(&mut self, z_x: f32, z_y: f32) -> Result<(), WriteRefusal> {
        self.floats(3, [z_x, z_y])
    }

    pub fn write_velocity(&mut self, z_vx: f32, z_vy: f32) -> Result<(), WriteRefusal> {
        self.floats(4, [z_vx, z_vy])
    }

    pub fn write_speed(&mut self, z_speed: f32) -> Result<(), WriteRefusal> {
        self.floats(5, [z_speed])
    }

    pub fn write_yaw(&mut self, z_yaw: f32) -> Result<(), WriteRefusal> {
        self.floats(6, [z_yaw])
    }

    pub fn write_bias(&mut self, z_ax: f32, z_ay: f32) -> Result<(), WriteRefusal> {
        self.floats(7, [z_ax, z_ay])
    }

    pub fn write_yaw_soft(&mut self, z_yaw: f32, r_yaw_factor: f32) -> Result<(), WriteRefusal> {
        self.floats(9, [z_yaw, r_yaw_factor])
    }

    pub fn write_zupt(&mut self) -> Result<(), WriteRefusal> {
        self.mark(1)
    }

    pub fn write_lock_position(&mut self) -> Result<(), WriteRefusal> {
        self.mark(2)
    }

    pub fn write_lock_yaw(&mut self) -> Result<(), WriteRefusal> {
        self.mark(3)
    }

    pub fn write_skip_prediction(&mut self) -> Result<(), WriteRefusal> {
        self.mark(4)
    }

    pub fn write_reset_gate_stats(&mut self) -> Result<(), WriteRefusal> {
        self.mark(5)
    }

    pub fn write_reset_nis_stats(&mut self) -> Result<(), WriteRefusal> {
        self.mark(6)
    }
}
