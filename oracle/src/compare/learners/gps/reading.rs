//! A second reading of the change request for fix times in whole milliseconds, over the original.
//!
//! The reading decides what is a previous time, which intervals count and what is stored. The numbers
//! are the original's own: it is run on a clock that begins with the stored time, so that its interval
//! is the divisor of the request. Where its clock of seconds is exact, it is run on that as well. Where
//! reading and original do not agree, the run stops.

use crate::compare::learners::record::Field;
use crate::fusion::peek::RawGps;
use crate::fusion::GpsAcceleration;
use core::slice::{Iter, IterMut};

/// Where that clock begins: the original takes only a time above 0 for a previous one. A millisecond
/// or more, less this, rounds to itself.
const BEGIN: f32 = f32::from_bits(1);

fn seconds(milliseconds: u64) -> f32 {
    milliseconds as f32 / 1000.0
}

/// The original's clock where it is exact: at eighths of a second, as long as a float has them.
fn exact_seconds(milliseconds: u64) -> Option<f32> {
    let eighths = (milliseconds / 125) as f32;
    let exact = milliseconds % 125 == 0 && eighths as u64 == milliseconds / 125;
    exact.then_some(eighths / 8.0)
}

/// A stored time, and the flag that says whether there is one.
#[derive(Clone, Copy)]
pub struct Stamp {
    pub there: bool,
    pub time: u64,
}

/// The flag's word, then those of the time.
impl Field<u32> for Stamp {
    fn take(words: &mut Iter<u32>) -> Self {
        let (there, time) = (bool::take(words), u64::take(words));
        Self { there, time }
    }

    fn put(self, words: &mut IterMut<u32>) {
        self.there.put(words);
        self.time.put(words);
    }
}

impl Stamp {
    /// The interval up to a time, unless the clock went back.
    fn passed(self, time: u64) -> Option<u64> {
        self.there.then(|| time.checked_sub(self.time)).flatten()
    }

    /// Whether `update_rate` stores what it is given: at first, and from 1,000 ms on.
    fn is_due(self, time: u64) -> bool {
        !self.there || self.passed(time).is_some_and(|passed| passed >= 1_000)
    }

    /// The stored time and the given one, on a clock that begins with the former.
    fn begun(self, time: u64) -> [f32; 2] {
        match self.passed(time) {
            Some(passed) => [BEGIN, seconds(passed)],
            None if self.there => [BEGIN, 0.0],
            None => [0.0, 1.0],
        }
    }

    /// Both on the original's clock, where it is exact at both and between them. It has no stored time
    /// of 0.
    pub fn exact(self, time: u64) -> Option<[f32; 2]> {
        if !self.there {
            return Some([0.0, exact_seconds(time)?]);
        }
        exact_seconds(self.time.abs_diff(time))?;
        let stored = exact_seconds(self.time).filter(|&stored| stored > 0.0);
        Some([stored?, exact_seconds(time)?])
    }
}

/// All of the record: the original's numbers, and two stamps in place of its times.
#[derive(Clone, Copy)]
pub struct Reading {
    pub prev_speed: f32,
    pub accel_lon: f32,
    pub gps_rate: f32,
    pub time_since_fix: f32,
    pub rate_ema: f32,
    pub valid: bool,
    pub last_fix_count: u32,
    pub prev_fix: Stamp,
    pub last_rate: Stamp,
}

impl Reading {
    /// The scope paper's fresh learner: the original's, but for `time_since_fix`.
    pub fn fresh() -> Self {
        let none = Stamp {
            there: false,
            time: 0,
        };
        let fresh = RawGps::of(&GpsAcceleration::new());
        Self {
            time_since_fix: 0.0,
            ..Self::with(&fresh, none, none)
        }
    }

    pub fn update(&mut self, speed: f32, time: u64) -> Option<f32> {
        let stored = self.prev_fix;
        let usable = stored.passed(time);
        let usable = usable.is_some_and(|passed| 20 < passed && passed < 500);
        self.prev_fix = Stamp { there: true, time };
        let answer = self.run(stored, time, |gps, clock| {
            let answer = gps.update(speed, clock[1]);
            assert!(RawGps::of(gps).prev_time == clock[1]);
            answer
        });
        assert!(answer.is_some() == usable);
        answer
    }

    pub fn update_rate(&mut self, fix_count: u32, time: u64) {
        let stored = self.last_rate;
        let due = stored.is_due(time);
        if due {
            self.last_rate = Stamp { there: true, time };
        }
        self.run(stored, time, |gps, clock| {
            gps.update_rate(fix_count, clock[1]);
            assert!(RawGps::of(gps).last_rate_time == clock[due as usize]);
            None
        });
    }

    pub fn advance_time(&mut self, dt: f32) {
        let mut gps = self.original(0.0);
        gps.advance_time(dt);
        self.take(&RawGps::of(&gps));
    }

    pub fn get_rate(&self) -> f32 {
        self.original(0.0).get_rate()
    }

    /// Makes a call of the original with a stored time and a given one.
    fn run(
        &mut self,
        stored: Stamp,
        time: u64,
        call: impl Fn(&mut GpsAcceleration, [f32; 2]) -> Option<f32>,
    ) -> Option<f32> {
        let on = |clock: [f32; 2]| {
            let mut gps = self.original(clock[0]);
            let answer = call(&mut gps, clock);
            (RawGps::of(&gps), answer)
        };
        let (left, answer) = on(stored.begun(time));
        if let Some(clock) = stored.exact(time) {
            let (own, own_answer) = on(clock);
            assert!(numbers(&own) == numbers(&left));
            assert!(own_answer.map(f32::to_bits) == answer.map(f32::to_bits));
        }
        self.take(&left);
        answer
    }

    /// The original with this for either stored time: no call looks at both.
    fn original(&self, stored: f32) -> GpsAcceleration {
        RawGps {
            prev_speed: self.prev_speed,
            prev_time: stored,
            accel_lon: self.accel_lon,
            valid: self.valid,
            gps_rate: self.gps_rate,
            time_since_fix: self.time_since_fix,
            rate_ema: self.rate_ema,
            last_fix_count: self.last_fix_count,
            last_rate_time: stored,
        }
        .build()
    }

    fn take(&mut self, raw: &RawGps) {
        *self = Self::with(raw, self.prev_fix, self.last_rate);
    }

    fn with(raw: &RawGps, prev_fix: Stamp, last_rate: Stamp) -> Self {
        Self {
            prev_speed: raw.prev_speed,
            accel_lon: raw.accel_lon,
            gps_rate: raw.gps_rate,
            time_since_fix: raw.time_since_fix,
            rate_ema: raw.rate_ema,
            valid: raw.valid,
            last_fix_count: raw.last_fix_count,
            prev_fix,
            last_rate,
        }
    }

    /// It is laid in a record as it is.
    pub fn of(&self) -> Self {
        *self
    }

    pub fn build(&self) -> Self {
        *self
    }
}

/// All but the times.
fn numbers(raw: &RawGps) -> [u32; 7] {
    [
        raw.prev_speed.to_bits(),
        raw.accel_lon.to_bits(),
        raw.gps_rate.to_bits(),
        raw.time_since_fix.to_bits(),
        raw.rate_ema.to_bits(),
        raw.valid as u32,
        raw.last_fix_count,
    ]
}
