//! An hour of driving through all learners, the low-pass and the blend, on both sides.
//!
//! 200 Hz IMU; 10 Hz GPS with double fixes and gaps, or 8 Hz with gaps, where the original's clock of
//! seconds is exact, in turn. Twelve trips, each with fresh learners, the last six after 131,072 s. A
//! side goes on from what itself stored, and every number is compared after every call. The receiver
//! counts courses from 0 to a turn: the original is given them folded, the archive folded and as they
//! are. A second receiver gives hundredths, and the tolerance of its yaw rate calibrator is one: there
//! the last bits of a circular mean decide.

use super::record::{Input, Record, BLANK};
use super::*;
use crate::compare::libc::printf;
use crate::compare::ranges::{evenly, range, size, Range};
use crate::fusion::peek::wrap_angle;
use crate::fusion::HeadingAligner;
use crate::stepping::peek::RawYawRate;
use crate::stepping::YawRateCalibrator;

const RATE: u32 = 200;
const STEP: f32 = 1.0 / RATE as f32;
const TRIP: u32 = 300 * RATE;
const HOUR: u32 = 12 * TRIP;
const STEP_MILLISECONDS: u64 = 1_000 / RATE as u64;
const LATER: u64 = 131_072_000;
/// Each branch that learns is taken so often.
const LEAST: u64 = 10;
/// So many courses are beyond PI, and so many offsets are others without a fold.
const LEAST_BEYOND: u64 = 1_000;
/// So many sample counts are others by the steps.
const LEAST_STEPPING: u64 = 100;
const HUNDREDTH: f32 = 0.01;

/// A learner on both sides.
struct Pair<L: Learner> {
    ours: Record,
    theirs: L::Whole,
    counts: Counts,
}

impl<L: Learner> Pair<L> {
    fn new() -> Self {
        Self {
            ours: BLANK,
            theirs: L::build(&BLANK),
            counts: Counts::default(),
        }
    }

    fn call(&mut self, run: &mut Run, operation: u32, given: &[f32]) -> Answer {
        self.call_with(run, operation, given, [0; 4])
    }

    fn call_with(
        &mut self,
        run: &mut Run,
        operation: u32,
        given: &[f32],
        words: [u32; 4],
    ) -> Answer {
        let input = input(&self.ours, operation, given, words);
        let answer = L::original(&mut self.theirs, &input);
        let wanted = Outcome {
            number: 0,
            record: L::of(&self.theirs),
            answer,
        };
        self.counts.learns::<L>(&input, &wanted);
        let call = call::<L>(run, &input);
        expect::<L>(run, &call, &input, &wanted, c"the original");
        keep::<L>(&call, &mut self.ours);
        answer
    }

    fn report(&self, run: &mut Run, name: &CStr) {
        unsafe { printf(c"  %s:\n".as_ptr(), name.as_ptr()) };
        self.counts.report_learns::<L>(run, LEAST);
    }
}

fn input(record: &Record, operation: u32, given: &[f32], words: [u32; 4]) -> Input {
    let mut arguments = [0.0; 6];
    arguments[..given.len()].copy_from_slice(given);
    Input {
        operation,
        record: *record,
        arguments,
        words,
    }
}

fn keep<L: Learner>(call: &Call, Record { numbers, counts }: &mut Record) {
    call.left(
        &mut numbers[..L::NUMBERS.len()],
        &mut counts[..L::COUNTS.len()],
    );
}

/// A learner on both sides, whose courses the caller has folded, and on the archive's side once more,
/// where they are as the receiver counts them.
struct Twice<L: Learner> {
    folded: Pair<L>,
    counted: Record,
}

impl<L: Learner> Twice<L> {
    fn new() -> Self {
        Self {
            folded: Pair::new(),
            counted: BLANK,
        }
    }

    fn enter(&mut self, run: &mut Run, operation: u32, course: f32) {
        self.both(run, operation, [&[wrap_angle(course)], &[course]]);
    }

    fn call(&mut self, run: &mut Run, operation: u32, given: &[f32]) {
        self.both(run, operation, [given; 2]);
    }

    fn both(&mut self, run: &mut Run, operation: u32, [folded, counted]: [&[f32]; 2]) {
        let answer = self.folded.call(run, operation, folded);
        let wanted = Outcome {
            number: 0,
            record: self.folded.ours,
            answer,
        };
        let input = input(&self.counted, operation, counted, [0; 4]);
        let call = call::<L>(run, &input);
        expect::<L>(run, &call, &input, &wanted, c"the course folded before");
        keep::<L>(&call, &mut self.counted);
    }
}

/// What a car does for some time: stand, gain speed, go straight, turn, brake.
#[derive(Clone, Copy)]
struct Phase {
    seconds: Range,
    acceleration: Range,
    turn: Range,
}

const fn phase(seconds: Range, acceleration: Range, turn: Range) -> Phase {
    Phase {
        seconds,
        acceleration,
        turn,
    }
}

const STAND: usize = 0;
const PHASES: [Phase; 7] = [
    phase(range(5.0, 8.0), size(0.0), size(0.0)),
    phase(range(6.0, 10.0), range(1.0, 3.0), size(0.02)),
    phase(range(8.0, 15.0), size(0.05), size(0.0)),
    phase(range(2.0, 5.0), size(0.5), size(0.4)),
    phase(range(8.0, 15.0), size(0.05), size(0.0)),
    phase(range(2.0, 5.0), size(0.5), size(0.4)),
    phase(range(30.0, 30.0), range(-4.0, -2.0), size(0.0)),
];

struct Car {
    phase: usize,
    left: u32,
    acceleration: f32,
    turn: f32,
    speed: f32,
    heading: f32,
    /// What a slope adds on both axes.
    slope: [f32; 2],
}

impl Car {
    /// Braking ends at rest.
    fn go(&mut self, random: &mut Random) {
        if self.left == 0 || (self.speed == 0.0 && self.acceleration < 0.0) {
            self.phase = (self.phase + 1) % PHASES.len();
            let Phase {
                seconds,
                acceleration,
                turn,
            } = PHASES[self.phase];
            self.left = (evenly(random, seconds) * RATE as f32) as u32;
            self.acceleration = evenly(random, acceleration);
            self.turn = evenly(random, turn);
            self.slope = [evenly(random, size(0.4)), evenly(random, size(0.4))];
        }
        self.left -= 1;
        self.speed = (self.speed + self.acceleration * STEP).max(0.0);
        self.heading = wrap_angle(self.heading + self.turn * STEP);
    }
}

/// All that is compared.
struct Sides {
    lowpass: Pair<LowPass>,
    orientation: Pair<Orientation>,
    gps: Pair<Gps>,
    tilt: Pair<Tilt>,
    yawrate: Twice<YawRate>,
    aligner: Twice<Aligner>,
    /// The original, given courses as the receiver counts them.
    unfolded: HeadingAligner,
    beyond: u64,
    others: u64,
    /// Of the second receiver, and the same with the sines and cosines of the steps.
    coarse: Pair<YawRate>,
    stepping: YawRateCalibrator,
    others_stepping: u64,
    blend: blend::Judge,
    blended: blend::Counts,
}

pub fn compare(run: &mut Run) {
    let mut sides = Sides {
        lowpass: Pair::new(),
        orientation: Pair::new(),
        gps: Pair::new(),
        tilt: Pair::new(),
        yawrate: Twice::new(),
        aligner: Twice::new(),
        unfolded: HeadingAligner::new(),
        beyond: 0,
        others: 0,
        coarse: Pair::new(),
        stepping: YawRateCalibrator::new(),
        others_stepping: 0,
        blend: blend::Judge::new(),
        blended: blend::Counts::default(),
    };
    let mut car = Car {
        phase: STAND,
        left: TRIP / 60,
        acceleration: 0.0,
        turn: 0.0,
        speed: 0.0,
        heading: 0.0,
        slope: [0.3, -0.1],
    };
    let (mut next_fix, mut fixes) = (0, 0);
    for step in 0..HOUR {
        if step % TRIP == 0 {
            sides.make(run);
            next_fix = step;
        }
        car.go(&mut run.random);
        if step == next_fix {
            fixes += 1;
            let later = if step < HOUR / 2 { 0 } else { LATER };
            let time = step as u64 * STEP_MILLISECONDS + later;
            sides.fix(run, &car, time, fixes);
            next_fix += pause(&mut run.random, step / TRIP);
        }
        sides.sample(run, &car);
    }
    sides.report(run);
}

/// The steps up to the next fix of a trip. Those of every other trip are eighths of a second.
fn pause(random: &mut Random, trip: u32) -> u32 {
    match (trip % 2, random.below(200)) {
        (0, 0) => 2,
        (0, 1) => random.between(90, 400) as u32,
        (0, _) => RATE / 10,
        (_, 0) => random.between(2, 16) as u32 * RATE / 8,
        _ => RATE / 8,
    }
}

impl Sides {
    /// Fresh ones with the parameters of the original.
    fn make(&mut self, run: &mut Run) {
        self.lowpass.call(run, 0, &[10.0, RATE as f32]);
        self.orientation.call(run, 0, &[0.05, 3.0, 0.3, 0.26]);
        self.gps.call(run, 0, &[]);
        self.tilt.call(run, 0, &[3.0]);
        self.yawrate.call(run, 0, &[8.0, 0.035, 3.0, 0.1]);
        self.aligner.call(run, 0, &[0.1, 5.0, 0.5]);
        self.unfolded = HeadingAligner::new();
        self.coarse.call(run, 0, &[8.0, HUNDREDTH, 3.0, 0.1]);
        self.stepping = RawYawRate {
            heading_tolerance: HUNDREDTH,
            ..RawYawRate::of(&YawRateCalibrator::new())
        }
        .build();
    }

    fn fix(&mut self, run: &mut Run, car: &Car, time: u64, fixes: u32) {
        let speed = (car.speed + evenly(&mut run.random, size(0.02))).max(0.0);
        let words = gps::fix_words(time);
        self.gps.call_with(run, gps::UPDATE, &[speed], words);
        let words = gps::rate_words(fixes, time);
        self.gps.call_with(run, gps::UPDATE_RATE, &[], words);
        if car.speed > 1.0 {
            let course = wrap_angle(car.heading + evenly(&mut run.random, size(0.01)));
            let hundredths = (course * 100.0) as i32 as f32 / 100.0;
            self.coarse
                .call(run, yawrate::UPDATE_HEADING, &[hundredths]);
            self.stepping.update_heading(hundredths);
            let course = course::counted(course);
            self.beyond += !scope::ANGLE.has(course) as u64;
            self.yawrate.enter(run, yawrate::UPDATE_HEADING, course);
            self.aligner.enter(run, aligner::UPDATE_GPS_COURSE, course);
            self.unfolded.update_gps_course(course);
        }
    }

    /// The order of `process_imu`.
    fn sample(&mut self, run: &mut Run, car: &Car) {
        let mut noise = |limit: f32| evenly(&mut run.random, size(limit));
        let lon = car.acceleration + car.slope[0] + noise(0.5);
        let lat = car.speed * car.turn + car.slope[1] + noise(0.5);
        let rate = car.turn + 0.01 + noise(0.02);
        let yaw = wrap_angle(car.heading - 2.0 + noise(0.005));
        self.gps.call(run, gps::ADVANCE_TIME, &[STEP]);
        let filtered = self.lowpass.call(run, lowpass::PROCESS, &[lon]).values[0];
        let filtered = filtered.unwrap_or(f32::NAN);
        if car.phase == STAND {
            let sample = [lon, lat, STEP];
            self.tilt.call(run, tilt::UPDATE_STATIONARY, &sample);
        } else {
            self.tilt.call(run, tilt::RESET_STATIONARY, &[]);
            let sample = [rate, car.speed, STEP];
            self.yawrate.call(run, yawrate::UPDATE, &sample);
            self.coarse.call(run, yawrate::UPDATE, &sample);
            self.stepping.update(rate, car.speed, STEP);
            let count = YawRate::of(&self.coarse.theirs).counts[yawrate::SAMPLE_COUNT];
            let other = RawYawRate::of(&self.stepping).sample_count != count;
            self.others_stepping += other as u64;
        }
        let has_gps = self.gps.ours.counts[gps::VALID];
        let lon_gps = self.gps.ours.numbers[gps::ACCEL_LON];
        if car.phase != STAND && has_gps != 0 {
            let lat_gps = car.speed * rate;
            let sample = [filtered, lon_gps, lat, lat_gps, car.speed, STEP];
            let fresh = self.gps.ours.numbers[gps::TIME_SINCE_FIX] < 0.2;
            let words = [fresh as u32, 0, 0, 0];
            self.orientation
                .call_with(run, orientation::UPDATE, &sample, words);
        }
        let confidence = orientation::GET_PITCH_CONFIDENCE;
        let confidence = self.orientation.call(run, confidence, &[]).values[0];
        let input = blend::Input {
            imu: filtered,
            has_gps,
            gps: lon_gps,
            confidence: confidence.unwrap_or(f32::NAN),
            weights: [0.3, 0.5, 0.8],
        };
        self.blend.beside(run, &mut self.blended, &input);
        self.aligner
            .call(run, aligner::UPDATE, &[yaw, car.speed, STEP]);
        self.unfolded.update(yaw, car.speed, STEP);
        let offsets = [&self.aligner.folded.theirs, &self.unfolded];
        let [folded, unfolded] = offsets.map(|aligner| aligner.get_offset().to_bits());
        self.others += (folded != unfolded) as u64;
        self.aligner.call(run, aligner::GET_ALIGNED_HEADING, &[yaw]);
    }

    fn report(&self, run: &mut Run) {
        self.orientation.report(run, c"orientation");
        self.gps.report(run, c"gps");
        self.tilt.report(run, c"tilt");
        self.yawrate.folded.report(run, c"yawrate");
        self.aligner.folded.report(run, c"aligner");
        run.expect(c"courses beyond PI", self.beyond, LEAST_BEYOND);
        run.expect(
            c"offsets that are others unfolded",
            self.others,
            LEAST_BEYOND,
        );
        run.expect(
            c"sample counts that are others by the steps",
            self.others_stepping,
            LEAST_STEPPING,
        );
        unsafe { printf(c"  blend:\n".as_ptr()) };
        self.blended.report(run, LEAST);
    }
}
