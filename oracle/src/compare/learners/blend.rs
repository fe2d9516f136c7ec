//! `track_blend`: step 12 of the original's `process_imu`, reached through it.

use super::scope::{ACCELERATION, SHARE};
use crate::compare::archive::track_blend;
use crate::compare::ekf::sample;
use crate::compare::lent::{filled, lay_floats, Lent, Parts};
use crate::compare::random::Random;
use crate::compare::ranges::{any_word, beside, ends, outside, within, Range};
use crate::compare::run::Run;
use crate::compare::sample::{filler, Row, Sample, Shows, BLEND};
use crate::filter::peek::RawBiquad;
use crate::fusion::peek::{blended, set_lon_filter, RawGps, RawOrientation};
use crate::fusion::{FusionConfig, SensorFusion};
use core::ffi::CStr;

#[derive(Clone, Copy)]
pub struct Input {
    pub imu: f32,
    pub has_gps: u32,
    pub gps: f32,
    pub confidence: f32,
    /// High, medium, low.
    pub weights: [f32; 3],
}

/// Value and weight, or the refusal's number.
type Outcome = Result<[f32; 2], u32>;

const WEIGHTS: usize = 1;
const VALUES: usize = 5;
/// What is handed over by value, to be shown.
const ARGUMENTS: usize = 8;
const PARTS: &Parts = &[
    (WEIGHTS, c"weights"),
    (WEIGHTS + 3, c"lent to no one"),
    (VALUES, c"values"),
    (VALUES + 2, c"lent to no one"),
];

/// Cases settled on paper, with the weights 0.25, 0.5 and 0.75.
const SETTLED: [(Input, Outcome); 11] = [
    (case(4.0, 1, 8.0, 1.0), Ok([5.0, 0.25])),
    // one float above 0.8 the weight is the high one
    (
        Input {
            weights: [1.0, 0.0, 0.0],
            ..case(4.0, 1, 8.0, 0.800_000_1)
        },
        Ok([8.0, 1.0]),
    ),
    // a weight is a sum of two parts, each rounded
    (
        Input {
            weights: [0.8, 0.1, 0.0],
            ..case(0.0, 1, 1.0, 0.5)
        },
        Ok([0.38, 0.38]),
    ),
    (
        Input {
            weights: [0.0, 0.45, 0.05],
            ..case(0.0, 1, 1.0, 0.15)
        },
        Ok([0.25, 0.25]),
    ),
    (case(4.0, 1, 8.0, 0.3), Ok([6.0, 0.5])),
    (case(4.0, 1, 8.0, 0.0), Ok([7.0, 0.75])),
    (case(4.0, 0, f32::NAN, 1.0), Ok([4.0, 0.0])),
    (case(4.0, 0, 8.0, f32::NAN), Err(1)),
    (case(4.0, 1, f32::NAN, 2.0), Err(1)),
    (case(1.1e6, 0, 8.0, 0.0), Err(2)),
    (
        Input {
            weights: [f32::NAN, 0.5, 0.75],
            ..case(4.0, 0, 8.0, 0.0)
        },
        Err(3),
    ),
];

const fn case(imu: f32, has_gps: u32, gps: f32, confidence: f32) -> Input {
    Input {
        imu,
        has_gps,
        gps,
        confidence,
        weights: [0.25, 0.5, 0.75],
    }
}

/// How often the judge gave what.
#[derive(Default)]
pub struct Counts {
    numbers: [u64; 4],
    without_gps: u64,
    /// With GPS by confidence: up to 0.3, up to 0.8, above.
    confidence: [u64; 3],
    /// At 0.3, at 0.8.
    limits: [u64; 2],
}

pub fn compare(run: &mut Run) {
    let (mut judge, mut counts) = (Judge::new(), Counts::default());
    for (input, outcome) in &SETTLED {
        call(run, input, outcome, c"the paper");
    }
    for _ in 0..1000 {
        let input = random(&mut run.random);
        for (place, range) in (0..).zip(RANGES) {
            for number in ends(&mut run.random, range) {
                let mut input = input;
                *word(&mut input, place) = number;
                judge.beside(run, &mut counts, &input);
            }
        }
    }
    for _ in 0..run.wanted() {
        let mut input = random(&mut run.random);
        while run.random.below(4) == 0 {
            let place = run.random.below(6) as usize;
            *word(&mut input, place) = outside(&mut run.random, RANGES[place]);
        }
        judge.beside(run, &mut counts, &input);
    }
    counts.report_all(run);
}

/// The blend's part of the stored sample: the settled cases, each number at its ends and one beyond,
/// and each outcome.
pub fn sample(to: &mut Sample) {
    let (mut judge, mut kept) = (Judge::new(), Counts::default());
    for (input, _) in &SETTLED {
        judge.store(to, &mut kept, input, true);
    }
    for (place, range) in (0..).zip(RANGES) {
        for end in sample::ends(range).into_iter().chain([f32::NAN]) {
            let mut input = random(&mut to.random);
            *word(&mut input, place) = end;
            judge.store(to, &mut kept, &input, true);
        }
    }
    for _ in 0..20_000 {
        let mut input = random(&mut to.random);
        while to.random.below(4) == 0 {
            let place = to.random.below(6) as usize;
            *word(&mut input, place) = outside(&mut to.random, RANGES[place]);
        }
        judge.store(to, &mut kept, &input, false);
    }
    if to.shows == Shows::Outcomes {
        kept.report_all(&mut to.run);
    }
}

/// The ranges of `word`, by place.
const RANGES: [Range; 6] = [ACCELERATION, ACCELERATION, SHARE, SHARE, SHARE, SHARE];

fn word(input: &mut Input, place: usize) -> &mut f32 {
    match place {
        0 => &mut input.imu,
        1 => &mut input.gps,
        2 => &mut input.confidence,
        _ => &mut input.weights[place - 3],
    }
}

/// Sound, but for a GPS acceleration that is not looked at.
fn random(random: &mut Random) -> Input {
    let tame = random.below(2) == 0;
    let mut input = case(0.0, 0, 0.0, 0.0);
    for (place, range) in (0..).zip(RANGES) {
        *word(&mut input, place) = within(random, range, tame);
    }
    match random.below(8) {
        0 => input.confidence = beside(random, 0.3, 1),
        1 => input.confidence = beside(random, 0.8, 1),
        2 => input.confidence = random.below(100) as f32 / 100.0,
        _ => {}
    }
    match random.below(8) {
        0 => input.gps = f32::from_bits(any_word(random)),
        1 => input.has_gps = random.bits() | 1,
        _ => input.has_gps = 1,
    }
    input
}

fn refusal(input: &Input) -> u32 {
    let gps = if input.has_gps != 0 { input.gps } else { 0.0 };
    let arguments = [input.imu, gps, input.confidence];
    let mut ranges = arguments.iter().zip(RANGES);
    let reasons = [
        !arguments.iter().all(|argument| argument.is_finite()),
        !ranges.all(|(&argument, range)| range.has(argument)),
        !input.weights.iter().all(|&weight| SHARE.has(weight)),
    ];
    let first = reasons.iter().position(|&applies| applies);
    first.map_or(0, |place| place as u32 + 1)
}

/// The original, set so that its step 12 meets the input.
pub struct Judge(SensorFusion);

impl Judge {
    pub fn new() -> Self {
        Self(SensorFusion::new(FusionConfig::default()))
    }

    pub fn beside(&mut self, run: &mut Run, counts: &mut Counts, input: &Input) {
        let outcome = self.outcome(input);
        counts.count(input, &outcome);
        call(run, input, &outcome, c"the judge");
    }

    fn outcome(&mut self, input: &Input) -> Outcome {
        match refusal(input) {
            0 => Ok(self.original(input)),
            number => Err(number),
        }
    }

    fn store(&mut self, to: &mut Sample, kept: &mut Counts, input: &Input, always: bool) {
        let outcome = self.outcome(input);
        let count = |counts: &mut Counts| counts.count(input, &outcome);
        if !to.keeps(kept, always, count) {
            return;
        }
        let Input {
            imu,
            has_gps,
            gps,
            confidence,
            weights,
        } = *input;
        let given = Row::of(&[has_gps]).floats(&[imu, gps, confidence]);
        let given = given.floats(&weights);
        let before = filler::<2>(&mut to.random);
        let answers = outcome.ok().map_or([None; 2], |values| values.map(Some));
        let after = Row::new().answers(answers, before);
        let number = outcome.err().unwrap_or(0);
        to.record(BLEND, number, [&given, &Row::of(&before), &after]);
    }

    /// Nothing is turned or tilted, so that the low-pass is handed 1.0; it answers the input's IMU
    /// acceleration, -0 included. The fix is valid but not fresh, so that nothing is learned.
    fn original(&mut self, input: &Input) -> [f32; 2] {
        let fusion = &mut self.0;
        let low_pass = RawBiquad {
            b0: -0.0,
            b1: -0.0,
            b2: -0.0,
            a1: -1.0,
            a2: 0.0,
            x1: 1.0,
            x2: 1.0,
            y1: input.imu,
            y2: 0.0,
        };
        set_lon_filter(fusion, low_pass.build());
        let mut gps = RawGps::of(&fusion.gps_accel);
        gps.accel_lon = input.gps;
        gps.valid = input.has_gps != 0;
        gps.time_since_fix = 0.4;
        fusion.gps_accel = gps.build();
        let mut corrector = RawOrientation::of(&fusion.orientation_corrector);
        corrector.pitch_confidence = input.confidence;
        fusion.orientation_corrector = corrector.build();
        let [high, medium, low] = input.weights;
        fusion.config.gps_weight_high = high;
        fusion.config.gps_weight_medium = medium;
        fusion.config.gps_weight_low = low;
        fusion.process_imu(1.0, 0.0, 0.0, 0.0, 0.0, 0.0, 0.0, 0.0, 0.0, false);
        // the set-up holds
        let given = fusion.get_lon_imu_filtered();
        let confidence = fusion.orientation_corrector.get_pitch_confidence();
        assert!(given.to_bits() == input.imu.to_bits());
        assert!(confidence.to_bits() == input.confidence.to_bits());
        let (value, weight) = blended(fusion);
        [value, weight]
    }
}

impl Counts {
    fn count(&mut self, input: &Input, outcome: &Outcome) {
        self.numbers[outcome.err().unwrap_or(0) as usize] += 1;
        if outcome.is_err() {
            return;
        }
        if input.has_gps == 0 {
            self.without_gps += 1;
            return;
        }
        let confidence = input.confidence;
        self.confidence[(confidence > 0.3) as usize + (confidence > 0.8) as usize] += 1;
        self.limits[0] += (confidence == 0.3) as u64;
        self.limits[1] += (confidence == 0.8) as u64;
    }

    fn report_all(&self, run: &mut Run) {
        let least = run.many() / 100;
        let numbers = (0..4).zip(self.numbers);
        run.expect_each(c"blend", numbers, least);
        run.expect(c"confidence at 0.3", self.limits[0], least);
        run.expect(c"confidence at 0.8", self.limits[1], least);
        self.report(run, least);
    }

    pub fn report(&self, run: &mut Run, least: u64) {
        let [low, middle, high] = self.confidence;
        run.expect(c"between low and medium", low, least);
        run.expect(c"between medium and high", middle, least);
        run.expect(c"high", high, least);
        run.expect(c"without GPS", self.without_gps, least);
    }
}

fn call(run: &mut Run, input: &Input, outcome: &Outcome, by: &CStr) {
    let Input {
        imu,
        has_gps,
        gps,
        confidence,
        weights,
    } = *input;
    let mut before: [u32; 12] = filled(&mut run.random);
    lay_floats(&mut before, WEIGHTS, &weights);
    lay_floats(&mut before, ARGUMENTS, &[imu, gps, confidence]);
    before[ARGUMENTS + 3] = has_gps;
    let mut after = before;
    let row = after.as_mut_ptr();
    let (weights, values) = unsafe { (row.add(WEIGHTS).cast(), row.add(VALUES).cast()) };
    let number = unsafe { track_blend(imu, has_gps, gps, confidence, weights, values) };
    run.count_call();
    let mut wanted = before;
    if let Ok(values) = outcome {
        lay_floats(&mut wanted, VALUES, values);
    }
    let lent = Lent {
        name: c"blend",
        operation: 0,
        number,
        before,
        after,
        parts: PARTS,
    };
    lent.expect(run, outcome.err().unwrap_or(0), &wanted, by);
}
