//! Cases settled on paper: K1 to K6, K8 and K9, and cases that a filter which is wrong in one place
//! answers otherwise. K7 is in `float.rs`, and the run of position rejections in `settled/runs.rs`.

mod runs;

use super::filter::*;
use super::inputs::Input;
use super::judge::Outcome;
use super::scope::*;
use super::turn::{FIRST, SECOND};
use super::{call, expect};
use crate::compare::component::{gated, value, Answer, ACCEPTED, NOTHING, REJECTED};
use crate::compare::lent::filled;
use crate::compare::run::Run;
use crate::ekf::{Ekf, EkfConfig};
use core::f32::consts::PI;

/// A call of a fresh filter but for some numbers.
struct Settled {
    operation: u32,
    edition: u32,
    but: &'static [(usize, f32)],
    arguments: [f32; 4],
    /// The number and the answer.
    gives: (u32, Answer),
    /// Numbers that are so afterwards, and tallies that are 1.
    after: &'static [(usize, f32)],
    tallies: &'static [usize],
    /// The run of position rejections before and after it.
    runs: [u32; 2],
    /// Whether the paper says that nothing else changes. If not, the judge says the rest.
    only: bool,
}

const BLANK: Settled = Settled {
    operation: 0,
    edition: FIRST,
    but: &[],
    arguments: [0.0; 4],
    gives: (0, NOTHING),
    after: &[],
    tallies: &[],
    runs: [0, 0],
    only: false,
};

const fn bits(bits: u32) -> f32 {
    f32::from_bits(bits)
}

/// A verdict, and the bits of the gate value.
const fn accepted(value: u32) -> (u32, Answer) {
    (0, gated(ACCEPTED, bits(value)))
}

const fn rejected(value: u32) -> (u32, Answer) {
    (0, gated(REJECTED, bits(value)))
}

const fn refused(number: u32) -> (u32, Answer) {
    (number, NOTHING)
}

/// The second half of the arguments is `predict`'s alone.
const fn two(first: f32, second: f32) -> [f32; 4] {
    [first, second, 0.0, 0.0]
}

/// A prediction that would store an unsound number.
const fn outgrown(but: &'static [(usize, f32)]) -> Settled {
    Settled {
        operation: PREDICT,
        but,
        arguments: [0.0, 0.0, 0.0, 0.5],
        gives: refused(6),
        ..BLANK
    }
}

/// A prediction by edition 2.
const BY_SECOND: Settled = Settled {
    operation: PREDICT,
    edition: SECOND,
    ..BLANK
};

/// A prediction that is refused for its edition or its configuration.
const fn refused_by(edition: u32, but: &'static [(usize, f32)], ax: f32, number: u32) -> Settled {
    Settled {
        operation: PREDICT,
        edition,
        but,
        arguments: [ax, 0.0, 0.0, 0.5],
        gives: refused(number),
        ..BLANK
    }
}

/// A turn of 0.3 from a heading of 0, by either edition.
const TURNED: Settled = Settled {
    but: &[(X, 26.0), (X + 1, -4.0), (X + 3, 25.0), (X + 4, -17.0)],
    arguments: [0.0, 0.0, 1.5, 0.2],
    after: &[(X, bits(0x41FB_73C2)), (X + 1, bits(0xC0D3_5AD1))],
    ..BY_SECOND
};

/// A turn of -0 from a heading of 0, at a position of -0.
const fn turned_by_nothing(edition: u32, after: &'static [(usize, f32)]) -> Settled {
    Settled {
        operation: PREDICT,
        edition,
        but: &[(X, -0.0), (X + 3, 4.0)],
        arguments: [0.0, 0.0, -1.0, 0.0],
        after,
        ..BLANK
    }
}

const SETTLED: [Settled; 55] = [
    // K1
    Settled {
        operation: UPDATE_POSITION,
        but: &[(R_POS, 100.0)],
        arguments: two(80.0, 0.0),
        gives: accepted(0x4200_0000),
        after: &[(X, 40.0), (P, 50.0), (P + 1, 50.0), (NIS_SUM, 32.0)],
        ..BLANK
    },
    // K2
    Settled {
        operation: UPDATE_POSITION,
        but: &[(R_POS, 100.0)],
        arguments: two(80.0, 1.0),
        gives: rejected(0x4200_051F),
        tallies: &[0],
        runs: [0, 1],
        only: true,
        ..BLANK
    },
    // K3; `update_yaw_soft` with the factor 1 is the same
    Settled {
        operation: UPDATE_YAW,
        but: &[(P + 2, 0.375), (R_YAW, 0.375)],
        arguments: two(3.0, 0.0),
        gives: accepted(0x4140_0000),
        after: &[(X + 2, 1.5), (P + 2, 0.1875)],
        ..BLANK
    },
    Settled {
        operation: UPDATE_YAW_SOFT,
        but: &[(P + 2, 0.375), (R_YAW, 0.375)],
        arguments: two(3.0, 1.0),
        gives: accepted(0x4140_0000),
        after: &[(X + 2, 1.5), (P + 2, 0.1875)],
        tallies: &[5],
        only: true,
        ..BLANK
    },
    // K4
    Settled {
        operation: UPDATE_VELOCITY,
        but: &[(R_VEL, 100.0)],
        arguments: two(10.0, -4.0),
        after: &[(X + 3, 5.0), (X + 4, -2.0), (P + 3, 50.0), (P + 4, 50.0)],
        ..BLANK
    },
    // K5
    Settled {
        operation: UPDATE_SPEED,
        only: true,
        ..BLANK
    },
    // K6
    Settled {
        operation: PREDICT,
        but: &[(X + 3, 4.0), (CONFIGURATION, 1.0)],
        arguments: [2.0, 0.0, 0.0, 0.5],
        after: &[(X, 2.25), (X + 3, 5.0), (P, 100.0625)],
        ..BLANK
    },
    // K8
    Settled {
        operation: UPDATE_POSITION,
        but: &[(R_POS, 0.0)],
        arguments: two(f32::NAN, 0.0),
        gives: refused(1),
        ..BLANK
    },
    // what would be unsound is rejected by the gate first
    Settled {
        operation: UPDATE_POSITION,
        but: &[(X, -9_999_999.0), (P, 1e9)],
        arguments: two(1e7, 0.0),
        gives: rejected(0x48C3_5000),
        tallies: &[0],
        runs: [0, 1],
        only: true,
        ..BLANK
    },
    // the difference of opposite ends is rounded up
    Settled {
        operation: UPDATE_VELOCITY,
        but: &[(X + 3, bits(0xC61C_3FFF)), (P + 3, 1e9)],
        arguments: two(1e4, 0.0),
        gives: refused(6),
        ..BLANK
    },
    // at just 0.3 a speed has the smaller variance, which is that of the velocity here: half of the way
    Settled {
        operation: UPDATE_SPEED,
        but: &[(X + 3, 1.0), (P + 3, 0.04)],
        arguments: two(0.3, 0.0),
        after: &[(X + 3, bits(0x3F26_6666)), (P + 3, 0.02)],
        only: true,
        ..BLANK
    },
    // variances that rounding would make negative
    Settled {
        operation: UPDATE_SPEED,
        but: &[
            (X + 3, bits(0xC5FD_1800)),
            (X + 4, bits(0xC3A2_4924)),
            (P + 3, bits(0x4D07_7AF0)),
            (P + 4, bits(0x4562_48F0)),
        ],
        arguments: two(bits(0x3ED5_7A78), 0.0),
        gives: refused(6),
        ..BLANK
    },
    Settled {
        operation: UPDATE_SPEED,
        but: &[
            (X + 3, bits(0x4597_5800)),
            (X + 4, bits(0x44DA_E000)),
            (P + 3, bits(0x4E6E_6B28)),
            (P + 4, bits(0x434D_8920)),
        ],
        arguments: two(bits(0x460A_0C00), 0.0),
        gives: refused(6),
        ..BLANK
    },
    Settled {
        operation: UPDATE_SPEED,
        but: &[
            (X + 3, bits(0x40FE_3D71)),
            (X + 4, bits(0x43D8_9248)),
            (P + 3, bits(0x4546_EEC0)),
            (P + 4, bits(0x4D0A_E150)),
        ],
        arguments: two(bits(0x3EE4_E3BD), 0.0),
        gives: refused(6),
        ..BLANK
    },
    // the product wz * dt is rounded once, and `predict` looks at r_pos
    Settled {
        operation: PREDICT,
        arguments: [0.0, 0.0, 3.0, 0.166_666_67],
        ..BLANK
    },
    Settled {
        operation: PREDICT,
        arguments: [0.0, 0.0, 2.0, 0.5],
        gives: refused(2),
        ..BLANK
    },
    Settled {
        operation: PREDICT,
        but: &[(R_POS, f32::NAN)],
        gives: refused(3),
        ..BLANK
    },
    // finite arguments with an infinite product wz * dt: out of range
    Settled {
        operation: PREDICT,
        arguments: [0.0, 0.0, 3e38, 3e38],
        gives: refused(2),
        ..BLANK
    },
    // gate values one bit above 32 and one bit above 12
    Settled {
        operation: UPDATE_POSITION,
        but: &[(P, 0.25), (P + 1, 0.75), (R_POS, 0.25)],
        arguments: two(4.0, 0.001_953_125),
        gives: rejected(0x4200_0001),
        tallies: &[0],
        runs: [0, 1],
        only: true,
        ..BLANK
    },
    Settled {
        operation: UPDATE_YAW,
        but: &[(P + 2, 0.375), (R_YAW, bits(0x3EBF_FFFE))],
        arguments: two(3.0, 0.0),
        gives: rejected(0x4140_0001),
        tallies: &[2],
        only: true,
        ..BLANK
    },
    // a gate value of 12, which would be above it if it were divided before it is squared
    Settled {
        operation: UPDATE_YAW,
        but: &[(P + 2, 0.0), (R_YAW, bits(0x3DD9_EC9C))],
        arguments: two(1.13, 0.0),
        gives: accepted(0x4140_0000),
        tallies: &[5],
        only: true,
        ..BLANK
    },
    // gate values that are another after the update, of one axis alone, with the axes' variances
    // swapped and as the NIS sum; without the factor; without the wrap
    Settled {
        operation: UPDATE_POSITION,
        but: &[(P + 1, 300.0), (R_POS, 100.0), (NIS_SUM, 5.0)],
        arguments: two(20.0, 40.0),
        gives: accepted(0x40C0_0000),
        after: &[
            (X, 10.0),
            (X + 1, 30.0),
            (P, 50.0),
            (P + 1, 75.0),
            (NIS_SUM, 11.0),
        ],
        ..BLANK
    },
    Settled {
        operation: UPDATE_YAW_SOFT,
        but: &[(P + 2, 0.5), (R_YAW, 0.25)],
        arguments: two(3.0, 2.0),
        gives: accepted(0x4110_0000),
        after: &[(X + 2, 1.5), (P + 2, 0.25)],
        tallies: &[5],
        only: true,
        ..BLANK
    },
    Settled {
        operation: UPDATE_YAW,
        but: &[(X + 2, 3.0), (P + 2, 0.375), (R_YAW, 0.125)],
        arguments: two(-3.0, 0.0),
        gives: accepted(0x3E24_3CC3),
        after: &[(X + 2, bits(0xC044_87EE)), (P + 2, 0.093_75)],
        tallies: &[5],
        only: true,
        ..BLANK
    },
    // -0 + k * (-0 - -0) is 0, and -0 - k * (-0 - -0) would be -0
    Settled {
        operation: UPDATE_POSITION,
        but: &[(X, -0.0), (X + 1, -0.0)],
        arguments: two(-0.0, -0.0),
        gives: accepted(0),
        after: &[(X, 0.0), (X + 1, 0.0)],
        ..BLANK
    },
    Settled {
        operation: UPDATE_VELOCITY,
        but: &[(X + 3, -0.0), (X + 4, -0.0)],
        arguments: two(-0.0, -0.0),
        after: &[(X + 3, 0.0), (X + 4, 0.0)],
        ..BLANK
    },
    Settled {
        operation: UPDATE_BIAS,
        but: &[(X + 5, -0.0), (X + 6, -0.0)],
        arguments: two(-0.0, -0.0),
        after: &[(X + 5, 0.0), (X + 6, 0.0)],
        ..BLANK
    },
    Settled {
        operation: UPDATE_YAW,
        but: &[(X + 2, -0.0)],
        arguments: two(-0.0, 0.0),
        gives: accepted(0),
        after: &[(X + 2, 0.0)],
        ..BLANK
    },
    // the turning model beyond PI: its sines are of the heading before it is wrapped, and each part is
    // divided before it is multiplied
    Settled {
        operation: PREDICT,
        but: &[(X + 2, 3.0), (X + 3, 11.0), (X + 4, -11.0)],
        arguments: [0.0, 0.0, 0.6, 0.3],
        ..BLANK
    },
    Settled {
        operation: PREDICT,
        but: &[(X + 2, -3.0), (X + 3, 11.0), (X + 4, -11.0)],
        arguments: [0.0, 0.0, -0.6, 0.3],
        ..BLANK
    },
    // a speed that is rounded to just `min_speed`, while its square is above that of `min_speed`
    Settled {
        operation: PREDICT,
        but: &[(X + 3, 1.0), (X + 4, 1.0), (MIN_SPEED, 1.414_213_5)],
        arguments: [0.0, 0.0, 0.5, 0.5],
        after: &[(X, 0.5), (X + 1, 0.5)],
        ..BLANK
    },
    // what variances of 0 grow by
    Settled {
        operation: SKIP_PREDICTION,
        but: &[(P, 0.0), (P + 1, 0.0)],
        after: &[(P, 1e-6), (P + 1, 1e-6)],
        ..BLANK
    },
    Settled {
        operation: PREDICT,
        but: &[(P + 5, 0.0), (P + 6, 0.0)],
        after: &[(P + 5, 1e-6), (P + 6, 1e-6)],
        ..BLANK
    },
    // a variance alone that grows beyond 1e9
    outgrown(&[(P, 1e9), (CONFIGURATION, 1e6)]),
    outgrown(&[(P + 2, 1e9), (CONFIGURATION + 1, 1e6)]),
    outgrown(&[(P + 4, 1e9), (CONFIGURATION, 1e6)]),
    outgrown(&[(P + 5, 1e9), (CONFIGURATION + 2, 1e6)]),
    outgrown(&[(P + 6, 1e9), (CONFIGURATION + 2, 1e6)]),
    // turns by edition 2 that end elsewhere with each of these slips: the cosine without the - 1, its two
    // signs swapped, the heading, half the turn, the velocity after the prediction, a product before its
    // quotient or in one rounding with its sum, the gain added in two parts
    Settled {
        but: &[
            (X, 26.0),
            (X + 1, -4.0),
            (X + 2, 0.7),
            (X + 3, 25.0),
            (X + 4, -17.0),
        ],
        arguments: [4.0, -5.0, 1.5, 0.2],
        after: &[
            (X, bits(0x41FB_73C2)),
            (X + 1, bits(0xC0D3_5AD1)),
            (X + 2, 1.0),
            (X + 3, bits(0x41CE_6666)),
            (X + 4, -18.0),
            (P, bits(0x42C8_020C)),
            (P + 1, bits(0x42C8_020C)),
            (P + 2, bits(0x42C8_001A)),
            (P + 3, bits(0x42C8_0831)),
            (P + 4, bits(0x42C8_0831)),
            (P + 5, bits(0x3F80_0696)),
            (P + 6, bits(0x3F80_0696)),
        ],
        only: true,
        ..BY_SECOND
    },
    Settled {
        but: &[
            (X, 21.0),
            (X + 1, 33.0),
            (X + 2, -3.0),
            (X + 3, 29.0),
            (X + 4, 7.0),
        ],
        arguments: [-3.0, 4.0, -1.2, 0.3],
        after: &[
            (X, bits(0x41EF_190B)),
            (X + 1, bits(0x4206_05E9)),
            (X + 2, bits(0x403B_1578)),
            (X + 3, bits(0x41E0_CCCD)),
            (X + 4, bits(0x4103_3333)),
            (P, bits(0x42C8_049C)),
            (P + 1, bits(0x42C8_049C)),
            (P + 2, bits(0x42C8_003B)),
            (P + 3, bits(0x42C8_126F)),
            (P + 4, bits(0x42C8_126F)),
            (P + 5, bits(0x3F80_09DD)),
            (P + 6, bits(0x3F80_09DD)),
        ],
        only: true,
        ..BY_SECOND
    },
    Settled {
        edition: FIRST,
        ..TURNED
    },
    TURNED,
    turned_by_nothing(FIRST, &[(X, -0.0)]),
    turned_by_nothing(SECOND, &[(X, 0.0)]),
    // K6 by edition 2: it goes straight
    Settled {
        but: &[(X + 3, 4.0), (CONFIGURATION, 1.0)],
        arguments: [2.0, 0.0, 0.0, 0.5],
        after: &[(X, 2.25), (X + 3, 5.0), (P, 100.0625)],
        ..BY_SECOND
    },
    // a speed of just `min_speed`, and a turn rate of just 1e-4: straight too
    Settled {
        but: &[(X + 3, 2.0)],
        arguments: [0.0, 0.0, 1.0, 0.5],
        after: &[(X, 1.0), (X + 1, 0.0)],
        ..BY_SECOND
    },
    Settled {
        but: &[(X + 3, 4.0)],
        arguments: [2.0, 0.0, -1e-4, 0.5],
        after: &[(X, 2.25), (X + 1, 0.0)],
        ..BY_SECOND
    },
    // backwards by edition 1, forwards by edition 2: where the one leaves the range, the other does not
    Settled {
        but: &[(X, 1e7), (X + 2, PI), (X + 3, 100.0)],
        arguments: [0.0, 0.0, 1.0, 0.5],
        gives: refused(6),
        ..BY_SECOND
    },
    Settled {
        but: &[(X, -1e7), (X + 2, PI), (X + 3, 100.0)],
        arguments: [0.0, 0.0, 1.0, 0.5],
        after: &[(X, -9_999_952.0)],
        ..BY_SECOND
    },
    // an edition that is none is an argument outside its range
    refused_by(0, &[], 0.0, 2),
    refused_by(3, &[], 0.0, 2),
    refused_by(3, &[], f32::NAN, 1),
    refused_by(3, &[(R_POS, 0.0)], 0.0, 2),
    refused_by(SECOND, &[(R_POS, 0.0)], 0.0, 3),
    refused_by(3, &[(P, -1.0)], 0.0, 2),
];

/// A value that a reader shows of a fresh filter but for some numbers and counts.
struct Shown {
    operation: u32,
    but: &'static [(usize, f32)],
    counts: &'static [(usize, u32)],
    value: f32,
}

const SHOWN: [Shown; 8] = [
    // K9
    Shown {
        operation: GET_NIS_POSITION_AVG,
        but: &[],
        counts: &[],
        value: 2.0,
    },
    // without a fix there is no discrepancy
    Shown {
        operation: GET_GPS_DISCREPANCY,
        but: &[(LAST_FIX, 3.0), (LAST_FIX + 1, 4.0)],
        counts: &[],
        value: 0.0,
    },
    // a sigma of 4 is inflated by discrepancies above 5, and not by those below; at 13.3 each of the
    // inflation's numbers shows to its last bit
    Shown {
        operation: GET_EFFECTIVE_POS_SIGMA,
        but: &[(P, 8.0), (P + 1, 8.0), (LAST_FIX, 13.3)],
        counts: &[(FLAGS[0], 1)],
        value: 7.32,
    },
    Shown {
        operation: GET_EFFECTIVE_POS_SIGMA,
        but: &[(P, 8.0), (P + 1, 8.0), (LAST_FIX, 5.3125)],
        counts: &[(FLAGS[0], 1)],
        value: 4.125,
    },
    Shown {
        operation: GET_EFFECTIVE_POS_SIGMA,
        but: &[(P, 8.0), (P + 1, 8.0), (LAST_FIX + 1, 4.6875)],
        counts: &[(FLAGS[0], 1)],
        value: 4.0,
    },
    // by NIS averages above 2, and not by those below
    Shown {
        operation: GET_EFFECTIVE_POS_SIGMA,
        but: &[(P, 8.0), (P + 1, 8.0), (NIS_SUM, 2.257_812_5)],
        counts: &[(NIS_COUNT, 1)],
        value: 4.25,
    },
    Shown {
        operation: GET_EFFECTIVE_POS_SIGMA,
        but: &[(P, 8.0), (P + 1, 8.0), (NIS_SUM, 1.757_812_5)],
        counts: &[(NIS_COUNT, 1)],
        value: 4.0,
    },
    // by both, one after the other
    Shown {
        operation: GET_EFFECTIVE_POS_SIGMA,
        but: &[(P, 8.0), (P + 1, 8.0), (NIS_SUM, 4.5), (LAST_FIX, 10.0)],
        counts: &[(NIS_COUNT, 1), (FLAGS[0], 1)],
        value: 9.0,
    },
];

/// All cases but those of what a reader shows.
fn settled() -> impl Iterator<Item = &'static Settled> {
    SETTLED.iter().chain(&runs::RUNS)
}

/// The inputs of the tables, but for the runs.
pub fn inputs(mut take: impl FnMut(Input)) {
    SETTLED.iter().for_each(|case| take(case.input()));
    SHOWN.iter().for_each(|case| take(case.input()));
}

/// Those of the runs.
pub fn run_inputs(take: impl FnMut(Input)) {
    runs::RUNS.iter().map(Settled::input).for_each(take);
}

impl Settled {
    fn input(&self) -> Input {
        Input {
            operation: self.operation,
            edition: self.edition,
            filter: but(self.but, &[(RUN, self.runs[0])]),
            arguments: self.arguments,
        }
    }
}

impl Shown {
    fn input(&self) -> Input {
        Input {
            operation: self.operation,
            edition: FIRST,
            filter: but(self.but, self.counts),
            arguments: [0.0; 4],
        }
    }
}

pub fn compare(run: &mut Run) {
    made(run);
    for case in settled() {
        let input = case.input();
        let judged = input.judged();
        let mut wanted = if case.only {
            input.filter
        } else {
            judged.filter
        };
        put(&mut wanted, case.after);
        for &tally in case.tallies {
            wanted.counts[tally] = 1;
        }
        wanted.counts[RUN] = case.runs[1];
        let (number, answer) = case.gives;
        let wanted = Outcome {
            number,
            answer,
            filter: wanted,
            unsound: None,
        };
        let call = call(run, &input);
        expect(run, &call, case.operation, &wanted, c"the paper");
        expect(run, &call, case.operation, &judged, c"the judge");
    }
    for case in &SHOWN {
        let input = case.input();
        let wanted = Outcome {
            answer: value(case.value),
            ..done(input.filter)
        };
        let call = call(run, &input);
        expect(run, &call, case.operation, &wanted, c"the paper");
    }
}

fn done(filter: Filter) -> Outcome {
    Outcome {
        number: 0,
        answer: NOTHING,
        filter,
        unsound: None,
    }
}

/// The filter of `Ekf::new()`, which is also that of `EkfConfig::default()`, in place of any other.
fn made(run: &mut Run) {
    let filter = Filter {
        numbers: filled(&mut run.random).map(f32::from_bits),
        counts: filled(&mut run.random),
    };
    let input = Input {
        operation: NEW,
        edition: FIRST,
        filter,
        arguments: [0.0; 4],
    };
    let call = call(run, &input);
    for made in [Ekf::new(), Ekf::with_config(EkfConfig::default())] {
        expect(run, &call, NEW, &done(Filter::of(&made)), c"the judge");
    }
}

/// A fresh filter but for some numbers and counts.
fn but(numbers: &[(usize, f32)], counts: &[(usize, u32)]) -> Filter {
    let mut filter = Filter::of(&Ekf::new());
    put(&mut filter, numbers);
    for &(place, count) in counts {
        filter.counts[place] = count;
    }
    filter
}

fn put(filter: &mut Filter, numbers: &[(usize, f32)]) {
    for &(place, number) in numbers {
        filter.numbers[place] = number;
    }
}
