//! `track_lowpass`: the Butterworth low-pass.

use super::record::{Field, Input, Record, BLANK};
use super::scope::*;
use super::{two, Branch, Learner, Settled, CASE};
use crate::compare::archive::{track_lowpass, Component};
use crate::compare::component::{value, Answer, NOTHING};
use crate::compare::random::Random;
use crate::compare::ranges::{beside, place, range, side, size, sized, Range};
use crate::filter::peek::RawBiquad;
use crate::filter::BiquadFilter;

pub const NEW: u32 = 0;
pub const PROCESS: u32 = 1;
const RESET_TO: u32 = 2;

/// Strictly below half the rate, too.
const CUTOFF: Range = range(0.01, 5e4);
const RATE: Range = range(1.0, 1e5);
const COEFFICIENT: Number = state(size(4.0));
/// Where in the record the last output is.
const Y1: usize = 7;

pub struct LowPass;

impl Learner for LowPass {
    const ARCHIVE: Component = track_lowpass;
    #[rustfmt::skip]
    const NUMBERS: &'static [Number] = &[
        COEFFICIENT, COEFFICIENT, COEFFICIENT, COEFFICIENT, COEFFICIENT,
        state(STORED), state(STORED), state(STORED), state(STORED),
    ];
    const COUNTS: &'static [Count] = &[];
    const OPERATIONS: &'static [Operation] = &[
        making(c"new_lowpass", &[CUTOFF, RATE]),
        overflows(change(c"process", &[ACCELERATION])),
        change(c"reset_to", &[ACCELERATION]),
    ];
    const LEARNS: &'static [Branch] = &[];
    const EDGES: &'static [Branch] = &[
        (c"new: cutoff just below half the rate", |input, outcome| {
            let [cutoff, rate, ..] = input.arguments;
            let last = place(rate / 2.0) - 1;
            input.operation == NEW && outcome.number == 0 && place(cutoff) == last
        }),
        (
            c"new: refused, cutoff at half the rate",
            |input, outcome| {
                let [cutoff, rate, ..] = input.arguments;
                input.operation == NEW && outcome.number == 3 && cutoff == rate / 2.0
            },
        ),
        (c"process: an output at 1e9 in size", |input, outcome| {
            let output = outcome.record.numbers[Y1];
            input.operation == PROCESS && outcome.number == 0 && output.abs() == 1e9
        }),
        (c"process: an output of zero", |input, outcome| {
            let output = outcome.record.numbers[Y1];
            input.operation == PROCESS && outcome.number == 0 && output == 0.0
        }),
    ];
    const SETTLED: &'static [Settled] = &[
        // K12
        Settled {
            arguments: two(100.0, 200.0),
            gives: (3, NOTHING),
            ..CASE
        },
        Settled {
            arguments: two(f32::NAN, 200.0),
            gives: (3, NOTHING),
            ..CASE
        },
        // a coefficient is a state number
        Settled {
            operation: RESET_TO,
            numbers: &[(0, 4.000_000_5)],
            gives: (4, NOTHING),
            ..CASE
        },
        // a design whose angle and whose alpha round otherwise in another order
        Settled {
            arguments: two(15.0, 50.0),
            ..CASE
        },
        // an output whose five products have to be added from the left
        Settled {
            operation: PROCESS,
            numbers: &[
                (0, 0.7),
                (1, 1.3),
                (2, 1.9),
                (3, 0.2),
                (4, 0.1),
                (5, 1.1),
                (6, 0.1),
                (7, 1.9),
                (8, 1.1),
            ],
            arguments: two(1.3, 0.0),
            gives: (0, value(2.040_000_2)),
            ..CASE
        },
    ];

    laid! { RawBiquad of BiquadFilter: b0 b1 b2 a1 a2 x1 x2 y1 y2; }

    fn original(filter: &mut BiquadFilter, input: &Input) -> Answer {
        let [a, b, ..] = input.arguments;
        match input.operation {
            NEW => *filter = BiquadFilter::new_lowpass(a, b),
            PROCESS => return value(filter.process(a)),
            _ => filter.reset_to(a),
        }
        NOTHING
    }

    /// The original panics where this is false.
    fn fits(input: &Input) -> bool {
        let [cutoff, rate, ..] = input.arguments;
        cutoff < rate / 2.0
    }

    fn scene(random: &mut Random, input: &mut Input) {
        let rate = sized(random, 1.0, 1e5);
        if input.operation == NEW {
            let share = sized(random, 0.02, 0.5);
            input.arguments[1] = rate;
            input.arguments[0] = match random.below(2) {
                0 => beside(random, rate / 2.0, 2),
                _ => rate * share,
            };
            return;
        }
        let cutoff = rate * sized(random, 0.02, 0.49);
        let filter = BiquadFilter::new_lowpass(cutoff, rate);
        let mut raw = RawBiquad::of(&filter);
        for sample in [&mut raw.x1, &mut raw.x2, &mut raw.y1, &mut raw.y2] {
            *sample = sized(random, 1e-3, 1e2) * side(random);
        }
        input.record = Self::of(&raw.build());
        input.arguments[0] = sized(random, 1e-3, 1e2) * side(random);
        if random.below(4) == 0 {
            // all zeros, of either sign
            for number in &mut input.record.numbers[5..9] {
                *number = 0.0 * side(random);
            }
            input.arguments[0] = 0.0 * side(random);
        }
    }
}
