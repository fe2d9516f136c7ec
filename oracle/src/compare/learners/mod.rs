//! The low-pass, the five learners and the blend beside the original, and an hour of driving.
//!
//! The low-pass is taken as a learner without counts. Every number and count is compared bit by bit,
//! and with it all memory that the archive is lent.

#[macro_use]
mod record;
mod aligner;
pub mod blend;
mod counts;
mod course;
pub mod drive;
mod gps;
mod inputs;
mod lowpass;
mod orientation;
mod sample;
mod scope;
mod tilt;
mod yawrate;

pub use aligner::Aligner;
pub use gps::{fix_words, rate_words, Gps};
pub use lowpass::LowPass;
pub use orientation::Orientation;
pub use sample::sample;
pub use tilt::Tilt;
pub use yawrate::YawRate;

use super::archive::Component;
use super::component::{self, Answer, Call, Given, Kind, Wanted, NOTHING};
use super::random::Random;
use super::ranges;
use super::run::Run;
use core::ffi::CStr;
use counts::Counts;
use record::{Input, Record, BLANK};
use scope::{Count, Number, Operation, END};

/// What the boundary's page and the scope paper say of one learner, and its original.
pub trait Learner {
    const ARCHIVE: Component;
    const NUMBERS: &'static [Number];
    const COUNTS: &'static [Count];
    const OPERATIONS: &'static [Operation];
    /// The count that stops at its end, where the original's goes on.
    const STOPS: Option<usize> = None;
    /// The first of the numbers that are the slots of a ring.
    const RING: Option<usize> = None;
    /// One in so many inputs is sought.
    const SELDOM: u64 = 4;
    /// The branches that learn or answer. Each is taken in the hour of driving too.
    const LEARNS: &'static [Branch];
    /// Each threshold from both sides, and what else is sought.
    const EDGES: &'static [Branch];
    /// What becomes of a course, if a call is given one.
    const COURSES: &'static [Branch] = &[];
    const SETTLED: &'static [Settled];
    type Whole;

    fn of(whole: &Self::Whole) -> Record;
    fn build(record: &Record) -> Self::Whole;

    /// What the original answers, which changes the learner; it does not look at the input's record.
    fn original(whole: &mut Self::Whole, input: &Input) -> Answer;

    /// Whether the parameters of a making, each in its range, fit one another.
    fn fits(_: &Input) -> bool {
        true
    }

    /// Whether an argument is outside a range that depends on the record, sound or not.
    fn beyond(_: &Input) -> bool {
        false
    }

    /// The sample count that a call with a sound record would raise, if its branch does so.
    fn raised(_: &Input) -> Option<u32> {
        None
    }

    /// Makes an input one that a car meets, or one near which something changes.
    fn scene(random: &mut Random, input: &mut Input);

    /// All branches but those that learn or answer.
    fn edges() -> impl Iterator<Item = &'static Branch> {
        Self::EDGES.iter().chain(Self::COURSES)
    }
}

/// A name, and whether a call took this branch.
pub type Branch = (&'static CStr, fn(&Input, &Outcome) -> bool);

/// What a call gives: a number, and with number 0 the next record and the answer.
pub struct Outcome {
    pub number: u32,
    pub record: Record,
    pub answer: Answer,
}

/// A case settled on paper. It goes on with the record that the case before left, but for these.
pub struct Settled {
    operation: u32,
    numbers: &'static [(usize, f32)],
    counts: &'static [(usize, u32)],
    arguments: [f32; 6],
    words: [u32; 4],
    /// The number, and with number 0 the answer.
    gives: (u32, Answer),
    /// A number of the record after it; the judge says the others.
    leaves: Option<(usize, f32)>,
}

const CASE: Settled = Settled {
    operation: 0,
    numbers: &[],
    counts: &[],
    arguments: [0.0; 6],
    words: [0; 4],
    gives: (0, NOTHING),
    leaves: None,
};

const fn two(first: f32, second: f32) -> [f32; 6] {
    [first, second, 0.0, 0.0, 0.0, 0.0]
}

/// What the original gives, by the scope paper's refusals and its added rule. 6 is given where what
/// it would store is unsound.
fn judge<L: Learner>(input: &Input) -> Outcome {
    let mut outcome = Outcome {
        number: scope::refusal::<L>(input),
        record: input.record,
        answer: NOTHING,
    };
    if outcome.number != 0 {
        return outcome;
    }
    let mut whole = L::build(&input.record);
    let answer = L::original(&mut whole, input);
    let mut next = L::of(&whole);
    if let Some(count) = L::STOPS {
        next.counts[count] = next.counts[count].min(END);
    }
    if scope::sound::<L>(&next) {
        (outcome.record, outcome.answer) = (next, answer);
    } else {
        outcome.number = 6;
    }
    outcome
}

pub fn compare<L: Learner>(run: &mut Run) {
    let mut counts = Counts::default();
    settled::<L>(run);
    for _ in 0..20 {
        ends::<L>(run, &mut counts);
    }
    for _ in 0..run.wanted() {
        let input = inputs::random::<L>(&mut run.random);
        beside::<L>(run, &mut counts, &input);
    }
    counts.report::<L>(run);
}

fn settled<L: Learner>(run: &mut Run) {
    settled_inputs::<L>(|case, input| {
        let (number, answer) = case.gives;
        let judged = judge::<L>(input);
        let mut wanted = Outcome {
            number,
            answer,
            ..judged
        };
        if let Some((place, number)) = case.leaves {
            wanted.record.numbers[place] = number;
        }
        let call = call::<L>(run, input);
        expect::<L>(run, &call, input, &wanted, c"the paper");
        expect::<L>(run, &call, input, &judged, c"the judge");
    });
}

/// The inputs of the table: a case's record is what the judge leaves of the case before.
fn settled_inputs<L: Learner>(mut take: impl FnMut(&Settled, &Input)) {
    let mut record = BLANK;
    for case in L::SETTLED {
        for &(place, number) in case.numbers {
            record.numbers[place] = number;
        }
        for &(place, count) in case.counts {
            record.counts[place] = count;
        }
        let input = Input {
            operation: case.operation,
            record,
            arguments: case.arguments,
            words: case.words,
        };
        take(case, &input);
        record = judge::<L>(&input).record;
    }
}

/// Each number, each count and each argument at and beside the ends of its range.
fn ends<L: Learner>(run: &mut Run, counts: &mut Counts) {
    for (operation, known) in (0..).zip(L::OPERATIONS) {
        let input = inputs::sound::<L>(&mut run.random, operation);
        for (place, kind) in L::NUMBERS.iter().enumerate() {
            for number in ranges::ends(&mut run.random, kind.range) {
                let mut input = input;
                input.record.numbers[place] = number;
                beside::<L>(run, counts, &input);
            }
        }
        for (place, kind) in L::COUNTS.iter().enumerate() {
            let end = if let Count::UpTo(end) = *kind { end } else { 1 };
            for count in [0, 1, end - 1, end, end + 1, u32::MAX] {
                let mut input = input;
                input.record.counts[place] = count;
                beside::<L>(run, counts, &input);
            }
        }
        for (place, &range) in known.arguments.iter().enumerate() {
            for argument in ranges::ends(&mut run.random, range) {
                let mut input = input;
                input.arguments[place] = argument;
                beside::<L>(run, counts, &input);
            }
        }
    }
}

fn beside<L: Learner>(run: &mut Run, counts: &mut Counts, input: &Input) {
    let wanted = judge::<L>(input);
    counts.call::<L>(input, &wanted);
    let call = call::<L>(run, input);
    expect::<L>(run, &call, input, &wanted, c"the judge");
}

fn call<L: Learner>(run: &mut Run, input: &Input) -> Call {
    let known = L::OPERATIONS.get(input.operation as usize);
    let given = Given {
        component: L::ARCHIVE,
        name: known.map_or(c"unknown operation", |known| known.name),
        operation: input.operation,
        numbers: &input.record.numbers[..L::NUMBERS.len()],
        counts: &input.record.counts[..L::COUNTS.len()],
        arguments: &input.arguments,
        words: &input.words,
    };
    component::call(run, &given)
}

fn expect<L: Learner>(run: &mut Run, call: &Call, input: &Input, outcome: &Outcome, by: &CStr) {
    let mut flags = [0; 4];
    let mut count = 0;
    for (place, kind) in L::COUNTS.iter().enumerate() {
        if let Count::Flag = kind {
            flags[count] = place;
            count += 1;
        }
    }
    let wanted = Wanted {
        number: outcome.number,
        answer: outcome.answer,
        record: (!reads::<L>(input)).then_some((
            &outcome.record.numbers[..L::NUMBERS.len()],
            &outcome.record.counts[..L::COUNTS.len()],
        )),
        flags: &flags[..count],
    };
    call.expect(run, &wanted, by);
}

/// Whether the call leaves its record.
fn reads<L: Learner>(input: &Input) -> bool {
    let known = L::OPERATIONS.get(input.operation as usize);
    known.is_some_and(|known| known.kind == Kind::Reader)
}
