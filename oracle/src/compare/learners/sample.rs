//! A learner's part of the stored sample: the settled cases, each number, count and argument at its
//! ends and one beyond, and each outcome.

use super::counts::Counts;
use super::record::{Input, Record};
use super::scope::Count;
use super::{inputs, judge, reads, settled_inputs, Learner};
use crate::compare::ekf::sample::ends;
use crate::compare::sample::{filler, Row, Sample, Shows};

/// So many random inputs are looked at.
const TRIED: u32 = 100_000;

pub fn sample<L: Learner>(to: &mut Sample, entry: usize) {
    let mut part = Part {
        to,
        entry,
        kept: Counts::default(),
    };
    settled_inputs::<L>(|_, input| part.store::<L>(input, true));
    part.ends::<L>();
    for _ in 0..TRIED {
        let input = inputs::random::<L>(&mut part.to.random);
        part.store::<L>(&input, false);
    }
    if part.to.shows == Shows::Outcomes {
        part.kept.report::<L>(&mut part.to.run);
    }
}

struct Part<'a> {
    to: &'a mut Sample,
    entry: usize,
    kept: Counts,
}

impl Part<'_> {
    fn ends<L: Learner>(&mut self) {
        for (place, kind) in L::NUMBERS.iter().enumerate() {
            // of the slots behind the first one the float beyond
            let behind = L::RING.is_some_and(|first| place > first);
            for &end in &ends(kind.range)[3 * behind as usize..] {
                let mut input = self.any::<L>();
                input.record.numbers[place] = end;
                self.store::<L>(&input, true);
            }
        }
        for (place, kind) in L::COUNTS.iter().enumerate() {
            let Count::UpTo(end) = *kind else { continue };
            for count in [end, end + 1] {
                let mut input = self.any::<L>();
                input.record.counts[place] = count;
                self.store::<L>(&input, true);
            }
        }
        for (operation, known) in (0..).zip(L::OPERATIONS) {
            for (place, &range) in known.arguments.iter().enumerate() {
                for end in ends(range).into_iter().chain([f32::NAN]) {
                    let mut input = inputs::sound::<L>(&mut self.to.random, operation);
                    input.arguments[place] = end;
                    self.store::<L>(&input, true);
                }
            }
        }
    }

    /// A sound input of any operation but the making.
    fn any<L: Learner>(&mut self) -> Input {
        let operation = self.to.random.between(1, L::OPERATIONS.len() as i64 - 1);
        inputs::sound::<L>(&mut self.to.random, operation as u32)
    }

    fn store<L: Learner>(&mut self, input: &Input, always: bool) {
        let outcome = judge::<L>(input);
        let count = |counts: &mut Counts| counts.call::<L>(input, &outcome);
        if !self.to.keeps(&mut self.kept, always, count) {
            return;
        }
        let next = if reads::<L>(input) {
            &input.record
        } else {
            &outcome.record
        };
        let none = filler(&mut self.to.random);
        let rows = [&row::<L>(&input.record, none), &row::<L>(next, none)];
        let given = (input.operation, &input.arguments[..], &input.words[..]);
        let (entry, answer) = (self.entry, &outcome.answer);
        self.to
            .component(entry, outcome.number, given, rows, answer);
    }
}

/// A record without counts has a word in their place, which stays as it is.
fn row<L: Learner>(record: &Record, none: [u32; 1]) -> Row {
    let row = Row::new().floats(&record.numbers[..L::NUMBERS.len()]);
    match L::COUNTS.len() {
        0 => row.words(&none),
        count => row.words(&record.counts[..count]),
    }
}
