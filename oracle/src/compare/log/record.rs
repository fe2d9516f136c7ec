//! `track_replay_record`: one record, beside what the replayer makes of it.
//!
//! All words that a call is lent lie in one row, which is compared as a whole: what a line, a stop or the
//! end does not write has to stay as it was, bit for bit.

use super::replay::{record_length, Before, Step};
use super::show_bytes;
use crate::compare::archive::track_replay_record;
use crate::compare::component::ABSENT;
use crate::compare::ekf::filter::Filter;
use crate::compare::lent::{filled, lay, lay_floats, Lent, Parts};
use crate::compare::libc::printf;
use crate::compare::random::Random;
use crate::compare::run::Run;
use core::ffi::CStr;

/// The record's number, then the edition.
const REPLAY: usize = 1;
const EDITION: usize = REPLAY + 1;
const NUMBERS: usize = REPLAY + 3;
const COUNTS: usize = NUMBERS + 26;
const VALUES: usize = COUNTS + 11;
const SHOWN: usize = VALUES + 3;
const ROW: usize = SHOWN + 5;

const PARTS: &Parts = &[
    (REPLAY, c"replay"),
    (NUMBERS - 1, c"lent to no one"),
    (NUMBERS, c"numbers"),
    (COUNTS - 1, c"lent to no one"),
    (COUNTS, c"counts"),
    (VALUES - 1, c"lent to no one"),
    (VALUES, c"values"),
    (SHOWN - 1, c"lent to no one"),
    (SHOWN, c"shown"),
    (ROW - 1, c"lent to no one"),
];

/// The words that a record is replayed on, and any others beside them.
#[derive(Clone, Copy)]
pub struct Words([u32; ROW]);

impl Words {
    /// Any words, but for the record's number.
    fn any(random: &mut Random, number: u32) -> Self {
        let mut row = filled(random);
        row[REPLAY] = number;
        Self(row)
    }

    pub fn of(random: &mut Random, before: &Before) -> Self {
        let mut words = Self::any(random, before.number);
        words.0[EDITION] = before.edition;
        words.lay(&before.filter);
        words
    }

    fn lay(&mut self, filter: &Filter) {
        lay_floats(&mut self.0, NUMBERS, &filter.numbers);
        lay(&mut self.0, COUNTS, &filter.counts);
    }

    /// Replays the record at the front of some bytes, which belong to whoever calls and have to stay as
    /// they are. Afterwards the words are those that the archive left.
    pub fn replay(&mut self, run: &mut Run, bytes: &mut [u8], judged: &Step) {
        let before = self.0;
        let row = self.0.as_mut_ptr();
        let number = unsafe {
            track_replay_record(
                bytes.as_mut_ptr(),
                bytes.len() as u64,
                row.add(REPLAY),
                row.add(NUMBERS).cast(),
                row.add(COUNTS),
                row.add(VALUES).cast(),
                row.add(SHOWN),
            )
        };
        run.count_call();
        let call = Lent {
            name: c"replay_record of so many bytes",
            operation: bytes.len() as u32,
            number,
            before,
            after: self.0,
            parts: PARTS,
        };
        let Self(wanted) = Self(before).after(judged);
        if call.expect(run, judged.number(), &wanted, c"the judge") {
            show_bytes(bytes);
        }
    }

    /// The words that a call should leave.
    fn after(mut self, judged: &Step) -> Self {
        self.0[EDITION] = judged.edition(self.0[EDITION]);
        match judged {
            Step::End => self.0[SHOWN] = ABSENT,
            Step::Stop { .. } => {}
            Step::Line { outcome, .. } => {
                self.0[REPLAY] = self.0[REPLAY].saturating_add(1);
                if outcome.number == 0 {
                    let (front, shown) = self.0.split_at_mut(SHOWN);
                    outcome.answer.lay(shown, &mut front[VALUES..][..2]);
                    self.lay(&outcome.filter);
                }
            }
        }
        self
    }
}

/// A whole log, a record at a time, each on the words that the one before it left.
pub struct Walk(Words);

impl Walk {
    pub fn new(random: &mut Random) -> Self {
        Self(Words::any(random, 1))
    }

    /// Hands on all that is left of the log, or the record alone.
    pub fn step(&mut self, run: &mut Run, counts: &mut Walked, rest: &mut [u8], judged: &Step) {
        let Words(row) = &mut self.0;
        row[VALUES..].fill_with(|| run.random.bits());
        let alone = run.random.below(2) == 0;
        counts.0[alone as usize].count(judged);
        let length = if alone {
            record_length(rest)
        } else {
            rest.len()
        };
        self.0.replay(run, &mut rest[..length], judged);
    }
}

/// How often walks came to what: with all that was left, and with a record alone.
#[derive(Default)]
pub struct Walked([Outcomes; 2]);

impl Walked {
    pub fn report(&self, run: &mut Run) {
        let least = run.wanted() / 1000;
        // a replayed filter is sound
        let can: Can = [&[0, 1, 2, 4], &[1, 2, 6], &[3, 7, 8, 9, 10]];
        let [rest, alone] = &self.0;
        rest.report(run, c"handed all that is left", can, least);
        alone.report(run, c"handed the record alone", can, least);
    }
}

/// How often records came to what.
#[derive(Clone, Copy, Default)]
pub struct Outcomes {
    /// By the kind of the answer, the end's too.
    answers: [u64; 5],
    /// By number.
    refusals: [u64; 11],
    stops: [u64; 11],
}

/// The kinds, the refusals and the stops that can come about.
pub type Can = [&'static [u32]; 3];

impl Outcomes {
    pub fn count(&mut self, judged: &Step) {
        let number = judged.number() as usize;
        let count = match judged {
            Step::End => &mut self.answers[ABSENT as usize],
            Step::Stop { .. } => &mut self.stops[number],
            Step::Line { outcome, .. } if number == 0 => {
                &mut self.answers[outcome.answer.kind as usize]
            }
            Step::Line { .. } => &mut self.refusals[number],
        };
        *count += 1;
    }

    pub fn report(&self, run: &mut Run, name: &CStr, can: Can, least: u64) {
        unsafe { printf(c"  Records, %s:\n".as_ptr(), name.as_ptr()) };
        let rows: [(&CStr, &[u64]); 3] = [
            (c"  done 0 to end 4", &self.answers),
            (c"  refused", &self.refusals),
            (c"  stopped", &self.stops),
        ];
        for ((name, counts), can) in rows.into_iter().zip(can) {
            let count = |&number: &u32| (number, counts[number as usize]);
            if !can.is_empty() {
                run.expect_each(name, can.iter().map(count), least);
            }
            let others = (0..)
                .zip(counts)
                .filter(|(number, _)| !can.contains(number));
            for (number, _) in others.filter(|(_, &count)| count > 0) {
                if run.differs() {
                    unsafe { printf(c"  DIFFERENT: it comes to %u\n".as_ptr(), number) };
                }
            }
        }
    }
}
