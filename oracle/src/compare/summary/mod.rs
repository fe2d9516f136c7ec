//! `track_summary_add` and `track_summary_merge`, beside a second reading of the change request for them; and
//! `track_summarize` on logs.

pub mod calls;
pub mod counts;
mod inputs;
mod logs;
pub mod reading;
pub mod sample;
pub mod settled;

use super::component::{ACCEPTED, REJECTED};
use super::libc::printf;
use super::run::Run;
use core::ffi::CStr;
use counts::{Counts, Merged};
use reading::{Outcome, Summary, Verdict, STOP, WORDS};

/// Summaries that are merged to one.
const MOST: usize = 6;

pub fn compare(run: &mut Run) {
    let mut beside = Beside {
        run,
        counts: Counts::NONE,
        merged: Merged::NONE,
    };
    beside.settled();
    beside.chosen();
    for _ in 0..beside.run.wanted() {
        beside.random();
    }
    for _ in 0..beside.run.wanted() / 4 {
        beside.grouped();
    }
    let Beside {
        run,
        counts,
        merged,
    } = beside;
    counts.report(run);
    counts.report_all(run);
    merged.report(run, true);
    logs::compare(run);
}

/// Both sides.
struct Beside<'a> {
    run: &'a mut Run,
    counts: Counts,
    merged: Merged,
}

impl Beside<'_> {
    fn settled(&mut self) {
        for (word, bits, wanted) in settled::CASES {
            let verdict = Verdict {
                word,
                value: f32::from_bits(bits),
            };
            for (before, after) in settled::RAISED {
                let mut summary = inputs::summary(&mut self.run.random);
                if let Ok(place) = wanted {
                    summary.0[place] = before;
                }
                let left = self.add(&summary, &verdict);
                let same = match (verdict.outcome(), wanted) {
                    (Outcome::Counted(_), Ok(place)) => left.0[place] == after,
                    (refused, Err(number)) => refused.number() == number,
                    _ => false,
                };
                self.expect_paper(same, c"verdict");
            }
        }
        for (count, other, sum) in settled::MERGED {
            let left = self.merge(&Summary([count; WORDS]), &Summary([other; WORDS]));
            self.expect_paper(left.0 == [sum; WORDS], c"sum");
        }
    }

    fn expect_paper(&mut self, same: bool, what: &CStr) {
        if !same && self.run.differs() {
            unsafe {
                printf(
                    c"  DIFFERENT: a %s settled on paper\n".as_ptr(),
                    what.as_ptr(),
                )
            };
        }
    }

    /// Each chosen value accepted, rejected and with a word that is no verdict.
    fn chosen(&mut self) {
        inputs::gate_values(&mut |bits| {
            let another = inputs::another(&mut self.run.random);
            for word in [ACCEPTED, REJECTED, another] {
                let before = inputs::summary(&mut self.run.random);
                let value = f32::from_bits(bits);
                self.add(&before, &Verdict { word, value });
            }
        });
    }

    fn random(&mut self) {
        let random = &mut self.run.random;
        let (before, verdict) = (inputs::summary(random), inputs::verdict(random));
        let other = inputs::beside(random, &before);
        self.add(&before, &verdict);
        self.merge(&before, &other);
    }

    /// Several summaries, two of them merged at a time, whichever: one result, the sums of all.
    fn grouped(&mut self) {
        let random = &mut self.run.random;
        let mut left = random.between(2, MOST as i64) as usize;
        let mut summaries = [Summary::EMPTY; MOST];
        for summary in &mut summaries[..left] {
            *summary = inputs::summary(random);
            if random.below(4) > 0 {
                // then some of the sums stay below the stop
                summary.0 = summary.0.map(|count| count / 4);
            }
        }
        let sum = |place: usize| {
            summaries
                .iter()
                .map(|summary| summary.0[place] as u64)
                .sum()
        };
        let wanted = core::array::from_fn(|place| u64::min(sum(place), STOP as u64) as u32);
        while left > 1 {
            let place = self.run.random.below(left as u64) as usize;
            left -= 1;
            summaries.swap(place, left);
            let into = self.run.random.below(left as u64) as usize;
            summaries[into] = self.merge(&summaries[into], &summaries[left]);
        }
        if summaries[0] != Summary(wanted) && self.run.differs() {
            unsafe { printf(c"  DIFFERENT: summaries merged in some order\n".as_ptr()) };
        }
    }

    fn add(&mut self, before: &Summary, verdict: &Verdict) -> Summary {
        self.counts.add(before, verdict);
        calls::add(self.run, before, verdict)
    }

    fn merge(&mut self, summary: &Summary, other: &Summary) -> Summary {
        self.merged.merge(summary, other);
        calls::merge(self.run, summary, other)
    }
}
