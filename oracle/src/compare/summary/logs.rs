//! `track_summarize`: logs settled on paper, a fix about each end of a bucket; and two logs, whose verdicts
//! joined have the merge of their summaries.

use super::calls;
use super::counts::{Summarized, ENDS};
use super::reading::{quarter, Summary, Verdict, BUCKETS};
use super::settled;
use crate::compare::component::{ACCEPTED, REJECTED};
use crate::compare::ekf::turn::SECOND;
use crate::compare::libc::printf;
use crate::compare::log::counts::Counts;
use crate::compare::log::inputs::{self, Log};
use crate::compare::log::replay::{replay_beside, Step};
use crate::compare::log::{listed, room, show_bytes};
use crate::compare::random::Random;
use crate::compare::ranges::{at, edge};
use crate::compare::run::Run;
use core::ffi::CStr;

/// Bytes of a log at most.
const LENGTH: usize = inputs::LONGEST;

/// A log, and the summary of its verdicts up to its end or its stop.
pub struct Judged {
    pub bytes: [u8; LENGTH],
    pub length: usize,
    pub stop: u32,
    pub summary: Summary,
    /// Whether a verdict stands behind a prediction that edition 1 makes otherwise.
    turned: bool,
}

impl Judged {
    pub fn of(body: impl FnOnce(&mut Log)) -> Self {
        let mut bytes = [0; LENGTH];
        let mut log = Log {
            bytes: &mut bytes,
            length: 0,
        };
        body(&mut log);
        let length = log.length;
        let (mut summary, mut told, mut turned) = (Summary::EMPTY, false, false);
        let stop = steps(&bytes[..length], |step| {
            told |= matches!(
                step,
                Step::Line {
                    told: Some(SECOND),
                    ..
                }
            );
            if let Some(verdict) = Verdict::of(step) {
                summary.add(&verdict);
                turned |= told;
            }
        });
        Self {
            bytes,
            length,
            stop,
            summary,
            turned,
        }
    }

    fn random(random: &mut Random) -> Self {
        match random.below(4) {
            0 => {
                let length = random.between(128, LENGTH as i64) as usize;
                let edition = inputs::some_edition(random);
                Self::of(|log| inputs::drive(random, log, edition, length))
            }
            _ => Self::of(|log| inputs::log(random, log)),
        }
    }

    fn log(&self) -> &[u8] {
        &self.bytes[..self.length]
    }
}

/// Tells what each record comes to; the answer is the number of the stop, or 0.
fn steps(log: &[u8], mut tell: impl FnMut(&Step)) -> u32 {
    let out = &mut [0; room(LENGTH)];
    replay_beside(log, out, &mut Counts::default(), |_, step| tell(step)).stop
}

/// Tells each verdict of a position.
fn verdicts(log: &[u8], mut tell: impl FnMut(&Verdict)) {
    steps(log, |step| {
        if let Some(verdict) = Verdict::of(step) {
            tell(&verdict);
        }
    });
}

pub fn compare(run: &mut Run) {
    let count = run.wanted() / 40;
    let mut logs = Logs {
        run,
        summarized: Summarized::default(),
        both: 0,
        turned: 0,
    };
    logs.settled();
    logs.ends();
    for _ in 0..count {
        logs.two();
    }
    let Logs {
        run,
        summarized,
        both,
        turned,
    } = logs;
    summarized.report(run, &ENDS, count / 100);
    let name = c"logs with a verdict behind a turn by edition 2";
    run.expect(name, turned, count / 10);
    run.expect(c"two logs that both have verdicts", both, count / 10);
}

/// Both sides.
struct Logs<'a> {
    run: &'a mut Run,
    summarized: Summarized,
    both: u64,
    turned: u64,
}

impl Logs<'_> {
    fn settled(&mut self) {
        for (body, stop, counts) in settled::LOGS {
            let judged = Judged::of(body);
            let mut wanted = Summary::EMPTY;
            for &(place, count) in counts {
                wanted.0[place] = count;
            }
            if (judged.stop, judged.summary) != (stop, wanted) {
                self.differs(c"the judge's summary from the paper's", judged.log());
            }
            self.summarize(&judged);
        }
    }

    /// Fixes on both sides of each end of a bucket, 32.0 too.
    fn ends(&mut self) {
        for end in 1..=BUCKETS {
            let below = edge(0.0, 81.0, |x| gate_value(x) < quarter(end));
            for x in below..=below + 2 {
                self.summarize(&Judged::of(|log| fix(log, at(x))));
            }
        }
    }

    fn two(&mut self) {
        let [a, b] = [0; 2].map(|_| Judged::random(&mut self.run.random));
        let mut joined = a.summary;
        verdicts(b.log(), |verdict| joined.add(verdict));
        self.both += [&a, &b].iter().all(|log| log.summary != Summary::EMPTY) as u64;
        let [of_a, of_b] = [&a, &b].map(|log| self.summarize(log));
        if calls::merge(self.run, &of_a, &of_b) != joined {
            self.differs(c"two logs' summaries, merged", b.log());
        }
        let mut added = Summary::EMPTY;
        for log in [&a, &b] {
            added = self.add_listed(added, log.log());
        }
        if added != joined {
            self.differs(c"the listings' verdicts, added", b.log());
        }
    }

    fn summarize(&mut self, judged: &Judged) -> Summary {
        self.turned += judged.turned as u64;
        self.summarized.log(judged.stop, &judged.summary);
        calls::summarize(self.run, judged.log(), judged.stop, &judged.summary)
    }

    /// Adds the verdicts of the archive's listing, a line at a time.
    fn add_listed(&mut self, mut summary: Summary, log: &[u8]) -> Summary {
        let out = &mut [0; room(LENGTH)];
        let length = listed(log, out);
        let lines = out[..length].split(|&byte| byte == b'\n');
        for verdict in lines.filter_map(verdict) {
            summary = calls::add(self.run, &summary, &verdict);
        }
        summary
    }

    fn differs(&mut self, what: &CStr, log: &[u8]) {
        if self.run.differs() {
            unsafe { printf(c"  DIFFERENT: %s\n".as_ptr(), what.as_ptr()) };
            show_bytes(log);
        }
    }
}

/// A fix at (x, 0), with r_pos 100.
fn fix(log: &mut Log, x: f32) {
    settled::r_pos_100(log);
    log.floats(3, &[x, 0.0]);
}

fn gate_value(x: f32) -> f32 {
    let mut value = f32::NAN;
    let judged = Judged::of(|log| fix(log, x));
    verdicts(judged.log(), |verdict| value = verdict.value);
    value
}

/// That of a line of tag 3 with A or R.
fn verdict(line: &[u8]) -> Option<Verdict> {
    let mut fields = line.split(|&byte| byte == b' ').skip(1);
    let word = match [fields.next()?, fields.next()?] {
        [b"3", b"A"] => ACCEPTED,
        [b"3", b"R"] => REJECTED,
        _ => return None,
    };
    let digits = fields.next()?.iter().map(|&digit| digit as char);
    let digits = digits.filter_map(|digit| digit.to_digit(16));
    let bits = digits.fold(0, |bits, digit| bits << 4 | digit);
    Some(Verdict {
        word,
        value: f32::from_bits(bits),
    })
}
