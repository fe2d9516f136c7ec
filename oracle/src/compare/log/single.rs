//! Single records: on words of any bits, which no replay of a whole log comes to, and with any number.

use super::counts::Counts;
use super::editions::{class, report_classes, Editions, CLASSES, WORDS};
use super::inputs::{Log, DEFAULT};
use super::lockouts::Met;
use super::record::{Can, Outcomes, Words};
use super::replay::{calls, replay, step, Before, Step, CONFIGURE, MARKS, TAGS};
use super::{room, settled, tunnel};
use crate::compare::ekf::filter::{Filter, CONFIGURATION, FLAGS, NIS_COUNT, P, RUN};
use crate::compare::ekf::inputs::{any_run, arguments, sound_filter};
use crate::compare::ekf::scope::{NIS_END, NUMBERS, OPERATIONS, PREDICT, WITH_CONFIG};
use crate::compare::ekf::turn::{FIRST, SECOND};
use crate::compare::ekf::{given, RUNS};
use crate::compare::lent::filled;
use crate::compare::libc::printf;
use crate::compare::random::Random;
use crate::compare::ranges::ends;
use crate::compare::run::{has_payload, Run};
use core::ffi::CStr;

/// Record numbers below, at and above the first two, and the last ones.
const NUMBERED: [u32; 6] = [0, 1, 2, 3, u32::MAX - 1, u32::MAX];
const ANY_OTHER: usize = NUMBERED.len();

/// Room for a record and as many bytes behind it as a wrong length may take in.
const BEHIND: usize = 300;
const BYTES: usize = 31 + BEHIND;

pub fn compare(run: &mut Run) {
    let least = run.wanted() / 1000;
    let mut single = Single {
        run,
        counts: Counts::default(),
        editions: Editions::default(),
        met: Met::default(),
        not_finite: [0; CLASSES],
        kept: [0; CLASSES],
        by_number: [Outcomes::default(); ANY_OTHER + 1],
        flags: 0,
        payloads: [0; 3],
    };
    single.settled_editions();
    single.settled_runs();
    for _ in 0..least {
        single.settled();
        single.nothing();
    }
    for _ in 0..20 {
        single.cut();
        single.ends();
    }
    single.editions();
    single.headers();
    for _ in 0..2 * single.run.wanted() {
        single.random();
    }
    single.report(least);
}

/// Both sides, and how often what came about.
struct Single<'a> {
    run: &'a mut Run,
    counts: Counts,
    editions: Editions,
    met: Met,
    /// By the class of the edition's word: predictions that are refused with 1, and lines of other calls that
    /// keep the word.
    not_finite: [u64; CLASSES],
    kept: [u64; CLASSES],
    /// By the place in `NUMBERED`; the last ones are of any other number.
    by_number: [Outcomes; ANY_OTHER + 1],
    /// Lines that make 1 of another word of a flag that is true.
    flags: u64,
    /// Answered, refused and stopped: a NaN with a payload is kept.
    payloads: [u64; 3],
}

impl Single<'_> {
    /// Each stop that is settled on paper, where its record is the first one and where it is not.
    fn settled(&mut self) {
        for (behind, parts, reason) in &settled::STOPS {
            let mut room = [0; BYTES];
            let record = written(&mut room, |log| {
                parts.iter().for_each(|part| log.put(part));
            });
            for number in numbers(&mut self.run.random) {
                if (behind.numbers)(number) {
                    let filter = any_filter(&mut self.run.random);
                    let gives = self.replay(number, &filter, record);
                    self.expect_paper(gives, reason);
                }
            }
        }
    }

    /// Each single record that is settled on paper, with the word of its edition.
    fn settled_editions(&mut self) {
        let filter = turning();
        for (number, edition, parts, paper, after) in settled::SINGLES {
            let mut room = [0; BYTES];
            let record = written(&mut room, |log| {
                parts.iter().for_each(|part| log.put(part));
            });
            let before = Before {
                number,
                edition,
                filter,
            };
            let judged = self.replay_on(&before, record);
            self.expect_number(judged.number(), paper);
            self.expect_number(judged.edition(edition), after);
        }
    }

    /// Each single record that is settled on paper, in a run.
    fn settled_runs(&mut self) {
        for case in tunnel::SINGLES.iter().chain(&tunnel::MORE) {
            let filter = tunnel::locked(case.run);
            let before = Before {
                number: case.number,
                edition: FIRST,
                filter,
            };
            let judged = self.replay_on(&before, case.record);
            let left = match &judged {
                Step::Line { outcome, .. } => outcome.filter,
                _ => filter,
            };
            self.expect_number(judged.number(), case.gives);
            self.expect_number(left.counts[RUN], case.leaves.0);
            self.expect_number(left.numbers[P].to_bits(), case.leaves.1.to_bits());
        }
    }

    fn expect_paper(&mut self, gives: u32, reason: &[u8]) {
        let digit = |sum, &digit: &u8| 10 * sum + (digit - b'0') as u32;
        self.expect_number(gives, reason.iter().fold(0, digit));
    }

    fn expect_number(&mut self, gives: u32, paper: u32) {
        if gives != paper && self.run.differs() {
            unsafe {
                printf(
                    c"  DIFFERENT: the judge gives %u, the paper %u\n".as_ptr(),
                    gives,
                    paper,
                )
            };
        }
    }

    /// The end, on any words.
    fn nothing(&mut self) {
        for number in numbers(&mut self.run.random) {
            let filter = any_filter(&mut self.run.random);
            self.replay(number, &filter, &[]);
        }
    }

    /// A record of each call, cut at every byte.
    fn cut(&mut self) {
        for call in calls() {
            let number = number(&mut self.run.random);
            let (filter, arguments) = given(&mut self.run.random, call);
            let mut room = [0; BYTES];
            let record = written(&mut room, |log| write(log, call, &filter, &arguments));
            for length in 0..=record.len() {
                self.replay(number, &filter, &record[..length]);
            }
        }
    }

    /// A record with tag 10 of every byte, with all kinds of numbers in its log, cut at every byte.
    fn editions(&mut self) {
        for edition in 0..=255 {
            for number in numbers(&mut self.run.random) {
                let mut room = [0; BYTES];
                let record = written(&mut room, |log| log.edition(edition));
                for length in 0..=record.len() {
                    let filter = any_filter(&mut self.run.random);
                    self.replay(number, &filter, &record[..length]);
                }
            }
        }
    }

    /// Each number of the filter, looked at or not, at and beside the ends of its range, the count and the run.
    fn ends(&mut self) {
        let sound = sound_filter(&mut self.run.random);
        for call in calls() {
            for place in 0..NUMBERS.len() {
                for end in ends(&mut self.run.random, NUMBERS[place]) {
                    let mut filter = sound;
                    filter.numbers[place] = end;
                    self.whole(call, &filter);
                }
            }
            for count in [NIS_END - 1, NIS_END, NIS_END + 1, u32::MAX] {
                let mut filter = sound;
                filter.counts[NIS_COUNT] = count;
                self.whole(call, &filter);
            }
            for run in RUNS {
                let mut filter = sound;
                filter.counts[RUN] = run;
                self.whole(call, &filter);
            }
        }
    }

    /// A whole record where it may stand.
    fn whole(&mut self, call: u32, filter: &Filter) {
        let number = number_of(&mut self.run.random, Some(call));
        let arguments = arguments(&mut self.run.random, &OPERATIONS[call as usize]);
        let mut room = [0; BYTES];
        let record = written(&mut room, |log| write(log, call, filter, &arguments));
        self.replay(number, filter, record);
    }

    /// Each tag with the length of each other, whole.
    fn headers(&mut self) {
        let mut room = [0; BYTES];
        let whole = written(&mut room, |log| log.floats(CONFIGURE, &DEFAULT)).len();
        for tag in 0..=255 {
            for (length, _) in TAGS {
                room[..3].copy_from_slice(&[tag, length as u8, 0]);
                for number in numbers(&mut self.run.random) {
                    let filter = sound_filter(&mut self.run.random);
                    self.replay(number, &filter, &room[..whole]);
                }
            }
        }
    }

    /// A record as the filter's comparison makes its calls; some have things wrong, and bytes behind them.
    fn random(&mut self) {
        let random = &mut self.run.random;
        let call = match random.below(16) {
            0..3 => Some(WITH_CONFIG),
            3..5 => Some(MARKS[random.below(6) as usize]),
            5..8 => Some(PREDICT),
            _ => TAGS[random.below(TAGS.len() as u64) as usize].1,
        };
        let (given, arguments) = given(random, call.unwrap_or(PREDICT));
        let mut number = number_of(random, call);
        let mut room = [0; BYTES];
        let record = written(&mut room, |log| {
            match call {
                Some(call) => write(log, call, &given, &arguments),
                None => log.edition(random.between(1, 2) as u8),
            }
            while random.below(4) == 0 {
                spoil(random, log, &mut number);
            }
            let behind = match random.below(32) {
                0 => BEHIND,
                1..=16 => random.below(24) as usize,
                _ => 0,
            };
            for _ in 0..behind {
                log.put(&[random.bits() as u8]);
            }
        });
        let mut filter = match random.below(4) {
            0 => any_filter(random),
            _ => given,
        };
        if random.below(4) == 0 {
            filter.counts[RUN] = any_run(random);
        }
        self.replay(number, &filter, record);
    }

    /// On any edition; the answer is the number that the judge gives.
    fn replay(&mut self, number: u32, filter: &Filter, record: &[u8]) -> u32 {
        let before = Before {
            number,
            edition: word(&mut self.run.random),
            filter: *filter,
        };
        self.replay_on(&before, record).number()
    }

    fn replay_on(&mut self, before: &Before, record: &[u8]) -> Step {
        let judged = step(record, before);
        self.count(before, &judged);
        self.editions.step(record, &judged);
        let mut room = [0; BYTES];
        let lent = &mut room[..record.len()];
        lent.copy_from_slice(record);
        let mut words = Words::of(&mut self.run.random, before);
        words.replay(self.run, lent, &judged);
        if lent != record && self.run.differs() {
            unsafe { printf(c"  DIFFERENT: a record's bytes did not stay\n".as_ptr()) };
        }
        judged
    }

    fn count(&mut self, before: &Before, judged: &Step) {
        let Before { number, filter, .. } = before;
        let place = NUMBERED.iter().position(|numbered| numbered == number);
        self.by_number[place.unwrap_or(ANY_OTHER)].count(judged);
        self.counts.step(filter, judged);
        self.met.step(before, judged);
        let keeps = filter.numbers.iter().any(|&number| has_payload(number)) as u64;
        match judged {
            Step::End => {}
            Step::Stop { .. } => self.payloads[2] += keeps,
            Step::Line { call, outcome, .. } => {
                let answered = outcome.number == 0;
                let word = class(before.edition);
                self.not_finite[word] += (*call == Some(PREDICT) && outcome.number == 1) as u64;
                if *call != Some(WITH_CONFIG) {
                    self.kept[word] += (answered && *call != Some(PREDICT)) as u64;
                    self.payloads[!answered as usize] += keeps;
                    let written = FLAGS.iter().any(|&flag| filter.counts[flag] > 1);
                    self.flags += (answered && written) as u64;
                }
            }
        }
    }

    fn report(&mut self, least: u64) {
        unsafe { printf(c"  Single records on any words.\n".as_ptr()) };
        self.counts.report_steps(self.run, least, false);
        unsafe { printf(c"  By the edition's word, 4 for any other:\n".as_ptr()) };
        self.editions.report_words(self.run, least);
        report_classes(
            self.run,
            c"  predictions not finite",
            self.not_finite,
            least / 2,
        );
        report_classes(self.run, c"  other calls answered", self.kept, least);
        self.met.report(self.run, calls(), least);
        const FIRST: Can = [&[0, 4], &[], &[3, 7, 8, 9, 10]];
        const LATER: Can = [&[0, 1, 2, 4], &[1, 2, 3, 4, 6], &[7, 8, 9, 10]];
        let names: [(&CStr, Can); ANY_OTHER + 1] = [
            (c"number 0", LATER),
            (c"number 1", FIRST),
            (c"number 2", LATER),
            (c"number 3", LATER),
            (c"the last number but one", LATER),
            (c"the last number, which stays", LATER),
            (c"any other number", LATER),
        ];
        for (outcomes, (name, can)) in self.by_number.iter().zip(names) {
            outcomes.report(self.run, name, can, least);
        }
        let [answered, refused, stopped] = self.payloads;
        self.run.expect(c"flags that become 1", self.flags, least);
        self.run
            .expect(c"NaN kept with its payload: answered", answered, least);
        self.run.expect(c"NaN kept: refused", refused, least);
        self.run.expect(c"NaN kept: stopped", stopped, least);
    }
}

/// The settled car that turns.
pub fn turning() -> Filter {
    let mut bytes = [0; BYTES];
    let log = written(&mut bytes, |log| settled::turn(log, None));
    let replayed = replay(log, &mut [0; room(BYTES)], &mut Counts::default());
    replayed.filter.unwrap_or(Before::log().filter)
}

/// Any bits.
fn any_filter(random: &mut Random) -> Filter {
    Filter {
        numbers: filled(random).map(f32::from_bits),
        counts: filled(random),
    }
}

/// Those of `NUMBERED`, and any other one.
fn numbers(random: &mut Random) -> [u32; ANY_OTHER + 1] {
    let [a, b, c, d, e, f] = NUMBERED;
    let other = random.between(4, u32::MAX as i64 - 2) as u32;
    [a, b, c, d, e, f, other]
}

fn number(random: &mut Random) -> u32 {
    let numbers = numbers(random);
    numbers[random.below(numbers.len() as u64) as usize]
}

/// Any word where the edition is kept, most often an edition.
fn word(random: &mut Random) -> u32 {
    match random.below(16) {
        0..5 => FIRST,
        5..10 => SECOND,
        10..15 => WORDS[random.below(WORDS.len() as u64) as usize],
        _ => random.bits(),
    }
}

/// A number with which the record of a call, or an edition, may stand.
fn number_of(random: &mut Random, call: Option<u32>) -> u32 {
    match call {
        None => 2,
        Some(WITH_CONFIG) => 1,
        Some(_) => match number(random) {
            1 => 2,
            number => number,
        },
    }
}

/// What is written to the front of some bytes.
fn written(bytes: &mut [u8; BYTES], body: impl FnOnce(&mut Log)) -> &[u8] {
    let mut log = Log {
        bytes: &mut bytes[..],
        length: 0,
    };
    body(&mut log);
    let length = log.length;
    &bytes[..length]
}

/// The record that makes a call; a configuration is the filter's.
fn write(log: &mut Log, call: u32, filter: &Filter, arguments: &[f32; 4]) {
    if let Some(mark) = MARKS.iter().position(|&mark| mark == call) {
        log.mark(mark as u8 + 1);
    }
    for (tag, (length, made)) in (1..).zip(TAGS) {
        match made {
            Some(WITH_CONFIG) if call == WITH_CONFIG => {
                log.floats(tag, &filter.numbers[CONFIGURATION..][..7])
            }
            Some(made) if made == call => log.floats(tag, &arguments[..length / 4]),
            _ => {}
        }
    }
}

/// Makes one thing wrong, whatever else is: the tag, the length, the mark, any byte, the end or the number.
fn spoil(random: &mut Random, log: &mut Log, at: &mut u32) {
    match random.below(7) {
        0 => log.bytes[0] = random.below(16) as u8,
        1 => log.bytes[1] = random.below(32) as u8,
        2 => log.bytes[2] = random.below(3) as u8,
        3 => log.bytes[3] = random.below(16) as u8,
        4 => log.bytes[random.below(31) as usize] = random.bits() as u8,
        5 => log.length = random.below(log.length as u64 + 1) as usize,
        _ => *at = number(random),
    }
}
