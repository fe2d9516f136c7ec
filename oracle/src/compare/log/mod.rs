//! `track_list` and `track_replay`: whole listings, and the whole filter at the end, beside those of a
//! replayer over the original filter; `track_summarize`: the summary of its verdicts; and
//! `track_replay_record`: each record of each log, and single ones.
//!
//! Log and listing lie in one row of bytes that is filled before each call and compared as a whole:
//! the log, the bytes behind the listing and those behind `out` have to stay as they were. So have the
//! words beside those that a replay writes.

pub mod counts;
pub mod editions;
pub mod inputs;
mod lockouts;
mod record;
pub mod replay;
pub mod sample;
pub mod settled;
mod single;
pub mod speed;
mod tunnel;

use super::archive::{track_list, track_replay};
use super::ekf::scope::OPERATIONS;
use super::lent::{filled, lay, lay_floats, Lent, Parts};
use super::libc::{printf, putchar};
use super::random::Random;
use super::ranges::ends;
use super::run::Run;
use super::summary::calls;
use super::summary::counts::{Summarized, ENDS};
use super::summary::reading::{Summary, Verdict};
use core::ffi::CStr;
use counts::Counts;
use editions::Editions;
use inputs::{Log, DEFAULT};
use lockouts::Lockouts;
use record::{Walk, Walked};
use replay::{replay, replay_beside, Replayed, CONFIGURE, TAGS};

/// What `track_list` asks for: so many bytes a line, 16 of them to spare, and x and p.
pub const fn room(log_length: usize) -> usize {
    let lines = log_length / 4 + 1;
    let line = if lines < 100_000 { 15 } else { 30 };
    (line + 16) * lines + 130
}

/// The first log with room for longer lines, and one whose lines have numbers of six digits.
const WIDER: usize = 399_996;
const LONGEST: usize = 400_031;
/// So many bytes above the room are lent at most, and so many behind `out` are lent to no one.
const MORE: usize = 2;
const BEYOND: usize = 16;
const ROW: usize = LONGEST + room(LONGEST) + MORE + BEYOND;

/// Where in a row of words the filter of a replay is.
const NUMBERS: usize = 1;
const COUNTS: usize = 27;
const WORDS: usize = 38;
const PARTS: &Parts = &[
    (NUMBERS, c"numbers"),
    (NUMBERS + 25, c"lent to no one"),
    (COUNTS, c"counts"),
    (COUNTS + 10, c"lent to no one"),
];

/// Too long for the stack.
static mut WANTED: [u8; ROW] = [0; ROW];
static mut GIVEN: [u8; ROW] = [0; ROW];

/// The archive's listing at the front of `out`: its length.
pub fn listed(log: &[u8], out: &mut [u8]) -> usize {
    assert!(out.len() >= room(log.len()));
    list(log, out)
}

fn list(log: &[u8], out: &mut [u8]) -> usize {
    let (log_length, out_length) = (log.len() as u64, out.len() as u64);
    unsafe { track_list(log.as_ptr(), log_length, out.as_mut_ptr(), out_length) as usize }
}

/// Writes the judge's listing of a log.
pub fn judged(log: &[u8]) {
    // it is called once, and nothing else names it
    let out = unsafe { &mut *(&raw mut WANTED) };
    let replayed = replay(log, out, &mut Counts::default());
    for &byte in &out[..replayed.listed] {
        unsafe { putchar(byte as i32) };
    }
}

/// Both sides.
pub struct Beside<'a> {
    pub run: &'a mut Run,
    counts: Counts,
    editions: Editions,
    lockouts: Lockouts,
    walked: Walked,
    summarized: Summarized,
    wanted: &'a mut [u8; ROW],
    given: &'a mut [u8; ROW],
}

pub fn compare(run: &mut Run) {
    let mut beside = Beside::new(run);
    beside.settled();
    beside.cut();
    beside.headers();
    beside.arguments();
    beside.sizes();
    // random logs have to show the editions and the runs by themselves: long drives have many turns and fixes
    beside.editions = Editions::default();
    beside.lockouts = Lockouts::default();
    for _ in 0..beside.run.wanted() {
        beside.list(inputs::log);
    }
    let least = beside.run.wanted() / 1000;
    beside.counts.report(beside.run);
    beside.editions.report(beside.run, least);
    beside.lockouts.report(beside.run, 10 * least);
    beside.walked.report(beside.run);
    beside.summarized.report(beside.run, &ENDS, least);
    single::compare(run);
}

impl<'a> Beside<'a> {
    pub fn new(run: &'a mut Run) -> Self {
        // a comparison calls it once, and nothing else names them
        let (wanted, given) = unsafe { (&mut *(&raw mut WANTED), &mut *(&raw mut GIVEN)) };
        Self {
            run,
            counts: Counts::default(),
            editions: Editions::default(),
            lockouts: Lockouts::default(),
            walked: Walked::default(),
            summarized: Summarized::default(),
            wanted,
            given,
        }
    }

    /// A log that lies elsewhere.
    pub fn read(&mut self, log: &[u8]) -> &[u8] {
        self.list(|_, to| to.put(log))
    }

    fn settled(&mut self) {
        self.expect(settled::sample, &[settled::SAMPLE]);
        for stop in &settled::STOPS {
            let (behind, _, reason) = stop;
            let listing = [behind.lines, reason, b"\n", behind.state];
            self.expect(
                |log| settled::stop(log, stop, settled::configured),
                &listing,
            );
        }
        for (body, edition, listing) in settled::TURNED {
            self.expect(|log| body(log, edition), &[listing]);
        }
        for case in &tunnel::CASES {
            self.expect(|log| case.write(log), case.listing);
            if !case.is_left() {
                self.differs_from_paper(c"filter behind a tunnel");
            }
        }
        for mark in 1..=6 {
            self.list(|_, log| {
                settled::busy(log);
                log.mark(mark);
            });
        }
        let listing = self.list(|_, log| settled::verdicts(log));
        let lines = listing.split(|&byte| byte == b'\n').skip(1);
        let wrong = settled::VERDICTS.iter().zip(lines);
        let wrong = wrong.filter(|((.., verdict), line)| behind_tag(line) != Some(verdict));
        for _ in 0..wrong.count() {
            self.differs_from_paper(c"verdicts");
        }
    }

    fn expect(&mut self, body: impl FnOnce(&mut Log), parts: &[&[u8]]) {
        let listing = self.list(|_, log| body(log));
        let rest = parts
            .iter()
            .try_fold(listing, |rest, part| rest.strip_prefix(*part));
        if rest != Some(&[]) {
            self.differs_from_paper(c"listing");
        }
    }

    fn differs_from_paper(&mut self, what: &CStr) {
        if self.run.differs() {
            unsafe {
                printf(
                    c"  DIFFERENT: the judge's %s from the paper's\n".as_ptr(),
                    what.as_ptr(),
                )
            };
        }
    }

    /// A log of all records, cut at every byte; a call leaves the bytes of its log.
    fn cut(&mut self) {
        let whole = self.write(|_, log| settled::verdicts(log));
        for length in (0..=whole).rev() {
            self.list_written(length);
        }
    }

    /// Headers that end the log, whole and cut: each tag and the lengths of all tags.
    fn headers(&mut self) {
        for tag in 0..=255 {
            for (length, _) in TAGS {
                for cut in 1..=3 {
                    let header = &[tag, length as u8, 0][..cut];
                    self.list(|_, log| log.put(header));
                    self.list(|_, log| {
                        log.floats(CONFIGURE, &DEFAULT);
                        log.put(header);
                    });
                }
            }
        }
    }

    /// Each argument at and beside the ends of its range.
    fn arguments(&mut self) {
        for (tag, (_, call)) in (1..).zip(TAGS) {
            let ranges = call.map_or(&[][..], |call| OPERATIONS[call as usize].arguments);
            for (place, &range) in ranges.iter().enumerate() {
                for argument in ends(&mut self.run.random, range) {
                    let mut arguments = [0.01; 4];
                    arguments[place] = argument;
                    self.list(|_, log| {
                        log.floats(CONFIGURE, &DEFAULT);
                        log.floats(tag, &arguments[..ranges.len()]);
                    });
                }
            }
        }
    }

    /// Each as many lines as there can be, as a drive writes it, and all zeros.
    fn sizes(&mut self) {
        for length in [65_535, 65_536, 65_537, WIDER - 1, WIDER, LONGEST] {
            self.list(|_, log| {
                log.floats(CONFIGURE, &DEFAULT);
                while log.length + 4 <= length {
                    log.mark(4);
                }
            });
            for edition in [None, Some(2)] {
                self.list(|random, log| inputs::drive(random, log, edition, length));
            }
            self.wanted[..length].fill(0);
            self.list_written(length);
        }
    }

    /// The answer is the length of the log.
    fn write(&mut self, body: impl FnOnce(&mut Random, &mut Log)) -> usize {
        let mut log = Log {
            bytes: &mut *self.wanted,
            length: 0,
        };
        body(&mut self.run.random, &mut log);
        log.length
    }

    /// The answer is the judge's listing.
    fn list(&mut self, body: impl FnOnce(&mut Random, &mut Log)) -> &[u8] {
        let length = self.write(body);
        self.list_written(length)
    }

    /// Lends too little, then the room or a little more; between them the log is replayed, a record at a
    /// time and as a whole, and summarized.
    fn list_written(&mut self, length: usize) -> &[u8] {
        let room = room(length);
        let random = &mut self.run.random;
        let short = match random.below(4) {
            0 => 0,
            1 => random.below(room as u64) as usize,
            _ => room - 1,
        };
        let enough = room + random.between(0, MORE as i64) as usize;
        self.fill(length, short);
        self.counts.short += 1;
        self.call(length, short, room);
        self.fill(length, enough);
        let (log, out) = self.wanted.split_at_mut(length);
        let mut walk = Walk::new(&mut self.run.random);
        let mut summary = Summary::EMPTY;
        let replayed = replay_beside(log, &mut out[..enough], &mut self.counts, |rest, judged| {
            self.editions.step(rest, judged);
            self.lockouts.step(judged);
            let rest = &mut self.given[length - rest.len()..length];
            walk.step(self.run, &mut self.walked, rest, judged);
            if let Some(verdict) = Verdict::of(judged) {
                summary.add(&verdict);
            }
        });
        self.counts.empty += (replayed.listed == 0) as u64;
        self.replay(length, &replayed);
        self.summarize(length, replayed.stop, &summary);
        self.call(length, enough, replayed.listed);
        &self.wanted[length..length + replayed.listed]
    }

    /// Puts any bytes behind the log, the same ones on both sides.
    fn fill(&mut self, length: usize, lent: usize) {
        let end = length + lent + BEYOND;
        self.run.random.fill(&mut self.wanted[length..end]);
        self.given[..end].copy_from_slice(&self.wanted[..end]);
    }

    fn call(&mut self, length: usize, lent: usize, wanted: usize) {
        let end = length + lent + BEYOND;
        let (log, out) = self.given.split_at_mut(length);
        let gives = list(log, &mut out[..lent]);
        self.run.count_call();
        let same = gives == wanted && self.given[..end] == self.wanted[..end];
        if !same && self.run.differs() {
            self.show(length, end, gives, wanted);
        }
    }

    fn replay(&mut self, length: usize, judged: &Replayed) {
        let before = filled::<WORDS>(&mut self.run.random);
        let (mut after, mut wanted) = (before, before);
        let (numbers, counts) = after.split_at_mut(COUNTS);
        let number = unsafe {
            track_replay(
                self.given.as_ptr(),
                length as u64,
                numbers[NUMBERS..].as_mut_ptr().cast(),
                counts.as_mut_ptr(),
            )
        };
        self.run.count_call();
        if let Some(filter) = &judged.filter {
            lay_floats(&mut wanted, NUMBERS, &filter.numbers);
            lay(&mut wanted, COUNTS, &filter.counts);
        }
        let call = Lent {
            name: c"replay of so many bytes",
            operation: length as u32,
            number,
            before,
            after,
            parts: PARTS,
        };
        if call.expect(self.run, judged.stop, &wanted, c"the judge") {
            show_bytes(&self.wanted[..length]);
        }
    }

    fn summarize(&mut self, length: usize, stop: u32, summary: &Summary) {
        self.summarized.log(stop, summary);
        calls::summarize(self.run, &self.given[..length], stop, summary);
    }

    fn show(&self, length: usize, end: usize, gives: usize, wanted: usize) {
        let (given, judged) = (&self.given[..end], &self.wanted[..end]);
        unsafe {
            printf(
                c"  DIFFERENT: a log of %llu bytes: the archive gives %llu, the judge %llu\n"
                    .as_ptr(),
                length as u64,
                gives as u64,
                wanted as u64,
            );
        }
        show_bytes(&self.wanted[..length]);
        let Some(first) = (0..end).find(|&place| given[place] != judged[place]) else {
            return;
        };
        for (by, bytes) in [(c"archive", given), (c"judge", judged)] {
            let from = first as i64 - length as i64;
            unsafe { printf(c"    byte %lld of out on, %s: ".as_ptr(), from, by.as_ptr()) };
            for &byte in bytes[first..].iter().take(40) {
                let shown = if (32..127).contains(&byte) {
                    byte
                } else {
                    b'|'
                };
                unsafe { printf(c"%c".as_ptr(), shown as u32) };
            }
            unsafe { printf(c"\n".as_ptr()) };
        }
    }
}

/// The third field of a line and those behind it.
fn behind_tag(line: &[u8]) -> Option<&[u8]> {
    line.splitn(3, |&byte| byte == b' ').nth(2)
}

pub fn show_bytes(bytes: &[u8]) {
    unsafe { printf(c"   ".as_ptr()) };
    for byte in bytes.iter().take(200) {
        unsafe { printf(c" %02X".as_ptr(), *byte as u32) };
    }
    unsafe { printf(c"\n".as_ptr()) };
}
