//! A sample of the judge's answers to be stored: `crates/judged` replays it with no Rust at hand.
//!
//! A record is one byte for the entry point, one for the number that the judge gives, then words, the
//! low byte first: those that the call is given, those that it may write as they are before it and,
//! for the number 0, as they are after it. To a Rattle program all NaNs are one: each is written as
//! 7FC00000. An answer is never a NaN.

use super::component::Answer;
use super::libc::{printf, putchar};
use super::random::Random;
use super::run::Run;
use super::{ekf, float, learners, log, summary, trig, write};
use core::ffi::CStr;
use learners::{Aligner, Gps, LowPass, Orientation, Tilt, YawRate};

/// By the byte of a record.
const ENTRIES: [&CStr; 17] = [
    c"track_float",
    c"track_trig",
    c"track_ekf",
    c"track_lowpass",
    c"track_orientation",
    c"track_gps",
    c"track_tilt",
    c"track_yawrate",
    c"track_aligner",
    c"track_blend",
    c"track_list",
    c"track_replay",
    c"track_append",
    c"track_replay_record",
    c"track_summary_add",
    c"track_summary_merge",
    c"track_summarize",
];

pub const FLOAT: usize = 0;
pub const TRIG: usize = 1;
pub const EKF: usize = 2;
pub const BLEND: usize = 9;
pub const LIST: usize = 10;
pub const REPLAY: usize = 11;
pub const APPEND: usize = 12;
pub const RECORD: usize = 13;
pub const SUMMARY_ADD: usize = 14;
pub const SUMMARY_MERGE: usize = 15;
pub const SUMMARIZE: usize = 16;

#[derive(Clone, Copy, PartialEq)]
pub enum Shows {
    /// The sample itself.
    Bytes,
    /// What the program writes that replays it: the records of each entry point.
    Counts,
    /// How often each outcome is in it, and fails if one is not.
    Outcomes,
}

pub struct Sample {
    pub random: Random,
    /// An input is kept if it has outcomes that so many do not have yet, and so many of them.
    pub each: u64,
    pub fresh: usize,
    pub shows: Shows,
    pub run: Run,
    records: [u32; ENTRIES.len()],
}

/// Writes it; the answer is whether all is well.
pub fn sample(shows: Shows, each: u64, seed: u64) -> bool {
    let mut sample = Sample {
        random: Random::new(seed),
        each,
        fresh: 1,
        shows,
        run: Run::sampled(c"sample", seed),
        records: [0; ENTRIES.len()],
    };
    float::sample(&mut sample);
    trig::sample(&mut sample);
    ekf::sample::sample(&mut sample);
    learners::sample::<LowPass>(&mut sample, 3);
    learners::sample::<Orientation>(&mut sample, 4);
    // one of each outcome: most of them are settled on paper
    let each = core::mem::replace(&mut sample.each, 1);
    learners::sample::<Gps>(&mut sample, 5);
    sample.each = each;
    learners::sample::<Tilt>(&mut sample, 6);
    // one of each outcome: a ring has many words, and its readings from the tables take many steps
    sample.each = 1;
    learners::sample::<YawRate>(&mut sample, 7);
    learners::sample::<Aligner>(&mut sample, 8);
    sample.each = each;
    learners::blend::sample(&mut sample);
    log::sample::sample(&mut sample);
    write::sample::sample(&mut sample);
    log::sample::records(&mut sample);
    summary::sample::sample(&mut sample);
    trig::sample_edges(&mut sample);
    sample.finish()
}

impl Sample {
    fn finish(&self) -> bool {
        if self.shows == Shows::Counts {
            for (name, count) in ENTRIES.iter().zip(self.records) {
                unsafe { printf(c"%s %u\n".as_ptr(), name.as_ptr(), count) };
            }
            unsafe { printf(c"0 differences\n".as_ptr()) };
        }
        self.shows != Shows::Outcomes || self.run.finish()
    }

    pub fn record(&mut self, entry: usize, number: u32, rows: [&Row; 3]) {
        let [given, before, after] = rows;
        self.head(entry, number);
        self.words(given);
        self.words(before);
        if number == 0 {
            self.words(after);
        }
    }

    /// A call of a function with a record. Given are the operation, the arguments and the words, and any
    /// floats behind them; the rows are its record before and after.
    pub fn component(
        &mut self,
        entry: usize,
        number: u32,
        (operation, arguments, words): (u32, &[f32], &[u32]),
        [before, after]: [&Row; 2],
        answer: &Answer,
    ) {
        let mut given = Row::of(&[operation]).floats(arguments);
        while given.length < 1 + 6 {
            given = given.words(&filler::<1>(&mut self.random));
        }
        given = given.words(words);
        while given.length < 1 + 6 + 4 {
            given = given.words(&filler::<1>(&mut self.random));
        }
        let (mut values, mut shown) =
            (filler::<2>(&mut self.random), filler::<4>(&mut self.random));
        let before = Row::of(before.all()).words(&values).words(&shown);
        answer.lay(&mut shown, &mut values);
        assert!(!values.iter().any(|&word| f32::from_bits(word).is_nan()));
        let after = Row::of(after.all()).words(&values).words(&shown);
        self.record(entry, number, [&given, &before, &after]);
    }

    pub fn head(&mut self, entry: usize, number: u32) {
        self.records[entry] += 1;
        self.run.count_call();
        self.bytes(&[entry as u8, number as u8]);
    }

    pub fn words(&mut self, row: &Row) {
        for word in row.all() {
            self.bytes(&word.to_le_bytes());
        }
    }

    pub fn bytes(&mut self, bytes: &[u8]) {
        if self.shows == Shows::Bytes {
            for &byte in bytes {
                unsafe { putchar(byte as i32) };
            }
        }
    }

    /// Whether an input is kept: always, or for its outcomes, which `count` counts. Then they are added
    /// to `kept`.
    pub fn keeps<C: Default>(
        &self,
        kept: &mut C,
        always: bool,
        count: impl FnOnce(&mut C),
    ) -> bool {
        let mut one = C::default();
        count(&mut one);
        let (one, kept) = (tallies(&mut one), tallies(kept));
        let lacks = |(one, kept): &(&u64, &u64)| **one > 0 && **kept < self.each;
        let keeps = always || one.iter().zip(&*kept).filter(lacks).count() >= self.fresh;
        if keeps {
            for (kept, one) in kept.iter_mut().zip(one) {
                *kept += *one;
            }
        }
        keeps
    }
}

/// The counts of a comparison, which are all of 64 bits.
fn tallies<C>(counts: &mut C) -> &mut [u64] {
    assert!(align_of::<C>() == align_of::<u64>());
    let counts: *mut C = counts;
    unsafe { core::slice::from_raw_parts_mut(counts.cast(), size_of::<C>() / size_of::<u64>()) }
}

/// Words of a record.
pub struct Row {
    words: [u32; 64],
    length: usize,
}

impl Row {
    pub fn new() -> Self {
        Self {
            words: [0; 64],
            length: 0,
        }
    }

    pub fn of(words: &[u32]) -> Self {
        Self::new().words(words)
    }

    fn all(&self) -> &[u32] {
        &self.words[..self.length]
    }

    pub fn words(mut self, words: &[u32]) -> Self {
        self.words[self.length..][..words.len()].copy_from_slice(words);
        self.length += words.len();
        self
    }

    pub fn floats(mut self, floats: &[f32]) -> Self {
        for float in floats {
            let word = if float.is_nan() {
                0x7FC0_0000
            } else {
                float.to_bits()
            };
            self = self.words(&[word]);
        }
        self
    }

    /// What a call answers: the value, or where there is none the word before.
    pub fn answers<const N: usize>(mut self, answers: [Option<f32>; N], before: [u32; N]) -> Self {
        for (answer, before) in answers.iter().zip(before) {
            assert!(!answer.is_some_and(f32::is_nan));
            self = self.words(&[answer.map_or(before, f32::to_bits)]);
        }
        self
    }
}

/// Some finite floats, as words.
pub fn filler<const N: usize>(random: &mut Random) -> [u32; N] {
    core::array::from_fn(|_| random.bits() & !0x0080_0000)
}
