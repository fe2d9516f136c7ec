//! How often verdicts were counted and refused how, sums came to what and logs to which summaries, and how
//! often they have to.

use super::reading::*;
use crate::compare::component::{ACCEPTED, REJECTED};
use crate::compare::libc::printf;
use crate::compare::run::{has_payload, same, Run};
use core::ffi::CStr;

/// Refusals that can apply at once: the place of the first, and its own and those of others that can apply
/// beside it. Only an accepted value can be above the gate.
const PAIRS: [(usize, &[usize]); 4] = [
    (NOT_FINITE, &[NOT_FINITE, ANOTHER_VERDICT, NEGATIVE, ABOVE]),
    (ANOTHER_VERDICT, &[ANOTHER_VERDICT, NEGATIVE]),
    (NEGATIVE, &[NEGATIVE]),
    (ABOVE, &[ABOVE]),
];

/// What is counted besides: a verdict and the bits of its value. A NaN is any one.
const EDGES: [(&CStr, u32, u32); 16] = [
    (c"-0 accepted", ACCEPTED, 0x8000_0000),
    (c"-0 rejected", REJECTED, 0x8000_0000),
    (c"the least float accepted", ACCEPTED, 0x0000_0001),
    (c"the least negative one accepted", ACCEPTED, 0x8000_0001),
    (c"the least negative one rejected", REJECTED, 0x8000_0001),
    (c"the float below 32.0 accepted", ACCEPTED, 0x41FF_FFFF),
    (c"32.0 accepted", ACCEPTED, 0x4200_0000),
    (c"32.0 rejected", REJECTED, 0x4200_0000),
    (c"the float above 32.0 accepted", ACCEPTED, 0x4200_0001),
    (c"the float above 32.0 rejected", REJECTED, 0x4200_0001),
    (c"the largest float rejected", REJECTED, 0x7F7F_FFFF),
    (c"infinity accepted", ACCEPTED, 0x7F80_0000),
    (c"infinity rejected", REJECTED, 0x7F80_0000),
    (c"-infinity accepted", ACCEPTED, 0xFF80_0000),
    (c"-infinity rejected", REJECTED, 0xFF80_0000),
    (c"a NaN rejected", REJECTED, 0x7FC0_0000),
];

/// Which of `EDGES` it is.
fn edges(verdict: &Verdict) -> [bool; EDGES.len()] {
    EDGES.map(|(_, word, bits)| verdict.word == word && same(verdict.value, f32::from_bits(bits)))
}

/// Counts that are raised.
const RAISED: [&CStr; 3] = [c"from 0", c"from one below the stop", c"at the stop"];

/// Which of `RAISED` it is.
fn raised(count: u32) -> [bool; RAISED.len()] {
    [count == 0, count == STOP - 1, count == STOP]
}

/// Words that are no verdict.
const OTHERS: [&CStr; 4] = [
    c"verdict 0",
    c"verdict 3",
    c"verdict above 255 with a known one's low byte",
    c"verdict 4294967295",
];

/// Which of `OTHERS` it is.
fn others(word: u32) -> [bool; OTHERS.len()] {
    [
        word == 0,
        word == 3,
        word > 255 && (1..=2).contains(&(word as u8)),
        word == u32::MAX,
    ]
}

pub struct Counts {
    /// By the refusal and another that applies beside it; in its own column those that are alone.
    refusals: [[u64; 4]; 4],
    edges: [u64; EDGES.len()],
    /// By accepted and by rejected values.
    raised: [[u64; RAISED.len()]; 2],
    /// Refused for another verdict alone.
    others: [u64; OTHERS.len()],
    /// NaNs with a payload.
    payloads: u64,
    /// Accepted at a bucket's lower end, and one float below its upper end.
    ends: [[u64; BUCKETS]; 2],
}

fn tally<const N: usize>(counts: &mut [u64; N], are: [bool; N]) {
    for (count, is) in counts.iter_mut().zip(are) {
        *count += is as u64;
    }
}

impl Counts {
    pub const NONE: Self = Self {
        refusals: [[0; 4]; 4],
        edges: [0; EDGES.len()],
        raised: [[0; RAISED.len()]; 2],
        others: [0; OTHERS.len()],
        payloads: 0,
        ends: [[0; BUCKETS]; 2],
    };

    pub fn add(&mut self, before: &Summary, verdict: &Verdict) {
        let Verdict { word, value } = *verdict;
        tally(&mut self.edges, edges(verdict));
        self.payloads += has_payload(value) as u64;
        match verdict.outcome() {
            Outcome::Counted(place) => {
                let rejected = (word == REJECTED) as usize;
                tally(&mut self.raised[rejected], raised(before.0[place]));
                if place < BUCKETS {
                    self.ends[0][place] += (value == quarter(place)) as u64;
                    self.ends[1][place] += (value == quarter(place + 1).next_down()) as u64;
                }
            }
            Outcome::Refused { first, applies } => {
                self.refused(first, &applies);
                if first == ANOTHER_VERDICT {
                    tally(&mut self.others, others(word));
                }
            }
        }
    }

    fn refused(&mut self, first: usize, applies: &[bool; 4]) {
        let mut alone = true;
        for also in (first + 1..4).filter(|&also| applies[also]) {
            self.refusals[first][also] += 1;
            alone = false;
        }
        self.refusals[first][first] += alone as u64;
    }

    pub fn report(&self, run: &mut Run) {
        let least = run.wanted() / 4000;
        unsafe { printf(c"  Refusals, alone (its own place) and beside another:\n".as_ptr()) };
        for (first, can) in PAIRS {
            let count = |&also: &usize| (also as u32 + 1, self.refusals[first][also]);
            run.expect_each(REFUSALS[first].0, can.iter().map(count), least);
        }
        for (name, count) in OTHERS.into_iter().zip(self.others) {
            run.expect(name, count, least);
        }
        for ((name, ..), count) in EDGES.into_iter().zip(self.edges) {
            run.expect(name, count, least);
        }
        unsafe { printf(c"  Counts that are raised, accepted 1 and rejected 2:\n".as_ptr()) };
        for (place, name) in RAISED.into_iter().enumerate() {
            run.expect_each(name, (1..).zip(self.raised.map(|of| of[place])), least);
        }
    }

    /// What no sample has: all NaNs are one there, and all buckets are many.
    pub fn report_all(&self, run: &mut Run) {
        let least = run.wanted() / 10_000;
        run.expect(c"NaNs with a payload", self.payloads, least);
        let names = [
            c"fewest at a bucket's lower end",
            c"fewest below its upper end",
        ];
        for (name, ends) in names.into_iter().zip(&self.ends) {
            run.expect(name, fewest(ends), least);
        }
    }
}

fn fewest(counts: &[u64]) -> u64 {
    counts.iter().copied().min().unwrap_or(0)
}

/// Sums of two counts.
const SUMS: [&CStr; 7] = [
    c"of 0 and a count",
    c"of a count and 0",
    c"below the stop",
    c"one below the stop",
    c"at the stop",
    c"one above the stop",
    c"above the stop",
];

/// Which of `SUMS` it is.
fn sums(count: u32, other: u32) -> [bool; SUMS.len()] {
    let (sum, stop) = (count as u64 + other as u64, STOP as u64);
    [
        count == 0 && other > 0,
        count > 0 && other == 0,
        count > 0 && other > 0 && sum < stop,
        sum == stop - 1,
        sum == stop,
        sum == stop + 1,
        sum > stop + 1,
    ]
}

/// By the place of the count.
pub struct Merged([[u64; WORDS]; SUMS.len()]);

impl Merged {
    pub const NONE: Self = Self([[0; WORDS]; SUMS.len()]);

    pub fn merge(&mut self, summary: &Summary, other: &Summary) {
        for place in 0..WORDS {
            let sums = sums(summary.0[place], other.0[place]);
            for (counts, is) in self.0.iter_mut().zip(sums) {
                counts[place] += is as u64;
            }
        }
    }

    /// At the place that has fewest, or at all.
    pub fn report(&self, run: &mut Run, at_each: bool) {
        let least = run.wanted() / 1000;
        unsafe { printf(c"  Sums of two counts:\n".as_ptr()) };
        for (name, counts) in SUMS.into_iter().zip(&self.0) {
            let count = match at_each {
                true => fewest(counts),
                false => counts.iter().sum(),
            };
            run.expect(name, count, least);
        }
    }
}

/// Numbers at which logs with verdicts stop, 0 at their end.
const COUNTED: [u32; 5] = [0, 7, 8, 9, 10];

/// Every number at which a log stops, 0 at its end.
pub const ENDS: [u32; 6] = [0, 3, 7, 8, 9, 10];

/// Logs by the number at which they stop: of summaries that have counts, and of those that have none.
#[derive(Default)]
pub struct Summarized {
    counted: [u64; 11],
    empty: [u64; 11],
}

impl Summarized {
    pub fn log(&mut self, stop: u32, summary: &Summary) {
        let empty = *summary == Summary::EMPTY;
        self.counted[stop as usize] += !empty as u64;
        self.empty[stop as usize] += empty as u64;
    }

    /// `empty`: the numbers that an empty summary has to come with.
    pub fn report(&self, run: &mut Run, empty: &[u32], least: u64) {
        unsafe { printf(c"  Summaries by the number at which the log stops:\n".as_ptr()) };
        let rows = [
            (c"  with counts", &COUNTED[..], &self.counted),
            (c"  empty", empty, &self.empty),
        ];
        for (name, numbers, counts) in rows {
            let count = |&number: &u32| (number, counts[number as usize]);
            run.expect_each(name, numbers.iter().map(count), least);
        }
    }
}
