//! One call of a function with a record, held beside what it should leave in memory.

use super::archive::Component;
use super::lent::{filled, lay, lay_floats, Lent, Parts};
use super::run::Run;
use core::ffi::CStr;

/// What an operation does to its record.
#[derive(Clone, Copy, PartialEq)]
pub enum Kind {
    /// Makes it, of a configuration in it or of parameters, and looks at nothing else.
    Making,
    Change,
    Reader,
}

/// The kinds of an answer.
pub const DONE: u32 = 0;
pub const ACCEPTED: u32 = 1;
pub const REJECTED: u32 = 2;
pub const SHOWN: u32 = 3;
pub const ABSENT: u32 = 4;

/// What an answered call writes beside its record: its kind with the counts and flags behind it, and
/// its values.
#[derive(Clone, Copy)]
pub struct Answer {
    pub kind: u32,
    pub shown: [Option<u32>; 2],
    pub values: [Option<f32>; 2],
}

/// An answer that is its kind alone.
pub const fn only(kind: u32) -> Answer {
    Answer {
        kind,
        shown: [None; 2],
        values: [None; 2],
    }
}

/// Of a call that only does what it does.
pub const NOTHING: Answer = only(DONE);

/// A verdict, with the gate value that was compared.
pub const fn gated(verdict: u32, value: f32) -> Answer {
    Answer {
        values: [Some(value), None],
        ..only(verdict)
    }
}

pub const fn values(values: [Option<f32>; 2]) -> Answer {
    Answer {
        values,
        ..only(SHOWN)
    }
}

pub const fn value(value: f32) -> Answer {
    values([Some(value), None])
}

pub fn option(value: Option<f32>) -> Answer {
    match value {
        Some(_) => values([value, None]),
        None => only(ABSENT),
    }
}

pub const fn counts(first: u32, second: u32) -> Answer {
    Answer {
        shown: [Some(first), Some(second)],
        ..only(SHOWN)
    }
}

pub const fn flag(flag: bool) -> Answer {
    Answer {
        shown: [Some(flag as u32), None],
        ..only(SHOWN)
    }
}

impl Answer {
    /// Whether it shows a flag that is true.
    pub fn is_true(&self) -> bool {
        self.shown[0] == Some(1)
    }

    pub fn lay(&self, shown: &mut [u32], values: &mut [u32]) {
        shown[0] = self.kind;
        for (place, word) in self.shown.iter().enumerate() {
            shown[1 + place] = word.unwrap_or(shown[1 + place]);
        }
        for (word, value) in values.iter_mut().zip(self.values) {
            *word = value.map_or(*word, f32::to_bits);
        }
    }
}

/// Room for the longest record: a shorter one is lent fewer words.
const NUMBERS: usize = 1;
const COUNTS: usize = NUMBERS + 28;
const ARGUMENTS: usize = COUNTS + 11;
const WORDS: usize = ARGUMENTS + 7;
const VALUES: usize = WORDS + 5;
const SHOWN_WORDS: usize = VALUES + 3;
const ROW: usize = SHOWN_WORDS + 5;

const PARTS: &Parts = &[
    (NUMBERS, c"numbers"),
    (COUNTS - 1, c"lent to no one"),
    (COUNTS, c"counts"),
    (ARGUMENTS - 1, c"lent to no one"),
    (ARGUMENTS, c"arguments"),
    (WORDS - 1, c"lent to no one"),
    (WORDS, c"words"),
    (VALUES - 1, c"lent to no one"),
    (VALUES, c"values"),
    (SHOWN_WORDS - 1, c"lent to no one"),
    (SHOWN_WORDS, c"shown"),
    (ROW - 1, c"lent to no one"),
];

/// What a call takes; behind the arguments and the words are any others.
pub struct Given<'a> {
    pub component: Component,
    pub name: &'static CStr,
    pub operation: u32,
    pub numbers: &'a [f32],
    pub counts: &'a [u32],
    pub arguments: &'a [f32],
    pub words: &'a [u32],
}

pub struct Call(Lent<ROW>);

pub fn call(run: &mut Run, given: &Given) -> Call {
    let mut before = filled(&mut run.random);
    lay_floats(&mut before, NUMBERS, given.numbers);
    lay(&mut before, COUNTS, given.counts);
    lay_floats(&mut before, ARGUMENTS, given.arguments);
    lay(&mut before, WORDS, given.words);
    let mut after = before;
    let row = after.as_mut_ptr();
    let number = unsafe {
        (given.component)(
            given.operation,
            row.add(NUMBERS).cast(),
            row.add(COUNTS),
            row.add(ARGUMENTS).cast(),
            row.add(WORDS),
            row.add(VALUES).cast(),
            row.add(SHOWN_WORDS),
        )
    };
    run.count_call();
    Call(Lent {
        name: given.name,
        operation: given.operation,
        number,
        before,
        after,
        parts: PARTS,
    })
}

/// What a call should give: a number, and with number 0 the answer and, where the call is no reader,
/// the numbers and counts with the places of the flags among them.
pub struct Wanted<'a> {
    pub number: u32,
    pub answer: Answer,
    pub record: Option<(&'a [f32], &'a [u32])>,
    pub flags: &'a [usize],
}

impl Call {
    pub fn expect(&self, run: &mut Run, wanted: &Wanted, by: &CStr) {
        let mut row = self.0.before;
        if wanted.number == 0 {
            let (front, shown) = row.split_at_mut(SHOWN_WORDS);
            wanted.answer.lay(shown, &mut front[VALUES..][..2]);
            if let Some((numbers, counts)) = wanted.record {
                lay_floats(&mut row, NUMBERS, numbers);
                lay(&mut row, COUNTS, counts);
                for flag in wanted.flags {
                    self.0.keep_flag(&mut row, COUNTS + flag);
                }
            }
        }
        self.0.expect(run, wanted.number, &row, by);
    }

    /// The number, and what the call wrote beside its record: its values and what it shows.
    pub fn answer(&self) -> (u32, [Option<u32>; 6]) {
        let Lent { before, after, .. } = &self.0;
        let places = [VALUES, VALUES + 1].into_iter().chain(SHOWN_WORDS..);
        let mut written = [None; 6];
        for (word, place) in written.iter_mut().zip(places) {
            *word = (after[place] != before[place]).then_some(after[place]);
        }
        (self.0.number, written)
    }

    /// The numbers and counts that the call left.
    pub fn left(&self, numbers: &mut [f32], counts: &mut [u32]) {
        for (number, &word) in numbers.iter_mut().zip(&self.0.after[NUMBERS..]) {
            *number = f32::from_bits(word);
        }
        counts.copy_from_slice(&self.0.after[COUNTS..][..counts.len()]);
    }
}
