//! The scope paper's ranges and refusals 1 to 5 for the learners and the low-pass, read once more.

use super::record::{Input, Record};
use super::Learner;
use crate::compare::component::Kind;
use crate::compare::ranges::{range, size, Range};
use core::f32::consts::PI;
use core::ffi::CStr;

/// Where a learner's count ends.
pub const END: u32 = 16_777_216;

pub const STORED: Range = size(1e9);
pub const ANGLE: Range = size(PI);
pub const ACCELERATION: Range = size(1e6);
pub const YAW_RATE: Range = size(1e3);
pub const SPEED: Range = range(0.0, 1e4);
pub const STEP: Range = range(0.0, 0.5);
/// Alpha, the blend's weights and its confidence.
pub const SHARE: Range = range(0.0, 1.0);
/// Any other parameter.
pub const LIMIT: Range = range(0.0, 1e4);

/// A number of a record: out of its range a parameter gives 3, any other one 4.
#[derive(Clone, Copy)]
pub struct Number {
    pub range: Range,
    pub parameter: bool,
}

pub const fn state(range: Range) -> Number {
    Number {
        range,
        parameter: false,
    }
}

pub const fn parameter(range: Range) -> Number {
    Number {
        range,
        parameter: true,
    }
}

/// A word of a record's counts.
#[derive(Clone, Copy)]
pub enum Count {
    Flag,
    Free,
    UpTo(u32),
}

#[derive(Clone, Copy)]
pub struct Operation {
    pub name: &'static CStr,
    pub kind: Kind,
    pub arguments: &'static [Range],
    /// How many words it takes.
    pub words: usize,
    /// Whether it can give 2 where all its arguments are in their ranges, 5, and 6.
    pub bounded: bool,
    pub raises: bool,
    pub overflows: bool,
}

const fn operation(name: &'static CStr, kind: Kind, arguments: &'static [Range]) -> Operation {
    Operation {
        name,
        kind,
        arguments,
        words: 0,
        bounded: false,
        raises: false,
        overflows: false,
    }
}

pub const fn making(name: &'static CStr, parameters: &'static [Range]) -> Operation {
    operation(name, Kind::Making, parameters)
}

pub const fn change(name: &'static CStr, arguments: &'static [Range]) -> Operation {
    operation(name, Kind::Change, arguments)
}

pub const fn reader(name: &'static CStr, arguments: &'static [Range]) -> Operation {
    operation(name, Kind::Reader, arguments)
}

pub const fn taking(words: usize, operation: Operation) -> Operation {
    Operation { words, ..operation }
}

pub const fn bounded(operation: Operation) -> Operation {
    Operation {
        bounded: true,
        ..operation
    }
}

pub const fn raises(operation: Operation) -> Operation {
    Operation {
        raises: true,
        ..operation
    }
}

pub const fn overflows(operation: Operation) -> Operation {
    Operation {
        overflows: true,
        ..operation
    }
}

impl Operation {
    /// Whether it can give a number. Any other one is a difference.
    pub fn can<L: Learner>(&self, number: u32) -> bool {
        let making = self.kind == Kind::Making;
        match number {
            0 => true,
            2 if self.bounded => true,
            1 | 2 => !making && !self.arguments.is_empty(),
            3 if making => !self.arguments.is_empty(),
            3 => L::NUMBERS.iter().any(|number| number.parameter),
            4 => !making,
            5 => self.raises,
            6 => self.overflows,
            _ => false,
        }
    }
}

/// The lowest of the numbers 1 to 5 that applies, or 0; an operation that is unknown gives 2.
pub fn refusal<L: Learner>(input: &Input) -> u32 {
    let Some(operation) = L::OPERATIONS.get(input.operation as usize) else {
        return 2;
    };
    let reasons = reasons::<L>(operation, input);
    match reasons.iter().position(|&applies| applies) {
        Some(place) => place as u32 + 1,
        None if L::raised(input) == Some(END) => 5,
        None => 0,
    }
}

/// Which of the refusals 1 to 4 apply.
pub fn reasons<L: Learner>(operation: &Operation, input: &Input) -> [bool; 4] {
    let given = &input.arguments[..operation.arguments.len()];
    let mut ranges = given.iter().zip(operation.arguments);
    let in_range = ranges.all(|(&argument, range)| range.has(argument));
    if operation.kind == Kind::Making {
        return [false, false, !in_range || !L::fits(input), false];
    }
    [
        !given.iter().all(|argument| argument.is_finite()),
        !in_range || L::beyond(input),
        !numbers_sound::<L>(&input.record, true),
        !sound::<L>(&input.record),
    ]
}

/// Whether all of a record that is no parameter is sound.
pub fn sound<L: Learner>(record: &Record) -> bool {
    let mut counts = L::COUNTS.iter().zip(record.counts);
    numbers_sound::<L>(record, false)
        && counts.all(|(kind, count)| !matches!(kind, Count::UpTo(end) if count > *end))
}

fn numbers_sound<L: Learner>(record: &Record, parameter: bool) -> bool {
    let mut numbers = L::NUMBERS.iter().zip(record.numbers);
    numbers.all(|(kind, number)| kind.parameter != parameter || kind.range.has(number))
}
