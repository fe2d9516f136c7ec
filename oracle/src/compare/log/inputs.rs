//! Random logs: records of all kinds, some of them wrong, and damage.

use super::replay::{CONFIGURE, EDITION, MARK, TAGS};
use crate::compare::ekf::filter::CONFIGURATION;
use crate::compare::ekf::scope::{NUMBERS, OPERATIONS, PREDICT};
use crate::compare::random::Random;
use crate::compare::ranges::{at, outside, place, range, side, size, sized, within, Range};

/// A log that is being written to the front of some bytes.
pub struct Log<'a> {
    pub bytes: &'a mut [u8],
    pub length: usize,
}

impl Log<'_> {
    pub fn put(&mut self, bytes: &[u8]) {
        self.bytes[self.length..][..bytes.len()].copy_from_slice(bytes);
        self.length += bytes.len();
    }

    pub fn floats(&mut self, tag: u8, floats: &[f32]) {
        self.put(&[tag, 4 * floats.len() as u8, 0]);
        for float in floats {
            self.put(&float.to_le_bytes());
        }
    }

    pub fn mark(&mut self, mark: u8) {
        self.put(&[MARK, 1, 0, mark]);
    }

    pub fn edition(&mut self, number: u8) {
        self.put(&[EDITION, 1, 0, number]);
    }
}

/// How a log takes its numbers from their ranges.
type Numbers = fn(&mut Random, Range) -> f32;

/// Such as a car meets.
fn tame(random: &mut Random, range: Range) -> f32 {
    within(random, range, true)
}

fn any(random: &mut Random, range: Range) -> f32 {
    within(random, range, false)
}

/// Bytes of a random log at most.
pub const LONGEST: usize = 2048;

pub fn log(random: &mut Random, log: &mut Log) {
    if random.below(16) == 0 {
        for _ in 0..random.below(48) {
            log.put(&[random.below(32) as u8]);
        }
        return;
    }
    let (settings, numbers): ([f32; 7], Numbers) = match random.below(4) {
        0 => (WILD, any),
        1 => (settings(random, any), any),
        2 => (settings(random, tame), tame),
        _ => (DEFAULT, tame),
    };
    match random.below(32) {
        0 => {}
        1 => log.mark(random.bits() as u8),
        _ => configuration(random, log, settings),
    }
    if random.below(2) == 0 {
        edition(random, log);
    }
    if settings == WILD {
        end_to_end(random, log);
    }
    if random.below(2) == 0 {
        under_way(random, log);
    }
    if random.below(4) == 0 {
        tunnel(random, log);
    }
    for _ in 0..random.below(24) {
        record(random, log, settings, numbers);
    }
    match random.below(24) {
        0..8 => damage(random, log),
        8..10 => cut_edition(random, log),
        // in the first record
        10..12 => log.length = random.below(log.length.min(31) as u64 + 1) as usize,
        _ => {}
    }
}

/// A log of so many bytes that is read to its end: three predictions to one fix.
pub fn drive(random: &mut Random, log: &mut Log, edition: Option<u8>, length: usize) {
    log.floats(CONFIGURE, &DEFAULT);
    if let Some(edition) = edition {
        log.edition(edition);
    }
    while log.length + 64 < length {
        match random.below(16) {
            0 => log.mark(random.between(1, 6) as u8),
            1..=4 => measurement(random, log, 3, tame),
            _ => measurement(random, log, 2, tame),
        }
    }
    // records of seven and of four bytes fill any rest that is not small
    while log.length < length {
        match (length - log.length) % 4 {
            0 => log.mark(4),
            _ => log.floats(5, &[1.0]),
        }
    }
}

/// As often none as one.
pub fn some_edition(random: &mut Random) -> Option<u8> {
    [None, Some(1), None, Some(2)][random.below(4) as usize]
}

pub const DEFAULT: [f32; 7] = [0.4, 0.005, 1e-3, 20.0, 0.2, 0.1, 2.0];
/// Variances let a measurement take velocities and biases from end to end.
pub const WILD: [f32; 7] = [1e6, 1e6, 1e6, 20.0, 1e-6, 0.1, 2.0];

fn settings(random: &mut Random, numbers: Numbers) -> [f32; 7] {
    core::array::from_fn(|place| numbers(random, NUMBERS[CONFIGURATION + place]))
}

/// Few of them have a number outside its range.
fn configuration(random: &mut Random, log: &mut Log, mut settings: [f32; 7]) {
    if random.below(24) == 0 {
        let place = random.below(7) as usize;
        settings[place] = outside(random, NUMBERS[CONFIGURATION + place]);
    }
    log.floats(CONFIGURE, &settings);
}

/// Few of them have a number that is none, and fewer a wrong length.
fn edition(random: &mut Random, log: &mut Log) {
    let start = log.length;
    log.edition(match random.below(32) {
        0 => 0,
        1 => 3,
        2 => random.bits() as u8,
        3..=12 => 1,
        _ => 2,
    });
    if random.below(32) == 0 {
        log.bytes[start + 1] = random.below(4) as u8;
    }
}

/// Mostly ends the log before the edition ends.
fn cut_edition(random: &mut Random, log: &mut Log) {
    if random.below(2) == 0 {
        log.length = log.length.min(31);
    }
    edition(random, log);
    log.length -= random.below(4) as usize;
}

/// A velocity above `min_speed` in most settings, and a heading: then a turn shows the edition.
fn under_way(random: &mut Random, log: &mut Log) {
    let [vx, vy] = [0; 2].map(|_| 32.0 * side(random) * tame(random, range(0.0, 1.0)));
    log.floats(4, &[vx, vy]);
    log.floats(6, &[tame(random, size(3.0))]);
    measurement(random, log, 2, tame);
}

/// A position that is locked, and fixes from elsewhere: few other records and few refused fixes between them.
fn tunnel(random: &mut Random, log: &mut Log) {
    log.mark(2);
    let place = [0; 2].map(|_| sized(random, 2.0, 250.0) * side(random));
    for _ in 0..random.between(6, 20) {
        let fix = match random.below(24) {
            0 => [f32::NAN, place[1]],
            1 => [place[0], 1e8],
            2 => [0.0, 0.0],
            _ => place,
        };
        match random.below(16) {
            0 => log.mark(random.between(1, 6) as u8),
            1 => {
                let tag = [2, 4, 6, 7][random.below(4) as usize];
                measurement(random, log, tag, tame);
            }
            _ => log.floats(3, &fix),
        }
    }
}

fn record(random: &mut Random, log: &mut Log, settings: [f32; 7], numbers: Numbers) {
    let start = log.length;
    match random.below(96) {
        0 => {
            let payload = random.below(32) as u8;
            log.put(&[random.bits() as u8, payload, 0]);
            for _ in 0..payload {
                log.put(&[random.bits() as u8]);
            }
        }
        1 => configuration(random, log, settings),
        2 => log.mark(random.bits() as u8),
        3 => edition(random, log),
        4..=24 => log.mark(random.between(1, 6) as u8),
        _ => {
            let tag = [2, 2, 3, 4, 5, 6, 7, 9][random.below(8) as usize];
            measurement(random, log, tag, numbers);
        }
    }
    if random.below(96) == 0 {
        log.bytes[start + 1 + random.below(2) as usize] = random.below(32) as u8;
    }
}

/// A record of a call with arguments; few of these are outside their ranges.
fn measurement(random: &mut Random, log: &mut Log, tag: u8, numbers: Numbers) {
    let call = TAGS[tag as usize - 1].1.unwrap_or(PREDICT);
    let ranges = OPERATIONS[call as usize].arguments;
    let mut arguments = [0.0; 4];
    for (argument, &range) in arguments.iter_mut().zip(ranges) {
        *argument = numbers(random, range);
    }
    if call == PREDICT && random.below(16) > 0 {
        // then wz * dt is in its range
        arguments[2] = arguments[2].clamp(-1.0, 1.0);
    }
    if call == PREDICT && random.below(2) == 0 {
        // hardly anything but the variances moves
        arguments[..2].fill(0.0);
    }
    while random.below(24) == 0 {
        let place = random.below(ranges.len() as u64) as usize;
        arguments[place] = outside(random, ranges[place]);
    }
    log.floats(tag, &arguments[..ranges.len()]);
}

/// A velocity or a bias at one end and then at the other, with variances that let it get there: the
/// difference may be rounded up.
fn end_to_end(random: &mut Random, log: &mut Log) {
    let (tag, limit) = [(4, 1e4), (7, 1e3)][random.below(2) as usize];
    let first = side(random);
    for side in [first, -first] {
        let end = at(place(limit) - random.between(0, 2));
        log.floats(2, &[0.0, 0.0, 0.0, 0.5]);
        log.floats(tag, &[end * side, 0.0]);
    }
}

/// Changes, cuts off, adds or takes out some bytes.
fn damage(random: &mut Random, log: &mut Log) {
    if log.length == 0 {
        return;
    }
    let place = random.below(log.length as u64) as usize;
    match random.below(4) {
        0 => log.bytes[place] = random.bits() as u8,
        1 => log.length = place,
        2 => {
            for _ in 0..random.between(1, 4) {
                log.put(&[random.below(12) as u8]);
            }
        }
        _ => {
            log.bytes.copy_within(place + 1..log.length, place);
            log.length -= 1;
        }
    }
}
