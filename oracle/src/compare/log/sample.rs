//! The log's part of the stored sample: logs of a few records, with and without the room that their
//! listings ask for, replays that tell marks and stops apart, and single records.
//!
//! A record of a listing has the lengths of the log and of `out`, the log in 128 bytes, then what the
//! call gives and the first 256 bytes of `out`, which are `U` before it. One of a replay has the length
//! of the log, the log in 128 bytes, and the filter's words before the call and after it, also where
//! reading stops. One of a single record has its number and the edition's word before the call and after
//! it, the record in 32 bytes, and the words that it may write before the call and, where it is answered,
//! after it.

use super::record::Outcomes;
use super::replay::{record_length, replay, step, Before, Replayed, Step, MARK};
use super::single::turning;
use super::{inputs, room, settled, tunnel, Counts, Log};
use crate::compare::sample::{filler, Row, Sample, Shows, LIST, RECORD, REPLAY};

const LOG: usize = 128;
/// Single records: so many, each in so many bytes.
const SINGLES: u32 = 15;
const SINGLE: usize = 32;
const SHOWN: usize = 256;
/// Random logs: so many are tried for each number of outcomes that others do not have, those with many
/// first, so that few are kept.
const TRIED: u32 = 20_000;
const FRESH: [usize; 4] = [6, 4, 2, 1];

/// One of each outcome: a listing takes many steps, and the kit's interpreter makes ten million.
pub fn sample(to: &mut Sample) {
    to.each = 1;
    let mut kept = Counts::default();
    let (bytes, length) = short(settled::sample);
    store(to, &mut kept, &bytes, length, room(length), true);
    store(to, &mut kept, &bytes, length, room(length) - 1, true);
    store(to, &mut kept, &bytes, 0, room(0), true);
    let (bytes, length) = short(|log| settled::turn_twice(log, Some(2)));
    store(to, &mut kept, &bytes, length, room(length), true);
    for fresh in FRESH {
        to.fresh = fresh;
        for _ in 0..TRIED {
            random(to, &mut kept);
        }
    }
    if to.shows == Shows::Outcomes {
        kept.report(&mut to.run);
    }
    replays(to);
}

/// A log that is written to the front of as many bytes as a record has for it, and its length.
fn short(body: impl FnOnce(&mut Log)) -> ([u8; LOG], usize) {
    let mut bytes = [0; LOG];
    let mut log = Log {
        bytes: &mut bytes,
        length: 0,
    };
    body(&mut log);
    let length = log.length;
    (bytes, length)
}

/// A random log, if it and its listing are short enough.
fn random(to: &mut Sample, kept: &mut Counts) {
    let mut longer = [0; inputs::LONGEST];
    let mut log = Log {
        bytes: &mut longer,
        length: 0,
    };
    inputs::log(&mut to.random, &mut log);
    let length = log.length;
    let log = &longer[..length];
    let replayed = replay(log, &mut [0; room(inputs::LONGEST)], &mut Counts::default());
    if log.len() > LOG || replayed.listed > SHOWN {
        return;
    }
    let (bytes, length) = short(|to| to.put(log));
    let lent = match to.random.below(16) {
        0 => to.random.below(room(length) as u64) as usize,
        _ => room(length),
    };
    store(to, kept, &bytes, length, lent, false);
}

/// Each mark behind a busy log, each stop behind it and as the first record, and an empty log; turns by
/// edition 2, an edition that is the third record, and one that is cut; eight rejections in a row.
fn replays(to: &mut Sample) {
    let mut counts = Counts::default();
    for mark in 1..=6 {
        store_replay(to, &mut counts, |log| {
            settled::busy(log);
            log.mark(mark);
        });
    }
    for (place, stop) in settled::STOPS.iter().enumerate() {
        let first = |stop: &settled::Stop| stop.0.record.is_none();
        let like = |other: &settled::Stop| first(stop) == first(other) && stop.2 == other.2;
        if !settled::STOPS[..place].iter().any(like) {
            store_replay(to, &mut counts, |log| {
                settled::stop(log, stop, settled::busy)
            });
        }
    }
    store_replay(to, &mut counts, |_| {});
    store_replay(to, &mut counts, |log| settled::turn_twice(log, Some(2)));
    store_replay(to, &mut counts, |log| {
        settled::configured(log);
        log.edition(1);
        log.edition(2);
    });
    store_replay(to, &mut counts, |log| {
        settled::configured(log);
        log.edition(2);
        log.length -= 1;
    });
    let eighth = &tunnel::CASES[tunnel::EIGHTH];
    store_replay(to, &mut counts, |log| eighth.write(log));
    if to.shows == Shows::Outcomes {
        counts.report_marks(&mut to.run, 1);
    }
}

fn store_replay(to: &mut Sample, counts: &mut Counts, body: impl FnOnce(&mut Log)) {
    let (bytes, length) = short(body);
    let Replayed { stop, filter, .. } = replay(&bytes[..length], &mut [0; room(LOG)], counts);
    let before = Row::of(&filler::<35>(&mut to.random));
    to.head(REPLAY, stop);
    to.words(&Row::of(&[length as u32]));
    to.bytes(&bytes);
    to.words(&before);
    match &filter {
        Some(filter) => to.words(&filter.row()),
        None => to.words(&before),
    }
}

fn store(
    to: &mut Sample,
    kept: &mut Counts,
    log: &[u8; LOG],
    length: usize,
    lent: usize,
    always: bool,
) {
    let mut out = [b'U'; room(LOG)];
    let mut gives = room(length);
    let keeps = to.keeps(kept, always, |counts| {
        if lent < room(length) {
            counts.short += 1;
        } else {
            let replayed = replay(&log[..length], &mut out[..lent], counts);
            gives = replayed.listed;
            counts.empty += (gives == 0) as u64;
        }
    });
    if !keeps {
        return;
    }
    to.head(LIST, 0);
    to.words(&Row::of(&[length as u32, lent as u32]));
    to.bytes(log);
    to.words(&Row::of(&[gives as u32]));
    to.bytes(&out[..SHOWN]);
}

/// The first records of the settled verdicts, which have each verdict of each gated call, one after the
/// other; then one where it may not stand, of the settled single ones those that are refused or stop, or
/// have an edition or a mark, and those in a run.
pub fn records(to: &mut Sample) {
    let mut bytes = [0; 1024];
    let mut log = Log {
        bytes: &mut bytes,
        length: 0,
    };
    settled::verdicts(&mut log);
    let mut outcomes = Outcomes::default();
    let (mut rest, mut before) = (&bytes[..], Before::log());
    // a configuration sets it, whatever it is
    before.edition = 7;
    for number in (1..=SINGLES).chain([1]) {
        before.number = number;
        before = store_record(to, &mut outcomes, &before, &rest[..SINGLE]);
        rest = &rest[record_length(rest)..];
    }
    let filter = turning();
    let stored = |&(.., parts, gives, _): &settled::Single| gives != 0 || parts[0][0] >= MARK;
    for (number, edition, parts, ..) in settled::SINGLES.into_iter().filter(stored) {
        let mut bytes = [0; SINGLE];
        let mut log = Log {
            bytes: &mut bytes,
            length: 0,
        };
        parts.iter().for_each(|part| log.put(part));
        let before = Before {
            number,
            edition,
            filter,
        };
        store_record(to, &mut outcomes, &before, &bytes);
    }
    for case in &tunnel::SINGLES {
        let mut bytes = [0; SINGLE];
        bytes[..case.record.len()].copy_from_slice(case.record);
        let before = Before {
            number: case.number,
            edition: 1,
            filter: tunnel::locked(case.run),
        };
        store_record(to, &mut outcomes, &before, &bytes);
    }
    if to.shows == Shows::Outcomes {
        let can = [&[0, 1, 2][..], &[1, 2, 4], &[8, 9, 10]];
        outcomes.report(&mut to.run, c"single ones", can, 1);
    }
}

/// The answer is what the next one is replayed on.
fn store_record(
    to: &mut Sample,
    outcomes: &mut Outcomes,
    before: &Before,
    record: &[u8],
) -> Before {
    let (mut values, mut shown) = (filler::<2>(&mut to.random), filler::<4>(&mut to.random));
    let step = step(record, before);
    outcomes.count(&step);
    to.head(RECORD, step.number());
    let mut after = Before {
        number: before.number + matches!(step, Step::Line { .. }) as u32,
        edition: step.edition(before.edition),
        ..*before
    };
    to.words(&Row::of(&[before.number, before.edition]));
    to.words(&Row::of(&[after.number, after.edition]));
    to.bytes(record);
    to.words(&before.filter.row().words(&values).words(&shown));
    if let Step::Line { outcome, .. } = step {
        if outcome.number == 0 {
            outcome.answer.lay(&mut shown, &mut values);
            to.words(&outcome.filter.row().words(&values).words(&shown));
            after.filter = outcome.filter;
        }
    }
    after
}
