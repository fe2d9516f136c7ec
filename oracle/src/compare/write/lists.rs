//! Both directions: lists of records that the archive or the writer of this comparison has written to a
//! log, read on both sides; and records that were read, written again.

use super::buffer::Buffer;
use super::inputs::{floats, Payload, NUMBERED};
use super::writer::{Append, Outcome, HEADER, REFUSALS};
use super::WIDTHS;
use crate::compare::libc::printf;
use crate::compare::log::counts::Counts;
use crate::compare::log::inputs::{self, Log};
use crate::compare::log::replay::*;
use crate::compare::log::{room, settled, show_bytes, Beside};
use crate::compare::random::Random;
use crate::compare::run::{has_payload, Run};
use core::ffi::CStr;

/// Records of a list at most, and bytes of its log.
const MOST: usize = 40;
const LENGTH: usize = 31 * MOST;

/// A record of a known tag.
#[derive(Clone, Copy)]
struct Record {
    tag: u8,
    length: usize,
    bytes: [u8; 28],
}

impl Record {
    fn of((tag, payload): (u8, &[u8])) -> Self {
        let mut bytes = [0; 28];
        bytes[..payload.len()].copy_from_slice(payload);
        Self {
            tag,
            length: payload.len(),
            bytes,
        }
    }

    /// Any words, many of them not finite.
    fn any(random: &mut Random) -> Self {
        let tag = random.between(1, TAGS.len() as i64) as u8;
        let payload = Payload::any(random, TAGS[tag as usize - 1].0);
        match NUMBERED.into_iter().find(|&(of, _)| tag == of) {
            Some((_, last)) => Self::of((tag, &[random.between(1, last as i64) as u8])),
            None => Self::of((tag, payload.bytes())),
        }
    }

    fn parts(&self) -> (u8, &[u8]) {
        (self.tag, &self.bytes[..self.length])
    }

    fn passes_nan(&self) -> bool {
        floats(self.parts().1).any(has_payload)
    }
}

struct List {
    records: [Record; MOST],
    count: usize,
}

impl List {
    fn of<'a>(records: impl Iterator<Item = (u8, &'a [u8])>) -> Self {
        let mut list = Self {
            records: [Record::of((0, &[])); MOST],
            count: 0,
        };
        for (place, record) in list.records.iter_mut().zip(records) {
            *place = Record::of(record);
            list.count += 1;
        }
        list
    }

    /// As many records as there can be.
    fn any(random: &mut Random) -> Self {
        Self {
            records: [0; MOST].map(|_| Record::any(random)),
            count: MOST,
        }
    }

    /// The records of a random log, some of them changed, doubled or elsewhere.
    fn random(random: &mut Random) -> Self {
        let (bytes, length) = random_log(random);
        let mut list = Self::of(records(&bytes[..length]));
        while list.count > 0 && random.below(3) == 0 {
            let [a, b] = [0; 2].map(|_| random.below(list.count as u64) as usize);
            match random.below(3) {
                0 => list.records.swap(a, b),
                1 => list.records[a] = list.records[b],
                _ => list.records[a] = Record::any(random),
            }
        }
        list
    }

    fn records(&self) -> &[Record] {
        &self.records[..self.count]
    }

    fn parts(&self) -> impl Iterator<Item = (u8, &[u8])> {
        self.records().iter().map(Record::parts)
    }

    /// As the second record, or elsewhere.
    fn has_edition(&self, second: bool) -> bool {
        let mut records = self.records().iter().enumerate();
        records.any(|(place, record)| record.tag == EDITION && (place == 1) == second)
    }

    /// How many bytes its log has.
    fn length(&self) -> usize {
        self.parts()
            .map(|(_, payload)| HEADER + payload.len())
            .sum()
    }

    /// Whether it is what is read, to the end of the log.
    fn is_read(&self, log: &[u8]) -> bool {
        log.len() == self.length() && records(log).eq(self.parts())
    }
}

/// A log and its length.
fn random_log(random: &mut Random) -> ([u8; inputs::LONGEST], usize) {
    let mut bytes = [0; inputs::LONGEST];
    let mut log = Log {
        bytes: &mut bytes,
        length: 0,
    };
    inputs::log(random, &mut log);
    let length = log.length;
    (bytes, length)
}

/// How often what was written and read.
#[derive(Default)]
struct Tally {
    /// Lists that the archive wrote and that the writer wrote, by the number at which their reading stops.
    stops: [[u64; 11]; 2],
    /// Lists with an edition as the second record, and elsewhere.
    editions: [u64; 2],
    nans: u64,
    filled: u64,
    empty: u64,
    /// Logs that are read to their end and written again.
    whole: u64,
    /// Records that are refused by what the reading stops at, from the first of `REFUSALS` on.
    refused: [u64; 3],
}

/// Both sides of the reading, and of the writing.
struct Lists<'a, 'b> {
    reading: Beside<'a>,
    buffer: &'b mut Buffer,
    tally: Tally,
}

pub fn compare(run: &mut Run, buffer: &mut Buffer) {
    let count = run.wanted() / 40;
    let mut lists = Lists {
        reading: Beside::new(run),
        buffer,
        tally: Tally::default(),
    };
    lists.sample();
    lists.behind();
    for _ in 0..count {
        lists.by_archive();
        lists.by_writer();
        lists.again();
    }
    lists.tally.report(lists.reading.run);
}

impl Lists<'_, '_> {
    /// The scope paper's sample, record by record, and its listing.
    fn sample(&mut self) {
        let mut bytes = [0; 42];
        settled::sample(&mut Log {
            bytes: &mut bytes,
            length: 0,
        });
        self.write(&List::of(records(&bytes)), bytes.len());
        if self.buffer.log() != bytes {
            self.differs(c"the sample's bytes", &bytes);
        }
        if self.reading.read(self.buffer.log()) != settled::SAMPLE {
            self.differs(c"the sample's listing", &bytes);
        }
    }

    /// Behind a log that reaches up to where its length has another byte.
    fn behind(&mut self) {
        let mut bytes = [0; 65_536];
        for width in WIDTHS {
            let random = &mut self.reading.run.random;
            let held = width - random.between(20, 60) as usize;
            let mut log = Log {
                bytes: &mut bytes,
                length: 0,
            };
            let edition = inputs::some_edition(random);
            inputs::drive(random, &mut log, edition, held);
            let list = List::any(random);
            self.buffer.lend(random, width + LENGTH, 0);
            self.buffer.hold(&bytes[..held]);
            self.append(&list);
            if !list.is_read(&self.buffer.log()[held..]) {
                self.differs(c"records behind a log", &bytes[..held]);
            }
            self.reading.read(self.buffer.log());
        }
    }

    fn by_archive(&mut self) {
        let list = List::random(&mut self.reading.run.random);
        let more = match self.reading.run.random.below(2) {
            0 => 0,
            _ => self.reading.run.random.below(24) as usize,
        };
        self.write(&list, list.length() + more);
        self.tally.filled += (more == 0) as u64;
        self.tally.nans += list.records().iter().any(Record::passes_nan) as u64;
        self.tally.empty += (list.count == 0) as u64;
        for (place, count) in self.tally.editions.iter_mut().enumerate() {
            *count += list.has_edition(place == 0) as u64;
        }
        self.tally.stops[0][expect(&mut self.reading, self.buffer.log(), &list)] += 1;
    }

    fn by_writer(&mut self) {
        let list = List::random(&mut self.reading.run.random);
        let (mut bytes, mut used) = ([0; LENGTH], 0);
        for (tag, payload) in list.parts() {
            let append = Append {
                length: LENGTH,
                used,
                tag: tag as u32,
                payload,
            };
            used = append.used_after(&append.write(&mut bytes));
        }
        self.tally.stops[1][expect(&mut self.reading, &bytes[..used as usize], &list)] += 1;
    }

    /// The records of a log, as they are read, appended to an empty one; and the record that the reading
    /// stops at.
    fn again(&mut self) {
        let (bytes, length) = random_log(&mut self.reading.run.random);
        let mut rest = &bytes[..length];
        self.buffer.lend(&mut self.reading.run.random, length, 0);
        while let Read::Record(tag, payload) = read(rest) {
            self.buffer.append(self.reading.run, tag as u32, payload);
            rest = &rest[record_length(rest)..];
        }
        let readable = &bytes[..length - rest.len()];
        if self.buffer.log() != readable {
            self.differs(c"a log that is written again", readable);
        }
        match read(rest) {
            Read::Stop(stop, tag, Some(payload)) => self.refused(stop, tag, payload),
            Read::Stop(..) => {}
            _ => self.tally.whole += 1,
        }
    }

    /// What stops the reading refuses the record, but for what is cut.
    fn refused(&mut self, stop: usize, tag: u8, payload: &[u8]) {
        if STOPS[stop].1 == 7 {
            return;
        }
        match self.buffer.append(self.reading.run, tag as u32, payload) {
            Outcome::Refused { first, .. } if REFUSALS[first] == STOPS[stop] => {
                self.tally.refused[first] += 1;
            }
            _ => self.differs(c"the refusal from the stop", payload),
        }
    }

    /// A list, to an empty log in so many bytes.
    fn write(&mut self, list: &List, length: usize) {
        self.buffer.lend(&mut self.reading.run.random, length, 0);
        self.append(list);
    }

    fn append(&mut self, list: &List) {
        for (tag, payload) in list.parts() {
            self.buffer.append(self.reading.run, tag as u32, payload);
        }
    }

    fn differs(&mut self, what: &CStr, bytes: &[u8]) {
        differs(self.reading.run, what, bytes);
    }
}

/// Reads the log of a list on both sides, and replays the list without it; the answer is the number at
/// which that stops.
fn expect(reading: &mut Beside, log: &[u8], list: &List) -> usize {
    let (mut of_list, mut of_log) = ([0; room(LENGTH)], [0; room(LENGTH)]);
    let wanted = replay_records(list.parts(), &mut of_list, &mut Counts::default());
    let given = replay(log, &mut of_log, &mut Counts::default());
    if !list.is_read(log) {
        differs(reading.run, c"the records that are read", log);
    }
    if (given.stop, given.filter) != (wanted.stop, wanted.filter) || of_log != of_list {
        differs(reading.run, c"the replay of a log from its list's", log);
    }
    reading.read(log);
    wanted.stop as usize
}

fn differs(run: &mut Run, what: &CStr, bytes: &[u8]) {
    if run.differs() {
        unsafe { printf(c"  DIFFERENT: %s\n".as_ptr(), what.as_ptr()) };
        show_bytes(bytes);
    }
}

impl Tally {
    fn report(&self, run: &mut Run) {
        let least = run.wanted() / 4000;
        let names = [c"the archive's logs", c"the writer's logs"];
        unsafe { printf(c"  Lists by the number at which the reading stops:\n".as_ptr()) };
        for (name, stops) in names.into_iter().zip(&self.stops) {
            let can = [0, 3, 10].map(|number| (number, stops[number as usize]));
            run.expect_each(name, can, least);
        }
        let [second, elsewhere] = self.editions;
        run.expect(c"lists with an edition in its place", second, 10 * least);
        run.expect(c"lists with an edition elsewhere", elsewhere, least);
        run.expect(c"lists with a NaN with a payload", self.nans, least);
        run.expect(c"lists that fill their buffer", self.filled, least);
        run.expect(c"empty lists", self.empty, least);
        run.expect(c"logs read to their end, written again", self.whole, least);
        unsafe { printf(c"  Refused by what the reading stops at:\n".as_ptr()) };
        for ((name, _), count) in REFUSALS.into_iter().zip(self.refused) {
            run.expect(name, count, least / 4);
        }
    }
}
