//! `track_append`: one record appended to a log, beside a writer that is a second reading of the change
//! request; and logs that the one side has written, read by the other.

mod buffer;
mod counts;
mod inputs;
mod lists;
pub mod sample;
mod settled;
mod writer;

use super::libc::printf;
use super::log::replay::TAGS;
use super::run::Run;
use buffer::{Buffer, LONGEST, LONGEST_PAYLOAD};
use inputs::{lengths, tag, Payload, MOST, NUMBERED};
use writer::HEADER;

/// Some tags above 255: next to it, and with a low byte or high bits that say something else.
const ABOVE: [u32; 12] = [
    256,
    257,
    259,
    264,
    265,
    266,
    515,
    65_539,
    1 << 24 | 8,
    1 << 31 | 5,
    u32::MAX - 1,
    u32::MAX,
];

/// Records that are tried at each place, of each tag and of each refusal that a record alone can have: the
/// tag, the payload's length and its first byte.
const TRIED: [(u32, usize, u8); 15] = [
    (1, 28, 0),
    (2, 16, 0),
    (3, 8, 0),
    (4, 8, 0),
    (5, 4, 0),
    (6, 4, 0),
    (7, 8, 0),
    (8, 1, 6),
    (9, 8, 0),
    (10, 1, 2),
    (11, 1, 1),
    (5, 5, 0),
    (8, 2, 7),
    (8, 1, 7),
    (10, 1, 3),
];

/// What one byte and two bytes cannot count.
const WIDTHS: [usize; 2] = [1 << 8, 1 << 16];

pub fn compare(run: &mut Run) {
    let mut beside = Beside {
        run,
        buffer: Buffer::new(),
    };
    beside.settled();
    beside.tags();
    beside.numbered();
    beside.places();
    beside.widths();
    beside.long();
    for _ in 0..beside.run.wanted() {
        beside.random();
    }
    let Beside { run, mut buffer } = beside;
    lists::compare(run, &mut buffer);
    buffer.counts.report(run);
    buffer.counts.report_long(run);
}

/// Both sides.
struct Beside<'a> {
    run: &'a mut Run,
    buffer: Buffer,
}

impl Beside<'_> {
    /// Lends a buffer of so many bytes, of which so many are used, and appends a record.
    fn append(&mut self, length: usize, used: u64, tag: u32, payload: &[u8]) -> u32 {
        self.buffer.lend(&mut self.run.random, length, used);
        self.buffer.append(self.run, tag, payload).number()
    }

    fn settled(&mut self) {
        for &(length, used, tag, payload, ref wanted) in &settled::CASES {
            let number = self.append(length, used, tag, payload);
            let same = match wanted {
                Ok(record) => number == 0 && self.buffer.log()[used as usize..] == **record,
                Err(refusal) => number == *refusal,
            };
            if !same && self.run.differs() {
                unsafe { printf(c"  DIFFERENT: tag %u settled on paper\n".as_ptr(), tag) };
            }
        }
    }

    /// Every tag of a byte and some above, with payloads of every length.
    fn tags(&mut self) {
        for tag in (0..=255).chain(ABOVE) {
            for length in 0..=MOST {
                let payload = Payload::any(&mut self.run.random, length);
                let used = self.run.random.below(16);
                self.append(64, used, tag, payload.bytes());
            }
        }
    }

    /// Every mark and every edition, with room, without and beyond the buffer.
    fn numbered(&mut self) {
        for (tag, _) in NUMBERED {
            for number in 0..=255 {
                for used in 0..=20 {
                    self.append(16, used, tag as u32, &[number]);
                }
            }
        }
    }

    /// Used lengths at and beyond both ends of short buffers, about 2^32 and about the last one.
    fn places(&mut self) {
        for (tag, needs, first) in TRIED {
            for length in 0..=MOST as u64 {
                let near = 0..=length + 2;
                let wide = (0..=length).map(|used| used + (1 << 32));
                let last = (0..=MOST as u64 + 4).map(|less| u64::MAX - less);
                for used in near.chain(wide).chain(last).chain([1 << 31, 1 << 63]) {
                    let mut bytes = [first; MOST];
                    self.run.random.fill(&mut bytes[1..]);
                    self.append(length as usize, used, tag, &bytes[..needs]);
                }
            }
        }
    }

    /// Used lengths of one byte and of two, and one more; with room, without and beyond the buffer.
    fn widths(&mut self) {
        for (tag, needs, first) in TRIED {
            for used in WIDTHS.into_iter().flat_map(|width| width - 2..=width + 2) {
                for left in [0, HEADER + needs - 1, HEADER + needs, HEADER + needs + 20] {
                    self.append(used + left, used as u64, tag, &[first; MOST][..needs]);
                }
                self.append(used - 1, used as u64, tag, &[first; MOST][..needs]);
            }
        }
    }

    /// Payloads that are longer than a tag's by what the low byte or both bytes of a length do not show,
    /// with room for them.
    fn long(&mut self) {
        let bytes = [1; LONGEST_PAYLOAD];
        for (tag, (needs, _)) in (1..).zip(TAGS).chain([(0, (0, None)), (11, (1, None))]) {
            for width in WIDTHS {
                self.append(LONGEST, 5, tag, &bytes[..needs + width]);
            }
        }
    }

    fn random(&mut self) {
        let random = &mut self.run.random;
        let tag = tag(random);
        let payload = Payload::of(random, tag);
        let (length, used) = lengths(random, (HEADER + payload.bytes().len()) as u64);
        self.append(length, used, tag, payload.bytes());
    }
}
