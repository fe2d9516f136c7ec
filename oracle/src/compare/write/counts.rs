//! How often records were written and refused how, and how often they have to be.

use super::inputs::{floats, NUMBERED};
use super::writer::*;
use super::WIDTHS;
use crate::compare::libc::printf;
use crate::compare::log::replay::{is_unknown, EDITION, MARK, TAGS};
use crate::compare::run::{has_payload, Run};
use core::ffi::CStr;

/// Refusals that can apply at once: the place of the first, its own where it can be alone, and those of
/// others that can apply beside it. An unknown tag has no length; beyond the buffer nothing is left.
const PAIRS: [(usize, &[usize]); 5] = [
    (UNKNOWN_TAG, &[UNKNOWN_TAG, BEYOND, NO_ROOM]),
    (WRONG_LENGTH, &[WRONG_LENGTH, UNKNOWN_BYTE, BEYOND, NO_ROOM]),
    (UNKNOWN_BYTE, &[UNKNOWN_BYTE, BEYOND, NO_ROOM]),
    (BEYOND, &[NO_ROOM]),
    (NO_ROOM, &[NO_ROOM]),
];

/// What is counted besides, of records that are written and of those that each refusal comes first of.
const EDGES: [&CStr; 23] = [
    c"written at the front",
    c"written to the last byte",
    c"written between bytes that stay",
    c"written with a NaN with a payload",
    c"written with a NaN that is not quiet",
    c"tag 0",
    c"tag 11",
    c"tag above 255 with a known tag's low byte",
    c"no payload",
    c"a byte too few",
    c"a byte too many",
    c"mark 0",
    c"mark 7",
    c"edition 0",
    c"edition 3",
    c"unknown edition of a wrong length",
    c"unknown edition, used beyond the buffer",
    c"unknown edition, no room",
    c"used one byte beyond the buffer",
    c"used so that the record's end wraps",
    c"used with low 32 bits that fit",
    c"used to the last byte",
    c"one byte short",
];

/// Which of `EDGES` it is.
fn edges(append: &Append, refused: Option<usize>) -> [bool; EDGES.len()] {
    let by = |refusal| refused == Some(refusal);
    let (length, used) = (append.length as u64, append.used);
    let (left, needs) = (append.left(), append.needs());
    let payload = append.payload.len();
    let (mark, edition) = (append.tag == MARK as u32, append.tag == EDITION as u32);
    let longer = |by: usize| append.known_length().map(|known| known + by);
    [
        refused.is_none() && used == 0,
        refused.is_none() && left == needs,
        refused.is_none() && used > 0 && left > needs,
        refused.is_none() && floats(append.payload).any(has_payload),
        refused.is_none() && floats(append.payload).any(is_signalling),
        by(UNKNOWN_TAG) && append.tag == 0,
        by(UNKNOWN_TAG) && append.tag == 11,
        by(UNKNOWN_TAG) && append.tag > 255 && (1..=10).contains(&(append.tag as u8)),
        by(WRONG_LENGTH) && payload == 0,
        by(WRONG_LENGTH) && longer(0) == Some(payload + 1),
        by(WRONG_LENGTH) && longer(1) == Some(payload),
        by(UNKNOWN_BYTE) && mark && append.payload[0] == 0,
        by(UNKNOWN_BYTE) && mark && append.payload[0] == 7,
        by(UNKNOWN_BYTE) && edition && append.payload[0] == 0,
        by(UNKNOWN_BYTE) && edition && append.payload[0] == 3,
        by(WRONG_LENGTH) && edition && is_unknown(append.tag, append.payload),
        by(UNKNOWN_BYTE) && edition && used > length,
        by(UNKNOWN_BYTE) && edition && used <= length && needs > left,
        by(BEYOND) && used - 1 == length,
        by(BEYOND) && used.checked_add(needs).is_none(),
        by(BEYOND) && used % (1 << 32) + needs <= length,
        by(NO_ROOM) && left == 0,
        by(NO_ROOM) && left + 1 == needs,
    ]
}

/// A NaN that an operation would make quiet.
fn is_signalling(float: f32) -> bool {
    float.is_nan() && float.to_bits() & 0x0040_0000 == 0
}

#[derive(Default)]
pub struct Counts {
    /// By the refusal and another that applies beside it; in its own column those that are alone.
    refusals: [[u64; 5]; 5],
    /// Written, from 1 on.
    tags: [u64; TAGS.len()],
    marks: [u64; 6],
    editions: [u64; 2],
    edges: [u64; EDGES.len()],
    /// Payloads that are too long by what one byte of a length does not show, and by what both do not.
    long: [u64; 2],
    /// Written behind more bytes than two bytes count.
    behind: u64,
}

impl Counts {
    pub fn call(&mut self, append: &Append, outcome: &Outcome) {
        let refused = match outcome {
            Outcome::Written => {
                self.written(append);
                None
            }
            Outcome::Refused { first, applies } => {
                self.refused(*first, applies);
                Some(*first)
            }
        };
        for (count, width) in self.long.iter_mut().zip(WIDTHS) {
            let known = append.known_length().map(|known| known + width);
            *count += (known == Some(append.payload.len())) as u64;
        }
        for (count, is) in self.edges.iter_mut().zip(edges(append, refused)) {
            *count += is as u64;
        }
    }

    fn written(&mut self, append: &Append) {
        self.behind += (append.used > 65_535) as u64;
        self.tags[append.tag as usize - 1] += 1;
        let numbered = [&mut self.marks[..], &mut self.editions];
        for ((tag, _), counts) in NUMBERED.into_iter().zip(numbered) {
            if append.tag == tag as u32 {
                counts[append.payload[0] as usize - 1] += 1;
            }
        }
    }

    fn refused(&mut self, first: usize, applies: &[bool; 5]) {
        let mut alone = true;
        for also in (first + 1..5).filter(|&also| applies[also]) {
            self.refusals[first][also] += 1;
            alone = false;
        }
        self.refusals[first][first] += alone as u64;
    }

    pub fn report(&self, run: &mut Run) {
        let least = run.wanted() / 1000;
        run.expect_each(c"tags written", (1..).zip(self.tags), 10 * least);
        run.expect_each(c"marks written", (1..).zip(self.marks), least);
        run.expect_each(c"editions written", (1..).zip(self.editions), least);
        unsafe { printf(c"  Refusals, alone (its own place) and beside another:\n".as_ptr()) };
        for (first, can) in PAIRS {
            let count = |&also: &usize| (also as u32 + 1, self.refusals[first][also]);
            run.expect_each(REFUSALS[first].0, can.iter().map(count), least);
        }
        for (name, count) in EDGES.into_iter().zip(self.edges) {
            run.expect(name, count, least);
        }
    }

    /// What no sample has: it is too long.
    pub fn report_long(&self, run: &mut Run) {
        let names = [
            c"payloads 256 bytes too long",
            c"payloads 65,536 bytes too long",
        ];
        for (name, count) in names.into_iter().zip(self.long) {
            run.expect(name, count, TAGS.len() as u64);
        }
        run.expect(c"written behind 65,536 bytes or more", self.behind, 50);
    }
}
