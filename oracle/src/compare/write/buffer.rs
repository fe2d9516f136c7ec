//! The memory that calls are lent, on both sides: a buffer, the payload behind it, the used length, and
//! what lies about them and is lent to no one.
//!
//! All of it is compared after each call: bytes before and behind a record have to stay as they were,
//! the payload too, and a refused call has to leave everything.

use super::counts::Counts;
use super::inputs::MOST;
use super::writer::{Append, Outcome};
use crate::compare::archive::track_append;
use crate::compare::libc::printf;
use crate::compare::log::show_bytes;
use crate::compare::random::Random;
use crate::compare::run::Run;
use core::ffi::CStr;

/// A buffer and a payload have at most so many bytes.
pub const LONGEST: usize = 65_536 + 2048;
pub const LONGEST_PAYLOAD: usize = 65_536 + 28;
/// So many bytes lie about each of them.
const ABOUT: usize = 16;
const ROW: usize = ABOUT + LONGEST + ABOUT + LONGEST_PAYLOAD + ABOUT;
/// So many bytes behind the buffer are filled with it: all but long payloads lie there.
const BEHIND: usize = ABOUT + MOST + ABOUT;
/// Of one difference so many bytes are shown.
const SHOWN: usize = 8;

/// Too long for the stack.
static mut WANTED: [u8; ROW] = [0; ROW];
static mut GIVEN: [u8; ROW] = [0; ROW];

pub struct Buffer {
    wanted: &'static mut [u8; ROW],
    given: &'static mut [u8; ROW],
    length: usize,
    pub used: u64,
    pub counts: Counts,
}

/// What one call of the archive gives: the number, and the used length among other words.
struct Gives {
    number: u32,
    words: [usize; 3],
}

impl Buffer {
    pub fn new() -> Self {
        // a comparison calls it once, and nothing else names them
        let (wanted, given) = unsafe { (&mut *(&raw mut WANTED), &mut *(&raw mut GIVEN)) };
        Self {
            wanted,
            given,
            length: 0,
            used: 0,
            counts: Counts::default(),
        }
    }

    /// Lends so many bytes, any ones, the same on both sides; so many of them are used.
    pub fn lend(&mut self, random: &mut Random, length: usize, used: u64) {
        (self.length, self.used) = (length, used);
        let end = ABOUT + length + BEHIND;
        random.fill(&mut self.wanted[..end]);
        self.given[..end].copy_from_slice(&self.wanted[..end]);
    }

    /// The used bytes are those of a log.
    pub fn hold(&mut self, log: &[u8]) {
        for row in [&mut *self.wanted, &mut *self.given] {
            row[ABOUT..][..log.len()].copy_from_slice(log);
        }
        self.used = log.len() as u64;
    }

    /// The used bytes, as the archive left them.
    pub fn log(&self) -> &[u8] {
        &self.given[ABOUT..][..self.used as usize]
    }

    /// Appends a record on both sides; the answer is what it should come to.
    pub fn append(&mut self, run: &mut Run, tag: u32, payload: &[u8]) -> Outcome {
        let first = ABOUT + self.length + ABOUT;
        for row in [&mut *self.wanted, &mut *self.given] {
            row[first..][..payload.len()].copy_from_slice(payload);
        }
        let append = Append {
            length: self.length,
            used: self.used,
            tag,
            payload,
        };
        let before = [run.random.next(), self.used, run.random.next()].map(|word| word as usize);
        let gives = self.call(run, &append, before);
        let outcome = append.write(&mut self.wanted[ABOUT..][..self.length]);
        self.counts.call(&append, &outcome);
        self.used = append.used_after(&outcome);
        let wanted = Gives {
            number: outcome.number(),
            words: [before[0], self.used as usize, before[2]],
        };
        self.expect(run, &append, &gives, &wanted);
        outcome
    }

    fn call(&mut self, run: &mut Run, append: &Append, mut words: [usize; 3]) -> Gives {
        let row = self.given.as_mut_ptr();
        let number = unsafe {
            track_append(
                row.add(ABOUT),
                self.length as u64,
                words.as_mut_ptr().add(1),
                append.tag,
                row.add(ABOUT + self.length + ABOUT),
                append.payload.len() as u64,
            )
        };
        run.count_call();
        Gives { number, words }
    }

    /// Behind a difference both sides go on from the same bytes.
    fn expect(&mut self, run: &mut Run, append: &Append, gives: &Gives, wanted: &Gives) {
        let end = ABOUT + self.length + ABOUT + append.payload.len() + ABOUT;
        let same = self.given[..end] == self.wanted[..end];
        if same && gives.number == wanted.number && gives.words == wanted.words {
            return;
        }
        if run.differs() {
            show(append, gives, wanted);
            self.show(append, end);
        }
        self.given[..end].copy_from_slice(&self.wanted[..end]);
    }

    fn show(&self, append: &Append, end: usize) {
        let differs = |&place: &usize| self.given[place] != self.wanted[place];
        for place in (0..end).filter(differs).take(SHOWN) {
            let (given, wanted) = (self.given[place] as u32, self.wanted[place] as u32);
            let place = place as i64 - ABOUT as i64;
            unsafe {
                printf(
                    c"    byte %lld of the buffer (%s) is %02X, by the paper %02X\n".as_ptr(),
                    place,
                    part(append, self.used, place).as_ptr(),
                    given,
                    wanted,
                );
            }
        }
    }
}

/// What lies at a place, counted from the buffer's first byte, by the used length that a call leaves.
fn part(append: &Append, used: u64, place: i64) -> &'static CStr {
    let length = append.length as u64;
    let payload = length + ABOUT as u64;
    let ends = [
        (0, c"before it"),
        (append.used.min(length), c"used before"),
        (used.min(length), c"the record"),
        (length, c"behind the record"),
        (payload, c"beyond it"),
        (payload + append.payload.len() as u64, c"the payload"),
    ];
    let part = ends.into_iter().find(|&(end, _)| place < end as i64);
    part.map_or(c"beyond the payload", |(_, name)| name)
}

fn show(append: &Append, gives: &Gives, wanted: &Gives) {
    unsafe {
        printf(
            c"  DIFFERENT: tag %u, a payload of %llu bytes, %llu used of %llu:\n".as_ptr(),
            append.tag,
            append.payload.len() as u64,
            append.used,
            append.length as u64,
        );
        for (by, gives) in [(c"the archive", gives), (c"the paper", wanted)] {
            let [before, used, behind] = gives.words.map(|word| word as u64);
            printf(
                c"    %s gives %u and used %llu, words about it %llX and %llX\n".as_ptr(),
                by.as_ptr(),
                gives.number,
                used,
                before,
                behind,
            );
        }
    }
    show_bytes(append.payload);
}
