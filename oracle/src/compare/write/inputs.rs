//! Random records and buffers for them, some of them wrong.

use crate::compare::log::replay::{EDITION, MARK, TAGS};
use crate::compare::random::Random;
use crate::compare::ranges::any_word;

/// Payloads of any length have at most so many bytes.
pub const MOST: usize = 40;

pub struct Payload {
    bytes: [u8; MOST],
    length: usize,
}

impl Payload {
    /// Any words, many of them not finite.
    pub fn any(random: &mut Random, length: usize) -> Self {
        let mut bytes = [0; MOST];
        for word in bytes.chunks_mut(4) {
            word.copy_from_slice(&any_word(random).to_le_bytes());
        }
        Self { bytes, length }
    }

    /// Such as a tag has; some have a wrong length, and some marks and editions are unknown.
    pub fn of(random: &mut Random, tag: u32) -> Self {
        let known = TAGS.get((tag as u8 as usize).wrapping_sub(1));
        let right = known.map_or(4, |&(length, _)| length);
        let length = match random.below(24) {
            0 => random.below(MOST as u64 + 1) as usize,
            1 => TAGS[random.below(TAGS.len() as u64) as usize].0,
            2 => right + 1,
            3 => right - 1,
            4 => 0,
            _ => right,
        };
        let mut payload = Self::any(random, length);
        if let Some((_, last)) = NUMBERED.into_iter().find(|&(of, _)| tag == of as u32) {
            payload.bytes[0] = numbered(random, last);
        }
        payload
    }

    pub fn bytes(&self) -> &[u8] {
        &self.bytes[..self.length]
    }
}

/// The floats that a payload holds; a mark and an edition hold none.
pub fn floats(payload: &[u8]) -> impl Iterator<Item = f32> + '_ {
    let floats = payload.chunks_exact(4);
    floats.map(|bytes| f32::from_le_bytes([bytes[0], bytes[1], bytes[2], bytes[3]]))
}

/// Tags whose payload is one byte, from 1 up to a last one.
pub const NUMBERED: [(u8, u8); 2] = [(MARK, 6), (EDITION, 2)];

/// Some are beside or outside the numbers from 1 to the last one.
fn numbered(random: &mut Random, last: u8) -> u8 {
    match random.below(16) {
        0 => 0,
        1 => last + 1,
        2 => random.bits() as u8,
        _ => random.between(1, last as i64) as u8,
    }
}

/// Any 32 bits are one: most are known.
pub fn tag(random: &mut Random) -> u32 {
    let known = random.between(1, TAGS.len() as i64) as u32;
    match random.below(32) {
        0 => random.below(16) as u32,
        1 => random.below(256) as u32,
        2 => known | 1 << random.between(8, 31),
        3 => known | random.bits() << 8,
        4 => random.bits(),
        5..=8 => MARK as u32,
        9..=11 => EDITION as u32,
        _ => known,
    }
}

/// The lengths of a buffer and of what is used of it, for a record of so many bytes.
pub fn lengths(random: &mut Random, needs: u64) -> (usize, u64) {
    let used = match random.below(8) {
        0 => 0,
        _ => random.below(64),
    };
    let left = match random.below(16) {
        0 => 0,
        1 => random.below(needs),
        2 => needs - 1,
        3 | 4 => needs,
        _ => needs + random.below(32),
    };
    let length = used + left;
    let used = match random.below(6) {
        0 => beyond(random, length, used),
        _ => used,
    };
    (length as usize, used)
}

/// A used length beyond the buffer, or one whose low bits are not.
fn beyond(random: &mut Random, length: u64, used: u64) -> u64 {
    match random.below(6) {
        0 => length + 1,
        1 => length + random.between(1, 40) as u64,
        2 => u64::MAX - random.below(64),
        3 => random.next(),
        _ => used | 1 << random.between(8, 63),
    }
}
