//! The writer's part of the stored sample: the settled cases, which have each outcome, of editions those that
//! have one alone.
//!
//! A record has the length of the buffer, in two words that of what is used of it, the tag and the
//! payload's length; then 48 bytes, which the buffer begins, and 32, which the payload begins; then the
//! used length and the 48 bytes after the call, also where it is refused.

use super::counts::Counts;
use super::settled;
use super::writer::Append;
use crate::compare::log::replay::EDITION;
use crate::compare::sample::{Row, Sample, Shows, APPEND};

const BUFFER: usize = 48;
const PAYLOAD: usize = 32;

pub fn sample(to: &mut Sample) {
    let mut kept = Counts::default();
    for &(length, used, tag, payload, _) in &settled::CASES {
        let append = Append {
            length,
            used,
            tag,
            payload,
        };
        store(to, &mut kept, &append);
    }
    if to.shows == Shows::Outcomes {
        kept.report(&mut to.run);
    }
}

fn store(to: &mut Sample, kept: &mut Counts, append: &Append) {
    let (mut before, mut payload) = ([0; BUFFER], [0; PAYLOAD]);
    to.random.fill(&mut before);
    to.random.fill(&mut payload);
    payload[..append.payload.len()].copy_from_slice(append.payload);
    let mut after = before;
    let outcome = append.write(&mut after[..append.length]);
    let always = append.tag != EDITION as u32;
    if !to.keeps(kept, always, |counts| counts.call(append, &outcome)) {
        return;
    }
    let [used, left] = [append.used, append.used_after(&outcome)];
    to.head(APPEND, outcome.number());
    to.words(&Row::of(&[
        append.length as u32,
        used as u32,
        (used >> 32) as u32,
    ]));
    to.words(&Row::of(&[append.tag, append.payload.len() as u32]));
    to.bytes(&before);
    to.bytes(&payload);
    to.words(&Row::of(&[left as u32, (left >> 32) as u32]));
    to.bytes(&after);
}
