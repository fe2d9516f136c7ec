//! One call of each function with the memory that it is lent, beside what it should leave there.
//!
//! A summary lies in a row of words that is compared as a whole: the words beside it have to stay as they
//! were, and so has a summary that is only read.

use super::reading::{Summary, Verdict, WORDS};
use crate::compare::archive::{track_summarize, track_summary_add, track_summary_merge};
use crate::compare::lent::{filled, lay, Lent, Parts};
use crate::compare::libc::printf;
use crate::compare::log::show_bytes;
use crate::compare::run::Run;
use core::ffi::CStr;

const SUMMARY: usize = 1;
const ROW: usize = SUMMARY + WORDS + 1;
const PARTS: &Parts = &[(SUMMARY, c"summary"), (ROW - 1, c"lent to no one")];

/// Of a merge: both of them, the one that is read behind the other.
const OTHER: usize = ROW;
const BOTH: usize = OTHER + WORDS + 1;
const BOTH_PARTS: &Parts = &[
    (SUMMARY, c"summary"),
    (OTHER - 1, c"lent to no one"),
    (OTHER, c"the other"),
    (BOTH - 1, c"lent to no one"),
];

/// Adds a verdict; the answer is the summary that the archive leaves.
pub fn add(run: &mut Run, before: &Summary, verdict: &Verdict) -> Summary {
    let row = around::<ROW>(run, before);
    let mut after = row;
    let place = after[SUMMARY..].as_mut_ptr();
    let number = unsafe { track_summary_add(place, verdict.word, verdict.value) };
    let name = c"summary_add of verdict";
    let call = called(run, (name, verdict.word), number, [row, after]);
    let mut wanted = *before;
    wanted.add(verdict);
    let number = verdict.outcome().number();
    if call.expect(run, number, &laid(row, &wanted), c"the request") {
        let (value, bits) = (verdict.value as f64, verdict.value.to_bits());
        unsafe { printf(c"    gate value %08X (%.9g)\n".as_ptr(), bits, value) };
    }
    summary(&call)
}

/// Merges another summary into one; the answer is the one that the archive leaves.
pub fn merge(run: &mut Run, before: &Summary, other: &Summary) -> Summary {
    let mut row = around::<BOTH>(run, before);
    lay(&mut row, OTHER, &other.0);
    let mut after = row;
    let place = after.as_mut_ptr();
    unsafe { track_summary_merge(place.add(SUMMARY), place.add(OTHER)) };
    let call = Lent {
        parts: BOTH_PARTS,
        ..called(run, (c"summary_merge", 0), 0, [row, after])
    };
    let mut wanted = *before;
    wanted.merge(other);
    call.expect(run, 0, &laid(row, &wanted), c"the request");
    summary(&call)
}

/// Summarizes a log, over any words; the answer is the summary that the archive leaves.
pub fn summarize(run: &mut Run, log: &[u8], stop: u32, wanted: &Summary) -> Summary {
    let row = filled::<ROW>(&mut run.random);
    let mut after = row;
    let place = after[SUMMARY..].as_mut_ptr();
    let number = unsafe { track_summarize(log.as_ptr(), log.len() as u64, place) };
    let name = c"summarize of so many bytes";
    let call = called(run, (name, log.len() as u32), number, [row, after]);
    if call.expect(run, stop, &laid(row, wanted), c"the judge") {
        show_bytes(log);
    }
    summary(&call)
}

/// A row of any words with a summary in it.
fn around<const N: usize>(run: &mut Run, summary: &Summary) -> [u32; N] {
    laid(filled(&mut run.random), summary)
}

fn laid<const N: usize>(mut row: [u32; N], summary: &Summary) -> [u32; N] {
    lay(&mut row, SUMMARY, &summary.0);
    row
}

fn called<const N: usize>(
    run: &mut Run,
    (name, operation): (&'static CStr, u32),
    number: u32,
    [before, after]: [[u32; N]; 2],
) -> Lent<N> {
    run.count_call();
    Lent {
        name,
        operation,
        number,
        before,
        after,
        parts: PARTS,
    }
}

fn summary<const N: usize>(call: &Lent<N>) -> Summary {
    Summary(core::array::from_fn(|place| call.after[SUMMARY + place]))
}
