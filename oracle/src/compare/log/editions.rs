//! How often a record with tag 10 stopped the reading or was taken, and how often the edition showed.

use super::counts::{Pairs, Stops};
use super::replay::{Step, CONFIGURE, EDITION};
use crate::compare::ekf::scope::PREDICT;
use crate::compare::ekf::turn::{FIRST, SECOND};
use crate::compare::libc::printf;
use crate::compare::run::Run;
use core::ffi::CStr;

/// Of a record with tag 10. Where its payload is cut, or has no byte, it shows no number.
const PAIRS: &Pairs = &[(0, &[4]), (2, &[3, 4, 5]), (3, &[4]), (4, &[5]), (5, &[])];

/// Words that a replay may keep as its edition; the last of the counts is of any other.
pub const WORDS: [u32; 5] = [0, FIRST, SECOND, 3, u32::MAX];
pub const CLASSES: usize = WORDS.len() + 1;

/// The class of a word.
pub fn class(word: u32) -> usize {
    let place = WORDS.iter().position(|&known| known == word);
    place.unwrap_or(WORDS.len())
}

#[derive(Default)]
pub struct Editions {
    stops: Stops,
    /// Records that are taken, by their number from 1 on.
    taken: [u64; 2],
    /// Predictions that by another edition would have come to something else, by the class of the word: the
    /// first prediction of a log, and later ones.
    told: [[u64; 2]; CLASSES],
    /// Whether the log had a prediction.
    predicted: bool,
}

impl Editions {
    /// What the record comes to that stands first.
    pub fn step(&mut self, rest: &[u8], step: &Step) {
        match step {
            Step::Stop { first, applies } if rest[0] == EDITION => {
                self.stops.count(*first, applies)
            }
            Step::Line {
                tag,
                call,
                sets,
                told,
                ..
            } => {
                if let (EDITION, Some(number)) = (*tag, *sets) {
                    self.taken[number as usize - 1] += 1;
                }
                if let Some(word) = *told {
                    self.told[class(word)][self.predicted as usize] += 1;
                }
                self.predicted = *tag != CONFIGURE && (self.predicted || *call == Some(PREDICT));
            }
            _ => {}
        }
    }

    /// Of whole logs, where the edition is always known.
    pub fn report(&self, run: &mut Run, least: u64) {
        self.report_records(run, least);
        unsafe { printf(c"  Predictions that another edition makes otherwise:\n".as_ptr()) };
        let names = [c"  the first of a log", c"  a later one of a log"];
        for (place, name) in names.into_iter().enumerate() {
            let count = |word| (word, self.told[class(word)][place]);
            run.expect_each(name, [FIRST, SECOND].map(count), 10 * least);
        }
    }

    /// Of single records, on any word: one that is no edition refuses the prediction.
    pub fn report_words(&self, run: &mut Run, least: u64) {
        self.report_records(run, least);
        let told = self.told.map(|[first, later]| first + later);
        report_classes(run, c"  predictions it decides", told, least);
    }

    fn report_records(&self, run: &mut Run, least: u64) {
        self.stops.report(run, c"Stops at tag 10", PAIRS, least);
        run.expect_each(c"editions taken", (1..).zip(self.taken), least);
    }
}

/// By the word, and 4 for any other.
pub fn report_classes(run: &mut Run, name: &CStr, counts: [u64; CLASSES], least: u64) {
    let words = WORDS.into_iter().chain([4]);
    run.expect_each(name, words.zip(counts), least);
}
