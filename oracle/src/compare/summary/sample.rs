//! The summaries' part of the stored sample: the settled cases, which have each outcome but buckets.
//!
//! A summary has one word at every place but one. A record of a verdict has its word and its value; then the
//! word, the place and its count before and after, also where it is refused. One of a merge has the place,
//! and of both summaries and of the merge the word and the count. One of a log has its length, the log in
//! 128 bytes, the word at every place before it, and three places with their counts after it, where all
//! others are 0.

use super::counts::{Counts, Merged, Summarized};
use super::logs::Judged;
use super::reading::{Outcome, Summary, Verdict, REJECTIONS, WORDS};
use super::settled;
use crate::compare::component::{ACCEPTED, REJECTED};
use crate::compare::log::inputs::Log;
use crate::compare::sample::{filler, Row, Sample, Shows, SUMMARIZE, SUMMARY_ADD, SUMMARY_MERGE};

const LOG: usize = 128;
const SHOWN: usize = 3;

/// A summary with a count at a place, and a word at all others.
fn but_one(word: u32, place: usize, count: u32) -> Summary {
    let mut summary = Summary([word; WORDS]);
    summary.0[place] = count;
    summary
}

pub fn sample(to: &mut Sample) {
    let mut counts = Counts::NONE;
    for (word, bits, _) in settled::CASES {
        let [count] = filler(&mut to.random);
        store_verdict(to, &mut counts, (word, f32::from_bits(bits)), count);
    }
    for (count, _) in settled::RAISED {
        for word in [ACCEPTED, REJECTED] {
            store_verdict(to, &mut counts, (word, 0.5), count);
        }
    }
    let mut merged = Merged::NONE;
    let places = [0, 1, 63, 64, 126, 127, REJECTIONS];
    for (sums, place) in settled::MERGED.chunks_exact(2).zip(places) {
        let (others, at_place) = (sums[0], sums[1]);
        let summary = but_one(others.0, place, at_place.0);
        let other = but_one(others.1, place, at_place.1);
        store_merge(to, &mut merged, place, [summary, other]);
    }
    let mut summarized = Summarized::default();
    for (body, ..) in settled::LOGS {
        store_log(to, &mut summarized, body);
    }
    if to.shows == Shows::Outcomes {
        counts.report(&mut to.run);
        merged.report(&mut to.run, false);
        summarized.report(&mut to.run, &[0, 3, 10], 1);
    }
}

fn store_verdict(to: &mut Sample, counts: &mut Counts, (word, value): (u32, f32), count: u32) {
    let verdict = Verdict { word, value };
    let place = match verdict.outcome() {
        Outcome::Counted(place) => place,
        Outcome::Refused { .. } => REJECTIONS,
    };
    let [others] = filler(&mut to.random);
    let before = but_one(others, place, count);
    let mut after = before;
    after.add(&verdict);
    counts.add(&before, &verdict);
    to.head(SUMMARY_ADD, verdict.outcome().number());
    to.words(&Row::of(&[word]).floats(&[value]));
    to.words(&Row::of(&[others, place as u32, count, after.0[place]]));
}

fn store_merge(to: &mut Sample, merged: &mut Merged, place: usize, two: [Summary; 2]) {
    let [summary, other] = two;
    let mut merge = summary;
    merge.merge(&other);
    merged.merge(&summary, &other);
    to.head(SUMMARY_MERGE, 0);
    to.words(&Row::of(&[place as u32]));
    for Summary(words) in [summary, other, merge] {
        to.words(&Row::of(&[words[(place + 1) % WORDS], words[place]]));
    }
}

fn store_log(to: &mut Sample, summarized: &mut Summarized, body: fn(&mut Log)) {
    let judged = Judged::of(body);
    let Summary(counts) = judged.summary;
    let places = (0..WORDS).filter(|&place| counts[place] > 0);
    assert!(judged.length <= LOG && places.clone().count() <= SHOWN);
    summarized.log(judged.stop, &judged.summary);
    to.head(SUMMARIZE, judged.stop);
    to.words(&Row::of(&[judged.length as u32]));
    to.bytes(&judged.bytes[..LOG]);
    let before = filler::<1>(&mut to.random);
    to.words(&Row::of(&before));
    for place in places.chain([0; SHOWN]).take(SHOWN) {
        to.words(&Row::of(&[place as u32, counts[place]]));
    }
}
