//! Demand 3, run: a list of position calls and one of the other channels' calls, merged in two orders between two
//! predictions, have to end with the same words and the same answers, from sound and unsound filters.

use super::*;
use crate::compare::libc::printf;

/// Calls of each of two lists, at most.
const MERGED: usize = 16;

pub fn compare(run: &mut Run) {
    let mut counts = Merged::default();
    for _ in 0..run.wanted() / LISTS {
        merge(run, &mut counts);
    }
    counts.report(run);
}

/// Up to so many calls of one of the two lists.
struct Part {
    calls: [Given; MERGED],
    length: usize,
}

impl Part {
    fn new(random: &mut Random, mut one: impl FnMut(&mut Random) -> Given) -> Self {
        let length = random.below(MERGED as u64 + 1) as usize;
        Self {
            calls: core::array::from_fn(|_| one(random)),
            length,
        }
    }
}

/// What the archive leaves and answers by one order: the filter, and the answers of both lists and of the
/// two predictions, each in its own order.
#[derive(PartialEq)]
struct Ended {
    numbers: [u32; 25],
    counts: [u32; 10],
    answers: [[(u32, [Option<u32>; 6]); MERGED]; 3],
}

fn merge(run: &mut Run, counts: &mut Merged) {
    let random = &mut run.random;
    let filter = start(random);
    let place = elsewhere(random, &filter);
    let parts = [
        Part::new(random, |random| match random.below(8) {
            0 => Given::refused_fix(random, place),
            1 | 2 => Given::of(random, is_position),
            _ => Given::fix(random, place),
        }),
        Part::new(random, |random| Given::of(random, is_another_channel)),
    ];
    let predictions = [0; 2].map(|_| match random.below(4) {
        0 => Given::any(random, PREDICT),
        _ => Given::new(PREDICT, [0.0, 0.0, 0.0, sized(random, 0.005, 0.5)]),
    });
    let orders = [0; 2].map(|_| random.next());
    let [(one, first), (other, second)] =
        orders.map(|order| in_order(run, counts, filter, &parts, predictions, order));
    if one != other && run.differs() {
        unsafe { printf(c"  DIFFERENT: two orders of the same calls\n".as_ptr()) };
    }
    counts.lists += 1;
    counts.other_orders += (first != second) as u64;
}

/// The two lists merged by the digits of a number: how they end, and the digits that were followed.
fn in_order(
    run: &mut Run,
    counts: &mut Merged,
    filter: Filter,
    parts: &[Part; 2],
    predictions: [Given; 2],
    mut order: u64,
) -> (Ended, u64) {
    let mut sides = Sides::at(filter);
    let mut answers = [[(0, [None; 6]); MERGED]; 3];
    answers[2][0] = sides.call(run, &predictions[0]).1.answer();
    let (mut made, mut followed) = ([0; 2], 0);
    while (0..2).any(|part| made[part] < parts[part].length) {
        let mut part = (order & 1) as usize;
        order >>= 1;
        if made[part] == parts[part].length {
            part = 1 - part;
        }
        followed = 2 * followed + part as u64;
        let given = &parts[part].calls[made[part]];
        let before = sides.judged;
        let (judged, call) = sides.call(run, given);
        counts.call(given, &before, &judged);
        answers[part][made[part]] = call.answer();
        made[part] += 1;
    }
    answers[2][1] = sides.call(run, &predictions[1]).1.answer();
    let ended = Ended {
        numbers: sides.archive.numbers.map(f32::to_bits),
        counts: sides.archive.counts,
        answers,
    };
    (ended, followed)
}

/// How often merged lists came to what.
#[derive(Default)]
struct Merged {
    lists: u64,
    other_orders: u64,
    eighths: u64,
    /// Position calls that are refused for the run, and calls of other channels that are answered with it.
    refused: u64,
    answered: u64,
}

impl Merged {
    fn call(&mut self, given: &Given, before: &Filter, judged: &Outcome) {
        let run = before.counts[RUN];
        let rejected = judged.number == 0 && judged.answer.kind == REJECTED;
        self.eighths += (given.operation == UPDATE_POSITION && rejected && run == LAST) as u64;
        if run > LAST {
            self.refused += (judged.number == 4) as u64;
            self.answered += (judged.number == 0) as u64;
        }
    }

    fn report(&self, run: &mut Run) {
        let lists = run.wanted() / LISTS;
        let rows = [
            (c"lists merged in two orders", self.lists, lists),
            (
                c"  and the orders are not the same",
                self.other_orders,
                lists / 2,
            ),
            (c"  eighth rejections", self.eighths, lists / 4),
            (c"  4 with a run above 7", self.refused, lists / 4),
            (c"  other channels answer with it", self.answered, lists / 4),
        ];
        for (name, count, least) in rows {
            run.expect(name, count, least);
        }
    }
}
