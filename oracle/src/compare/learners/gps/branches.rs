//! What GPS acceleration does, and each threshold of the request from both sides.

use super::*;
use crate::compare::component::{ABSENT, SHOWN};

fn updates(input: &Input, outcome: &Outcome, kind: u32) -> bool {
    input.operation == UPDATE && outcome.number == 0 && outcome.answer.kind == kind
}

fn answers(input: &Input, outcome: &Outcome) -> bool {
    updates(input, outcome, SHOWN)
}

fn nothing(input: &Input, outcome: &Outcome) -> bool {
    updates(input, outcome, ABSENT)
}

fn rate(input: &Input, outcome: &Outcome) -> bool {
    input.operation == UPDATE_RATE && outcome.number == 0
}

fn acts(input: &Input, outcome: &Outcome) -> bool {
    rate(input, outcome) && passed(input).is_some_and(|passed| passed >= 1_000)
}

fn waits(input: &Input, outcome: &Outcome) -> bool {
    rate(input, outcome) && passed(input).is_some_and(|passed| passed < 1_000)
}

/// For an interval or a count of fixes that is too large.
fn refused(input: &Input, outcome: &Outcome) -> bool {
    input.operation == UPDATE_RATE && outcome.number == 2
}

fn first(input: &Input) -> bool {
    !stored(input).there
}

/// Whether the interval is this one.
fn at(input: &Input, interval: i128) -> bool {
    passed(input) == Some(interval)
}

/// The interval whatever the flag says, unless the clock goes back.
fn apart(input: &Input) -> Option<u64> {
    time(input).checked_sub(stored(input).time)
}

/// The interval that a clock of so many bits sees, which begins anew behind its last time.
fn seen(input: &Input, bits: u32) -> u64 {
    let passed = time(input).wrapping_sub(stored(input).time);
    passed & (u64::MAX >> (64 - bits))
}

/// Whether a clock of so many bits begins anew between the two times.
fn over(input: &Input, bits: u32) -> bool {
    stored(input).time < 1 << bits && time(input) >= 1 << bits
}

/// Whether there is no interval above the range of `update_rate`.
fn short(input: &Input) -> bool {
    passed(input).is_none_or(|passed| passed <= LONGEST)
}

fn fewer(input: &Input) -> bool {
    input.words[0] < input.record.counts[LAST_FIX_COUNT]
}

/// Whether the original was run on its own clock.
fn exact(input: &Input) -> bool {
    stored(input).exact(time(input)).is_some()
}

fn is_advance(input: &Input, outcome: &Outcome) -> bool {
    input.operation == ADVANCE_TIME && outcome.number == 0 && input.record.counts[VALID] != 0
}

fn usable(milliseconds: u64) -> bool {
    20 < milliseconds && milliseconds < 500
}

fn soon(input: &Input) -> bool {
    apart(input).is_some_and(usable)
}

fn answers_at_end(input: &Input, outcome: &Outcome) -> bool {
    answers(input, outcome) && outcome.record.numbers[ACCEL_LON].abs() == 1e9
}

fn advances_to_end(input: &Input, outcome: &Outcome) -> bool {
    is_advance(input, outcome) && outcome.record.numbers[TIME_SINCE_FIX] == 0.5
}

/// From the first time to the last one.
const ALL: i128 = u64::MAX as i128;

pub const LEARNS: &[Branch] = &[
    (c"an acceleration", answers),
    (c"nothing: no previous fix", |input, outcome| {
        nothing(input, outcome) && first(input)
    }),
    (c"nothing: interval up to 20 ms", |input, outcome| {
        nothing(input, outcome) && passed(input).is_some_and(|passed| passed <= 20)
    }),
    (c"nothing: interval from 500 ms", |input, outcome| {
        nothing(input, outcome) && passed(input).is_some_and(|passed| passed >= 500)
    }),
    (c"rate: first", |input, outcome| {
        rate(input, outcome) && first(input)
    }),
    (c"rate: acts", acts),
    (c"rate: waits", waits),
    (c"advance: no longer valid", |input, outcome| {
        is_advance(input, outcome) && outcome.record.counts[VALID] == 0
    }),
    (c"an acceleration, by the Rust's clock", |input, outcome| {
        answers(input, outcome) && exact(input)
    }),
    (c"rate: acts, by the Rust's clock", |input, outcome| {
        acts(input, outcome) && exact(input)
    }),
];

/// A branch for each line: its name, what the call does, and what it is given.
macro_rules! edges {
    ($input:ident: $($name:literal $does:ident if $given:expr;)*) => {
        &[$(($name, |$input, outcome| $does($input, outcome) && $given)),*]
    };
}

pub const EDGES: &[Branch] = edges! { input:
    c"nothing: no previous fix, time 0" nothing if first(input) && time(input) == 0;
    c"nothing: no previous fix, 21 to 499 ms" nothing if first(input) && soon(input);
    c"nothing: 20 ms" nothing if at(input, 20);
    c"an acceleration: 21 ms" answers if at(input, 21);
    c"an acceleration: 499 ms" answers if at(input, 499);
    c"nothing: 500 ms" nothing if at(input, 500);
    c"nothing: the clock stands still" nothing if at(input, 0);
    c"nothing: the clock goes back by 1 ms" nothing if at(input, -1);
    c"nothing: the clock goes back by all bits" nothing if at(input, -ALL);
    c"nothing: the clock goes on by all bits" nothing if at(input, ALL);
    c"nothing: 21 to 499 ms over the last time" nothing if !first(input) && usable(seen(input, 64));
    c"nothing: 21 to 499 ms in the low word" nothing if !short(input) && usable(seen(input, 32));
    c"an acceleration: previous fix at time 0" answers if stored(input).time == 0;
    c"an acceleration: over 2^32 ms" answers if over(input, 32);
    c"an acceleration: over 2^63 ms" answers if over(input, 63);
    c"an acceleration: 375 ms, by the Rust's clock" answers if exact(input) && at(input, 375);
    c"nothing: 500 ms, by the Rust's clock" nothing if exact(input) && at(input, 500);
    c"an acceleration: a flag other than 1" answers if input.record.counts[PREV_FIX] != 1;
    c"an acceleration: at 1e9" answers_at_end if true;
    c"rate: first, time 0" rate if first(input) && time(input) == 0;
    c"rate: first, the last time" rate if first(input) && time(input) == u64::MAX;
    c"rate: first, above 16,777,216 ms" rate if first(input) && apart(input) > Some(LONGEST as u64);
    c"rate: waits, 999 ms" waits if at(input, 999);
    c"rate: acts, 1,000 ms" acts if at(input, 1_000);
    c"rate: acts, 16,777,216 ms" acts if at(input, LONGEST);
    c"rate: refused, 16,777,217 ms" refused if at(input, LONGEST + 1);
    c"rate: refused, the clock goes on by all bits" refused if at(input, ALL);
    c"rate: refused, 1,000 ms in the low word" refused if !short(input) && seen(input, 32) == 1_000;
    c"rate: refused, the record unsound too" refused if !sound::<Gps>(&input.record);
    c"rate: waits, the clock stands still" waits if at(input, 0);
    c"rate: waits, the clock goes back by 1 ms" waits if at(input, -1);
    c"rate: waits, the clock goes back by all bits" waits if at(input, -ALL);
    c"rate: waits, 1,000 ms over the last time" waits if seen(input, 64) == 1_000;
    c"rate: acts, last at time 0" acts if stored(input).time == 0;
    c"rate: acts, over 2^32 ms" acts if over(input, 32);
    c"rate: acts, over 2^63 ms" acts if over(input, 63);
    c"rate: waits, 875 ms, by the Rust's clock" waits if exact(input) && at(input, 875);
    c"rate: acts, 1,000 ms, by the Rust's clock" acts if exact(input) && at(input, 1_000);
    c"rate: acts, a flag other than 1" acts if input.record.counts[LAST_RATE] != 1;
    c"rate: acts, fewer fixes than before" acts if fewer(input);
    c"rate: acts, 16,777,216 fixes" acts if fixes(input) == END;
    c"rate: refused, 16,777,217 fixes" refused if fixes(input) == END + 1 && short(input);
    c"rate: waits, 16,777,217 fixes" waits if fixes(input) == END + 1;
    c"advance: valid at 0.5" advances_to_end if true;
};
