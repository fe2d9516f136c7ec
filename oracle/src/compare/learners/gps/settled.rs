//! Cases that the change request and the scope paper settle; what is not exact there is in bits, by
//! exact arithmetic.

use super::*;
use crate::compare::component::{only, ABSENT};

const ABSENCE: Answer = only(ABSENT);
const LAST: u64 = u64::MAX;
const WORD: u64 = 1 << 32;
const HALF: u64 = 1 << 63;

const fn fix(speed: f32, time: u64, gives: Answer) -> Settled {
    Settled {
        operation: UPDATE,
        arguments: [speed, 0.0, 0.0, 0.0, 0.0, 0.0],
        words: fix_words(time),
        gives: (0, gives),
        ..CASE
    }
}

/// With no previous fix, but its time in the record.
const fn first_fix(speed: f32, time: u64) -> Settled {
    Settled {
        counts: &[(PREV_FIX, 0)],
        ..fix(speed, time, ABSENCE)
    }
}

const fn count(fix_count: u32, time: u64) -> Settled {
    Settled {
        operation: UPDATE_RATE,
        words: rate_words(fix_count, time),
        ..CASE
    }
}

/// With no rate yet, but its time in the record.
const fn first_count(fix_count: u32, time: u64) -> Settled {
    Settled {
        numbers: &[(GPS_RATE, 0.0), (RATE_EMA, 0.0)],
        counts: &[(LAST_RATE, 0)],
        ..count(fix_count, time)
    }
}

const fn rate(rate: f32) -> Settled {
    Settled {
        operation: GET_RATE,
        gives: (0, value(rate)),
        ..CASE
    }
}

const fn refused(number: u32, case: Settled) -> Settled {
    Settled {
        gives: (number, NOTHING),
        ..case
    }
}

pub const SETTLED: &[Settled] = &[
    // K10
    CASE,
    fix(10.0, 1_000, ABSENCE),
    fix(12.0, 1_250, value(8.0)),
    // K11
    CASE,
    fix(10.0, 1_000, ABSENCE),
    fix(12.0, 1_500, ABSENCE),
    fix(13.0, 1_750, value(4.0)),
    // a first fix gives nothing, and a first count no rate, however soon
    CASE,
    fix(10.0, 250, ABSENCE),
    count(5, 2_000),
    rate(0.0),
    // a first fix at time 0 counts
    CASE,
    fix(10.0, 0, ABSENCE),
    fix(12.0, 250, value(8.0)),
    // strictly between 20 and 500 ms; at 29 ms a product with 0.001 in place of the divisor, or a
    // speed times 1000 over 29, gives another float
    first_fix(10.0, 1_000),
    fix(11.0, 1_020, ABSENCE),
    fix(12.0, 1_041, value(f32::from_bits(0x423E_79E8))),
    fix(13.0, 1_540, value(f32::from_bits(0x4000_41AB))),
    fix(14.0, 2_040, ABSENCE),
    fix(15.0, 2_069, value(f32::from_bits(0x4209_EE59))),
    // a clock that stands still or goes back gives nothing and is stored
    fix(16.0, 2_069, ABSENCE),
    fix(18.0, 2_319, value(8.0)),
    fix(20.0, 2_318, ABSENCE),
    fix(22.0, 2_568, value(8.0)),
    fix(24.0, 1_000, ABSENCE),
    fix(26.0, 1_250, value(8.0)),
    // any 64 bits are a time
    first_fix(10.0, LAST),
    fix(12.0, 0, ABSENCE),
    fix(14.0, LAST, ABSENCE),
    fix(16.0, 249, ABSENCE),
    fix(18.0, 499, value(8.0)),
    // the interval is the whole difference
    first_fix(10.0, WORD - 125),
    fix(12.0, WORD + 125, value(8.0)),
    fix(14.0, 2 * WORD + 375, ABSENCE),
    first_fix(10.0, HALF - 125),
    fix(12.0, HALF + 125, value(8.0)),
    first_fix(10.0, (1 << 53) + 1),
    fix(12.0, (1 << 53) + 251, value(8.0)),
    // a 5 Hz receiver after 131,072 s
    first_fix(10.0, 131_072_200),
    fix(12.0, 131_072_400, value(10.0)),
    fix(14.0, 131_072_600, value(10.0)),
    // a flag is true where its word is not 0
    Settled {
        counts: &[(PREV_FIX, 1 << 31)],
        ..fix(16.0, 131_072_850, value(8.0))
    },
    // 1, 2 and 4 in their order
    Settled {
        numbers: &[(GPS_RATE, f32::NAN)],
        ..refused(1, fix(f32::NAN, 131_073_000, ABSENCE))
    },
    refused(2, fix(10_001.0, 131_073_000, ABSENCE)),
    refused(4, fix(18.0, 131_073_000, ABSENCE)),
    // one float above 0.5 s the acceleration is too old; every flag is written as 0 or 1
    Settled {
        operation: ADVANCE_TIME,
        numbers: &[(GPS_RATE, 0.0), (TIME_SINCE_FIX, 0.500_000_06)],
        counts: &[(VALID, 2), (PREV_FIX, 2), (LAST_RATE, 2)],
        ..CASE
    },
    // a first rate at time 0 counts
    CASE,
    count(5, 0),
    count(6, 1_000),
    rate(0.3),
    // too soon at 999 ms, for too many fixes as well; it acts at 1,000
    first_count(0, 1_000),
    count(20_000_000, 1_999),
    count(2, 2_000),
    rate(0.6),
    // the divisor, by an interval at which these give another float too
    first_count(0, 1_000),
    count(1, 2_999),
    rate(f32::from_bits(0x3E19_AD46)),
    // a clock that goes back or stands still changes nothing
    first_count(0, HALF),
    count(9, 0),
    count(9, HALF - 1),
    count(9, HALF),
    count(1, HALF + 1_000),
    rate(0.3),
    // a first time is stored whatever it is
    first_count(0, LAST),
    count(0, 999),
    count(1, 1_999),
    rate(0.0),
    // above 16,777,216 ms or fixes it gives 2; the interval is compared whole, not as a float or its
    // low word
    first_count(0, 0),
    refused(2, count(16_777_216, 16_777_217)),
    refused(2, count(16_777_217, 16_777_216)),
    refused(2, count(1, WORD + 1_000)),
    refused(2, count(1, LAST)),
    count(16_777_216, 16_777_216),
    rate(300.0),
    // 2 is lower than 4, but not where it does not apply
    Settled {
        numbers: &[(RATE_EMA, f32::NAN)],
        ..refused(2, count(0, 33_554_433))
    },
    refused(2, count(40_000_000, 33_554_432)),
    refused(4, count(40_000_000, 16_777_216)),
    refused(4, count(0, 33_554_432)),
    // the difference of two words, and a flag that is not 1
    first_count(0, WORD - 500),
    Settled {
        counts: &[(LAST_RATE, 2)],
        ..count(1, WORD + 500)
    },
    rate(0.3),
];
