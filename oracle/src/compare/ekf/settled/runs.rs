//! The run of position rejections, settled on paper: with gate values in exact arithmetic.

use super::*;

/// A fix that the gate rejects: the run before it, and the run and the variances after it. Nothing else
/// changes but the tally.
const fn locked_out(
    but: &'static [(usize, f32)],
    fix: [f32; 4],
    gate_value: u32,
    runs: [u32; 2],
    after: &'static [(usize, f32)],
) -> Settled {
    Settled {
        operation: UPDATE_POSITION,
        but,
        arguments: fix,
        gives: rejected(gate_value),
        after,
        tallies: &[0],
        runs,
        only: true,
        ..BLANK
    }
}

/// K1 in a run.
const fn taken(run: u32) -> Settled {
    Settled {
        operation: UPDATE_POSITION,
        but: &[(R_POS, 100.0)],
        arguments: two(80.0, 0.0),
        gives: accepted(0x4200_0000),
        after: &[(X, 40.0), (P, 50.0), (P + 1, 50.0), (NIS_SUM, 32.0)],
        runs: [run, 0],
        ..BLANK
    }
}

/// A call that is done and keeps the run; of what else it does the judge says the most.
const fn keeps(operation: u32, run: u32, after: &'static [(usize, f32)]) -> Settled {
    Settled {
        operation,
        after,
        runs: [run, run],
        ..BLANK
    }
}

/// A call that is refused with a run.
const fn refused_in(
    run: u32,
    operation: u32,
    but: &'static [(usize, f32)],
    first: f32,
    number: u32,
) -> Settled {
    Settled {
        operation,
        but,
        arguments: two(first, 0.0),
        gives: refused(number),
        runs: [run, run],
        ..BLANK
    }
}

const K2: &[(usize, f32)] = &[(R_POS, 100.0)];
const BELOW: f32 = bits(0x42C7_FFFF);
const ABOVE: f32 = bits(0x42C8_0001);

#[rustfmt::skip]
pub const RUNS: [Settled; 29] = [
    // K2 as the seventh and as the eighth rejection in a row, whose variances are 100 already
    locked_out(K2, two(80.0, 1.0), 0x4200_051F, [6, 7], &[]),
    locked_out(K2, two(80.0, 1.0), 0x4200_051F, [7, 0], &[]),
    // a position that is locked, and a fix 40 m from it, which is within the gate of the variances that are left
    locked_out(&[(P, 1.0), (P + 1, 1.0)], two(40.0, 0.0), 0x4298_6186, [6, 7], &[]),
    locked_out(&[(P, 1.0), (P + 1, 1.0)], two(40.0, 0.0), 0x4298_6186, [7, 0], &[(P, 100.0), (P + 1, 100.0)]),
    // each axis by itself
    locked_out(&[(P, 4.0), (P + 1, 400.0)], two(0.0, 120.0), 0x4209_2492, [7, 0], &[(P, 100.0)]),
    locked_out(&[(P, 400.0), (P + 1, 4.0)], two(120.0, 0.0), 0x4209_2492, [7, 0], &[(P + 1, 100.0)]),
    // beside 100
    locked_out(&[(R_POS, 100.0), (P, BELOW), (P + 1, ABOVE)], two(80.0, 80.0), 0x4280_0000, [7, 0], &[(P, 100.0)]),
    locked_out(&[(R_POS, 100.0), (P, ABOVE), (P + 1, BELOW)], two(80.0, 80.0), 0x4280_0000, [7, 0], &[(P + 1, 100.0)]),
    // an accepted fix ends a run, the longest too
    taken(5),
    taken(7),
    // what keeps it
    keeps(LOCK_POSITION, 5, &[(P, 1.0), (P + 1, 1.0)]),
    keeps(SKIP_PREDICTION, 5, &[]),
    keeps(RESET_NIS_STATS, 5, &[]),
    keeps(PREDICT, 5, &[]),
    keeps(RESET_GATE_STATS, 5, &[]),
    keeps(RESET_GATE_STATS, u32::MAX, &[]),
    // other channels do not look at it
    keeps(ZUPT, 8, &[(P + 3, 2.0), (P + 4, 2.0)]),
    keeps(LOCK_YAW, u32::MAX, &[(P + 2, 0.001)]),
    Settled { gives: accepted(0), ..keeps(UPDATE_YAW, 8, &[]) },
    keeps(UPDATE_BIAS, 8, &[]),
    // what is made begins without one
    Settled { operation: NEW, runs: [8, 0], ..BLANK },
    Settled { operation: WITH_CONFIG, runs: [8, 0], ..BLANK },
    // a run above 7
    refused_in(8, UPDATE_POSITION, &[], 0.0, 4),
    refused_in(8, PREDICT, &[], 0.0, 4),
    refused_in(8, GET_NIS_POSITION_AVG, &[], 0.0, 4),
    // behind all other reasons
    refused_in(8, UPDATE_POSITION, &[(R_POS, 0.0)], 0.0, 3),
    // a refused fix does not count
    refused_in(7, UPDATE_POSITION, &[(P, 1.0)], f32::NAN, 1),
    refused_in(7, UPDATE_POSITION, &[(P, 1.0)], 1.1e7, 2),
    refused_in(7, UPDATE_POSITION, &[(X + 1, f32::NAN)], 40.0, 4),
];
