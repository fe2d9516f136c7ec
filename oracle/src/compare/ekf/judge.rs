//! What the original gives, by the scope paper's refusals and its two added rules, and by the run of position
//! rejections beside it.

use super::filter::*;
use super::lockout;
use super::scope::*;
use super::turn;
use crate::compare::component::*;
use crate::ekf::{Ekf, UpdateResult};
use crate::{noted, noting};

/// What a call gives: a number, and with number 0 the answer and the next filter.
pub struct Outcome {
    pub number: u32,
    pub answer: Answer,
    pub filter: Filter,
    /// What a call that gives 6 would have stored.
    pub unsound: Option<Filter>,
}

/// The edition of the turn rule is `predict`'s alone.
pub fn judge(operation: u32, edition: u32, before: &Filter, arguments: &[f32; 4]) -> Outcome {
    let mut outcome = Outcome {
        number: refusal(operation, edition, before, arguments),
        answer: NOTHING,
        filter: *before,
        unsound: None,
    };
    if outcome.number != 0 {
        return outcome;
    }
    let (known, mut ekf) = (&OPERATIONS[operation as usize], before.build());
    if known.kind == Kind::Reader {
        outcome.answer = (known.shows)(&ekf);
        return outcome;
    }
    let verdict = verdict(&mut ekf, operation, edition, arguments);
    let mut next = Filter::of(&ekf);
    if verdict != DONE {
        let value = gate_value(operation, before, arguments, (verdict, &next));
        outcome.answer = gated(verdict, value);
    }
    if known.kind != Kind::Making {
        if operation != RESET_GATE_STATS {
            add_rules(before, &mut next);
        }
        let fix = (operation == UPDATE_POSITION).then_some(verdict);
        lockout::follow(before, fix, &mut next);
    }
    if sound(&known.looks, &next) {
        outcome.filter = next;
    } else {
        outcome.number = 6;
        outcome.unsound = Some(next);
    }
    outcome
}

/// The lowest of the numbers 1 to 4 that applies, or 0; an operation that is unknown gives 2.
fn refusal(operation: u32, edition: u32, filter: &Filter, arguments: &[f32; 4]) -> u32 {
    let Some(operation) = OPERATIONS.get(operation as usize) else {
        return 2;
    };
    let reasons = reasons(operation, edition, filter, arguments);
    match reasons.iter().position(|&applies| applies) {
        Some(place) => place as u32 + 1,
        None => 0,
    }
}

/// The verdict of the original, which changes the filter.
fn verdict(ekf: &mut Ekf, operation: u32, edition: u32, arguments: &[f32; 4]) -> u32 {
    let &[a, b, ..] = arguments;
    match operation {
        NEW => *ekf = Ekf::new(),
        WITH_CONFIG => *ekf = Ekf::with_config(ekf.config),
        PREDICT => turn::predict(ekf, edition, arguments),
        UPDATE_POSITION => return number(ekf.update_position(a, b)),
        LOCK_POSITION => ekf.lock_position(),
        SKIP_PREDICTION => ekf.skip_prediction(),
        RESET_NIS_STATS => ekf.reset_nis_stats(),
        UPDATE_VELOCITY => ekf.update_velocity(a, b),
        UPDATE_SPEED => ekf.update_speed(a),
        ZUPT => ekf.zupt(),
        UPDATE_YAW => return number(ekf.update_yaw(a)),
        UPDATE_YAW_SOFT => return number(ekf.update_yaw_soft(a, b)),
        LOCK_YAW => ekf.lock_yaw(),
        12 => ekf.store_moving_yaw(a),
        UPDATE_BIAS => ekf.update_bias(a, b),
        _ => ekf.reset_gate_stats(),
    }
    DONE
}

fn number(result: UpdateResult) -> u32 {
    match result {
        UpdateResult::Accepted => ACCEPTED,
        UpdateResult::Rejected => REJECTED,
    }
}

/// The gate value of a gated call, by the copy of the original that notes it. That has to come to the
/// same verdict and the same filter.
fn gate_value(
    operation: u32,
    before: &Filter,
    &[a, b, ..]: &[f32; 4],
    (verdict, next): (u32, &Filter),
) -> f32 {
    let mut ekf = noting::Ekf::from(before);
    let result = match operation {
        UPDATE_POSITION => ekf.update_position(a, b),
        UPDATE_YAW => ekf.update_yaw(a),
        _ => ekf.update_yaw_soft(a, b),
    };
    assert!((result == noting::UpdateResult::Accepted) == (verdict == ACCEPTED));
    assert!(next.is(&Filter::from(&ekf)));
    noted::take()
}

/// Tallies stop at the last `u32`, where the original's wrap to 0. At the end of the NIS count an
/// accepted fix leaves sum and count as they are.
fn add_rules(before: &Filter, next: &mut Filter) {
    for tally in 0..TALLIES {
        if before.counts[tally] == u32::MAX {
            next.counts[tally] = u32::MAX;
        }
    }
    if next.counts[NIS_COUNT] > NIS_END && before.counts[NIS_COUNT] == NIS_END {
        next.counts[NIS_COUNT] = NIS_END;
        next.numbers[NIS_SUM] = before.numbers[NIS_SUM];
    }
}
