//! How often the judge gave what, and how often it has to.

use super::aims::gate;
use super::editions::Editions;
use super::filter::*;
use super::inputs::Input;
use super::judge::Outcome;
use super::runs::Runs;
use super::scope::*;
use crate::compare::component::{Kind, ABSENT, ACCEPTED, REJECTED};
use crate::compare::libc::printf;
use crate::compare::ranges::place;
use crate::compare::run::{has_payload, Run};
use core::f32::consts::PI;
use core::ffi::CStr;

/// The calls of one gate by verdict: accepted, rejected.
#[derive(Default)]
struct Gate {
    all: [u64; 2],
    /// Within 4 units in the last place of the limit.
    near: [u64; 2],
    at_limit: u64,
    zero: u64,
    /// Those whose value tells each of `SLIPS`.
    told: [u64; SLIPS.len()],
}

/// A way to take another value than the one that was compared, and the calls that it is for.
struct Slip {
    name: &'static CStr,
    calls: &'static [u32],
    /// Of the operation, the filter before and after it, and the arguments.
    value: fn(u32, [&Filter; 2], &[f32; 4]) -> Option<(f32, f32)>,
}

const SLIPS: [Slip; 4] = [
    Slip {
        name: c"  another after the update",
        calls: &[UPDATE_POSITION, UPDATE_YAW, UPDATE_YAW_SOFT],
        value: |operation, [_, after], arguments| gate(operation, after, arguments),
    },
    Slip {
        name: c"  another of x alone",
        calls: &[UPDATE_POSITION],
        value: |operation, [before, _], &[x, ..]| {
            gate(operation, before, &[x, before.numbers[X + 1], 0.0, 0.0])
        },
    },
    Slip {
        name: c"  another of y alone",
        calls: &[UPDATE_POSITION],
        value: |operation, [before, _], &[_, y, ..]| {
            gate(operation, before, &[before.numbers[X], y, 0.0, 0.0])
        },
    },
    Slip {
        name: c"  another without the factor",
        calls: &[UPDATE_YAW_SOFT],
        value: |_, [before, _], arguments| gate(UPDATE_YAW, before, arguments),
    },
];

#[derive(Default)]
pub struct Counts {
    /// By operation (the last one is the unknown) and number.
    numbers: [[u64; 7]; OPERATIONS.len() + 1],
    several_reasons: u64,
    position: Gate,
    yaw: Gate,
    soft_yaw: Gate,
    /// By `predict`, and by an update.
    yaw_wrapped: [u64; 2],
    tally_at_end: u64,
    nis_at_end: u64,
    predictions: Editions,
    runs: Runs,
    /// Speeds below, at and above 0.3.
    speeds: [u64; 3],
    negative_variance: u64,
    sigma_at_floor: u64,
    nis_inflated: u64,
    discrepancy_inflated: u64,
    average_without_fixes: u64,
    no_moving_yaw: u64,
    /// Calls that leave a NaN with a payload as it is: refused, of other channels, `reset_gate_stats`.
    payloads: [u64; 3],
}

impl Counts {
    pub fn call(&mut self, input: &Input, judged: &Outcome) {
        let (operation, before) = (input.operation, &input.filter);
        let row = (operation as usize).min(OPERATIONS.len());
        self.numbers[row][judged.number as usize] += 1;
        let known = OPERATIONS.get(row);
        self.runs.call(input, judged);
        if known.is_some_and(|known| known.kind == Kind::Reader) {
            return self.read(operation, before, judged);
        }
        if let (Some(known), 1..=4) = (known, judged.number) {
            let applying = reasons(known, input.edition, before, &input.arguments);
            self.several_reasons += (applying.iter().filter(|&&one| one).count() > 1) as u64;
        }
        if operation == PREDICT {
            self.predictions.call(input, judged);
        }
        if let Some(next) = &judged.unsound {
            let negative = next.numbers[P + 3] < 0.0 || next.numbers[P + 4] < 0.0;
            self.negative_variance += (operation == UPDATE_SPEED && negative) as u64;
        }
        if before.numbers.iter().any(|&number| has_payload(number)) {
            match (judged.number, operation) {
                (0, WITH_CONFIG | NEW) => {}
                (0, RESET_GATE_STATS) => self.payloads[2] += 1,
                (0, _) => self.payloads[1] += 1,
                _ => self.payloads[0] += 1,
            }
        }
        if judged.number == 0 {
            self.answered(input, judged);
        }
    }

    fn answered(&mut self, input: &Input, judged: &Outcome) {
        let (operation, before) = (input.operation, &input.filter);
        let accepted = judged.answer.kind == ACCEPTED;
        match operation {
            UPDATE_SPEED => {
                let z = input.arguments[0];
                self.speeds[(z >= 0.3) as usize + (z > 0.3) as usize] += 1;
            }
            UPDATE_POSITION => {
                self.position.count(input, judged);
                self.nis_at_end += (accepted && before.counts[NIS_COUNT] == NIS_END) as u64;
            }
            UPDATE_YAW => self.yaw.count(input, judged),
            UPDATE_YAW_SOFT => self.soft_yaw.count(input, judged),
            _ => {}
        }
        let moved = judged.filter.numbers[X + 2] - before.numbers[X + 2];
        if ![WITH_CONFIG, NEW].contains(&operation) && moved.abs() > PI {
            self.yaw_wrapped[(operation != PREDICT) as usize] += 1;
        }
        let raised = match operation {
            UPDATE_POSITION if accepted => 3,
            UPDATE_POSITION => 0,
            UPDATE_VELOCITY => 4,
            UPDATE_YAW | UPDATE_YAW_SOFT if accepted => 5,
            UPDATE_YAW | UPDATE_YAW_SOFT => 2,
            _ => return,
        };
        self.tally_at_end += (before.counts[raised] == u32::MAX) as u64;
    }

    fn read(&mut self, operation: u32, filter: &Filter, judged: &Outcome) {
        if judged.number != 0 {
            return;
        }
        if operation == GET_EFFECTIVE_POS_SIGMA {
            let ekf = filter.build();
            self.sigma_at_floor += (judged.answer.values[0] == Some(2.5)) as u64;
            self.nis_inflated += (ekf.get_nis_position_avg() > 2.0) as u64;
            self.discrepancy_inflated += (ekf.get_gps_discrepancy() > 5.0) as u64;
        }
        let no_fixes = filter.counts[NIS_COUNT] == 0;
        self.average_without_fixes += (operation == GET_NIS_POSITION_AVG && no_fixes) as u64;
        let nothing = judged.answer.kind == ABSENT;
        self.no_moving_yaw += (operation == GET_LAST_MOVING_YAW && nothing) as u64;
    }

    pub fn report(&self, run: &mut Run) {
        let many = run.many();
        each(run, &self.numbers);
        self.position
            .report(run, UPDATE_POSITION, c"position by verdict");
        self.yaw.report(run, UPDATE_YAW, c"yaw by verdict");
        self.soft_yaw
            .report(run, UPDATE_YAW_SOFT, c"soft yaw by verdict");
        run.expect(c"refusals with several reasons", self.several_reasons, many);
        let [predicted, updated] = self.yaw_wrapped;
        run.expect(c"predict: yaw wrapped", predicted, many / 50);
        run.expect(c"yaw updates: yaw wrapped again", updated, many / 10);
        run.expect(c"tallies that stop", self.tally_at_end, many / 10);
        run.expect(c"NIS that stands still", self.nis_at_end, many / 10);
        self.predictions.report(run);
        self.runs.report(run);
        run.expect(c"update_speed: below 0.3", self.speeds[0], many / 10);
        run.expect(c"update_speed: at 0.3", self.speeds[1], many / 50);
        run.expect(c"update_speed: above 0.3", self.speeds[2], many / 10);
        run.expect(
            c"update_speed: negative variance",
            self.negative_variance,
            many / 200,
        );
        run.expect(c"sigma at its floor", self.sigma_at_floor, many / 10);
        run.expect(c"sigma with the NIS above 2", self.nis_inflated, many / 10);
        run.expect(
            c"sigma with a discrepancy above 5",
            self.discrepancy_inflated,
            many / 10,
        );
        run.expect(
            c"average without fixes",
            self.average_without_fixes,
            many / 50,
        );
        run.expect(c"no moving yaw to show", self.no_moving_yaw, many / 10);
        self.report_payloads(run);
    }

    fn report_payloads(&self, run: &mut Run) {
        let (many, [refused, other, reset]) = (run.many(), self.payloads);
        run.expect(c"NaN kept with its payload: refused", refused, many);
        run.expect(c"NaN kept: of another channel", other, many / 10);
        run.expect(c"NaN kept: reset_gate_stats", reset, many / 100);
    }
}

/// How often each operation gave each number that it can give. Any other one is a difference.
fn each(run: &mut Run, counts: &[[u64; 7]]) {
    let least = run.many() / 100;
    for (operation, row) in OPERATIONS.iter().zip(counts) {
        let can = |number: &u32| match number {
            0 => true,
            1 | 2 => !operation.arguments.is_empty(),
            3 => !operation.looks.configuration.is_empty(),
            4 => !operation.looks.state.is_empty(),
            6 => operation.overflows,
            _ => false,
        };
        let count = |number: u32| (number, row[number as usize]);
        run.expect_each(operation.name, (0..7).filter(can).map(count), least);
        for (number, count) in (0..7).filter(|number| !can(number)).map(count) {
            if count > 0 && run.differs() {
                let name = operation.name.as_ptr();
                unsafe { printf(c"  DIFFERENT: %s gives %u\n".as_ptr(), name, number) };
            }
        }
    }
    run.expect_each(
        c"unknown operation",
        [(2, counts[OPERATIONS.len()][2])],
        least,
    );
}

impl Gate {
    fn count(&mut self, input: &Input, judged: &Outcome) {
        let (operation, before, arguments) = (input.operation, &input.filter, &input.arguments);
        let Some((value, limit)) = gate(operation, before, arguments) else {
            return;
        };
        let verdict = (judged.answer.kind == REJECTED) as usize;
        // our formula gives what the original notes; else `near` would count something else
        assert!(judged.answer.values[0].map(f32::to_bits) == Some(value.to_bits()));
        assert!((value > limit) == (verdict == 1));
        self.all[verdict] += 1;
        self.near[verdict] += ((place(value) - place(limit)).abs() <= 4) as u64;
        self.at_limit += (value == limit) as u64;
        self.zero += (value == 0.0) as u64;
        for (told, slip) in self.told.iter_mut().zip(SLIPS) {
            if slip.calls.contains(&operation) {
                let other = (slip.value)(operation, [before, &judged.filter], arguments);
                *told += (other != Some((value, limit))) as u64;
            }
        }
    }

    fn report(&self, run: &mut Run, operation: u32, name: &CStr) {
        let many = run.many();
        let verdicts =
            |[accepted, rejected]: [u64; 2]| [(ACCEPTED, accepted), (REJECTED, rejected)];
        run.expect_each(name, verdicts(self.all), many / 2);
        run.expect_each(c"  within 4 of the gate", verdicts(self.near), many / 20);
        run.expect_each(c"  at the gate", [(ACCEPTED, self.at_limit)], many / 200);
        run.expect_each(c"  a gate value of 0", [(ACCEPTED, self.zero)], many / 200);
        for (slip, told) in SLIPS.iter().zip(self.told) {
            if slip.calls.contains(&operation) {
                run.expect(slip.name, told, many / 2);
            }
        }
    }
}
