//! How often a prediction came to what by each edition of the turn rule, and how often it has to.

use super::filter::{Filter, X};
use super::inputs::Input;
use super::judge::Outcome;
use super::scope::*;
use super::turn::{turns, FIRST, SECOND};
use crate::compare::run::Run;
use crate::compare::trig::terms;

#[derive(Default)]
pub struct Editions {
    /// Answered predictions, by edition.
    turning: [u64; 2],
    straight: [u64; 2],
    speed_at_least: [u64; 2],
    rate_at_least: [u64; 2],
    /// Turns whose product wz * dt is 0.5 in size, by edition.
    turn_at_end: [u64; 2],
    second: Second,
    /// Refused for the edition alone, and where it is not alone, by the lowest of the other reasons.
    refused: u64,
    refused_also: [u64; 4],
    /// By edition 2: 6 where edition 1 answers, and answered where edition 1 gives 6.
    outgrown: [u64; 2],
}

/// Turns by edition 2.
#[derive(Default)]
struct Second {
    /// By the sign of wz, by how far the sums of sine and cosine go, and by the heading: 0, below 0.001
    /// in size, below 1 and above it.
    signs: [u64; 2],
    terms: [u64; 4],
    headings: [u64; 4],
    /// Where edition 1 comes to another position, and where it moves to the same from a heading of +0.
    another: u64,
    same: u64,
    /// With a turn of -0 from a heading of +0.
    by_nothing: u64,
}

impl Editions {
    pub fn call(&mut self, input: &Input, judged: &Outcome) {
        let edition = input.edition;
        if ![FIRST, SECOND].contains(&edition) {
            return self.refused(input);
        }
        if edition == SECOND {
            let first = input.by(FIRST).judged().number;
            self.outgrown[0] += (judged.number == 6 && first == 0) as u64;
            self.outgrown[1] += (judged.number == 0 && first == 6) as u64;
        }
        if judged.number == 0 {
            self.answered(input, judged, (edition - FIRST) as usize);
        }
    }

    fn refused(&mut self, input: &Input) {
        let known = &OPERATIONS[PREDICT as usize];
        let others = reasons(known, FIRST, &input.filter, &input.arguments);
        match others.iter().position(|&applies| applies) {
            None => self.refused += 1,
            Some(lowest) => self.refused_also[lowest] += 1,
        }
    }

    fn answered(&mut self, input: &Input, judged: &Outcome, edition: usize) {
        let (ekf, [_, _, wz, dt]) = (input.filter.build(), input.arguments);
        let (speed, least, rate) = (ekf.speed(), ekf.config.min_speed, wz.abs());
        self.speed_at_least[edition] += (rate > 1e-4 && speed == least) as u64;
        self.rate_at_least[edition] += (speed > least && rate == 1e-4) as u64;
        if !turns(&ekf, wz) {
            self.straight[edition] += 1;
            return;
        }
        self.turning[edition] += 1;
        self.turn_at_end[edition] += ((wz * dt).abs() == TURN.high) as u64;
        if input.edition == SECOND {
            self.second.turned(input, judged);
        }
    }

    pub fn report(&self, run: &mut Run) {
        let many = run.many();
        let both = |[first, second]: [u64; 2]| [(FIRST, first), (SECOND, second)];
        run.expect_each(c"turning, by edition", both(self.turning), many / 4);
        run.expect_each(c"straight, by edition", both(self.straight), many / 4);
        run.expect_each(c"turns at min_speed", both(self.speed_at_least), many / 20);
        run.expect_each(c"fast, |wz| at 1e-4", both(self.rate_at_least), many / 200);
        run.expect_each(c"turns, |wz dt| at 0.5", both(self.turn_at_end), many / 100);
        self.second.report(run);
        run.expect(
            c"predict: refused for its edition alone",
            self.refused,
            many / 20,
        );
        let also = (1..).zip(self.refused_also);
        run.expect_each(c"  and not for it alone", also, many / 200);
        let [second, first] = self.outgrown;
        run.expect(c"predict: 6 by edition 2 alone", second, many / 100);
        run.expect(c"predict: 6 by edition 1 alone", first, many / 100);
    }
}

impl Second {
    fn turned(&mut self, input: &Input, judged: &Outcome) {
        let (heading, [_, _, wz, dt]) = (input.filter.numbers[X + 2], input.arguments);
        self.signs[(wz < 0.0) as usize] += 1;
        self.terms[terms(wz * dt)] += 1;
        let size = heading.abs();
        let sizes = [size > 0.0, size >= 0.001, size >= 1.0];
        self.headings[sizes.iter().filter(|&&reached| reached).count()] += 1;
        let first = input.by(FIRST).judged();
        let first = first.unsound.unwrap_or(first.filter);
        let position = |filter: &Filter| [0, 1].map(|axis| filter.numbers[X + axis].to_bits());
        let same = position(&first) == position(&judged.filter);
        self.another += !same as u64;
        if heading.to_bits() == 0 {
            // there the request's rule is the original's; a turn of 0 may leave a zero of another sign
            assert!(same || wz * dt == 0.0);
            let moved = position(&input.filter) != position(&judged.filter);
            self.same += (same && moved) as u64;
            self.by_nothing += ((wz * dt).to_bits() == (-0.0f32).to_bits()) as u64;
        }
    }

    fn report(&self, run: &mut Run) {
        let many = run.many();
        let [left, right] = self.signs;
        run.expect(c"edition 2: turns with wz above 0", left, many / 10);
        run.expect(c"edition 2: turns with wz below 0", right, many / 10);
        run.expect_each(c"  by terms of the sums", (0..).zip(self.terms), many / 50);
        run.expect_each(c"  by heading", (0..).zip(self.headings), many / 50);
        run.expect(
            c"edition 2: another position than edition 1",
            self.another,
            many / 10,
        );
        run.expect(
            c"edition 2: moves to the same bits at heading +0",
            self.same,
            many / 200,
        );
        run.expect(
            c"edition 2: turns of -0 at heading +0",
            self.by_nothing,
            many / 1000,
        );
    }
}
