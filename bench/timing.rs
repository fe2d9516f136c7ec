//! The clock, one line for each pair of times, and inputs.

use std::time::Instant;

const ROUNDS: usize = 31;

pub fn head() {
    println!("{:<62} {:>28}   {:>28}", "", "one in a tight loop", "64 in turn, where shown");
    print!("{:<62}", "");
    for space in [" ", "   "] {
        print!("{space}{:>10} {:>10} {:>6}", "this", "other", "ratio");
    }
    println!();
}

/// Work of so many operations, and the same work by the other side.
pub struct Pair<'a> {
    pub operations: usize,
    pub this: &'a dyn Fn(),
    pub other: &'a dyn Fn(),
}

/// Prints one row: of each pair both times for one operation, and their ratio.
pub fn row(name: &str, pairs: &[Pair]) {
    let columns: Vec<String> = pairs.iter().map(Pair::times).collect();
    println!("{name:<62} {}", columns.join("   "));
}

/// A row of one pair.
pub fn pair(name: &str, operations: usize, this: impl Fn(), other: impl Fn()) {
    row(name, &[Pair { operations, this: &this, other: &other }]);
}

impl Pair<'_> {
    fn times(&self) -> String {
        let (mut mine, mut theirs) = (f64::INFINITY, f64::INFINITY);
        for _ in 0..ROUNDS {
            mine = mine.min(nanoseconds(self.this) / self.operations as f64);
            theirs = theirs.min(nanoseconds(self.other) / self.operations as f64);
        }
        format!("{mine:>7.2} ns {theirs:>7.2} ns {:>6.2}", mine / theirs)
    }
}

fn nanoseconds(work: &dyn Fn()) -> f64 {
    let start = Instant::now();
    work();
    start.elapsed().as_secs_f64() * 1e9
}

/// The arguments of a call, and zeros behind them.
pub fn given(arguments: &[f32]) -> [f32; 6] {
    let mut all = [0.0; 6];
    all[..arguments.len()].copy_from_slice(arguments);
    all
}

/// Repeatable random numbers: xorshift.
pub struct Random(pub u64);

impl Random {
    pub fn bits(&mut self) -> u64 {
        self.0 ^= self.0 << 13;
        self.0 ^= self.0 >> 7;
        self.0 ^= self.0 << 17;
        self.0
    }

    /// From `low` to `high`.
    pub fn between(&mut self, low: f32, high: f32) -> f32 {
        low + (high - low) * (self.bits() >> 40) as f32 / (1u32 << 24) as f32
    }
}
