//! The book of one comparison: its calls, its differences and the counts that it has to reach.

use super::libc::printf;
use super::random::Random;
use core::ffi::CStr;

/// Differences beyond this many are counted only.
const SHOWN: u64 = 12;

pub struct Run {
    pub random: Random,
    name: &'static CStr,
    wanted: u64,
    calls: u64,
    differences: u64,
    short: u64,
    /// The least counts are at most this.
    most: u64,
}

impl Run {
    pub fn new(name: &'static CStr, wanted: u64, seed: u64) -> Self {
        Self {
            random: Random::new(seed),
            name,
            wanted,
            calls: 0,
            differences: 0,
            short: 0,
            most: u64::MAX,
        }
    }

    /// The book of a sample: each count has to be 1 at least.
    pub fn sampled(name: &'static CStr, seed: u64) -> Self {
        Self {
            most: 1,
            ..Self::new(name, 4_000_000, seed)
        }
    }

    /// How many random calls are wanted.
    pub fn wanted(&self) -> u64 {
        self.wanted
    }

    /// Counts one call of the archive.
    pub fn count_call(&mut self) {
        self.calls += 1;
    }

    /// Counts one difference; the answer is whether it should be shown.
    pub fn differs(&mut self) -> bool {
        self.differences += 1;
        self.differences <= SHOWN
    }

    /// What a class reaches that is not small: 100,000 of 4 million random calls.
    pub fn many(&self) -> u64 {
        self.wanted / 40
    }

    /// Prints a count, and fails the run if it is below the least.
    pub fn expect(&mut self, what: &CStr, count: u64, least: u64) {
        let least = least.min(self.most);
        let verdict = if count < least { c"TOO FEW" } else { c"" };
        self.short += (count < least) as u64;
        unsafe {
            printf(
                c"  %-52s %9llu  (at least %llu) %s\n".as_ptr(),
                what.as_ptr(),
                count,
                least,
                verdict.as_ptr(),
            );
        }
    }

    /// Prints how often an operation gave each number, and fails the run for each count below the
    /// least.
    pub fn expect_each(
        &mut self,
        operation: &CStr,
        numbers: impl IntoIterator<Item = (u32, u64)>,
        least: u64,
    ) {
        let least = least.min(self.most);
        unsafe { printf(c"  %-24s".as_ptr(), operation.as_ptr()) };
        let mut low = 0;
        for (number, count) in numbers {
            low += (count < least) as u64;
            unsafe { printf(c" %u: %llu ".as_ptr(), number, count) };
        }
        let verdict = if low > 0 { c"TOO FEW" } else { c"" };
        self.short += low;
        unsafe { printf(c" (at least %llu) %s\n".as_ptr(), least, verdict.as_ptr()) };
    }

    /// Prints the sum; the answer is whether all is well.
    pub fn finish(&self) -> bool {
        let good = self.differences == 0 && self.short == 0 && self.calls > 0;
        unsafe {
            printf(
                c"%s: %llu calls, %llu differences, %llu counts too low: %s\n".as_ptr(),
                self.name.as_ptr(),
                self.calls,
                self.differences,
                self.short,
                if good { c"equal" } else { c"FAILED" }.as_ptr(),
            );
        }
        good
    }
}

/// A NaN that no operation makes: its payload has to stay as it is.
pub fn has_payload(float: f32) -> bool {
    float.is_nan() && float.to_bits() & 0x003F_FFFF != 0
}

/// The same bits, or a NaN both: its sign and payload depend on the machine.
pub fn same(a: f32, b: f32) -> bool {
    a.to_bits() == b.to_bits() || (a.is_nan() && b.is_nan())
}
