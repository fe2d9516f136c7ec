//! The worked example without Rust's std, for a machine whose Rust has none for x86-64. The module is a
//! part of it here, and the example finds it under the package's name.
#![no_std]

extern crate self as track;

#[path = "examples/settled/cases.rs"]
mod cases;
#[path = "src/track.rs"]
#[allow(dead_code)]
mod module;

use cases::Wrong;
use core::ffi::{c_char, c_int};
use module::*;

unsafe extern "C" {
    fn abort() -> !;
    fn printf(format: *const c_char, ...) -> c_int;
}

#[unsafe(no_mangle)]
pub extern "C" fn main() -> c_int {
    let (format, case) = match cases::cases() {
        Ok(()) => (
            c"K1 to K4, K6, K9 to K12, the editions, the times, the logs and the summaries are as the papers say\n",
            "",
        ),
        Err(Wrong(case)) => (c"otherwise than the papers say: %.*s\n", case),
    };
    unsafe { printf(format.as_ptr(), case.len() as c_int, case.as_ptr()) };
    !case.is_empty() as c_int
}

#[panic_handler]
fn stop(_: &core::panic::PanicInfo) -> ! {
    unsafe { abort() }
}
