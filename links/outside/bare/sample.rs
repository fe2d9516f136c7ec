//! The other program of ../rust without Rust's std, built as listing.rs is.
#![no_std]

extern crate self as track;

#[allow(dead_code)]
mod module;
#[path = "../rust/src/written.rs"]
mod written;

use core::ffi::c_int;
use module::*;

unsafe extern "C" {
    fn abort() -> !;
    fn putchar(byte: c_int) -> c_int;
}

#[unsafe(no_mangle)]
pub extern "C" fn main() -> c_int {
    match written::sample(&mut [0; 64]) {
        Ok(log) => {
            for &byte in log {
                unsafe { putchar(c_int::from(byte)) };
            }
            0
        }
        Err(_) => 1,
    }
}

#[panic_handler]
fn stop(_: &core::panic::PanicInfo) -> ! {
    unsafe { abort() }
}
