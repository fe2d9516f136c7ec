//! A program of ../rust without Rust's std, for a machine whose Rust has none for x86-64. The installed
//! module is copied beside it as module.rs, and the program finds it under the package's name.
#![no_std]

extern crate self as track;

#[allow(dead_code)]
mod module;
#[path = "../rust/src/records.rs"]
mod records;

use core::ffi::{CStr, c_char, c_int, c_uint, c_void};
use module::*;

unsafe extern "C" {
    fn abort() -> !;
    fn printf(format: *const c_char, ...) -> c_int;
    fn read(file: c_int, to: *mut c_void, length: usize) -> isize;
}

fn print_row(name: &CStr, numbers: [f32; 7]) {
    unsafe { printf(name.as_ptr()) };
    for number in numbers {
        unsafe { printf(c" %08X".as_ptr(), number.to_bits()) };
    }
    unsafe { printf(c"\n".as_ptr()) };
}

#[unsafe(no_mangle)]
pub extern "C" fn main() -> c_int {
    let mut log = [0u8; 4096];
    let length = unsafe { read(0, log.as_mut_ptr().cast(), log.len()) };
    let (replayer, stop) = records::replay(&log[..length as usize], |number, tag, given| {
        let (format, shown) = match given {
            Ok(UpdateResult::Accepted(value)) => (c"A %08X\n", value.to_bits()),
            Ok(UpdateResult::Rejected(value)) => (c"R %08X\n", value.to_bits()),
            Ok(_) => (c"D\n", 0),
            Err(refusal) => (c"%u\n", refusal.number()),
        };
        unsafe {
            printf(c"%u %u ".as_ptr(), number, c_uint::from(tag));
            printf(format.as_ptr(), shown);
        }
    });
    if let Some(stop) = stop {
        unsafe { printf(c"stop %u %u\n".as_ptr(), replayer.number, stop.number()) };
    }
    if replayer.number > 1 {
        print_row(c"x", replayer.filter.x);
        print_row(c"p", replayer.filter.p);
    }
    0
}

#[panic_handler]
fn stop(_: &core::panic::PanicInfo) -> ! {
    unsafe { abort() }
}
