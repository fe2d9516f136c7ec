//! What the comparison takes from the C library.

use core::ffi::{c_char, c_int, c_void};

#[repr(C)]
pub struct Timespec {
    pub seconds: i64,
    pub nanoseconds: i64,
}

extern "C" {
    pub fn printf(format: *const c_char, ...) -> c_int;
    pub fn putchar(byte: c_int) -> c_int;
    pub fn scanf(format: *const c_char, ...) -> c_int;
    pub fn read(file: c_int, bytes: *mut c_void, count: usize) -> isize;
    pub fn fflush(stream: *mut c_void) -> c_int;
    pub fn strcmp(a: *const c_char, b: *const c_char) -> c_int;
    pub fn strtoull(text: *const c_char, end: *mut *mut c_char, base: c_int) -> u64;
    pub fn clock_gettime(clock: c_int, time: *mut Timespec) -> c_int;
    pub fn abort() -> !;
}
