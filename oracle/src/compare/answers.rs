//! Answers of the archive, for exact arithmetic elsewhere: reads `sin A`, `cos A`, `atan2 Y X`,
//! `table_sin A` and `table_cos A`, each argument as eight hexadecimal digits, and writes each line with
//! the answer behind it, a NaN where the call is refused.

use super::archive::track_trig;
use super::libc::{printf, scanf, strcmp};
use core::ffi::CStr;

/// By operation.
const NAMES: [&CStr; 5] = [c"sin", c"cos", c"atan2", c"table_sin", c"table_cos"];

pub unsafe fn answers() {
    let mut name = [0; 16];
    while scanf(c"%15s".as_ptr(), name.as_mut_ptr()) == 1 {
        let name = name.as_ptr();
        let known = |known: &&CStr| strcmp(name, known.as_ptr()) == 0;
        let Some(operation) = NAMES.iter().position(known) else {
            return;
        };
        let (mut a, mut b, mut answer) = (0u32, 0u32, 0.0);
        scanf(c"%x".as_ptr(), &mut a);
        if operation == 2 {
            scanf(c"%x".as_ptr(), &mut b);
        }
        let [first, second] = [a, b].map(f32::from_bits);
        let number = track_trig(operation as u32, first, second, &mut answer);
        if number != 0 {
            answer = f32::NAN;
        }
        printf(c"%s %08X ".as_ptr(), name, a);
        if operation == 2 {
            printf(c"%08X ".as_ptr(), b);
        }
        printf(c"%08X\n".as_ptr(), answer.to_bits());
    }
}
