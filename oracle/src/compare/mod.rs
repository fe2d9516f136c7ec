//! The proved archive beside the original Rust.
//!
//! `compare NAME [COUNT [SEED]]`: COUNT random calls after the chosen ones; 0 is the comparison's
//! own count. The exit status is 0 if nothing differs. `compare names` writes the names of all
//! comparisons instead, `compare answers` answers the inputs on standard input, `compare listing` writes the judge's listing of a log there,
//! `compare differences` what the archive gives where it differs from the Rust, `compare sample`
//! answers of the judge to be stored, `compare speed` times the listing, and `compare tunnel` tells after
//! how many fixes a car that is locked out is found again.

mod answer;
mod answers;
mod archive;
mod component;
mod differences;
mod ekf;
mod float;
mod floats;
mod learners;
mod lent;
mod libc;
mod log;
mod random;
mod ranges;
mod run;
mod sample;
mod summary;
mod trig;
mod write;

use core::ffi::{c_char, c_int, CStr};
use learners::{Aligner, Gps, LowPass, Orientation, Tilt, YawRate};
use libc::{fflush, printf, strcmp, strtoull};
use run::Run;
use sample::Shows;

/// A comparison: its name, how many random calls it makes unless told otherwise, and what it does.
struct Comparison {
    name: &'static CStr,
    calls: u64,
    body: fn(&mut Run),
}

const COMPARISONS: [Comparison; 14] = [
    Comparison {
        name: c"float",
        calls: 4_000_000,
        body: float::compare,
    },
    Comparison {
        name: c"trig",
        calls: 4_000_000,
        body: trig::compare,
    },
    Comparison {
        name: c"ekf",
        calls: 8_000_000,
        body: ekf::compare,
    },
    Comparison {
        name: c"lowpass",
        calls: 2_000_000,
        body: learners::compare::<LowPass>,
    },
    Comparison {
        name: c"orientation",
        calls: 2_000_000,
        body: learners::compare::<Orientation>,
    },
    Comparison {
        name: c"gps",
        calls: 2_000_000,
        body: learners::compare::<Gps>,
    },
    Comparison {
        name: c"tilt",
        calls: 2_000_000,
        body: learners::compare::<Tilt>,
    },
    Comparison {
        name: c"yawrate",
        calls: 1_000_000,
        body: learners::compare::<YawRate>,
    },
    Comparison {
        name: c"aligner",
        calls: 2_000_000,
        body: learners::compare::<Aligner>,
    },
    Comparison {
        name: c"blend",
        calls: 1_000_000,
        body: learners::blend::compare,
    },
    Comparison {
        name: c"drive",
        calls: 0,
        body: learners::drive::compare,
    },
    Comparison {
        name: c"log",
        calls: 100_000,
        body: log::compare,
    },
    Comparison {
        name: c"write",
        calls: 400_000,
        body: write::compare,
    },
    Comparison {
        name: c"summary",
        calls: 200_000,
        body: summary::compare,
    },
];

const SEED: u64 = 658_058;

/// What shows the sample, and how.
const SAMPLES: [(&CStr, Shows); 3] = [
    (c"sample", Shows::Bytes),
    (c"sampled", Shows::Counts),
    (c"outcomes", Shows::Outcomes),
];

/// An input of the sample has an outcome that so many others do not have.
const EACH: u64 = 2;

/// # Safety
/// As C calls it: `arguments` holds `count` strings.
#[no_mangle]
pub unsafe extern "C" fn main(count: c_int, arguments: *const *const c_char) -> c_int {
    let argument = |place: c_int| (place < count).then(|| *arguments.add(place as usize));
    let (Some(name), Some(calls), Some(seed)) = (
        argument(1),
        number(argument(2), 0),
        number(argument(3), SEED),
    ) else {
        printf(c"usage: compare NAME [COUNT [SEED]]\n".as_ptr());
        return 2;
    };
    if strcmp(name, c"names".as_ptr()) == 0 {
        for comparison in &COMPARISONS {
            printf(c"%s\n".as_ptr(), comparison.name.as_ptr());
        }
        return 0;
    }
    if strcmp(name, c"answers".as_ptr()) == 0 {
        answers::answers();
        return 0;
    }
    for (word, shows) in SAMPLES {
        if strcmp(name, word.as_ptr()) == 0 {
            let each = if calls == 0 { EACH } else { calls };
            return !sample::sample(shows, each, seed) as c_int;
        }
    }
    if strcmp(name, c"listing".as_ptr()) == 0 {
        log::judged(input(&mut [0; 65_536]));
        return 0;
    }
    if strcmp(name, c"differences".as_ptr()) == 0 {
        differences::differences(input(&mut [0; 256]));
        return 0;
    }
    if strcmp(name, c"speed".as_ptr()) == 0 {
        log::speed::speed();
        return 0;
    }
    if strcmp(name, c"tunnel".as_ptr()) == 0 {
        return !ekf::tunnel::tunnel() as c_int;
    }
    for comparison in &COMPARISONS {
        if strcmp(name, comparison.name.as_ptr()) == 0 {
            let calls = if calls == 0 { comparison.calls } else { calls };
            printf(
                c"%s: %llu random calls after the chosen ones, seed %llu\n".as_ptr(),
                comparison.name.as_ptr(),
                calls,
                seed,
            );
            fflush(core::ptr::null_mut());
            let mut run = Run::new(comparison.name, calls, seed);
            (comparison.body)(&mut run);
            return !run.finish() as c_int;
        }
    }
    printf(c"there is no comparison `%s`\n".as_ptr(), name);
    2
}

/// Standard input.
fn input(bytes: &mut [u8]) -> &[u8] {
    let mut length = 0;
    loop {
        let rest = &mut bytes[length..];
        let more = unsafe { libc::read(0, rest.as_mut_ptr().cast(), rest.len()) };
        if more <= 0 {
            return &bytes[..length];
        }
        length += more as usize;
    }
}

/// The number that a whole text is, decimal or hexadecimal; without a text the default.
unsafe fn number(text: Option<*const c_char>, default: u64) -> Option<u64> {
    let Some(text) = text else {
        return Some(default);
    };
    let mut end = text.cast_mut();
    let value = strtoull(text, &mut end, 0);
    (end.cast_const() != text && *end == 0).then_some(value)
}

#[panic_handler]
fn stop(_: &core::panic::PanicInfo) -> ! {
    unsafe { libc::abort() }
}
