//! A car that leaves a tunnel 40 m from where its filter has it, settled on paper: with variances of 1 its fixes
//! have the gate value 1600/21, and with those that the eighth rejection leaves 1600/120.

use super::counts::Counts;
use super::inputs::{Log, DEFAULT};
use super::replay::{replay, CONFIGURE, MARK};
use super::{room, settled};
use crate::compare::ekf::filter::*;
use crate::ekf::Ekf;

const POSITION: u8 = 3;
const PREDICTION: u8 = 2;
const FIX: (u8, &[f32]) = (POSITION, &[40.0, 0.0]);
const LOCK: (u8, &[f32]) = (MARK, &[2.0]);

/// Records behind the default configuration, the whole listing, and where the filter at the end is not the
/// default one.
pub struct Case {
    records: &'static [(u8, &'static [f32])],
    pub listing: &'static [&'static [u8]],
    numbers: &'static [(usize, u32)],
    counts: &'static [(usize, u32)],
}

impl Case {
    pub fn write(&self, log: &mut Log) {
        settled::configured(log);
        for &(tag, arguments) in self.records {
            match tag {
                MARK => log.mark(arguments[0] as u8),
                _ => log.floats(tag, arguments),
            }
        }
    }

    /// Whether the judge's filter at the end is that of the paper.
    pub fn is_left(&self) -> bool {
        let mut bytes = [0; BYTES];
        let mut log = Log {
            bytes: &mut bytes,
            length: 0,
        };
        self.write(&mut log);
        let length = log.length;
        let counts = &mut Counts::default();
        let replayed = replay(&bytes[..length], &mut [0; room(BYTES)], counts);
        let mut paper = Filter::of(&Ekf::new());
        for &(place, bits) in self.numbers {
            paper.numbers[place] = f32::from_bits(bits);
        }
        for &(place, count) in self.counts {
            paper.counts[place] = count;
        }
        replayed.filter.is_some_and(|filter| filter.is(&paper))
    }
}

const BYTES: usize = 256;

/// Seven rejections, eight, and the ninth fix, which is taken.
const SEVEN: &[u8] = b"1 1 D
2 8 D
3 3 R 42986186
4 3 R 42986186
5 3 R 42986186
6 3 R 42986186
7 3 R 42986186
8 3 R 42986186
9 3 R 42986186
";

const LOCKED: &[u8] = b"x 00000000 00000000 00000000 00000000 00000000 00000000 00000000
p 3F800000 3F800000 42C80000 42C80000 42C80000 3F800000 3F800000
";

const RAISED: &[u8] = b"x 00000000 00000000 00000000 00000000 00000000 00000000 00000000
p 42C80000 42C80000 42C80000 42C80000 42C80000 3F800000 3F800000
";

const TAKEN: &[u8] = b"x 42055555 00000000 00000000 00000000 00000000 00000000 00000000
p 41855556 41855556 42C80000 42C80000 42C80000 3F800000 3F800000
";

const ONE: u32 = 0x3F80_0000;
const FORTY: u32 = 0x4220_0000;
const GATE_VALUE: u32 = 0x4155_5555;

pub const EIGHTH: usize = 1;

pub const CASES: [Case; 4] = [
    Case {
        records: &[LOCK, FIX, FIX, FIX, FIX, FIX, FIX, FIX],
        listing: &[SEVEN, LOCKED],
        numbers: &[(P, ONE), (P + 1, ONE)],
        counts: &[(0, 7), (RUN, 7)],
    },
    Case {
        records: &[LOCK, FIX, FIX, FIX, FIX, FIX, FIX, FIX, FIX],
        listing: &[SEVEN, b"10 3 R 42986186\n", RAISED],
        numbers: &[],
        counts: &[(0, 8)],
    },
    Case {
        records: &[LOCK, FIX, FIX, FIX, FIX, FIX, FIX, FIX, FIX, FIX],
        listing: &[SEVEN, b"10 3 R 42986186\n11 3 A 41555555\n", TAKEN],
        numbers: &[
            (X, 0x4205_5555),
            (P, 0x4185_5556),
            (P + 1, 0x4185_5556),
            (NIS_SUM, GATE_VALUE),
            (LAST_FIX, FORTY),
        ],
        counts: &[(0, 8), (3, 1), (NIS_COUNT, 1), (FLAGS[0], 1)],
    },
    // what stands between keeps the run: each mark, a prediction of no time and a refused fix; what
    // `skip_prediction` adds is lost in the sum with r_pos
    Case {
        records: &[
            LOCK,
            FIX,
            (MARK, &[5.0]),
            FIX,
            (MARK, &[6.0]),
            FIX,
            (POSITION, &[f32::NAN, 0.0]),
            FIX,
            LOCK,
            FIX,
            (PREDICTION, &[0.0; 4]),
            FIX,
            (MARK, &[1.0]),
            (MARK, &[3.0]),
            FIX,
            (MARK, &[4.0]),
            FIX,
            FIX,
        ],
        listing: &[b"1 1 D
2 8 D
3 3 R 42986186
4 8 D
5 3 R 42986186
6 8 D
7 3 R 42986186
8 3 1
9 3 R 42986186
10 8 D
11 3 R 42986186
12 2 D
13 3 R 42986186
14 8 D
15 8 D
16 3 R 42986186
17 8 D
18 3 R 42986186
19 3 A 41555555
x 42055555 00000000 00000000 00000000 00000000 00000000 00000000
p 41855556 41855556 3A83126F 40000000 40000000 3F800008 3F800008
"],
        numbers: &[
            (X, 0x4205_5555),
            (P, 0x4185_5556),
            (P + 1, 0x4185_5556),
            (P + 2, 0x3A83_126F),
            (P + 3, 0x4000_0000),
            (P + 4, 0x4000_0000),
            (P + 5, 0x3F80_0008),
            (P + 6, 0x3F80_0008),
            (NIS_SUM, GATE_VALUE),
            (LAST_FIX, FORTY),
        ],
        counts: &[(0, 7), (3, 1), (NIS_COUNT, 1), (FLAGS[0], 1)],
    },
];

/// A record by itself on a locked filter: its number and the run before it, its bytes, what it gives, the run
/// after it and p[0].
pub struct Single {
    pub number: u32,
    pub run: u32,
    pub record: &'static [u8],
    pub gives: u32,
    pub leaves: (u32, f32),
}

const fn single(run: u32, record: &'static [u8], gives: u32, leaves: (u32, f32)) -> Single {
    Single {
        number: 3,
        run,
        record,
        gives,
        leaves,
    }
}

const AT_40: &[u8] = b"\x03\x08\0\0\0\x20\x42\0\0\0\0";
const PREDICT: &[u8] = b"\x02\x10\0\0\0\0\0\0\0\0\0\0\0\0\0\0\0\0\0";

/// Those of the stored sample: the eighth rejection, what looks at the run, what does not, and an edition.
pub const SINGLES: [Single; 4] = [
    single(7, AT_40, 0, (0, 100.0)),
    single(8, PREDICT, 4, (8, 1.0)),
    single(u32::MAX, b"\x08\x01\0\x05", 0, (u32::MAX, 1.0)),
    Single {
        number: 2,
        ..single(9, b"\x0A\x01\0\x02", 0, (9, 1.0))
    },
];

pub const MORE: [Single; 10] = [
    single(0, AT_40, 0, (1, 1.0)),
    single(6, AT_40, 0, (7, 1.0)),
    // what looks at the run
    single(8, AT_40, 4, (8, 1.0)),
    single(8, b"\x08\x01\0\x02", 4, (8, 1.0)),
    single(8, b"\x08\x01\0\x04", 4, (8, 1.0)),
    single(u32::MAX, b"\x08\x01\0\x06", 4, (u32::MAX, 1.0)),
    // and what does not
    single(8, b"\x08\x01\0\x01", 0, (8, 1.0)),
    single(8, b"\x08\x01\0\x03", 0, (8, 1.0)),
    single(7, b"\x08\x01\0\x05", 0, (7, 1.0)),
    // a configuration makes a filter without one
    Single {
        number: 1,
        ..single(9, CONFIGURED, 0, (0, 100.0))
    },
];

const CONFIGURED: &[u8] = &configured();

const fn configured() -> [u8; 31] {
    let mut bytes = [0; 31];
    (bytes[0], bytes[1]) = (CONFIGURE, 28);
    let mut place = 0;
    while place < 28 {
        bytes[3 + place] = DEFAULT[place / 4].to_le_bytes()[place % 4];
        place += 1;
    }
    bytes
}

/// A locked filter in a run.
pub fn locked(run: u32) -> Filter {
    let mut filter = Filter::of(&Ekf::new());
    filter.numbers[P..P + 2].fill(1.0);
    filter.counts[RUN] = run;
    filter
}
