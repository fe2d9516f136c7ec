//! Listings settled on paper: the scope paper's sample, stops alone and in pairs, verdicts, and turns by
//! either edition.

use super::inputs::{Log, DEFAULT, WILD};
use super::replay::{CONFIGURE, EDITION, MARK};

/// The sample's configuration and fix, and its whole listing.
pub fn sample(log: &mut Log) {
    let [q_acc, q_gyro, q_bias, _, r_vel, r_yaw, min_speed] = DEFAULT;
    let configuration = [q_acc, q_gyro, q_bias, 100.0, r_vel, r_yaw, min_speed];
    log.floats(CONFIGURE, &configuration);
    log.put(b"\x03\x08\x00\x00\x00\xA0\x42\x00\x00\x00\x00");
}

pub const SAMPLE: &[u8] = b"1 1 D
2 3 A 42000000
x 42200000 00000000 00000000 00000000 00000000 00000000 00000000
p 42480000 42480000 42C80000 42C80000 42C80000 3F800000 3F800000
";

/// A configuration alone.
pub fn configured(log: &mut Log) {
    log.floats(CONFIGURE, &DEFAULT);
}

/// A log that leaves a NIS, a last fix, and every tally that can be raised; each mark behind it changes
/// something.
pub fn busy(log: &mut Log) {
    configured(log);
    log.floats(3, &[1.0, 2.0]);
    log.floats(3, &[1000.0, 2.0]);
    log.floats(4, &[3.0, 4.0]);
    log.floats(6, &[0.5]);
    log.floats(6, &[3.0]);
    log.floats(2, &[0.5, -0.5, 0.1, 0.1]);
}

/// Behind what the record stands that stops the reading, and the listing.
pub struct Behind {
    /// The record behind a configuration, if any; nothing where there is no configuration.
    pub record: Option<&'static [u8]>,
    /// With which numbers it stops just so.
    pub numbers: fn(u32) -> bool,
    pub lines: &'static [u8],
    pub state: &'static [u8],
}

const FRESH: &[u8] = b"x 00000000 00000000 00000000 00000000 00000000 00000000 00000000
p 42C80000 42C80000 42C80000 42C80000 42C80000 3F800000 3F800000
";

pub const FIRST: Behind = Behind {
    record: None,
    numbers: |number| number == 1,
    lines: b"stop 1 ",
    state: b"",
};

pub const LATER: Behind = Behind {
    record: Some(b""),
    numbers: |number| number != 1,
    lines: b"1 1 D\nstop 2 ",
    state: FRESH,
};

/// As the second record, where an edition may stand.
pub const SECOND: Behind = Behind {
    numbers: |number| number == 2,
    ..LATER
};

/// Behind an edition, and behind a mark.
pub const THIRD: Behind = Behind {
    record: Some(b"\x0A\x01\0\x02"),
    numbers: |number| ![1, 2].contains(&number),
    lines: b"1 1 D\n2 10 D\nstop 3 ",
    ..LATER
};

pub const MARKED: Behind = Behind {
    record: Some(b"\x08\x01\0\x05"),
    lines: b"1 1 D\n2 8 D\nstop 3 ",
    ..THIRD
};

/// The bytes of the record and the reason.
pub type Stop = (Behind, &'static [&'static [u8]], &'static [u8]);

const GOOD: &[u8] = &configuration(20.0);
const BAD: &[u8] = &configuration(f32::NAN);

const fn configuration(r_pos: f32) -> [u8; 28] {
    let mut bytes = [0; 28];
    let mut place = 0;
    while place < 28 {
        let number = if place / 4 == 3 {
            r_pos
        } else {
            DEFAULT[place / 4]
        };
        bytes[place] = number.to_le_bytes()[place % 4];
        place += 1;
    }
    bytes
}

#[rustfmt::skip]
pub const STOPS: [Stop; 62] = [
    // a header that is cut, alone; with an unknown tag; out of place
    (FIRST, &[b"\x01"], b"7"),
    (FIRST, &[b"\x01\x1C"], b"7"),
    (LATER, &[b"\x08\x01"], b"7"),
    (LATER, &[b"\x0B"], b"7"),
    (LATER, &[b"\0\0"], b"7"),
    (FIRST, &[b"\x08"], b"7"),
    (LATER, &[b"\x01\x1C"], b"7"),
    // an unknown tag, alone; with a payload that is cut; out of place
    (LATER, &[b"\0\0\0"], b"8"),
    (LATER, &[b"\x0B\x01\0\x01"], b"8"),
    (LATER, &[b"\xFF\x04\0\0"], b"8"),
    (FIRST, &[b"\x0B\0\0"], b"8"),
    // a wrong length, alone; with a payload that is cut; out of place; with an unknown mark; with a
    // bad configuration
    (LATER, &[b"\x05\x08\0\0\0\0\0\0\0\0\0"], b"9"),
    (LATER, &[b"\x05\0\0"], b"9"),
    (FIRST, &[b"\x01\x1D\0", GOOD, b"\0"], b"9"),
    (LATER, &[b"\x05\x05\0\0\0\0\0"], b"9"),
    (LATER, &[b"\x05\x04\x01\0\0\0\0"], b"9"),
    (FIRST, &[b"\x05\x03\0\0\0\0"], b"9"),
    (LATER, &[b"\x01\x18\0", GOOD], b"9"),
    (LATER, &[b"\x08\x02\0\x07\x07"], b"9"),
    (FIRST, &[b"\x01\x18\0", BAD], b"9"),
    // a payload that is cut, alone; out of place; with a bad configuration
    (LATER, &[b"\x08\x01\0"], b"7"),
    (LATER, &[b"\x05\x04\0\0\0\0"], b"7"),
    (FIRST, &[b"\x05\x04\0\0\0\0"], b"7"),
    (LATER, &[b"\x01\x1C\0\0"], b"7"),
    (FIRST, &[b"\x01\x1C\0\0\0\xC0\x7F"], b"7"),
    // out of place, alone; with an unknown mark; with a bad configuration
    (FIRST, &[b"\x08\x01\0\x01"], b"10"),
    (LATER, &[b"\x01\x1C\0", GOOD], b"10"),
    (FIRST, &[b"\x08\x01\0\0"], b"10"),
    (LATER, &[b"\x01\x1C\0", BAD], b"10"),
    // an unknown mark; a bad configuration
    (LATER, &[b"\x08\x01\0\0"], b"8"),
    (LATER, &[b"\x08\x01\0\x07"], b"8"),
    (LATER, &[b"\x08\x01\0\xFF"], b"8"),
    (FIRST, &[b"\x01\x1C\0", BAD], b"3"),
    // an edition whose header is cut, alone; out of place
    (SECOND, &[b"\x0A"], b"7"),
    (SECOND, &[b"\x0A\x01"], b"7"),
    (FIRST, &[b"\x0A\x01"], b"7"),
    (THIRD, &[b"\x0A"], b"7"),
    // one with a wrong length, alone; with a payload that is cut; out of place; with an unknown number
    (SECOND, &[b"\x0A\x02\0\x02\x02"], b"9"),
    (SECOND, &[b"\x0A\0\0"], b"9"),
    (SECOND, &[b"\x0A\x02\0\x02"], b"9"),
    (SECOND, &[b"\x0A\x01\x01\x02"], b"9"),
    (FIRST, &[b"\x0A\x02\0\x02\x02"], b"9"),
    (THIRD, &[b"\x0A\x02\0\x02\x02"], b"9"),
    (SECOND, &[b"\x0A\x02\0\x03\x03"], b"9"),
    // one whose payload is cut, alone; out of place
    (SECOND, &[b"\x0A\x01\0"], b"7"),
    (FIRST, &[b"\x0A\x01\0"], b"7"),
    (THIRD, &[b"\x0A\x01\0"], b"7"),
    // one out of place, alone; with an unknown number
    (FIRST, &[b"\x0A\x01\0\x01"], b"10"),
    (FIRST, &[b"\x0A\x01\0\x02"], b"10"),
    (THIRD, &[b"\x0A\x01\0\x01"], b"10"),
    (THIRD, &[b"\x0A\x01\0\x02"], b"10"),
    (MARKED, &[b"\x0A\x01\0\x02"], b"10"),
    (FIRST, &[b"\x0A\x01\0\x07"], b"10"),
    (THIRD, &[b"\x0A\x01\0\x07"], b"10"),
    (MARKED, &[b"\x0A\x01\0\x07"], b"10"),
    (MARKED, &[b"\x0A\x01\0\0"], b"10"),
    // a configuration behind one
    (THIRD, &[b"\x01\x1C\0", GOOD], b"10"),
    // an unknown number
    (SECOND, &[b"\x0A\x01\0\0"], b"8"),
    (SECOND, &[b"\x0A\x01\0\x03"], b"8"),
    (SECOND, &[b"\x0A\x01\0\x07"], b"8"),
    (SECOND, &[b"\x0A\x01\0\x81"], b"8"),
    (SECOND, &[b"\x0A\x01\0\xFF"], b"8"),
];

/// The record, where it is not the first behind what `begin` writes.
pub fn stop(log: &mut Log, (behind, bytes, _): &Stop, begin: impl FnOnce(&mut Log)) {
    if let Some(record) = behind.record {
        begin(log);
        log.put(record);
    }
    for bytes in *bytes {
        log.put(bytes);
    }
}

/// Behind the configuration `WILD`: the tag, the arguments or the mark or the edition, and the verdict with
/// the gate value. A replayed filter is sound, so that no call gives 3 or 4.
pub const VERDICTS: [(u8, &[f32], &[u8]); 47] = [
    (EDITION, &[2.0], b"D"),
    (3, &[1.0, 2.0], b"A 3D2AAAAB"),
    (3, &[1000.0, 2.0], b"R 46D4B697"),
    (3, &[1.0, f32::NAN], b"1"),
    (3, &[1.1e7, 2.0], b"2"),
    (6, &[1.0], b"A 3C23AD24"),
    (MARK, &[3.0], b"D"),
    (6, &[3.0], b"R 421E92FA"),
    (6, &[f32::INFINITY], b"1"),
    (6, &[33.0], b"2"),
    (9, &[3.0, 100.0], b"A 3ECCFBF0"),
    (9, &[3.0, 0.001], b"R 45637999"),
    (9, &[f32::NAN, 0.0], b"1"),
    (9, &[3.0, 0.0], b"2"),
    (MARK, &[1.0], b"D"),
    (MARK, &[2.0], b"D"),
    (MARK, &[4.0], b"D"),
    (MARK, &[5.0], b"D"),
    (MARK, &[6.0], b"D"),
    (2, &[0.0, 0.0, f32::NAN, 0.5], b"1"),
    (2, &[0.0, 0.0, 2.0, 0.5], b"2"),
    (4, &[f32::NEG_INFINITY, 2e4], b"1"),
    (4, &[0.0, 2e4], b"2"),
    (5, &[f32::NAN], b"1"),
    (5, &[-1.0], b"2"),
    (7, &[0.0, f32::NAN], b"1"),
    (7, &[0.0, -1001.0], b"2"),
    // the fastest car gains speed
    (2, &[0.0, 0.0, 0.0, 0.5], b"D"),
    (4, &[1e4, 0.0], b"D"),
    (2, &[100.0, 0.0, 0.0, 0.5], b"6"),
    // the difference of opposite ends is rounded up
    (MARK, &[1.0], b"D"),
    (2, &[0.0, 0.0, 0.0, 0.5], b"D"),
    (4, &[-9_999.999, 0.0], b"D"),
    (2, &[0.0, 0.0, 0.0, 0.5], b"D"),
    (4, &[1e4, 0.0], b"6"),
    // one axis is known well, the other one takes all of the speed
    (4, &[0.0, 1000.0], b"D"),
    (2, &[0.0, 0.0, 0.0, 0.5], b"D"),
    (5, &[1000.0], b"D"),
    (2, &[1000.0, 0.0, 0.0, 0.001], b"D"),
    (5, &[1e4], b"6"),
    (MARK, &[1.0], b"D"),
    // as with velocities
    (7, &[-999.999_94, 0.0], b"D"),
    (2, &[0.0, 0.0, 0.0, 0.5], b"D"),
    (7, &[1e3, 0.0], b"6"),
    (7, &[0.0, 0.0], b"D"),
    (9, &[3.0, 1.0], b"A 3656EB76"),
    (3, &[1.0, 2.0], b"R 4299B442"),
];

pub fn verdicts(log: &mut Log) {
    log.floats(CONFIGURE, &WILD);
    for &(tag, arguments, _) in &VERDICTS {
        match tag {
            MARK => log.mark(arguments[0] as u8),
            EDITION => log.edition(arguments[0] as u8),
            _ => log.floats(tag, arguments),
        }
    }
}

/// A car at (32, 24) with velocity (3, 0) and heading 0.5 predicts half a second of a turn by 1 radian a second.
pub fn turn(log: &mut Log, edition: Option<u8>) {
    log.floats(CONFIGURE, &[1.0, 1.0, 0.0, 100.0, 100.0, 100.0, 2.0]);
    if let Some(edition) = edition {
        log.edition(edition);
    }
    log.floats(3, &[64.0, 48.0]);
    log.floats(4, &[6.0, 0.0]);
    log.floats(6, &[1.0]);
    log.floats(2, &TURNS);
}

const TURNS: [f32; 4] = [0.0, 0.0, 1.0, 0.5];

/// Behind a mark and a fix that is refused, half a second more.
pub fn turn_twice(log: &mut Log, edition: Option<u8>) {
    turn(log, edition);
    log.mark(5);
    log.floats(3, &[f32::NAN, 0.0]);
    log.floats(2, &TURNS);
}

const PREDICT: &[u8] = b"\x02\x10\0\0\0\0\0\0\0\0\0\0\0\x80\x3F\0\0\0\x3F";
const NOT_FINITE: &[u8] = b"\x02\x10\0\0\0\0\0\0\0\0\0\0\0\xC0\x7F\0\0\0\x3F";

/// A single record on that car: its number and the word of the edition before it, its bytes, what it gives,
/// and the word after it.
pub type Single = (u32, u32, &'static [&'static [u8]], u32, u32);

#[rustfmt::skip]
pub const SINGLES: [Single; 17] = [
    // what sets the edition, whichever word is there
    (1, 7, &[b"\x01\x1C\0", GOOD], 0, 1),
    (1, 2, &[b"\x01\x1C\0", GOOD], 0, 1),
    (2, 0, &[b"\x0A\x01\0\x01"], 0, 1),
    (2, u32::MAX, &[b"\x0A\x01\0\x02"], 0, 2),
    // what stops
    (2, 1, &[b"\x0A\x01\0\0"], 8, 1),
    (2, 1, &[b"\x0A\x01\0\x03"], 8, 1),
    (2, 1, &[b"\x0A\x02\0\x02\x02"], 9, 1),
    (1, 1, &[b"\x0A\x01\0\x02"], 10, 1),
    (3, 1, &[b"\x0A\x01\0\x02"], 10, 1),
    // a prediction, by either edition and by none; one that is not finite as well
    (3, 1, &[PREDICT], 0, 1),
    (3, 2, &[PREDICT], 0, 2),
    (3, 0, &[PREDICT], 2, 0),
    (3, 3, &[PREDICT], 2, 3),
    (3, u32::MAX, &[PREDICT], 2, u32::MAX),
    (3, 0, &[NOT_FINITE], 1, 0),
    // what does not look at it: a mark, a fix
    (3, 0, &[b"\x08\x01\0\x05"], 0, 0),
    (3, u32::MAX, &[b"\x03\x08\0\0\0\x80\x3F\0\0\0\0"], 0, u32::MAX),
];

/// A log of that car, by an edition or without one, and its whole listing.
pub type Turned = (fn(&mut Log, Option<u8>), Option<u8>, &'static [u8]);

/// Whichever sine and cosine the scope paper allows, the positions are these: a turn by edition 2 adds
/// (1.43828, 0.36725); by edition 1 the first adds (1.08614, 1.01184) and the second (0.46807, 1.40870).
pub const TURNED: [Turned; 4] = [
    (
        turn,
        Some(2),
        b"1 1 D
2 10 D
3 3 A 42000000
4 4 D
5 6 A 3BA3D70A
6 2 D
x 4205C0CC 41C2F022 3F800000 40400000 00000000 00000000 00000000
p 42484000 42484000 42490000 42490000 42490000 3F800008 3F800008
",
    ),
    (
        turn_twice,
        Some(2),
        b"1 1 D
2 10 D
3 3 A 42000000
4 4 D
5 6 A 3BA3D70A
6 2 D
7 8 D
8 3 1
9 2 D
x 420B8198 41C5E044 3FC00000 40400000 00000000 00000000 00000000
p 42488000 42488000 424A0000 424A0000 424A0000 3F800010 3F800010
",
    ),
    (
        turn_twice,
        Some(1),
        b"1 1 D
2 10 D
3 3 A 42000000
4 4 D
5 6 A 3BA3D70A
6 2 D
7 8 D
8 3 1
9 2 D
x 42063782 41D35D42 3FC00000 40400000 00000000 00000000 00000000
p 42488000 42488000 424A0000 424A0000 424A0000 3F800010 3F800010
",
    ),
    (
        turn_twice,
        None,
        b"1 1 D
2 3 A 42000000
3 4 D
4 6 A 3BA3D70A
5 2 D
6 8 D
7 3 1
8 2 D
x 42063782 41D35D42 3FC00000 40400000 00000000 00000000 00000000
p 42488000 42488000 424A0000 424A0000 424A0000 3F800010 3F800010
",
    ),
];
