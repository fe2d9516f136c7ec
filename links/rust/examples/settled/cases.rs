//! A worked example of `track`: the settled cases K1 to K4, K6, K9 to K12, the editions of request C-16,
//! the times of request C-13, the log of document 01, logs that are written by request C-11 and replayed,
//! and the summaries of request C-14; the values are those of the papers, and for a turn what the
//! edition's rule gives in fractions, each operation rounded to a float.

use track::*;

/// What came out otherwise than the papers say: a case, or why a call or a record was refused.
#[derive(Clone, Copy, Debug)]
pub struct Wrong(pub &'static str);

impl From<Refusal> for Wrong {
    fn from(refusal: Refusal) -> Self {
        Self(refusal.sentence())
    }
}

impl From<WriteRefusal> for Wrong {
    fn from(refusal: WriteRefusal) -> Self {
        Self(refusal.sentence())
    }
}

type Right = Result<(), Wrong>;

fn expect(case: &'static str, holds: bool) -> Right {
    if holds { Ok(()) } else { Err(Wrong(case)) }
}

pub fn cases() -> Right {
    expect("floats as the archive needs them", float_environment_ok())?;
    fixes()?;
    tunnel()?;
    yaws()?;
    motion()?;
    editions()?;
    accelerations()?;
    rates()?;
    low_pass()?;
    log_sample()?;
    log_by_records()?;
    lines_and_stops()?;
    writing_sample()?;
    writing_each_kind()?;
    editions_of_logs()?;
    edition_by_records()?;
    editions_that_stop()?;
    writing_bits()?;
    writing_refused()?;
    writing_untested()?;
    buckets()?;
    merges()?;
    summary_beside()?;
    summaries_of_logs()
}

/// An accepted measurement, by the bits of its gate value.
fn accepted(gate_value: u32) -> UpdateResult {
    UpdateResult::Accepted(f32::from_bits(gate_value))
}

fn rejected(gate_value: u32) -> UpdateResult {
    UpdateResult::Rejected(f32::from_bits(gate_value))
}

/// A filter whose position noise is 100 takes a fix at the gate, and rejects one beyond it.
fn fixes() -> Right {
    let made = Ekf::with_config(EkfConfig {
        r_pos: 100.0,
        ..EkfConfig::default()
    })?;

    let mut ekf = made;
    let taken = ekf.update_position(80.0, 0.0)?;
    expect("K1: accepted with 32", taken == accepted(0x4200_0000))?;
    expect("K1: at (40, 0)", ekf.position()? == [40.0, 0.0])?;
    expect("K1: variances of 50", ekf.p[..2] == [50.0, 50.0])?;
    expect("K1: NIS average 32", ekf.get_nis_position_avg()? == 32.0)?;

    let mut ekf = made;
    let taken = ekf.update_position(80.0, 1.0)?;
    let stays = Ekf {
        rejected_position: 1,
        rejection_run: 1,
        ..made
    };
    expect("K2: rejected with 32.005", taken == rejected(0x4200_051F))?;
    expect("K2: one tally and a run, else unchanged", ekf == stays)?;
    let average = ekf.get_nis_position_avg()?;
    expect("K9: 2 without fixes", average == 2.0)?;

    let refused = ekf.update_position(f32::NAN, 0.0);
    expect("NaN is refused", refused == Err(Refusal::NotFinite))?;
    expect("and changes nothing", ekf == stays)
}

/// A car that leaves a tunnel 40 m off: eight fixes are rejected, with 1600 / 21, and the ninth is taken,
/// with 1600 / 120.
fn tunnel() -> Right {
    let mut ekf = Ekf::new();
    ekf.lock_position()?;
    for fix in 1..=7 {
        let away = ekf.update_position(40.0, 0.0)? == rejected(0x4298_6186);
        let counted = ekf.rejection_run == fix && ekf.p[..2] == [1.0, 1.0];
        expect("40 m off is rejected", away && counted)?;
    }
    let eighth = ekf.update_position(40.0, 0.0)?;
    expect("so is the eighth", eighth == rejected(0x4298_6186))?;
    expect("variances of 100", ekf.p[..2] == [100.0, 100.0])?;
    expect("a new run", (ekf.rejection_run, ekf.rejected_position) == (0, 8))?;
    let ninth = ekf.update_position(40.0, 0.0)?;
    expect("the ninth is taken", ninth == accepted(0x4155_5555))?;
    ekf.rejection_run = 8;
    expect("a run of 8", ekf.position() == Err(Refusal::Unsound))?;
    ekf.velocity()?;
    Ok(())
}

/// A yaw at the gate is taken, and one beyond it rejected; the noise of a soft one is r_yaw times its
/// factor. Behind K3 the gate values are 9 / 0.5625, 9 / 0.375 and 9 / 0.75.
fn yaws() -> Right {
    let mut ekf = Ekf::with_config(EkfConfig {
        r_yaw: 0.375,
        ..EkfConfig::default()
    })?;
    ekf.p[2] = 0.375;
    let taken = ekf.update_yaw(3.0)?;
    expect("K3: accepted with 12", taken == accepted(0x4140_0000))?;
    expect("K3: half of it", ekf.yaw()? == 1.5 && ekf.p[2] == 0.1875)?;

    let stays = Ekf {
        rejected_yaw: 2,
        ..ekf
    };
    let back = ekf.update_yaw(-1.5)?;
    expect("yaw -1.5: rejected with 16", back == rejected(0x4180_0000))?;
    let back = ekf.update_yaw_soft(-1.5, 0.5)?;
    expect("soft by 0.5: with 24", back == rejected(0x41C0_0000))?;
    expect("two tallies, else unchanged", ekf == stays)?;
    let back = ekf.update_yaw_soft(-1.5, 1.5)?;
    expect("soft by 1.5: with 12", back == accepted(0x4140_0000))?;
    let (yaw, variance) = (ekf.yaw()?, ekf.p[2]);
    expect("a quarter of it", yaw == 0.75 && variance == 0.140625)
}

fn motion() -> Right {
    let mut ekf = Ekf::with_config(EkfConfig {
        r_vel: 100.0,
        ..EkfConfig::default()
    })?;
    ekf.update_velocity(10.0, -4.0)?;
    expect("K4: (5, -2)", ekf.velocity()? == [5.0, -2.0])?;
    expect("K4: variances of 50", ekf.p[3..5] == [50.0, 50.0])?;

    let mut ekf = Ekf::with_config(EkfConfig {
        q_acc: 1.0,
        ..EkfConfig::default()
    })?;
    ekf.x[3] = 4.0;
    let mut other = ekf;
    ekf.predict(Edition::First, 2.0, 0.0, 0.0, 0.5)?;
    expect("K6: at 2.25", ekf.position()?[0] == 2.25)?;
    expect("K6: 5 m/s", ekf.velocity()?[0] == 5.0)?;
    expect("K6: variance 100.0625", ekf.p[0] == 100.0625)?;
    other.predict(Edition::Second, 2.0, 0.0, 0.0, 0.5)?;
    expect("K6: by the second edition", other == ekf)
}

/// A fresh filter at (1.5, -1.25) with a velocity of (17, -5), once it has turned by 1.3 rad/s for 0.2 s.
fn turned(edition: Edition, yaw: f32) -> Result<Ekf, Refusal> {
    let mut ekf = Ekf::new();
    ekf.x = [1.5, -1.25, yaw, 17.0, -5.0, 0.0, 0.0];
    ekf.predict(edition, 2.0, 4.0, 1.3, 0.2)?;
    Ok(ekf)
}

/// Where the car is, by the bits of x and y.
fn at(ekf: &Ekf) -> Result<[u32; 2], Refusal> {
    Ok(ekf.position()?.map(f32::to_bits))
}

/// Where it then is by each edition: at (2.29, 2.19) and at (4.99, -1.80).
const BY_FIRST: [u32; 2] = [0x4012_DE80, 0x400C_6230];
const BY_SECOND: [u32; 2] = [0x409F_B705, 0xBFE6_4DFF];

/// The two turn rules: they differ in where the car is, and at heading 0 not even there.
fn editions() -> Right {
    let (first, mut second) = (turned(Edition::First, 1.5)?, turned(Edition::Second, 1.5)?);
    expect("turn: by the first", at(&first)? == BY_FIRST)?;
    expect("turn: by the second", at(&second)? == BY_SECOND)?;
    second.x[..2].copy_from_slice(&first.x[..2]);
    expect("turn: all else is the same", first == second)?;
    let (first, second) = (turned(Edition::First, 0.0)?, turned(Edition::Second, 0.0)?);
    expect("heading 0: the second's", at(&first)? == BY_SECOND)?;
    expect("heading 0: nothing differs", first == second)?;

    let mut first = Ekf::new();
    first.x[3] = 2.0;
    let mut second = first;
    first.predict(Edition::First, 2.0, 0.0, 1.0, 0.5)?;
    second.predict(Edition::Second, 2.0, 0.0, 1.0, 0.5)?;
    expect("min_speed: by 1.25", first.position()? == [1.25, 0.0])?;
    expect("min_speed: by either", first == second)?;

    expect("edition 1", Edition::try_from(1) == Ok(Edition::First))?;
    expect("edition 2", Edition::try_from(2) == Ok(Edition::Second))?;
    for other in [0, 3, 257, u32::MAX] {
        let refused = Edition::try_from(other) == Err(Refusal::OutOfRange);
        expect("no edition", refused)?;
    }
    let mut bad = Ekf::new();
    bad.config.r_pos = 0.0;
    let refused = bad.predict(Edition::Second, 2.0, 4.0, 1.3, 0.2);
    expect("turn: r_pos 0", refused == Err(Refusal::BadParameter))?;
    let refused = bad.predict(Edition::Second, f32::NAN, 4.0, 1.3, 0.2);
    expect("turn: NaN", refused == Err(Refusal::NotFinite))
}

/// What 12 m/s give 250 ms after a first fix of 10 m/s.
fn from_10_to_12(first_time: u64) -> Result<Option<f32>, Refusal> {
    let mut gps = GpsAcceleration::new()?;
    gps.update(10.0, first_time)?;
    gps.update(12.0, first_time + 250)
}

fn accelerations() -> Right {
    let (end, late) = (u64::from(u32::MAX), 1 << 40);
    expect("K10: 8", from_10_to_12(1000)? == Some(8.0))?;
    expect("8 from 0 on", from_10_to_12(0)? == Some(8.0))?;
    expect("8 where 32 bits end", from_10_to_12(end)? == Some(8.0))?;
    expect("8 from 2^40 on", from_10_to_12(late)? == Some(8.0))?;
    let last = from_10_to_12(u64::MAX - 250)?;
    expect("8 up to where 64 bits end", last == Some(8.0))?;

    let mut gps = GpsAcceleration::new()?;
    expect("a first fix", gps.update(10.0, 1000)?.is_none())?;
    expect("K11: nothing", gps.update(12.0, 1500)?.is_none())?;
    expect("K11: then 4", gps.update(13.0, 1750)? == Some(4.0))?;
    expect("back: nothing", gps.update(12.0, 0)?.is_none())?;
    expect("back: stored", gps.update(13.0, 250)? == Some(4.0))?;
    expect("far off: nothing", gps.update(12.0, late + 250)?.is_none())?;
    expect("far off: low word first", gps.prev_time == [250, 256])
}

/// Fixes are counted from half a second before 32 bits end.
fn rates() -> Right {
    let (begin, gap) = (u64::from(u32::MAX) - 499, 16_777_216);
    let (second, mut gps) = (begin + 1000, GpsAcceleration::new()?);
    gps.update_rate(20, begin)?;
    let stays = gps;
    gps.update_rate(25, begin + 999)?;
    expect("999 ms: unchanged", gps == stays)?;
    gps.update_rate(25, 0)?;
    expect("a clock that goes back", gps == stays)?;
    gps.update_rate(25, second)?;
    expect("0.3 of 5 in 1,000 ms", gps.get_rate()? == 1.5)?;
    expect("low word first", gps.last_rate_time == [500, 1])?;

    let (stays, next) = (gps, second + gap + 1001);
    let refused = gps.update_rate(30, second + gap + 1);
    expect("above the gap", refused == Err(Refusal::OutOfRange))?;
    let refused = gps.update_rate(35, next);
    expect("then the next", refused == Err(Refusal::OutOfRange))?;
    expect("refused: unchanged", gps == stays)?;
    let fresh = GpsAcceleration::new()?.update_rate(35, next);
    expect("the way out", fresh == Ok(()))?;
    let taken = gps.update_rate(30, second + gap);
    expect("no more than the gap", taken == Ok(()))
}

fn low_pass() -> Right {
    let refused = BiquadFilter::new_lowpass(100.0, 200.0);
    expect("K12: refused", refused == Err(Refusal::BadParameter))?;
    BiquadFilter::new_lowpass(5.0, 200.0)?;
    Ok(())
}

/// Document 01's log: a configuration with r_pos 100, else the default, and one fix.
fn sample() -> [u8; 42] {
    let configuration = [0.4, 0.005, 1e-3, 100.0, 0.2, 0.1, 2.0f32];
    let mut log = [0; 42];
    log[..3].copy_from_slice(&[1, 28, 0]);
    for (bytes, number) in log[3..31].chunks_exact_mut(4).zip(configuration) {
        bytes.copy_from_slice(&number.to_le_bytes());
    }
    log[31..].copy_from_slice(b"\x03\x08\x00\x00\x00\xA0\x42\x00\x00\x00\x00");
    log
}

const LISTING: &[u8] = b"1 1 D
2 3 A 42000000
x 42200000 00000000 00000000 00000000 00000000 00000000 00000000
p 42480000 42480000 42C80000 42C80000 42C80000 3F800000 3F800000
";

fn log_sample() -> Right {
    let (log, mut out) = (sample(), [0; 1024]);
    expect("log", list(&log, &mut out) == Ok(LISTING))?;
    let room = list_room(&log);
    expect("log: room", room <= 1024)?;
    let short = list(&log, &mut out[..room - 1]);
    expect("log: a byte short", short == Err(TooShort(room)))?;

    let cut = replay(&log[..30]);
    expect("cut: stop 7", cut.stop == Some(Stop::Cut))?;
    expect("cut: no filter", cut.filter.is_none())?;
    let Replayed { filter, stop } = replay(&log);
    let filter = filter.ok_or(Wrong("log: a configuration is taken"))?;
    let config = EkfConfig {
        r_pos: 100.0,
        ..EkfConfig::default()
    };
    expect("log: to its end", stop.is_none())?;
    expect("log: the default but for r_pos", filter.config == config)?;
    expect("log: at (40, 0)", filter.x[..2] == [40.0, 0.0])?;
    expect("log: a variance of 50", filter.p[0] == 50.0)?;
    expect("log: accepted", filter.accepted_position == 1)?;
    expect("log: NIS sum 32", filter.nis_position_sum == 32.0)?;
    expect("log: NIS count 1", filter.nis_position_count == 1)
}

fn line(answered: UpdateResult) -> Turn {
    Turn::Line(Ok(answered))
}

const DONE: Turn = Turn::Line(Ok(UpdateResult::Done));
const NOT_FINITE: Turn = Turn::Line(Err(Refusal::NotFinite));

const FIX_OF_NAN: &[u8] = b"\x03\x08\x00\x00\x00\xC0\x7F\x00\x00\x00\x00";

/// The same log one record at a time, and behind it a fix that is NaN.
fn log_by_records() -> Right {
    let (log, mut replayer) = (sample(), Replayer::new());
    let filter = replay(&log).filter;
    let turn = replayer.next(&log[31..]);
    expect("record: a fix is no first", turn == Turn::Stop(Stop::Place))?;
    expect("record: no line", replayer == Replayer::new())?;
    expect("record 1: done", replayer.next(&log) == DONE)?;
    let length = record_length([log[0], log[1], log[2]]);
    expect("record 1: 31 bytes", length == 31)?;
    let turn = replayer.next(&log[31..]);
    expect("record 2: with 32", turn == line(accepted(0x4200_0000)))?;
    let at_end = Some(replayer.filter) == filter;
    expect("record 2: the log's filter", at_end)?;
    expect("record 3: refused", replayer.next(FIX_OF_NAN) == NOT_FINITE)?;
    let unchanged = Some(replayer.filter) == filter;
    expect("record 3: unchanged", unchanged)?;
    expect("the end", replayer.next(&[]) == Turn::End)?;
    expect("three lines", replayer.number == 4)
}

/// A refusal is a line, also where its number is a stop's, and with the last number of a record.
fn lines_and_stops() -> Right {
    let (log, mut replayer) = (sample(), Replayer::new());
    replayer.number = 2;
    replayer.filter.config.r_pos = 0.0;
    let bad_parameter = Turn::Line(Err(Refusal::BadParameter));
    expect("3 is a line", replayer.next(&log[31..]) == bad_parameter)?;
    replayer.number = u32::MAX;
    let turn = replayer.next(FIX_OF_NAN);
    expect("the last number: refused", turn == NOT_FINITE)?;
    let turn = replayer.next(b"\x03");
    expect("the last number: cut", turn == Turn::Stop(Stop::Cut))?;
    expect("the last number: it stays", replayer.number == u32::MAX)
}

/// Document 01's log, written into a buffer that it fills.
fn writing_sample() -> Right {
    let (log, mut buf, mut out) = (sample(), [0xEE; 43], [0; 1024]);
    let config = EkfConfig {
        r_pos: 100.0,
        ..EkfConfig::default()
    };
    let mut writer = LogWriter::new(&mut buf[..41]);
    writer.write_config(config)?;
    let full = writer.write_position(80.0, 0.0);
    expect("a byte is missing", full == Err(WriteRefusal::Full))?;
    expect("full: 31 are used", writer.used() == 31)?;
    expect("full: the rest stays", buf[31..] == [0xEE; 12])?;

    let mut writer = LogWriter::behind(&mut buf[..42], 31)?;
    writer.write_position(80.0, 0.0)?;
    expect("written: 42 are used", writer.used() == 42)?;
    expect("written: document 01's", writer.written() == log)?;
    let listed = list(writer.written(), &mut out) == Ok(LISTING);
    expect("written: its listing", listed)?;
    expect("written: the byte behind stays", buf[42] == 0xEE)
}

/// A record of each kind, of position a second one that its gate rejects and a third that is NaN.
fn write_each(writer: &mut LogWriter) -> [Result<(), WriteRefusal>; 17] {
    let config = EkfConfig {
        q_acc: 1.0,
        r_pos: 100.0,
        r_vel: 100.0,
        r_yaw: 100.0,
        ..EkfConfig::default()
    };
    [
        writer.write_config(config),
        writer.write_edition(Edition::Second),
        writer.write_position(80.0, 0.0),
        writer.write_position(1000.0, 0.0),
        writer.write_velocity(10.0, -4.0),
        writer.write_yaw(3.0),
        writer.write_yaw_soft(2.5, 0.5),
        writer.write_predict(2.0, 4.0, 0.0, 0.5),
        writer.write_speed(6.0),
        writer.write_bias(1.0, 0.0),
        writer.write_zupt(),
        writer.write_lock_position(),
        writer.write_lock_yaw(),
        writer.write_skip_prediction(),
        writer.write_reset_gate_stats(),
        writer.write_reset_nis_stats(),
        writer.write_position(f32::NAN, 0.0),
    ]
}

/// A log that is replayed record by record, from the front of `rest` on.
struct Reading<'a> {
    replayer: Replayer,
    rest: &'a [u8],
}

impl Reading<'_> {
    /// The filter behind the next record, whose turn is to be this one.
    fn next(&mut self, case: &'static str, turn: Turn) -> Result<Ekf, Wrong> {
        expect(case, self.replayer.next(self.rest) == turn)?;
        let [tag, low, high, ..] = *self.rest else {
            return Err(Wrong(case));
        };
        self.rest = &self.rest[record_length([tag, low, high])..];
        Ok(self.replayer.filter)
    }
}

fn writing_each_kind() -> Right {
    let mut buf = [0; 256];
    let mut full = LogWriter::new(&mut buf[..3]);
    let refused = write_each(&mut full) == [Err(WriteRefusal::Full); 17];
    expect("none fits into 3 bytes", refused && full.used() == 0)?;
    let mut writer = LogWriter::new(&mut buf);
    let written = write_each(&mut writer) == [Ok(()); 17];
    expect("each kind is written", written)?;
    expect("they have 158 bytes", writer.used() == 158)?;
    let mut log = Reading {
        replayer: Replayer::new(),
        rest: writer.written(),
    };
    replay_measurements(&mut log)?;
    replay_marks(&mut log)?;
    log.next("a fix that is NaN", NOT_FINITE)?;
    expect("its end", log.replayer.next(log.rest) == Turn::End)
}

/// A log of a car that comes to (1.5, -1.25), a velocity of (17, -5) and a heading of 1.5, and turns.
fn write_turn(buf: &mut [u8], edition: Option<Edition>) -> Result<usize, WriteRefusal> {
    let mut writer = LogWriter::new(buf);
    writer.write_config(EkfConfig {
        q_acc: 1.0,
        r_pos: 100.0,
        r_vel: 100.0,
        r_yaw: 100.0,
        ..EkfConfig::default()
    })?;
    if let Some(edition) = edition {
        writer.write_edition(edition)?;
    }
    writer.write_position(3.0, -2.5)?;
    writer.write_velocity(34.0, -10.0)?;
    writer.write_yaw(3.0)?;
    writer.write_predict(2.0, 4.0, 1.3, 0.2)?;
    Ok(writer.used())
}

/// The listing of that log by the second edition.
const TURN_LISTING: &[u8] = b"1 1 D
2 10 D
3 3 A 3D9C28F6
4 4 D
5 6 A 3D3851EC
6 2 D
x 409FB705 BFE64DFF 3FE147AE 418B3333 C0866666 00000000 00000000
p 42480A3D 42480A3D 42480034 424828F6 424828F6 3F800696 3F800696
";

/// That log by each edition.
fn editions_of_logs() -> Right {
    let (mut buf, mut out) = ([0; 128], [0; 1024]);
    let cases = [
        ("log without an edition", None, 79, BY_FIRST),
        ("log of the first", Some(Edition::First), 83, BY_FIRST),
        ("log of the second", Some(Edition::Second), 83, BY_SECOND),
    ];
    for (case, edition, length, there) in cases {
        expect(case, write_turn(&mut buf, edition)? == length)?;
        let Replayed { filter, stop } = replay(&buf[..length]);
        let filter = filter.ok_or(Wrong(case))?;
        expect(case, at(&filter)? == there && stop.is_none())?;
    }
    expect("its record", buf[31..35] == *b"\x0A\x01\x00\x02")?;
    let listing = list(&buf[..83], &mut out);
    expect("its listing", listing == Ok(TURN_LISTING))
}

/// The same log one record at a time: which edition the replayer has, and a prediction by it.
fn edition_by_records() -> Right {
    let mut buf = [0; 128];
    let length = write_turn(&mut buf, Some(Edition::Second))?;
    let (whole, mut replayer) = (replay(&buf[..length]).filter, Replayer::new());
    expect("edition: begins with 1", replayer.edition == 1)?;
    replayer.edition = 7;
    let mut log = Reading {
        replayer,
        rest: &buf[..length],
    };
    log.next("edition: a configuration", DONE)?;
    expect("edition: set to 1", log.replayer.edition == 1)?;
    log.next("edition: its record", DONE)?;
    expect("edition: set to 2", log.replayer.edition == 2)?;
    log.next("edition: a fix", line(accepted(0x3D9C_28F6)))?;
    log.next("edition: a velocity", DONE)?;
    let stays = log.next("edition: a yaw", line(accepted(0x3D38_51EC)))?;
    let (before, record) = (log.replayer, log.rest);
    expect("edition: kept", before.edition == 2)?;
    let ekf = log.next("edition: a turn", DONE)?;
    expect("edition: the log's filter", Some(ekf) == whole)?;
    let after = log.replayer;
    let turn = log.replayer.next(&buf[31..35]);
    expect("edition: again", turn == Turn::Stop(Stop::Place))?;
    expect("edition: the end", log.replayer.next(&[]) == Turn::End)?;
    expect("edition: both leave it", log.replayer == after)?;

    let mut third = Replayer {
        edition: 3,
        ..before
    };
    let turn = third.next(record);
    let refused = Turn::Line(Err(Refusal::OutOfRange));
    expect("edition 3: refused", turn == refused)?;
    let unchanged = third.edition == 3 && third.filter == stays;
    expect("edition 3: unchanged", unchanged)?;
    buf[67..71].copy_from_slice(&f32::NAN.to_le_bytes());
    let turn = third.next(&buf[64..]);
    expect("edition 3: NaN comes before", turn == NOT_FINITE)
}

/// What of an edition stops the reader behind document 01's configuration, and which comes first.
fn editions_that_stop() -> Right {
    let first = replay(b"\x0A\x01\x00\x01").stop;
    expect("an edition first", first == Some(Stop::Place))?;
    let cases: [(_, &[u8], _); 8] = [
        ("twice", b"\x0A\x01\x00\x01\x0A\x01\x00\x01", Stop::Place),
        ("third: 7", b"\x08\x01\x00\x01\x0A\x01\x00\x07", Stop::Place),
        ("second: 0", b"\x0A\x01\x00\x00", Stop::Unknown),
        ("second: 3", b"\x0A\x01\x00\x03", Stop::Unknown),
        ("two bytes", b"\x0A\x02\x00\x01\x01", Stop::Length),
        ("two bytes, cut", b"\x0A\x02\x00\x01", Stop::Length),
        ("cut", b"\x0A\x01\x00", Stop::Cut),
        ("third: cut", b"\x08\x01\x00\x01\x0A\x01\x00", Stop::Cut),
    ];
    for (case, bytes, stop) in cases {
        let mut log = [0; 64];
        log[..31].copy_from_slice(&sample()[..31]);
        log[31..31 + bytes.len()].copy_from_slice(bytes);
        let stopped = replay(&log[..31 + bytes.len()]).stop;
        expect(case, stopped == Some(stop))?;
    }
    Ok(())
}

/// The gate values are 6400 / 200, 921600 / 150, 9 / 200 and 1 / 100.
fn replay_measurements(log: &mut Reading) -> Right {
    let ekf = log.next("configuration", DONE)?;
    let ends = [ekf.config.q_acc, ekf.config.min_speed];
    expect("configuration: its ends", ends == [1.0, 2.0])?;
    log.next("edition", DONE)?;
    expect("edition: the second", log.replayer.edition == 2)?;
    let ekf = log.next("fix", line(accepted(0x4200_0000)))?;
    expect("fix: as K1", ekf.x[0] == 40.0 && ekf.p[1] == 50.0)?;
    let ekf = log.next("fix far off", line(rejected(0x45C0_0000)))?;
    let stays = ekf.x[0] == 40.0 && ekf.rejected_position == 1;
    expect("fix far off: a tally", stays)?;
    let ekf = log.next("velocity", DONE)?;
    expect("velocity: as K4", ekf.x[3..5] == [5.0, -2.0])?;
    let ekf = log.next("yaw", line(accepted(0x3D38_51EC)))?;
    expect("yaw: half of 3", ekf.x[2] == 1.5 && ekf.p[2] == 50.0)?;
    let ekf = log.next("soft yaw", line(accepted(0x3C23_D70A)))?;
    expect("soft yaw: half-way", ekf.x[2] == 2.0 && ekf.p[2] == 25.0)?;
    let ekf = log.next("predict", DONE)?;
    expect("predict: at", ekf.x[..2] == [42.75, -0.5])?;
    expect("predict: velocity", ekf.x[3..5] == [6.0, 0.0])?;
    expect("predict: variance", ekf.p[3] == 50.25)?;
    let ekf = log.next("speed", DONE)?;
    expect("speed: the same", ekf.x[3] == 6.0 && ekf.p[3] < 1.0)?;
    let ekf = log.next("bias", DONE)?;
    let learned = ekf.x[5] > 0.99 && ekf.x[5] < 1.0;
    expect("bias: that of x", learned && ekf.x[6] == 0.0)
}

fn replay_marks(log: &mut Reading) -> Right {
    let ekf = log.next("zupt", DONE)?;
    expect("zupt: stands still", ekf.x[3..5] == [0.0, 0.0])?;
    expect("zupt: variances", ekf.p[3..5] == [2.0, 2.0])?;
    let ekf = log.next("lock_position", DONE)?;
    expect("lock_position: variances", ekf.p[..2] == [1.0, 1.0])?;
    let ekf = log.next("lock_yaw", DONE)?;
    expect("lock_yaw: variance", ekf.p[2] == 0.001)?;
    let ekf = log.next("skip_prediction", DONE)?;
    expect("skip_prediction: raised", ekf.p[0] == 1.0 + 1e-6)?;
    expect("tallies", tallies(&ekf) == [1, 1, 1, 2])?;
    let ekf = log.next("reset_gate_stats", DONE)?;
    expect("reset_gate_stats: zeros", tallies(&ekf) == [0; 4])?;
    expect("NIS of one fix", ekf.nis_position_count == 1)?;
    let ekf = log.next("reset_nis_stats", DONE)?;
    expect("reset_nis_stats: zero", ekf.nis_position_count == 0)
}

fn tallies(ekf: &Ekf) -> [u32; 4] {
    [
        ekf.accepted_position,
        ekf.rejected_position,
        ekf.accepted_velocity,
        ekf.accepted_yaw,
    ]
}

/// A NaN that signals and a zero with a sign, behind what the buffer already holds.
fn writing_bits() -> Right {
    let mut buf = [0xEE; 12];
    let mut writer = LogWriter::behind(&mut buf, 1)?;
    writer.write_position(f32::from_bits(0x7FA1_2345), -0.0)?;
    let wanted = b"\xEE\x03\x08\x00\x45\x23\xA1\x7F\x00\x00\x00\x80";
    expect("the bits of NaN and -0", writer.written() == wanted)
}

fn writing_refused() -> Right {
    let mut buf = [0xEE; 10];
    let beyond = LogWriter::behind(&mut buf, 11).err();
    expect("used: beyond", beyond == Some(WriteRefusal::Used))?;
    let mut writer = LogWriter::behind(&mut buf, 4)?;
    let cases: [(_, _, &[u8], _); 12] = [
        ("tag 0", 0, &[0; 4], WriteRefusal::Unknown),
        ("tag 11", 11, &[1], WriteRefusal::Unknown),
        ("tag 261", 261, &[0; 4], WriteRefusal::Unknown),
        ("a speed of 3 bytes", 5, &[0; 3], WriteRefusal::Length),
        ("a speed of 5 bytes", 5, &[0; 5], WriteRefusal::Length),
        ("mark 0", 8, &[0], WriteRefusal::Unknown),
        ("mark 7", 8, &[7], WriteRefusal::Unknown),
        ("two marks", 8, &[7, 1], WriteRefusal::Length),
        ("edition 0", 10, &[0], WriteRefusal::Unknown),
        ("edition 3", 10, &[3], WriteRefusal::Unknown),
        ("two editions", 10, &[3, 1], WriteRefusal::Length),
        ("a speed behind 4", 5, &[0; 4], WriteRefusal::Full),
    ];
    for (case, tag, payload, refusal) in cases {
        expect(case, writer.append(tag, payload) == Err(refusal))?;
    }
    expect("refused: 4 are used", writer.used() == 4)?;
    expect("refused: nothing is written", buf == [0xEE; 10])?;
    LogWriter::behind(&mut buf, 3)?.write_speed(0.0)?;
    let written = *b"\xEE\xEE\xEE\x05\x04\x00\x00\x00\x00\x00";
    expect("behind 3 it fits", buf == written)?;
    let none = LogWriter::behind(&mut buf, 10)?.write_zupt();
    expect("behind 10 nothing fits", none == Err(WriteRefusal::Full))
}

/// What a writer leaves to the reader.
fn writing_untested() -> Right {
    let (mut buf, config) = ([0; 64], EkfConfig::default());
    let mut writer = LogWriter::new(&mut buf);
    writer.write_position(80.0, 0.0)?;
    let stop = replay(writer.written()).stop;
    expect("a fix as the first record", stop == Some(Stop::Place))?;
    let mut writer = LogWriter::new(&mut buf);
    writer.write_config(config)?;
    writer.write_config(config)?;
    let stop = replay(writer.written()).stop;
    expect("a second configuration", stop == Some(Stop::Place))?;
    let mut writer = LogWriter::new(&mut buf);
    writer.write_edition(Edition::First)?;
    let stop = replay(writer.written()).stop;
    expect("an edition as the first record", stop == Some(Stop::Place))?;
    let mut writer = LogWriter::new(&mut buf);
    writer.write_config(EkfConfig {
        r_pos: 0.0,
        ..config
    })?;
    let stop = replay(writer.written()).stop;
    expect("out of range", stop == Some(Stop::Configuration))
}

/// A summary of these counts, each with its bucket.
fn summary<const N: usize>(counts: [(usize, u32); N], rejections: u32) -> Summary {
    let mut summary = Summary::new();
    for (bucket, count) in counts {
        summary.buckets[bucket] = count;
    }
    summary.rejections = rejections;
    summary
}

/// What a verdict gives, and what it makes of a summary.
fn added(to: Summary, verdict: UpdateResult) -> (Result<(), Refusal>, Summary) {
    let mut summary = to;
    (summary.add(verdict), summary)
}

/// Whether an accepted value raises the count of one bucket by one, and no other.
fn is_in(bucket: usize, gate_value: f32) -> bool {
    let verdict = UpdateResult::Accepted(gate_value);
    added(summary([(bucket, 6)], 6), verdict) == (Ok(()), summary([(bucket, 7)], 6))
}

/// The edges of the buckets, and what is no gate value.
fn buckets() -> Right {
    for bucket in 0..128 {
        let begin = Summary::bucket_begin(bucket);
        let lowest = begin == bucket as f32 * 0.25 && is_in(bucket, begin);
        expect("bucket k begins with k/4", lowest)?;
        let before = f32::from_bits(begin.to_bits().wrapping_sub(1));
        let highest = bucket == 0 || is_in(bucket - 1, before);
        expect("below it is the one before", highest)?;
    }
    expect("32.0 is in bucket 127", is_in(127, 32.0))?;
    expect("0.5 is in bucket 2", is_in(2, 0.5))?;
    expect("-0 is in bucket 0", is_in(0, -0.0))?;
    let (empty, above) = (Summary::new(), 0x4200_0001);
    for verdict in [rejected(above), rejected(0x3F00_0000)] {
        let counted = added(empty, verdict) == (Ok(()), summary([], 1));
        expect("rejected of any size", counted)?;
    }
    let (below, done) = (0xBF00_0000, UpdateResult::Done);
    for verdict in [accepted(above), accepted(below), rejected(below), done] {
        let refused = added(empty, verdict) == (Err(Refusal::OutOfRange), empty);
        expect("no gate value", refused)?;
    }
    let (nan, infinite, less) = (0x7FC0_0000, 0x7F80_0000, 0xFF80_0000);
    for verdict in [accepted(nan), accepted(infinite), rejected(less)] {
        let refused = added(empty, verdict) == (Err(Refusal::NotFinite), empty);
        expect("not finite", refused)?;
    }
    Ok(())
}

fn merges() -> Right {
    let mut day = summary([(2, 5), (127, u32::MAX - 1)], 0);
    let stays = day;
    day.merge(&Summary::default());
    expect("merge: an empty one", day == stays)?;
    day.merge(&summary([], 3));
    let wanted = summary([(2, 5), (127, u32::MAX - 1)], 3);
    expect("merge: rejections", day == wanted)?;
    let again = day;
    day.merge(&again);
    let wanted = summary([(2, 10), (127, u32::MAX)], 6);
    expect("merge: doubled, up to the stop", day == wanted)?;
    let stop = summary([(2, u32::MAX)], 0);
    let stands = added(stop, UpdateResult::Accepted(0.5));
    expect("at the stop it stands still", stands == (Ok(()), stop))
}

/// A summary beside the filter: K1, a fix where the car then is, one far off, and one that is NaN.
fn summary_beside() -> Right {
    let mut ekf = Ekf::with_config(EkfConfig {
        r_pos: 100.0,
        ..EkfConfig::default()
    })?;
    let mut beside = Summary::new();
    beside.add(ekf.update_position(80.0, 0.0)?)?;
    expect("K1: bucket 127", beside == summary([(127, 1)], 0))?;
    beside.add(ekf.update_position(40.0, 0.0)?)?;
    beside.add(ekf.update_position(1000.0, 0.0)?)?;
    let refused = ekf.update_position(f32::NAN, 0.0);
    let counted = refused.and_then(|verdict| beside.add(verdict));
    expect("NaN: no verdict", counted == Err(Refusal::NotFinite))?;
    let wanted = summary([(0, 1), (127, 1)], 1);
    expect("the fixes by bucket", beside == wanted)
}

/// A log of each kind of record, and what is cut of it: of the verdicts only those of position count.
fn summaries_of_logs() -> Right {
    let (log, mut buf) = (sample(), [0; 256]);
    let mut writer = LogWriter::new(&mut buf);
    expect("written", write_each(&mut writer) == [Ok(()); 17])?;
    let (each, empty) = (writer.written(), Summary::new());
    let (one, both) = (summary([(127, 1)], 0), summary([(127, 1)], 1));
    let cases = [
        ("document 01's log", &log[..], one, None),
        ("each kind", each, both, None),
        (
            "cut in its last record",
            &each[..157],
            both,
            Some(Stop::Cut),
        ),
        ("cut in the rejected one", &each[..56], one, Some(Stop::Cut)),
        ("no configuration", &log[..30], empty, Some(Stop::Cut)),
        ("a fix first", &log[31..], empty, Some(Stop::Place)),
        ("an empty log", &[], empty, None),
    ];
    for (case, log, summary, stop) in cases {
        expect(case, summarize(log) == Summarized { summary, stop })?;
    }
    let mut day = summarize(&log).summary;
    day.merge(&summarize(each).summary);
    expect("a day of both logs", day == summary([(127, 2)], 1))?;

    let mut writer = LogWriter::behind(&mut buf, 31)?;
    writer.write_position(f32::NAN, 0.0)?;
    writer.write_position(80.0, 0.0)?;
    let counted = summarize(writer.written()).summary;
    expect("behind a refused fix", counted == one)
}
