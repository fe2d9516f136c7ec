//! A log replayed one record at a time.

use track::{Refusal, Replayer, Stop, Turn, UpdateResult, record_length};

/// Hands each line on: the record's number, its tag, and what its call gave. Gives the replayer at the end,
/// and the stop, if there was one.
pub fn replay(
    log: &[u8],
    mut line: impl FnMut(u32, u8, Result<UpdateResult, Refusal>),
) -> (Replayer, Option<Stop>) {
    let (mut replayer, mut rest) = (Replayer::new(), log);
    loop {
        let number = replayer.number;
        match replayer.next(rest) {
            Turn::Line(given) => line(number, rest[0], given),
            Turn::Stop(stop) => return (replayer, Some(stop)),
            Turn::End => return (replayer, None),
        }
        rest = &rest[record_length([rest[0], rest[1], rest[2]])..];
    }
}
