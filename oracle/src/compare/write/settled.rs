//! Records settled on paper: written, refused, and refused where two refusals apply at once.

/// The lengths of the buffer and of what is used of it, the tag, the payload, and the record that is
/// written behind the used bytes, or the refusal's number.
pub type Case = (usize, u64, u32, &'static [u8], Result<&'static [u8], u32>);

const ONE: &[u8] = b"\x00\x00\x80\x3F";

/// A configuration of NaNs.
const NANS: [u8; 31] = {
    let mut record = [0xFF; 31];
    [record[0], record[1], record[2]] = [0x01, 0x1C, 0x00];
    record
};

#[rustfmt::skip]
pub const CASES: [Case; 77] = [
    // each tag, in a buffer that it fills
    (31, 0, 1, &[0xFF; 28], Ok(&NANS)),
    (19, 0, 2, b"abcdefghijklmnop", Ok(b"\x02\x10\x00abcdefghijklmnop")),
    (11, 0, 3, b"\x00\x00\xA0\x42\x00\x00\x00\x00", Ok(b"\x03\x08\x00\x00\x00\xA0\x42\x00\x00\x00\x00")),
    (11, 0, 4, b"abcdefgh", Ok(b"\x04\x08\x00abcdefgh")),
    (7, 0, 5, ONE, Ok(b"\x05\x04\x00\x00\x00\x80\x3F")),
    (7, 0, 6, ONE, Ok(b"\x06\x04\x00\x00\x00\x80\x3F")),
    (11, 0, 7, b"abcdefgh", Ok(b"\x07\x08\x00abcdefgh")),
    (11, 0, 9, b"abcdefgh", Ok(b"\x09\x08\x00abcdefgh")),
    // a configuration behind others
    (40, 7, 1, &[0xFF; 28], Ok(&NANS)),
    // each mark, behind others
    (24, 0, 8, b"\x01", Ok(b"\x08\x01\x00\x01")),
    (24, 4, 8, b"\x02", Ok(b"\x08\x01\x00\x02")),
    (24, 8, 8, b"\x03", Ok(b"\x08\x01\x00\x03")),
    (24, 12, 8, b"\x04", Ok(b"\x08\x01\x00\x04")),
    (24, 16, 8, b"\x05", Ok(b"\x08\x01\x00\x05")),
    (24, 20, 8, b"\x06", Ok(b"\x08\x01\x00\x06")),
    // each edition, in a buffer that it fills, and behind others, wherever the reader takes it
    (4, 0, 10, b"\x01", Ok(b"\x0A\x01\x00\x01")),
    (40, 31, 10, b"\x02", Ok(b"\x0A\x01\x00\x02")),
    // NaNs, quiet and not, with payloads
    (16, 5, 5, b"\x00\x00\xC0\x7F", Ok(b"\x05\x04\x00\x00\x00\xC0\x7F")),
    (16, 5, 5, b"\x01\x00\x80\x7F", Ok(b"\x05\x04\x00\x01\x00\x80\x7F")),
    (16, 5, 6, b"\xEF\xBE\xBD\xFF", Ok(b"\x06\x04\x00\xEF\xBE\xBD\xFF")),
    // a payload that fits to the last byte; one byte less room; room for the payload alone, for the
    // header alone, for less, and none
    (10, 3, 5, ONE, Ok(b"\x05\x04\x00\x00\x00\x80\x3F")),
    (9, 3, 5, ONE, Err(11)),
    (7, 3, 5, ONE, Err(11)),
    (6, 3, 5, ONE, Err(11)),
    (5, 3, 5, ONE, Err(11)),
    (3, 3, 5, ONE, Err(11)),
    (0, 0, 8, b"\x01", Err(11)),
    (3, 0, 8, b"\x01", Err(11)),
    // a used length beyond the buffer, where nothing is left either
    (3, 4, 5, ONE, Err(2)),
    (0, 1, 8, b"\x01", Err(2)),
    (40, 41, 5, ONE, Err(2)),
    (40, 256, 5, ONE, Err(2)),
    (40, 1 << 32, 5, ONE, Err(2)),
    (40, 1 << 63, 5, ONE, Err(2)),
    (40, u64::MAX, 5, ONE, Err(2)),
    (40, u64::MAX - 6, 5, ONE, Err(2)),
    (40, u64::MAX - 3, 8, b"\x01", Err(2)),
    // an unknown tag, alone; with a used length beyond the buffer; with no room
    (40, 0, 0, b"", Err(8)),
    (40, 0, 11, b"\x01", Err(8)),
    (40, 5, 255, ONE, Err(8)),
    (40, 5, 256, b"", Err(8)),
    (40, 5, 259, b"abcdefgh", Err(8)),
    (40, 5, 264, b"\x01", Err(8)),
    (40, 5, 0x8000_0005, ONE, Err(8)),
    (40, 5, u32::MAX, ONE, Err(8)),
    (40, 41, 11, b"\x01", Err(8)),
    (40, u64::MAX, 0, b"", Err(8)),
    (40, 40, 11, b"\x01", Err(8)),
    (0, 0, 0, b"", Err(8)),
    // a wrong length, alone; with an unknown mark; with a used length beyond the buffer; with no room
    (40, 5, 5, b"\x00\x00\x80", Err(9)),
    (40, 5, 5, b"\x00\x00\x80\x3F\x00", Err(9)),
    (40, 5, 5, b"", Err(9)),
    (40, 5, 6, b"abcdefgh", Err(9)),
    (40, 5, 1, &[0; 27], Err(9)),
    (40, 5, 8, b"", Err(9)),
    (40, 5, 8, b"\x01\x01", Err(9)),
    (40, 5, 8, b"\x07\x07", Err(9)),
    (40, 5, 8, b"\x00\x00\x00\x00", Err(9)),
    (40, 5, 10, b"", Err(9)),
    (40, 5, 10, b"\x02\x02", Err(9)),
    (40, 41, 10, b"\x03\x03", Err(9)),
    (40, 41, 5, b"", Err(9)),
    (40, u64::MAX, 3, ONE, Err(9)),
    (40, 39, 3, ONE, Err(9)),
    (0, 0, 8, b"", Err(9)),
    // an unknown mark, alone; with a used length beyond the buffer; with no room
    (40, 5, 8, b"\x00", Err(8)),
    (40, 5, 8, b"\x07", Err(8)),
    (40, 5, 8, b"\xFF", Err(8)),
    (40, 41, 8, b"\x00", Err(8)),
    (40, u64::MAX, 8, b"\x07", Err(8)),
    (40, 40, 8, b"\x07", Err(8)),
    (3, 0, 8, b"\x00", Err(8)),
    // an unknown edition, with a used length beyond the buffer; with no room; alone
    (40, 41, 10, b"\x00", Err(8)),
    (40, 40, 10, b"\x03", Err(8)),
    (40, 5, 10, b"\x00", Err(8)),
    (40, 5, 10, b"\x03", Err(8)),
    (40, 5, 10, b"\xFF", Err(8)),
];
