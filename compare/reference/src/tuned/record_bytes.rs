//! A record as the 251 bytes of the C header.

pub const RECORD_BYTES: usize = 251;

pub type RecordBytes = [u8; RECORD_BYTES];

pub const CATEGORY: usize = 0;
pub const PREAMBLE: usize = 1;
pub const RESERVED: usize = 2;

/// Where that begins which a category has beside slots and text.
const OWN: usize = 9;
pub const SLOTS: usize = 41;
pub const SLOT_BYTES: usize = 12;
pub const PLACE: usize = 4;
pub const TEXT: usize = 233;

/// The number in 1, 2, 4 or 8 bytes, the most significant first.
#[inline(always)]
pub fn get(record: &RecordBytes, at: usize, bytes: usize) -> u64 {
    let mut number = [0; 8];
    number[8 - bytes..].copy_from_slice(&record[at..at + bytes]);
    u64::from_be_bytes(number)
}

/// Puts a number that fits so many bytes.
#[inline(always)]
pub fn put(record: &mut RecordBytes, at: usize, bytes: usize, value: u64) {
    record[at..at + bytes].copy_from_slice(&value.to_be_bytes()[8 - bytes..]);
}

/// Whether something stands where the category has nothing. The bytes of the two
/// are met all at once, which is faster than to look at those few alone.
#[inline(always)]
pub fn has_something_unused(record: &RecordBytes, category: u8) -> bool {
    let unused = match category {
        2 => &HYPOCENTER,
        3 => &INTENSITY,
        4 => &NANKAI,
        5 => &TSUNAMI,
        8 => &VOLCANO,
        9 => &ASH_FALL,
        _ => &FLOOD,
    };
    let bytes = record[OWN..].iter().zip(&unused[OWN..]);
    bytes.fold(0, |met, (byte, unused)| met | (byte & unused)) != 0
}

// For each category ones in the bytes where it has nothing. A part of a slot that
// is tested by its range anyway is not unused.
static HYPOCENTER: RecordBytes = unused(41, 0, [0, 0, 0, 0], false);
static INTENSITY: RecordBytes = unused(15, 16, [0, 0, 0, 1], false);
static NANKAI: RecordBytes = unused(15, 0, [0, 0, 0, 0], true);
static TSUNAMI: RecordBytes = unused(18, 5, [1, 1, 1, 1], false);
static VOLCANO: RecordBytes = unused(19, 5, [0, 0, 0, 0], false);
static ASH_FALL: RecordBytes = unused(19, 4, [0, 1, 0, 1], false);
static FLOOD: RecordBytes = unused(15, 3, [0, 0, 0, 1], false);

/// What a category leaves unused, by the end of its own fields, its slots, which
/// of day, hour, minute and strength they have, and whether it has a text.
const fn unused(own_end: usize, slots: usize, parts: [u8; 4], text: bool) -> RecordBytes {
    let mut unused = [0; RECORD_BYTES];
    let mut at = OWN;
    while at < RECORD_BYTES {
        let has = if at < SLOTS {
            at < own_end
        } else if at < TEXT {
            let part = (at - SLOTS) % SLOT_BYTES;
            (at - SLOTS) / SLOT_BYTES < slots && (part >= PLACE || parts[part] == 1)
        } else {
            text
        };
        unused[at] = if has { 0 } else { 0xFF };
        at += 1;
    }
    unused
}
