//! The rows of a listing as text.

use super::Look;
use crate::record::{OUT_OF_RANGE, SLOT_AFTER_EMPTY};

/// A short text. All of its bytes are put and those behind its length taken away
/// again, which is quicker than to put as many as there are.
#[derive(Clone, Copy)]
struct Short<const MOST: usize> {
    bytes: [u8; MOST],
    length: usize,
}

impl<const MOST: usize> Short<MOST> {
    #[inline(always)]
    fn put(&self, rows: &mut Vec<u8>) {
        let end = rows.len() + self.length;
        rows.extend_from_slice(&self.bytes);
        rows.truncate(end);
    }
}

/// A line number as it is printed, so that no number is divided for a row.
pub struct LineNumber(Short<8>);

impl LineNumber {
    pub const ZERO: LineNumber = LineNumber(Short { bytes: *b"0       ", length: 1 });

    #[inline(always)]
    pub fn count_up(&mut self) {
        let Short { bytes, length } = &mut self.0;
        for digit in bytes[..*length].iter_mut().rev() {
            if *digit != b'9' {
                *digit += 1;
                return;
            }
            *digit = b'0';
        }
        // All were nines and are zeros now, so that a one comes in front.
        bytes[0] = b'1';
        bytes[*length] = b'0';
        *length += 1;
    }

    #[inline(always)]
    pub fn put(&self, rows: &mut Vec<u8>) {
        self.0.put(rows);
    }
}

/// What stands behind the line number of a frame that was read, by its category
/// and the number of its slots.
static READ: [[Short<16>; 17]; 12] = read_rows();

/// Puts what stands in a row behind the line number.
#[inline(always)]
pub fn put_answer(rows: &mut Vec<u8>, look: &Look) {
    if look.answer == 0 {
        READ[usize::from(look.category)][usize::from(look.slots)].put(rows);
    } else {
        put_refusal(rows, look);
    }
}

fn put_refusal(rows: &mut Vec<u8>, look: &Look) {
    put_number(rows, look.answer.into());
    if !matches!(look.answer, OUT_OF_RANGE | SLOT_AFTER_EMPTY) {
        return rows.extend_from_slice(b" - - - -\n");
    }
    put_number(rows, look.place.into());
    if look.answer == OUT_OF_RANGE {
        rows.extend_from_slice(b" - -");
        put_number(rows, look.value);
        rows.push(b'\n');
    } else {
        rows.extend_from_slice(b" - - -\n");
    }
}

/// A blank and a number, from its last digit to its first.
fn put_number(rows: &mut Vec<u8>, mut number: u64) {
    let mut text = [b' '; 21];
    let mut first = text.len();
    loop {
        first -= 1;
        text[first] = b'0' + (number % 10) as u8;
        number /= 10;
        if number == 0 {
            return rows.extend_from_slice(&text[first - 1..]);
        }
    }
}

const fn read_rows() -> [[Short<16>; 17]; 12] {
    let mut rows = [[Short { bytes: [0; 16], length: 0 }; 17]; 12];
    let mut category = 0;
    while category < rows.len() {
        let mut slots = 0;
        while slots < rows[category].len() {
            rows[category][slots] = read_row(category, slots);
            slots += 1;
        }
        category += 1;
    }
    rows
}

const fn read_row(category: usize, slots: usize) -> Short<16> {
    let row = with(Short { bytes: [0; 16], length: 0 }, b" 0 - ");
    let row = with(with_number(row, category), b" ");
    let row = if slots == 0 { with(row, b"-") } else { with_number(row, slots) };
    with(row, b" -\n")
}

const fn with(mut row: Short<16>, text: &[u8]) -> Short<16> {
    let mut place = 0;
    while place < text.len() {
        row.bytes[row.length] = text[place];
        row.length += 1;
        place += 1;
    }
    row
}

/// A number below 100.
const fn with_number(row: Short<16>, number: usize) -> Short<16> {
    let digits = [b'0' + (number / 10) as u8, b'0' + (number % 10) as u8];
    let [_, last] = digits;
    if number < 10 {
        with(row, &[last])
    } else {
        with(row, &digits)
    }
}
