//! The frame of a line of 63 hexadecimal digits.

use crate::bits::Frame;
use crate::line::DIGITS;

/// A line with the byte behind it, which makes as many as the digits of 32 bytes.
pub const BLOCK: usize = DIGITS + 1;

/// What makes the line feed behind a line a digit, and leaves the digits.
const LINE_FEED_TO_ZERO: [u8; BLOCK] = {
    let mut change = [0; BLOCK];
    change[DIGITS] = b'\n' ^ b'0';
    change
};

/// The frame of a line, or nothing where it is not 63 digits.
pub fn frame_of_line(line: &[u8]) -> Option<Frame> {
    let mut block = [b'\n'; BLOCK];
    if line.len() != DIGITS {
        return None;
    }
    block[..DIGITS].copy_from_slice(line);
    frame_of_block(&block)
}

/// The frame of 63 digits with a line feed behind them. There is neither a branch
/// nor a table in the loops, so many digits go at once.
#[inline(always)]
pub fn frame_of_block(block: &[u8; BLOCK]) -> Option<Frame> {
    let mut digits = *block;
    let mut all_digits = true;
    for (digit, change) in digits.iter_mut().zip(LINE_FEED_TO_ZERO) {
        *digit ^= change;
        let decimal = digit.wrapping_sub(b'0');
        // The bit by which small letters differ from capitals is set in both.
        let letter = (*digit | 0x20).wrapping_sub(b'a');
        all_digits &= (decimal < 10) | (letter < 6);
        *digit = if decimal < 10 { decimal } else { letter.wrapping_add(10) };
    }
    let mut frame = [0; 32];
    for (byte, [high, low]) in frame.iter_mut().zip(digits.as_chunks().0) {
        *byte = high << 4 | low;
    }
    all_digits.then_some(frame)
}
