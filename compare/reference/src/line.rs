//! A frame as text: a line of 63 hexadecimal digits.

use crate::bits::{get, set, Frame};
use crate::read::read;
use crate::record::{Record, Refusal};

/// 250 bits need 63 digits; the last two bits of the last one are padding.
pub const DIGITS: usize = 63;

/// The record of a line, or the refusal: 17, then as its frame.
pub fn read_line(line: &[u8]) -> Result<Record, Refusal> {
    read(&frame_of_line(line)?)
}

/// The frame of a line, with padding as the line has it.
pub fn frame_of_line(line: &[u8]) -> Result<Frame, Refusal> {
    if line.len() != DIGITS {
        return Err(Refusal::plain(17));
    }
    let mut frame = [0; 32];
    for (number, &character) in line.iter().enumerate() {
        let digit = char::from(character).to_digit(16).ok_or(Refusal::plain(17))?;
        set(&mut frame, 4 * number, 4, digit.into());
    }
    Ok(frame)
}

/// Writes the digits of a frame, in capitals, to a lent buffer: 1, 2, then 16
/// for a buffer that is shorter than the line. What lies behind stays.
pub fn write_line(frame: &[u8], line: &mut [u8]) -> Result<(), Refusal> {
    let frame: &Frame = frame.try_into().map_err(|_| Refusal::plain(1))?;
    if get(frame, 250, 6) != 0 {
        return Err(Refusal::plain(2));
    }
    let lent = line.get_mut(..DIGITS).ok_or(Refusal::plain(16))?;
    lent.copy_from_slice(&line_of_frame(frame));
    Ok(())
}

/// The 63 digits of a frame in capitals. A line has no place for the last
/// four bits of padding, so they are not looked at.
pub fn line_of_frame(frame: &Frame) -> [u8; DIGITS] {
    std::array::from_fn(|number| b"0123456789ABCDEF"[get(frame, 4 * number, 4) as usize])
}
