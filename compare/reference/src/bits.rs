//! Fields of a frame by first bit and width, one bit at a time.

/// A frame in memory: 250 bits, most significant first, and six of padding.
pub type Frame = [u8; 32];

/// The bit at a position; position 0 is the highest bit of the first byte.
pub fn bit(frame: &Frame, position: usize) -> bool {
    frame[position / 8] & mask(position) != 0
}

/// Sets or clears the bit at a position.
pub fn set_bit(frame: &mut Frame, position: usize, one: bool) {
    if one {
        frame[position / 8] |= mask(position);
    } else {
        frame[position / 8] &= !mask(position);
    }
}

/// The number held by `width` bits from `first` on, at most 64.
pub fn get(frame: &Frame, first: usize, width: usize) -> u64 {
    let mut value = 0;
    for position in first..first + width {
        value = value * 2 + u64::from(bit(frame, position));
    }
    value
}

/// Writes the lowest `width` bits of `value` from `first` on; higher bits of
/// the value have no place there and are not looked at.
pub fn set(frame: &mut Frame, first: usize, width: usize, value: u64) {
    for offset in 0..width {
        let one = value >> (width - 1 - offset) & 1 == 1;
        set_bit(frame, first + offset, one);
    }
}

/// The one bit of a byte that a position names.
fn mask(position: usize) -> u8 {
    0b1000_0000 >> (position % 8)
}
