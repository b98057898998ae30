//! The parity of a frame: CRC-24Q. It is worked out in three ways, which are
//! compared with each other: here by long division, the way of reader and writer,
//! and beside it one bit at a time and one byte at a time.

pub mod by_bits;
pub mod by_table;

/// The generator with its leading one: a polynomial of degree 24.
pub(crate) const GENERATOR: u32 = 0x186_4CFB;

/// The coefficient of degree 24, the only one a remainder must not have.
const DEGREE_24: u32 = 1 << 24;

/// The CRC-24Q of the first `count` bits of `bytes`, most significant first.
///
/// This is long division as on paper: the message is followed by 24 zero
/// bits, and what is left after dividing by the generator is the parity. The
/// remainder starts from zero and is not changed at the end. The count is in
/// bits because 226 is not a multiple of eight.
pub fn parity(bytes: &[u8], count: usize) -> u32 {
    let mut remainder = 0;
    for position in 0..count {
        let bit = bytes[position / 8] >> (7 - position % 8) & 1;
        remainder = bring_down(remainder, u32::from(bit));
    }
    for _ in 0..24 {
        remainder = bring_down(remainder, 0);
    }
    remainder
}

/// One step of the division: the next bit is written behind the remainder,
/// and the generator is taken away where it goes in.
fn bring_down(remainder: u32, bit: u32) -> u32 {
    let dividend = remainder << 1 | bit;
    if dividend & DEGREE_24 == 0 {
        dividend
    } else {
        dividend ^ GENERATOR
    }
}
