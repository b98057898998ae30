//! The parity one byte at a time, by the usual table of 256 entries: what programs
//! do for which one bit at a time is too slow.

use super::by_bits::{take_bit, REGISTER};

/// For every byte, what the register holds after its eight bits. No entry is typed
/// in: the compiler works them out by the rule for one bit.
static TABLE: [u32; 256] = table();

/// The CRC-24Q of the first `count` bits of `bytes`, most significant first.
///
/// Whole bytes go by the table, and the bits behind the last of them one at a
/// time: of the 226 bits of a frame 28 bytes and two bits.
pub fn parity(bytes: &[u8], count: usize) -> u32 {
    let mut register = bytes[..count / 8].iter().fold(0, take_byte);
    for position in count / 8 * 8..count {
        let bit = bytes[position / 8] >> (7 - position % 8) & 1;
        register = take_bit(register, u32::from(bit));
    }
    register
}

/// Eight steps at once: the eight bits that leave the register meet those that
/// come, and the entry is what the eight steps would make of them.
fn take_byte(register: u32, byte: &u8) -> u32 {
    let leaving = (register >> 16) as u8;
    (register << 8 & REGISTER) ^ TABLE[usize::from(leaving ^ byte)]
}

/// The table, which is also the first of several where bytes go by more at once.
pub(crate) const fn table() -> [u32; 256] {
    let mut table = [0; 256];
    let mut byte = 0;
    while byte < 256 {
        table[byte] = entry(byte as u32);
        byte += 1;
    }
    table
}

/// The register after the eight bits of a byte.
const fn entry(byte: u32) -> u32 {
    let mut register = 0;
    let mut place = 8;
    while place > 0 {
        place -= 1;
        register = take_bit(register, byte >> place & 1);
    }
    register
}
