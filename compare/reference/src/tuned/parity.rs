//! The parity sixteen bytes at a time.

use super::words::Words;
use crate::bits::Frame;
use crate::parity::by_bits::REGISTER;
use crate::parity::by_table::table;

const AT_ONCE: usize = 16;

/// For every byte with 0 to 15 zero bytes behind it, what is left in the register.
/// The register of several bytes is the sum of what each would leave alone, so
/// sixteen of them are sixteen entries, none of which waits for another.
static TABLES: [[u32; 256]; AT_ONCE] = tables();

/// The parity of bits 0 to 225 of a frame.
pub fn parity(frame: &Frame) -> u32 {
    of_words(&Words::of_frame(frame))
}

/// The same of words. What stands behind bit 225 is moved out, so that the last
/// bit is the last of a byte; zeros in front leave the register as it starts.
#[inline(always)]
pub fn of_words(words: &Words) -> u32 {
    register(&words.moved_back(256 - 226).to_frame())
}

/// Whether a frame without padding carries its parity: then the generator divides
/// it, with its parity and six zeros more, and nothing is left.
#[inline(always)]
pub fn is_right(frame: &Frame) -> bool {
    register(frame) == 0
}

/// The register after all 256 bits.
#[inline(always)]
fn register(frame: &Frame) -> u32 {
    let (halves, _) = frame.as_chunks::<AT_ONCE>();
    halves.iter().fold(0, take_half)
}

/// The 24 bits that leave the register meet the first three bytes that come. The
/// fewer bytes stand behind one, the lower is the number of its table.
#[inline(always)]
fn take_half(register: u32, half: &[u8; AT_ONCE]) -> u32 {
    let [_, leaving @ ..] = register.to_be_bytes();
    let [first, second, third, behind @ ..] = half;
    let met = [first ^ leaving[0], second ^ leaving[1], third ^ leaving[2]];
    let bytes = met.iter().chain(behind);
    let entries = bytes.zip(TABLES.iter().rev());
    entries.fold(0, |sum, (&byte, table)| sum ^ table[usize::from(byte)])
}

const fn tables() -> [[u32; 256]; AT_ONCE] {
    let mut tables = [table(); AT_ONCE];
    let mut zero_bytes = 1;
    while zero_bytes < AT_ONCE {
        let mut byte = 0;
        while byte < 256 {
            let register = tables[zero_bytes - 1][byte];
            let leaving = (register >> 16) as usize;
            tables[zero_bytes][byte] = (register << 8 & REGISTER) ^ tables[0][leaving];
            byte += 1;
        }
        zero_bytes += 1;
    }
    tables
}
