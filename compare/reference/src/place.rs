//! The list of places: the codes of table 4.1.2-33, and how a place stands to them.

use crate::meaning::prefecture;

/// How many codes parts 1 to 16 of the table have, no two of them the same. The
/// rows of parts 17 and 18 are patterns and no codes.
pub const COUNT: usize = 1_792;

/// Every code of the table, in rising order.
pub static CODES: [u32; COUNT] = codes(include_bytes!("../place-codes.txt"));

#[derive(Clone, Copy, PartialEq, Eq, Debug)]
pub enum Standing {
    Listed,
    /// In a prefecture all the same: "The standard allows unlisted codes".
    Unlisted,
    Outside,
}

/// "Answer listed, unlisted but within a prefecture, or outside." A place that no
/// code is wide enough for is searched for as a whole, and not by its low bits.
pub fn standing(place: u64) -> Standing {
    let is_listed = u32::try_from(place).is_ok_and(|code| CODES.binary_search(&code).is_ok());
    match prefecture(place) {
        _ if is_listed => Standing::Listed,
        Some(_) => Standing::Unlisted,
        None => Standing::Outside,
    }
}

/// The numbers of a file, one a line. They are worked out when this is compiled, so
/// that a search goes through a table and not through text; a file with more lines
/// or fewer, or with anything else in a line than digits, is not compiled.
const fn codes(file: &[u8]) -> [u32; COUNT] {
    let mut codes = [0; COUNT];
    let (mut line, mut next) = (0, 0);
    while next < file.len() {
        match file[next] {
            b'\n' => line += 1,
            digit @ b'0'..=b'9' => codes[line] = 10 * codes[line] + (digit - b'0') as u32,
            _ => panic!("a code is made of digits"),
        }
        next += 1;
    }
    assert!(line == COUNT, "the file has as many lines as the table has codes");
    codes
}
