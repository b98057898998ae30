//! Damage to a frame on its way to the receiver: bits are changed, all of them
//! within some consecutive bits of the 250. Document 02 says what is answered
//! where they lie within 24 and the frame was read before.

use crate::bits::{bit, set_bit, Frame};
use crate::parity::GENERATOR;
use crate::record::PREAMBLES;

/// The bits of a frame, without its padding.
pub const FRAME_BITS: usize = 250;

/// The most consecutive bits of which document 02 says something.
pub const PROMISED_BITS: usize = 24;

/// Which of `width` bits from `first` on are changed: those that are one in
/// `changed`, whose highest bit stands for the first.
#[derive(Clone, Copy, Debug)]
pub struct Damage {
    pub first: usize,
    pub width: usize,
    pub changed: u64,
}

impl Damage {
    /// The same damage wherever it lies within the 250 bits.
    pub fn everywhere(width: usize, changed: u64) -> impl Iterator<Item = Damage> {
        (0..=FRAME_BITS - width).map(move |first| Damage { first, width, changed })
    }

    /// What becomes of a frame.
    pub fn done_to(&self, frame: &Frame) -> Frame {
        let mut damaged = *frame;
        for offset in 0..self.width {
            if self.changed >> (self.width - 1 - offset) & 1 == 1 {
                let position = self.first + offset;
                set_bit(&mut damaged, position, !bit(frame, position));
            }
        }
        damaged
    }
}

/// The narrowest damage that leaves a parity right, at every place: the ones of the
/// generator, which has 25 bits.
pub fn unseen_by_parity() -> impl Iterator<Item = Damage> {
    Damage::everywhere(25, GENERATOR.into())
}

/// "refused, with 3 or 4 and nothing else": 3 comes before 4, so it is the number
/// where the preamble is no longer one of the three.
pub fn promised_number(damaged: &Frame) -> u8 {
    if PREAMBLES.contains(&damaged[0]) {
        4
    } else {
        3
    }
}
