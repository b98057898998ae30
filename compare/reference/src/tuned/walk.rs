//! A walk over the fields of a category, from the lowest bit to the highest. Where
//! the numbers come from, and whether they are carried anywhere, is what the four
//! walks differ in; the rules are the same for all of them.
//!
//! Everything here is put into its caller, where the field is a constant: a step
//! then is a few instructions, and what a width already says is not tested.

use super::record_bytes::{get, put, RecordBytes, PLACE, SLOTS, SLOT_BYTES};
use super::words::Words;
use crate::record::Refusal;

/// Where a number stands: its bits in a frame, its bytes in a record.
#[derive(Clone, Copy)]
pub struct Field {
    pub first: usize,
    pub width: usize,
    pub at: usize,
    pub bytes: usize,
}

/// A field outside the slots: the number of its bytes follows from that of its bits.
pub const fn field(first: usize, width: usize, at: usize) -> Field {
    let bytes = match width {
        0..=8 => 1,
        9..=16 => 2,
        17..=32 => 4,
        _ => 8,
    };
    Field { first, width, at, bytes }
}

/// Where the slots of a category stand.
#[derive(Clone, Copy)]
pub struct Slots {
    pub first: usize,
    pub width: usize,
    pub count: usize,
}

impl Slots {
    #[inline(always)]
    pub fn first_bit(&self, slot: usize) -> usize {
        self.first + self.width * slot
    }

    /// A part of a slot that has one byte in a record.
    #[inline(always)]
    pub fn part(&self, slot: usize, offset: usize, width: usize, byte: usize) -> Field {
        let at = SLOTS + SLOT_BYTES * slot + byte;
        Field { first: self.first_bit(slot) + offset, width, at, bytes: 1 }
    }

    /// The place, which is the last part and has eight.
    #[inline(always)]
    pub fn place(&self, slot: usize, offset: usize) -> Field {
        let width = self.width - offset;
        Field { bytes: 8, ..self.part(slot, offset, width, PLACE) }
    }
}

pub trait Walk {
    /// The number of a field, which is carried over where the walk carries any.
    fn value(&mut self, field: Field) -> u64;

    /// Whether all slots from one to just before another are empty.
    fn are_empty(&self, slots: Slots, from: usize, to: usize) -> bool;

    #[inline(always)]
    fn between(&mut self, field: Field, lowest: u64, highest: u64) -> Result<(), Refusal> {
        self.one_of(field, |value| lowest <= value && value <= highest)
    }

    #[inline(always)]
    fn one_of(&mut self, field: Field, allowed: impl Fn(u64) -> bool) -> Result<(), Refusal> {
        let value = self.value(field);
        require(field, value, allowed(value))
    }

    /// Any number that the bits of the field hold. A record may have a wider one.
    #[inline(always)]
    fn any(&mut self, field: Field) -> Result<(), Refusal> {
        self.between(field, 0, u64::MAX >> (64 - field.width))
    }
}

#[inline(always)]
pub fn require(field: Field, value: u64, right: bool) -> Result<(), Refusal> {
    if right {
        Ok(())
    } else {
        Err(Refusal::out_of_range(field.first, value))
    }
}

/// Looks at a frame.
pub struct FromFrame<'a>(pub &'a Words);

/// Reads a frame into a record that is zero so far.
pub struct IntoRecord<'a> {
    pub from: &'a Words,
    pub to: &'a mut RecordBytes,
}

/// Looks at a record.
pub struct FromRecord<'a>(pub &'a RecordBytes);

/// Writes a record to words that are zero so far. Once a number is too wide for
/// its bits the words are of no use, but then the walk ends with a refusal. They are
/// its own, so that they need not be in memory before it ends.
pub struct IntoFrame<'a> {
    pub from: &'a RecordBytes,
    pub to: Words,
}

impl Walk for FromFrame<'_> {
    #[inline(always)]
    fn value(&mut self, field: Field) -> u64 {
        self.0.get(field.first, field.width)
    }

    #[inline(always)]
    fn are_empty(&self, slots: Slots, from: usize, to: usize) -> bool {
        self.0.are_zero(slots.first_bit(from), slots.first_bit(to))
    }
}

impl Walk for IntoRecord<'_> {
    #[inline(always)]
    fn value(&mut self, field: Field) -> u64 {
        let value = FromFrame(self.from).value(field);
        put(self.to, field.at, field.bytes, value);
        value
    }

    #[inline(always)]
    fn are_empty(&self, slots: Slots, from: usize, to: usize) -> bool {
        FromFrame(self.from).are_empty(slots, from, to)
    }
}

impl Walk for FromRecord<'_> {
    #[inline(always)]
    fn value(&mut self, field: Field) -> u64 {
        get(self.0, field.at, field.bytes)
    }

    #[inline(always)]
    fn are_empty(&self, _: Slots, from: usize, to: usize) -> bool {
        let bytes = &self.0[SLOTS + SLOT_BYTES * from..SLOTS + SLOT_BYTES * to];
        bytes.iter().fold(0, |ones, byte| ones | byte) == 0
    }
}

impl Walk for IntoFrame<'_> {
    #[inline(always)]
    fn value(&mut self, field: Field) -> u64 {
        let value = FromRecord(self.from).value(field);
        self.to.put(field.first, field.width, value);
        value
    }

    #[inline(always)]
    fn are_empty(&self, slots: Slots, from: usize, to: usize) -> bool {
        FromRecord(self.from).are_empty(slots, from, to)
    }
}
