//! Test inputs: frames, lines and sentences for reading, records for writing,
//! histories for page stores, right ones and wrong ones. Everything is drawn from the
//! generator that is handed in, so a seed names an input.

mod bulletins;
mod frames;
mod histories;
mod lines;
mod malformed_records;
mod numbers;
mod places;
mod records;
mod sentences;
mod stores;

pub use bulletins::*;
pub use frames::*;
pub use histories::*;
pub use lines::*;
pub use malformed_records::*;
pub use numbers::*;
pub use places::*;
pub use records::*;
pub use sentences::*;
pub use stores::*;

use crate::bits::{set, Frame};
use crate::fields::{fields_and_parts, groups, slot_layout, Field};
use crate::parity::parity;
use crate::random::Random;
use crate::record::{Category, Record};

/// A number to be written at some bits of a frame, in range or not.
#[derive(Clone, Copy, Debug)]
pub struct RawValue {
    pub first: usize,
    pub width: usize,
    pub value: u64,
}

/// One stretch of allowed values of a field. A field that allows several
/// stretches has several rows, and one more for the code of its group.
#[derive(Clone, Copy, Debug)]
pub struct Bounds {
    pub first: usize,
    pub width: usize,
    pub lowest: u64,
    pub highest: u64,
}

impl Bounds {
    /// The values at both ends and just outside, where the width holds them.
    pub fn edges(&self) -> Vec<u64> {
        let mut values = vec![self.lowest, self.highest];
        values.extend(self.lowest.checked_sub(1));
        values.extend(Some(self.highest + 1).filter(|above| above >> self.width == 0));
        values
    }

    /// One of the edges, to be written to a frame.
    pub fn any_edge(&self, random: &mut Random) -> RawValue {
        RawValue { first: self.first, width: self.width, value: random.pick(&self.edges()) }
    }

    /// The edges, and a value that no frame can have there: it looks allowed if only
    /// its low bits are seen.
    pub fn edges_and_too_wide(&self) -> Vec<u64> {
        let [low_bits_alone, ..] = self.far_outside();
        [self.edges(), vec![low_bits_alone]].concat()
    }

    /// Values that no field of this width holds: a record may have them all
    /// the same. The first one looks allowed if only its low bits are seen.
    pub fn far_outside(&self) -> [u64; 3] {
        [self.lowest + (1 << self.width), 1 << self.width, u64::MAX]
    }
}

/// The rows of a category, spares and slots included.
pub fn bounds(category: Category) -> Vec<Bounds> {
    fields_and_parts(category).iter().flat_map(field_bounds).collect()
}

fn field_bounds(field: &Field) -> Vec<Bounds> {
    let (first, width) = (field.first, field.width);
    let row = |&(lowest, highest): &(u64, u64)| Bounds { first, width, lowest, highest };
    let code = field.group_code.map(|code| (code, code));
    field.allowed.iter().chain(&code).map(row).collect()
}

/// A zero for a part of a slot that must not be zero where the slot is used.
fn part_of_zero(random: &mut Random, category: Category, slot: usize) -> RawValue {
    let mut parts = slot_layout(category).parts(slot);
    parts.retain(|part| !part.allows(0));
    let Field { first, width, .. } = random.pick(&parts);
    RawValue { first, width, value: 0 }
}

/// The fields of one group of a category that has any.
fn any_group(random: &mut Random, category: Category) -> Vec<Field> {
    let mut all = groups(category);
    all.swap_remove(random.below(all.len()))
}

/// What can be done to a frame or a record at one place.
#[derive(Clone, Copy, Debug)]
enum Disturbance {
    FieldAtEdge,
    SpareUsed,
    SlotEmptied,
    PartOfZero,
    CodesMixed,
}

/// One of the disturbances that a category knows.
fn any_disturbance(random: &mut Random, category: Category) -> Disturbance {
    let mut known = vec![Disturbance::FieldAtEdge, Disturbance::SpareUsed];
    if WITH_SLOTS.contains(&category) {
        known.extend([Disturbance::SlotEmptied, Disturbance::PartOfZero]);
    }
    if WITH_GROUPS.contains(&category) {
        known.push(Disturbance::CodesMixed);
    }
    random.pick(&known)
}

/// Gives a frame the parity of its first 226 bits.
pub fn seal(frame: &mut Frame) {
    let sum = parity(frame, 226);
    set(frame, 226, 24, sum.into());
}

/// A frame with some values overwritten, in range or not, and right parity.
pub fn raw_frame(base: &Frame, values: &[RawValue]) -> Frame {
    let mut frame = *base;
    for raw in values {
        set(&mut frame, raw.first, raw.width, raw.value);
    }
    seal(&mut frame);
    frame
}

/// An allowed value, with the ends of the stretches favoured.
pub fn allowed_value(random: &mut Random, allowed: &[(u64, u64)]) -> u64 {
    let (lowest, highest) = random.pick(allowed);
    match random.below(4) {
        0 => lowest,
        1 => highest,
        _ => random.between(lowest, highest),
    }
}

pub fn any_category(random: &mut Random) -> Category {
    random.pick(&Category::ALL)
}

/// Bytes of any kind this module knows, for the reader.
pub fn any_frame(random: &mut Random) -> Vec<u8> {
    let category = any_category(random);
    let frame = match random.below(15) {
        0 => valid_frame(random, category),
        1 => boundary_frame(random, category),
        2 => gap_frame(random),
        3 => half_filled_frame(random),
        4 => spare_frame(random, category),
        5 => many_faults_frame(random, category),
        6 => random_sealed_frame(random),
        7 => random_stretch_frame(random, category),
        8 => random_slots_frame(random),
        9 => envelope_fault_frame(random, category),
        10 => flipped_frame(random, category),
        11 => page_frame(random),
        12 => group_frame(random),
        13 => return random_bytes(random, 32),
        _ => {
            let length = random.below(41);
            return slice_of_length(random, length);
        }
    };
    frame.to_vec()
}

/// A record of any kind this module knows, for the writer.
pub fn any_record(random: &mut Random) -> Record {
    let category = any_category(random);
    match random.below(12) {
        0 => valid_record(random, category),
        1 => boundary_record(random, category),
        2 => unused_filled_record(random, category),
        3 => gap_record(random),
        4 => half_filled_record(random),
        5 => bad_preamble_record(random, category),
        6 => no_category_record(random),
        7 => many_faults_record(random, category),
        8 => page_record(random),
        9 => group_record(random),
        10 => spare_record(random, category),
        _ => random_record(random, category),
    }
}
