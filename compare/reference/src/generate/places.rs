//! Frames by the places that their slots name, listed ones and others.

use super::{allowed_value, frame_with_slots, raw_frame, RawValue};
use crate::bits::Frame;
use crate::fields::{slot_layout, Field};
use crate::place::CODES;
use crate::random::Random;
use crate::record::{Category, Part};

/// The categories whose slots name places of table 4.1.2-33.
pub const WITH_PLACES: [Category; 2] = [Category::Volcano, Category::AshFall];

/// A place that a frame may name. Few of those that its field allows are listed, so
/// half of the time it is one of these.
pub fn any_place(random: &mut Random, category: Category) -> u64 {
    if random.one_in(2) {
        random.pick(&CODES).into()
    } else {
        allowed_value(random, place_field(category, 0).allowed)
    }
}

/// A frame that uses a slot for each of the places, in range or not, and is right in
/// all else.
pub fn frame_with_places(random: &mut Random, category: Category, places: &[u64]) -> Frame {
    let base = frame_with_slots(random, category, places.len());
    let raw = |(slot, &value)| {
        let Field { first, width, .. } = place_field(category, slot);
        RawValue { first, width, value }
    };
    raw_frame(&base, &places.iter().enumerate().map(raw).collect::<Vec<_>>())
}

/// The field for the place of a slot.
pub fn place_field(category: Category, slot: usize) -> Field {
    let mut parts = slot_layout(category).named_parts(slot).into_iter();
    let (_, field) = parts.find(|&(part, _)| part == Part::Place).expect("every slot has a place");
    field
}
