//! Frames for the reader. They are laid out from the field tables and not by
//! the writer, so that a mistake in the writer cannot hide one in the reader.

use super::{
    allowed_value, any_category, any_disturbance, any_group, bounds, field_bounds, part_of_zero,
    raw_frame, seal, Disturbance, RawValue,
};
use crate::bits::{bit, get, set, set_bit, Frame};
use crate::fields::{
    fields, slot_layout, spares, Field, PAGE_NUMBER_FIRST, PAGE_TOTAL_FIRST, RESERVED,
};
use crate::random::Random;
use crate::record::{Category, PREAMBLES};

/// The categories that have slots.
pub const WITH_SLOTS: [Category; 5] =
    [Category::Intensity, Category::Tsunami, Category::Volcano, Category::AshFall, Category::Flood];

/// Those whose slots have several parts, so that one can be half filled. In
/// category 8 a slot is a place alone, which is there or is not.
pub const WITH_PARTS: [Category; 4] =
    [Category::Intensity, Category::Tsunami, Category::AshFall, Category::Flood];

/// The categories that have a group: the arrival of each area, the activity time.
pub const WITH_GROUPS: [Category; 2] = [Category::Tsunami, Category::Volcano];

/// A frame that must be read, with a random number of used slots and whatever
/// its spares hold.
pub fn valid_frame(random: &mut Random, category: Category) -> Frame {
    let count = slot_layout(category).count;
    let used = if count == 0 { 0 } else { 1 + random.below(count) };
    frame_with_slots(random, category, used)
}

/// A frame that must be read, with the first `used` slots used.
pub fn frame_with_slots(random: &mut Random, category: Category, used: usize) -> Frame {
    let mut frame = [0; 32];
    put_envelope(random, &mut frame, category);
    set(&mut frame, RESERVED.first, RESERVED.width, random.bits(6));
    put_allowed(random, &mut frame, &fields(category));
    for slot in 0..used {
        put_allowed(random, &mut frame, &slot_layout(category).parts(slot));
    }
    if category == Category::Nankai {
        put_page(random, &mut frame);
    }
    seal(&mut frame);
    frame
}

/// Every field of a category at its bounds and just outside, one at a time,
/// in frames that have all slots used and are otherwise right.
pub fn boundary_frames(random: &mut Random, category: Category) -> Vec<Frame> {
    let mut frames = Vec::new();
    for row in bounds(category) {
        for value in row.edges() {
            let base = frame_with_slots(random, category, slot_layout(category).count);
            let raw = RawValue { first: row.first, width: row.width, value };
            frames.push(raw_frame(&base, &[raw]));
        }
    }
    frames
}

/// One field of a category at a bound or just outside. The slots are used up
/// to a random one, so this may also half fill a slot or leave a gap.
pub fn boundary_frame(random: &mut Random, category: Category) -> Frame {
    let base = valid_frame(random, category);
    raw_frame(&base, &[edge_value(random, category)])
}

/// A frame with an empty slot before a used one.
pub fn gap_frame(random: &mut Random) -> Frame {
    let category = random.pick(&WITH_SLOTS);
    let layout = slot_layout(category);
    let mut frame = frame_with_slots(random, category, layout.count);
    let last_used = 2 + random.below(layout.count - 2);
    clear_slot(&mut frame, category, 1 + random.below(last_used - 1));
    for slot in last_used + 1..layout.count {
        clear_slot(&mut frame, category, slot);
    }
    seal(&mut frame);
    frame
}

/// A frame whose last used slot, perhaps the first, has a part of zero that no
/// used slot may have.
pub fn half_filled_frame(random: &mut Random) -> Frame {
    let category = random.pick(&WITH_PARTS);
    let layout = slot_layout(category);
    let used = 1 + random.below(layout.count);
    let base = frame_with_slots(random, category, used);
    raw_frame(&base, &[part_of_zero(random, category, used - 1)])
}

/// A frame that must be read, with one or two bits set in its spares and no
/// other there.
pub fn spare_frame(random: &mut Random, category: Category) -> Frame {
    let mut frame = valid_frame(random, category);
    for spare in spares(category) {
        set(&mut frame, spare.first, spare.width, 0);
    }
    use_spare(random, &mut frame, category);
    if random.one_in(3) {
        use_spare(random, &mut frame, category);
    }
    seal(&mut frame);
    frame
}

/// A frame disturbed in two to six places, with right parity for the most
/// part.
pub fn many_faults_frame(random: &mut Random, category: Category) -> Frame {
    let mut frame = valid_frame(random, category);
    for _ in 0..2 + random.below(5) {
        disturb(random, &mut frame, category);
    }
    seal(&mut frame);
    if random.one_in(8) {
        break_envelope(random, &mut frame);
    }
    frame
}

/// Random bits with right parity; half of the time with a right envelope, so
/// that the rules behind it are reached.
pub fn random_sealed_frame(random: &mut Random) -> Frame {
    let mut frame = [0; 32];
    (0..250).for_each(|position| set_bit(&mut frame, position, random.one_in(2)));
    if random.one_in(2) {
        let category = any_category(random);
        put_envelope(random, &mut frame, category);
    }
    seal(&mut frame);
    frame
}

/// A right frame with one stretch of random bits between Rc and the version.
pub fn random_stretch_frame(random: &mut Random, category: Category) -> Frame {
    let mut frame = valid_frame(random, category);
    let first = 14 + random.below(200);
    let end = first + 1 + random.below(214 - first);
    (first..end).for_each(|position| set_bit(&mut frame, position, random.one_in(2)));
    if random.one_in(2) {
        put_envelope(random, &mut frame, category);
    }
    seal(&mut frame);
    frame
}

/// A frame each of whose slots is left as it was, cleared, filled or made of
/// random bits, whatever its neighbours are.
pub fn random_slots_frame(random: &mut Random) -> Frame {
    let category = random.pick(&WITH_SLOTS);
    let layout = slot_layout(category);
    let mut frame = valid_frame(random, category);
    for slot in 0..layout.count {
        match random.below(8) {
            0 => clear_slot(&mut frame, category, slot),
            1 => put_allowed(random, &mut frame, &layout.parts(slot)),
            2 => {
                let part = random.pick(&layout.parts(slot));
                set(&mut frame, part.first, part.width, random.bits(part.width));
            }
            _ => {}
        }
    }
    seal(&mut frame);
    frame
}

/// A Nankai frame with any page number and any page total.
pub fn page_frame(random: &mut Random) -> Frame {
    let base = valid_frame(random, Category::Nankai);
    let page = RawValue { first: PAGE_NUMBER_FIRST, width: 6, value: random.bits(6) };
    let total = RawValue { first: PAGE_TOTAL_FIRST, width: 6, value: random.bits(6) };
    let near = RawValue { value: (page.value + random.between(0, 2)).saturating_sub(1), ..total };
    let chosen = random.pick(&[total, near]);
    raw_frame(&base, &[page, chosen])
}

/// A frame in which each field of some group is normal, has its code or is next to
/// one: times and codes are mixed in all ways.
pub fn group_frame(random: &mut Random) -> Frame {
    let category = random.pick(&WITH_GROUPS);
    let base = frame_with_slots(random, category, slot_layout(category).count);
    raw_frame(&base, &mixed_codes(random, category))
}

/// A right frame with one of refusals 2 to 7 made true.
pub fn envelope_fault_frame(random: &mut Random, category: Category) -> Frame {
    let mut frame = valid_frame(random, category);
    break_envelope(random, &mut frame);
    frame
}

/// A right frame with one bit turned, half of the time with new parity.
pub fn flipped_frame(random: &mut Random, category: Category) -> Frame {
    let mut frame = valid_frame(random, category);
    let position = random.below(256);
    let one = bit(&frame, position);
    set_bit(&mut frame, position, !one);
    if random.one_in(2) {
        seal(&mut frame);
    }
    frame
}

/// A frame of zeros, one of ones, and those with one bit set, all 256 of them.
pub fn plain_frames() -> Vec<Frame> {
    let one_bit = |position| {
        let mut frame = [0; 32];
        set_bit(&mut frame, position, true);
        frame
    };
    [[0; 32], [0xFF; 32]].into_iter().chain((0..256).map(one_bit)).collect()
}

pub fn random_bytes(random: &mut Random, length: usize) -> Vec<u8> {
    (0..length).map(|_| random.byte()).collect()
}

/// A right frame cut or lengthened to a number of bytes.
pub fn slice_of_length(random: &mut Random, length: usize) -> Vec<u8> {
    let category = any_category(random);
    let mut bytes = valid_frame(random, category).to_vec();
    bytes.resize(length, 0);
    bytes
}

/// Slices of every length from 0 to 40: of random bytes, and of right frames
/// cut or lengthened.
pub fn slices(random: &mut Random) -> Vec<Vec<u8>> {
    let mut all = Vec::new();
    for length in 0..=40 {
        all.push(random_bytes(random, length));
        all.push(slice_of_length(random, length));
    }
    all
}

/// Preamble, message type, category and version as they must be.
fn put_envelope(random: &mut Random, frame: &mut Frame, category: Category) {
    set(frame, 0, 8, random.pick(&PREAMBLES).into());
    set(frame, 8, 6, 43);
    set(frame, 17, 4, category.code());
    set(frame, 214, 6, 1);
}

/// Fills a table or a slot with allowed values, now and then with the codes of
/// its group.
fn put_allowed(random: &mut Random, frame: &mut Frame, fields: &[Field]) {
    let by_codes = random.one_in(4);
    for field in fields {
        let code = field.group_code.filter(|_| by_codes);
        let value = code.unwrap_or_else(|| allowed_value(random, field.allowed));
        set(frame, field.first, field.width, value);
    }
}

/// Text, and a page total that is not below the page number.
fn put_page(random: &mut Random, frame: &mut Frame) {
    if !random.one_in(8) {
        (0..18).for_each(|number| set(frame, 57 + 8 * number, 8, random.bits(8)));
    }
    let page = get(frame, PAGE_NUMBER_FIRST, 6);
    set(frame, PAGE_TOTAL_FIRST, 6, allowed_value(random, &[(page, 63)]));
}

fn edge_value(random: &mut Random, category: Category) -> RawValue {
    random.pick(&bounds(category)).any_edge(random)
}

/// Values for the fields of some group, each by itself.
fn mixed_codes(random: &mut Random, category: Category) -> Vec<RawValue> {
    let group = any_group(random, category);
    group.iter().map(|field| random.pick(&field_bounds(field)).any_edge(random)).collect()
}

fn clear_slot(frame: &mut Frame, category: Category, slot: usize) {
    for part in slot_layout(category).parts(slot) {
        set(frame, part.first, part.width, 0);
    }
}

/// Sets one bit of a spare; the first and the last are the likeliest to be
/// forgotten and come up most often.
fn use_spare(random: &mut Random, frame: &mut Frame, category: Category) {
    let Field { first, width, .. } = random.pick(&spares(category));
    let any = first + random.below(width);
    set_bit(frame, random.pick(&[first, first + width - 1, any, any]), true);
}

/// One disturbance behind the envelope; the parity is left to be renewed. A bit
/// in a spare is no fault and must hide none.
fn disturb(random: &mut Random, frame: &mut Frame, category: Category) {
    let count = slot_layout(category).count;
    let values = match any_disturbance(random, category) {
        Disturbance::FieldAtEdge => vec![edge_value(random, category)],
        Disturbance::SpareUsed => return use_spare(random, frame, category),
        Disturbance::SlotEmptied => return clear_slot(frame, category, random.below(count)),
        Disturbance::PartOfZero => {
            let slot = random.below(count);
            vec![part_of_zero(random, category, slot)]
        }
        Disturbance::CodesMixed => mixed_codes(random, category),
    };
    values.iter().for_each(|raw| set(frame, raw.first, raw.width, raw.value));
}

/// Makes one of refusals 2 to 7 true; the parity stays right in all but 4.
fn break_envelope(random: &mut Random, frame: &mut Frame) {
    let right_preambles = PREAMBLES.map(u64::from);
    let right_categories = Category::ALL.map(Category::code);
    let right_parity = [get(frame, 226, 24)];
    let (first, width, right): (usize, usize, &[u64]) = random.pick(&[
        (250, 6, &[0][..]),
        (0, 8, &right_preambles[..]),
        (226, 24, &right_parity[..]),
        (8, 6, &[43][..]),
        (214, 6, &[1][..]),
        (17, 4, &right_categories[..]),
    ]);
    set(frame, first, width, other_than(random, width, right));
    if first != 226 {
        seal(frame);
    }
}

/// A number of some width that is none of the right ones.
fn other_than(random: &mut Random, width: usize, right: &[u64]) -> u64 {
    loop {
        let value = random.bits(width);
        if !right.contains(&value) {
            return value;
        }
    }
}
