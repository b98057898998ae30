//! Records for the writer to refuse.

use super::{
    any_category, any_disturbance, any_group, bounds, field_bounds, full_record, lacking_parts,
    part_of_zero, set_number, slot_count, valid_record, valid_slot, Bounds, Disturbance,
    WITH_GROUPS, WITH_PARTS, WITH_SLOTS,
};
use crate::fields::{spares, RESERVED};
use crate::random::Random;
use crate::record::{Body, Category, Part, Record, Slot, PREAMBLES};

/// Every number of a category at its bounds, just outside and far outside,
/// one at a time, in records that are otherwise valid with all slots used.
pub fn boundary_records(random: &mut Random, category: Category) -> Vec<Record> {
    let mut records = Vec::new();
    for row in record_bounds(category) {
        for value in record_edges(&row) {
            let mut record = full_record(random, category);
            set_number(&mut record, row.first, value);
            records.push(record);
        }
    }
    records
}

/// One number of a category at a bound, just outside or far outside.
pub fn boundary_record(random: &mut Random, category: Category) -> Record {
    let mut record = valid_record(random, category);
    put_edge(random, &mut record, category);
    record
}

/// A record with something where its category has nothing.
pub fn unused_filled_record(random: &mut Random, category: Category) -> Record {
    let mut record = valid_record(random, category);
    fill_unused(random, &mut record, category);
    record
}

/// A record with an empty slot before a used one.
pub fn gap_record(random: &mut Random) -> Record {
    let category = random.pick(&WITH_SLOTS);
    let count = slot_count(category);
    let mut record = valid_record(random, category);
    let last_used = 2 + random.below(count - 2);
    for slot in record.slots.iter_mut().take(last_used + 1) {
        *slot = valid_slot(random, category);
    }
    record.slots[1 + random.below(last_used - 1)] = Slot::default();
    record
}

/// A record with a part of zero in some slot, perhaps the first, that no used
/// slot may have.
pub fn half_filled_record(random: &mut Random) -> Record {
    let category = random.pick(&WITH_PARTS);
    let mut record = valid_record(random, category);
    let slot = random.below(slot_count(category));
    record.slots[slot] = valid_slot(random, category);
    clear_part(random, &mut record, category, slot);
    record
}

/// A record with a preamble that is none of the three.
pub fn bad_preamble_record(random: &mut Random, category: Category) -> Record {
    let mut record = boundary_record(random, category);
    while PREAMBLES.contains(&record.preamble) {
        record.preamble = random.byte();
    }
    record
}

/// A record without a category and anything else in it, now and then with a
/// bad preamble as well.
pub fn no_category_record(random: &mut Random) -> Record {
    let category = any_category(random);
    let mut record = valid_record(random, category);
    if random.one_in(2) {
        record = random_record(random, category);
    }
    if random.one_in(4) {
        record.preamble = random.byte();
    }
    record.body = Body::Nothing;
    record
}

/// A Nankai record with any page number and any page total, some too wide.
pub fn page_record(random: &mut Random) -> Record {
    let mut record = valid_record(random, Category::Nankai);
    let page = random.bits(7) as u8;
    let near = (page + random.bits(1) as u8).saturating_sub(random.bits(1) as u8);
    let total = if random.one_in(2) { near } else { random.bits(7) as u8 };
    record.body = Body::Nankai { serial: 1 + random.bits(3) as u8, page, total };
    record
}

/// A record in which each number of some group is normal, has its code, is next to
/// one, or is too wide and has the low bits of one.
pub fn group_record(random: &mut Random) -> Record {
    let category = random.pick(&WITH_GROUPS);
    let mut record = full_record(random, category);
    mix_codes(random, &mut record, category);
    record
}

/// A record with a number of any size in a spare, which fits or is too wide.
pub fn spare_record(random: &mut Random, category: Category) -> Record {
    let mut record = valid_record(random, category);
    put_spare(random, &mut record, category);
    record
}

/// A record disturbed in two to six places.
pub fn many_faults_record(random: &mut Random, category: Category) -> Record {
    let mut record = valid_record(random, category);
    for _ in 0..2 + random.below(5) {
        disturb(random, &mut record, category);
    }
    if random.one_in(8) {
        fill_unused(random, &mut record, category);
    }
    record
}

/// A record of random numbers, with what the category does not use left zero
/// for the most part, since 11 would hide all else.
pub fn random_record(random: &mut Random, category: Category) -> Record {
    let mut record = valid_record(random, category);
    for row in record_bounds(category) {
        if random.one_in(3) {
            let most = if random.one_in(8) { 64 } else { 32 };
            let width = 1 + random.below(most);
            set_number(&mut record, row.first, random.bits(width));
        }
    }
    if random.one_in(4) {
        record.preamble = random.byte();
    }
    if random.one_in(4) {
        record.text = [0; 18].map(|_: u8| random.byte());
    }
    record
}

/// The rows of a category and Reserved, which only a record can have wrong.
fn record_bounds(category: Category) -> Vec<Bounds> {
    let mut rows = bounds(category);
    rows.push(Bounds { first: RESERVED.first, width: RESERVED.width, lowest: 0, highest: 63 });
    rows
}

/// The edges and what is beyond them. A record's numbers are wider than the
/// frame's fields, so the value just above is there even if no frame has it.
/// A place and a spare are wider still: what is above 32 bits must not get lost
/// either.
fn record_edges(row: &Bounds) -> Vec<u64> {
    let mut values = row.edges();
    values.push(row.highest + 1);
    values.extend(row.far_outside());
    values.extend([u32::MAX.into(), 1 << 32, row.lowest + (1 << 32)]);
    values
}

fn put_edge(random: &mut Random, record: &mut Record, category: Category) {
    let row = random.pick(&record_bounds(category));
    set_number(record, row.first, random.pick(&record_edges(&row)));
}

/// One disturbance, which may be none where the slot was empty before.
fn disturb(random: &mut Random, record: &mut Record, category: Category) {
    let count = slot_count(category);
    match any_disturbance(random, category) {
        Disturbance::FieldAtEdge => put_edge(random, record, category),
        Disturbance::SpareUsed => put_spare(random, record, category),
        Disturbance::SlotEmptied => record.slots[random.below(count)] = Slot::default(),
        Disturbance::PartOfZero => {
            let slot = random.below(count);
            clear_part(random, record, category, slot);
        }
        Disturbance::CodesMixed => mix_codes(random, record, category),
    }
}

/// Sets the numbers of some group, each by itself.
fn mix_codes(random: &mut Random, record: &mut Record, category: Category) {
    for field in any_group(random, category) {
        let row = random.pick(&field_bounds(&field));
        set_number(record, row.first, random.pick(&row.edges_and_too_wide()));
    }
}

/// Puts a number of 1 to 64 bits into a spare, each length as often as another.
fn put_spare(random: &mut Random, record: &mut Record, category: Category) {
    let spare = random.pick(&spares(category));
    let length = 1 + random.below(64);
    set_number(record, spare.first, 1 << (length - 1) | random.bits(length));
}

fn clear_part(random: &mut Random, record: &mut Record, category: Category, slot: usize) {
    set_number(record, part_of_zero(random, category, slot).first, 0);
}

/// Puts something into a spare, a text byte or a part of a slot that the
/// category does not use.
fn fill_unused(random: &mut Random, record: &mut Record, category: Category) {
    let spare2_is_unused = category == Category::Tsunami;
    if spare2_is_unused && random.one_in(3) {
        record.spares[1] = 1 << random.below(64);
        return;
    }
    let text_is_unused = category != Category::Nankai;
    if text_is_unused && random.one_in(2) {
        record.text[random.below(18)] = 1 + random.bits(7) as u8;
        return;
    }
    let (count, lacking) = (slot_count(category), lacking_parts(category));
    // A slot that lacks nothing has no part to be filled.
    let first = if lacking.is_empty() { count } else { 0 };
    let number = first + random.below(16 - first);
    let part = random.pick(if number < count { lacking } else { &Part::ALL });
    let something = match part {
        Part::Place => 1 << random.below(64),
        _ => 1 + random.bits(7),
    };
    record.slots[number].set_part(part, something);
}
