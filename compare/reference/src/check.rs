//! The rules on values that reading and writing share: ranges and slots.

use crate::fields::{fields, slot_layout, Field, PAGE_NUMBER_FIRST, PAGE_TOTAL_FIRST};
use crate::record::{Category, Refusal, SLOT_AFTER_EMPTY};

/// Every fault of a category's values, in no particular order. The values
/// may come from a frame or from a record; `value_of` hides which.
pub fn faults(category: Category, value_of: &dyn Fn(&Field) -> u64) -> Vec<Refusal> {
    let fields = fields(category);
    let mut found = out_of_range(&fields, value_of);
    if category == Category::Nankai {
        let at_bit =
            |first: usize| fields.iter().find(|field| field.first == first).map_or(0, value_of);
        let total = at_bit(PAGE_TOTAL_FIRST);
        if total < at_bit(PAGE_NUMBER_FIRST) {
            found.push(Refusal::out_of_range(PAGE_TOTAL_FIRST, total));
        }
    }
    found.extend(slot_faults(category, value_of));
    found
}

/// The fault that is reported. Where a slot out of turn also has a bad first
/// field, both stand at the same bit, and the gap is the one that is told.
pub fn reported(faults: &[Refusal]) -> Option<Refusal> {
    faults.iter().copied().min_by_key(|fault| (fault.place, fault.number != SLOT_AFTER_EMPTY))
}

/// The values out of range in one table or one slot. The codes of a group are
/// right where every field of it has its code; otherwise they are values like
/// any other, and each field is judged for itself.
pub fn out_of_range(fields: &[Field], value_of: &dyn Fn(&Field) -> u64) -> Vec<Refusal> {
    let (group, single): (Vec<Field>, Vec<Field>) =
        fields.iter().copied().partition(|field| field.group_code.is_some());
    let has_code = |field: &Field| field.group_code == Some(value_of(field));
    let judged = if group.iter().all(has_code) { single } else { fields.to_vec() };
    let bad = judged.iter().filter(|field| !field.allows(value_of(field)));
    bad.map(|field| Refusal::out_of_range(field.first, value_of(field))).collect()
}

fn slot_faults(category: Category, value_of: &dyn Fn(&Field) -> u64) -> Vec<Refusal> {
    let layout = slot_layout(category);
    let mut found = Vec::new();
    let mut used = Vec::new();
    for slot in 0..layout.count {
        let parts = layout.parts(slot);
        // The first slot counts as used whatever it holds, so that its zeros
        // are values out of range and not an empty slot.
        used.push(slot == 0 || parts.iter().any(|part| value_of(part) != 0));
        if !used[slot] {
            continue;
        }
        if used.contains(&false) {
            found.push(Refusal::slot_after_empty(layout.slot_first(slot)));
        }
        found.extend(out_of_range(&parts, value_of));
    }
    found
}
