//! The fields of a group, of which each is normal, has its code or is next to one:
//! all mixtures, alone and beside a fault elsewhere.

use super::{changed_frame, changed_record, frame_choices, not_allowed, record_choices};
use super::{Choice, Puts};
use crate::writing::FRAME_LENGTH;
use crate::{reading, writing, Count};
use reference::fields::{groups, slot_layout, Field};
use reference::generate::{bounds, Bounds, WITH_GROUPS};
use reference::random::Random;
use reference::record::Category;
use std::collections::BTreeSet;

/// How often a mixture stands beside a fault of the same field.
const ROUNDS: usize = 3;

/// The numbers at the ends of a row and next to them.
type Edges = fn(&Bounds) -> Vec<u64>;

/// In frames.
pub fn frame_mixtures(count: &mut Count) {
    let mut random = Random::new(112);
    for category in WITH_GROUPS {
        let faults = not_allowed(frame_choices(&mut random, category));
        for puts in with_faults(&mut random, category, &faults, Bounds::edges) {
            reading::agree(count, &changed_frame(&mut random, category, &puts));
        }
    }
}

/// In records, which may have numbers too wide with the low bits of what is right.
pub fn record_mixtures(count: &mut Count) {
    let mut random = Random::new(113);
    for category in WITH_GROUPS {
        let faults = not_allowed(record_choices(&mut random, category));
        for puts in with_faults(&mut random, category, &faults, Bounds::edges_and_too_wide) {
            let record = changed_record(&mut random, category, &puts);
            writing::agree(count, &record, FRAME_LENGTH);
        }
    }
}

/// Every mixture of every group alone, beside each other field out of range, and
/// beside each slot that is empty.
fn with_faults(
    random: &mut Random,
    category: Category,
    faults: &[Choice],
    edges: Edges,
) -> Vec<Puts> {
    let mut all = Vec::new();
    for group in groups(category) {
        let is_own = |field: &Field| group.iter().any(|own| own.first == field.first);
        let mut empty = empty_slots(category);
        empty.retain(|slot| !slot.iter().any(|(part, _)| is_own(part)));
        for mixture in mixtures(category, &group, edges) {
            for Choice { field, numbers } in faults.iter().filter(|fault| !is_own(&fault.field)) {
                let beside = |number| [&mixture[..], &[(*field, number)]].concat();
                all.extend((0..ROUNDS).map(|_| beside(random.pick(numbers))));
            }
            all.extend(empty.iter().map(|slot| [&mixture[..], slot].concat()));
            all.push(mixture);
        }
    }
    all
}

/// Zeros for each slot of a category.
fn empty_slots(category: Category) -> Vec<Puts> {
    let layout = slot_layout(category);
    let zeros = |slot| layout.parts(slot).into_iter().map(|part| (part, 0)).collect();
    (0..layout.count).map(zeros).collect()
}

/// Every way to give each field of a group one of its numbers.
fn mixtures(category: Category, group: &[Field], edges: Edges) -> Vec<Puts> {
    let mut all: Vec<Puts> = vec![Vec::new()];
    for field in group {
        let mut rows = bounds(category);
        rows.retain(|row| row.first == field.first);
        let numbers: BTreeSet<u64> = rows.iter().flat_map(edges).collect();
        let with = |puts: &Puts, number| [&puts[..], &[(*field, number)]].concat();
        let longer = all.iter().flat_map(|puts| numbers.iter().map(|&number| with(puts, number)));
        all = longer.collect();
    }
    all
}
