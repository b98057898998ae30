//! Spares: every bit, every filling and every length comes up.

use crate::{categories, write_all, COUNT};
use reference::fields::{spares, Field};
use reference::generate::*;
use reference::random::Random;
use reference::read::read;
use reference::record::{Category, Record};
use std::collections::BTreeSet;

/// Each spare of each category: the category, which of its spares, and the row.
fn all_spares() -> Vec<(Category, usize, Field)> {
    let numbered = |category| spares(category).into_iter().enumerate();
    let of_category =
        |category| numbered(category).map(move |(number, row)| (category, number, row));
    Category::ALL.into_iter().flat_map(of_category).collect()
}

#[test]
fn spare_frames_reach_every_bit_of_every_spare_alone() {
    let mut random = Random::new(14);
    let mut seen = BTreeSet::new();
    for category in categories() {
        let record = read(&spare_frame(&mut random, category)).expect("the frame is valid");
        seen.insert((category.code(), record.spares));
    }
    for (category, number, row) in all_spares() {
        for bit in 0..row.width {
            let mut alone = [0; 2];
            alone[number] = 1 << bit;
            assert!(seen.contains(&(category.code(), alone)), "{category:?} {number} {bit}");
        }
    }
}

/// In every spare of what is valid nothing, something and all bits come up.
#[test]
fn valid_inputs_reach_all_fillings_of_every_spare() {
    let mut random = Random::new(15);
    for (category, number, row) in all_spares() {
        let highest = (1 << row.width) - 1;
        let mut seen = BTreeSet::new();
        for _ in 0..100 {
            let built = valid_record(&mut random, category);
            let frame = valid_frame(&mut random, category);
            let records = [("record", built), ("frame", read(&frame).expect("it is valid"))];
            seen.extend(records.map(|(source, record)| (source, record.spares[number])));
        }
        for source in ["record", "frame"] {
            let has = |wanted: &dyn Fn(u64) -> bool| {
                seen.iter().any(|&(from, value)| from == source && wanted(value))
            };
            assert!(has(&|value| value == 0) && has(&|value| value == highest));
            assert!(row.width == 1 || has(&|value| 0 < value && value < highest));
        }
    }
}

/// Spares too wide come up alone and among other faults, in every category.
#[test]
fn records_reach_every_spare_too_wide() {
    let mut random = Random::new(16);
    for build in [spare_record, many_faults_record, boundary_record] {
        for (category, _, row) in all_spares() {
            let records = (0..COUNT).map(|_| build(&mut random, category));
            assert!(write_all(records).places(8).contains(&row.first), "{category:?} {row:?}");
        }
    }
}

/// A number of every length from 1 to 64 bits comes up in every spare.
#[test]
fn spare_records_reach_every_length() {
    let mut random = Random::new(17);
    for (category, number, _) in all_spares() {
        let records = (0..COUNT).map(|_| spare_record(&mut random, category));
        let lengths: BTreeSet<u32> =
            records.map(|record| 64 - record.spares[number].leading_zeros()).collect();
        assert!((1..=64).all(|length| lengths.contains(&length)), "{category:?} {number}");
    }
}

#[test]
fn unused_filled_records_reach_the_spare_that_a_category_lacks() {
    let mut random = Random::new(18);
    let records: Vec<Record> =
        (0..COUNT).map(|_| unused_filled_record(&mut random, Category::Tsunami)).collect();
    let filled = records.iter().filter(|record| record.spares[1] != 0).count();
    assert!(COUNT / 4 < filled && filled < COUNT / 2, "{filled}");
}
