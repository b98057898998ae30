//! Groups of fields with codes: all mixtures come up, and what is valid has both.

use crate::{frames_of, records_of, COUNT};
use reference::generate::*;
use reference::meaning::{activity, arrival, slots_used, Activity, Arrival};
use reference::random::Random;
use reference::read::read;
use reference::record::{Body, Category, Record};
use std::collections::BTreeSet;

/// Day, hour and minute of the activity, and the hours and minutes of all areas.
fn grouped_places() -> Vec<usize> {
    let arrivals = (0..5).flat_map(|area| [84 + 26 * area + 1, 84 + 26 * area + 6]);
    [53, 58, 63].into_iter().chain(arrivals).collect()
}

#[test]
fn mixed_codes_reach_every_field_of_every_group() {
    let frames = frames_of(|random, _| group_frame(random));
    let records = records_of(|random, _| group_record(random));
    for seen in [frames, records] {
        assert_eq!(seen.numbers(), [0, 8]);
        assert_eq!(seen.places(8), grouped_places());
    }
}

/// Which of day, hour and minute have their codes.
fn codes_of(record: &Record) -> Option<[bool; 3]> {
    let Body::Volcano { time, .. } = record.body else {
        return None;
    };
    Some([time.day == 0, time.hour == 31, time.minute == 63])
}

/// Each of the eight mixtures of codes comes up, alone and among other faults.
#[test]
fn records_reach_every_mixture_of_an_activity_time() {
    let mut random = Random::new(19);
    for build in [|random: &mut Random, _| group_record(random), many_faults_record] {
        let records = (0..COUNT).map(|_| build(&mut random, Category::Volcano));
        let seen: BTreeSet<_> = records.filter_map(|record| codes_of(&record)).collect();
        assert_eq!(seen.len(), 8);
    }
}

/// In every area of what is valid there are waves that have arrived and others.
#[test]
fn valid_inputs_reach_both_kinds_of_arrival() {
    let mut random = Random::new(13);
    let mut seen = BTreeSet::new();
    for _ in 0..COUNT {
        let built = valid_record(&mut random, Category::Tsunami);
        let frame = valid_frame(&mut random, Category::Tsunami);
        let records = [("record", built), ("frame", read(&frame).expect("the frame is valid"))];
        for (source, record) in records {
            for (area, slot) in record.slots.iter().enumerate().take(slots_used(&record)) {
                let arrived = arrival(slot.hour, slot.minute) == Some(Arrival::Arrived);
                seen.insert((source, area, arrived));
            }
        }
    }
    assert_eq!(seen.len(), 2 * 5 * 2);
}

/// What is valid has times that are known and others.
#[test]
fn valid_inputs_reach_both_kinds_of_activity_time() {
    let mut random = Random::new(20);
    let mut unknown = [0; 2];
    for _ in 0..COUNT {
        let built = valid_record(&mut random, Category::Volcano);
        let frame = valid_frame(&mut random, Category::Volcano);
        let records = [built, read(&frame).expect("the frame is valid")];
        for (count, record) in unknown.iter_mut().zip(records) {
            let Body::Volcano { time, .. } = record.body else {
                panic!("it is of category 8");
            };
            *count += usize::from(activity(time) == Some(Activity::Unknown));
        }
    }
    assert!(unknown.iter().all(|&count| COUNT / 8 < count && count < COUNT / 2), "{unknown:?}");
}
