//! What numbers of a record say.

use reference::fields::fields;
use reference::generate::{any_record, set_number};
use reference::meaning::{
    activity, arrival, depth, height, magnitude, prefecture, slots_used, validity, Activity,
    Arrival, Depth, Height, Magnitude, Validity,
};
use reference::random::Random;
use reference::read::read;
use reference::record::{Category, Record, Slot, Time};
use reference::samples;
use reference::write::write;

/// Whether the field at a bit of category 2 may have this value.
fn allowed(first: usize, value: u16) -> bool {
    let fields = fields(Category::Hypocenter);
    let field = fields.iter().find(|field| field.first == first).expect("a field begins there");
    field.allows(value.into())
}

#[test]
fn zero_is_a_depth_and_511_is_none() {
    assert_eq!([0, 1, 500].map(depth), [0, 1, 500].map(|code| Some(Depth::Kilometres(code))));
    assert_eq!(depth(501), Some(Depth::DeeperThan500));
    assert_eq!([502, 510, 512, 1023, 65_535].map(depth), [None; 5]);
    assert_eq!(depth(511), Some(Depth::Unknown));
}

#[test]
fn magnitudes_126_and_127_are_no_tenths() {
    assert_eq!([1, 64, 101].map(magnitude), [1, 64, 101].map(|code| Some(Magnitude::Tenths(code))));
    assert_eq!([0, 102, 125, 128, 255].map(magnitude), [None; 5]);
    assert_eq!([126, 127].map(magnitude), [Some(Magnitude::Above8), Some(Magnitude::Unknown)]);
}

#[test]
fn a_code_says_something_exactly_where_its_field_may_have_it() {
    for code in 0..=u16::MAX {
        assert_eq!(depth(code).is_some(), allowed(96, code), "{code}");
    }
    for code in 0..=u8::MAX {
        assert_eq!(magnitude(code).is_some(), allowed(105, code.into()), "{code}");
    }
}

#[test]
fn codes_31_and_63_are_no_hour_and_no_minute() {
    assert_eq!(arrival(0, 0), Some(Arrival::At { hour: 0, minute: 0 }));
    assert_eq!(arrival(23, 59), Some(Arrival::At { hour: 23, minute: 59 }));
    assert_eq!(arrival(31, 63), Some(Arrival::Arrived));
    let neither = [(31, 59), (31, 60), (24, 63), (5, 63), (24, 0), (0, 60), (63, 31), (255, 255)];
    assert_eq!(neither.map(|(hour, minute)| arrival(hour, minute)), [None; 8]);
}

#[test]
fn height_14_is_unknown_and_undefined_codes_keep_their_number() {
    let defined = [1, 2, 3, 4, 5, 6, 15];
    assert_eq!(defined.map(height), defined.map(|code| Some(Height::Coded(code))));
    let undefined = [7, 8, 9, 10, 11, 12, 13];
    assert_eq!(undefined.map(height), undefined.map(|code| Some(Height::Coded(code))));
    assert_eq!(height(14), Some(Height::Unknown));
    assert_eq!([0, 16, 30, 255].map(height), [None; 4]);
}

/// A valid record has an hour and a minute, or a height, exactly where they say
/// something.
#[test]
fn what_an_area_says_is_what_it_may_have() {
    let written = |change: &dyn Fn(&mut Slot)| {
        let mut record = samples::tsunami_warning()[0];
        change(&mut record.slots[1]);
        write(&record, &mut [0; 32]).is_ok()
    };
    for one in 0..=u8::MAX {
        assert_eq!(height(one).is_some(), written(&|slot| slot.strength = one), "{one}");
        for other in 0..=u8::MAX {
            let valid = written(&|slot| (slot.hour, slot.minute) = (one, other));
            assert_eq!(arrival(one, other).is_some(), valid, "{one} {other}");
        }
    }
}

#[test]
fn day_0_hour_31_and_minute_63_are_unknown_together() {
    let told = |(day, hour, minute)| activity(Time { day, hour, minute });
    for (day, hour, minute) in [(1, 0, 0), (31, 23, 59), (11, 5, 10)] {
        let time = Time { day, hour, minute };
        assert_eq!(activity(time), Some(Activity::At(time)));
    }
    assert_eq!(told((0, 31, 63)), Some(Activity::Unknown));
    let one_code = [(0, 5, 10), (11, 31, 10), (11, 5, 63)];
    let two_codes = [(0, 31, 10), (0, 5, 63), (11, 31, 63)];
    let no_time = [(0, 0, 0), (32, 0, 0), (1, 24, 0), (1, 0, 60), (63, 31, 0), (255, 255, 255)];
    assert_eq!([&one_code[..], &two_codes, &no_time].concat().into_iter().find_map(told), None);
}

#[test]
fn how_much_of_a_time_is_valid() {
    assert_eq!([0, 1, 2, 3].map(validity), [Some(Validity::DayHourAndMinute); 4]);
    assert_eq!(validity(4), Some(Validity::DayAndHour));
    assert_eq!(validity(5), Some(Validity::Day));
    assert_eq!([6, 7].map(validity), [Some(Validity::Nothing); 2]);
    assert_eq!((8..=255).find_map(validity), None);
}

/// A valid record has day, hour and minute, or an ambiguity, exactly where they say
/// something.
#[test]
fn what_a_volcano_says_is_what_it_may_have() {
    let written = |values: &[(usize, u8)]| {
        let mut record = samples::volcano()[0];
        values.iter().for_each(|&(first, value)| set_number(&mut record, first, value.into()));
        write(&record, &mut [0; 32]).is_ok()
    };
    for ambiguity in 0..=u8::MAX {
        assert_eq!(validity(ambiguity).is_some(), written(&[(50, ambiguity)]), "{ambiguity}");
    }
    for day in 0..40 {
        for hour in (0..40).chain([95, 255]) {
            for minute in (0..70).chain([127, 255]) {
                let time = Time { day, hour, minute };
                let valid = written(&[(53, day), (58, hour), (63, minute)]);
                assert_eq!(activity(time).is_some(), valid, "{time:?}");
            }
        }
    }
}

#[test]
fn places_lie_in_47_prefectures_or_nowhere() {
    let lying = [(100_000, 1), (199_999, 1), (200_000, 2), (4_321_400, 43), (4_799_999, 47)];
    for (place, expected) in lying {
        assert_eq!(prefecture(place), Some(expected));
    }
    let low_bits_alone = (1 << 32) + 4_321_400;
    for place in [0, 1, 47, 99_999, 4_800_000, low_bits_alone, u64::MAX] {
        assert_eq!(prefecture(place), None);
    }
}

#[test]
fn slots_are_used_up_to_the_first_of_zeros() {
    let slot = Slot { strength: 1, place: 1, ..Slot::default() };
    for used in 0..=16 {
        let mut record = Record::default();
        record.slots[..used].fill(slot);
        assert_eq!(slots_used(&record), used);
        if used < 15 {
            record.slots[15] = slot;
            assert_eq!(slots_used(&record), used);
        }
    }
    for part in [[1, 0, 0], [0, 1, 0], [0, 0, 1]] {
        let [day, hour, minute] = part;
        let mut record = Record::default();
        record.slots[0] = Slot { day, hour, minute, ..Slot::default() };
        assert_eq!(slots_used(&record), 1);
    }
}

/// In a record that is read no slot is used behind an empty one, and the first
/// is used where the category has slots.
#[test]
fn slots_of_a_record_that_is_read() {
    let mut random = Random::new(47);
    for _ in 0..20_000 {
        let mut frame = [0; 32];
        if write(&any_record(&mut random), &mut frame).is_ok() {
            let record = read(&frame).expect("what is written is read");
            let filled = record.slots.iter().filter(|&&slot| slot != Slot::default()).count();
            assert_eq!(slots_used(&record), filled);
            let category = record.body.category();
            let has_none = matches!(category, Some(Category::Hypocenter | Category::Nankai));
            assert_eq!(filled == 0, has_none);
        }
    }
}
