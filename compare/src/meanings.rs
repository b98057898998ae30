//! What numbers of a record say, against the reference.

use crate::lent::{only_read, resized};
use crate::packed::{packed, LENGTH};
use crate::{door, Count};
use reference::generate::valid_record;
use reference::meaning::{
    activity, arrival, depth, height, magnitude, prefecture, slots_used, validity, Activity,
    Arrival, Depth, Height, Magnitude, Validity,
};
use reference::random::Random;
use reference::record::{Category, Record, Time};

/// How many bits a place has in a frame.
pub const PLACE_BITS: u32 = 23;

/// Every code that 16 bits hold.
pub fn depths(count: &mut Count) {
    for code in 0..=u16::MAX {
        let expected = match depth(code) {
            None => 0,
            Some(Depth::Kilometres(kilometres)) => word(1, kilometres),
            Some(Depth::DeeperThan500) => word(2, 0),
            Some(Depth::Unknown) => word(3, 0),
        };
        count.same(&code.to_be_bytes(), &door::depth(code), &expected);
    }
}

/// Every code that 8 bits hold.
pub fn magnitudes(count: &mut Count) {
    for code in 0..=u8::MAX {
        let expected = match magnitude(code) {
            None => 0,
            Some(Magnitude::Tenths(tenths)) => word(1, tenths.into()),
            Some(Magnitude::Above8) => word(2, 0),
            Some(Magnitude::Unknown) => word(3, 0),
        };
        count.same(&[code], &door::magnitude(code), &expected);
    }
}

/// Every two codes that 8 bits hold.
pub fn arrivals(count: &mut Count) {
    for hour in 0..=u8::MAX {
        for minute in 0..=u8::MAX {
            let expected = match arrival(hour, minute) {
                None => 0,
                Some(Arrival::At { hour, minute }) => word(1, u16::from_be_bytes([hour, minute])),
                Some(Arrival::Arrived) => word(4, 0),
            };
            count.same(&[hour, minute], &door::arrival(hour, minute), &expected);
        }
    }
}

/// Every code that 8 bits hold.
pub fn heights(count: &mut Count) {
    for code in 0..=u8::MAX {
        let expected = match height(code) {
            None => 0,
            Some(Height::Coded(code)) => word(1, code.into()),
            Some(Height::Unknown) => word(3, 0),
        };
        count.same(&[code], &door::height(code), &expected);
    }
}

/// Every three codes that 8 bits hold.
pub fn activities(count: &mut Count) {
    for day in 0..=u8::MAX {
        for hour in 0..=u8::MAX {
            for minute in 0..=u8::MAX {
                let expected = match activity(Time { day, hour, minute }) {
                    None => 0,
                    Some(Activity::At(time)) => word(1, packed_time(time)),
                    Some(Activity::Unknown) => word(3, 0),
                };
                count.same(&[day, hour, minute], &door::activity(day, hour, minute), &expected);
            }
        }
    }
}

/// Five bits for the day, five for the hour, six for the minute.
fn packed_time(time: Time) -> u16 {
    let [day, hour, minute] = [time.day, time.hour, time.minute].map(u16::from);
    day << 11 | hour << 6 | minute
}

/// Every code that 8 bits hold.
pub fn validities(count: &mut Count) {
    for ambiguity in 0..=u8::MAX {
        let expected = match validity(ambiguity) {
            None => 0,
            Some(Validity::Nothing) => word(1, 0),
            Some(Validity::Day) => word(1, 1),
            Some(Validity::DayAndHour) => word(1, 2),
            Some(Validity::DayHourAndMinute) => word(1, 3),
        };
        count.same(&[ambiguity], &door::validity(ambiguity), &expected);
    }
}

/// A kind, and a value that only the first of them has.
fn word(kind: u32, value: u16) -> u32 {
    kind << 16 | u32::from(value)
}

/// Every place that a frame can have, and wider ones, which look like a place
/// where their low bits alone are seen.
pub fn places(count: &mut Count) {
    (0..1 << PLACE_BITS).for_each(|place| agree_on_place(count, place));
    for bit in PLACE_BITS..u64::BITS {
        for low in [0, 1, 99_999, 100_000, 4_321_400, 4_799_999, 4_800_000] {
            agree_on_place(count, (1 << bit) + low);
            agree_on_place(count, (1 << bit) - 1 - low);
            agree_on_place(count, u64::MAX - (1 << bit) + 1 + low);
            agree_on_place(count, u64::MAX - low);
        }
    }
}

fn agree_on_place(count: &mut Count, place: u64) {
    let expected = prefecture(place).unwrap_or(0);
    count.same(&place.to_be_bytes(), &u64::from(door::prefecture(place)), &expected);
}

/// Record bytes of another length are a record of zeros, which uses no slot.
pub fn record_lengths(count: &mut Count) {
    let mut random = Random::new(47);
    for category in Category::ALL {
        let record = packed(&valid_record(&mut random, category));
        for length in (0..=300).filter(|&length| length != LENGTH) {
            agree_on_slots(count, &resized(&record, length), &Record::default());
        }
    }
}

/// The bytes of a record, valid or not, use as many slots as the record.
pub fn agree_on_slots(count: &mut Count, bytes: &[u8], record: &Record) {
    let used = only_read(bytes, door::slots_used);
    count.same(bytes, &(used as usize), &slots_used(record));
}
