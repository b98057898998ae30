//! What numbers of a record say: a code that says nothing gives nothing.

use crate::record::{Record, Slot, Time};

#[derive(Clone, Copy, PartialEq, Eq, Debug)]
pub enum Depth {
    Kilometres(u16),
    DeeperThan500,
    Unknown,
}

/// "Depth 0 is a depth; 511 is unknown and 501 means deeper than 500 km."
pub fn depth(code: u16) -> Option<Depth> {
    match code {
        0..=500 => Some(Depth::Kilometres(code)),
        501 => Some(Depth::DeeperThan500),
        511 => Some(Depth::Unknown),
        _ => None,
    }
}

#[derive(Clone, Copy, PartialEq, Eq, Debug)]
pub enum Magnitude {
    /// Document 001 has 101 for all that is more than 10.0.
    Tenths(u8),
    Above8,
    Unknown,
}

/// "Magnitude in tenths", "127 is unknown, 126 is above 8.0 where no moment
/// magnitude is known."
pub fn magnitude(code: u8) -> Option<Magnitude> {
    match code {
        1..=101 => Some(Magnitude::Tenths(code)),
        126 => Some(Magnitude::Above8),
        127 => Some(Magnitude::Unknown),
        _ => None,
    }
}

#[derive(Clone, Copy, PartialEq, Eq, Debug)]
pub enum Arrival {
    At { hour: u8, minute: u8 },
    Arrived,
}

/// Table 4.1.2-21: an hour (UTC) and a minute, or their codes, which say
/// together that the tsunami has arrived at the region.
pub fn arrival(hour: u8, minute: u8) -> Option<Arrival> {
    match (hour, minute) {
        (0..=23, 0..=59) => Some(Arrival::At { hour, minute }),
        (31, 63) => Some(Arrival::Arrived),
        _ => None,
    }
}

#[derive(Clone, Copy, PartialEq, Eq, Debug)]
pub enum Height {
    /// A code other than 14. Those that table 4.1.2-23 does not define are to
    /// be told by their number.
    Coded(u8),
    Unknown,
}

/// Table 4.1.2-23.
pub fn height(code: u8) -> Option<Height> {
    match code {
        14 => Some(Height::Unknown),
        1..=15 => Some(Height::Coded(code)),
        _ => None,
    }
}

#[derive(Clone, Copy, PartialEq, Eq, Debug)]
pub enum Activity {
    At(Time),
    Unknown,
}

/// Table 4.1.2-30: day, hour and minute (UTC) when the activity was observed, or
/// their codes, which say together that this is unknown. How much of a time is
/// valid is for the ambiguity to say.
pub fn activity(time: Time) -> Option<Activity> {
    match (time.day, time.hour, time.minute) {
        (1..=31, 0..=23, 0..=59) => Some(Activity::At(time)),
        (0, 31, 63) => Some(Activity::Unknown),
        _ => None,
    }
}

/// How much of an activity time is valid.
#[derive(Clone, Copy, PartialEq, Eq, Debug)]
pub enum Validity {
    /// The time is about a month or a year.
    Nothing,
    Day,
    DayAndHour,
    DayHourAndMinute,
}

/// Table 4.1.2-30, row Du. That day, hour and minute are valid is printed behind 3;
/// it goes for 0 to 2 as well, since they are no less exact than minutes.
pub fn validity(ambiguity: u8) -> Option<Validity> {
    match ambiguity {
        0..=3 => Some(Validity::DayHourAndMinute),
        4 => Some(Validity::DayAndHour),
        5 => Some(Validity::Day),
        6 | 7 => Some(Validity::Nothing),
        _ => None,
    }
}

/// "A place divided by 100000, remainder dropped, is its prefecture, 1 to 47."
pub fn prefecture(place: u64) -> Option<u64> {
    Some(place / 100_000).filter(|prefecture| (1..=47).contains(prefecture))
}

/// How many slots are used: "After an empty slot every slot is empty." In a
/// record that is not valid, those in front of the first slot of zeros, even
/// where that is the first of all.
pub fn slots_used(record: &Record) -> usize {
    record.slots.iter().take_while(|&&slot| slot != Slot::default()).count()
}
