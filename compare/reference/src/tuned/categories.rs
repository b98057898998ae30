//! The seven categories, each as a walk over its fields. All of them answer how
//! many slots are used, 0 where there are none, or the first fault.

use super::record_bytes::TEXT;
use super::walk::{field, require, Field, Slots, Walk};
use crate::record::Refusal;

const INTENSITY_SLOTS: Slots = Slots { first: 69, width: 9, count: 16 };
const TSUNAMI_SLOTS: Slots = Slots { first: 84, width: 26, count: 5 };
const VOLCANO_SLOTS: Slots = Slots { first: 88, width: 23, count: 5 };
const ASH_FALL_SLOTS: Slots = Slots { first: 83, width: 29, count: 4 };
const FLOOD_SLOTS: Slots = Slots { first: 53, width: 44, count: 3 };

/// The bytes of a slot in a record, its place apart.
const DAY: usize = 0;
const HOUR: usize = 1;
const MINUTE: usize = 2;
const STRENGTH: usize = 3;

const LOCAL_GOVERNMENTS: (u64, u64) = (110_000, 4_799_999);

/// Judges the slots up to the first empty one and tells how many these are. The
/// first of all cannot be empty. It is a macro so that every number of a slot is a
/// constant: in a loop the bits of each part would have to be worked out.
macro_rules! judge_slots {
    ($walk:expr, $slots:expr, $judge:ident, $first:literal $($later:literal)*) => {
        'used: {
            $judge($walk, $first)?;
            $(
                if $walk.are_empty($slots, $later, $later + 1) {
                    break 'used used_before($walk, $slots, $later)?;
                }
                $judge($walk, $later)?;
            )*
            $slots.count as u8
        }
    };
}

pub fn known(category: u8) -> bool {
    matches!(category, 2..=5 | 8 | 9 | 11)
}

/// Walks over the fields of a category that is known.
#[inline(always)]
pub fn walk(walk: &mut impl Walk, category: u8) -> Result<u8, Refusal> {
    match category {
        2 => hypocenter(walk),
        3 => intensity(walk),
        4 => nankai(walk),
        5 => tsunami(walk),
        8 => volcano(walk),
        9 => ash_fall(walk),
        _ => flood(walk),
    }
}

#[inline(always)]
fn hypocenter(walk: &mut impl Walk) -> Result<u8, Refusal> {
    issue(walk, priority, no_correction)?;
    walk.any(field(43, 10, 9))?;
    notifications(walk)?;
    time(walk, 80, 17)?;
    walk.one_of(field(96, 9, 20), |depth| depth <= 501 || depth == 511)?;
    walk.one_of(field(105, 7, 22), |tenths| matches!(tenths, 1..=101 | 126 | 127))?;
    walk.between(field(112, 10, 23), 11, 1000)?;
    walk.any(field(122, 1, 25))?;
    walk.between(field(123, 7, 26), 0, 89)?;
    walk.between(field(130, 6, 27), 0, 59)?;
    walk.between(field(136, 6, 28), 0, 59)?;
    walk.any(field(142, 1, 29))?;
    walk.between(field(143, 8, 30), 0, 179)?;
    walk.between(field(151, 6, 31), 0, 59)?;
    walk.between(field(157, 6, 32), 0, 59)?;
    walk.any(field(163, 51, 33))?;
    Ok(0)
}

#[inline(always)]
fn intensity(walk: &mut impl Walk) -> Result<u8, Refusal> {
    issue(walk, priority, no_correction)?;
    walk.any(field(43, 10, 9))?;
    time(walk, 53, 11)?;
    let used =
        judge_slots!(walk, INTENSITY_SLOTS, prefecture, 0 1 2 3 4 5 6 7 8 9 10 11 12 13 14 15);
    walk.any(field(213, 1, 14))?;
    Ok(used)
}

#[inline(always)]
fn prefecture(walk: &mut impl Walk, slot: usize) -> Result<(), Refusal> {
    walk.between(INTENSITY_SLOTS.part(slot, 0, 3, STRENGTH), 1, 7)?;
    walk.between(INTENSITY_SLOTS.place(slot, 3), 1, 47)
}

#[inline(always)]
fn nankai(walk: &mut impl Walk) -> Result<u8, Refusal> {
    issue(walk, priority, no_correction)?;
    walk.any(field(43, 10, 9))?;
    walk.between(field(53, 4, 11), 1, 15)?;
    // The text is any 18 bytes, so it goes by words.
    walk.value(field(57, 64, TEXT));
    walk.value(field(121, 64, TEXT + 8));
    walk.value(field(185, 16, TEXT + 16));
    let (number_field, total_field) = (field(201, 6, 12), field(207, 6, 13));
    let (number, total) = (walk.value(number_field), walk.value(total_field));
    require(number_field, number, (1..=63).contains(&number))?;
    require(total_field, total, number <= total && total <= 63)?;
    walk.any(field(213, 1, 14))?;
    Ok(0)
}

#[inline(always)]
fn tsunami(walk: &mut impl Walk) -> Result<u8, Refusal> {
    issue(walk, |rc| matches!(rc, 1 | 3 | 7), no_correction)?;
    walk.any(field(43, 10, 9))?;
    notifications(walk)?;
    walk.between(field(80, 4, 17), 1, 15)?;
    Ok(judge_slots!(walk, TSUNAMI_SLOTS, coast, 0 1 2 3 4))
}

#[inline(always)]
fn coast(walk: &mut impl Walk, slot: usize) -> Result<(), Refusal> {
    walk.any(TSUNAMI_SLOTS.part(slot, 0, 1, DAY))?;
    let hour = TSUNAMI_SLOTS.part(slot, 1, 5, HOUR);
    let minute = TSUNAMI_SLOTS.part(slot, 6, 6, MINUTE);
    arrival(walk, hour, minute)?;
    walk.between(TSUNAMI_SLOTS.part(slot, 12, 4, STRENGTH), 1, 15)?;
    walk.between(TSUNAMI_SLOTS.place(slot, 16), 100, 1000)
}

#[inline(always)]
fn volcano(walk: &mut impl Walk) -> Result<u8, Refusal> {
    issue(walk, priority_or_regular, any_information)?;
    walk.any(field(43, 7, 9))?;
    walk.any(field(50, 3, 10))?;
    activity(walk)?;
    walk.between(field(69, 7, 14), 1, 127)?;
    walk.between(field(76, 12, 15), 101, 4000)?;
    let used = judge_slots!(walk, VOLCANO_SLOTS, reached_place, 0 1 2 3 4);
    walk.any(field(203, 11, 17))?;
    Ok(used)
}

#[inline(always)]
fn reached_place(walk: &mut impl Walk, slot: usize) -> Result<(), Refusal> {
    let (lowest, highest) = LOCAL_GOVERNMENTS;
    walk.between(VOLCANO_SLOTS.place(slot, 0), lowest, highest)
}

#[inline(always)]
fn ash_fall(walk: &mut impl Walk) -> Result<u8, Refusal> {
    issue(walk, priority, any_information)?;
    walk.any(field(43, 10, 9))?;
    time(walk, 53, 11)?;
    walk.between(field(69, 2, 14), 1, 2)?;
    walk.between(field(71, 12, 15), 101, 4000)?;
    let used = judge_slots!(walk, ASH_FALL_SLOTS, ash_place, 0 1 2 3);
    walk.any(field(199, 15, 17))?;
    Ok(used)
}

#[inline(always)]
fn ash_place(walk: &mut impl Walk, slot: usize) -> Result<(), Refusal> {
    let (lowest, highest) = LOCAL_GOVERNMENTS;
    walk.between(ASH_FALL_SLOTS.part(slot, 0, 3, HOUR), 1, 6)?;
    walk.between(ASH_FALL_SLOTS.part(slot, 3, 3, STRENGTH), 1, 7)?;
    walk.between(ASH_FALL_SLOTS.place(slot, 6), lowest, highest)
}

#[inline(always)]
fn flood(walk: &mut impl Walk) -> Result<u8, Refusal> {
    issue(walk, priority_or_regular, any_information)?;
    walk.any(field(43, 10, 9))?;
    let used = judge_slots!(walk, FLOOD_SLOTS, river, 0 1 2);
    walk.any(field(185, 29, 11))?;
    Ok(used)
}

#[inline(always)]
fn river(walk: &mut impl Walk, slot: usize) -> Result<(), Refusal> {
    walk.between(FLOOD_SLOTS.part(slot, 0, 4, STRENGTH), 1, 15)?;
    walk.between(FLOOD_SLOTS.place(slot, 4), 10_175_000_100, 899_999_999_999)
}

/// What every category begins with: Rc, the time of issue, It.
#[inline(always)]
fn issue(
    walk: &mut impl Walk,
    rc: impl Fn(u64) -> bool,
    it: impl Fn(u64) -> bool,
) -> Result<(), Refusal> {
    walk.one_of(field(14, 3, 3), rc)?;
    walk.between(field(21, 4, 4), 1, 12)?;
    walk.between(field(25, 5, 5), 1, 31)?;
    walk.between(field(30, 5, 6), 0, 23)?;
    walk.between(field(35, 6, 7), 0, 59)?;
    walk.one_of(field(41, 2, 8), it)
}

fn priority(rc: u64) -> bool {
    matches!(rc, 2 | 7)
}

fn priority_or_regular(rc: u64) -> bool {
    matches!(rc, 2 | 3 | 7)
}

fn no_correction(it: u64) -> bool {
    matches!(it, 0 | 2)
}

fn any_information(it: u64) -> bool {
    it <= 2
}

#[inline(always)]
fn notifications(walk: &mut impl Walk) -> Result<(), Refusal> {
    let allowed = |notification| matches!(notification, 0 | 101..=500);
    walk.one_of(field(53, 9, 11), allowed)?;
    walk.one_of(field(62, 9, 13), allowed)?;
    walk.one_of(field(71, 9, 15), allowed)
}

/// Day, hour and minute, one behind the other in the frame and in the record.
const fn time_fields(first: usize, at: usize) -> [Field; 3] {
    [field(first, 5, at), field(first + 5, 5, at + 1), field(first + 10, 6, at + 2)]
}

#[inline(always)]
fn time(walk: &mut impl Walk, first: usize, at: usize) -> Result<(), Refusal> {
    let [day, hour, minute] = time_fields(first, at);
    walk.between(day, 1, 31)?;
    walk.between(hour, 0, 23)?;
    walk.between(minute, 0, 59)
}

/// The time of category 8, which may have the three codes of an unknown one.
#[inline(always)]
fn activity(walk: &mut impl Walk) -> Result<(), Refusal> {
    let [day_field, hour_field, minute_field] = time_fields(53, 11);
    let (day, hour) = (walk.value(day_field), walk.value(hour_field));
    let minute = walk.value(minute_field);
    if (day, hour, minute) == (0, 31, 63) {
        return Ok(());
    }
    require(day_field, day, (1..=31).contains(&day))?;
    require(hour_field, hour, hour <= 23)?;
    require(minute_field, minute, minute <= 59)
}

/// Hour and minute of category 5, which may have the two codes of a wave that has
/// arrived.
#[inline(always)]
fn arrival(walk: &mut impl Walk, hour_field: Field, minute_field: Field) -> Result<(), Refusal> {
    let (hour, minute) = (walk.value(hour_field), walk.value(minute_field));
    if (hour, minute) == (31, 63) {
        return Ok(());
    }
    require(hour_field, hour, hour <= 23)?;
    require(minute_field, minute, minute <= 59)
}

/// How many slots are used where one is the first empty one. None behind it may be
/// used.
#[inline(always)]
fn used_before(walk: &impl Walk, slots: Slots, empty: usize) -> Result<u8, Refusal> {
    if walk.are_empty(slots, empty, slots.count) {
        Ok(empty as u8)
    } else {
        Err(used_behind(walk, slots, empty))
    }
}

/// The refusal of the first used slot behind an empty one.
#[cold]
#[inline(never)]
fn used_behind(walk: &impl Walk, slots: Slots, empty: usize) -> Refusal {
    let used = (empty..slots.count).find(|&slot| !walk.are_empty(slots, slot, slot + 1));
    Refusal::slot_after_empty(slots.first_bit(used.unwrap_or(empty)))
}
