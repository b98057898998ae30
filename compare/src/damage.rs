//! Frames that were read and then damaged: what the proved reader answers, against
//! the reference reader and, within 24 consecutive bits, also against what
//! document 02 says of it. A refusal leaves the buffer as it was.

use crate::packed::LENGTH;
use crate::reading::{agree, frame_of};
use crate::{door, pattern, Count};
use reference::answer::Answer;
use reference::bits::Frame;
use reference::damage::{promised_number, unseen_by_parity, Damage, FRAME_BITS, PROMISED_BITS};
use reference::generate::{any_category, valid_frame};
use reference::random::Random;
use reference::read::read;
use reference::record::{Category, Refusal};
use reference::samples;

const RANDOM_FRAMES: usize = 200_000;

/// The bits of a damage of which every pattern is tried at every place.
const PATTERN_BITS: usize = 8;

/// Where every pattern of 24 bits is tried: the first bits of a frame, those in
/// its middle and its parity.
const PLACES: [usize; 3] = [0, 113, FRAME_BITS - PROMISED_BITS];

/// Every pattern of eight bits at every place, in a frame of each category.
pub fn every_pattern_of_eight(count: &mut Count) {
    let mut random = Random::new(250);
    for category in Category::ALL {
        let frame = valid_frame(&mut random, category);
        for changed in 1..1 << PATTERN_BITS {
            for damage in Damage::everywhere(PATTERN_BITS, changed) {
                promised(count, &frame, damage);
            }
        }
    }
}

/// Every pattern of 24 bits at three places of a report of document 004, by the
/// proved reader alone.
pub fn every_pattern_of_24(count: &mut Count) {
    let frame = frame_of(&samples::intensity()[0]);
    let untouched = pattern(LENGTH);
    let mut buffer = untouched.clone();
    for first in PLACES {
        for changed in 1..1 << PROMISED_BITS {
            let damaged = Damage { first, width: PROMISED_BITS, changed }.done_to(&frame);
            let ours = (door::read(&damaged, &mut buffer), buffer == untouched);
            count.same(&damaged, &ours, &(Answer::refused(promised_number(&damaged)), true));
        }
    }
}

/// Two bits at most 23 apart, in the reports of document 004.
pub fn two_bits(count: &mut Count) {
    in_samples(count, |width| 1 << (width - 1) | 1);
}

/// All bits of a row, up to 24 of them, in the reports of document 004.
pub fn runs(count: &mut Count) {
    in_samples(count, |width| (1 << width) - 1);
}

/// Any bits out of any 24, in frames of all categories.
pub fn any_damage(count: &mut Count) {
    let mut random = Random::new(251);
    for _ in 0..RANDOM_FRAMES {
        let category = any_category(&mut random);
        let frame = valid_frame(&mut random, category);
        let first = random.below(FRAME_BITS - PROMISED_BITS + 1);
        let changed = random.between(1, (1 << PROMISED_BITS) - 1);
        promised(count, &frame, Damage { first, width: PROMISED_BITS, changed });
    }
}

/// The narrowest damage that leaves the parity right, at every place of the reports
/// of document 004: of it nothing is promised, and some of it is read.
pub fn within_25_bits(count: &mut Count) {
    for record in samples::all() {
        for damage in unseen_by_parity() {
            let damaged = damage.done_to(&frame_of(&record));
            agree(count, &damaged);
            if let Ok(other) = read(&damaged) {
                assert_ne!(other, record, "{damage:?}");
                count.note("read as another report");
            }
        }
    }
}

/// Damage that reaches behind the 250 bits: 2 comes before 3 and 4.
pub fn behind_the_frame(count: &mut Count) {
    for record in samples::all() {
        for width in 1..=PROMISED_BITS {
            for first in FRAME_BITS + 1 - width..=256 - width {
                let damage = Damage { first, width, changed: (1 << width) - 1 };
                answered(count, &damage.done_to(&frame_of(&record)), 2);
            }
        }
    }
}

/// A damage of each width up to 24 at every place.
fn in_samples(count: &mut Count, changed: fn(usize) -> u64) {
    for record in samples::all() {
        let frame = frame_of(&record);
        for width in 1..=PROMISED_BITS {
            for damage in Damage::everywhere(width, changed(width)) {
                promised(count, &frame, damage);
            }
        }
    }
}

/// A frame that is read, and damaged is refused as promised.
fn promised(count: &mut Count, frame: &Frame, damage: Damage) {
    let damaged = damage.done_to(frame);
    let number = promised_number(&damaged);
    count.note(if number == 3 { "refused with 3" } else { "refused with 4" });
    answered(count, &damaged, number);
}

/// The proved reader answers as the reference does, and that with this number.
fn answered(count: &mut Count, damaged: &Frame, number: u8) {
    agree(count, damaged);
    assert_eq!(read(damaged), Err(Refusal::plain(number)), "{damaged:02X?}");
}
