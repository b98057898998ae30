//! Spares among other faults: too wide in a record they are one more, set in a
//! frame they are none.

use super::{all_spares, spares_of, Spare, COUNT};
use crate::common::{base_frame, changed, outcome, reading, writing};
use reference::bits::{get, Frame};
use reference::generate::{any_frame, raw_frame, set_number, RawValue};
use reference::random::Random;
use reference::read::read;
use reference::record::Category::{
    self, AshFall, Flood, Hypocenter, Intensity, Nankai, Tsunami, Volcano,
};
use reference::record::{Body, Record, Refusal, Slot};
use reference::write::write;

/// Those behind the other fields.
fn second_spares() -> Vec<Spare> {
    all_spares().into_iter().filter(|spare| spare.number == 1).collect()
}

#[test]
fn it_before_spare1_before_the_fields_of_the_category() {
    for category in Category::ALL {
        let first_field = |record: &mut Record| set_number(record, 53, 1 << 15);
        assert_eq!(writing(category, first_field), (8, 53));
        let spare1 = |record: &mut Record| {
            first_field(record);
            record.spares[0] = 1024;
        };
        assert_eq!(writing(category, spare1), (8, 43));
        let it = |record: &mut Record| {
            spare1(record);
            record.it = 3;
        };
        assert_eq!(writing(category, it), (8, 41));
    }
}

#[test]
fn the_fields_of_the_category_before_spare2_before_reserved() {
    for spare in second_spares() {
        let reserved = |record: &mut Record| record.reserved = 64;
        assert_eq!(writing(spare.category, reserved), (8, 220));
        let spare2 = |record: &mut Record| {
            reserved(record);
            spare.put(record, spare.highest + 1);
        };
        assert_eq!(writing(spare.category, spare2), spare.too_wide());
        // The last number of the sample in front of it: seconds, the prefecture of
        // the ninth slot, a page total, the third place, the place of the fourth
        // slot, the only region.
        let last = match spare.category {
            Hypocenter => 157,
            Intensity => 144,
            Nankai => 207,
            Volcano => 134,
            AshFall => 176,
            Flood => 57,
            Tsunami => unreachable!("it has no second spare"),
        };
        let last_field = |record: &mut Record| {
            spare2(record);
            set_number(record, last, u64::MAX);
        };
        assert_eq!(writing(spare.category, last_field), (8, last as u8));
    }
}

#[test]
fn a_gap_stands_between_the_spares() {
    let gaps = [(Intensity, 87), (Tsunami, 136), (Volcano, 134), (AshFall, 141), (Flood, 141)];
    for (category, gap) in gaps {
        let empty = |record: &mut Record| {
            // The sample of flood has one area alone.
            record.slots[2] = record.slots[0];
            record.slots[1] = Slot::default();
            if category != Tsunami {
                record.spares[1] = u64::MAX;
            }
        };
        assert_eq!(writing(category, empty), (10, gap));
        let spare1 = |record: &mut Record| {
            empty(record);
            record.spares[0] = 1024;
        };
        assert_eq!(writing(category, spare1), (8, 43));
    }
}

#[test]
fn length_preamble_category_and_unused_come_before_a_spare_too_wide() {
    for spare in all_spares() {
        let wide = |record: &mut Record| spare.put(record, u64::MAX);
        let unused = |record: &mut Record| {
            wide(record);
            record.slots[15].minute = 1;
        };
        assert_eq!(writing(spare.category, unused), (11, 0));
        let no_category = |record: &mut Record| {
            unused(record);
            record.body = Body::Nothing;
        };
        assert_eq!(writing(spare.category, no_category), (7, 0));
        let preamble = |record: &mut Record| {
            no_category(record);
            record.preamble = 0;
        };
        assert_eq!(writing(spare.category, preamble), (3, 0));
        let record = spare.record(u64::MAX);
        assert_eq!(write(&record, &mut [0; 31]), Err(Refusal::plain(1)));
    }
}

/// Its areas reach up to the version, so there is nothing behind them.
#[test]
fn tsunami_reports_have_no_spare2() {
    let spare2 = |value| writing(Tsunami, |record| record.spares[1] = value);
    assert_eq!(spare2(0), (0, 0));
    assert_eq!(spare2(u64::MAX), (11, 0));
    (0..64).for_each(|bit| assert_eq!(spare2(1 << bit), (11, 0)));
    let with_others = |record: &mut Record| {
        record.spares = [1024, 1];
        record.it = 3;
        record.slots[1] = Slot::default();
    };
    assert_eq!(writing(Tsunami, with_others), (11, 0));
    // The bit that others have for a spare is the last one of the fifth region.
    let frame = changed(&base_frame(Tsunami), &[(213, 1, 1)]);
    assert_eq!(outcome(read(&frame)), (10, 188));
}

#[test]
fn a_spare_that_is_set_hides_no_fault() {
    let set = [(43, 10, 1023), (163, 51, u64::MAX)];
    let with = |values: &[(usize, usize, u64)]| reading(Hypocenter, &[&set, values].concat());
    assert_eq!(with(&[]), (0, 0));
    assert_eq!(with(&[(41, 2, 3)]), (8, 41));
    assert_eq!(with(&[(53, 9, 100)]), (8, 53));
    assert_eq!(with(&[(157, 6, 60)]), (8, 157));
    assert_eq!(with(&[(157, 6, 60), (96, 9, 502)]), (8, 96));
    assert_eq!(reading(Intensity, &[(43, 10, 1), (78, 9, 0), (213, 1, 1)]), (10, 87));
    assert_eq!(reading(Nankai, &[(43, 10, 1), (207, 6, 0), (213, 1, 1)]), (8, 207));
    assert_eq!(reading(Volcano, &[(43, 7, 127), (53, 5, 0), (203, 11, 1)]), (8, 53));
    assert_eq!(reading(AshFall, &[(43, 10, 1), (170, 3, 0), (199, 15, 1)]), (8, 170));
    assert_eq!(reading(Flood, &[(43, 10, 1), (97, 4, 1), (185, 29, 1)]), (8, 101));
}

/// Whatever a frame with right parity is, other bits in its spares give the same
/// answer, and the same record but for them.
#[test]
fn what_spares_hold_decides_nothing() {
    let mut random = Random::new(163);
    let mut read_count = 0;
    for _ in 0..COUNT {
        let Ok(frame) = Frame::try_from(any_frame(&mut random)) else {
            continue;
        };
        let own = Category::of_code(get(&frame, 17, 4)).map_or(Vec::new(), spares_of);
        let mut held = [0; 2];
        let mut raw = Vec::new();
        for Spare { number, first, width, .. } in own {
            held[number] = random.bits(width);
            raw.push(RawValue { first, width, value: held[number] });
        }
        let before = read(&raw_frame(&frame, &[]));
        let expected = before.map(|record| Record { spares: held, ..record });
        assert_eq!(read(&raw_frame(&frame, &raw)), expected);
        read_count += usize::from(expected.is_ok());
    }
    assert!(COUNT / 4 < read_count && read_count < COUNT * 3 / 4, "{read_count}");
}
