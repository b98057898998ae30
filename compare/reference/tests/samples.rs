//! The samples of document 004 as frames.

use reference::bits::Frame;
use reference::line::read_line;
use reference::meaning::{prefecture, slots_used};
use reference::read::read;
use reference::record::{Body, Category, Record, Slot, Time};
use reference::samples;
use reference::write::write;

const KINU: u64 = 830_303_020_300;

fn digits(record: &Record) -> String {
    let mut frame: Frame = [0; 32];
    write(record, &mut frame).expect("a sample is valid");
    frame.iter().map(|byte| format!("{byte:02x}")).collect()
}

/// A cancellation with five areas, in two of which the wave has arrived. It is
/// in no table of document 004.
fn five_areas() -> Record {
    let mut slots = [Slot::default(); 16];
    slots[0] = Slot { day: 1, hour: 31, minute: 63, strength: 14, place: 1000 };
    slots[1] = Slot { day: 0, hour: 0, minute: 0, strength: 1, place: 100 };
    slots[2] = Slot { day: 1, hour: 23, minute: 59, strength: 15, place: 990 };
    slots[3] = Slot { day: 0, hour: 31, minute: 63, strength: 6, place: 600 };
    slots[4] = Slot { day: 1, hour: 12, minute: 34, strength: 5, place: 801 };
    Record {
        preamble: 0xC6,
        reserved: 63,
        rc: 1,
        month: 12,
        day: 31,
        hour: 23,
        minute: 59,
        it: 2,
        spares: [0; 2],
        body: Body::Tsunami { notifications: [101, 0, 500], warning: 15 },
        slots,
        text: [0; 18],
    }
}

/// A correction with five places, and an activity time that is unknown. It is in
/// no table of document 004, as the next is in none.
fn unknown_time() -> Record {
    const PLACES: [u64; 5] = [110_000, 4_799_999, 2_322_100, 1_310_100, 4_799_999];
    let time = Time { day: 0, hour: 31, minute: 63 };
    let mut record = Record {
        preamble: 0xC6,
        reserved: 63,
        rc: 3,
        month: 12,
        day: 31,
        hour: 23,
        minute: 59,
        it: 1,
        body: Body::Volcano { ambiguity: 7, time, warning: 127, volcano: 4000 },
        ..Record::default()
    };
    for (slot, place) in record.slots.iter_mut().zip(PLACES) {
        slot.place = place;
    }
    record
}

/// A correction with three areas, the regions of two being the ends of their
/// range.
fn three_areas() -> Record {
    const AREAS: [(u8, u64); 3] = [(15, 899_999_999_999), (1, 10_175_000_100), (4, KINU)];
    let mut record = Record {
        preamble: 0x9A,
        reserved: 42,
        rc: 2,
        month: 2,
        day: 31,
        hour: 0,
        minute: 0,
        it: 1,
        body: Body::Flood,
        ..Record::default()
    };
    for (slot, (strength, place)) in record.slots.iter_mut().zip(AREAS) {
        *slot = Slot { strength, place, ..Slot::default() };
    }
    record
}

/// These were laid out apart from this package, as strings of binary digits
/// whose remainder was taken with whole numbers.
#[test]
fn frames_laid_out_another_way() {
    let cases = [
        (
            samples::hypocenter()[0],
            "53af91ac82800388000059051440c5c82a010830000000000000001030930e40",
        ),
        (
            samples::intensity()[0],
            "53af99ac828002c82cb25ae775a8d4ca854ab80000000000000000100412de00",
        ),
        (
            samples::tsunami_warning()[0],
            "53afa9ac828001e8f67c31053960414e621053be00000000000000100d3ffcc0",
        ),
        (
            samples::tsunami_update()[1],
            "53afa9ec2c8001e8f67c30593960164e620593bbc164ef8000000010310a1f00",
        ),
        (
            samples::tsunami_lifted()[0],
            "53afa9ac9180019c00002123396048ce621233bbc48cef800000001007948180",
        ),
        (five_areas(), "c6acae7efdc0019401f4ffffefa0000464dfbff79ffda58b225c841fea503f40"),
        (samples::nankai()[0], "53afa1ac918002f2c6cbf35adbf1c1c471c1d4f1c1caf3595f82d81019545bc0"),
        (
            samples::ash_fall_detailed()[0],
            "53afc9acaa0002caa43ee541f0782a1220813091811183e0f000001026c26600",
        ),
        (
            samples::ash_fall_detailed()[9],
            "53afc9ec4a0006c4a43ef8c24410c61230200000000000000000001010a2c3c0",
        ),
    ];
    for (record, expected) in cases {
        assert_eq!(digits(&record), expected);
    }
}

/// So were these.
#[test]
fn frames_of_volcano_and_flood_laid_out_another_way() {
    let cases = [
        (samples::volcano()[0], "53afc1aca50002ca5341f783e0f1091042123020000000000000001035204680"),
        (samples::volcano()[1], "53afc1ec450006c45341f783e0f109104212302000000000000000102b54a280"),
        (unknown_time(), "c6adc67efda0383fffffa0035b6124f7fd1b75a13fd94927bfe0001fc467cac0"),
        (
            samples::flood_warning()[0],
            "53afd9acb1800160a8f5528600000000000000000000000000000010146c46c0",
        ),
        (
            samples::flood_lifted()[1],
            "53afd9ec590000e0a8f55286000000000000000000000000000000100e604680",
        ),
        (three_areas(), "9aad597c002007e8c61713ff8812f3d1712260a8f55286000000001ab7f4a500"),
    ];
    for (record, expected) in cases {
        assert_eq!(digits(&record), expected);
        assert_eq!(read_line(&expected.as_bytes()[..63]), Ok(record));
    }
}

/// A sample with something in its spares, which no table of document 004 has.
fn with_spares(sample: Record, spares: [u64; 2]) -> Record {
    Record { spares, ..sample }
}

/// These were laid out in the same way apart from this package.
#[test]
fn spares_laid_out_another_way() {
    let cases = [
        (
            with_spares(samples::hypocenter()[0], [0x2A5, 0x4_0123_4567_89AB]),
            "53af91ac82952b88000059051440c5c82a01083010048d159e26ac1025480400",
        ),
        (
            with_spares(samples::intensity()[0], [1, 1]),
            "53af99ac82800ac82cb25ae775a8d4ca854ab80000000000000004103e25d440",
        ),
        (
            with_spares(samples::nankai()[0], [1023, 1]),
            "53afa1ac919ffaf2c6cbf35adbf1c1c471c1d4f1c1caf3595f82dc103f0babc0",
        ),
        (
            with_spares(samples::tsunami_warning()[0], [0x200, 0]),
            "53afa9ac829001e8f67c31053960414e621053be000000000000001009ec3580",
        ),
        (
            with_spares(samples::ash_fall_detailed()[0], [0x155, 0x4ABC]),
            "53afc9acaa0aaacaa43ee541f0782a1220813091811183e0f12af0103bce5c80",
        ),
        (
            with_spares(samples::volcano()[0], [0x55, 0x4BC]),
            "53afc1aca51542ca5341f783e0f1091042123020000000000012f0101560a300",
        ),
        (
            with_spares(samples::flood_lifted()[1], [0x2AA, 0x1ABC_DEF5]),
            "53afd9ec591550e0a8f5528600000000000000000000006af37bd41031c0be40",
        ),
    ];
    for (record, expected) in cases {
        assert_eq!(digits(&record), expected);
        assert_eq!(read_line(&expected.as_bytes()[..63]), Ok(record));
    }
}

#[test]
fn no_sample_has_anything_in_its_spares() {
    assert!(samples::all().iter().all(|sample| sample.spares == [0; 2]));
}

#[test]
fn every_sample_is_written_and_read_back() {
    let all = samples::all();
    assert_eq!(all.len(), 2 + 2 + 2 + 2 + 54 + 2 + 2 + 2 + 10 + 2 + 2);
    for record in all {
        let mut frame = [0; 32];
        assert_eq!(write(&record, &mut frame), Ok(()));
        assert_eq!(read(&frame), Ok(record));
    }
}

#[test]
fn the_bulletin_has_27_pages_and_its_text_comes_back() {
    let records = samples::nankai();
    let mut text = Vec::new();
    for (record, number) in records[..27].iter().zip(1..) {
        assert_eq!(record.body, Body::Nankai { serial: 5, page: number, total: 27 });
        text.extend(record.text);
    }
    assert_eq!(samples::NANKAI_TEXT.chars().count(), 158);
    assert_eq!(&text[..474], samples::NANKAI_TEXT.as_bytes());
    assert_eq!(text[474..], [0; 12]);
    assert!(records[27..].iter().zip(&records).all(|(second, first)| second.text == first.text));
}

/// Within a table the two deliveries follow each other, and the tables stand in
/// the order of document 004: categories and minutes of issue tell them apart.
#[test]
fn the_order_of_document_004() {
    let category = |record: &Record| record.body.category().map(Category::code);
    let mut order: Vec<_> =
        samples::all().iter().map(|record| (category(record), record.minute)).collect();
    order.dedup();
    let quake = [(2, 5), (3, 5), (5, 5), (5, 25), (4, 35), (5, 35)];
    let volcano_and_flood = [(8, 10), (9, 10), (9, 20), (11, 35), (11, 50)];
    let expected = [&quake[..], &volcano_and_flood].concat();
    let expected: Vec<_> = expected.iter().map(|&(code, minute)| (Some(code), minute)).collect();
    assert_eq!(order, expected);
}

#[test]
fn three_and_four_areas_of_three_metres_on_the_same_day() {
    let tables = [
        (samples::tsunami_warning(), vec![600, 610, 760]),
        (samples::tsunami_update(), vec![600, 610, 751, 760]),
        (samples::tsunami_lifted(), vec![600, 610, 751, 760]),
    ];
    for (records, regions) in tables {
        for record in records {
            let used = &record.slots[..slots_used(&record)];
            assert_eq!(used.iter().map(|area| area.place).collect::<Vec<_>>(), regions);
            for area in used {
                assert_eq!((area.day, area.strength), (0, 3));
                assert_eq!((area.hour, area.minute), (record.hour, record.minute));
            }
        }
    }
}

#[test]
fn three_places_and_the_time_of_the_eruption() {
    for record in samples::volcano() {
        let Record { day, hour, minute, .. } = record;
        let time = Time { day, hour, minute };
        let body = Body::Volcano { ambiguity: 0, time, warning: 52, volcano: 503 };
        assert_eq!(record.body, body);
        let used = &record.slots[..slots_used(&record)];
        let places: Vec<u64> = used.iter().map(|slot| slot.place).collect();
        assert_eq!(places, [4_321_400, 4_342_800, 4_343_300]);
    }
    let issued = |record: &Record| (record.day, record.hour, record.minute);
    let volcano: Vec<_> = samples::volcano().iter().map(issued).collect();
    assert_eq!(volcano, [(11, 5, 10), (27, 2, 10)]);
    let floods = [samples::flood_warning(), samples::flood_lifted()].concat();
    let floods: Vec<_> = floods.iter().map(issued).collect();
    assert_eq!(floods, [(11, 5, 35), (27, 2, 35), (11, 5, 50), (27, 2, 50)]);
}

#[test]
fn one_area_first_warned_of_and_then_not() {
    for (records, strength) in [(samples::flood_warning(), 2), (samples::flood_lifted(), 1)] {
        for record in records {
            assert_eq!(slots_used(&record), 1);
            assert_eq!(record.slots[0], Slot { strength, place: KINU, ..Slot::default() });
        }
    }
}

#[test]
fn nine_prefectures_and_eighteen_places() {
    let used = |records: Vec<Record>| records.iter().map(slots_used).collect::<Vec<_>>();
    assert_eq!(used(samples::intensity()), [9, 9]);
    assert_eq!(used(samples::ash_fall_preliminary()), [3, 3]);
    assert_eq!(used(samples::ash_fall_detailed()), [4, 4, 4, 4, 2, 4, 4, 4, 4, 2]);
    assert_eq!(prefecture(samples::ash_fall_detailed()[0].slots[0].place), Some(43));
}
