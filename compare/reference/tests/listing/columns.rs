//! What the columns of a row say.

use crate::{rows, sample_frame, sample_line};
use reference::generate::{any_line, gap_frame, raw_frame, RawValue};
use reference::line::{line_of_frame, read_line, DIGITS};
use reference::random::Random;
use reference::record::{Record, Refusal, Slot};
use reference::samples;

#[test]
fn category_and_slots_of_what_is_read() {
    let samples = [
        samples::hypocenter(),
        samples::intensity(),
        samples::nankai(),
        samples::tsunami_warning(),
        samples::tsunami_update(),
        samples::volcano(),
        samples::ash_fall_detailed(),
        samples::flood_warning(),
    ];
    let input = samples.map(sample_line).join("\n");
    let expected = [
        "1 0 - 2 - -",
        "2 0 - 3 9 -",
        "3 0 - 4 - -",
        "4 0 - 5 3 -",
        "5 0 - 5 4 -",
        "6 0 - 8 3 -",
        "7 0 - 9 4 -",
        "8 0 - 11 1 -",
    ];
    assert_eq!(rows(input.as_bytes()), expected);
    assert_eq!(rows(input.to_lowercase().as_bytes()), expected);
}

#[test]
fn areas_are_counted_as_slots() {
    let mut record = samples::tsunami_warning()[0];
    for used in 1..=5 {
        record.slots = [Slot::default(); 16];
        // A wave that has arrived counts as one that is expected.
        let arrived = Slot { day: 1, hour: 31, minute: 63, strength: 14, place: 1000 };
        record.slots[..used].fill(arrived);
        assert_eq!(rows(sample_line(vec![record]).as_bytes()), [format!("1 0 - 5 {used} -")]);
    }
    // A fourth area of which only the day is there.
    let day_alone = RawValue { first: 162, width: 1, value: 1 };
    let frame = raw_frame(&sample_frame(samples::tsunami_warning()), &[day_alone]);
    assert_eq!(rows(&line_of_frame(&frame)), ["1 8 174 - - 0"]);
}

/// Up to five places and three areas, and what a half filled area is listed as.
#[test]
fn places_of_volcano_and_areas_of_flood_are_counted_as_slots() {
    let place = Slot { place: 110_000, ..Slot::default() };
    let area = Slot { strength: 15, place: 899_999_999_999, ..Slot::default() };
    let cases = [(samples::volcano(), place, 8, 5), (samples::flood_lifted(), area, 11, 3)];
    for (samples, slot, code, most) in cases {
        for used in 1..=most {
            let mut record = samples[0];
            record.slots = [Slot::default(); 16];
            record.slots[..used].fill(slot);
            let row = format!("1 0 - {code} {used} -");
            assert_eq!(rows(sample_line(vec![record]).as_bytes()), [row]);
        }
    }
    let level_alone = RawValue { first: 97, width: 4, value: 1 };
    let frame = raw_frame(&sample_frame(samples::flood_warning()), &[level_alone]);
    assert_eq!(rows(&line_of_frame(&frame)), ["1 8 101 - - 0"]);
}

#[test]
fn a_place_is_given_for_8_and_10_alone() {
    let mut random = Random::new(810);
    let no_day = RawValue { first: 25, width: 5, value: 0 };
    let frame = raw_frame(&sample_frame(samples::hypocenter()), &[no_day]);
    assert_eq!(rows(&line_of_frame(&frame)), ["1 8 25 - - 0"]);
    let line = line_of_frame(&gap_frame(&mut random));
    let place = read_line(&line).expect_err("the frame has a fault").place;
    assert_eq!(rows(&line), [format!("1 10 {place} - - -")]);
}

/// The line of a sample with values put at some bits.
fn changed_line(samples: fn() -> Vec<Record>, values: &[(usize, usize, u64)]) -> [u8; DIGITS] {
    let raw = |&(first, width, value): &(usize, usize, u64)| RawValue { first, width, value };
    let values: Vec<RawValue> = values.iter().map(raw).collect();
    line_of_frame(&raw_frame(&sample_frame(samples()), &values))
}

#[test]
fn a_value_is_given_for_8_alone() {
    let lines = [
        changed_line(samples::hypocenter, &[(105, 7, 102)]),
        changed_line(samples::hypocenter, &[(105, 7, 0)]),
        changed_line(samples::nankai, &[(201, 6, 3), (207, 6, 2)]),
        changed_line(samples::tsunami_warning, &[(85, 5, 31), (90, 6, 5)]),
        changed_line(samples::tsunami_warning, &[(85, 5, 5), (90, 6, 63)]),
        changed_line(samples::ash_fall_detailed, &[(89, 23, 8_388_607)]),
        changed_line(samples::intensity, &[(78, 9, 0)]),
        changed_line(samples::intensity, &[(17, 4, 10)]),
    ];
    let expected = [
        "1 8 105 - - 102",
        "2 8 105 - - 0",
        "3 8 207 - - 2",
        "4 8 85 - - 31",
        "5 8 90 - - 63",
        "6 8 89 - - 8388607",
        "7 10 87 - - -",
        "8 7 - - - -",
    ];
    assert_eq!(rows(&lines.join(&b'\n')), expected);
}

/// A region that is refused has up to 13 digits.
#[test]
fn values_of_volcano_and_flood() {
    let lines = [
        changed_line(samples::volcano, &[(53, 5, 0), (58, 5, 31)]),
        changed_line(samples::volcano, &[(58, 5, 31), (63, 6, 63)]),
        changed_line(samples::volcano, &[(63, 6, 63)]),
        changed_line(samples::volcano, &[(53, 5, 0), (58, 5, 31), (63, 6, 63)]),
        changed_line(samples::volcano, &[(88, 23, 0)]),
        changed_line(samples::volcano, &[(111, 23, 0)]),
        changed_line(samples::flood_warning, &[(53, 44, 0)]),
        changed_line(samples::flood_warning, &[(57, 40, 10_175_000_099)]),
        changed_line(samples::flood_warning, &[(57, 40, 900_000_000_000)]),
        changed_line(samples::flood_warning, &[(57, 40, 1_099_511_627_775)]),
        changed_line(samples::flood_warning, &[(141, 44, 1_099_511_627_775)]),
    ];
    let expected = [
        "1 8 53 - - 0",
        "2 8 58 - - 31",
        "3 8 63 - - 63",
        "4 0 - 8 3 -",
        "5 8 88 - - 0",
        "6 10 134 - - -",
        "7 8 53 - - 0",
        "8 8 57 - - 10175000099",
        "9 8 57 - - 900000000000",
        "10 8 57 - - 1099511627775",
        "11 10 141 - - -",
    ];
    assert_eq!(rows(&lines.join(&b'\n')), expected);
}

/// Whatever a line is, its row has six columns, and the last of them is the value
/// of reading or a dash.
#[test]
fn every_row_has_the_value_of_its_line() {
    let mut random = Random::new(811);
    for _ in 0..20_000 {
        let mut line = any_line(&mut random);
        line.retain(|&character| character != b'\n');
        let expected = match read_line(&line) {
            Err(Refusal { number: 8, value, .. }) => value.to_string(),
            _ => "-".to_string(),
        };
        let rows = rows(&[&line[..], b"\n"].concat());
        let columns: Vec<&str> = rows[0].split(' ').collect();
        assert_eq!((columns.len(), columns[5]), (6, &expected[..]));
    }
}

/// What was spare once may say something in a later frame: it is listed as any
/// other.
#[test]
fn spares_that_are_set_are_not_seen() {
    let spare1 = RawValue { first: 43, width: 10, value: 1023 };
    let short_spare1 = RawValue { first: 43, width: 7, value: 127 };
    let spare2 = |first, width| RawValue { first, width, value: u64::MAX };
    let cases = [
        (samples::hypocenter(), vec![spare1, spare2(163, 51)], "1 0 - 2 - -"),
        (samples::intensity(), vec![spare1, spare2(213, 1)], "1 0 - 3 9 -"),
        (samples::nankai(), vec![spare1, spare2(213, 1)], "1 0 - 4 - -"),
        (samples::tsunami_warning(), vec![spare1], "1 0 - 5 3 -"),
        (samples::volcano(), vec![short_spare1, spare2(203, 11)], "1 0 - 8 3 -"),
        (samples::ash_fall_detailed(), vec![spare1, spare2(199, 15)], "1 0 - 9 4 -"),
        (samples::flood_warning(), vec![spare1, spare2(185, 29)], "1 0 - 11 1 -"),
    ];
    for (samples, values, row) in cases {
        let frame = raw_frame(&sample_frame(samples), &values);
        assert_eq!(rows(&line_of_frame(&frame)), [row]);
    }
}
