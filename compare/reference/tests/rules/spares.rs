//! Spares: a record keeps what they hold, and it is written back. Where they
//! stand is written out here once more.

mod order;

use crate::common::{base_frame, base_record, changed, outcome, writing, written};
use reference::bits::Frame;
use reference::fields::spares;
use reference::generate::valid_record;
use reference::random::Random;
use reference::read::read;
use reference::record::Category::{
    self, AshFall, Flood, Hypocenter, Intensity, Nankai, Tsunami, Volcano,
};
use reference::record::Record;
use reference::write::write;

const COUNT: usize = 50_000;

/// First bit, width and highest value.
type Row = (usize, usize, u64);

/// Spare1 and, where there is one, Spare2.
const SPARES: [(Category, &[Row]); 7] = [
    (Hypocenter, &[(43, 10, 1023), (163, 51, 2_251_799_813_685_247)]),
    (Intensity, &[(43, 10, 1023), (213, 1, 1)]),
    (Nankai, &[(43, 10, 1023), (213, 1, 1)]),
    (Tsunami, &[(43, 10, 1023)]),
    (Volcano, &[(43, 7, 127), (203, 11, 2047)]),
    (AshFall, &[(43, 10, 1023), (199, 15, 32_767)]),
    (Flood, &[(43, 10, 1023), (185, 29, 536_870_911)]),
];

/// One spare of one category.
#[derive(Clone, Copy, Debug)]
struct Spare {
    category: Category,
    /// 0 for Spare1, 1 for Spare2.
    number: usize,
    first: usize,
    width: usize,
    highest: u64,
}

fn spares_of(category: Category) -> Vec<Spare> {
    let (_, rows) = SPARES.into_iter().find(|row| row.0 == category).expect("all are there");
    let spare =
        |(number, &(first, width, highest))| Spare { category, number, first, width, highest };
    rows.iter().enumerate().map(spare).collect()
}

fn all_spares() -> Vec<Spare> {
    Category::ALL.into_iter().flat_map(spares_of).collect()
}

impl Spare {
    fn put(&self, record: &mut Record, value: u64) {
        record.spares[self.number] = value;
    }

    /// The sample with a value in this spare.
    fn record(&self, value: u64) -> Record {
        let mut record = base_record(self.category);
        self.put(&mut record, value);
        record
    }

    /// What writing the sample says with a value in this spare.
    fn writing(&self, value: u64) -> (u8, u8) {
        writing(self.category, |record| self.put(record, value))
    }

    /// What is said of a value that does not fit here.
    fn too_wide(&self) -> (u8, u8) {
        (8, self.first as u8)
    }
}

/// A frame and a record that must be each other's.
fn assert_are_one(frame: &Frame, record: &Record) {
    assert_eq!(read(frame), Ok(*record));
    assert_eq!(written(record), *frame);
}

#[test]
fn the_table_has_these_spares_and_no_others() {
    for (category, rows) in SPARES {
        let table = spares(category);
        let places: Vec<_> = table.iter().map(|row| (row.first, row.width)).collect();
        assert_eq!(places, rows.iter().map(|row| (row.0, row.1)).collect::<Vec<_>>());
        for (row, &(_, _, highest)) in table.iter().zip(rows) {
            assert_eq!(row.allowed, [(0, highest)]);
            assert_eq!(row.group_code, None);
        }
    }
}

#[test]
fn every_single_bit_goes_to_its_place() {
    for spare in all_spares() {
        for bit in 0..spare.width {
            let position = spare.first + spare.width - 1 - bit;
            let frame = changed(&base_frame(spare.category), &[(position, 1, 1)]);
            assert_are_one(&frame, &spare.record(1 << bit));
        }
    }
}

#[test]
fn every_single_bit_may_be_missing() {
    for spare in all_spares() {
        let full = changed(&base_frame(spare.category), &[(spare.first, spare.width, u64::MAX)]);
        for bit in 0..spare.width {
            let position = spare.first + spare.width - 1 - bit;
            let frame = changed(&full, &[(position, 1, 0)]);
            assert_are_one(&frame, &spare.record(spare.highest - (1 << bit)));
        }
    }
}

#[test]
fn all_spare_bits_at_once() {
    for category in Category::ALL {
        let mut record = base_record(category);
        let mut bits = Vec::new();
        for spare in spares_of(category) {
            spare.put(&mut record, spare.highest);
            bits.extend((spare.first..spare.first + spare.width).map(|position| (position, 1, 1)));
        }
        assert_are_one(&changed(&base_frame(category), &bits), &record);
    }
}

#[test]
fn a_spare_holds_as_much_as_its_bits_do() {
    for spare in all_spares() {
        for value in [0, 1, spare.highest / 2, spare.highest - 1, spare.highest] {
            let frame = changed(&base_frame(spare.category), &[(spare.first, spare.width, value)]);
            assert_are_one(&frame, &spare.record(value));
        }
    }
}

#[test]
fn a_spare_too_wide_is_out_of_range_whatever_its_low_bits_say() {
    for spare in all_spares() {
        let above = spare.highest + 1;
        for value in [above, above + 1, above + spare.highest, u64::MAX, u64::MAX - spare.highest] {
            assert_eq!(spare.writing(value), spare.too_wide(), "{spare:?} {value}");
        }
        for bit in spare.width..64 {
            assert_eq!(spare.writing(1 << bit), spare.too_wide(), "{spare:?} {bit}");
            assert_eq!(spare.writing(1 << bit | 1), spare.too_wide(), "{spare:?} {bit}");
        }
    }
}

/// What is to be said of two numbers in the spares of a record that is otherwise
/// valid.
fn expected(category: Category, values: [u64; 2]) -> (u8, u8) {
    let own = spares_of(category);
    if values[own.len()..].iter().any(|&value| value != 0) {
        return (11, 0);
    }
    let wide = own.iter().find(|spare| values[spare.number] > spare.highest);
    wide.map_or((0, 0), Spare::too_wide)
}

#[test]
fn both_spares_in_all_mixtures_of_sizes() {
    for category in Category::ALL {
        let highest: Vec<u64> = spares_of(category).iter().map(|spare| spare.highest).collect();
        let most = |number: usize| highest.get(number).copied().unwrap_or(0);
        let sizes = |number| [0, 1, most(number), most(number) + 1, 1 << 63, u64::MAX];
        for first in sizes(0) {
            for second in sizes(1) {
                let answer = writing(category, |record| record.spares = [first, second]);
                assert_eq!(answer, expected(category, [first, second]), "{category:?}");
            }
        }
    }
}

#[test]
fn any_numbers_in_the_spares_of_any_valid_record() {
    let mut random = Random::new(4351);
    let mut written_count = 0;
    for category in Category::ALL.into_iter().cycle().take(COUNT) {
        let mut record = valid_record(&mut random, category);
        record.spares = [10, 51].map(|width| {
            let any = 1 + random.below(64);
            let length = random.pick(&[1, 1, width, any]);
            random.bits(length)
        });
        let mut frame = [0; 32];
        let answer = write(&record, &mut frame);
        assert_eq!(outcome(answer), expected(category, record.spares));
        if answer.is_ok() {
            assert_are_one(&frame, &record);
            written_count += 1;
        }
    }
    assert!(COUNT / 4 < written_count && written_count < COUNT * 3 / 4, "{written_count}");
}
