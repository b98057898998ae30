//! Short words for tests.

use reference::bits::Frame;
use reference::generate::{raw_frame, RawValue};
use reference::read::read;
use reference::record::{Category, Record, Refusal};
use reference::samples;
use reference::write::write;

/// A frame that is read, of each category: the first sample of document 004.
pub fn base_frame(category: Category) -> Frame {
    written(&base_record(category))
}

pub fn base_record(category: Category) -> Record {
    let samples = match category {
        Category::Hypocenter => samples::hypocenter(),
        Category::Intensity => samples::intensity(),
        Category::Nankai => samples::nankai(),
        Category::Tsunami => samples::tsunami_warning(),
        Category::Volcano => samples::volcano(),
        Category::AshFall => samples::ash_fall_detailed(),
        Category::Flood => samples::flood_warning(),
    };
    samples[0]
}

/// The frame of a record that must be valid.
pub fn written(record: &Record) -> Frame {
    let mut frame = [0xEE; 32];
    write(record, &mut frame).expect("the record is valid");
    frame
}

/// A frame with values overwritten, each as first bit, width and value, and
/// the parity made right again.
pub fn changed(base: &Frame, values: &[(usize, usize, u64)]) -> Frame {
    let raw = |&(first, width, value): &(usize, usize, u64)| RawValue { first, width, value };
    raw_frame(base, &values.iter().map(raw).collect::<Vec<_>>())
}

/// Number, place and value of an answer, zeros where nothing was refused.
pub fn told<T>(answer: Result<T, Refusal>) -> (u8, u8, u64) {
    answer.map_or_else(|refusal| (refusal.number, refusal.place, refusal.value), |_| (0, 0, 0))
}

/// Number and place alone.
pub fn outcome<T>(answer: Result<T, Refusal>) -> (u8, u8) {
    let (number, place, _) = told(answer);
    (number, place)
}

/// What writing a changed sample record says; a refused one must leave the
/// buffer alone.
pub fn write_changed(category: Category, change: impl Fn(&mut Record)) -> Result<(), Refusal> {
    let mut record = base_record(category);
    change(&mut record);
    let mut frame = [0xA5; 32];
    let answer = write(&record, &mut frame);
    assert_eq!(frame == [0xA5; 32], answer.is_err());
    answer
}

/// What reading says of a changed sample frame.
pub fn read_changed(category: Category, values: &[(usize, usize, u64)]) -> Result<Record, Refusal> {
    read(&changed(&base_frame(category), values))
}

pub fn writing(category: Category, change: impl Fn(&mut Record)) -> (u8, u8) {
    outcome(write_changed(category, change))
}

pub fn reading(category: Category, values: &[(usize, usize, u64)]) -> (u8, u8) {
    outcome(read_changed(category, values))
}
