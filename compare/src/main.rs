//! Compares the proved functions with the reference on many inputs, and so the
//! tuned functions of the reference, which times are measured by. It prints how
//! many inputs each comparison had, and how many of them were of a kind that is
//! told apart, and ends with an error at the first one on which the two differ.
//! With the word `measure` it compares their speed instead, which is not part of
//! the tests, and with `count` it calls one of them for its instructions to be
//! counted.

mod calls;
mod damage;
mod door;
mod histories;
mod lent;
mod lines;
mod meanings;
mod measure;
mod one_field;
mod packed;
mod parity;
mod places;
mod reading;
mod sentences;
mod spares;
mod store_lengths;
mod tuned;
mod values;
mod writing;

pub use reference::player::pattern;
use std::collections::BTreeMap;
use std::fmt::Debug;

type Comparison = fn(&mut Count);

/// Every comparison with its name, in the order in which they run.
const COMPARISONS: &[(&str, Comparison)] = &[
    ("parity, frames of all kinds", parity::any_frames),
    ("parity, every byte at every place", parity::every_byte),
    ("parity, every window of twelve bits", parity::every_window),
    ("parity, every pattern of up to sixteen bits, repeated", parity::every_pattern),
    ("parity, every two bits", parity::every_two_bits),
    ("parity, every run of bits", parity::every_run),
    ("parity, document 004", parity::document_004),
    ("parity, slices of 0 to 40 bytes and of 64", parity::slice_lengths),
    ("one field, every place and width", one_field::every_place),
    ("one field, slices of 0 to 40 bytes and of 64", one_field::slice_lengths),
    ("one field, far beyond the end", one_field::far_beyond),
    ("one field, document 004", one_field::document_004),
    ("reading, frames of all kinds", reading::any_frames),
    ("reading, fields at their bounds", reading::boundaries),
    ("reading, every arrival of every area", reading::arrivals),
    ("reading, every activity time beside every ambiguity", reading::activities),
    ("reading, several faults at once", reading::several_faults),
    ("reading, frames under the number of another category", reading::other_categories),
    ("reading, spares with all kinds of bits", reading::spares),
    ("reading, slices of 0 to 40 bytes", reading::slice_lengths),
    ("reading, buffers of other lengths", reading::buffer_lengths),
    ("reading, document 004", reading::document_004),
    ("damage, every pattern of eight bits", damage::every_pattern_of_eight),
    ("damage, every pattern of 24 bits at three places", damage::every_pattern_of_24),
    ("damage, two bits up to 23 apart", damage::two_bits),
    ("damage, runs of up to 24 bits", damage::runs),
    ("damage, any of 24 bits", damage::any_damage),
    ("damage within 25 bits", damage::within_25_bits),
    ("damage behind the frame", damage::behind_the_frame),
    ("writing, records of all kinds", writing::any_records),
    ("writing, fields at their bounds", writing::boundaries),
    ("writing, every arrival of every area", writing::arrivals),
    ("writing, activity times of all kinds", writing::activities),
    ("writing, several faults at once", writing::several_faults),
    ("writing, spares of all sizes", writing::spares),
    ("writing, spares too wide among other faults", writing::wide_spares),
    ("writing, document 004", writing::document_004),
    ("writing, frames of other lengths", writing::frame_lengths),
    ("writing, record bytes of other lengths", writing::record_lengths),
    ("writing, a bit where no field stands", writing::stray_bits),
    ("writing, bytes where no field stands", writing::stray_records),
    ("writing, no category", writing::no_category),
    ("written and read again", writing::there_and_back),
    ("meanings, every depth", meanings::depths),
    ("meanings, every magnitude", meanings::magnitudes),
    ("meanings, every hour and minute of an arrival", meanings::arrivals),
    ("meanings, every height", meanings::heights),
    ("meanings, every day, hour and minute of an activity", meanings::activities),
    ("meanings, every ambiguity", meanings::validities),
    ("meanings, every place and wider ones", meanings::places),
    ("meanings, slots in record bytes of other lengths", meanings::record_lengths),
    ("places, every number of 23 bits", places::every_place),
    ("places, every code, its neighbours and what looks like them", places::look_alikes),
    ("places, any numbers", places::any_numbers),
    ("places, document 004", places::document_004),
    ("places, frames with places of all kinds", places::frames),
    ("places, frames with every code and its neighbours", places::codes_in_frames),
    ("places, several faults at once", places::several_faults),
    ("lines of all kinds", lines::any_lines),
    ("lines, every byte at every place", lines::characters),
    ("lines of other lengths", lines::line_lengths),
    ("lines, buffers of other lengths", lines::record_lengths),
    ("lines, written", lines::written),
    ("lines, written and read again", lines::there_and_back),
    ("sentences of all kinds", sentences::any_sentences),
    ("sentences, every byte at every place", sentences::characters),
    ("sentences, every two characters for a satellite", sentences::satellites),
    ("sentences, every two characters for a checksum", sentences::checksums),
    ("sentences, one character changed to any other", sentences::one_character),
    ("sentences, a comma or a star among the digits", sentences::commas_and_stars),
    ("sentences of other lengths", sentences::lengths),
    ("sentences, several faults at once", sentences::several_faults),
    ("sentences, buffers of other lengths", sentences::record_lengths),
    ("sentences, written", sentences::written),
    ("sentences, every number for a satellite", sentences::satellite_numbers),
    ("sentences, written to buffers of 0 to 90 bytes", sentences::buffer_lengths),
    ("sentences, written and read again", sentences::there_and_back),
    ("sentences, read and written again", sentences::back_and_there),
    ("sentences, document 004", sentences::document_004),
    ("stores, histories of all kinds", histories::any_histories),
    ("stores, pages sent again with other spares", histories::spares),
    ("stores, refused openings", histories::refused_openings),
    ("stores, names and buffers of other lengths", store_lengths::openings),
    ("stores of other lengths", store_lengths::stores),
    ("stores, record bytes of other lengths", store_lengths::records),
    ("stores, record bytes that no record has", histories::stray_records),
    ("stores, document 004", histories::document_004),
    ("listings by the tuned program, short files", tuned::listings::short_files),
    ("listings by the tuned program, files of several portions", tuned::listings::long_files),
    ("listings by the tuned program, random bytes", tuned::listings::random_files),
    ("listings by the tuned program, most lines", tuned::listings::most_lines),
    ("values, every field of a frame", values::frames),
    ("values, two faults in a frame", values::frame_faults),
    ("values, codes mixed beside a fault in a frame", values::frame_mixtures),
    ("values, lines of frames with faults", values::lines),
    ("values, sentences of frames with faults", sentences::values),
    ("values, frames with faults written as sentences", sentences::written_values),
    ("values, every number of a record", values::records),
    ("values, two faults in a record", values::record_faults),
    ("values, codes mixed beside a fault in a record", values::record_mixtures),
    ("values, every byte of a name", values::names),
    ("values, records taken into a store", values::takings),
];

/// Counts agreements and stops at the first disagreement.
#[derive(Default)]
pub struct Count {
    agreed: usize,
    noted: BTreeMap<&'static str, usize>,
}

impl Count {
    /// Both answers on one input must be the same.
    pub fn same<T: PartialEq + Debug>(&mut self, input: &[u8], ours: &T, theirs: &T) {
        self.must_agree("compared", input, ours, theirs);
        self.agreed += 1;
    }

    /// The same of a tuned function, on an input that a proved one is compared on.
    pub fn same_tuned<T: PartialEq + Debug>(&mut self, input: &[u8], ours: &T, theirs: &T) {
        self.must_agree("tuned", input, ours, theirs);
        self.note("also by a tuned function");
    }

    fn must_agree<T: PartialEq + Debug>(&self, who: &str, input: &[u8], ours: &T, theirs: &T) {
        if ours != theirs {
            let digits: String = input.iter().map(|byte| format!("{byte:02X}")).collect();
            eprintln!("disagreement on {digits}\n  {who}:  {ours:X?}\n  reference: {theirs:X?}");
            std::process::exit(1);
        }
    }

    /// Counts an input of a kind that is told apart.
    pub fn note(&mut self, kind: &'static str) {
        *self.noted.entry(kind).or_default() += 1;
    }
}

fn run(name: &str, compare: Comparison) {
    let mut count = Count::default();
    compare(&mut count);
    let noted = count.noted.iter().map(|(kind, number)| format!(", {number} {kind}"));
    println!("{name}: the same on {} inputs{}", count.agreed, noted.collect::<String>());
}

fn main() {
    let words: Vec<String> = std::env::args().skip(1).collect();
    match words.first().map(String::as_str) {
        Some("measure") => measure::measure(),
        Some("count") => measure::count::count(&words[1..]),
        _ => COMPARISONS.iter().for_each(|(name, compare)| run(name, *compare)),
    }
}
