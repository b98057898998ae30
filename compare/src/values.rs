//! The value that is told beside 8, in every call that has one to tell: what
//! stands in the field at the place, in the frame, the record or the name.

mod mixtures;

pub use mixtures::*;

use crate::packed::kept;
use crate::spares::with_few_bits;
use crate::writing::FRAME_LENGTH;
use crate::{histories, reading, writing, Count};
use reference::answer::Answer;
use reference::bits::Frame;
use reference::fields::{fields_and_parts, slot_layout, Field, RESERVED};
use reference::generate::{
    any_bulletin, any_store, boundary_records, frame_with_slots, full_record, raw_frame,
    set_number, sound_store, valid_record, RawValue,
};
use reference::line::line_of_frame;
use reference::player::Step;
use reference::random::Random;
use reference::record::{Category, Record, Refusal, OUT_OF_RANGE};
use reference::store::{Name, NAME_BYTES};
use reference::write::placed;

/// As many bits as let every number of a field be tried, and as many again.
const FEW_BITS: usize = 12;

/// How often two fields are out of range together.
const ROUNDS: usize = 10;

/// A field, and numbers of all kinds that it can be given.
struct Choice {
    field: Field,
    numbers: Vec<u64>,
}

/// Fields with what is put there.
type Puts = Vec<(Field, u64)>;

/// Notes an answer that has a value, be it 0.
pub fn note(count: &mut Count, answer: Answer) {
    if answer.number == OUT_OF_RANGE {
        count.note("with a value");
    }
}

/// The value of what the reference says, 0 where it has none.
pub fn value_of<T>(theirs: Result<T, Refusal>) -> u64 {
    theirs.err().map_or(0, |refusal| refusal.value)
}

/// Each field of each category with numbers of all kinds that its bits hold.
pub fn frames(count: &mut Count) {
    let mut random = Random::new(105);
    for category in Category::ALL {
        for puts in alone(&frame_choices(&mut random, category)) {
            reading::agree(count, &changed_frame(&mut random, category, &puts));
        }
    }
}

/// Every two fields of a category out of range at once.
pub fn frame_faults(count: &mut Count) {
    for frame in faulty_frames() {
        reading::agree(count, &frame);
    }
}

/// The same frames as lines in either case, and as what is no line any more and so
/// has no value.
pub fn lines(count: &mut Count) {
    let mut random = Random::new(106);
    for frame in faulty_frames() {
        let line = line_of_frame(&frame);
        let mut spoilt = line;
        spoilt[random.below(line.len())] = b'G';
        let small = line.to_ascii_lowercase();
        let ended = [&line[..], b"\r"].concat();
        for line in [&line, &small[..], &spoilt, &ended, &line[1..]] {
            crate::lines::agree(count, line);
        }
    }
}

/// Each number of a record of each category, wider ones too than any frame has.
pub fn records(count: &mut Count) {
    let mut random = Random::new(107);
    for category in Category::ALL {
        for puts in alone(&record_choices(&mut random, category)) {
            let record = changed_record(&mut random, category, &puts);
            writing::agree(count, &record, FRAME_LENGTH);
        }
    }
}

/// Every two numbers of a record out of range at once.
pub fn record_faults(count: &mut Count) {
    let mut random = Random::new(108);
    for category in Category::ALL {
        for record in faulty_records(&mut random, category) {
            writing::agree(count, &record, FRAME_LENGTH);
        }
    }
}

/// Every byte at every place of a name, with those behind it as they were and out
/// of range.
pub fn names(count: &mut Count) {
    let mut random = Random::new(109);
    for place in 0..NAME_BYTES {
        for value in 0..=u8::MAX {
            let bulletin = any_bulletin(&mut random);
            let mut one = bulletin.name.to_bytes();
            one[place] = value;
            let mut several = one;
            several[place + 1..].fill(u8::MAX - value);
            let store = any_store(&mut random, &bulletin);
            let opened = |name| Step::Open { store: 0, name: Name::of_bytes(name) };
            let put = Step::Put { store: 0, bytes: Box::new(store) };
            histories::agree(count, &[put, opened(one), opened(several)]);
        }
    }
}

/// Records with one fault or two, taken into a store that is sound and into one
/// that may not be.
pub fn takings(count: &mut Count) {
    let mut random = Random::new(110);
    for category in Category::ALL {
        let mut records = boundary_records(&mut random, category);
        records.extend(faulty_records(&mut random, category));
        for record in records {
            let bulletin = any_bulletin(&mut random);
            let sound = sound_store(&mut random, &bulletin).to_bytes();
            let any = any_store(&mut random, &bulletin);
            let steps = [sound, any].map(|store| {
                let put = Step::Put { store: 0, bytes: Box::new(store) };
                [put, Step::Take { store: 0, record }]
            });
            histories::agree(count, &steps.concat());
        }
    }
}

/// What the fields of a frame can be given: all that their bits hold, or much of it.
fn frame_choices(random: &mut Random, category: Category) -> Vec<Choice> {
    let fields = fields_and_parts(category);
    let choice = |field: Field| Choice { field, numbers: numbers(random, &field, field.width) };
    fields.into_iter().map(choice).collect()
}

/// What the numbers of a record can be given, Reserved among them.
fn record_choices(random: &mut Random, category: Category) -> Vec<Choice> {
    let record = valid_record(random, category);
    let choice = |field: Field| {
        let bits = record_bits(&record, &field);
        Choice { field, numbers: numbers(random, &field, bits) }
    };
    fields_and_parts(category).into_iter().chain([RESERVED]).map(choice).collect()
}

/// How many bits a record has for a field of the frame.
fn record_bits(record: &Record, field: &Field) -> usize {
    let mut most = *record;
    set_number(&mut most, field.first, u64::MAX);
    let most = kept(&most);
    let numbers = most.body.category().map_or(Vec::new(), |category| placed(&most, category));
    let number = numbers.iter().find(|number| number.first == field.first);
    // Reserved alone is not placed with the fields of a category.
    let value = number.map_or(most.reserved.into(), |number| number.value);
    (u64::BITS - value.leading_zeros()) as usize
}

/// Of the numbers of so many bits those that the field holds and as many behind
/// them, and those with few bits set or clear.
fn numbers(random: &mut Random, field: &Field, bits: usize) -> Vec<u64> {
    let near = 0..2 << field.width.min(FEW_BITS);
    let most = u64::MAX >> (64 - bits);
    near.filter(|&number| number <= most).chain(with_few_bits(random, bits)).collect()
}

/// Each number of each field, one at a time.
fn alone(choices: &[Choice]) -> Vec<Puts> {
    let each = |choice: &Choice| {
        let field = choice.field;
        choice.numbers.iter().map(|&number| vec![(field, number)]).collect::<Vec<_>>()
    };
    choices.iter().flat_map(each).collect()
}

/// The numbers that are not allowed for themselves. There is none for a field whose
/// bits hold nothing else than what is allowed.
fn not_allowed(mut choices: Vec<Choice>) -> Vec<Choice> {
    for Choice { field, numbers } in &mut choices {
        numbers.retain(|&number| !field.allows(number));
    }
    choices.retain(|choice| !choice.numbers.is_empty());
    choices
}

/// Two fields at a time, each with a number that is not allowed for itself.
fn pairs(random: &mut Random, choices: Vec<Choice>) -> Vec<Puts> {
    let choices = not_allowed(choices);
    let mut pairs = Vec::new();
    for (number, one) in choices.iter().enumerate() {
        for other in &choices[number + 1..] {
            for _ in 0..ROUNDS {
                let put = |choice: &Choice| (choice.field, random.pick(&choice.numbers));
                pairs.push([one, other].map(put).to_vec());
            }
        }
    }
    pairs
}

/// Frames of each category with every two fields out of range.
pub fn faulty_frames() -> Vec<Frame> {
    let mut random = Random::new(111);
    let mut frames = Vec::new();
    for category in Category::ALL {
        let choices = frame_choices(&mut random, category);
        for puts in pairs(&mut random, choices) {
            frames.push(changed_frame(&mut random, category, &puts));
        }
    }
    frames
}

fn faulty_records(random: &mut Random, category: Category) -> Vec<Record> {
    let choices = record_choices(random, category);
    let pairs = pairs(random, choices);
    pairs.iter().map(|puts| changed_record(random, category, puts)).collect()
}

/// A frame with all slots used that is right but for these fields.
fn changed_frame(random: &mut Random, category: Category, puts: &[(Field, u64)]) -> Frame {
    let base = frame_with_slots(random, category, slot_layout(category).count);
    let raw =
        |&(field, value): &(Field, u64)| RawValue { first: field.first, width: field.width, value };
    raw_frame(&base, &puts.iter().map(raw).collect::<Vec<_>>())
}

/// A record with all slots used that is valid but for these numbers.
fn changed_record(random: &mut Random, category: Category, puts: &[(Field, u64)]) -> Record {
    let mut record = full_record(random, category);
    puts.iter().for_each(|(field, value)| set_number(&mut record, field.first, *value));
    record
}
