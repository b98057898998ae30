//! The proved functions, made safe to call: the only place where a pointer is
//! handed to them. Each takes any slice, since none of them has a precondition.
//! Their answer is the number of the refusal, 0 where nothing is refused, its
//! place, page and mark, and with 8 the value found at the place, if nothing else
//! is said. The values can also be asked for alone.

use reference::answer::Answer;
use reference::record::OUT_OF_RANGE;

/// A function that reads a slice.
type Reads<T> = unsafe extern "C" fn(*const u8, usize) -> T;

/// A function that reads the first slice and may write the second.
type FromTo = unsafe extern "C" fn(*const u8, usize, *mut u8, usize) -> u32;

/// A function that may write the first slice and reads the second.
type ToFrom = unsafe extern "C" fn(*mut u8, usize, *const u8, usize) -> u32;

mod raw {
    extern "C" {
        pub fn lz_parity(frame: *const u8, length: usize) -> u32;
        pub fn lz_read(
            frame: *const u8,
            length: usize,
            record_bytes: *mut u8,
            record_length: usize,
        ) -> u32;
        pub fn lz_read_value(frame: *const u8, length: usize) -> u64;
        pub fn lz_write(
            record_bytes: *const u8,
            record_length: usize,
            frame: *mut u8,
            length: usize,
        ) -> u32;
        pub fn lz_write_value(
            record_bytes: *const u8,
            record_length: usize,
            frame_length: usize,
        ) -> u64;
        pub fn lz_read_line(
            line: *const u8,
            length: usize,
            record_bytes: *mut u8,
            record_length: usize,
        ) -> u32;
        pub fn lz_read_line_value(line: *const u8, length: usize) -> u64;
        pub fn lz_write_line(
            frame: *const u8,
            length: usize,
            line: *mut u8,
            line_length: usize,
        ) -> u32;
        pub fn lz_read_sentence(
            sentence: *const u8,
            length: usize,
            record_bytes: *mut u8,
            record_length: usize,
        ) -> u32;
        pub fn lz_read_sentence_value(sentence: *const u8, length: usize) -> u64;
        pub fn lz_write_sentence(
            satellite: u32,
            frame: *const u8,
            length: usize,
            sentence: *mut u8,
            sentence_length: usize,
        ) -> u32;
        pub fn lz_write_sentence_value(satellite: u32, frame: *const u8, length: usize) -> u64;
        pub fn lz_open(
            name: *const u8,
            name_length: usize,
            store: *mut u8,
            store_length: usize,
        ) -> u32;
        pub fn lz_open_value(name: *const u8, name_length: usize) -> u64;
        pub fn lz_take(
            store: *mut u8,
            store_length: usize,
            record_bytes: *const u8,
            record_length: usize,
        ) -> u32;
        pub fn lz_take_value(
            store: *const u8,
            store_length: usize,
            record_bytes: *const u8,
            record_length: usize,
        ) -> u64;
        pub fn lz_merge(
            store: *mut u8,
            store_length: usize,
            other: *const u8,
            other_length: usize,
        ) -> u32;
        pub fn lz_count(store: *const u8, store_length: usize) -> u32;
        pub fn lz_text(
            store: *const u8,
            store_length: usize,
            text: *mut u8,
            text_length: usize,
        ) -> u32;
        pub fn lz_depth(code: u16) -> u32;
        pub fn lz_magnitude(code: u8) -> u32;
        pub fn lz_arrival(hour: u8, minute: u8) -> u32;
        pub fn lz_height(code: u8) -> u32;
        pub fn lz_activity(day: u8, hour: u8, minute: u8) -> u32;
        pub fn lz_validity(ambiguity: u8) -> u32;
        pub fn lz_prefecture(place: u64) -> u32;
        pub fn lz_standing(place: u64) -> u32;
        pub fn lz_slots_used(record_bytes: *const u8, record_length: usize) -> u32;
        pub fn one_field(frame: *const u8, frame_length: usize, first: usize, width: usize) -> u64;
    }
}

/// The parity of a frame, or nothing where the slice is not 32 bytes long.
pub fn parity(frame: &[u8]) -> Option<u32> {
    let answer = from(raw::lz_parity, frame);
    match answer >> 24 {
        0 => Some(answer),
        1 if answer << 8 == 0 => None,
        _ => panic!("no such answer: {answer:08X} on {} bytes", frame.len()),
    }
}

/// Reads a frame into the bytes of a record.
pub fn read(frame: &[u8], record_bytes: &mut [u8]) -> Answer {
    with_value(from_to(raw::lz_read, frame, record_bytes), || read_value(frame))
}

/// The value that reading the frame finds out of range, else 0.
pub fn read_value(frame: &[u8]) -> u64 {
    from(raw::lz_read_value, frame)
}

/// Writes the record of the bytes to a frame.
pub fn write(record_bytes: &[u8], frame: &mut [u8]) -> Answer {
    let answer = from_to(raw::lz_write, record_bytes, frame);
    with_value(answer, || write_value(record_bytes, frame.len()))
}

/// The value that writing the record of the bytes to a frame of so many bytes
/// finds out of range, else 0.
pub fn write_value(record_bytes: &[u8], frame_length: usize) -> u64 {
    // The pointer and the length behind it are those of one slice, which is only
    // read; the other length may be any number.
    unsafe { raw::lz_write_value(record_bytes.as_ptr(), record_bytes.len(), frame_length) }
}

/// Reads a line of digits into the bytes of a record.
pub fn read_line(line: &[u8], record_bytes: &mut [u8]) -> Answer {
    with_value(from_to(raw::lz_read_line, line, record_bytes), || read_line_value(line))
}

/// The value that reading the line finds out of range, else 0.
pub fn read_line_value(line: &[u8]) -> u64 {
    from(raw::lz_read_line_value, line)
}

/// Writes the digits of a frame to a line.
pub fn write_line(frame: &[u8], line: &mut [u8]) -> Answer {
    from_to(raw::lz_write_line, frame, line)
}

/// Reads a sentence into the bytes of a record. Where nothing is refused, the mark of
/// the answer is the satellite.
pub fn read_sentence(sentence: &[u8], record_bytes: &mut [u8]) -> Answer {
    let answer = from_to(raw::lz_read_sentence, sentence, record_bytes);
    with_value(answer, || read_sentence_value(sentence))
}

/// The value that reading the sentence finds out of range, else 0.
pub fn read_sentence_value(sentence: &[u8]) -> u64 {
    from(raw::lz_read_sentence_value, sentence)
}

/// Writes a frame as the sentence of a satellite.
pub fn write_sentence(satellite: u32, frame: &[u8], sentence: &mut [u8]) -> Answer {
    let (to, room) = (sentence.as_mut_ptr(), sentence.len());
    // Each pointer and its length are those of one slice; one slice is lent for
    // writing, so the two cannot overlap. The satellite may be any number.
    let answer =
        unsafe { raw::lz_write_sentence(satellite, frame.as_ptr(), frame.len(), to, room) };
    with_value(Answer::of_word(answer), || write_sentence_value(satellite, frame))
}

/// The value that writing the frame as the sentence of a satellite finds out of
/// range, else 0.
pub fn write_sentence_value(satellite: u32, frame: &[u8]) -> u64 {
    // The pointer and the length behind it are those of one slice, which is only
    // read; the satellite may be any number.
    unsafe { raw::lz_write_sentence_value(satellite, frame.as_ptr(), frame.len()) }
}

/// Opens a store under a name of 8 bytes.
pub fn open(name: &[u8], store: &mut [u8]) -> Answer {
    with_value(from_to(raw::lz_open, name, store), || open_value(name))
}

/// The value of the name that opening finds out of range, else 0.
pub fn open_value(name: &[u8]) -> u64 {
    from(raw::lz_open_value, name)
}

/// Takes the page of a record into a store. Where nothing is refused, the mark of
/// the answer is 1 for new, 2 for same and 3 for disputed.
pub fn take(store: &mut [u8], record_bytes: &[u8]) -> Answer {
    let answer = to_from(raw::lz_take, store, record_bytes);
    // What is refused leaves the store, so it can still be asked.
    with_value(answer, || take_value(store, record_bytes))
}

/// The value that taking the page of a record into a store finds out of range,
/// else 0.
pub fn take_value(store: &[u8], record_bytes: &[u8]) -> u64 {
    let (store_length, record_length) = (store.len(), record_bytes.len());
    // Each pointer and its length are those of one slice, and both are only read.
    unsafe {
        raw::lz_take_value(store.as_ptr(), store_length, record_bytes.as_ptr(), record_length)
    }
}

/// Merges the other store into the first.
pub fn merge(store: &mut [u8], other: &[u8]) -> Answer {
    to_from(raw::lz_merge, store, other)
}

/// Counts the pages of a store. Where nothing is refused, place, page and mark of
/// the answer are held, disputed and lowest page.
pub fn report(store: &[u8]) -> Answer {
    Answer::of_word(from(raw::lz_count, store))
}

/// Writes the text of a store. Where nothing is refused, page and mark of the
/// answer are the two bytes of its length.
pub fn text(store: &[u8], text: &mut [u8]) -> Answer {
    from_to(raw::lz_text, store, text)
}

/// What a depth says: 65536 times its kind, and the kilometres.
pub fn depth(code: u16) -> u32 {
    // A number is handed over and nothing else.
    unsafe { raw::lz_depth(code) }
}

/// What a magnitude says: 65536 times its kind, and the tenths.
pub fn magnitude(code: u8) -> u32 {
    // As with a depth.
    unsafe { raw::lz_magnitude(code) }
}

/// What hour and minute of an area say: 65536 times their kind, and where they
/// are a time, 256 times the hour and the minute.
pub fn arrival(hour: u8, minute: u8) -> u32 {
    // Two numbers are handed over and nothing else.
    unsafe { raw::lz_arrival(hour, minute) }
}

/// What a height says: 65536 times its kind, and the code.
pub fn height(code: u8) -> u32 {
    // As with a depth.
    unsafe { raw::lz_height(code) }
}

/// What day, hour and minute of volcanic activity say: 65536 times their kind, and
/// where they are a time, 2048 times the day, 64 times the hour and the minute.
pub fn activity(day: u8, hour: u8, minute: u8) -> u32 {
    // Three numbers are handed over and nothing else.
    unsafe { raw::lz_activity(day, hour, minute) }
}

/// How much of an activity time is valid: 65536 times the kind of the ambiguity,
/// and a number that is the higher the more is valid.
pub fn validity(ambiguity: u8) -> u32 {
    // As with a depth.
    unsafe { raw::lz_validity(ambiguity) }
}

/// The prefecture of a place, or 0.
pub fn prefecture(place: u64) -> u32 {
    // As with a depth.
    unsafe { raw::lz_prefecture(place) }
}

/// How a place stands to the list of places: 1 where it is listed, 2 where it is not
/// but lies in a prefecture, or 0.
pub fn standing(place: u64) -> u32 {
    // As with a depth.
    unsafe { raw::lz_standing(place) }
}

/// How many slots the record of the bytes uses.
pub fn slots_used(record_bytes: &[u8]) -> u32 {
    from(raw::lz_slots_used, record_bytes)
}

/// The number in the `width` bits from `first` on. It is 0 where the slice is not
/// 32 bytes long, and where the field is wider than 57 bits or does not lie within
/// the slice.
pub fn one_field(bytes: &[u8], first: usize, width: usize) -> u64 {
    // The pointer and the length are those of one slice, which is only read; place
    // and width may be any numbers.
    unsafe { raw::one_field(bytes.as_ptr(), bytes.len(), first, width) }
}

/// Only an answer of 8 has a value. Whoever is told of another mistake in the call
/// is not told of a value that the frame or the name may have as well.
fn with_value(answer: Answer, ask: impl FnOnce() -> u64) -> Answer {
    if answer.number == OUT_OF_RANGE {
        Answer { value: ask(), ..answer }
    } else {
        answer
    }
}

fn from<T>(door: Reads<T>, from: &[u8]) -> T {
    // The pointer and the length are those of one slice, which is only read.
    unsafe { door(from.as_ptr(), from.len()) }
}

fn from_to(door: FromTo, from: &[u8], to: &mut [u8]) -> Answer {
    // Each pointer and its length are those of one slice; one slice is lent
    // for writing, so the two cannot overlap.
    let answer = unsafe { door(from.as_ptr(), from.len(), to.as_mut_ptr(), to.len()) };
    Answer::of_word(answer)
}

fn to_from(door: ToFrom, to: &mut [u8], from: &[u8]) -> Answer {
    // As above, with the slices in the other order.
    let answer = unsafe { door(to.as_mut_ptr(), to.len(), from.as_ptr(), from.len()) };
    Answer::of_word(answer)
}
