//! Calls one function again and again, so that its instructions can be counted: the
//! proved one through the static library, the tuned one or the plain one, over the
//! frames of standard input, which must be valid, over a bulletin of 63 full pages
//! or over the list of places. It prints how many calls it made. What two runs differ
//! in, divided by the calls in which they differ, is what one call takes;
//! `tests/instructions` does so:
//!
//! valgrind --tool=callgrind --callgrind-out-file=/dev/null compare count proved read 2 < LINES

use super::bulletin::{halves, holding, opened, pages, NAME, TEXT_MOST};
use crate::door;
use crate::packed::{packed, Bytes, LENGTH};
use reference::answer::Answer;
use reference::bits::Frame;
use reference::line::{frame_of_line, read_line, write_line};
use reference::meaning::slots_used;
use reference::parity::by_bits;
use reference::place::{standing, Standing, CODES};
use reference::read::read;
use reference::record::Record;
use reference::sentence::{self, read_sentence, write_sentence};
use reference::store::{Store, StoreBytes, STORE_BYTES};
use reference::tuned;
use reference::write::write;
use std::hint::black_box;
use std::io::stdin;

/// The satellite of the sentences.
const SATELLITE: u32 = 55;

type Sentence = [u8; sentence::LENGTH];

/// What the calls are given.
struct Inputs {
    rounds: usize,
    lines: Vec<Vec<u8>>,
    sentences: Vec<Sentence>,
    frames: Vec<Frame>,
    records: Vec<Record>,
    bytes: Vec<Bytes>,
    pages: Vec<Record>,
    page_bytes: Vec<Bytes>,
    opened: Store,
    odd: Store,
    even: Store,
    full: Store,
}

/// Calls what the words after `count` name: proved, tuned or plain, which function,
/// and how many rounds.
pub fn count(words: &[String]) {
    let calls = match words {
        [way, what, rounds] => rounds.parse().ok().and_then(|rounds| {
            let inputs = Inputs::of(rounds);
            match way.as_str() {
                "proved" => inputs.proved(what),
                "tuned" => inputs.tuned(what),
                "plain" => inputs.plain(what),
                _ => None,
            }
        }),
        _ => None,
    };
    let Some(calls) = calls else {
        eprintln!("no such function: count proved|tuned|plain FUNCTION ROUNDS");
        std::process::exit(2);
    };
    println!("{calls}");
}

impl Inputs {
    fn of(rounds: usize) -> Inputs {
        let lines: Vec<Vec<u8>> =
            stdin().lines().map(|line| line.expect("the input can be read").into()).collect();
        let frames: Vec<Frame> =
            lines.iter().map(|line| frame_of_line(line).expect("63 digits")).collect();
        let records: Vec<Record> =
            frames.iter().map(|frame| read(frame).expect("the frame is valid")).collect();
        let pages = pages();
        let [odd, even] = halves(&pages);
        Inputs {
            rounds,
            lines,
            sentences: frames.iter().map(sentence_of).collect(),
            frames,
            bytes: records.iter().map(packed).collect(),
            records,
            page_bytes: pages.iter().map(packed).collect(),
            opened: opened(),
            odd,
            even,
            full: holding(&pages),
            pages,
        }
    }

    /// Calls a function on each input in every round, and tells how often that is.
    /// It must give 0, so that no refused call is counted.
    fn over<T>(&self, inputs: &[T], mut call: impl FnMut(&T) -> u64) -> usize {
        for _ in 0..self.rounds {
            for input in inputs {
                assert_eq!(black_box(call(black_box(input))), 0);
            }
        }
        self.rounds * inputs.len()
    }

    /// Takes every page into a store that has none, in every round.
    fn over_pages<S: Copy, P>(
        &self,
        opened: S,
        pages: &[P],
        take: impl Fn(&mut S, &P) -> bool,
    ) -> usize {
        for _ in 0..self.rounds {
            let mut store = black_box(opened);
            pages.iter().for_each(|page| assert!(take(black_box(&mut store), black_box(page))));
        }
        self.rounds * pages.len()
    }

    fn proved(&self, what: &str) -> Option<usize> {
        let mut record: Bytes = [0; LENGTH];
        let (mut frame, mut line, mut text) = ([0; 32], [0; 63], [0; TEXT_MOST]);
        let mut store: StoreBytes = [0; STORE_BYTES];
        let (odd, even) = (self.odd.to_bytes(), [self.even.to_bytes()]);
        let full = [self.full.to_bytes()];
        Some(match what {
            "parity" => self.over(&self.frames, |f| door::parity(f).is_none().into()),
            "read" => self.over(&self.frames, |f| number(door::read(f, &mut record))),
            "read_value" => self.over(&self.frames, |f| door::read_value(f)),
            "read_line" => self.over(&self.lines, |l| number(door::read_line(l, &mut record))),
            "read_line_value" => self.over(&self.lines, |l| door::read_line_value(l)),
            "write" => self.over(&self.bytes, |b| number(door::write(b, &mut frame))),
            "write_value" => self.over(&self.bytes, |b| door::write_value(b, 32)),
            "write_line" => self.over(&self.frames, |f| number(door::write_line(f, &mut line))),
            "slots_used" => self.over(&self.bytes, |b| u64::from(door::slots_used(b) > 16)),
            "open" => self.over(&[NAME.to_bytes()], |n| number(door::open(n, &mut store))),
            "open_value" => self.over(&[NAME.to_bytes()], |n| door::open_value(n)),
            "take" => self.over_pages(self.opened.to_bytes(), &self.page_bytes, |s, p| {
                door::take(s, p).mark == 1
            }),
            "take_value" => self.over(&self.page_bytes, |p| door::take_value(&odd, p)),
            "merge" => self.over(&even, |e| number(door::merge(&mut black_box(odd), e))),
            "count" => self.over(&full, |s| number(door::report(s))),
            "text" => self.over(&full, |s| number(door::text(s, &mut text))),
            _ => return self.proved_sentence(what).or_else(|| self.proved_meaning(what)),
        })
    }

    fn proved_sentence(&self, what: &str) -> Option<usize> {
        let mut record: Bytes = [0; LENGTH];
        let mut sentence: Sentence = [0; sentence::LENGTH];
        Some(match what {
            "read_sentence" => {
                self.over(&self.sentences, |s| number(door::read_sentence(s, &mut record)))
            }
            "read_sentence_value" => self.over(&self.sentences, |s| door::read_sentence_value(s)),
            "write_sentence" => self
                .over(&self.frames, |f| number(door::write_sentence(SATELLITE, f, &mut sentence))),
            "write_sentence_value" => {
                self.over(&self.frames, |f| door::write_sentence_value(SATELLITE, f))
            }
            _ => return None,
        })
    }

    /// What a number says.
    fn proved_meaning(&self, what: &str) -> Option<usize> {
        let unknown = |word: u32| u64::from(word == 0);
        Some(match what {
            "depth" => self.over(&[10], |&code| unknown(door::depth(code))),
            "magnitude" => self.over(&[74], |&code| unknown(door::magnitude(code))),
            "arrival" => self.over(&[23], |&hour| unknown(door::arrival(hour, 59))),
            "height" => self.over(&[4], |&code| unknown(door::height(code))),
            "activity" => self.over(&[31], |&day| unknown(door::activity(day, 23, 59))),
            "validity" => self.over(&[4], |&code| unknown(door::validity(code))),
            "prefecture" => self.over(&[4_600_000], |&place| unknown(door::prefecture(place))),
            "standing" => self.over(&places(), |&place| unknown(door::standing(place))),
            _ => return None,
        })
    }

    fn tuned(&self, what: &str) -> Option<usize> {
        let mut record: Bytes = [0; LENGTH];
        let (mut frame, mut text) = ([0; 32], [0; TEXT_MOST]);
        let mut store: StoreBytes = [0; STORE_BYTES];
        let (odd, even) = (self.odd.to_bytes(), [self.even.to_bytes()]);
        let full = [self.full.to_bytes()];
        Some(match what {
            "parity" => self.over(&self.frames, |f| u64::from(black_box(tuned::parity(f)) >> 24)),
            "look" => self.over(&self.frames, |f| tuned::look(f).answer.into()),
            "read" => self.over(&self.frames, |f| number(tuned::read(f, &mut record))),
            "read_line" => self.over(&self.lines, |l| {
                number(tuned::read(&tuned::frame_of_line(l).expect("63 digits"), &mut record))
            }),
            "write" => self.over(&self.bytes, |b| number(tuned::write(b, &mut frame))),
            "open" => self.over(&[NAME.to_bytes()], |n| number(tuned::open(n, &mut store))),
            "take" => self.over_pages(self.opened.to_bytes(), &self.page_bytes, |s, p| {
                tuned::take(s, p).mark == 1
            }),
            "merge" => self.over(&even, |e| number(tuned::merge(&mut black_box(odd), e))),
            "count" => self.over(&full, |s| number(tuned::report(s))),
            "text" => self.over(&full, |s| number(tuned::text(s, &mut text))),
            _ => return None,
        })
    }

    /// The plain ones are given records and stores as values.
    fn plain(&self, what: &str) -> Option<usize> {
        let (mut frame, mut line, mut text) = ([0; 32], [0; 63], [0; TEXT_MOST]);
        let mut sentence: Sentence = [0; sentence::LENGTH];
        Some(match what {
            "parity" => {
                self.over(&self.frames, |f| u64::from(black_box(by_bits::parity(f, 226)) >> 24))
            }
            "read" => self.over(&self.frames, |f| black_box(read(f)).is_err().into()),
            "read_line" => self.over(&self.lines, |l| black_box(read_line(l)).is_err().into()),
            "write" => self.over(&self.records, |r| write(r, &mut frame).is_err().into()),
            "write_line" => self.over(&self.frames, |f| write_line(f, &mut line).is_err().into()),
            "read_sentence" => {
                self.over(&self.sentences, |s| black_box(read_sentence(s)).is_err().into())
            }
            "write_sentence" => self.over(&self.frames, |f| {
                write_sentence(SATELLITE, f, &mut sentence).is_err().into()
            }),
            "slots_used" => self.over(&self.records, |r| u64::from(slots_used(r) > 16)),
            "open" => self.over(&[NAME], |n| black_box(Store::open(*n)).0.is_err().into()),
            "take" => {
                self.over_pages(self.opened, &self.pages, |store, page| store.take(page).is_ok())
            }
            "merge" => self.over(&[self.even], |e| black_box(self.odd).merge(e).is_err().into()),
            "count" => self.over(&[self.full], |s| black_box(s.report()).0.is_err().into()),
            "text" => self.over(&[self.full], |s| s.text(&mut text).is_err().into()),
            "standing" => {
                self.over(&places(), |&place| u64::from(standing(place) == Standing::Outside))
            }
            _ => return None,
        })
    }
}

/// Each place of the list and the number behind it, which is hardly ever listed too;
/// behind the last one lies no place.
fn places() -> Vec<u64> {
    let mut places: Vec<u64> =
        CODES.iter().map(|&code| u64::from(code)).flat_map(|code| [code, code + 1]).collect();
    places.pop();
    places
}

fn sentence_of(frame: &Frame) -> Sentence {
    let mut sentence = [0; sentence::LENGTH];
    write_sentence(SATELLITE, frame, &mut sentence).expect("the frame is valid");
    sentence
}

fn number(answer: Answer) -> u64 {
    answer.number.into()
}
