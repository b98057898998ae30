//! The listing: the example of document 01, and what users feed it.

mod columns;
mod sentences;

use reference::bits::Frame;
use reference::generate::any_line;
use reference::line::line_of_frame;
use reference::listing::{list, Lines, MOST_LINES};
use reference::random::Random;
use reference::record::Record;
use reference::write::write;
use reference::{samples, tuned};
use std::io::BufReader;

const HEADING: &str = "line answer place dc slots value\n";

/// What the plain program and the tuned one list.
fn listing(input: &[u8]) -> String {
    let mut output = Vec::new();
    list(Lines::Bare, input, &mut output).expect("memory can be read and written");
    let mut tuned = Vec::new();
    tuned::list(input, &mut tuned).expect("memory can be read and written");
    assert_eq!(tuned, output);
    String::from_utf8(output).expect("a listing is plain text")
}

/// The rows below the heading.
fn rows(input: &[u8]) -> Vec<String> {
    let listing = listing(input);
    let rows = listing.strip_prefix(HEADING).expect("the heading stands first");
    rows.lines().map(String::from).collect()
}

fn sample_line(samples: Vec<Record>) -> String {
    let line = line_of_frame(&sample_frame(samples));
    String::from_utf8(line.to_vec()).expect("digits are plain text")
}

fn sample_frame(samples: Vec<Record>) -> Frame {
    let mut frame = [0; 32];
    write(&samples[0], &mut frame).expect("a sample is valid");
    frame
}

#[test]
fn the_four_lines_of_document_01() {
    let zeros = "0".repeat(61);
    let input = format!("00{zeros}\n53{zeros}\n53\n{zeros}01\n");
    let expected = "\
line answer place dc slots value
1 3 - - - -
2 4 - - - -
3 17 - - - -
4 2 - - - -
";
    assert_eq!(listing(input.as_bytes()), expected);
    assert_eq!(listing(input.trim_end().as_bytes()), expected);
}

#[test]
fn empty_input_prints_the_heading_only() {
    assert_eq!(listing(b""), HEADING);
}

#[test]
fn where_lines_end() {
    let line = sample_line(samples::hypocenter());
    let read = "1 0 - 2 - -";
    assert_eq!(rows(line.as_bytes()), [read]);
    assert_eq!(rows(format!("{line}\n").as_bytes()), [read]);
    assert_eq!(rows(format!("{line}\n\n").as_bytes()), [read, "2 17 - - - -"]);
    assert_eq!(rows(format!("{line}\n ").as_bytes()), [read, "2 17 - - - -"]);
    assert_eq!(rows(b"\n"), ["1 17 - - - -"]);
    assert_eq!(rows(b"\n\n\n"), ["1 17 - - - -", "2 17 - - - -", "3 17 - - - -"]);
}

#[test]
fn a_carriage_return_makes_17() {
    let line = sample_line(samples::hypocenter());
    let input = format!("{line}\r\n{line}\r{line}\n{line}\r");
    assert_eq!(rows(input.as_bytes()), ["1 17 - - - -", "2 17 - - - -", "3 17 - - - -"]);
}

#[test]
fn what_is_no_file_of_lines() {
    let sentence = format!("$QZQSM,55,{}*00\r\n", sample_line(samples::hypocenter()));
    assert_eq!(rows(sentence.as_bytes()), ["1 17 - - - -"]);
    assert_eq!(
        rows(b"line answer place dc slots value\n1 3 - - - -\n"),
        ["1 17 - - - -", "2 17 - - - -"]
    );
    assert_eq!(rows(&[0; 320]), ["1 17 - - - -"]);
    let every_byte: Vec<u8> = (0..=255).collect();
    assert_eq!(rows(&every_byte), ["1 17 - - - -", "2 17 - - - -"]);
    assert_eq!(rows("緊急\u{2028}地震".as_bytes()), ["1 17 - - - -"]);
}

#[test]
fn one_very_long_line_is_one_17() {
    let mut input = vec![b'0'; 10_000_000];
    assert_eq!(rows(&input), ["1 17 - - - -"]);
    input.extend_from_slice(b"\n53");
    assert_eq!(rows(&input), ["1 17 - - - -", "2 17 - - - -"]);
}

#[test]
fn at_most_a_million_lines_are_read() {
    let mut input = vec![b'\n'; MOST_LINES];
    let full = rows(&input);
    assert_eq!(full.len(), 1_000_000);
    assert_eq!(full.last().map(String::as_str), Some("1000000 17 - - - -"));
    for more in [&b"5"[..], b"\n", b"\n\n\n"] {
        input.truncate(MOST_LINES);
        input.extend_from_slice(more);
        let cut = rows(&input);
        assert_eq!(cut[..1_000_000], full[..]);
        assert_eq!(cut[1_000_000..], ["cut - - - - -"]);
    }
    input.truncate(MOST_LINES);
    input[MOST_LINES - 1] = b'0';
    assert_eq!(rows(&input).last().map(String::as_str), Some("1000000 17 - - - -"));
}

#[test]
fn the_size_of_the_portions_that_arrive_does_not_matter() {
    let mut random = Random::new(12);
    for _ in 0..200 {
        let count = random.below(20);
        let lines: Vec<Vec<u8>> = (0..count).map(|_| any_line(&mut random)).collect();
        let input = lines.join(&b'\n');
        let whole = listing(&input);
        for capacity in [1, 2, 63, 64, 1000] {
            let mut output = Vec::new();
            let reader = BufReader::with_capacity(capacity, &input[..]);
            list(Lines::Bare, reader, &mut output).expect("memory can be read and written");
            assert_eq!(output, whole.as_bytes());
        }
    }
}
