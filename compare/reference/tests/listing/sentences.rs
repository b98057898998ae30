//! The listing of what a receiver sends.

use crate::{sample_frame, sample_line};
use reference::generate::{
    any_sentence, gap_frame, other_sentence, raw_frame, sentence_around, valid_sentence, RawValue,
};
use reference::line::line_of_frame;
use reference::listing::{list, Lines, MOST_LINES};
use reference::random::Random;
use reference::samples;
use reference::sentence::{read_sentence, LENGTH};
use std::io::BufReader;

const HEADING: &str = "line answer place dc slots value satellite\n";

fn listing(input: &[u8]) -> String {
    let mut output = Vec::new();
    list(Lines::Sentences, input, &mut output).expect("memory can be read and written");
    String::from_utf8(output).expect("a listing is plain text")
}

/// The rows below the heading.
fn rows(input: &[u8]) -> Vec<String> {
    let listing = listing(input);
    let rows = listing.strip_prefix(HEADING).expect("the heading stands first");
    rows.lines().map(String::from).collect()
}

/// A sentence of the first hypocenter.
fn sentence(satellite: &str) -> Vec<u8> {
    sentence_around(satellite.as_bytes(), sample_line(samples::hypocenter()).as_bytes())
}

#[test]
fn empty_input_prints_the_heading_only() {
    assert_eq!(listing(b""), HEADING);
}

#[test]
fn what_is_read_has_its_satellite() {
    let parts = [
        sentence("55"),
        sentence("61"),
        sentence_around(b"56", sample_line(samples::intensity()).as_bytes()),
        sentence_around(b"57", sample_line(samples::flood_warning()).to_lowercase().as_bytes()),
        sentence_around(b"58", sample_line(samples::nankai()).as_bytes()),
    ];
    let expected =
        ["1 0 - 2 - - 55", "2 0 - 2 - - 61", "3 0 - 3 9 - 56", "4 0 - 11 1 - 57", "5 0 - 4 - - 58"];
    assert_eq!(rows(&parts.concat()), expected);
}

/// The first six columns are those of the bare listing, and the satellite is a dash.
#[test]
fn what_is_refused_has_none() {
    let mut random = Random::new(83);
    let magnitude = RawValue { first: 105, width: 7, value: 102 };
    let out_of_range = raw_frame(&sample_frame(samples::hypocenter()), &[magnitude]);
    let gap = line_of_frame(&gap_frame(&mut random));
    let place = reference::line::read_line(&gap).expect_err("the frame has a gap").place;
    let mut checksum = sentence("55");
    checksum[74] ^= 1;
    let parts = [
        sentence_around(b"55", &line_of_frame(&out_of_range)),
        sentence_around(b"55", &gap),
        sentence_around(b"55", &[b'0'; 63]),
        sentence_around(b"55", &[b','; 63]),
        checksum,
        sentence("60"),
        sentence("55")[1..].to_vec(),
    ];
    let expected = [
        "1 8 105 - - 102 -".to_string(),
        format!("2 10 {place} - - - -"),
        "3 3 - - - - -".to_string(),
        "4 17 - - - - -".to_string(),
        "5 19 - - - - -".to_string(),
        "6 20 - - - - -".to_string(),
        "7 18 - - - - -".to_string(),
    ];
    assert_eq!(rows(&parts.concat()), expected);
}

/// `$` and not `$QZQSM`: another's sentence, whatever follows. All else is read.
#[test]
fn other_sentences_are_dashes() {
    let others: [&[u8]; 7] = [
        b"$GPGGA,030501.00,3541.0921,N,13945.0112,E,1,09,0.94,41.3,M,36.7,M,,*6A\r\n",
        b"$\n",
        b"$QZQS\n",
        b"$qzqsm,55,\r\n",
        b"$ QZQSM\r\n",
        b"$$QZQSM\r\n",
        b"$QZQS",
    ];
    let listed = rows(&others.concat());
    assert_eq!(listed.len(), others.len());
    for (number, row) in listed.iter().enumerate() {
        assert_eq!(row, &format!("{} - - - - - -", number + 1));
    }
    let refused: [&[u8]; 9] = [
        b"$QZQSM\r\n",
        b"$QZQSMX,55\r\n",
        b"\r\n",
        b"\n",
        b" $GPGGA\r\n",
        b"!AIVDM\r\n",
        b"QZQSM,55\r\n",
        b"\0\n",
        b"$QZQSM",
    ];
    let listed = rows(&refused.concat());
    assert_eq!(listed.len(), refused.len());
    for (number, row) in listed.iter().enumerate() {
        assert_eq!(row, &format!("{} 18 - - - - -", number + 1));
    }
    // A bare line is no sentence, and its line feed alone does not make it one.
    let bare = sample_line(samples::hypocenter());
    assert_eq!(rows(bare.as_bytes()), ["1 18 - - - - -"]);
}

/// A sentence ends with carriage return and line feed, of which the last line may lack
/// the line feed.
#[test]
fn where_lines_end() {
    let whole = sentence("57");
    let read = "1 0 - 2 - - 57";
    assert_eq!(rows(&whole), [read]);
    assert_eq!(rows(&whole[..LENGTH - 1]), [read]);
    assert_eq!(rows(&whole[..LENGTH - 2]), ["1 18 - - - - -"]);
    assert_eq!(rows(&[&whole[..], b"\n"].concat()), [read, "2 18 - - - - -"]);
    assert_eq!(rows(&[&whole[..LENGTH - 1], b"\r\n"].concat()), ["1 18 - - - - -"]);
    let line_feed_alone = [&whole[..LENGTH - 2], b"\n"].concat();
    assert_eq!(rows(&line_feed_alone), ["1 18 - - - - -"]);
    let return_alone = [&whole[..LENGTH - 1], &whole].concat();
    assert_eq!(rows(&return_alone), ["1 18 - - - - -"]);
    // Two line ends the wrong way round: the second line begins with a carriage return.
    let swapped = [&whole[..LENGTH - 2], b"\n\r", &whole].concat();
    assert_eq!(rows(&swapped), ["1 18 - - - - -", "2 18 - - - - -"]);
}

#[test]
fn long_lines_and_bytes_that_are_no_text() {
    let long = [b"$QZQSM,55,", &vec![b'0'; 10_000_000][..], b"\r\n"].concat();
    assert_eq!(rows(&long), ["1 18 - - - - -"]);
    let other = [b"$GPGSV,", &vec![b'0'; 10_000_000][..]].concat();
    assert_eq!(rows(&other), ["1 - - - - - -"]);
    let every_byte: Vec<u8> = (0..=255).collect();
    assert_eq!(rows(&every_byte), ["1 18 - - - - -", "2 18 - - - - -"]);
}

#[test]
fn at_most_a_million_lines_are_read() {
    let mut input = b"$\n".repeat(MOST_LINES);
    let full = rows(&input);
    assert_eq!(full.len(), MOST_LINES);
    assert_eq!(full.last().map(String::as_str), Some("1000000 - - - - - -"));
    for more in [&b"$"[..], b"\n", &sentence("55")] {
        input.truncate(2 * MOST_LINES);
        input.extend_from_slice(more);
        let cut = rows(&input);
        assert_eq!(cut[..MOST_LINES], full[..]);
        assert_eq!(cut[MOST_LINES..], ["cut - - - - - -"]);
    }
}

/// Whatever a line is, its row says what reading says: seven columns, dashes alone for
/// another's sentence.
#[test]
fn every_row_is_that_of_its_line() {
    let mut random = Random::new(84);
    for _ in 0..20_000 {
        let sentence = any_sentence(&mut random);
        let line = sentence.split(|&byte| byte == b'\n').next().unwrap_or_default();
        let is_other = line.first() == Some(&b'$') && line.get(..6) != Some(b"$QZQSM");
        let (answer, satellite) = match read_sentence(&[line, b"\n"].concat()) {
            _ if is_other => ("-".to_string(), "-".to_string()),
            Ok(received) => ("0".to_string(), received.satellite.to_string()),
            Err(refusal) => (refusal.number.to_string(), "-".to_string()),
        };
        let listed = rows(&[line, b"\n"].concat());
        let columns: Vec<&str> = listed[0].split(' ').collect();
        assert_eq!((columns.len(), listed.len()), (7, 1));
        assert_eq!((columns[1], columns[6]), (&answer[..], &satellite[..]));
    }
}

#[test]
fn the_size_of_the_portions_that_arrive_does_not_matter() {
    let mut random = Random::new(85);
    for _ in 0..200 {
        let kinds = [any_sentence, valid_sentence, other_sentence];
        let input: Vec<u8> =
            (0..random.below(20)).flat_map(|_| random.pick(&kinds)(&mut random)).collect();
        let whole = listing(&input);
        for capacity in [1, 2, LENGTH - 1, LENGTH, LENGTH + 1, 1000] {
            let mut output = Vec::new();
            let reader = BufReader::with_capacity(capacity, &input[..]);
            list(Lines::Sentences, reader, &mut output).expect("memory can be read and written");
            assert_eq!(output, whole.as_bytes());
        }
    }
}
