//! Listings of the tuned program against those of the plain one, over files of all
//! kinds that arrive in portions of all sizes.

use crate::reading::frame_of;
use crate::Count;
use reference::generate::{any_line, plain_frames, random_bytes, valid_line};
use reference::line::line_of_frame;
use reference::listing::{self, Lines, MOST_LINES};
use reference::random::Random;
use reference::{samples, tuned};
use std::io::Read;

const SHORT_FILES: usize = 20_000;
const MOST_LINES_OF_A_SHORT_FILE: usize = 40;

/// Long files have more bytes than the tuned program asks for at once.
const LONG_FILES: usize = 100;
const BYTES_OF_A_LONG_FILE: usize = 200_000;
const LONGEST_LINE: usize = 150_000;

/// Lines of every kind, those of document 004 and of plain frames among them.
pub fn short_files(count: &mut Count) {
    let mut random = Random::new(120);
    for _ in 0..SHORT_FILES {
        let lines = random.below(MOST_LINES_OF_A_SHORT_FILE);
        let file = file_of(&mut random, any_line, lines);
        agree(count, &mut random, &file);
    }
    let mut frames = plain_frames();
    frames.extend(samples::all().iter().map(frame_of));
    let lines: Vec<Vec<u8>> = frames.iter().map(|frame| line_of_frame(frame).to_vec()).collect();
    agree(count, &mut random, &lines.join(&b'\n'));
}

/// Lines of every kind over several portions, with a line now and then that is
/// longer than a portion.
pub fn long_files(count: &mut Count) {
    let mut random = Random::new(121);
    for _ in 0..LONG_FILES {
        let mut file = Vec::new();
        while file.len() < BYTES_OF_A_LONG_FILE {
            let lines = random.below(2_000);
            file.extend(file_of(&mut random, valid_line, lines));
            file.extend(file_of(&mut random, any_line, 20));
            if random.one_in(4) {
                file.resize(file.len() + random.below(LONGEST_LINE), b'0');
            }
        }
        agree(count, &mut random, &file);
    }
}

/// Bytes as they come, with more or fewer line feeds among them.
pub fn random_files(count: &mut Count) {
    let mut random = Random::new(122);
    for _ in 0..SHORT_FILES {
        let length = random.below(1_000);
        let mut file = random_bytes(&mut random, length);
        for _ in 0..random.below(20).min(length) {
            file[random.below(length)] = b'\n';
        }
        agree(count, &mut random, &file);
    }
}

/// As many lines as are listed, one less, one more, and one more that is not ended.
pub fn most_lines(count: &mut Count) {
    let mut random = Random::new(123);
    let full = vec![b'\n'; MOST_LINES];
    for file in [&full[1..], &full, &[&full[..], b"\n"].concat(), &[&full[..], b"5"].concat()] {
        agree(count, &mut random, file);
    }
}

/// So many lines, the last one with its line feed or without.
fn file_of(random: &mut Random, line: fn(&mut Random) -> Vec<u8>, lines: usize) -> Vec<u8> {
    let lines: Vec<Vec<u8>> = (0..lines).map(|_| line(random)).collect();
    let mut file = lines.join(&b'\n');
    file.extend(Some(b'\n').filter(|_| random.one_in(2)));
    file
}

fn agree(count: &mut Count, random: &mut Random, file: &[u8]) {
    let mut expected = Vec::new();
    listing::list(Lines::Bare, file, &mut expected).expect("memory can be read and written");
    let most = random.pick(&[1, 63, 64, 65, 1_000, usize::MAX]);
    for most in [most, usize::MAX] {
        let mut listed = Vec::new();
        let portions = Portions { file, most };
        tuned::list(portions, &mut listed).expect("memory can be read and written");
        count.same(file, &String::from_utf8_lossy(&listed), &String::from_utf8_lossy(&expected));
    }
}

/// A file of which at most so many bytes come at once.
struct Portions<'a> {
    file: &'a [u8],
    most: usize,
}

impl Read for Portions<'_> {
    fn read(&mut self, buffer: &mut [u8]) -> std::io::Result<usize> {
        let most = self.most.min(buffer.len());
        self.file.read(&mut buffer[..most])
    }
}
