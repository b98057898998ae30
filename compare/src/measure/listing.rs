//! The time of a listing: the proved program against the plain and the tuned one of
//! the reference, each as a process of its own, on the same files of valid frames.

use super::turns::{compare, Told, Way};
use super::{built, file_of_frames};
use std::fs::File;
use std::path::Path;
use std::process::{Command, Stdio};

/// An archive of some size, and as many frames as one listing takes.
const SIZES: [usize; 2] = [100_000, 1_000_000];
const ROUNDS: usize = 5;

pub fn measure() {
    SIZES.into_iter().for_each(measure_size);
}

fn measure_size(frames: usize) {
    let proved = Path::new(env!("CARGO_MANIFEST_DIR")).join("../crates/list/out/list");
    let (plain, tuned) = (built("list_frames"), built("list_frames_tuned"));
    let input = file_of_frames(frames);
    let ways = vec![
        Way::new("proved", || list(&proved, &input)),
        Way::new("plain", || list(&plain, &input)),
        Way::new("tuned", || list(&tuned, &input)),
    ];
    compare(&format!("listing {frames} frames"), Told::Run, ROUNDS, ways);
}

/// Lets a program list the file. What it prints goes nowhere.
fn list(program: &Path, input: &Path) {
    let file = File::open(input).expect("the file of frames cannot be read");
    let ended = Command::new(program).stdin(file).stdout(Stdio::null()).status();
    assert!(ended.unwrap_or_else(|_| panic!("{} is not built", program.display())).success());
}
