//! Speed, as a ratio of the proved code to the reference, plain and tuned, and in
//! the parity also to RTKLIB, on the same inputs in the same run. No test rests on
//! it.

mod bulletin;
pub mod count;
mod listing;
mod parity;
mod reading;
mod rtklib;
mod store;
mod turns;
mod writing;

use reference::bits::Frame;
use reference::generate::valid_frame;
use reference::random::Random;
use reference::record::Category;
use std::fs::File;
use std::path::{Path, PathBuf};
use std::process::Command;

/// How many frames one run over frames has, and how many runs there are.
const FRAMES: usize = 100_000;
const ROUNDS: usize = 20;

pub fn measure() {
    reading::measure();
    writing::measure();
    store::measure();
    parity::measure();
    listing::measure();
}

/// Valid frames of all categories in turn.
fn valid_frames() -> Vec<Frame> {
    let mut random = Random::new(100);
    let categories = Category::ALL.into_iter().cycle().take(FRAMES);
    categories.map(|category| valid_frame(&mut random, category)).collect()
}

/// Writes a file of so many valid frames, one a line, and says where it is.
fn file_of_frames(frames: usize) -> PathBuf {
    let path = built(&format!("{frames}-frames.txt"));
    let file = File::create(&path).expect("the file of frames cannot be written");
    let ended = Command::new(built("sample_file")).arg(frames.to_string()).stdout(file).status();
    assert!(ended.expect("build the package `reference` first").success());
    path
}

/// Where a program of the reference lies, or a file beside it.
fn built(name: &str) -> PathBuf {
    Path::new(env!("CARGO_MANIFEST_DIR")).join("target/release").join(name)
}
