//! Prints as many valid frames as its argument says, one a line: all
//! categories in turn, the same lines on every run.

use reference::generate::valid_frame;
use reference::line::line_of_frame;
use reference::random::Random;
use reference::record::Category;
use std::io::{stdout, BufWriter, Result, Write};

fn main() -> Result<()> {
    let argument = std::env::args().nth(1).and_then(|argument| argument.parse().ok());
    let Some(count) = argument else {
        eprintln!("usage: sample_file NUMBER-OF-FRAMES");
        std::process::exit(2);
    };
    let mut random = Random::new(63);
    let mut output = BufWriter::new(stdout().lock());
    for category in Category::ALL.into_iter().cycle().take(count) {
        let line = line_of_frame(&valid_frame(&mut random, category));
        output.write_all(&line)?;
        output.write_all(b"\n")?;
    }
    output.flush()
}
