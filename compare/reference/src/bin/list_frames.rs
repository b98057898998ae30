//! Lists the frames of standard input on standard output.

use reference::listing::{list, Lines};
use std::io::{stdin, stdout, BufWriter, Result};

fn main() -> Result<()> {
    list(Lines::Bare, stdin().lock(), BufWriter::new(stdout().lock()))
}
