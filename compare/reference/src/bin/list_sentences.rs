//! Lists the sentences of standard input, as a receiver sends them, on standard output.

use reference::listing::{list, Lines};
use std::io::{stdin, stdout, BufWriter, Result};

fn main() -> Result<()> {
    list(Lines::Sentences, stdin().lock(), BufWriter::new(stdout().lock()))
}
