//! Lists the frames of standard input on standard output, as `list_frames` does,
//! by the listing that is written for speed.

use reference::tuned::list;
use std::io::{stdin, stdout, Result};

fn main() -> Result<()> {
    list(stdin().lock(), stdout().lock())
}
