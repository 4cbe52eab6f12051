//! Reads a carried unit from standard input and prints what the lister prints for it.

use reference::listing::{MOST_LISTED, list};
use std::io::{self, Read, Write};

fn main() -> io::Result<()> {
    let mut input = Vec::new();
    io::stdin()
        .take(MOST_LISTED as u64 + 1)
        .read_to_end(&mut input)?;
    io::stdout().write_all(list(&input).as_bytes())
}
