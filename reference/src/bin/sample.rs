//! Writes a small sample segment to standard output.

use reference::compose::sample;
use std::io::{self, Write};

fn main() -> io::Result<()> {
    io::stdout().write_all(&sample())
}
