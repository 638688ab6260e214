//! Reads a district file from standard input and turns it up: writes the new file.

use reference::turn::{answer, Way};
use std::io::{self, Read, Write};

fn main() -> io::Result<()> {
    let mut bytes = Vec::with_capacity(4_096);
    io::stdin().lock().take(4_096).read_to_end(&mut bytes)?;
    io::stdout().lock().write_all(&answer(Way::Up, &bytes))
}
