//! Reads an old RAMS deck from standard input and prints its counts and segments.

use reference::deck::{answer, DECK_MOST};
use std::io::{self, Read, Write};

fn main() -> io::Result<()> {
    let mut bytes = Vec::new();
    io::stdin().lock().take(DECK_MOST).read_to_end(&mut bytes)?;
    io::stdout().lock().write_all(answer(&bytes).as_bytes())
}
