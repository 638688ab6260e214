//! Reads a district's text from standard input and writes its file, or the first complaint.

use reference::pack::{answer, TEXT_MOST};
use std::io::{self, Read, Write};

fn main() -> io::Result<()> {
    let mut text = Vec::new();
    io::stdin().lock().take(TEXT_MOST as u64 + 1).read_to_end(&mut text)?;
    io::stdout().lock().write_all(&answer(&text))
}
