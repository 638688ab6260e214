//! Reads a district file from standard input and prints its text, or what refuses it and where.

use reference::unpack::{answer, FILE_MOST};
use std::io::{self, Read, Write};

fn main() -> io::Result<()> {
    let mut bytes = Vec::with_capacity(FILE_MOST);
    io::stdin().lock().take(FILE_MOST as u64).read_to_end(&mut bytes)?;
    io::stdout().lock().write_all(answer(&bytes).as_bytes())
}
