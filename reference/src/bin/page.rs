//! Reads a district file from standard input and prints its page.

use reference::page::answer;
use std::io::{self, Read, Write};

fn main() -> io::Result<()> {
    let mut bytes = Vec::with_capacity(4_096);
    io::stdin().lock().take(4_096).read_to_end(&mut bytes)?;
    io::stdout().lock().write_all(answer(&bytes).as_bytes())
}
