//! The console over one unit: lines from standard input, answers to standard output.

use std::io::{self, BufReader};
use std::path::Path;

fn main() -> io::Result<()> {
    let mut input = BufReader::new(io::stdin().lock());
    reference::console::run(&mut input, &mut io::stdout().lock(), Path::new(""))
}
