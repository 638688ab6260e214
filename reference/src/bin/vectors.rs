//! Frames on standard input, each a list of calls; what each list comes to on
//! standard output.

use reference::{calls, frames};
use std::io::{self, BufReader, BufWriter, Write};

fn main() -> io::Result<()> {
    let mut input = BufReader::new(io::stdin().lock());
    let mut output = BufWriter::new(io::stdout().lock());
    while let Some(frame) = frames::next(&mut input)? {
        output.write_all(calls::worked(&frame).as_bytes())?;
    }
    output.flush()
}
