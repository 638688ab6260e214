//! Decodes and encodes frames, for comparison of file codecs.
//!
//! Each frame on standard input is answered by one byte, the refusal number or
//! 0, and after a 0 by a length of 4 bytes and the exported file.

use reference::file::{decode, encode};
use reference::frames;
use std::io::{self, BufReader, BufWriter, Write};

fn main() -> io::Result<()> {
    let mut input = BufReader::new(io::stdin().lock());
    let mut output = BufWriter::new(io::stdout().lock());
    while let Some(frame) = frames::next(&mut input)? {
        match decode(&frame) {
            Err(refusal) => output.write_all(&[refusal.number()])?,
            Ok(district) => {
                let mut answer = vec![0];
                frames::put(&mut answer, &encode(&district));
                output.write_all(&answer)?;
            }
        }
    }
    output.flush()
}
