//! Districts between text and file: the two ways, and their stored cases.

use crate::{pack, unpack};

#[derive(Clone, Copy, Debug, PartialEq, Eq, PartialOrd, Ord)]
pub enum Way {
    /// A text into its file.
    Pack,
    /// A file into its text.
    Unpack,
}

impl Way {
    /// From the name of its program.
    pub fn named(name: &str) -> Option<Way> {
        match name {
            "pack" => Some(Way::Pack),
            "unpack" => Some(Way::Unpack),
            _ => None,
        }
    }
}

/// What `pack` and `unpack` print.
pub fn answer(way: Way, bytes: &[u8]) -> Vec<u8> {
    match way {
        Way::Pack => pack::answer(bytes),
        Way::Unpack => unpack::answer(bytes).into_bytes(),
    }
}

/// The stored cases in a text, one a line, `pack TEXT => ANSWER` or
/// `unpack FILE => ANSWER`: its number, the way, what the program reads and what it
/// prints. In a TEXT `|` is a line feed and `\XX` a byte in hexadecimal; a FILE is in
/// hexadecimal. `=N=` in front gives either N bytes, by blanks or bytes 0 behind it.
/// An ANSWER is a file in hexadecimal, which begins with 0, or lines divided by `|`.
/// Lines that begin with `#` and empty ones are passed over.
pub fn cases(text: &str) -> Result<Vec<(usize, Way, Vec<u8>, Vec<u8>)>, String> {
    let lines = (1..).zip(text.lines()).filter(|(_, line)| !line.is_empty() && !line.starts_with('#'));
    lines.map(|(number, line)| case(number, line).ok_or(format!("line {number} is no case"))).collect()
}

fn case(number: usize, line: &str) -> Option<(usize, Way, Vec<u8>, Vec<u8>)> {
    let (asked, printed) = line.split_once(" => ")?;
    let (way, input) = asked.split_once(' ')?;
    let way = Way::named(way)?;
    let (length, input) = match input.strip_prefix('=') {
        None => (0, input),
        Some(rest) => {
            let (length, input) = rest.split_once('=')?;
            (length.parse().ok()?, input)
        }
    };
    let (mut bytes, filler) = match way {
        Way::Pack => (spelled(input)?, b' '),
        Way::Unpack => (unhex(input)?, 0),
    };
    bytes.resize(bytes.len().max(length), filler);
    let printed = match printed.starts_with('0') {
        true => unhex(printed)?,
        false => printed.split('|').map(|line| format!("{line}\n")).collect::<String>().into_bytes(),
    };
    Some((number, way, bytes, printed))
}

/// The bytes of a TEXT.
fn spelled(text: &str) -> Option<Vec<u8>> {
    let mut bytes = Vec::new();
    let mut rest = text.as_bytes();
    while let Some((&byte, behind)) = rest.split_first() {
        rest = behind;
        match byte {
            b'|' => bytes.push(b'\n'),
            b'\\' => {
                bytes.push(u8::from_str_radix(std::str::from_utf8(rest.get(..2)?).ok()?, 16).ok()?);
                rest = &rest[2..];
            }
            _ => bytes.push(byte),
        }
    }
    Some(bytes)
}

fn unhex(text: &str) -> Option<Vec<u8>> {
    let pairs = text.as_bytes().chunks(2);
    pairs
        .map(|pair| u8::from_str_radix(std::str::from_utf8(pair).ok().filter(|pair| pair.len() == 2)?, 16).ok())
        .collect()
}
