//! Files that move between units: from the form without leaders up to the one
//! with them, and down again.

use crate::file::{decode_of, encode_as, LED, PLAIN};
use crate::refusal::Refusal;

/// The two ways in which a file is turned.
#[derive(Clone, Copy, Debug, PartialEq, Eq, PartialOrd, Ord)]
pub enum Way {
    Up,
    Down,
}

impl Way {
    /// From the name of its program.
    pub fn named(name: &str) -> Option<Way> {
        match name {
            "up" => Some(Way::Up),
            "down" => Some(Way::Down),
            _ => None,
        }
    }
}

pub fn turn(way: Way, bytes: &[u8]) -> Result<Vec<u8>, Refusal> {
    match way {
        Way::Up => up(bytes),
        Way::Down => down(bytes),
    }
}

/// A file of the older form as one with leaders, all of them 0. Only the older
/// form's kind is due at the first record.
pub fn up(bytes: &[u8]) -> Result<Vec<u8>, Refusal> {
    let district = decode_of(bytes, &[PLAIN])?;
    Ok(encode_as(&district, LED))
}

/// A file of the form with leaders as one without. Only that form's kind is due
/// at the first record, and leaders are looked at when all else is in order.
pub fn down(bytes: &[u8]) -> Result<Vec<u8>, Refusal> {
    let district = decode_of(bytes, &[LED])?;
    if district.has_leaders() {
        return Err(Refusal::LeaderSet);
    }
    Ok(encode_as(&district, PLAIN))
}

/// What `up` and `down` write: the new file, or only its refusal.
pub fn answer(way: Way, bytes: &[u8]) -> Vec<u8> {
    turn(way, bytes).unwrap_or_else(|refusal| format!("refused {}\n", refusal.number()).into_bytes())
}

/// The stored cases in a text, one a line, `WAY FILE: ANSWER` with files in
/// hexadecimal: its number, the way, the file, and what the program writes.
/// Lines that begin with `#` and empty ones are passed over.
pub fn cases(text: &str) -> Result<Vec<(usize, Way, Vec<u8>, Vec<u8>)>, String> {
    let lines = (1..).zip(text.lines()).filter(|(_, line)| !line.is_empty() && !line.starts_with('#'));
    lines.map(|(number, line)| case(number, line).ok_or(format!("line {number} is no case"))).collect()
}

fn case(number: usize, line: &str) -> Option<(usize, Way, Vec<u8>, Vec<u8>)> {
    let (asked, answer) = line.split_once(": ")?;
    let (way, file) = asked.split_once(' ')?;
    let answer = match answer.starts_with("refused ") {
        true => format!("{answer}\n").into_bytes(),
        false => unhex(answer)?,
    };
    Some((number, Way::named(way)?, unhex(file)?, answer))
}

fn unhex(text: &str) -> Option<Vec<u8>> {
    let digits: Option<Vec<u8>> =
        text.chars().filter(|sign| *sign != ' ').map(|sign| sign.to_digit(16).map(|digit| digit as u8)).collect();
    let digits = digits.filter(|digits| digits.len() % 2 == 0)?;
    Some(digits.chunks_exact(2).map(|pair| 16 * pair[0] + pair[1]).collect())
}
