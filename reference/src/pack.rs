//! A district's text, made into its file: `pack`.
//!
//! Lines are taken one after another, and in a line its words from the left; the
//! first thing that is wrong is the complaint.

use crate::records::{due, Record, Row, LED_WORD};

/// No text is longer.
pub const TEXT_MOST: usize = 65_536;

/// The file of a text, or the first complaint.
pub fn pack(text: &[u8]) -> Result<Vec<u8>, String> {
    if text.len() > TEXT_MOST {
        return Err(format!("the text is longer than {TEXT_MOST} bytes"));
    }
    let lines = lines(text);
    let mut led = false;
    let mut rows = Vec::new();
    for (number, line) in (1..).zip(&lines) {
        let words = words(line);
        let Some((first, rest)) = words.split_first() else { continue };
        if rows.is_empty() {
            led = *first == LED_WORD.as_bytes();
        }
        let row = match due(led, &rows) {
            Some(record) => row(&record, first, rest),
            None => Err("something follows the end".to_string()),
        };
        rows.push(row.map_err(|wrong| format!("line {number}: {wrong}"))?);
    }
    match due(led, &rows) {
        Some(record) => Err(format!("line {}: the end is missing ('{}' is due)", lines.len() + 1, record.word)),
        None => Ok(file(led, &rows)),
    }
}

/// The lines of a text. What is behind the last line feed is one if there is anything.
fn lines(text: &[u8]) -> Vec<&[u8]> {
    let mut lines: Vec<&[u8]> = text.split(|&byte| byte == b'\n').collect();
    lines.pop_if(|last| last.is_empty());
    lines
}

/// The words of a line, up to its comment.
fn words(line: &[u8]) -> Vec<&[u8]> {
    let read = line.split(|&byte| byte == b'#').next().unwrap_or_default();
    read.split(|byte| b" \t\r".contains(byte)).filter(|word| !word.is_empty()).collect()
}

/// The numbers of a line whose record is due, or what is wrong with it.
fn row(record: &Record, first: &[u8], rest: &[&[u8]]) -> Result<Row, String> {
    if first != record.word.as_bytes() {
        return Err(format!("{} is not the word due ('{}')", quoted(first), record.word));
    }
    let due = record.numbers.len();
    let mut row = Vec::with_capacity(due);
    for (stand, number) in record.numbers.iter().enumerate() {
        let word = rest.get(stand).ok_or_else(|| format!("a number is missing ({stand} of {due})"))?;
        let value = value(word).ok_or_else(|| format!("{} is not a number", quoted(word)))?;
        if !number.holds(value) {
            return Err(format!("{} is not {} to {}", shown(word), number.least, number.most));
        }
        row.push(value);
    }
    if rest.len() > due {
        return Err(format!("a number too many ({due} are due)"));
    }
    Ok(row)
}

/// The number that a word is: 1 to 20 digits, and perhaps a minus in front.
pub fn value(word: &[u8]) -> Option<i128> {
    let (sign, digits) = match word.strip_prefix(b"-") {
        Some(digits) => (-1, digits),
        None => (1, word),
    };
    if !(1..=20).contains(&digits.len()) || !digits.iter().all(u8::is_ascii_digit) {
        return None;
    }
    Some(sign * digits.iter().fold(0, |number, digit| 10 * number + i128::from(digit - b'0')))
}

/// A word as a complaint quotes it: no more than its first 20 bytes.
fn quoted(word: &[u8]) -> String {
    match word.get(..20) {
        Some(begin) if word.len() > 20 => format!("'{}..'", shown(begin)),
        _ => format!("'{}'", shown(word)),
    }
}

/// Bytes as a complaint shows them.
fn shown(bytes: &[u8]) -> String {
    bytes.iter().map(|&byte| if (32..=126).contains(&byte) { char::from(byte) } else { '?' }).collect()
}

/// The file of all its rows.
fn file(led: bool, rows: &[Row]) -> Vec<u8> {
    let mut out = Vec::new();
    for (at, row) in rows.iter().enumerate() {
        let record = due(led, &rows[..at]).expect("a record for each row");
        out.extend((record.length() as u16).to_le_bytes());
        out.extend(record.kind.to_le_bytes());
        record.numbers.iter().zip(row).for_each(|(number, &value)| number.put(value, &mut out));
    }
    out
}

/// What `pack` prints: the file, or only the complaint.
pub fn answer(text: &[u8]) -> Vec<u8> {
    pack(text).unwrap_or_else(|complaint| format!("{complaint}\n").into_bytes())
}
