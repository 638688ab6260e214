//! A district's file, made into its text: `unpack`.

use crate::file::LED;
use crate::records::{due, Record, Row};
use crate::refusal::Refusal;

/// So many bytes of a file are read.
pub const FILE_MOST: usize = 4_096;

/// Why a file has no text, and where.
#[derive(Clone, Debug, PartialEq, Eq)]
pub struct Refused {
    pub refusal: Refusal,
    pub place: String,
}

/// The text of a file, or what refuses it.
pub fn unpack(bytes: &[u8]) -> Result<String, Refused> {
    let bytes = &bytes[..bytes.len().min(FILE_MOST)];
    let led = bytes.len() >= 4 && two(&bytes[2..]) == LED;
    let mut rest = bytes;
    let mut rows: Vec<Row> = Vec::new();
    let mut text = String::new();
    while let Some(record) = due(led, &rows) {
        let row = take(&record, rows.len() + 1, &mut rest)?;
        text.push_str(&line(&record, &row));
        rows.push(row);
    }
    match rest.len() {
        0 => Ok(text),
        more => refused(Refusal::ByteFollows, format!("{more} bytes follow the end")),
    }
}

/// Takes the record that is due off the front; `at` is which one of the file it is.
fn take(record: &Record, at: usize, rest: &mut &[u8]) -> Result<Row, Refused> {
    let place = format!("record {at} ({})", record.name());
    if rest.len() < 4 {
        return refused(Refusal::FileEnds, format!("{place}: the file ends within it"));
    }
    let (length, kind) = (usize::from(two(rest)), two(&rest[2..]));
    if kind != record.kind {
        return refused(Refusal::Kind, format!("record {at}: kind {kind} stands where {} is due", record.kind));
    }
    let due = record.length();
    if length != due {
        return refused(Refusal::Length, format!("{place}: {length} bytes stand where {due} are due"));
    }
    if rest.len() < 4 + length {
        return refused(Refusal::FileEnds, format!("{place}: the file ends within it"));
    }
    let (mut payload, behind) = rest[4..].split_at(length);
    *rest = behind;
    let mut row = Vec::with_capacity(record.numbers.len());
    for (number, which) in record.numbers.iter().zip(1..) {
        let (own, others) = payload.split_at(number.bytes);
        payload = others;
        let value = number.of(own);
        if !number.holds(value) {
            let range = format!("{value} is not {} to {}", number.least, number.most);
            return refused(Refusal::Value, format!("{place}, number {which}: {range}"));
        }
        row.push(value);
    }
    Ok(row)
}

/// A record's line: its word, its numbers, and a comment where it has one.
fn line(record: &Record, row: &[i128]) -> String {
    let numbers: String = row.iter().map(|number| format!(" {number}")).collect();
    let comment = match (record.kind, record.which) {
        (1 | 8, _) => " # segments, strategies, years, distress types, pavement types, resources".to_string(),
        (_, Some(_)) => format!(" # {}", record.name()),
        _ => String::new(),
    };
    format!("{}{numbers}{comment}\n", record.word)
}

fn refused<T>(refusal: Refusal, place: String) -> Result<T, Refused> {
    Err(Refused { refusal, place })
}

fn two(bytes: &[u8]) -> u16 {
    u16::from_le_bytes([bytes[0], bytes[1]])
}

/// What `unpack` prints: the text, or the refusal's number and its place.
pub fn answer(bytes: &[u8]) -> String {
    unpack(bytes).unwrap_or_else(|Refused { refusal, place }| format!("refused {}\n{place}\n", refusal.number()))
}
