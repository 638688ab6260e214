//! Old RAMS decks: cards of 80 columns, of which the first are read: the title,
//! the counts, and one for each segment.
//!
//! Columns count from 1, as in the report. Cards are taken one after another; a
//! card is looked at whole before its fields are read, and these before the next
//! card is looked at.

use crate::district::*;
use crate::refusal::Refusal;
use std::fmt::Write;

/// Columns of a card; a line feed follows.
pub const COLUMNS: usize = 80;

/// So many bytes of a deck are read.
pub const DECK_MOST: u64 = 65_536;

/// What the first cards of a deck say, in the units of a district's file.
#[derive(Clone, Debug, PartialEq, Eq)]
pub struct Deck {
    pub strategies: u64,
    pub years: u64,
    pub distress_types: u64,
    pub highway_types: u64,
    pub segments: Vec<Stretch>,
}

/// A segment's card.
#[derive(Clone, Copy, Debug, PartialEq, Eq)]
pub struct Stretch {
    /// Hundredths of a mile.
    pub length: u64,
    /// Feet.
    pub width: u64,
    /// Highway type, from 1.
    pub kind: u64,
    /// Indexes, in hundredths.
    pub traffic: u64,
    pub environment: u64,
}

pub fn read(bytes: &[u8]) -> Result<Deck, Refusal> {
    let mut cards = Cards { rest: bytes };
    let _title = cards.next()?;
    let card = cards.next()?;
    let segments = within(0, MOST_SEGMENTS, whole(columns(card, 1, 5)))?;
    let strategies = within(1, MOST_STRATEGIES, whole(columns(card, 6, 10)))?;
    let years = within(1, MOST_YEARS, whole(columns(card, 16, 20)))?;
    let distress_types = within(1, MOST_DISTRESS_TYPES, whole(columns(card, 21, 25)))?;
    let highway_types = within(1, MOST_PAVEMENT_TYPES, whole(columns(card, 26, 30)))?;
    let segments = (0..segments).map(|_| stretch(cards.next()?, highway_types)).collect::<Result<_, _>>()?;
    Ok(Deck { strategies, years, distress_types, highway_types, segments })
}

fn stretch(card: &[u8], highway_types: u64) -> Result<Stretch, Refusal> {
    Ok(Stretch {
        length: within(1, LENGTH_MOST.into(), decimal(columns(card, 1, 8)))?,
        width: within(1, WIDTH_MOST.into(), decimal(columns(card, 9, 16)).and_then(wholly))?,
        kind: within(1, highway_types as usize, whole(columns(card, 17, 20)))?,
        traffic: within(INDEX_LEAST.into(), INDEX_MOST.into(), decimal(columns(card, 21, 28)))?,
        environment: within(INDEX_LEAST.into(), INDEX_MOST.into(), decimal(columns(card, 29, 36)))?,
    })
}

/// What is left of a deck while its cards are taken off the front.
struct Cards<'a> {
    rest: &'a [u8],
}

impl<'a> Cards<'a> {
    /// The columns of the next card: a line of that length, with its line feed.
    fn next(&mut self) -> Result<&'a [u8], Refusal> {
        let end = self.rest.iter().position(|&byte| byte == b'\n');
        let Some(end) = end.filter(|&end| end == COLUMNS) else {
            return Err(Refusal::Card);
        };
        let (card, rest) = self.rest.split_at(end);
        self.rest = &rest[1..];
        Ok(card)
    }
}

/// Columns of a card, both ends included.
fn columns(card: &[u8], first: usize, last: usize) -> &[u8] {
    &card[first - 1..last]
}

/// The value of a field, if it is one and lies in its range.
fn within(least: usize, most: usize, field: Option<u64>) -> Result<u64, Refusal> {
    field.filter(|value| (least as u64..=most as u64).contains(value)).ok_or(Refusal::Field)
}

/// A whole-number field: blanks or none, then digits up to its last column.
pub fn whole(field: &[u8]) -> Option<u64> {
    let (_, digits) = field.split_at(count(field, b" "));
    digits_of(digits)
}

/// A decimal field in hundredths: blanks or none, digits, a point, at most two
/// digits, blanks or none.
pub fn decimal(field: &[u8]) -> Option<u64> {
    let (_, rest) = field.split_at(count(field, b" "));
    let (digits, rest) = rest.split_at(count(rest, DIGITS));
    let (point, rest) = rest.split_first()?;
    let (behind, blanks) = rest.split_at(count(rest, DIGITS));
    if *point != b'.' || count(blanks, b" ") < blanks.len() {
        return None;
    }
    let hundredths = match behind.len() {
        0 => 0,
        1 => 10 * digits_of(behind)?,
        2 => digits_of(behind)?,
        _ => return None,
    };
    digits_of(digits)?.checked_mul(100)?.checked_add(hundredths)
}

/// Hundredths as whole ones, where they are.
fn wholly(hundredths: u64) -> Option<u64> {
    (hundredths % 100 == 0).then_some(hundredths / 100)
}

const DIGITS: &[u8] = b"0123456789";

/// How many bytes at the front are some of these.
fn count(bytes: &[u8], some: &[u8]) -> usize {
    bytes.iter().take_while(|byte| some.contains(byte)).count()
}

/// The number that digits stand for, one or more. One that is too large for this
/// machine is too large for every range.
fn digits_of(digits: &[u8]) -> Option<u64> {
    if digits.is_empty() || count(digits, DIGITS) < digits.len() {
        return None;
    }
    digits.iter().try_fold(0u64, |number, digit| number.checked_mul(10)?.checked_add(u64::from(digit - b'0')))
}

/// What `deck` prints: counts and segments, or only its refusal.
pub fn answer(bytes: &[u8]) -> String {
    match read(bytes) {
        Ok(deck) => listing(&deck),
        Err(refusal) => format!("refused {}\n", refusal.number()),
    }
}

fn listing(deck: &Deck) -> String {
    let Deck { strategies, years, distress_types, highway_types, segments } = deck;
    let mut text = format!("counts {} {strategies} {years} {distress_types} {highway_types}\n", segments.len());
    for (own, Stretch { length, width, kind, traffic, environment }) in (1..).zip(segments) {
        // Writing to a String can't fail.
        let _ = writeln!(text, "{own} {length} {width} {kind} {traffic} {environment}");
    }
    text
}

/// The stored cases in a text, one a line, `CARD|CARD|.. => LINE|LINE|..`: its
/// number, the deck, and what the program prints. A card gets blanks up to its
/// last column, and a line feed. `=N=` in front of it makes it N columns long,
/// `=N-` leaves the line feed out as well; `\XX` is a byte in hexadecimal. Lines
/// that begin with `#` and empty ones are passed over.
pub fn cases(text: &str) -> Result<Vec<(usize, Vec<u8>, String)>, String> {
    let lines = (1..).zip(text.lines()).filter(|(_, line)| !line.is_empty() && !line.starts_with('#'));
    lines.map(|(number, line)| case(number, line).ok_or(format!("line {number} is no case"))).collect()
}

fn case(number: usize, line: &str) -> Option<(usize, Vec<u8>, String)> {
    let (cards, printed) = line.split_once(" => ")?;
    let deck: Option<Vec<Vec<u8>>> = match cards {
        "" => Some(Vec::new()),
        _ => cards.split('|').map(card).collect(),
    };
    Some((number, deck?.concat(), printed.split('|').map(|line| format!("{line}\n")).collect()))
}

fn card(text: &str) -> Option<Vec<u8>> {
    let (columns, feed, text) = match text.strip_prefix('=') {
        None => (COLUMNS, true, text),
        Some(rest) => {
            let end = rest.find(['=', '-'])?;
            (rest[..end].parse().ok()?, rest[end..].starts_with('='), &rest[end + 1..])
        }
    };
    let mut bytes = Vec::new();
    let mut rest = text.as_bytes();
    while let Some((&byte, behind)) = rest.split_first() {
        rest = behind;
        if byte == b'\\' {
            bytes.push(u8::from_str_radix(std::str::from_utf8(rest.get(..2)?).ok()?, 16).ok()?);
            rest = &rest[2..];
        } else {
            bytes.push(byte);
        }
    }
    if bytes.len() > columns {
        return None;
    }
    bytes.resize(columns, b' ');
    bytes.extend(feed.then_some(b'\n'));
    Some(bytes)
}
