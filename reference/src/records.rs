//! The records of a district, as its file and its text have them: which one is
//! due, which numbers it has, and from where to where each may go.
//!
//! A row is the numbers of one record as a text has them. What is due follows
//! from the form and from the rows before.

use crate::district::*;
use crate::file::{LED, PLAIN};

pub const PLAIN_WORD: &str = "district";
pub const LED_WORD: &str = "led-district";

pub type Row = Vec<i128>;

/// A record that is due.
pub struct Record {
    pub word: &'static str,
    pub kind: u16,
    /// Which strategy, pavement type or segment it is, from 1.
    pub which: Option<usize>,
    pub numbers: Vec<Number>,
}

/// A number that is due: its range, both ends included, and its bytes in a file.
/// A byte is signed where the range has negative numbers.
#[derive(Clone, Copy)]
pub struct Number {
    pub least: i128,
    pub most: i128,
    pub bytes: usize,
}

impl Record {
    /// What it is called in comments and where a file is refused.
    pub fn name(&self) -> String {
        match self.which {
            None => self.word.to_string(),
            Some(which) => format!("{} {which}", self.word),
        }
    }

    /// How many bytes its numbers have in a file.
    pub fn length(&self) -> usize {
        self.numbers.iter().map(|number| number.bytes).sum()
    }
}

impl Number {
    pub fn holds(self, value: i128) -> bool {
        (self.least..=self.most).contains(&value)
    }

    /// Its bytes, the low one first.
    pub fn put(self, value: i128, out: &mut Vec<u8>) {
        out.extend(&value.to_le_bytes()[..self.bytes]);
    }

    /// The number that these bytes are.
    pub fn of(self, bytes: &[u8]) -> i128 {
        if self.least < 0 {
            return i128::from(bytes[0] as i8);
        }
        bytes.iter().rev().fold(0, |value, &byte| 256 * value + i128::from(byte))
    }
}

/// The record that is due behind these rows, or none, behind the last.
pub fn due(led: bool, rows: &[Row]) -> Option<Record> {
    let of = |word, kind, which, numbers| Some(Record { word, kind, which, numbers });
    let Some(counts) = rows.first() else {
        return if led { of(LED_WORD, LED, None, counts()) } else { of(PLAIN_WORD, PLAIN, None, counts()) };
    };
    let [n, s, t, d, y, r] = [0, 1, 2, 3, 4, 5].map(|at| counts[at] as usize);
    // Where the first strategy, pavement type, segment and the end stand.
    let [strategy, pavement, segment, end] = [3, 3 + s, 3 + s + y, 3 + s + y + n];
    match rows.len() {
        1 => of("limits", 2, None, vec![number(0, LIMIT_MOST, 4); r]),
        2 => of("greatest", 3, None, vec![number(1, RATING_MOST, 1); d]),
        at if at < pavement => of("strategy", 4, Some(at + 1 - strategy), strategy_numbers(r, d, t)),
        at if at < segment => of("pavement", 5, Some(at + 1 - pavement), pavement_numbers(d, t)),
        at if at < end => {
            let own = at + 1 - segment;
            let mut numbers = segment_numbers(y, s, &rows[2]);
            if led {
                numbers.push(number(0, own as u32 - 1, 1));
            }
            of("segment", 6, Some(own), numbers)
        }
        at if at == end => of("end", 7, None, Vec::new()),
        _ => None,
    }
}

fn number(least: impl Into<i128>, most: impl Into<i128>, bytes: usize) -> Number {
    Number { least: least.into(), most: most.into(), bytes }
}

fn counts() -> Vec<Number> {
    let count = |least: u32, most: usize| number(least, most as u32, 1);
    vec![
        count(0, MOST_SEGMENTS),
        count(1, MOST_STRATEGIES),
        count(1, MOST_YEARS),
        count(1, MOST_DISTRESS_TYPES),
        count(1, MOST_PAVEMENT_TYPES),
        count(1, MOST_RESOURCES),
    ]
}

fn strategy_numbers(r: usize, d: usize, t: usize) -> Vec<Number> {
    let mut numbers = vec![number(0, REQUIREMENT_MOST, 4); r];
    numbers.extend(vec![number(-GAIN_MOST, GAIN_MOST, 1); d]);
    numbers.extend(vec![number(0, 100, 1); d * t]);
    numbers
}

fn pavement_numbers(d: usize, t: usize) -> Vec<Number> {
    let mut numbers = vec![number(0, OVERALL_MOST, 2)];
    numbers.extend(vec![number(0, RATING_MOST, 1); d * t]);
    numbers
}

/// Those that a segment has in both forms.
fn segment_numbers(y: usize, s: usize, greatest: &[i128]) -> Vec<Number> {
    let mut numbers = vec![
        number(1, y as u32, 1),
        number(INDEX_LEAST, INDEX_MOST, 2),
        number(INDEX_LEAST, INDEX_MOST, 2),
        number(1, LENGTH_MOST, 2),
        number(1, WIDTH_MOST, 1),
        number(0, (1 << s) - 1, 2),
    ];
    numbers.extend(greatest.iter().map(|&most| number(0, most, 1)));
    numbers
}
