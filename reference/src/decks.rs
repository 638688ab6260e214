//! Makes old RAMS decks at random.

use crate::deck::COLUMNS;
use crate::district::*;
use crate::random::Random;

/// Where a field begins, counted from 0, how many columns it has, and whether it
/// is a decimal one.
type Field = (usize, usize, bool);

const COUNTS: [Field; 5] = [(0, 5, false), (5, 5, false), (15, 5, false), (20, 5, false), (25, 5, false)];
const SEGMENT: [Field; 5] = [(0, 8, true), (8, 8, true), (16, 4, false), (20, 8, true), (28, 8, true)];

/// A deck: sound, with a field that is odd or out of its range, with a byte
/// changed, put in or left out, cut, or noise.
pub fn any_deck(random: &mut Random) -> Vec<u8> {
    let mut bytes = sound(random);
    match random.below(100) {
        0..=34 => {}
        35..=59 => spoil(random, &mut bytes),
        60..=71 => change(random, &mut bytes),
        // Anywhere, most often near the end of a card.
        72..=81 => {
            let at = near_an_end(random, bytes.len());
            bytes.truncate(at);
        }
        82..=87 => {
            let at = near_an_end(random, bytes.len());
            bytes.insert(at.min(bytes.len()), *random.pick(b" \n\r9."));
        }
        88..=92 => {
            let at = near_an_end(random, bytes.len()).min(bytes.len() - 1);
            bytes.remove(at);
        }
        93..=97 => {
            spoil(random, &mut bytes);
            let at = near_an_end(random, bytes.len());
            bytes.truncate(at);
        }
        _ => {
            let length = random.size(0, 400);
            bytes = random.bytes(length);
        }
    }
    bytes
}

/// A deck in order, and whatever lies behind its segments.
fn sound(random: &mut Random) -> Vec<u8> {
    let segments = match random.below(20) {
        0 | 1 => 0,
        2 => MOST_SEGMENTS,
        _ => random.size(1, 6),
    };
    let highway_types = random.size(1, MOST_PAVEMENT_TYPES);
    let mut bytes = card(random, &[], &[]);
    let counts = [
        segments,
        random.size(1, MOST_STRATEGIES),
        random.size(1, MOST_YEARS),
        random.size(1, MOST_DISTRESS_TYPES),
        highway_types,
    ];
    bytes.extend(card(random, &COUNTS, &counts.map(|count| count as u64)));
    for _ in 0..segments {
        let index = |random: &mut Random| match random.below(4) {
            0 => *random.pick(&[100, 1_000]),
            1 => 10 * random.within(10, 100),
            _ => random.within(100, 1_000),
        };
        let length = match random.below(4) {
            0 => *random.pick(&[1, 10, 100, 1_000, 9_999]),
            1 => 10 * random.within(1, 999),
            _ => random.within(1, 9_999),
        };
        let width = if random.chance(20) { *random.pick(&[1, 200]) } else { random.within(1, 200) };
        let values = [length, 100 * width, random.size(1, highway_types) as u64, index(random), index(random)];
        bytes.extend(card(random, &SEGMENT, &values));
    }
    match random.below(4) {
        0 => {
            let length = random.size(0, 300);
            bytes.extend(random.bytes(length));
        }
        1 => (0..random.size(1, 4)).for_each(|_| bytes.extend(card(random, &[], &[]))),
        _ => {}
    }
    bytes
}

/// A card with these fields. All other columns are blank, filled with text, or any
/// bytes but a line feed.
fn card(random: &mut Random, fields: &[Field], values: &[u64]) -> Vec<u8> {
    let manner = random.below(4);
    let mut card: Vec<u8> = (0..COLUMNS)
        .map(|_| match manner {
            0 => *random.pick(b"0123456789. ABC"),
            1 => match random.draw() as u8 {
                b'\n' => 0,
                byte => byte,
            },
            _ => b' ',
        })
        .collect();
    for (&(start, columns, decimal), &value) in fields.iter().zip(values) {
        let field = if decimal { hundredths(random, value, columns) } else { number(random, value, columns) };
        card[start..start + columns].copy_from_slice(&field);
    }
    card.push(b'\n');
    card
}

/// A whole-number field, now and then with zeros in front.
fn number(random: &mut Random, value: u64, columns: usize) -> Vec<u8> {
    let digits = value.to_string();
    let zeros = if random.chance(20) { random.size(0, columns - digits.len()) } else { 0 };
    format!("{:>columns$}", "0".repeat(zeros) + &digits).into_bytes()
}

/// A decimal field: with as many digits behind the point as needed, or more, and
/// anywhere in its columns.
fn hundredths(random: &mut Random, value: u64, columns: usize) -> Vec<u8> {
    let needed = match value % 100 {
        0 => 0,
        parts if parts % 10 == 0 => 1,
        _ => 2,
    };
    let parts = format!("{:02}", value % 100)[..random.size(needed, 2)].to_string();
    let text = format!("{}.{parts}", value / 100);
    let zeros = if random.chance(20) { random.size(0, columns - text.len()) } else { 0 };
    let text = "0".repeat(zeros) + &text;
    let behind = if random.chance(60) { 0 } else { random.size(0, columns - text.len()) };
    format!("{:>columns$}", text + &" ".repeat(behind)).into_bytes()
}

/// One field is blank, odd, or out of its range.
fn spoil(random: &mut Random, bytes: &mut [u8]) {
    let segments = (bytes.len() / (COLUMNS + 1)).saturating_sub(2);
    let segment = segments > 0 && random.chance(75);
    let (start, columns, decimal) = *random.pick(if segment { &SEGMENT } else { &COUNTS });
    let line = if segment { random.size(2, segments + 1) } else { 1 };
    let field = match random.below(5) {
        0 => vec![b' '; columns],
        1 => (0..columns).map(|_| *random.pick(b"  .0159")).collect(),
        2 => (0..columns).map(|_| *random.pick(b"0123456789 .x-+\t\0")).collect(),
        // As many digits as there is room for; a point in any column.
        3 => {
            let mut digits: Vec<u8> = (0..columns).map(|_| *random.pick(b"0000123456789")).collect();
            if decimal || random.chance(20) {
                digits[random.size(0, columns - 1)] = b'.';
            }
            digits
        }
        _ => {
            let odd = [0, 1, 5, 10, 11, 12, 65, 99, 100, 257, 1_001, 2_050, 9_999, 10_000, 20_001, 20_100, 65_636];
            let value = random.pick(&odd);
            match decimal {
                true => hundredths(random, *value, columns),
                false => number(random, value % 10_000, columns),
            }
        }
    };
    let at = line * (COLUMNS + 1) + start;
    bytes[at..at + columns].copy_from_slice(&field);
}

/// One byte is another, most often in the columns that are read.
fn change(random: &mut Random, bytes: &mut [u8]) {
    let at = match random.chance(70) {
        true => random.size(1, bytes.len() / (COLUMNS + 1) - 1) * (COLUMNS + 1) + random.size(0, 40),
        false => random.size(0, bytes.len() - 1),
    };
    bytes[at] = match random.chance(80) {
        true => *random.pick(b" .0123456789\n\t\r-+x\0\xff"),
        false => random.draw() as u8,
    };
}

/// A place in a deck, most often at the end of a card or beside it.
fn near_an_end(random: &mut Random, length: usize) -> usize {
    let any = random.size(0, length);
    match random.chance(70) {
        true => (any / (COLUMNS + 1) * (COLUMNS + 1) + random.size(0, 3)).saturating_sub(2).min(length),
        false => any,
    }
}
