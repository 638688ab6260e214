//! Makes texts of districts at random, sound and spoilt, and files to be unpacked.

use crate::district::District;
use crate::file;
use crate::make::{self, Shape, WIDEST};
use crate::pack::{value, TEXT_MOST};
use crate::random::Random;
use crate::records::{due, Row};
use crate::turn::Way;
use crate::unpack::unpack;

/// The words of a text, line by line.
type Draft = Vec<Vec<Vec<u8>>>;

/// A text: sound; with a word, a number, a line or a byte that is another; cut; of
/// the greatest length or longer; or noise.
pub fn any_text(random: &mut Random) -> Vec<u8> {
    let mut draft = draft(random);
    match random.below(100) {
        0..=24 => laid(random, &draft),
        25..=39 => {
            to_an_end(random, &mut draft);
            laid(random, &draft)
        }
        40..=49 => {
            reword(random, &mut draft);
            laid(random, &draft)
        }
        50..=57 => {
            reline(random, &mut draft);
            laid(random, &draft)
        }
        // Two things wrong: which comes first?
        58..=65 => {
            for _ in 0..2 {
                [to_an_end, reword, reline][random.size(0, 2)](random, &mut draft);
            }
            laid(random, &draft)
        }
        66..=83 => {
            let text = if random.chance(50) { plain(&draft) } else { laid(random, &draft) };
            changed(random, text)
        }
        84..=89 => {
            let mut text = if random.chance(50) { plain(&draft) } else { laid(random, &draft) };
            text.truncate(near_an_end(random, &text));
            text
        }
        90..=93 => {
            let text = laid(random, &draft);
            lengthened(random, text)
        }
        94..=96 => vocabulary(random),
        97 => make::any_file(random),
        _ => {
            let length = random.size(0, 300);
            random.bytes(length)
        }
    }
}

/// A file to be unpacked: of either form, sound or damaged, with much behind it, or a
/// text.
pub fn any_file(random: &mut Random) -> Vec<u8> {
    match random.below(20) {
        0..=7 => make::any_file(random),
        8..=12 => make::any_turned_file(random, Way::Up),
        13..=17 => make::any_turned_file(random, Way::Down),
        18 => {
            let mut bytes = sound_file(random);
            let length = *random.pick(&[1, 2, 100, 3_000, 4_095, 4_096, 4_097, 5_000]);
            bytes.extend(random.bytes(length));
            bytes
        }
        _ => any_text(random),
    }
}

/// A sound file of either form, most often a small one.
fn sound_file(random: &mut Random) -> Vec<u8> {
    let shape = match random.below(20) {
        0..=12 => make::small_shape(random, 5, 4),
        13 => WIDEST,
        14 => Shape { segments: 0, ..make::small_shape(random, 1, 11) },
        _ => make::shape(random),
    };
    let mut made: District = make::district(random, shape);
    let led = random.chance(40);
    if led && random.chance(70) {
        make::set_leaders(random, &mut made);
    }
    file::encode_as(&made, if led { file::LED } else { file::PLAIN })
}

fn draft(random: &mut Random) -> Draft {
    let text = unpack(&sound_file(random)).expect("a sound file");
    let words = |line: &str| line.split(" #").next().unwrap_or_default().split(' ').map(|word| word.into()).collect();
    text.lines().map(words).collect()
}

/// One space between words, and nothing else.
fn plain(draft: &Draft) -> Vec<u8> {
    draft.iter().flat_map(|words| [&words.join(&b' ')[..], b"\n"].concat()).collect()
}

/// The same words with blanks, comments, empty lines, zeros in front and signs of 0.
fn laid(random: &mut Random, draft: &Draft) -> Vec<u8> {
    let mut text = Vec::new();
    let end: &[u8] = if random.chance(30) { b"\r\n" } else { b"\n" };
    for words in draft {
        while random.chance(15) {
            text.extend(blanks(random, 0));
            text.extend(comment(random, 50));
            text.extend(end);
        }
        if random.chance(10) {
            text.extend(blanks(random, 1));
        }
        for (at, word) in words.iter().enumerate() {
            if at > 0 {
                text.extend(blanks(random, 1));
            }
            text.extend(spelled(random, word));
        }
        if random.chance(20) {
            text.extend(blanks(random, 1));
        }
        text.extend(comment(random, 25));
        text.extend(end);
    }
    if random.chance(20) {
        text.truncate(text.len() - end.len());
    }
    text
}

fn blanks(random: &mut Random, least: usize) -> Vec<u8> {
    match random.chance(70) {
        true => vec![b' '; least],
        false => (0..random.size(least, 4)).map(|_| *random.pick(b"  \t\r")).collect(),
    }
}

/// A comment of any bytes, in so many of a hundred cases.
fn comment(random: &mut Random, percent: u64) -> Vec<u8> {
    if !random.chance(percent) {
        return Vec::new();
    }
    let length = random.size(0, 12);
    let bytes = match random.chance(80) {
        true => b"# 12 seal #..".iter().take(length).copied().collect(),
        false => random.bytes(length),
    };
    let line: Vec<u8> = bytes.into_iter().filter(|&byte| byte != b'\n').collect();
    [b"#", &line[..]].concat()
}

/// A number now and then with zeros in front, 0 now and then with a sign.
fn spelled(random: &mut Random, word: &[u8]) -> Vec<u8> {
    let Some(number) = value(word) else { return word.to_vec() };
    if !random.chance(15) {
        return word.to_vec();
    }
    let (sign, digits): (&[u8], _) = match word.strip_prefix(b"-") {
        Some(digits) => (b"-", digits),
        None if number == 0 && random.chance(50) => (b"-", word),
        None => (b"", word),
    };
    let length = if random.chance(40) { 20 } else { random.size(digits.len(), 20) };
    [sign, &vec![b'0'; length - digits.len()], digits].concat()
}

/// One number at an end of its range, or a step beyond.
fn to_an_end(random: &mut Random, draft: &mut Draft) {
    let led = draft[0].first().is_some_and(|word| word == b"led-district");
    let at = random.size(0, draft.len() - 1);
    // Where a word was spoilt before, nothing is known of the lines behind it.
    let row = |words: &Vec<Vec<u8>>| words.iter().skip(1).map(|word| value(word)).collect::<Option<Row>>();
    let Some(rows) = draft[..at].iter().map(row).collect::<Option<Vec<Row>>>() else { return };
    if rows.iter().enumerate().any(|(at, row)| !fits(led, &rows[..at], row)) {
        return;
    }
    let Some(record) = due(led, &rows) else { return };
    let many = record.numbers.len().min(draft[at].len().saturating_sub(1));
    if many == 0 {
        return;
    }
    let which = random.size(0, many - 1);
    let number = record.numbers[which];
    let other = match random.below(6) {
        0 => number.least,
        1 => number.most,
        2 | 3 => number.least - 1,
        _ => number.most + 1,
    };
    draft[at][which + 1] = other.to_string().into_bytes();
}

fn fits(led: bool, rows: &[Row], row: &Row) -> bool {
    due(led, rows).is_some_and(|record| {
        record.numbers.len() == row.len() && record.numbers.iter().zip(row).all(|(number, &value)| number.holds(value))
    })
}

const ODD: [&[u8]; 44] = [
    b"0",
    b"-0",
    b"1",
    b"-1",
    b"2",
    b"11",
    b"12",
    b"50",
    b"51",
    b"100",
    b"101",
    b"127",
    b"128",
    b"206",
    b"255",
    b"256",
    b"65535",
    b"65536",
    b"4294967296",
    b"9223372036854775808",
    b"18446744073709551615",
    b"18446744073709551616",
    b"18446744073709551617",
    b"99999999999999999999",
    b"-99999999999999999999",
    b"00000000000000000001",
    b"000000000000000000001",
    b"-00000000000000000001",
    b"-000000000000000000001",
    b"100000000000000000000",
    b"-",
    b"--1",
    b"+1",
    b"1-",
    b"1.0",
    b"1,000",
    b"1e3",
    b"0x1",
    b"one",
    b"'",
    b"\"1\"",
    b"\xe2\x80\x931",
    b"\xef\xbb\xbfdistrict",
    b"\x0b\x0c\0",
];

const WORDS: [&[u8]; 13] = [
    b"district",
    b"led-district",
    b"limits",
    b"greatest",
    b"strategy",
    b"pavement",
    b"segment",
    b"end",
    b"District",
    b"END",
    b"segments",
    b"pavemen",
    b"enddistrict",
];

/// One word is another, left out, put in, or of about the length that is cut.
fn reword(random: &mut Random, draft: &mut Draft) {
    let at = random.size(0, draft.len() - 1);
    let words = &mut draft[at];
    if words.is_empty() {
        return;
    }
    let which = random.size(0, words.len() - 1);
    match random.below(10) {
        0..=3 => words[which] = random.pick(&ODD).to_vec(),
        4 => words[which] = random.pick(&WORDS).to_vec(),
        5 => {
            let length = *random.pick(&[1, 19, 20, 21, 22, 40]);
            let signs = *random.pick(&["x", "0123456789", "a\x1f~\x7f'.é"]);
            words[which] = (0..length).map(|_| *random.pick(signs.as_bytes())).collect();
        }
        6 => drop(words.remove(which)),
        7 => words.push(if random.chance(50) { b"0".to_vec() } else { random.pick(&ODD).to_vec() }),
        8 => words.insert(which, random.pick(&ODD).to_vec()),
        _ => {
            let other = random.size(0, words.len() - 1);
            words.swap(which, other);
        }
    }
}

/// One line is left out, there twice, exchanged, parted, joined, or behind the end.
fn reline(random: &mut Random, draft: &mut Draft) {
    let last = draft.len() - 1;
    let at = random.size(0, last);
    match random.below(7) {
        0 => drop(draft.remove(at)),
        1 => draft.insert(at, draft[at].clone()),
        2 => draft.swap(at, random.size(0, last)),
        3 => {
            let from = random.size(0, draft[at].len());
            let rest = draft[at].split_off(from);
            draft.insert(at + 1, rest);
        }
        4 if at < last => {
            let next = draft.remove(at + 1);
            draft[at].extend(next);
        }
        5 => draft.push(random.pick(draft).clone()),
        _ => draft.truncate(at),
    }
    if draft.is_empty() {
        draft.push(Vec::new());
    }
}

/// One byte is another, left out, or put in.
fn changed(random: &mut Random, mut text: Vec<u8>) -> Vec<u8> {
    const SIGNS: &[u8] = b" \t\r\n#-+.0123456789adegilmnoprstvy\0\x7f\xff";
    if text.is_empty() {
        return text;
    }
    let at = random.size(0, text.len() - 1);
    let byte = if random.chance(85) { *random.pick(SIGNS) } else { random.draw() as u8 };
    match random.below(3) {
        0 => text[at] = byte,
        1 => drop(text.remove(at)),
        _ => text.insert(at, byte),
    }
    text
}

/// A place in a text, most often beside a line's end.
fn near_an_end(random: &mut Random, text: &[u8]) -> usize {
    let any = random.size(0, text.len());
    let end = text[..any].iter().rposition(|&byte| byte == b'\n').unwrap_or(0);
    match random.chance(50) {
        true => (end + random.size(0, 3)).saturating_sub(1).min(text.len()),
        false => any,
    }
}

/// The same at about the greatest length: with blanks, a comment, empty lines, or one
/// long word, somewhere at the end of a line.
fn lengthened(random: &mut Random, mut text: Vec<u8>) -> Vec<u8> {
    let length = match random.below(8) {
        0..=2 => TEXT_MOST,
        3 | 4 => TEXT_MOST + 1,
        5 => TEXT_MOST - 1,
        _ => random.size(TEXT_MOST - 9, TEXT_MOST + 4_000),
    };
    let more = length.saturating_sub(text.len() + 1);
    let filler = match random.below(6) {
        0 => [b"#", &vec![b'x'; more][..]].concat(),
        1 => vec![b'\n'; more + 1],
        2 => [b" ", &vec![b'0'; more][..]].concat(),
        3 => [b"\t", &vec![0xff; more][..]].concat(),
        _ => vec![b' '; more + 1],
    };
    let ends: Vec<usize> = (0..text.len()).filter(|&at| text[at] == b'\n').chain([text.len()]).collect();
    let at = *random.pick(&ends);
    text.splice(at..at, filler);
    text
}

/// Words of a text, numbers and odd ones in any order.
fn vocabulary(random: &mut Random) -> Vec<u8> {
    let mut text = Vec::new();
    for _ in 0..random.size(0, 40) {
        let word = match random.below(8) {
            0..=3 => *random.pick(&ODD[..8]),
            4 => *random.pick(&ODD),
            _ => *random.pick(&WORDS),
        };
        text.extend(word);
        text.push(*random.pick(b"    \n\n\t\r#"));
    }
    text
}

/// Which of the complaints it is.
pub fn sort_of(complaint: &str) -> &'static str {
    let sorts = [
        "longer than",
        "is not the word due",
        "a number is missing",
        "is not a number",
        "a number too many",
        "something follows the end",
        "the end is missing",
    ];
    sorts.into_iter().find(|sort| complaint.contains(sort)).unwrap_or("is not LO to HI")
}
