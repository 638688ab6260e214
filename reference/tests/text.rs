//! Texts packed and files unpacked: the document's examples, and any texts and files
//! against a second reader of both.

mod common;

use common::card_bytes;
use reference::district::*;
use reference::example;
use reference::file::{self, LED, LONGEST, LONGEST_PLAIN, PLAIN};
use reference::make::{self, WIDEST};
use reference::pack::{self, pack, TEXT_MOST};
use reference::random::Random;
use reference::text::{answer, cases, Way};
use reference::texts::{self, sort_of};
use reference::turn::up;
use reference::unpack::{self, unpack};
use std::collections::{BTreeMap, VecDeque};

const DOCUMENT: &str = include_str!("../../docs/FILE.md");

// ---- the document's examples

/// The indented blocks behind a heading, up to the next heading of its level.
fn blocks(heading: &str) -> Vec<Vec<&'static str>> {
    let section = DOCUMENT.split(heading).nth(1).unwrap();
    let mut blocks = vec![Vec::new()];
    for line in section.split("\n## ").next().unwrap().lines() {
        match line.strip_prefix("    ") {
            Some(line) => blocks.last_mut().unwrap().push(line),
            None if line.is_empty() => blocks.last_mut().unwrap().push(""),
            None => blocks.push(Vec::new()),
        }
    }
    let trimmed = |block: Vec<&'static str>| {
        let first = block.iter().position(|line| !line.is_empty())?;
        let last = block.iter().rposition(|line| !line.is_empty())?;
        Some(block[first..=last].to_vec())
    };
    blocks.into_iter().filter_map(trimmed).collect()
}

fn joined(lines: &[&str]) -> Vec<u8> {
    lines.iter().flat_map(|line| format!("{line}\n").into_bytes()).collect()
}

/// The bytes of a file's table, without its first line and first column.
fn bytes_of(table: &[&str]) -> Vec<u8> {
    let digits = table[1..].iter().flat_map(|line| line.split_whitespace().skip(1));
    digits.map(|byte| u8::from_str_radix(byte, 16).unwrap()).collect()
}

#[test]
fn the_cards() {
    let [plain, plain_file, led, led_file, office, ..] = &blocks("## The test card\n")[..] else { panic!() };
    assert_eq!(bytes_of(plain_file), card_bytes());
    assert_eq!(Ok(bytes_of(led_file)), up(&card_bytes()));
    for (text, table) in [(plain, plain_file), (led, led_file)] {
        assert_eq!(pack(&joined(text)), Ok(bytes_of(table)));
        assert_eq!(unpack(&bytes_of(table)).map(String::into_bytes), Ok(joined(text)));
    }
    assert_eq!(pack(&joined(office)), Ok(card_bytes()));
}

#[test]
fn the_card_with_one_line_changed() {
    let blocks = blocks("## The test card\n");
    let mut seen = 0;
    for example in &blocks[5] {
        let (changed, wanted) = example.split_once(" → ").unwrap();
        let (number, line) = changed.trim_end().split_once(' ').unwrap();
        let number: usize = number.parse().unwrap();
        let mut lines = blocks[0].clone();
        match line {
            "(taken away)" => drop(lines.remove(number - 1)),
            "(an empty line)" => lines[number - 1] = "",
            _ if number > lines.len() => lines.push(line),
            _ => lines[number - 1] = line,
        }
        let mut card = card_bytes();
        let wanted = match wanted {
            "the file of the card" => Ok(card),
            "a file, with a limit of 0" => {
                card[14] = 0;
                Ok(card)
            }
            "a file, with a gain of −6" => {
                card[31] = 250;
                Ok(card)
            }
            complaint => Err(complaint.to_string()),
        };
        assert_eq!(pack(&joined(&lines)), wanted, "{example}");
        seen += 1;
    }
    assert_eq!(seen, 35);
}

#[test]
fn other_texts() {
    let missing = |number| Err(format!("line {number}: the end is missing ('district' is due)"));
    assert_eq!(pack(b""), missing(1));
    assert_eq!(pack(b"\n\n"), missing(3));
    let quoted = "line 1: '????????????????????..' is not the word due ('district')".to_string();
    assert_eq!(pack(&card_bytes()), Err(quoted));
    let led = |line: usize, leader: &str| {
        let mut lines: Vec<String> = blocks("## The test card\n")[2].iter().map(|line| line.to_string()).collect();
        lines[line - 1] = lines[line - 1].replace(" 0 #", &format!(" {leader} #"));
        pack(&joined(&lines.iter().map(String::as_str).collect::<Vec<_>>()))
    };
    assert_eq!(led(7, "1"), Err("line 7: 1 is not 0 to 0".to_string()));
    assert_eq!(led(8, "2"), Err("line 8: 2 is not 0 to 1".to_string()));
    let sound = led(8, "1").unwrap();
    assert_eq!((sound.len(), sound[84]), (89, 1));
    // What the document says of 65,536 bytes, of a byte order mark and of a printed dash.
    let long = |length| pack(&[joined(&blocks("## The test card\n")[0]), vec![b' '; length]].concat()[..length]);
    assert_eq!(long(65_536), Ok(card_bytes()));
    assert_eq!(long(65_537), Err("the text is longer than 65536 bytes".to_string()));
    assert_eq!(
        answer(Way::Pack, "\u{feff}district".as_bytes()),
        b"line 1: '???district' is not the word due ('district')\n"
    );
    assert_eq!(answer(Way::Pack, "district –1".as_bytes()), b"line 1: '???1' is not a number\n");
}

#[test]
fn the_file_with_one_byte_changed() {
    let blocks = blocks("## The test card\n");
    let mut seen = 0;
    for example in &blocks[6] {
        let (changed, wanted) = example.split_once(" → ").unwrap();
        let mut bytes = card_bytes();
        if changed.starts_with("byte 83 is 0 to 20 ") {
            for rating in 0..=20 {
                bytes[82] = rating;
                let text = String::from_utf8(joined(&blocks[0])).unwrap();
                assert_eq!(unpack(&bytes), Ok(text.replace(" 15 # segment", &format!(" {rating} # segment"))));
            }
            seen += 1;
            continue;
        }
        for change in changed.trim_end().split(", ") {
            match change.split(' ').collect::<Vec<_>>()[..] {
                ["no", "byte", "is", "left"] => bytes.clear(),
                ["the", "first", many, "are", "left"] => bytes.truncate(many.parse().unwrap()),
                ["a", "byte", "0", "follows"] => bytes.push(0),
                ["10,000", "bytes", "0", "follow"] => bytes.extend(vec![0; 10_000]),
                ["byte", at, "is", byte] => bytes[at.parse::<usize>().unwrap() - 1] = byte.parse().unwrap(),
                _ => panic!("{example}"),
            }
        }
        let (first, second) = wanted.split_once("    ").unwrap();
        assert_eq!(unpack::answer(&bytes), format!("{first}\n{second}\n"), "{example}");
        seen += 1;
    }
    assert_eq!(seen, 18);
    let mut led = up(&card_bytes()).unwrap();
    led[84] = 2;
    let place = "record 8 (segment 2), number 8: 2 is not 0 to 1";
    assert_eq!(unpack::answer(&led), format!("refused 4\n{place}\n"));
}

/// The lengths that the document gives.
#[test]
fn shortest_and_longest() {
    let least = District::fresh();
    assert_eq!(file::encode(&least).len(), 44);
    let longest = District {
        years: 10,
        limits: vec![LIMIT_MOST; 16],
        greatest: vec![50; 9],
        strategies: vec![
            Strategy {
                requirements: vec![REQUIREMENT_MOST; 16],
                gains: vec![-50; 9],
                survival: vec![100; 90]
            };
            11
        ],
        types: vec![PavementType { overall: 450, minimum: vec![50; 90] }; 4],
        segments: (1..=64)
            .map(|own| Segment {
                pavement: 4,
                traffic: 1_000,
                environment: 1_000,
                length: 9_999,
                width: 200,
                bars: 2_047,
                ratings: vec![50; 9],
                leader: own - 1,
            })
            .collect(),
    };
    let [plain, led] = [PLAIN, LED].map(|form| file::encode_as(&longest, form));
    assert_eq!((plain.len(), led.len()), (LONGEST_PLAIN, LONGEST));
    assert_eq!((LONGEST_PLAIN, LONGEST), (3_788, 3_852));
    assert_eq!(unpack(&led).unwrap().len(), 12_234);
    assert!(unpack(&plain).unwrap().len() < 12_234 && 12_234 * 5 < TEXT_MOST);
    assert_eq!(pack(unpack(&led).unwrap().as_bytes()), Ok(led));
}

/// The report's example, as an office would write it.
#[test]
fn the_report() {
    let text = include_str!("../../docs/report.txt");
    assert_eq!(pack(text.as_bytes()), Ok(file::encode(&example::district())));
}

// ---- a second reader

/// The ranges of a record's numbers, and their bytes in a file; `own` is which one of
/// its word it is.
fn ranges(word: &str, own: usize, counts: &[i128], greatest: &[i128], led: bool) -> Vec<(i128, i128, usize)> {
    let [_, s, t, d, y, r] = [0, 1, 2, 3, 4, 5].map(|at| counts.get(at).map_or(0, |&count| count as usize));
    match word {
        "district" | "led-district" => {
            [(0, 64), (1, 11), (1, 10), (1, 9), (1, 4), (1, 16)].map(|(a, b)| (a, b, 1)).into()
        }
        "limits" => vec![(0, 999_999_999, 4); r],
        "greatest" => vec![(1, 50, 1); d],
        "strategy" => [vec![(0, 999_999, 4); r], vec![(-50, 50, 1); d], vec![(0, 100, 1); d * t]].concat(),
        "pavement" => [vec![(0, 450, 2)], vec![(0, 50, 1); d * t]].concat(),
        "segment" => {
            let bars = (0..s).map(|strategy| 2i128.pow(strategy as u32)).sum();
            let first = [(1, y as i128, 1), (100, 1_000, 2), (100, 1_000, 2), (1, 9_999, 2), (1, 200, 1), (0, bars, 2)];
            let ratings: Vec<_> = greatest.iter().map(|&most| (0, most, 1)).collect();
            let leader = (0, own as i128 - 1, 1);
            [&first[..], &ratings, &[leader][..usize::from(led)]].concat()
        }
        _ => Vec::new(),
    }
}

const KINDS: [(&str, u8); 8] = [
    ("district", 1),
    ("limits", 2),
    ("greatest", 3),
    ("strategy", 4),
    ("pavement", 5),
    ("segment", 6),
    ("end", 7),
    ("led-district", 8),
];

fn kind(word: &str) -> u8 {
    KINDS.iter().find(|kind| kind.0 == word).unwrap().1
}

/// What the counts make due behind the first record.
fn all_due(counts: &[i128]) -> VecDeque<(&'static str, usize)> {
    let many = |word, count: i128| (1..=count as usize).map(move |own| (word, own));
    let mut due: VecDeque<_> = [("limits", 0), ("greatest", 0)].into();
    due.extend(many("strategy", counts[1]).chain(many("pavement", counts[4])).chain(many("segment", counts[0])));
    due.push_back(("end", 0));
    due
}

/// `pack` once more: each line's bytes are written as soon as it is read.
fn packed_again(text: &[u8]) -> Result<Vec<u8>, String> {
    if text.len() > 65_536 {
        return Err("the text is longer than 65536 bytes".to_string());
    }
    // A character for each byte.
    let text: String = text.iter().map(|&byte| char::from(byte)).collect();
    let shown = |word: &str| word.replace(|sign| !(' '..='~').contains(&sign), "?");
    let quoted = |word: &str| match word.chars().count() {
        0..=20 => format!("'{}'", shown(word)),
        _ => format!("'{}..'", shown(&word.chars().take(20).collect::<String>())),
    };
    let (mut counts, mut greatest, mut led, mut out) = (Vec::new(), Vec::new(), false, Vec::new());
    let mut due: VecDeque<_> = [("district", 0)].into();
    let mut number = 0;
    for line in text.split_terminator('\n') {
        number += 1;
        let line = line.find('#').map_or(line, |at| &line[..at]);
        let mut words = line.split([' ', '\t', '\r']).filter(|word| !word.is_empty());
        let Some(first) = words.next() else { continue };
        let complaint = |what: String| Err(format!("line {number}: {what}"));
        let Some((mut word, own)) = due.pop_front() else { return complaint("something follows the end".into()) };
        if counts.is_empty() && first == "led-district" {
            (word, led) = (first, true);
        }
        if first != word {
            return complaint(format!("{} is not the word due ('{word}')", quoted(first)));
        }
        let ranges = ranges(word, own, &counts, &greatest, led);
        let length: usize = ranges.iter().map(|range| range.2).sum();
        out.extend([length as u8, (length / 256) as u8, kind(word), 0]);
        let mut row = Vec::new();
        for &(least, most, bytes) in &ranges {
            let Some(word) = words.next() else {
                return complaint(format!("a number is missing ({} of {})", row.len(), ranges.len()));
            };
            let digits = word.strip_prefix('-').unwrap_or(word);
            let sound = (1..=20).contains(&digits.len()) && digits.chars().all(|sign| sign.is_ascii_digit());
            let Ok(value) = word.parse::<i128>().map_err(|_| ()).and_then(|value| sound.then_some(value).ok_or(()))
            else {
                return complaint(format!("{} is not a number", quoted(word)));
            };
            if value < least || value > most {
                return complaint(format!("{word} is not {least} to {most}"));
            }
            let whole = if value < 0 { value + 256 } else { value };
            out.extend((0..bytes).map(|at| (whole / 256i128.pow(at as u32) % 256) as u8));
            row.push(value);
        }
        if words.next().is_some() {
            return complaint(format!("a number too many ({} are due)", ranges.len()));
        }
        match word {
            "district" | "led-district" => {
                due = all_due(&row);
                counts = row;
            }
            "greatest" => greatest = row,
            _ => {}
        }
    }
    match due.front() {
        Some((word, _)) => Err(format!("line {}: the end is missing ('{word}' is due)", number + 1)),
        None => Ok(out),
    }
}

/// `unpack` once more: the place of a refusal by walking over the bytes.
fn unpacked_again(bytes: &[u8]) -> String {
    let bytes = &bytes[..bytes.len().min(4_096)];
    let led = bytes.get(2..4) == Some(&[8, 0]);
    let (mut counts, mut greatest, mut at, mut text) = (Vec::new(), Vec::new(), 0, String::new());
    let mut due: VecDeque<_> = [(if led { "led-district" } else { "district" }, 0)].into();
    let mut number = 0;
    while let Some((word, own)) = due.pop_front() {
        number += 1;
        let name = if own > 0 { format!("{word} {own}") } else { word.to_string() };
        let byte = |at: usize| bytes.get(at).map(|&byte| i128::from(byte));
        let two = |at: usize| Some(byte(at)? + 256 * byte(at + 1)?);
        let ends = format!("refused 1\nrecord {number} ({name}): the file ends within it\n");
        let (Some(length), Some(stands)) = (two(at), two(at + 2)) else { return ends };
        if stands != i128::from(kind(word)) {
            return format!("refused 2\nrecord {number}: kind {stands} stands where {} is due\n", kind(word));
        }
        let ranges = ranges(word, own, &counts, &greatest, led);
        let wanted: usize = ranges.iter().map(|range| range.2).sum();
        if length != wanted as i128 {
            return format!("refused 3\nrecord {number} ({name}): {length} bytes stand where {wanted} are due\n");
        }
        if bytes.len() < at + 4 + wanted {
            return ends;
        }
        at += 4;
        let mut row = Vec::new();
        for &(least, most, many) in &ranges {
            let whole: i128 = (0..many).map(|place| byte(at + place).unwrap() * 256i128.pow(place as u32)).sum();
            let value = if least < 0 && whole > 127 { whole - 256 } else { whole };
            if value < least || value > most {
                let place = format!("record {number} ({name}), number {}", row.len() + 1);
                return format!("refused 4\n{place}: {value} is not {least} to {most}\n");
            }
            row.push(value);
            at += many;
        }
        let numbers = row.iter().map(|number| format!(" {number}")).collect::<String>();
        text += word;
        text += &numbers;
        match word {
            "district" | "led-district" => {
                text += " # segments, strategies, years, distress types, pavement types, resources";
                due = all_due(&row);
                counts = row;
            }
            "greatest" => greatest = row,
            _ if own > 0 => text += &format!(" # {name}"),
            _ => {}
        }
        text.push('\n');
    }
    match bytes.len() - at {
        0 => text,
        more => format!("refused 5\n{more} bytes follow the end\n"),
    }
}

fn packs_alike(text: &[u8]) -> Result<Vec<u8>, String> {
    let packed = pack(text);
    assert_eq!(packed, packed_again(text), "{:?}", String::from_utf8_lossy(text));
    packed
}

/// Each byte of the cards and of a small text another, left out, put in; and each cut.
#[test]
fn texts_one_byte_away() {
    let cards = blocks("## The test card\n");
    let small = b"led-district 1 1 1 1 1 1\nlimits -0\ngreatest 9\nstrategy 6 -5 4\npavement 3 2\nsegment 1 100 100 1 1 1 9 0\nend".to_vec();
    for (text, all) in [(joined(&cards[0]), false), (joined(&cards[4]), false), (small, true)] {
        for at in 0..=text.len() {
            packs_alike(&text[..at]).ok();
            for byte in (0..=255).filter(|byte| all || b"\0\t\n\r #-.09Az\x7f\xff".contains(byte)) {
                packs_alike(&[&text[..at], &[byte], &text[at..]].concat()).ok();
                if at < text.len() {
                    packs_alike(&[&text[..at], &[byte], &text[at + 1..]].concat()).ok();
                }
            }
            if at < text.len() {
                packs_alike(&[&text[..at], &text[at + 1..]].concat()).ok();
            }
        }
    }
}

#[test]
fn texts_from_a_seed() {
    let mut seen: BTreeMap<String, u32> = BTreeMap::new();
    for case in 0..20_000 {
        let text = texts::any_text(&mut Random::for_case(14, case));
        let sort = match packs_alike(&text) {
            Err(complaint) => {
                assert!(
                    complaint.len() <= 90 && complaint.bytes().all(|byte| (32..=126).contains(&byte)),
                    "{complaint}"
                );
                assert_eq!(answer(Way::Pack, &text), format!("{complaint}\n").into_bytes());
                sort_of(&complaint).to_string()
            }
            Ok(file) => {
                // It loads, has the text's form, and comes back.
                assert!(file::decode(&file).is_ok());
                let back = unpack(&file).unwrap();
                assert_eq!(pack(back.as_bytes()).as_ref(), Ok(&file));
                assert_eq!(back.starts_with("led"), file[2] == 8);
                assert_eq!(answer(Way::Pack, &text), file);
                format!("packed as {}", file[2])
            }
        };
        *seen.entry(sort).or_default() += 1;
    }
    assert!(seen.len() == 10 && seen.values().all(|&count| count > 90), "{seen:?}");
}

/// Files: refused by the number of a load, at the place that the second reader finds;
/// else the same file again from its text.
#[test]
fn files_from_a_seed() {
    let mut seen = [0; 6];
    for case in 0..12_000 {
        let bytes = texts::any_file(&mut Random::for_case(15, case));
        let read = &bytes[..bytes.len().min(4_096)];
        assert_eq!(unpack::answer(&bytes), unpacked_again(&bytes), "case {case}");
        match (unpack(&bytes), file::decode(read)) {
            (Ok(text), Ok(district)) => {
                assert_eq!(pack(text.as_bytes()).as_deref(), Ok(read));
                assert_eq!(file::decode(&pack::pack(text.as_bytes()).unwrap()), Ok(district));
                seen[0] += 1;
            }
            (Err(refused), Err(refusal)) => {
                assert_eq!(refused.refusal, refusal);
                seen[usize::from(refusal.number())] += 1;
            }
            both => panic!("{both:?}"),
        }
    }
    assert!(seen.iter().all(|&count| count > 300), "{seen:?}");
}

/// Each byte of the cards' files another, and each cut.
#[test]
fn files_one_byte_away() {
    for file in [card_bytes(), up(&card_bytes()).unwrap()] {
        for at in 0..file.len() {
            assert_eq!(unpack::answer(&file[..at]), unpacked_again(&file[..at]));
            for byte in 0..=255 {
                let mut other = file.clone();
                other[at] = byte;
                assert_eq!(unpack::answer(&other), unpacked_again(&other));
            }
        }
    }
}

/// Districts of the widest shape, in both forms, there and back.
#[test]
fn there_and_back() {
    for case in 0..10 {
        let mut made = make::district(&mut Random::for_case(16, case), WIDEST);
        for form in [PLAIN, LED] {
            let file = file::encode_as(&made, form);
            assert_eq!(packs_alike(unpack(&file).unwrap().as_bytes()), Ok(file));
        }
        make::set_leaders(&mut Random::for_case(17, case), &mut made);
        let file = file::encode(&made);
        assert_eq!(packs_alike(unpack(&file).unwrap().as_bytes()), Ok(file));
    }
}

#[test]
fn stored_cases_are_read() {
    let read = cases("# a remark\n\npack a|\\ff => line 1: x\npack =3=| => 06\nunpack =2=07 => a|b\n").unwrap();
    assert_eq!(read[0], (3, Way::Pack, b"a\n\xff".to_vec(), b"line 1: x\n".to_vec()));
    assert_eq!(read[1], (4, Way::Pack, b"\n  ".to_vec(), vec![6]));
    assert_eq!(read[2], (5, Way::Unpack, vec![7, 0], b"a\nb\n".to_vec()));
    for line in
        ["pack a", "park a => b", "pack \\0 => b", "unpack 0 => b", "unpack 0g => b", "pack =x=a => b", "pack a => 0"]
    {
        assert!(cases(line).is_err(), "{line}");
    }
    let stored = cases(include_str!("../texts.txt")).unwrap();
    let mut seen: BTreeMap<String, u32> = BTreeMap::new();
    for (line, way, bytes, wanted) in stored {
        assert_eq!(answer(way, &bytes), wanted, "line {line}");
        let again = match way {
            Way::Pack => packed_again(&bytes).unwrap_or_else(|complaint| format!("{complaint}\n").into_bytes()),
            Way::Unpack => unpacked_again(&bytes).into_bytes(),
        };
        assert_eq!(again, wanted, "line {line}");
        let text = String::from_utf8_lossy(&wanted).into_owned();
        let sort = match way {
            Way::Pack if wanted[0] == 6 => "packed",
            Way::Pack => sort_of(&text),
            Way::Unpack if text.starts_with("refused") => &text[..9],
            Way::Unpack => "unpacked",
        };
        *seen.entry(sort.to_string()).or_default() += 1;
    }
    assert!(seen.len() == 15 && seen.values().all(|&count| count >= 2), "{seen:?}");
}
