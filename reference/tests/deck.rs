//! Old RAMS decks: worked out by hand, field by field against a second way to read
//! one, and whole decks against a reader that takes them apart as text.

use reference::deck::{answer, cases, decimal, read, whole, Deck, Stretch, COLUMNS};
use reference::decks;
use reference::district::*;
use reference::example;
use reference::random::Random;
use reference::refusal::Refusal;

/// A deck of these lines, each with blanks up to its last column.
fn deck(lines: &[&str]) -> Vec<u8> {
    lines.iter().flat_map(|line| format!("{line:80}\n").into_bytes()).collect()
}

const COUNTS: &str = "    1    2         3    4    2";
const SEGMENT: &str = "    1.25   20.00   2    1.50    2.75";

#[test]
fn one_segment() {
    let bytes = deck(&["A TITLE", COUNTS, SEGMENT]);
    let segments = vec![Stretch { length: 125, width: 20, kind: 2, traffic: 150, environment: 275 }];
    assert_eq!(read(&bytes), Ok(Deck { strategies: 2, years: 3, distress_types: 4, highway_types: 2, segments }));
    assert_eq!(answer(&bytes), "counts 1 2 3 4 2\n1 125 20 2 150 275\n");
    assert_eq!((Refusal::Field.number(), Refusal::Card.number()), (18, 19));
}

/// The report's example, its lengths to two decimals.
#[test]
fn the_example() {
    let bytes = example::deck();
    let read = read(&bytes).unwrap();
    let district = example::district();
    assert_eq!((read.strategies, read.years, read.distress_types, read.highway_types), (8, 10, 6, 2));
    let segments = district.segments.iter().map(|segment| Stretch {
        length: segment.length.into(),
        width: segment.width.into(),
        kind: segment.pavement.into(),
        traffic: segment.traffic.into(),
        environment: segment.environment.into(),
    });
    assert_eq!(read.segments, segments.collect::<Vec<_>>());
    // With the third decimal that the report prints it is refused.
    let third = String::from_utf8(bytes).unwrap().replace("    9.02", "   9.021");
    assert_eq!(answer(third.as_bytes()), "refused 18\n");
}

/// Each cut of a deck of two segments ends too early, but for what follows them.
#[test]
fn cuts() {
    let bytes = deck(&["T", &COUNTS.replacen('1', "2", 1), SEGMENT, SEGMENT, "BEHIND"]);
    for length in 0..bytes.len() {
        assert_eq!(read(&bytes[..length]).err(), (length < 4 * 81).then_some(Refusal::Card), "{length}");
    }
    for length in (0..4 * 81).filter(|length| (length + 1) % 81 != 0) {
        let mut more = bytes.clone();
        more.insert(length, b' ');
        assert_eq!(read(&more).err().map(|refusal| refusal.number()), Some(19), "{length}");
        let mut broken = bytes.clone();
        broken[length] = b'\n';
        assert_eq!(read(&broken).err().map(|refusal| refusal.number()), Some(19), "{length}");
    }
}

/// A card's length before its fields, and all of a card before the next.
#[test]
fn which_comes_first() {
    let wrong_counts = COUNTS.replace('4', "0");
    let wrong = SEGMENT.replace("1.25", "x.25");
    let number = |bytes: &[u8]| read(bytes).err().map_or(0, |refusal| refusal.number());
    let joined = |cards: &[&[u8]]| cards.concat();
    let [title, counts, segment] = ["T", COUNTS, SEGMENT].map(|line| deck(&[line]));
    let [wrong_counts, wrong] = [&wrong_counts, &wrong].map(|line| deck(&[line]));
    let short = |card: &[u8]| [&card[..79], b"\n"].concat();
    assert_eq!(number(&joined(&[&short(&title), &wrong_counts, &segment])), 19);
    assert_eq!(number(&joined(&[&title, &short(&wrong_counts), &segment])), 19);
    assert_eq!(number(&joined(&[&title, &wrong_counts, &short(&segment)])), 18);
    assert_eq!(number(&joined(&[&title, &wrong_counts])), 18);
    assert_eq!(number(&joined(&[&title, &counts, &short(&wrong)])), 19);
    assert_eq!(number(&joined(&[&title, &counts, &wrong])), 18);
    assert_eq!(number(&joined(&[&title, &counts, &wrong[..80]])), 19);
    assert_eq!(number(&joined(&[&title, &counts, &segment, &short(&wrong)])), 0);
}

/// The value of a decimal field once more, by taking it apart as text.
fn decimal_again(field: &[u8]) -> Option<u64> {
    let text = std::str::from_utf8(field).ok()?.trim_matches(' ');
    let (units, parts) = text.split_once('.')?;
    let digits = |text: &str| text.bytes().all(|byte| byte.is_ascii_digit());
    if units.is_empty() || parts.len() > 2 || !digits(units) || !digits(parts) {
        return None;
    }
    format!("{units}{parts:0<2}").parse().ok()
}

fn whole_again(field: &[u8]) -> Option<u64> {
    let text = std::str::from_utf8(field).ok()?.trim_start_matches(' ');
    text.bytes().all(|byte| byte.is_ascii_digit()).then(|| text.parse().ok())?
}

/// Every field of up to seven of these characters.
#[test]
fn fields() {
    let (mut sound, mut all) = (0, vec![Vec::new()]);
    for _ in 0..7 {
        let longer = |field: &Vec<u8>| b" .05x".map(|byte| [&field[..], &[byte]].concat());
        all = all.iter().flat_map(longer).collect();
        for field in &all {
            assert_eq!((whole(field), decimal(field)), (whole_again(field), decimal_again(field)), "{field:?}");
            sound += u32::from(decimal(field).is_some());
        }
    }
    assert!(sound > 1_000);
    for byte in 0..=255 {
        for at in 0..8 {
            let mut field = *b"  12.50 ";
            field[at] = byte;
            assert_eq!(decimal(&field), decimal_again(&field));
            let mut field = *b"    1250";
            field[at] = byte;
            assert_eq!(whole(&field), whole_again(&field));
        }
    }
    assert_eq!((decimal(b"12."), decimal(b"12.5"), decimal(b".5")), (Some(1_200), Some(1_250), None));
    assert_eq!((whole(b"    7"), whole(b"7    "), whole(b"     ")), (Some(7), None, None));
}

/// The same deck read by lines and by slices of text; what is refused, and why.
fn again(bytes: &[u8]) -> String {
    let mut lines: Vec<&[u8]> = bytes.split(|&byte| byte == b'\n').collect();
    // Behind the last line feed there is no line.
    lines.pop();
    let mut lines = lines.into_iter();
    let mut said = String::new();
    let mut kinds = 0;
    let mut left = 2;
    let mut own = 0;
    while left > 0 {
        let Some(line) = lines.next().filter(|line| line.len() == COLUMNS) else {
            return "refused 19\n".to_string();
        };
        left -= 1;
        let at = |from: usize, to: usize| &line[from - 1..to];
        let in_range =
            |value: Option<u64>, least: u64, most: u64| value.filter(|&value| value >= least && value <= most);
        if kinds > 0 {
            own += 1;
            let feet = decimal_again(at(9, 16)).filter(|feet| feet % 100 == 0).map(|feet| feet / 100);
            let fields = [
                in_range(decimal_again(at(1, 8)), 1, 9_999),
                in_range(feet, 1, 200),
                in_range(whole_again(at(17, 20)), 1, kinds),
                in_range(decimal_again(at(21, 28)), 100, 1_000),
                in_range(decimal_again(at(29, 36)), 100, 1_000),
            ];
            if fields.contains(&None) {
                return "refused 18\n".to_string();
            }
            let fields: Vec<String> = fields.iter().flatten().map(u64::to_string).collect();
            said.push_str(&format!("{own} {}\n", fields.join(" ")));
        } else if left == 0 {
            let most = [(1, 5, 0, 64), (6, 10, 1, 11), (16, 20, 1, 10), (21, 25, 1, 9), (26, 30, 1, 4)];
            let fields = most.map(|(from, to, least, most)| in_range(whole_again(at(from, to)), least, most));
            if fields.contains(&None) {
                return "refused 18\n".to_string();
            }
            let fields: Vec<u64> = fields.into_iter().flatten().collect();
            (left, kinds) = (fields[0], fields[4]);
            let fields: Vec<String> = fields.iter().map(u64::to_string).collect();
            said.push_str(&format!("counts {}\n", fields.join(" ")));
        }
    }
    said
}

#[test]
fn decks_from_a_seed() {
    let mut seen = [0; 4];
    for case in 0..20_000 {
        let bytes = decks::any_deck(&mut Random::for_case(13, case));
        let printed = answer(&bytes);
        assert_eq!(printed, again(&bytes), "case {case}: {:?}", String::from_utf8_lossy(&bytes));
        match printed.as_str() {
            "refused 18\n" => seen[0] += 1,
            "refused 19\n" => seen[1] += 1,
            _ => seen[2] += 1,
        }
        seen[3] += u32::from(read(&bytes).is_ok_and(|deck| deck.segments.len() == MOST_SEGMENTS));
    }
    assert!(seen[..3].iter().all(|&count| count > 3_000) && seen[3] > 50, "{seen:?}");
}

#[test]
fn stored_cases_are_read() {
    let read = cases("# a remark\n\nT|=2=\\0aX => refused 19\n=3-a|b => counts 0|1 2\n").unwrap();
    assert_eq!(read[0], (3, [&deck(&["T"])[..], b"\nX\n"].concat(), "refused 19\n".to_string()));
    assert_eq!(read[1], (4, [b"a  ", &deck(&["b"])[..]].concat(), "counts 0\n1 2\n".to_string()));
    for line in ["T", "=79T => x", "=1=TT => x", "\\0 => x", "\\0g => x"] {
        assert!(cases(line).is_err(), "{line}");
    }
    let stored = cases(include_str!("../decks.txt")).unwrap();
    for number in [18, 19] {
        assert!(stored.iter().filter(|case| case.2 == format!("refused {number}\n")).count() > 30);
    }
    for (line, bytes, wanted) in stored {
        assert_eq!(answer(&bytes), wanted, "line {line}");
        assert_eq!(again(&bytes), wanted, "line {line}");
    }
}
