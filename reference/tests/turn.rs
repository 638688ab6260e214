//! Files turned up and down, worked out by hand, and once more by splicing.

mod common;

use common::{card, card_bytes};
use reference::district::District;
use reference::file::{decode, encode, encode_led, LONGEST, LONGEST_PLAIN};
use reference::leaders::named;
use reference::make::{self, WIDEST};
use reference::random::Random;
use reference::refusal::Refusal;
use reference::turn::{answer, cases, down, up, Way};
use reference::unit::Unit;
use reference::vectors::led;

/// The card with kind 8, segments of 12 bytes, and a leader of 0 behind each rating.
const CARD_UP: &str = "06 00 08 00 02 02 02 01 01 01
    04 00 02 00 82 00 00 00
    01 00 03 00 14
    07 00 04 00 E8 03 00 00 05 50 28
    07 00 04 00 B8 0B 00 00 0F 5A 46
    04 00 05 00 00 00 00 00
    0C 00 06 00 01 64 00 64 00 64 00 14 00 00 05 00
    0C 00 06 00 01 64 00 64 00 C8 00 14 00 00 0F 00
    00 00 07 00";

fn card_up() -> Vec<u8> {
    CARD_UP.split_whitespace().map(|byte| u8::from_str_radix(byte, 16).unwrap()).collect()
}

/// These bytes with one of them replaced.
fn with(bytes: &[u8], at: usize, byte: u8) -> Vec<u8> {
    let mut bytes = bytes.to_vec();
    bytes[at] = byte;
    bytes
}

fn numbers(bytes: &[u8]) -> [u8; 2] {
    [up(bytes), down(bytes)].map(|turned| turned.map_or_else(Refusal::number, |_| 0))
}

#[test]
fn the_card() {
    assert_eq!(up(&card_bytes()), Ok(card_up()));
    assert_eq!(down(&card_up()), Ok(card_bytes()));
    assert_eq!((card_bytes().len(), card_up().len()), (87, 89));
    assert_eq!(answer(Way::Up, &card_bytes()), card_up());
    assert_eq!(answer(Way::Down, &card_up()), card_bytes());
    // No segment: only the first kind is another.
    let none = encode(&District::fresh());
    assert_eq!(up(&none), Ok(with(&none, 2, 8)));
    assert_eq!(down(&with(&none, 2, 8)), Ok(none));
}

/// A file of the wanted form gives 2 when its first head is whole, whatever else is wrong with it.
#[test]
fn the_wanted_form() {
    for (way, wanted) in [(0, card_up()), (1, card_bytes())] {
        for cut in 0..=wanted.len() {
            assert_eq!(numbers(&wanted[..cut])[way], if cut < 4 { 1 } else { 2 });
        }
        for at in (0..wanted.len()).filter(|at| ![2, 3].contains(at)) {
            for byte in [0, 1, 2, 8, 255] {
                assert_eq!(numbers(&with(&wanted, at, byte))[way], 2);
            }
        }
        assert_eq!(numbers(&[&wanted[..], &[0]].concat())[way], 2);
    }
    assert_eq!(numbers(&encode(&led(card(), &[0, 1]))), [2, 15]);
    assert_eq!(answer(Way::Up, &card_up()), b"refused 2\n");
    assert_eq!(answer(Way::Down, &card_bytes()), b"refused 2\n");
    // Neither of the two forms.
    for kind in (0..=u16::MAX).filter(|kind| ![1, 8].contains(kind)) {
        let mut bytes = card_up();
        bytes[2..4].copy_from_slice(&kind.to_le_bytes());
        assert_eq!(numbers(&bytes), [2, 2]);
    }
}

/// 1 to 5 in their order, in both forms. Segments begin at 53 and 68, or 53 and 69.
#[test]
fn the_file_checks() {
    for (way, bytes, second, last) in [(0, card_bytes(), 68, 83), (1, card_up(), 69, 85)] {
        let number = |bytes: &[u8]| numbers(bytes)[way];
        assert_eq!(number(&bytes), 0);
        for cut in 0..bytes.len() {
            assert_eq!(number(&bytes[..cut]), 1);
        }
        assert_eq!(number(&with(&bytes, 3, 1)), 2);
        assert_eq!(number(&with(&bytes, second + 2, 7)), 2);
        assert_eq!(number(&with(&bytes, last + 2, 8)), 2);
        assert_eq!(number(&with(&bytes, 0, 7)), 3);
        assert_eq!(number(&with(&bytes, second, bytes[second] ^ 7)), 3);
        assert_eq!(number(&with(&bytes, last, 1)), 3);
        assert_eq!(number(&with(&bytes, 4, 65)), 4);
        assert_eq!(number(&with(&bytes, second + 14, 21)), 4);
        assert_eq!(number(&[&bytes[..], &[0]].concat()), 5);
        assert_eq!(number(&[&bytes[..], &bytes].concat()), 5);
        // Two at a time: the first from the front, and of one record kind, length, end and value.
        assert_eq!(number(&[&with(&bytes, second + 14, 21)[..], &[0]].concat()), 4);
        assert_eq!(number(&with(&with(&bytes, second, 40), second + 2, 7)), 2);
        assert_eq!(number(&with(&bytes, second + 14, 21)[..second + 14]), 1);
    }
    // The first record of one form before segments of the other.
    assert_eq!(numbers(&with(&card_up(), 2, 1)), [3, 2]);
    assert_eq!(numbers(&with(&card_bytes(), 2, 8)), [2, 3]);
}

/// 15 comes after all of them, for any leader.
#[test]
fn leaders_that_are_set() {
    let set = with(&card_up(), 84, 1);
    assert_eq!(down(&set), Err(Refusal::LeaderSet));
    assert_eq!(Refusal::LeaderSet.number(), 15);
    assert_eq!(answer(Way::Down, &set), b"refused 15\n");
    let step = |leaders: [u8; 4]| numbers(&encode_led(&led(named("step"), &leaders)))[1];
    assert_eq!(step([0; 4]), 0);
    for leaders in [[0, 1, 0, 0], [0, 0, 1, 0], [0, 0, 2, 0], [0, 0, 0, 1], [0, 0, 0, 3], [0, 1, 2, 3]] {
        assert_eq!(step(leaders), 15);
    }
    for leaders in [[1, 0, 0, 0], [0, 2, 0, 0], [0, 1, 3, 0], [0, 1, 2, 4], [0, 1, 0, 255], [0, 2, 1, 1]] {
        assert_eq!(step(leaders), 4);
    }
    // Segment 2 of four has a leader; segment 3 begins right behind it.
    let set = encode_led(&led(named("step"), &[0, 1, 0, 0]));
    let end = set.len();
    let [third, last] = [end - 36, end - 4];
    assert_eq!((set[third - 1], set[third + 2], set[last + 2]), (1, 6, 7));
    assert_eq!(numbers(&[&set[..], &[0]].concat())[1], 5);
    for cut in 0..end {
        assert_eq!(numbers(&set[..cut])[1], 1);
    }
    assert_eq!(numbers(&with(&set, third + 2, 7))[1], 2);
    assert_eq!(numbers(&with(&set, last + 2, 8))[1], 2);
    assert_eq!(numbers(&with(&set, third, 11))[1], 3);
    assert_eq!(numbers(&with(&set, last, 1))[1], 3);
    assert_eq!(numbers(&with(&set, third + 11, 0))[1], 4);
    assert_eq!(numbers(&with(&set, third - 2, 255))[1], 4);
}

/// A file turned up by putting bytes in: another kind, and in each segment's record
/// a length of one more and a byte at the end.
fn spliced_up(file: &[u8]) -> Vec<u8> {
    let mut turned = Vec::new();
    for start in make::record_starts(file) {
        let length = usize::from(file[start]) + 256 * usize::from(file[start + 1]);
        let mut record = file[start..start + 4 + length].to_vec();
        match record[2] {
            1 => record[2] = 8,
            6 => {
                record[0] += 1;
                record.push(0);
            }
            _ => {}
        }
        turned.extend(record);
    }
    turned
}

/// There and back, the same bytes; and both files load to one district and one
/// programme, in a unit that held another district before.
#[test]
fn there_and_back() {
    let mut longest = 0;
    for case in 0..300 {
        let mut random = Random::for_case(9, case);
        let shape = if case % 50 == 0 { WIDEST } else { make::shape(&mut random) };
        let made = make::district(&mut random, shape);
        let file = encode(&made);
        let turned = up(&file).unwrap();
        assert_eq!(turned, spliced_up(&file));
        assert_eq!(turned, encode_led(&made));
        assert_eq!(turned.len(), file.len() + made.segments.len());
        assert_eq!(down(&turned), Ok(file.clone()));
        assert_eq!(up(&down(&turned).unwrap()), Ok(turned.clone()));
        assert_eq!((decode(&file), decode(&turned)), (Ok(made.clone()), Ok(made.clone())));
        longest = longest.max(turned.len());
        assert!(file.len() <= LONGEST_PLAIN);
        if case % 3 == 0 && made.segments.len() < 30 {
            let mut units = [Unit::fresh(), Unit::fresh()];
            for (unit, bytes) in units.iter_mut().zip([&file, &turned]) {
                if case % 2 == 0 {
                    unit.load(&encode(&named("step"))).unwrap();
                    unit.index(0x3f80_0000).unwrap();
                }
                unit.load(bytes).unwrap();
            }
            assert_eq!(units[0].district(), units[1].district());
            assert_eq!(units[0].show(), units[1].show());
            assert_eq!(units[0], units[1]);
        }
    }
    assert_eq!(longest, LONGEST);
}

/// Any file at all: it is turned one way at most, and only if it loads; then it
/// comes back. Where it loads and is turned neither way, it has a leader set.
#[test]
fn any_file() {
    let mut seen = [0; 16];
    for case in 0..6_000 {
        let mut random = Random::for_case(10, case);
        let bytes = match case % 3 {
            0 => make::any_turned_file(&mut random, Way::Up),
            1 => make::any_turned_file(&mut random, Way::Down),
            _ => make::any_file(&mut random),
        };
        let loaded = decode(&bytes);
        match (up(&bytes), down(&bytes)) {
            (Ok(turned), Err(Refusal::Kind)) => {
                assert_eq!(bytes[2], 1);
                assert_eq!(down(&turned), Ok(bytes));
                assert_eq!(decode(&turned), loaded);
            }
            (Err(Refusal::Kind), Ok(turned)) => {
                assert_eq!(bytes[2], 8);
                assert_eq!(up(&turned), Ok(bytes));
                assert_eq!(decode(&turned), loaded);
            }
            (Err(Refusal::Kind), Err(Refusal::LeaderSet)) => assert!(loaded.unwrap().has_leaders()),
            // Refused: with what a load is refused with, or for being of the other form.
            (Err(one), Err(other)) => {
                let number = loaded.unwrap_err();
                assert!([(number, number), (number, Refusal::Kind), (Refusal::Kind, number)].contains(&(one, other)));
                seen[usize::from(number.number())] += 1;
            }
            both => panic!("{both:?}"),
        }
        seen[15] += u32::from(numbers(&make::any_turned_file(&mut random, Way::Down))[1] == 15);
    }
    assert!(seen[1..=5].iter().all(|&count| count > 50) && seen[15] > 50, "{seen:?}");
}

#[test]
fn stored_cases_are_read() {
    let read = cases("# a remark\n\nup 06 00: refused 1\ndown 0aFF: 00\n").unwrap();
    let refused = (3, Way::Up, vec![6, 0], b"refused 1\n".to_vec());
    assert_eq!(read, [refused, (4, Way::Down, vec![10, 255], vec![0])]);
    for line in ["left 00: 00", "up 0: 00", "up 00: 0g", "up 00 00", "up"] {
        assert!(cases(line).is_err(), "{line}");
    }
    // Those that are stored: both ways, accepted and with each refusal there is.
    let stored = cases(include_str!("../turned.txt")).unwrap();
    for way in [Way::Up, Way::Down] {
        let answers: Vec<&[u8]> = stored.iter().filter(|case| case.1 == way).map(|case| &case.3[..]).collect();
        let most = if way == Way::Up { 5 } else { 6 };
        for number in [1, 2, 3, 4, 5, 15].into_iter().take(most) {
            assert!(answers.contains(&format!("refused {number}\n").as_bytes()));
        }
        assert!(answers.iter().filter(|answer| !answer.starts_with(b"refused")).count() >= 4);
    }
    for (line, way, bytes, wanted) in stored {
        assert_eq!(answer(way, &bytes), wanted, "line {line}");
    }
}
