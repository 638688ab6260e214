//! Each refusal number, and that a refusal changes nothing.

mod common;

use common::{card, card_bytes};
use reference::district::*;
use reference::file::{decode, encode, encode_led, LONGEST, LONGEST_PLAIN};
use reference::make::{self, WIDEST};
use reference::random::Random;
use reference::refusal::Refusal;
use reference::survey;
use reference::unit::Unit;

fn number_of(bytes: &[u8]) -> u8 {
    decode(bytes).err().map_or(0, Refusal::number)
}

/// The card with byte `at` replaced.
fn card_with(at: usize, byte: u8) -> Vec<u8> {
    let mut bytes = card_bytes();
    bytes[at] = byte;
    bytes
}

#[test]
fn every_shortening_is_refused_with_1() {
    let bytes = card_bytes();
    for length in 0..bytes.len() {
        assert_eq!(number_of(&bytes[..length]), 1, "cut to {length} bytes");
    }
}

#[test]
fn kind_comes_before_length_and_length_before_the_payload() {
    assert_eq!(number_of(&card_with(2, 2)), 2);
    assert_eq!(number_of(&card_with(3, 1)), 2);
    assert_eq!(number_of(&card_with(0, 7)), 3);
    // Kind and length both wrong; then length wrong and the file at its end.
    assert_eq!(number_of(&[9, 9, 9, 9]), 2);
    assert_eq!(number_of(&[9, 9, 1, 0]), 3);
    assert_eq!(number_of(&[6, 0, 1, 0]), 1);
    // A value out of range in a payload that is cut short.
    assert_eq!(number_of(&[6, 0, 1, 0, 65, 1, 1, 1, 1]), 1);
    assert_eq!(number_of(&[6, 0, 1, 0, 65, 1, 1, 1, 1, 1]), 4);
    assert_eq!(number_of(&[]), 1);
}

#[test]
fn a_byte_behind_the_last_record_is_refused_with_5() {
    let mut bytes = card_bytes();
    bytes.push(0);
    assert_eq!(number_of(&bytes), 5);
}

#[test]
fn every_range_has_both_its_ends() {
    let accepts = |change: &dyn Fn(&mut District)| {
        let mut district = card();
        change(&mut district);
        let number = number_of(&encode(&district));
        assert!(number == 0 || number == 4);
        number == 0
    };
    for (value, fine) in [(0, true), (999_999_999, true), (1_000_000_000, false), (u32::MAX, false)] {
        assert_eq!(accepts(&|d| d.limits[0] = value), fine);
    }
    for (value, fine) in [(15, true), (50, true), (51, false), (14, false), (0, false)] {
        // Segment 2 has rating 15, so 14 is too small for it.
        assert_eq!(accepts(&|d| d.greatest[0] = value), fine);
    }
    for (value, fine) in [(0, true), (999_999, true), (1_000_000, false)] {
        assert_eq!(accepts(&|d| d.strategies[1].requirements[0] = value), fine);
    }
    for (value, fine) in [(-50, true), (50, true), (-51, false), (51, false), (-128, false), (127, false)] {
        assert_eq!(accepts(&|d| d.strategies[1].gains[0] = value), fine);
    }
    for (value, fine) in [(0, true), (100, true), (101, false), (255, false)] {
        assert_eq!(accepts(&|d| d.strategies[1].survival[1] = value), fine);
    }
    for (value, fine) in [(0, true), (450, true), (451, false), (65_535, false)] {
        assert_eq!(accepts(&|d| d.types[0].overall = value), fine);
    }
    for (value, fine) in [(0, true), (50, true), (51, false)] {
        assert_eq!(accepts(&|d| d.types[0].minimum[1] = value), fine);
    }
    for (value, fine) in [(0, false), (1, true), (2, false)] {
        assert_eq!(accepts(&|d| d.segments[1].pavement = value), fine);
    }
    for (value, fine) in [(99, false), (100, true), (1_000, true), (1_001, false)] {
        assert_eq!(accepts(&|d| d.segments[1].traffic = value), fine);
        assert_eq!(accepts(&|d| d.segments[1].environment = value), fine);
    }
    for (value, fine) in [(0, false), (1, true), (9_999, true), (10_000, false)] {
        assert_eq!(accepts(&|d| d.segments[1].length = value), fine);
    }
    for (value, fine) in [(0, false), (1, true), (200, true), (201, false)] {
        assert_eq!(accepts(&|d| d.segments[1].width = value), fine);
    }
    for (value, fine) in [(0, true), (3, true), (4, false), (0x8000, false)] {
        assert_eq!(accepts(&|d| d.segments[1].bars = value), fine);
    }
    for (value, fine) in [(0, true), (20, true), (21, false)] {
        assert_eq!(accepts(&|d| d.segments[1].ratings[0] = value), fine);
    }
}

#[test]
fn counts_out_of_range() {
    for (at, low, high) in [(4, 0, 64), (5, 1, 11), (6, 1, 10), (7, 1, 9), (8, 1, 4), (9, 1, 16)] {
        for count in [low, high] {
            assert_ne!(number_of(&card_with(at, count)), 4, "count {at} = {count}");
        }
        assert_eq!(number_of(&card_with(at, high + 1)), 4);
        if low > 0 {
            assert_eq!(number_of(&card_with(at, low - 1)), 4);
        }
    }
}

#[test]
fn calls_are_refused_with_6_to_10_and_change_nothing() {
    let mut unit = Unit::fresh();
    unit.load(&card_bytes()).unwrap();
    let before = unit.clone();
    for segment in [0, 3, 65, 257, u64::MAX] {
        assert_eq!(unit.bar(segment, 0), Err(Refusal::Segment));
        assert_eq!(unit.unbar(segment, 9), Err(Refusal::Segment));
        assert_eq!(unit.set_rating(segment, 9, 99), Err(Refusal::Segment));
    }
    for number in [0, 3, 17, 65_537, u64::MAX] {
        assert_eq!(unit.bar(1, number), Err(Refusal::Number));
        assert_eq!(unit.unbar(2, number), Err(Refusal::Number));
        assert_eq!(unit.set_limit(number, u64::MAX), Err(Refusal::Number));
        assert_eq!(unit.set_rating(1, number, 99), Err(Refusal::Number));
    }
    assert_eq!(unit.set_limit(1, 1_000_000_000), Err(Refusal::NewValue));
    assert_eq!(unit.set_limit(1, 1 << 32), Err(Refusal::NewValue));
    assert_eq!(unit.set_rating(1, 1, 21), Err(Refusal::NewValue));
    assert_eq!(unit.set_rating(1, 1, 256), Err(Refusal::NewValue));
    assert_eq!(unit.load(&[]), Err(Refusal::FileEnds));
    let mut buffer = [7; 86];
    assert_eq!(unit.export(&mut buffer), Err(Refusal::Buffer));
    assert_eq!(buffer, [7; 86]);
    assert_eq!(unit.export(&mut []), Err(Refusal::Buffer));
    assert_eq!(survey::points(0, 0, 1, 0), Err(Refusal::Survey));
    assert_eq!(unit, before);
    let numbers = [Refusal::Segment, Refusal::Number, Refusal::NewValue, Refusal::Buffer, Refusal::Survey];
    assert_eq!(numbers.map(Refusal::number), [6, 7, 8, 9, 10]);
}

#[test]
fn calls_alter_one_value() {
    let mut unit = Unit::fresh();
    unit.load(&card_bytes()).unwrap();
    let mut expected = card();
    unit.bar(1, 2).unwrap();
    unit.bar(1, 2).unwrap();
    expected.segments[0].bars = 2;
    assert_eq!(*unit.district(), expected);
    unit.unbar(1, 2).unwrap();
    unit.unbar(1, 1).unwrap();
    expected.segments[0].bars = 0;
    assert_eq!(*unit.district(), expected);
    unit.set_limit(1, 999_999_999).unwrap();
    expected.limits[0] = 999_999_999;
    unit.set_rating(2, 1, 20).unwrap();
    expected.segments[1].ratings[0] = 20;
    assert_eq!(*unit.district(), expected);
    assert_eq!(*unit.show(), reference::unit::plan(&expected));
}

#[test]
fn export_writes_its_length_and_no_more() {
    let mut unit = Unit::fresh();
    let mut buffer = [7; 100];
    let length = unit.export(&mut buffer).unwrap();
    assert_eq!(decode(&buffer[..length]), Ok(District::fresh()));
    unit.load(&card_bytes()).unwrap();
    let mut buffer = [7; 100];
    assert_eq!(unit.export(&mut buffer), Ok(87));
    assert_eq!(buffer[..87], card_bytes());
    assert_eq!(buffer[87..], [7; 13]);
    let mut exact = [7; 87];
    assert_eq!(unit.export(&mut exact), Ok(87));
}

#[test]
fn round_trip_of_made_districts() {
    let mut random = Random::new(11);
    for _ in 0..2_000 {
        let shape = make::shape(&mut random);
        let district = make::district(&mut random, shape);
        let bytes = encode(&district);
        assert!(bytes.len() <= LONGEST);
        assert_eq!(decode(&bytes).as_ref(), Ok(&district));
    }
    let mut widest = make::district(&mut random, WIDEST);
    assert_eq!(encode(&widest).len(), LONGEST_PLAIN);
    // One leader is enough for the other form, and a byte more in each of 64 segments.
    widest.segments[63].leader = 63;
    assert_eq!(encode(&widest).len(), LONGEST);
    assert_eq!(decode(&encode(&widest)).as_ref(), Ok(&widest));
}

#[test]
fn what_is_accepted_is_what_export_gives_back() {
    let mut random = Random::new(12);
    let (mut seen, mut emptied) = ([0; 6], 0);
    for _ in 0..5_000 {
        let bytes = make::any_file(&mut random);
        seen[usize::from(number_of(&bytes))] += 1;
        if let Ok(district) = decode(&bytes) {
            // A file with leaders that are all 0 comes back in the older form.
            if bytes[2] == 8 && !district.has_leaders() {
                emptied += 1;
                assert_eq!(encode_led(&district), bytes);
                assert_eq!(decode(&encode(&district)), Ok(district));
                continue;
            }
            assert_eq!(encode(&district), bytes);
        }
    }
    assert!(seen.iter().all(|&count| count > 100) && emptied > 10, "{seen:?}, {emptied}");
}
