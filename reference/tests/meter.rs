//! The roughness meter: readings, windows and points worked out by hand, and
//! runs of records against the rule over all that came before.

mod common;

use common::card_bytes;
use reference::calls::Call;
use reference::lists;
use reference::meter::{self, Meter, Roughness};
use reference::random::Random;
use reference::refusal::Refusal;
use reference::unit::Unit;
use std::collections::BTreeSet;

/// Some readings by their bits.
const ZERO: u32 = 0x0000_0000;
const ONE: u32 = 0x3f80_0000;
const GREATEST: u32 = 0x40ff_f800;

/// Between 4 and 8 a 1024th is 2 to the power 11 in the last places, between 2 and 4 it is 2 to the power 12.
fn bits(parts: u32) -> u32 {
    match parts {
        2_048..=4_095 => 0x4000_0000 + (parts - 2_048) * 4_096,
        4_096..=8_191 => 0x4080_0000 + (parts - 4_096) * 2_048,
        _ => panic!("not in the table"),
    }
}

fn taken(all: &[u32]) -> Meter {
    let mut meter = Meter::fresh();
    for &bits in all {
        assert_eq!(meter.index(bits), Ok(()), "{bits:#010x}");
    }
    meter
}

fn points(meter: &Meter) -> u8 {
    meter.roughness().unwrap().points
}

#[test]
fn readings_by_hand() {
    for (bits, parts) in [
        (ZERO, 0),
        // Minus zero.
        (0x8000_0000, 0),
        (0x3a80_0000, 1),
        (0x3b00_0000, 2),
        (0x3b40_0000, 3),
        (0x3f00_0000, 512),
        (ONE, 1_024),
        (0x3f80_2000, 1_025),
        // 3.5, 4 and 7.
        (0x4060_0000, 3_584),
        (0x4080_0000, 4_096),
        (0x40e0_0000, 7_168),
        (0x40ff_f000, 8_190),
        (GREATEST, 8_191),
    ] {
        assert_eq!(meter::reading(bits), Some(parts), "{bits:#010x}");
    }
    for bits in [
        // 8, the float before it, halves of a 1024th, the float behind 1.
        0x4100_0000,
        0x40ff_ffff,
        0x40ff_fc00,
        0x3a00_0000,
        0x3ac0_0000,
        0x3f80_1000,
        0x3f80_0001,
        // Beyond 8, up to the greatest float.
        0x4100_0001,
        0x4120_0000,
        0x7f7f_ffff,
        // Below 0.
        0xba80_0000,
        0xbf80_0000,
        0xc0ff_f800,
        0xff7f_ffff,
        // Subnormal of both signs, and the least normal one.
        0x0000_0001,
        0x0040_0000,
        0x007f_ffff,
        0x8000_0001,
        0x0080_0000,
        // Infinite of both signs.
        0x7f80_0000,
        0xff80_0000,
        // No numbers: quiet, with a payload, signalling, of both signs.
        0x7fc0_0000,
        0x7fc0_1234,
        0x7f80_0001,
        0xffc0_0000,
        0xffff_ffff,
    ] {
        assert_eq!(meter::reading(bits), None, "{bits:#010x}");
    }
}

/// What a wider float says of them, for every sign and exponent and for every reading with its neighbours.
#[test]
fn readings_by_a_wider_float() {
    let wider = |bits: u32| {
        let parts = f64::from(f32::from_bits(bits)) * 1_024.0;
        (parts.trunc() == parts && (0.0..8_192.0).contains(&parts)).then_some(parts as u32)
    };
    let mut random = Random::new(41);
    for head in 0..512 {
        let fractions = [0, 1, 0x7f_ffff, 0x40_0000, 0x20_0000, 0x00_1000, 0x00_0800, 0x00_0400];
        let any: Vec<u32> = (0..200).map(|at| random.draw() as u32 >> 9 >> (at % 13) << (at % 13)).collect();
        for bits in fractions.iter().chain(&any).map(|fraction| head << 23 | fraction) {
            assert_eq!(meter::reading(bits), wider(bits), "{bits:#010x}");
        }
    }
    for parts in 0..8_192 {
        let bits = lists::reading(parts);
        assert_eq!(meter::reading(bits), Some(parts));
        assert_eq!(meter::reading(bits + 1), None);
        assert!(parts == 0 || meter::reading(bits - 1).is_none());
        assert!(parts == 0 || meter::reading(bits | 1 << 31).is_none());
    }
}

/// The begin of each row, the points there, and those below.
const ROWS: [(u32, u8, u8); 6] = [(47, 0, 5), (35, 5, 10), (33, 10, 20), (31, 20, 30), (29, 30, 40), (27, 40, 50)];

/// One reading: 4.7 is 4,812.8 1024ths, 3.5 is 3,584, and 3.3, 3.1, 2.9 and 2.7
/// are 3,379.2, 3,174.4, 2,969.6 and 2,764.8.
#[test]
fn rows_of_one_reading() {
    for ((_, there, below), least) in ROWS.into_iter().zip([4_813, 3_584, 3_380, 3_175, 2_970, 2_765]) {
        assert_eq!(points(&taken(&[bits(least)])), there);
        assert_eq!(points(&taken(&[bits(least - 1)])), below);
    }
    assert_eq!(points(&taken(&[GREATEST])), 0);
    assert_eq!(points(&taken(&[ONE])), 50);
    assert_eq!(points(&taken(&[ZERO])), 50);
    assert_eq!(points(&taken(&[0x8000_0000])), 50);
}

/// Five readings whose mean is exactly the begin of a row, and with a 1024th
/// less. Five times 4.7 are 24,064 1024ths, four of 4,813 and one of 4,812.
#[test]
fn rows_of_five_readings() {
    for ((_, there, below), fives) in ROWS.into_iter().zip([
        [4_813, 4_813, 4_813, 4_813, 4_812],
        [3_584, 3_584, 3_584, 3_584, 3_584],
        [3_379, 3_379, 3_379, 3_379, 3_380],
        [3_174, 3_174, 3_174, 3_175, 3_175],
        [2_970, 2_970, 2_970, 2_969, 2_969],
        [2_765, 2_765, 2_765, 2_765, 2_764],
    ]) {
        assert_eq!(points(&taken(&fives.map(bits))), there);
        let mut less = fives;
        less[2] -= 1;
        assert_eq!(points(&taken(&less.map(bits))), below);
        // The same sum by readings that differ more.
        let [first, .., last] = &mut less;
        (*first, *last) = (*first - 500, *last + 501);
        assert_eq!(points(&taken(&less.map(bits))), there);
    }
}

/// 64 times 4.7 are 308,019.2 1024ths. 52 readings of 4,813 and 12 of 4,812 are
/// 308,020; a 1024th less is a mean of 4.699997.
#[test]
fn rows_of_sixty_four_readings() {
    let mut all = [bits(4_813); 64];
    for one in &mut all[..12] {
        *one = bits(4_812);
    }
    assert_eq!(points(&taken(&all)), 0);
    all[63] = bits(4_812);
    assert_eq!(points(&taken(&all)), 5);
}

/// For every count the least sum that reaches a row, and a 1024th less. Means
/// as floats of 32 bits, against the floats closest to the rows, say the same.
#[test]
fn points_of_every_sum_near_a_row() {
    for count in 1..=64u32 {
        for (tenths, there, below) in ROWS {
            // The least sum that reaches the row, rounded up.
            let least = (u128::from(tenths) * 1_024 * u128::from(count)).div_ceil(10) as u32;
            assert_eq!(meter::points(least, count), there);
            assert_eq!(meter::points(least - 1, count), below);
            let reaches = |sum: u32| sum as f32 / 1_024.0 / count as f32 >= tenths as f32 / 10.0;
            assert!(reaches(least) && !reaches(least - 1));
        }
        assert_eq!(meter::points(0, count), 50);
        assert_eq!(meter::points(8_191 * count, count), 0);
    }
}

/// The first reading is the greatest and the others are a 1024th below 3.5:
/// with the first their mean reaches 3.5, without it it does not.
#[test]
fn the_oldest_leaves() {
    let mut meter = taken(&[GREATEST]);
    for _ in 1..64 {
        meter.index(bits(3_583)).unwrap();
        assert!(points(&meter) <= 5);
    }
    // 64 readings: 8,191 and 63 times 3,583.
    assert_eq!(points(&meter), 5);
    // The 65th takes the place of the first: all are 3,583.
    meter.index(bits(3_583)).unwrap();
    assert_eq!(points(&meter), 10);
    // One by one 64 others come in that just reach 4.7. As long as one reading of 3,583 is left, the mean does not.
    for at in 1..=64 {
        meter.index(bits(4_813)).unwrap();
        assert_eq!(points(&meter) == 0, at == 64, "{at}");
    }
    assert_eq!(meter, taken(&[bits(4_813); 64]));
    assert_eq!(meter, taken(&[&[GREATEST; 200][..], &[bits(4_813); 64]].concat()));
    assert_ne!(meter, taken(&[bits(4_813); 63]));
}

#[test]
fn a_refused_reading_leaves_the_window() {
    for before in [0, 1, 63, 64, 65] {
        let mut meter = taken(&vec![ONE; before]);
        meter.mark(7);
        let empty = meter.clone();
        for fresh in [empty.clone(), {
            let mut meter = empty;
            (0..before).for_each(|_| meter.index(ONE).unwrap());
            meter
        }] {
            let mut meter = fresh.clone();
            for bits in [0x7fc0_0000, 0x7f80_0000, 0xff80_0000, 0x4100_0000, 0xbf80_0000, 1, 0x3f80_0001] {
                assert_eq!(meter.index(bits), Err(Refusal::Reading));
                assert_eq!(meter, fresh);
            }
            meter.lose();
            assert_eq!(meter, fresh);
        }
    }
    assert_eq!([Refusal::Reading, Refusal::NoReading].map(Refusal::number), [12, 13]);
}

/// The marker's bits come back as they were, whatever float they are.
#[test]
fn markers() {
    let mut meter = Meter::fresh();
    assert_eq!(meter.roughness(), Err(Refusal::NoReading));
    meter.index(ONE).unwrap();
    assert_eq!(meter.roughness(), Ok(Roughness { points: 50, marker: 0 }));
    for marker in lists::SPECIAL.into_iter().chain([0x7fc0_1234, 0x7f80_0001, 0xff80_0001, 0x7fff_ffff, 12_345]) {
        meter.index(GREATEST).unwrap();
        meter.mark(marker);
        assert_eq!(meter.roughness(), Err(Refusal::NoReading));
        meter.lose();
        assert_eq!(meter.roughness(), Err(Refusal::NoReading));
        assert!(meter.index(0x7f80_0000).is_err());
        assert_eq!(meter.roughness(), Err(Refusal::NoReading));
        meter.index(ONE).unwrap();
        assert_eq!(meter.roughness(), Ok(Roughness { points: 50, marker }));
        // Asked once more it is the same.
        assert_eq!(meter.roughness(), Ok(Roughness { points: 50, marker }));
    }
    // A marker alone puts no reading in, and readings keep it.
    meter.mark(9);
    for _ in 0..100 {
        meter.index(bits(4_813)).unwrap();
        assert_eq!(meter.roughness(), Ok(Roughness { points: 0, marker: 9 }));
    }
}

/// Loads and edits, refused ones too, leave the window; records leave district and plan.
#[test]
fn the_window_stands_beside_the_district() {
    let mut unit = Unit::fresh();
    unit.marker(0x7fc0_1234).unwrap();
    unit.index(bits(3_584)).unwrap();
    let held = Ok(Roughness { points: 5, marker: 0x7fc0_1234 });
    let check = |unit: &Unit| assert_eq!(unit.roughness(), held);
    check(&unit);
    assert!(unit.load(&[]).is_err());
    check(&unit);
    unit.load(&card_bytes()).unwrap();
    check(&unit);
    unit.bar(2, 2).unwrap();
    check(&unit);
    unit.unbar(2, 2).unwrap();
    unit.set_limit(1, 180).unwrap();
    unit.set_rating(1, 1, 6).unwrap();
    check(&unit);
    assert!(unit.bar(3, 1).is_err());
    unit.export(&mut [0; 100]).unwrap();
    unit.page(&mut [0; 500]).unwrap();
    assert!(unit.export(&mut []).is_err() && unit.page(&mut []).is_err());
    unit.why(1, 1).unwrap();
    check(&unit);
    let (district, plan) = (unit.district().clone(), unit.show().clone());
    unit.index(ZERO).unwrap();
    assert!(unit.index(u32::MAX).is_err());
    unit.lost().unwrap();
    unit.marker(1).unwrap();
    assert_eq!((unit.district(), unit.show()), (&district, &plan));
    assert_eq!(unit.roughness(), Err(Refusal::NoReading));
}

/// Runs of records against what the rule says of all that came before, and the
/// running sum as a float of 32 bits, which is exact all along.
#[test]
fn runs_of_records() {
    let mut random = Random::new(42);
    let mut seen = BTreeSet::new();
    for _ in 0..400 {
        let (mut meter, mut readings, mut marker) = (Meter::fresh(), Vec::new(), 0);
        let mut running = 0.0f32;
        let count = random.size(1, 300);
        for record in lists::records(&mut random, count) {
            match record {
                Call::Index(bits) => {
                    let value = f32::from_bits(bits);
                    let accepted = (0.0..8.0).contains(&value) && (f64::from(value) * 1_024.0).fract() == 0.0;
                    assert_eq!(meter.index(bits).is_ok(), accepted);
                    if accepted {
                        readings.push(value);
                        running += value;
                        if readings.len() > 64 {
                            running -= readings[readings.len() - 65];
                        }
                    } else {
                        seen.insert("refused reading".to_string());
                    }
                }
                Call::Marker(bits) => {
                    meter.mark(bits);
                    (readings, marker, running) = (Vec::new(), bits, 0.0);
                }
                Call::Lost => meter.lose(),
                _ => {
                    let last = &readings[readings.len().saturating_sub(64)..];
                    let sum: f64 = last.iter().map(|&value| f64::from(value)).sum();
                    assert_eq!(f64::from(running), sum);
                    let Some(roughness) = expected(last, marker) else {
                        seen.insert("nothing to tell".to_string());
                        assert_eq!(meter.roughness(), Err(Refusal::NoReading));
                        continue;
                    };
                    assert_eq!(meter.roughness(), Ok(roughness));
                    seen.insert(format!("points {}", roughness.points));
                    if readings.len() > 64 {
                        seen.insert(format!("points {} of a full window", roughness.points));
                    }
                    let (ten, count) = (10 * (1_024.0 * sum) as i64, last.len() as i64);
                    for (tenths, _, _) in ROWS {
                        let row = i64::from(tenths) * 1_024 * count;
                        match ten - row {
                            0 => seen.insert(format!("at {tenths}")),
                            -10..=-1 => seen.insert(format!("just below {tenths}")),
                            _ => false,
                        };
                    }
                    if marker & 0x7fff_ffff > 0x7f80_0000 {
                        seen.insert("marker that is no number".to_string());
                    }
                }
            }
        }
    }
    // Seven points, and again of full windows; six rows, at and below; three more.
    assert_eq!(seen.len(), 2 * 7 + 2 * 6 + 3, "{seen:?}");
}

/// The rows one after the other, in thousandths of a 1024th.
fn expected(last: &[f32], marker: u32) -> Option<Roughness> {
    let parts: i128 = last.iter().map(|&value| (f64::from(value) * 1_024.0) as i128).sum();
    let count = last.len() as i128;
    if count == 0 {
        return None;
    }
    let mean_reaches = |tenths: i128| parts * 1_000 >= tenths * 100 * 1_024 * count;
    let points = if mean_reaches(47) {
        0
    } else if mean_reaches(35) {
        5
    } else if mean_reaches(33) {
        10
    } else if mean_reaches(31) {
        20
    } else if mean_reaches(29) {
        30
    } else if mean_reaches(27) {
        40
    } else {
        50
    };
    Some(Roughness { points, marker })
}
