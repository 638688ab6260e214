//! The nine reasons, worked out by hand on three small districts and the card.
//!
//! In all of them a point of gain counts in the effect with the percents of a
//! year's start and end, halved, and a benefit is 100 times the effect.

mod common;

use common::card_bytes;
use reference::district::District;
use reference::random::Random;
use reference::refusal::Refusal;
use reference::unit::Unit;
use reference::why::Reason::{self, *};
use reference::{file, make, reasons};
use std::collections::BTreeSet;

fn holding(district: &District) -> Unit {
    let mut unit = Unit::fresh();
    unit.load(&file::encode(district)).unwrap();
    unit
}

fn minimum(distress: usize, year: usize) -> Reason {
    MinimumMissed { distress, year }
}

/// Asks for strategies 1, 2 and so on.
fn check(unit: &Unit, segment: u64, expected: &[Reason]) {
    for (j, &reason) in (1..).zip(expected) {
        assert_eq!(unit.why(segment, j), Ok(reason), "segment {segment}, strategy {j}");
    }
}

/// Segment 1 has ratings 10 and 10; its type wants 12 and 14 of distress 1, 12
/// and 11 of distress 2, and 28 in all.
#[test]
fn demands_that_are_missed() {
    let unit = holding(&reasons::demands());
    assert_eq!(unit.show().strategies[..2], [2, 1]);
    check(
        &unit,
        1,
        &[
            // 18 and 16.4, 18 and 14.8; effect 8 x 190 + 8 x 180, less than the one held.
            NoGreater,
            // 20 all along: effect 4,000, the greatest.
            InTheProgramme,
            // 18 and 13.2, 11 and 10.5: distress 2 misses sooner, but distress 1 comes first.
            minimum(1, 2),
            // 11 and 11, 16 and 16: both years of distress 1, and 27 in all.
            minimum(1, 1),
            // 18 and 16.4, 11 and 10.5: both years of distress 2.
            minimum(2, 1),
            // 18 and 16.4, 12 and 10.
            minimum(2, 2),
            // 14 and 14, 12 and 12: just enough, but 26 in all.
            OverallMissed,
            // Ratings stay 10 and 10, which misses everything.
            Barred,
            // 12.5 and 10, 10 and 5.
            minimum(1, 2),
            // 13 and 10, 10 and 4.
            minimum(1, 2),
            // 16 and 10, 10 and 4.
            minimum(1, 2),
        ],
    );
}

/// Segment 2 has ratings 15 and 10, so distress 1 gains at most 5; its type
/// wants 9 and 4 of distress 2, and 26 in all.
#[test]
fn benefits_that_are_not_above_0() {
    let unit = holding(&reasons::demands());
    check(
        &unit,
        2,
        &[
            // Effect 5 x 190 + 8 x 180 = 2,390.
            InTheProgramme,
            // Effect 5 x 200 + 10 x 200 = 3,000 would be more.
            Barred,
            // Effects 5 x 170 + 175, 200 + 1,200, 5 x 190 + 175, 5 x 190 + 4 x 100, 800 + 400.
            NoGreater,
            NoGreater,
            NoGreater,
            NoGreater,
            NoGreater,
            // 25 in all; the benefit is 0 too.
            OverallMissed,
            // 17.5 and 15, 10 and 5: 27.5 in all; effect 500 - 500. In year 0 distress 2 has 5, which no minimum looks at.
            BenefitNotAbove0,
            // 17.5 and 15, 10 and 4: effect 500 - 600. Its 11 units of resource 2 are over the limit too.
            BenefitNotAbove0,
            // 20 and 15, 10 and 4: effect 750 - 600. By the ends of the years alone it would be 500 - 600.
            NoGreater,
        ],
    );
}

/// Three limits of 10. No two strategies that fit together gain more than 40,
/// what strategy 1 gains twice: it takes 5, 4 and 3 units, so 5, 6 and 7 are left.
#[test]
fn limits_that_are_exceeded() {
    let unit = holding(&reasons::limits());
    let plan = unit.show();
    assert_eq!((&plan.strategies[..2], plan.total), (&[1, 1][..], 400_000));
    for segment in [1, 2] {
        check(
            &unit,
            segment,
            &[
                InTheProgramme,
                // 6, 6 and 6 units.
                OverBeside { resource: 1 },
                // 11, 0 and 0.
                OverAlone { resource: 1 },
                // 0, 11 and 12.
                OverAlone { resource: 2 },
                // The same as strategy 1: it would fill limit 1 as well.
                NoGreater,
                // 10, 0 and 0: alone it just fits. It gains less than strategy 1 too.
                OverBeside { resource: 1 },
                // 1, 7 and 8.
                OverBeside { resource: 2 },
                // 4, 4 and 3 would not fit beside both, but its own segment's use is given up.
                NoGreater,
                // 0, 0 and 8.
                OverBeside { resource: 3 },
                // 0, 6.001 and 0. It gains less than strategy 1 too.
                OverBeside { resource: 2 },
            ],
        );
    }
}

/// Segments 1, 2, 3 and 6 have nothing: 1 is barred from everything, 2 and 3
/// follow it, and 6 follows 3. What is demanded of 2 and 3, 12 and 15, and a
/// benefit come first, limits behind.
#[test]
fn leaders_that_have_nothing() {
    let mut unit = holding(&reasons::led());
    let plan = unit.show();
    assert_eq!((&plan.strategies[..6], plan.total), (&[0, 0, 0, 1, 1, 0][..], 400_000));
    check(&unit, 1, &[Barred; 8]);
    check(
        &unit,
        2,
        &[
            // 30: it would fit.
            LeaderHasNothing,
            Barred,
            // 11, then 14.
            minimum(1, 1),
            OverallMissed,
            // 10 and 5.
            minimum(1, 1),
            minimum(1, 1),
            // 11 units of 10, and 8 beside 6.
            LeaderHasNothing,
            LeaderHasNothing,
        ],
    );
    // From a rating of 20 all that is demanded is there; strategies 5 and 6 gain nothing.
    let led = LeaderHasNothing;
    check(&unit, 3, &[led, Barred, led, led, BenefitNotAbove0, BenefitNotAbove0, led, led]);
    // The leader of 6 has nothing since its own leader has nothing.
    check(&unit, 6, &[led, led, led, led, BenefitNotAbove0, BenefitNotAbove0, led, led]);
    // 4 has no leader, and 5 one that has a strategy.
    let limits = [OverAlone { resource: 1 }, OverBeside { resource: 1 }];
    let no = BenefitNotAbove0;
    check(&unit, 4, &[InTheProgramme, NoGreater, NoGreater, NoGreater, no, no, limits[0], limits[1]]);
    check(&unit, 5, &[InTheProgramme, Barred, NoGreater, NoGreater, no, no, limits[0], limits[1]]);
    // Behind nobody it gets its three units.
    unit.set_leader(2, 0).unwrap();
    assert_eq!(unit.why(2, 1), Ok(InTheProgramme));
    assert_eq!(unit.why(2, 7), Ok(OverAlone { resource: 1 }));
    assert_eq!(unit.why(6, 1), Ok(LeaderHasNothing));
    unit.set_leader(6, 4).unwrap();
    // Of four segments alike the lowest goes without.
    assert_eq!(unit.why(6, 1), Ok(InTheProgramme));
    assert_eq!(unit.why(2, 1), Ok(OverBeside { resource: 1 }));
}

/// A reason is that of the district and the programme held now.
#[test]
fn reasons_follow_the_calls() {
    let mut unit = holding(&reasons::limits());
    unit.bar(1, 5).unwrap();
    assert_eq!(unit.why(1, 5), Ok(Barred));
    assert_eq!(unit.why(2, 5), Ok(NoGreater));
    // With plenty both have the strategy of the greatest gain, which the first of two is.
    for r in 1..=3 {
        unit.set_limit(r, 100).unwrap();
    }
    assert_eq!(unit.why(1, 3), Ok(InTheProgramme));
    assert_eq!(unit.why(1, 4), Ok(NoGreater));
    // From the greatest rating on nothing is gained.
    unit.set_rating(1, 1, 50).unwrap();
    assert_eq!(unit.why(1, 3), Ok(BenefitNotAbove0));
    assert_eq!(unit.why(2, 3), Ok(InTheProgramme));
    // A limit of 0 is exceeded by any use, and by none that is 0.
    unit.set_limit(1, 0).unwrap();
    assert_eq!(unit.why(2, 3), Ok(OverAlone { resource: 1 }));
    assert_eq!(unit.why(2, 4), Ok(InTheProgramme));
}

/// The card: segment 1 has strategy 2, which uses 60 of 130, segment 2 has
/// strategy 1, which uses 40.
#[test]
fn the_card() {
    let mut unit = Unit::fresh();
    unit.load(&card_bytes()).unwrap();
    check(&unit, 1, &[NoGreater, InTheProgramme]);
    // 120 beside 60.
    check(&unit, 2, &[InTheProgramme, OverBeside { resource: 1 }]);
    // A segment that has nothing: 20 and 60 alone are over 19, and 40 are.
    unit.set_limit(1, 19).unwrap();
    check(&unit, 1, &[OverAlone { resource: 1 }, OverAlone { resource: 1 }]);
    // 40 leave 19, which is less than 20, for a segment that has nothing.
    unit.set_limit(1, 59).unwrap();
    assert_eq!(unit.show().strategies[..2], [0, 1]);
    check(&unit, 1, &[OverBeside { resource: 1 }, OverAlone { resource: 1 }]);
}

#[test]
fn numbers_that_there_are_not() {
    let unit = holding(&reasons::limits());
    for segment in [0, 3, 257, 1 << 32, u64::MAX] {
        // The segment is looked at first.
        for strategy in [0, 1, 11, u64::MAX] {
            assert_eq!(unit.why(segment, strategy), Err(Refusal::Segment));
        }
    }
    for strategy in [0, 11, 257, 1 << 32 | 1, u64::MAX] {
        assert_eq!(unit.why(1, strategy), Err(Refusal::Number));
    }
    assert_eq!(Unit::fresh().why(1, 1), Err(Refusal::Segment));
}

/// Made districts show every reason, with the first and with later numbers.
#[test]
fn made_districts_have_every_reason() {
    let mut random = Random::new(31);
    let mut seen = BTreeSet::new();
    for case in 0..300 {
        let mut district = make::telling_district(&mut random);
        if case % 2 == 1 {
            make::set_leaders(&mut random, &mut district);
        }
        let unit = holding(&district);
        let (n, s) = (unit.district().segments.len() as u64, unit.district().strategies.len() as u64);
        for (i, j) in (1..=n).flat_map(|i| (1..=s).map(move |j| (i, j))) {
            let reason = unit.why(i, j).unwrap();
            let later = match reason {
                MinimumMissed { distress, year } => (distress > 1, year > 1),
                OverAlone { resource } | OverBeside { resource } => (resource > 1, false),
                _ => (false, false),
            };
            seen.insert((reason.number(), later));
        }
    }
    // Six reasons without a number, one with two numbers, two with one.
    assert_eq!(seen.len(), 6 + 4 + 2 * 2, "{seen:?}");
}

#[test]
fn nothing_is_altered() {
    for district in [reasons::demands(), reasons::limits(), reasons::led()] {
        let unit = holding(&district);
        let before = unit.clone();
        for (i, j) in (0..4).flat_map(|i| (0..12).map(move |j| (i, j))) {
            let _ = unit.why(i, j);
        }
        assert_eq!(unit, before);
    }
}
