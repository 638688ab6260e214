//! The marked cases M1 to M9, years that count with both their ends, and a loss
//! deeper than the rating.
//!
//! M1 by hand. Both indexes are 100, so a survival is 10,000 times its percent.
//! Over its two years strategy 1 counts (100 + 80) + (80 + 40) = 300 percent for
//! each point of gain, which is 3,000,000 / 20,000 = 150; strategy 2 counts
//! (100 + 90) + (90 + 70) = 350 percent, which is 175.
//! - Segment 1, rating 5 of 20, area 2,000: gains 5 and 15, effects 750 and 2,625,
//!   benefits 1,500,000 and 5,250,000, uses 20 and 60 units.
//! - Segment 2, rating 15 of 20, area 4,000: gains 5 and 5, effects 750 and 875,
//!   benefits 3,000,000 and 3,500,000, uses 40 and 120 units.
//! - Strategy 2 on both uses 180 of 130 units. Shares 4,616 and 9,231, surplus
//!   3,847, pulls 17,757,752 and 35,511,657, ratios 295,645 and 98,559: segment 2
//!   steps to strategy 1, which is within the limit. 30 units are left, and 120 do
//!   not fit beside 60 or beside 20. Total 5,250,000 + 3,000,000 = 8,250,000.
//! - Down-shares are 1,538, 4,615, 3,076 and 9,230. The ceiling falls by 3,845 for
//!   each price up to 81, where strategy 2 still has the greater margin on segment
//!   2, and rises from 82 on: 810,000 + 4,876,185 + 2,752,370 = 8,438,555.

mod common;

use common::{card, card_bytes, CARD_LISTING};
use reference::district::*;
use reference::listing::listing;
use reference::rating;
use reference::unit::{Plan, Unit};

fn card_unit() -> Unit {
    let mut unit = Unit::fresh();
    unit.load(&card_bytes()).unwrap();
    unit
}

fn with_limit(limit: u64) -> Plan {
    let mut unit = card_unit();
    unit.set_limit(1, limit).unwrap();
    unit.show().clone()
}

#[test]
fn m1_the_card() {
    let unit = card_unit();
    assert_eq!(card_bytes().len(), 87);
    assert_eq!(listing(unit.show(), 2), CARD_LISTING);
    assert_eq!(unit.show().total_after_phase_two, 8_250_000);
    assert!(unit.show().strategies[2..].iter().all(|&strategy| strategy == 0));
}

#[test]
fn m2_strategy_2_barred_on_segment_2() {
    let mut unit = card_unit();
    unit.bar(2, 2).unwrap();
    let plan = unit.show();
    assert_eq!((plan.total, plan.ceiling, plan.steps), (8_250_000, 8_250_000, 0));
    assert_eq!(plan.strategies[..2], [2, 1]);
}

#[test]
fn m3_limit_180() {
    let plan = with_limit(180);
    assert_eq!((plan.total, plan.ceiling), (8_750_000, 8_750_000));
    assert_eq!(plan.strategies[..2], [2, 2]);
}

#[test]
fn m4_limit_179() {
    let plan = with_limit(179);
    assert_eq!((plan.total, plan.ceiling), (8_250_000, 8_744_006));
}

#[test]
fn m5_limit_59_is_a_tie() {
    let plan = with_limit(59);
    assert_eq!((plan.total, plan.ceiling), (3_000_000, 4_425_744));
    assert_eq!(plan.strategies[..2], [0, 1]);
}

#[test]
fn m6_limit_0() {
    let plan = with_limit(0);
    assert_eq!((plan.total, plan.ceiling), (0, 0));
}

/// One segment, one strategy, one distress type of rating 5 of at most 20.
fn one(index: u16, gain: i8, percents: &[u8]) -> District {
    let mut district = card();
    district.years = percents.len();
    district.strategies.truncate(1);
    district.strategies[0].gains[0] = gain;
    district.strategies[0].survival = percents.to_vec();
    district.types[0].minimum = vec![0; percents.len()];
    district.segments.truncate(1);
    district.segments[0].traffic = index;
    district.segments[0].environment = index;
    district
}

#[test]
fn m7_ratings_of_the_report() {
    let district = one(100, 15, &[90, 70, 40, 0]);
    let (segment, strategy) = (&district.segments[0], &district.strategies[0]);
    let ratings: Vec<i64> = (0..=4).map(|t| rating::rating(&district, segment, strategy, 0, t)).collect();
    assert_eq!(ratings, [20_000_000, 18_500_000, 15_500_000, 11_000_000, 5_000_000]);
}

#[test]
fn m8_survival_under_both_indexes() {
    let district = one(150, 15, &[90]);
    assert_eq!(rating::survival(&district.segments[0], 90), 775_000);
    assert_eq!(rating::survival(&district.segments[0], 50), 0);
}

fn effect(index: u16, gain: i8, percents: &[u8]) -> i64 {
    let district = one(index, gain, percents);
    rating::effect(&district, &district.segments[0], &district.strategies[0])
}

/// By hand: 101 x 101 x 10 = 102,010 is lost, so 897,990 survive at the end of
/// year 1, and 1,000,000 at its start. Together 1,897,990, by 20,000 that is
/// 94.8995, and -94.8995. A second year adds 2 x 897,990: 3,693,970, and
/// 184.6985. Divided year by year it would be 94 + 89.
#[test]
fn m9_effect_is_cut_toward_zero() {
    assert_eq!(effect(101, 1, &[90]), 94);
    assert_eq!(effect(101, -1, &[90]), -94);
    assert_eq!(effect(101, 1, &[90, 90]), 184);
}

/// A year counts with the mean of two survivals, that of its start and that of
/// its end. Each end is the next year's start, and nothing follows the last.
#[test]
fn years_count_with_both_ends() {
    for (percents, of_a_point) in [
        (&[100][..], 100),
        // 100 at the start of year 1.
        (&[0], 50),
        (&[0, 0], 50),
        (&[0, 100], 100),
        (&[100, 0], 150),
        // 95 + 80 + 55 + 20.
        (&[90, 70, 40, 0], 250),
    ] {
        assert_eq!(effect(100, 3, percents), 3 * of_a_point);
        assert_eq!(effect(100, -3, percents), -3 * of_a_point);
    }
}

/// Rating 2 and a strategy that would take 6: it takes 2. The three years count
/// 95, 70 and 25 for each point.
#[test]
fn a_loss_is_at_most_the_rating() {
    let mut district = one(100, -6, &[90, 50, 0]);
    for (rating, ratings, effect) in [
        (2, [0, 200_000, 1_000_000, 2_000_000], -380),
        // From 6 on nothing is cut; at 0 there is nothing to take.
        (6, [0, 600_000, 3_000_000, 6_000_000], -1_140),
        (7, [1_000_000, 1_600_000, 4_000_000, 7_000_000], -1_140),
        (0, [0; 4], 0),
    ] {
        district.segments[0].ratings[0] = rating;
        let (segment, strategy) = (&district.segments[0], &district.strategies[0]);
        let worked: Vec<i64> = (0..=3).map(|t| rating::rating(&district, segment, strategy, 0, t)).collect();
        assert_eq!(worked, ratings);
        assert_eq!(rating::effect(&district, segment, strategy), effect);
    }
}
