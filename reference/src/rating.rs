//! Ratings, benefits and uses of one strategy on one segment.
//!
//! Ratings and survival are in millionths. Every product here stays far
//! within 64 bits: a benefit is below 10^12, a use below 2 x 10^12.

use crate::district::*;

pub const MILLION: i64 = 1_000_000;

/// The gain that remains possible: right after the work a rating is neither
/// above its greatest nor below 0. A strategy that takes more than there is,
/// like a seal on a surface that has nothing left to lose, takes just what there is.
pub fn gain(district: &District, segment: &Segment, strategy: &Strategy, k: usize) -> i64 {
    let current = i64::from(segment.ratings[k]);
    let missing = i64::from(district.greatest[k]) - current;
    i64::from(strategy.gains[k]).min(missing).max(-current)
}

/// Survival under the segment's traffic and environment, never below 0.
pub fn survival(segment: &Segment, percent: u8) -> i64 {
    let indexes = i64::from(segment.traffic) * i64::from(segment.environment);
    (MILLION - indexes * (100 - i64::from(percent))).max(0)
}

/// Rating of distress k in year t; year 0 is right after the work.
pub fn rating(district: &District, segment: &Segment, strategy: &Strategy, k: usize, t: usize) -> i64 {
    let survives = match t {
        0 => MILLION,
        _ => survival(segment, strategy.survival[k * district.years + t - 1]),
    };
    MILLION * i64::from(segment.ratings[k]) + gain(district, segment, strategy, k) * survives
}

/// Gains over all distress types and years 1 to T. The work is done during the
/// year, so a year counts with the mean of what survives at its start and at its
/// end; year 1 starts right after the work. Halving is left to the division,
/// which comes once, after the sum, and cuts toward zero (as Rust's does).
pub fn effect(district: &District, segment: &Segment, strategy: &Strategy) -> i64 {
    let mut sum = 0;
    for (k, row) in strategy.survival.chunks_exact(district.years).enumerate() {
        let mut start = MILLION;
        for &percent in row {
            let end = survival(segment, percent);
            sum += gain(district, segment, strategy, k) * (start + end);
            start = end;
        }
    }
    sum / 20_000
}

/// Hundredths of a mile times feet.
pub fn area(segment: &Segment) -> i64 {
    i64::from(segment.length) * i64::from(segment.width)
}

pub fn benefit(district: &District, segment: &Segment, strategy: &Strategy) -> i64 {
    area(segment) * effect(district, segment, strategy)
}

/// Use of a resource, in the unit of `room`.
pub fn usage(segment: &Segment, strategy: &Strategy, r: usize) -> u64 {
    area(segment) as u64 * u64::from(strategy.requirements[r])
}

/// A resource's limit in the unit of `usage`.
pub fn room(district: &District, r: usize) -> u64 {
    u64::from(district.limits[r]) * 100_000
}

/// Strategy j (from 0) is barred on the segment.
pub fn barred(segment: &Segment, j: usize) -> bool {
    segment.bars >> j & 1 == 1
}

/// What the segment's pavement type demands.
fn demands<'a>(district: &'a District, segment: &Segment) -> &'a PavementType {
    &district.types[usize::from(segment.pavement) - 1]
}

/// The minimum ratings that are not reached: distress type (from 0) and year
/// (from 1), type by type and year by year.
pub fn missed_minima(district: &District, segment: &Segment, strategy: &Strategy) -> Vec<(usize, usize)> {
    let demands = demands(district, segment);
    let mut missed = Vec::new();
    for (k, row) in demands.minimum.chunks_exact(district.years).enumerate() {
        for (t, &minimum) in (1..).zip(row) {
            if minimum > 0 && rating(district, segment, strategy, k, t) < MILLION * i64::from(minimum) {
                missed.push((k, t));
            }
        }
    }
    missed
}

/// The ratings of year 1 together don't reach the overall requirement.
pub fn misses_overall(district: &District, segment: &Segment, strategy: &Strategy) -> bool {
    let demands = demands(district, segment);
    if demands.overall > 0 {
        let first_year: i64 = (0..district.greatest.len()).map(|k| rating(district, segment, strategy, k, 1)).sum();
        if first_year < MILLION * i64::from(demands.overall) {
            return true;
        }
    }
    false
}

/// Not barred, and the ratings reach what the pavement type demands.
pub fn permitted(district: &District, i: usize, j: usize) -> bool {
    let (segment, strategy) = (&district.segments[i], &district.strategies[j]);
    if barred(segment, j) {
        return false;
    }
    missed_minima(district, segment, strategy).is_empty() && !misses_overall(district, segment, strategy)
}

/// Its use alone is over no limit.
pub fn fits_alone(district: &District, segment: &Segment, strategy: &Strategy) -> bool {
    (0..district.limits.len()).all(|r| usage(segment, strategy, r) <= room(district, r))
}

pub fn candidate(district: &District, i: usize, j: usize) -> bool {
    let (segment, strategy) = (&district.segments[i], &district.strategies[j]);
    permitted(district, i, j) && benefit(district, segment, strategy) > 0 && fits_alone(district, segment, strategy)
}
