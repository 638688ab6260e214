//! Small districts for two offices: the same shared tables with other segments,
//! and tables in which one value is another.

use crate::district::*;
use crate::file;
use crate::vectors::{card, led, two_of_each};

/// Two segments. There are two of each count, so each table has a first value
/// and a last one.
pub fn north() -> District {
    two_of_each()
}

/// The same tables with three segments, one of them behind another and one with
/// a bar, and with other limits.
pub fn south() -> District {
    let mut south = north();
    south.limits = vec![60, 90];
    south.segments.insert(0, Segment { length: 80, width: 30, ratings: vec![0, 40], ..south.segments[0].clone() });
    south.segments[2].bars = 1;
    led(south, &[0, 0, 1])
}

/// The tables alone, with limits.
pub fn bare(mut district: District) -> District {
    district.segments.clear();
    district
}

/// A way to change a district's shared tables in one value, or in one count.
pub type Change = fn(&mut District);

/// All of them; in both districts above each leaves a sound one.
pub fn changes() -> Vec<Change> {
    let mut all = values();
    all.extend(counts());
    all
}

/// One value of each kind, the first and the last, and some in which one byte
/// stays the same.
fn values() -> Vec<Change> {
    vec![
        |d| d.greatest[0] -= 1,
        |d| d.greatest[1] += 1,
        |d| d.strategies[0].requirements[0] += 1,
        |d| d.strategies[1].requirements[1] -= 1,
        |d| d.strategies[0].requirements[1] += 256,
        |d| d.strategies[1].requirements[0] += 65_536,
        |d| d.strategies[0].gains[0] += 1,
        |d| d.strategies[1].gains[1] = -20,
        |d| d.strategies[0].survival[0] += 1,
        |d| d.strategies[0].survival[1] += 1,
        |d| d.strategies[1].survival[3] -= 1,
        |d| d.types[0].overall = 1,
        |d| d.types[0].overall = 256,
        |d| d.types[1].overall -= 1,
        |d| d.types[0].minimum[0] = 1,
        |d| d.types[1].minimum[3] += 1,
        |d| d.types[1].minimum.swap(1, 2),
        |d| d.strategies.swap(0, 1),
        |d| d.types.swap(0, 1),
    ]
}

/// Each count one more, and one less.
fn counts() -> Vec<Change> {
    vec![
        |d| d.strategies.push(d.strategies[1].clone()),
        |d| {
            d.strategies.pop();
        },
        |d| d.types.push(d.types[1].clone()),
        |d| {
            d.types.pop();
            d.segments.iter_mut().for_each(|segment| segment.pavement = 1);
        },
        |d| {
            d.limits.push(50);
            d.strategies.iter_mut().for_each(|strategy| strategy.requirements.push(0));
        },
        |d| {
            d.limits.pop();
            d.strategies.iter_mut().for_each(|strategy| strategy.requirements.truncate(1));
        },
        |d| in_years(d, 3),
        |d| in_years(d, 1),
        |d| {
            d.greatest.push(40);
            d.strategies.iter_mut().for_each(|strategy| strategy.gains.push(0));
            d.strategies.iter_mut().for_each(|strategy| strategy.survival.extend([0, 0]));
            d.types.iter_mut().for_each(|pavement| pavement.minimum.extend([0, 0]));
            d.segments.iter_mut().for_each(|segment| segment.ratings.push(0));
        },
        |d| {
            d.greatest.pop();
            d.strategies.iter_mut().for_each(|strategy| strategy.gains.truncate(1));
            d.strategies.iter_mut().for_each(|strategy| strategy.survival.truncate(2));
            d.types.iter_mut().for_each(|pavement| pavement.minimum.truncate(2));
            d.segments.iter_mut().for_each(|segment| segment.ratings.truncate(1));
        },
    ]
}

/// The district with so many years: rows are cut, or go on with 0.
fn in_years(d: &mut District, years: usize) {
    let rows = |values: &[u8]| -> Vec<u8> {
        let row = |row: &[u8]| row.iter().copied().chain([0; MOST_YEARS]).take(years).collect::<Vec<_>>();
        values.chunks(d.years).flat_map(row).collect()
    };
    d.strategies.iter_mut().for_each(|strategy| strategy.survival = rows(&strategy.survival));
    d.types.iter_mut().for_each(|pavement| pavement.minimum = rows(&pavement.minimum));
    d.years = years;
}

/// The district changed.
pub fn changed(mut district: District, change: Change) -> District {
    change(&mut district);
    district
}

/// The files that the stored console loads.
pub fn files() -> Vec<(&'static str, Vec<u8>)> {
    let gain: Change = |d| d.strategies[0].gains[0] += 1;
    let wider: Change = counts()[4];
    let narrower: Change = counts()[5];
    let moved = file::encode(&changed(south(), gain));
    vec![
        ("north", file::encode(&north())),
        ("south", file::encode(&south())),
        ("bare", file::encode(&bare(north()))),
        ("cleared", file::encode(&bare(card()))),
        ("moved", moved.clone()),
        ("left", file::encode(&bare(changed(south(), gain)))),
        ("trailed", [&moved[..], &[0]].concat()),
        ("wider", file::encode(&changed(north(), wider))),
        ("narrower", file::encode(&changed(bare(south()), narrower))),
    ]
}
