//! Makes districts, damaged files and panel scripts at random.

use crate::calls::Call;
use crate::district::*;
use crate::file;
use crate::lists;
use crate::random::Random;
use crate::rating;
use crate::turn::Way;
use crate::unit::{plan, Plan};
use std::path::Path;
use std::{fs, io};

/// The six counts.
#[derive(Clone, Copy, Debug, PartialEq, Eq)]
pub struct Shape {
    pub segments: usize,
    pub strategies: usize,
    pub years: usize,
    pub distress_types: usize,
    pub pavement_types: usize,
    pub resources: usize,
}

pub const WIDEST: Shape = Shape {
    segments: MOST_SEGMENTS,
    strategies: MOST_STRATEGIES,
    years: MOST_YEARS,
    distress_types: MOST_DISTRESS_TYPES,
    pavement_types: MOST_PAVEMENT_TYPES,
    resources: MOST_RESOURCES,
};

/// Any shape, small ones more often.
pub fn shape(random: &mut Random) -> Shape {
    match random.below(100) {
        0..=49 => shape_up_to(random, [8, 4, 4, 3, 2, 4]),
        50..=84 => shape_up_to(random, [24, 11, 10, 9, 4, 16]),
        85..=96 => shape_up_to(random, [64, 11, 10, 9, 4, 16]),
        97 => Shape { segments: 0, ..shape_up_to(random, [64, 11, 10, 9, 4, 16]) },
        _ => WIDEST,
    }
}

/// A small shape, for lists of calls and for brute force.
pub fn small_shape(random: &mut Random, segments: usize, strategies: usize) -> Shape {
    shape_up_to(random, [segments, strategies, 3, 3, 2, 3])
}

fn shape_up_to(random: &mut Random, most: [usize; 6]) -> Shape {
    Shape {
        segments: random.size(0, most[0]),
        strategies: random.size(1, most[1]),
        years: random.size(1, most[2]),
        distress_types: random.size(1, most[3]),
        pavement_types: random.size(1, most[4]),
        resources: random.size(1, most[5]),
    }
}

/// A valid district of this shape. Each group of values is drawn in one of
/// several manners, so that ties, ends of ranges, demands that bite and
/// limits that bind all come up.
pub fn district(random: &mut Random, shape: Shape) -> District {
    loop {
        let made = any_district(random, shape);
        let can_plan = (0..shape.segments).any(|i| (0..shape.strategies).any(|j| rating::candidate(&made, i, j)));
        // Most often one without any candidate is drawn again.
        if can_plan || shape.segments == 0 || random.chance(25) {
            return made;
        }
    }
}

/// Values that belong together.
#[derive(Clone, Copy, PartialEq, Eq)]
enum Family {
    /// Each group of values in a manner of its own.
    Mixed,
    /// Round sizes and requirements: uses are whole units, and much ties.
    Round,
    /// Large gains and losses that last or vanish at once, from rating 0, with
    /// nothing demanded.
    Sharp,
    /// Losses deeper than the low ratings they are taken from, beside gains:
    /// what a loss is cut to decides benefits and what is permitted.
    DeepLosses,
}

fn any_district(random: &mut Random, shape: Shape) -> District {
    let family = match random.below(100) {
        0..=14 => Family::Round,
        15..=20 => Family::Sharp,
        21..=32 => Family::DeepLosses,
        _ => Family::Mixed,
    };
    let greatest = greatest(random, shape);
    let mut district = District {
        years: shape.years,
        limits: vec![LIMIT_MOST; shape.resources],
        strategies: strategies(random, shape, family, &greatest),
        types: (0..shape.pavement_types).map(|_| pavement_type(random, shape, family, &greatest)).collect(),
        segments: segments(random, shape, family, &greatest),
        greatest,
    };
    set_limits(random, &mut district);
    district
}

fn greatest(random: &mut Random, shape: Shape) -> Vec<u8> {
    let manner = random.below(10);
    let one = random.within(1, 50) as u8;
    (0..shape.distress_types)
        .map(|_| match manner {
            0 => 1,
            1 => RATING_MOST,
            2 => one,
            3 => *random.pick(&[1, 50]),
            4..=6 => *random.pick(&[15, 20, 25, 40, 50]),
            _ => random.within(1, 50) as u8,
        })
        .collect()
}

fn strategies(random: &mut Random, shape: Shape, family: Family, greatest: &[u8]) -> Vec<Strategy> {
    let (gain_manner, survival_manner) = match family {
        Family::Sharp => (2, 2),
        Family::DeepLosses => (16, random.below(8)),
        _ => (random.below(16), random.below(8)),
    };
    let requirement_manner = if family == Family::Round { 11 } else { random.below(16) };
    let scale = *random.pick(&[50, 1_000, 5_000, 5_000, 40_000, 400_000]);
    let cells = shape.distress_types * shape.years;
    let mut made: Vec<Strategy> = Vec::new();
    for j in 0..shape.strategies {
        // Now and then a strategy is another one over again: all its values tie.
        if j > 0 && random.chance(8) {
            let twin = random.pick(&made).clone();
            made.push(twin);
            continue;
        }
        // Later strategies give more and cost more, roughly.
        let weight = (j as u64 + 1) * 100 / shape.strategies as u64;
        let gains = greatest
            .iter()
            .map(|&most| match gain_manner {
                0 => most as i8,
                1 if j % 2 == 0 => -(random.within(0, 50) as i8),
                2 => *random.pick(&[-GAIN_MOST, 0, GAIN_MOST]),
                3 | 4 => random.within(0, 100) as i8 - 50,
                5 => random.within(0, 60) as i8 - 10,
                6..=11 => (u64::from(most) * random.within(weight / 2, weight) / 100) as i8,
                16 if random.chance(50) => -(random.within(1, 50) as i8),
                _ => random.within(0, u64::from(most)) as i8,
            })
            .collect();
        let mut survival = Vec::with_capacity(cells);
        for _ in 0..shape.distress_types {
            let mut percent = 100;
            for _ in 0..shape.years {
                survival.push(match survival_manner {
                    0 => 100,
                    1 => random.within(0, 100) as u8,
                    2 => *random.pick(&[0, 100]),
                    3 => random.within(90, 100) as u8,
                    _ => {
                        percent -= random.within(0, u64::from(percent) / 3) as u8;
                        percent
                    }
                });
            }
        }
        let requirements = (0..shape.resources)
            .map(|_| match requirement_manner {
                0 => scale,
                1 => *random.pick(&[0, REQUIREMENT_MOST]),
                2 => random.within(0, u64::from(REQUIREMENT_MOST)) as u32,
                3 => random.within(0, 3) as u32,
                4..=9 => (u64::from(scale) * random.within(weight / 3, weight) / 100) as u32,
                10 => {
                    if random.chance(40) {
                        0
                    } else {
                        random.within(1, u64::from(scale)) as u32
                    }
                }
                11 => 1_000 * random.below(5) as u32,
                _ => random.within(0, u64::from(scale)) as u32,
            })
            .collect();
        made.push(Strategy { requirements, gains, survival });
    }
    made
}

fn pavement_type(random: &mut Random, shape: Shape, family: Family, greatest: &[u8]) -> PavementType {
    let cells = shape.distress_types * shape.years;
    if family == Family::Sharp {
        return PavementType { overall: 0, minimum: vec![0; cells] };
    }
    let manner = random.below(16);
    let minimum = (0..cells)
        .map(|cell| {
            let most = u64::from(greatest[cell / shape.years]);
            match manner {
                0 if random.chance(5) => random.within(0, 50) as u8,
                1 if random.chance(20) => random.within(0, most) as u8,
                2 => random.within(0, most / 3) as u8,
                3 if random.chance(3) => RATING_MOST,
                _ => 0,
            }
        })
        .collect();
    let together: u64 = greatest.iter().map(|&most| u64::from(most)).sum();
    let overall = match random.below(14) {
        0 => random.within(0, together) as u16,
        1 => random.within(together / 2, together) as u16,
        2 => *random.pick(&[1, OVERALL_MOST]),
        _ => 0,
    };
    PavementType { overall, minimum }
}

fn segments(random: &mut Random, shape: Shape, family: Family, greatest: &[u8]) -> Vec<Segment> {
    let index_manner = random.below(12);
    let (length_manner, width_manner) = match family {
        Family::Round => (2, 3),
        _ => (random.below(9), random.below(6)),
    };
    let bar_manner = random.below(30);
    let rating_manner = match family {
        Family::Sharp => 0,
        Family::DeepLosses => 10,
        _ => random.below(10),
    };
    let (one_length, one_width) = (random.within(1, 9_999) as u16, random.within(1, 200) as u8);
    let all = (1u16 << shape.strategies) - 1;
    let mut made: Vec<Segment> = Vec::new();
    for i in 0..shape.segments {
        // Now and then a segment is another one over again: all its values tie.
        if i > 0 && random.chance(10) {
            let twin = random.pick(&made).clone();
            made.push(twin);
            continue;
        }
        let mut index = || match index_manner {
            0..=4 => INDEX_LEAST,
            5..=8 => random.within(100, 110) as u16,
            9 => random.within(100, 200) as u16,
            10 => *random.pick(&[INDEX_LEAST, INDEX_MOST]),
            _ => random.within(100, 1_000) as u16,
        };
        let (traffic, environment) = (index(), index());
        made.push(Segment {
            pavement: random.size(1, shape.pavement_types) as u8,
            traffic,
            environment,
            length: match length_manner {
                0 => one_length,
                1 => *random.pick(&[1, LENGTH_MOST]),
                2 => 100 * random.within(1, 3) as u16,
                3 => random.within(1, 9_999) as u16,
                _ => random.within(50, 1_500) as u16,
            },
            width: match width_manner {
                0 => one_width,
                1 => *random.pick(&[1, WIDTH_MOST]),
                2 => random.within(1, 200) as u8,
                3 => 20,
                _ => *random.pick(&[20, 22, 24, 26, 28]),
            },
            bars: match bar_manner {
                0 => all,
                1 => random.draw() as u16 & all,
                2..=8 => random.draw() as u16 & random.draw() as u16 & random.draw() as u16 & all,
                9 if random.chance(30) => all,
                _ => 0,
            },
            ratings: greatest
                .iter()
                .map(|&most| match rating_manner {
                    0 => 0,
                    1 => *random.pick(&[0, most]),
                    2 => {
                        if random.chance(90) {
                            most
                        } else {
                            0
                        }
                    }
                    10 => random.within(0, u64::from(most.min(8))) as u8,
                    _ => random.within(0, u64::from(most)) as u8,
                })
                .collect(),
            leader: 0,
        });
    }
    made
}

/// A district with the same shared tables and other segments and limits.
pub fn resettled(random: &mut Random, tables: &District, count: usize) -> District {
    let shape = Shape {
        segments: count,
        strategies: tables.strategies.len(),
        years: tables.years,
        distress_types: tables.greatest.len(),
        pavement_types: tables.types.len(),
        resources: tables.limits.len(),
    };
    let segments = segments(random, shape, Family::Mixed, &tables.greatest);
    let mut made = District { segments, ..tables.clone() };
    set_limits(random, &mut made);
    made
}

/// A district without segments whose shared tables are these but for one value,
/// or with one strategy, pavement type or resource more or less.
pub fn retabled(random: &mut Random, tables: &District) -> District {
    let mut made = District { segments: Vec::new(), ..tables.clone() };
    let k = random.size(0, tables.greatest.len() - 1);
    let cell = random.size(0, tables.greatest.len() * tables.years - 1);
    let resource = random.size(0, tables.limits.len() - 1);
    let strategy = random.size(0, tables.strategies.len() - 1);
    let strategy = &mut made.strategies[strategy];
    let pavement = random.size(0, tables.types.len() - 1);
    let pavement = &mut made.types[pavement];
    // One more, or one less at the end of the range.
    let next = |value: u32, most: u32| if value < most { value + 1 } else { value - 1 };
    match random.below(9) {
        0 => made.greatest[k] = next(made.greatest[k].into(), RATING_MOST.into()) as u8,
        1 => strategy.requirements[resource] = next(strategy.requirements[resource], REQUIREMENT_MOST),
        2 => strategy.gains[k] = if strategy.gains[k] < GAIN_MOST { strategy.gains[k] + 1 } else { 0 },
        3 => strategy.survival[cell] = next(strategy.survival[cell].into(), 100) as u8,
        4 => pavement.overall = next(pavement.overall.into(), OVERALL_MOST.into()) as u16,
        5 => pavement.minimum[cell] = next(pavement.minimum[cell].into(), RATING_MOST.into()) as u8,
        6 if made.strategies.len() == MOST_STRATEGIES => made.strategies.truncate(MOST_STRATEGIES - 1),
        6 => made.strategies.push(made.strategies[0].clone()),
        7 if made.types.len() == MOST_PAVEMENT_TYPES => made.types.truncate(MOST_PAVEMENT_TYPES - 1),
        7 => made.types.push(made.types[0].clone()),
        _ => {
            let count = next(made.limits.len() as u32, MOST_RESOURCES as u32) as usize;
            made.limits.resize(count, 0);
            made.strategies.iter_mut().for_each(|strategy| strategy.requirements.resize(count, 1_000));
        }
    }
    made
}

/// Sets limits by what the best candidates would use: most often a fraction
/// of it, so that not everything fits; also none, exactly enough, and plenty.
pub fn set_limits(random: &mut Random, district: &mut District) {
    district.limits.fill(LIMIT_MOST);
    let wanted = wanted(district);
    let fraction = random.within(15, 110);
    let manner = random.below(40);
    for (r, &use_of_all) in wanted.iter().enumerate() {
        // A limit of 1 is worth 100,000 in the unit of the uses.
        let whole = use_of_all / 100_000;
        let limit = match manner {
            0 => 0,
            1 | 2 => LIMIT_MOST.into(),
            3 => *random.pick(&[0, u64::from(LIMIT_MOST), whole, whole / 2]),
            4 | 5 => whole + random.below(2),
            6 => {
                let most = *random.pick(&[1_000, u64::from(LIMIT_MOST)]);
                random.within(0, most)
            }
            7 | 8 => {
                if random.chance(15) {
                    0
                } else {
                    whole * random.within(30, 100) / 100
                }
            }
            9..=14 => whole * random.within(10, 120) / 100,
            15..=20 => whole * fraction / 100 + random.below(2),
            _ => whole * random.within(fraction * 4 / 5, fraction) / 100,
        };
        district.limits[r] = limit.min(LIMIT_MOST.into()) as u32;
    }
}

/// Names leaders: a few, one for each segment, chains, one that all follow, or
/// a few that many follow. Now and then one of them can have nothing, so that
/// none of its followers gets anything: it is barred from everything, or has no
/// rating that could be raised.
pub fn set_leaders(random: &mut Random, district: &mut District) {
    let manner = random.below(6);
    let few: Vec<u64> = (0..3).map(|_| random.within(1, MOST_SEGMENTS as u64)).collect();
    for (own, segment) in (1..).zip(&mut district.segments) {
        let below = |leader: u64| if leader < own { leader } else { 0 };
        segment.leader = match manner {
            0 if random.chance(80) => 0,
            1 => below(1),
            2 => own - 1,
            3 if own % 4 == 1 => 0,
            3 => own - 1,
            4 => below(*random.pick(&few)),
            _ => random.below(own),
        } as u8;
    }
    let named: Vec<usize> = district.segments.iter().filter_map(|one| usize::from(one.leader).checked_sub(1)).collect();
    if !named.is_empty() && random.chance(25) {
        let leader = &mut district.segments[*random.pick(&named)];
        match random.chance(50) {
            true => leader.bars = (1 << district.strategies.len()) - 1,
            false => leader.ratings = district.greatest.clone(),
        }
    }
}

/// A row of numbers that chooses blocks for a district: most often one that is
/// followed, with parts that use each limit up, or leave some of it.
pub fn choice(random: &mut Random, district: &District) -> Vec<u32> {
    let mut blocks = runs(random, district);
    for &limit in &district.limits {
        let parts = parts(random, limit, blocks.len());
        blocks.iter_mut().zip(parts).for_each(|(block, part)| block.push(part));
    }
    if random.chance(20) {
        spoil(random, &mut blocks);
    }
    let mut row = blocks.concat();
    if random.chance(3) {
        let length = random.size(0, row.len() + 2);
        row.resize(length, 1);
    }
    row
}

/// Runs of segments, each with its first and its last. Most often there are at most
/// four, and no leader lies outside its segment's run.
fn runs(random: &mut Random, district: &District) -> Vec<Vec<u32>> {
    let count = district.segments.len();
    let splits = |end: usize| {
        let behind = &district.segments[end..];
        behind.iter().any(|segment| (1..=end).contains(&usize::from(segment.leader)))
    };
    let free = random.chance(85);
    let most = if random.chance(90) { 3 } else { 6 };
    let mut ends: Vec<usize> = (1..count).filter(|&end| !free || !splits(end)).collect();
    while ends.len() > most || !ends.is_empty() && random.chance(25) {
        ends.remove(random.size(0, ends.len() - 1));
    }
    ends.push(count);
    let firsts = std::iter::once(1).chain(ends.iter().map(|end| end + 1));
    firsts.zip(&ends).map(|(first, &last)| vec![first as u32, last as u32]).collect()
}

/// Parts of a limit: as much as there is, a little more, some of it, all of it for one.
fn parts(random: &mut Random, limit: u32, count: usize) -> Vec<u32> {
    let limit = u64::from(limit);
    let given = match random.below(20) {
        0 => limit + 1,
        1..=5 => limit * random.within(30, 100) / 100,
        _ => limit,
    };
    let weights: Vec<u64> = match random.below(6) {
        0 => vec![1; count],
        1 => (0..count).map(|_| *random.pick(&[0, 1])).collect(),
        _ => (0..count).map(|_| random.within(1, 100)).collect(),
    };
    let all = weights.iter().sum::<u64>().max(1);
    let mut parts: Vec<u64> = weights.iter().map(|weight| given * weight / all).collect();
    // What rounding has left goes to the last.
    parts[count - 1] += given - parts.iter().sum::<u64>();
    parts.into_iter().map(|part| part as u32).collect()
}

/// Makes one thing of the blocks wrong, most often so that they are not followed.
fn spoil(random: &mut Random, blocks: &mut Vec<Vec<u32>>) {
    let at = random.size(0, blocks.len() - 1);
    let far = *random.pick(&[0, 1, 64, 65, 256, u32::MAX]);
    match random.below(9) {
        0 => blocks[at][0] += 1,
        1 => blocks[at][0] = blocks[at][0].saturating_sub(1),
        2 => blocks[at][1] += 1,
        3 => blocks[at][1] = blocks[at][1].saturating_sub(1),
        4 => blocks.swap(0, at),
        5 => drop(blocks.remove(at)),
        // An empty one, behind this one.
        6 => {
            let mut empty = vec![0; blocks[at].len()];
            (empty[0], empty[1]) = (blocks[at][1] + 1, blocks[at][1]);
            blocks.insert(at + 1, empty);
        }
        7 => *blocks[at].last_mut().unwrap() = far,
        _ => blocks[at][random.size(0, 1)] = far,
    }
}

/// The same district, in half of the cases with leaders.
fn perhaps_led(random: &mut Random, mut district: District) -> District {
    if random.chance(50) {
        set_leaders(random, &mut district);
    }
    district
}

/// A small district in which many reasons hold, often more than one of the
/// same strategy: minima of any distress type and year that some strategies
/// reach and some miss, overall requirements likewise, gains of 0 and losses,
/// strategies that no limit or just one has room for, and limits that the
/// programme fills. Most often sizes are round, so that uses are whole units
/// and limits can be met exactly.
pub fn telling_district(random: &mut Random) -> District {
    let shape = Shape {
        segments: random.size(2, 6),
        strategies: random.size(3, 11),
        years: random.size(1, 4),
        distress_types: random.size(1, 4),
        pavement_types: random.size(1, 4),
        resources: random.size(1, 4),
    };
    let cells = shape.distress_types * shape.years;
    let round = random.chance(70);
    let strategies = (0..shape.strategies)
        .map(|_| {
            let manner = random.below(12);
            Strategy {
                requirements: (0..shape.resources).map(|_| 500 * random.within(0, 8) as u32).collect(),
                gains: (0..shape.distress_types)
                    .map(|_| match manner {
                        0 => 0,
                        1 | 2 => random.within(0, 24) as i8 - 12,
                        _ => random.within(0, 15) as i8,
                    })
                    .collect(),
                survival: (0..cells).map(|_| 10 * random.within(0, 10) as u8).collect(),
            }
        })
        .collect();
    let types = (0..shape.pavement_types)
        .map(|_| {
            let demanding = *random.pick(&[0, 0, 1, 2, 3]);
            let overall = match random.below(4) {
                0 => 12 * shape.distress_types as u16 + random.within(0, 9) as u16,
                _ => 0,
            };
            let minimum = |_| if random.below(6) < demanding { random.within(4, 14) as u8 } else { 0 };
            PavementType { overall, minimum: (0..cells).map(minimum).collect() }
        })
        .collect();
    let segments = (0..shape.segments)
        .map(|_| Segment {
            pavement: random.size(1, shape.pavement_types) as u8,
            traffic: 100,
            environment: *random.pick(&[100, 100, 125]),
            length: if round { 100 * random.within(1, 3) as u16 } else { random.within(90, 310) as u16 },
            width: *random.pick(&[2, 4]),
            bars: random.draw() as u16 & random.draw() as u16 & random.draw() as u16 & ((1 << shape.strategies) - 1),
            ratings: (0..shape.distress_types).map(|_| random.within(4, 16) as u8).collect(),
            leader: 0,
        })
        .collect();
    let mut district = District {
        years: shape.years,
        limits: vec![LIMIT_MOST; shape.resources],
        greatest: vec![20; shape.distress_types],
        strategies,
        types,
        segments,
    };
    let any = |random: &mut Random| (random.size(0, shape.segments - 1), random.size(1, shape.strategies) as u8);
    for (r, wanted) in wanted(&district).into_iter().enumerate() {
        let whole = (wanted / 100_000) as u32;
        district.limits[r] = match random.below(10) {
            0 => random.within(0, 4) as u32,
            1 | 2 => {
                let (i, j) = any(random);
                (use_of(&district, &[(i, j)], r) / 100_000) as u32
            }
            3 => whole,
            4 | 5 => LIMIT_MOST,
            _ => whole * random.within(30, 100) as u32 / 100,
        };
    }
    // Then some limits are put where the programme just fits, or where one with
    // another strategy just fits or just doesn't.
    let mut programme: Vec<(usize, u8)> =
        plan(&district).strategies[..shape.segments].iter().copied().enumerate().collect();
    for r in 0..shape.resources {
        match random.below(10) {
            0..=3 => district.limits[r] = use_of(&district, &programme, r).div_ceil(100_000) as u32,
            4 | 5 => {
                let (i, j) = any(random);
                let held = std::mem::replace(&mut programme[i], (i, j));
                district.limits[r] = (use_of(&district, &programme, r) / 100_000) as u32;
                programme[i] = held;
            }
            _ => {}
        }
    }
    district
}

/// What strategies on segments use of a resource; strategy 0 is nothing.
fn use_of(district: &District, taken: &[(usize, u8)], r: usize) -> u64 {
    let used = taken.iter().filter(|one| one.1 > 0);
    used.map(|&(i, j)| rating::usage(&district.segments[i], &district.strategies[usize::from(j) - 1], r)).sum()
}

/// Some strategy of the plan would take more from a rating than there is.
pub fn takes_a_cut_loss(district: &District, plan: &Plan) -> bool {
    district.segments.iter().zip(plan.strategies).any(|(segment, j)| {
        let gains = district.strategies.get(usize::from(j).wrapping_sub(1)).map_or(&[][..], |taken| &taken.gains);
        segment.ratings.iter().zip(gains).any(|(&rating, &gain)| i16::from(gain) < -i16::from(rating))
    })
}

/// What each resource would be used by every segment's best candidate.
fn wanted(district: &District) -> Vec<u64> {
    let mut wanted = vec![0; district.limits.len()];
    for (i, segment) in district.segments.iter().enumerate() {
        let best = (0..district.strategies.len())
            .filter(|&j| rating::candidate(district, i, j))
            .max_by_key(|&j| rating::benefit(district, segment, &district.strategies[j]));
        if let Some(j) = best {
            for (r, sum) in wanted.iter_mut().enumerate() {
                *sum += rating::usage(segment, &district.strategies[j], r);
            }
        }
    }
    wanted
}

/// A district in which planning is long: nothing is barred or demanded,
/// stronger strategies cost more, sizes differ, and all limits bind.
pub fn busy_district(random: &mut Random, shape: Shape) -> District {
    let greatest = vec![RATING_MOST; shape.distress_types];
    let cells = shape.distress_types * shape.years;
    let scale = random.within(200, 900);
    let spread = random.within(5, 60);
    let strategies = (0..shape.strategies as u64)
        .map(|j| {
            let weight = 20 + 80 * (j + 1) / shape.strategies as u64;
            let mut around = |value: u64| value * random.within(100 - spread, 100) / 100;
            Strategy {
                requirements: (0..shape.resources).map(|_| around(scale * weight) as u32).collect(),
                gains: (0..shape.distress_types).map(|_| around(weight / 2) as i8).collect(),
                survival: (0..cells).map(|_| around(100) as u8).collect(),
            }
        })
        .collect();
    let types = vec![PavementType { overall: 0, minimum: vec![0; cells] }; shape.pavement_types];
    let segments = (0..shape.segments)
        .map(|_| Segment {
            pavement: 1,
            traffic: 100,
            environment: random.within(100, 105) as u16,
            length: random.within(50, 1_500) as u16,
            width: random.within(18, 40) as u8,
            bars: 0,
            ratings: (0..shape.distress_types).map(|_| random.within(0, 25) as u8).collect(),
            leader: 0,
        })
        .collect();
    let mut district = District {
        years: shape.years,
        limits: vec![LIMIT_MOST; shape.resources],
        greatest,
        strategies,
        types,
        segments,
    };
    let fraction = random.within(15, 70);
    let slack = random.within(1, 30);
    let wanted = wanted(&district);
    for (limit, wanted) in district.limits.iter_mut().zip(wanted) {
        *limit = (wanted / 100_000 * random.within(fraction, fraction + slack) / 100) as u32;
    }
    district
}

/// The same district with fewer segments, strategies or resources; limits
/// shrink with the segments, so that they bind as before.
pub fn cut(whole: &District, shape: Shape) -> District {
    let mut district = whole.clone();
    let (kept, of) = (shape.segments as u64, whole.segments.len() as u64);
    district.segments.truncate(shape.segments);
    district.strategies.truncate(shape.strategies);
    district.limits.truncate(shape.resources);
    for limit in &mut district.limits {
        *limit = (u64::from(*limit) * kept / of) as u32;
    }
    for strategy in &mut district.strategies {
        strategy.requirements.truncate(shape.resources);
    }
    for segment in &mut district.segments {
        segment.bars &= (1 << shape.strategies) - 1;
    }
    district
}

/// A district with a page worth having looked at: any number of segments and of
/// resources, lengths and widths at the ends of their ranges, segments left
/// with nothing, uses that are no whole units, and figures that fill a column.
pub fn page_district(random: &mut Random) -> District {
    let segments = match random.below(8) {
        0 => *random.pick(&[0, 1, 9, 10, 11, 63, 64]),
        1 => random.size(0, 64),
        _ => random.size(1, 12),
    };
    let most = if segments < 16 { [0, 5, 4, 4, 3, 1] } else { [0, 3, 2, 2, 2, 1] };
    let resources = if random.chance(60) { random.size(1, 6) } else { random.size(1, MOST_RESOURCES) };
    let shape = Shape { segments, resources, ..shape_up_to(random, most) };
    let mut made = match random.chance(8) {
        true => {
            let segments = random.size(12, MOST_SEGMENTS);
            let (strategies, pavement_types) = (shape.strategies.min(3), 1);
            busy_district(random, Shape { segments, strategies, resources, pavement_types, ..WIDEST })
        }
        false => district(random, shape),
    };
    let scale = *random.pick(&[3, 500, 20_000, u64::from(REQUIREMENT_MOST)]);
    for requirement in made.strategies.iter_mut().flat_map(|strategy| &mut strategy.requirements) {
        if random.chance(70) {
            *requirement = random.within(0, scale) as u32;
        }
    }
    let manner = random.below(4);
    for segment in &mut made.segments {
        match manner {
            0 => (segment.length, segment.width) = (random.within(1, 12) as u16, random.within(1, 12) as u8),
            1 => (segment.length, segment.width) = (LENGTH_MOST - random.below(2) as u16, WIDTH_MOST),
            2 => {
                segment.length = *random.pick(&[1, 9, 10, 99, 100, 101, 110, 999, 1_000, LENGTH_MOST]);
                segment.width = *random.pick(&[1, 9, 10, 99, 100, WIDTH_MOST]);
            }
            _ => {}
        }
        if random.chance(10) {
            segment.bars = (1 << made.strategies.len()) - 1;
        }
    }
    set_limits(random, &mut made);
    perhaps_led(random, made)
}

/// A file for the program `page`: most often of a district as above.
pub fn any_page_file(random: &mut Random) -> Vec<u8> {
    match random.below(10) {
        0..=6 => file::encode(&page_district(random)),
        7 => damaged_file(random, true),
        _ => any_file(random),
    }
}

/// Any bytes a load might bring: a sound file, a damaged one, or noise.
pub fn any_file(random: &mut Random) -> Vec<u8> {
    match random.below(100) {
        0..=54 => {
            let shape = shape(random);
            let made = district(random, shape);
            file_of(random, made)
        }
        55..=94 => damaged_file(random, true),
        95..=96 => {
            let length = random.size(0, 200);
            random.bytes(length)
        }
        97 => Vec::new(),
        // Longer than any valid file, with a sound beginning.
        98 => {
            let made = district(random, WIDEST);
            let mut bytes = file_of(random, made);
            let length = random.size(1, 400);
            bytes.extend(random.bytes(length));
            bytes
        }
        _ => {
            let length = random.size(4_000, 9_000);
            random.bytes(length)
        }
    }
}

/// A sound file, in either form: with leaders, without, or with none set
/// in the form that has them.
fn file_of(random: &mut Random, made: District) -> Vec<u8> {
    let made = perhaps_led(random, made);
    match random.chance(10) {
        true => file::encode_led(&made),
        false => file::encode(&made),
    }
}

/// A frame for the codec: any file, now and then a long one.
pub fn any_frame(random: &mut Random) -> Vec<u8> {
    let mut frame = any_file(random);
    if random.chance(1) {
        frame.resize(random.size(frame.len(), 65_536), 0);
    }
    frame
}

/// A sound file, with leaders or in the older form alone, with one thing wrong
/// (or, seldom, still right).
pub fn damaged_file(random: &mut Random, leaders: bool) -> Vec<u8> {
    let shape = match random.chance(80) {
        true => small_shape(random, 6, 4),
        false => shape(random),
    };
    let mut made = district(random, shape);
    if leaders && random.chance(10) {
        return misled_file(random, made);
    }
    if random.chance(30) {
        to_an_end(random, &mut made);
        return file::encode(&made);
    }
    let bytes = if leaders { file_of(random, made) } else { file::encode(&made) };
    damaged(random, bytes)
}

/// A sound file with one thing wrong (or, seldom, still right).
fn damaged(random: &mut Random, mut bytes: Vec<u8>) -> Vec<u8> {
    let starts = record_starts(&bytes);
    let start = *random.pick(&starts);
    let length = usize::from(u16::from_le_bytes([bytes[start], bytes[start + 1]]));
    match random.below(11) {
        // Cut anywhere, or just behind a record.
        0 => bytes.truncate(random.size(0, bytes.len() - 1)),
        1 => bytes.truncate(start),
        2 => bytes[start + 2] = *random.pick(&[0, 1, 2, 3, 4, 5, 6, 7, 8, 255]),
        3 => bytes[start + 3] = random.within(1, 255) as u8,
        4 => bytes[start] = bytes[start].wrapping_add(*random.pick(&[1, 2, 255])),
        5 => bytes[start + 1] = random.within(1, 255) as u8,
        // One byte of a payload, often to an end of its range.
        6 | 7 if length > 0 => {
            let at = start + 4 + random.size(0, length - 1);
            bytes[at] = match random.chance(70) {
                true => *random.pick(&[0, 1, 11, 12, 16, 17, 50, 51, 100, 101, 127, 128, 201, 205, 206, 255]),
                false => random.draw() as u8,
            };
        }
        8 => {
            let extra = random.size(1, 5);
            bytes.extend(random.bytes(extra));
        }
        // A count at an end of its range or beyond it.
        10 => {
            let (at, most) = *random.pick(&[(4, 64), (5, 11), (6, 10), (7, 9), (8, 4), (9, 16)]);
            bytes[at] = *random.pick(&[0, 1, most, most + 1, 255]);
        }
        // A record left out or there twice.
        9 => {
            let record = bytes[start..start + 4 + length].to_vec();
            if random.chance(50) {
                bytes.drain(start..start + 4 + length);
            } else {
                bytes.splice(start..start, record);
            }
        }
        _ => {
            let at = random.size(0, bytes.len() - 1);
            bytes[at] ^= 1 << random.below(8);
        }
    }
    bytes
}

/// A file to be turned: most often of the form that is, sound or with one or two
/// things wrong, with leaders set where there are some; else of the form that is
/// wanted, or any file at all.
pub fn any_turned_file(random: &mut Random, way: Way) -> Vec<u8> {
    let shape = match random.below(20) {
        0..=9 => small_shape(random, 6, 4),
        10 | 11 => WIDEST,
        _ => shape(random),
    };
    let mut made = district(random, shape);
    let wanted = random.chance(12);
    let form = match (way, wanted) {
        (Way::Up, false) | (Way::Down, true) => file::PLAIN,
        _ => file::LED,
    };
    if form == file::LED && random.chance(40) {
        set_leaders(random, &mut made);
    }
    match random.below(100) {
        0..=39 => file::encode_as(&made, form),
        // Behind a leader that is set something else is wrong, most often near the end.
        40..=49 => {
            let mut bytes = file::encode_as(&made, form);
            match random.below(3) {
                0 => bytes.push(random.draw() as u8),
                1 => bytes.truncate(bytes.len() - random.size(1, 40)),
                _ => {
                    let at = bytes.len() - random.size(1, 40);
                    bytes[at] = random.draw() as u8;
                }
            }
            bytes
        }
        50..=59 => {
            to_an_end(random, &mut made);
            file::encode_as(&made, form)
        }
        60..=64 if form == file::LED => misled_file(random, made),
        60..=84 => damaged(random, file::encode_as(&made, form)),
        // The other form's first kind, before segments of this one.
        85..=88 => {
            let mut bytes = file::encode_as(&made, form);
            bytes[2] ^= (file::PLAIN ^ file::LED) as u8;
            bytes
        }
        89..=91 => {
            let once = damaged(random, file::encode_as(&made, form));
            let noise = random.size(0, 3);
            [once, random.bytes(noise)].concat()
        }
        _ => any_file(random),
    }
}

/// A file in which one leader is its own number, or near it, or any byte.
fn misled_file(random: &mut Random, mut made: District) -> Vec<u8> {
    set_leaders(random, &mut made);
    if !made.segments.is_empty() {
        let i = random.size(0, made.segments.len() - 1);
        let own = i as u8 + 1;
        made.segments[i].leader = *random.pick(&[own, own, own + 1, own - 1, 64, 65, 128, 255]);
    }
    file::encode_led(&made)
}

/// Puts one value at an end of its range, most often one step beyond it.
fn to_an_end(random: &mut Random, district: &mut District) {
    let beyond = u8::from(random.chance(75));
    let wide = u16::from(beyond);
    let upper = random.chance(50);
    let (s, y) = (district.strategies.len(), district.types.len() as u8);
    let strategy = random.size(0, s - 1);
    let strategy = &mut district.strategies[strategy];
    let pavement = random.size(0, district.types.len() - 1);
    let pavement = &mut district.types[pavement];
    let limit = random.size(0, district.limits.len() - 1);
    let k = random.size(0, district.greatest.len() - 1);
    let cell = random.size(0, pavement.minimum.len() - 1);
    let fields = if district.segments.is_empty() { 7 } else { 14 };
    let which = random.below(fields);
    if which >= 7 {
        let i = random.size(0, district.segments.len() - 1);
        let segment = &mut district.segments[i];
        match which {
            7 => segment.pavement = if upper { y + beyond } else { 1 - beyond },
            8 => segment.traffic = if upper { INDEX_MOST + wide } else { INDEX_LEAST - wide },
            9 => segment.environment = if upper { INDEX_MOST + wide } else { INDEX_LEAST - wide },
            10 => segment.length = if upper { LENGTH_MOST + wide } else { 1 - wide },
            11 => segment.width = if upper { WIDTH_MOST + beyond } else { 1 - beyond },
            12 => segment.bars |= 1 << (s - 1 + usize::from(beyond)),
            _ => segment.ratings[k] = district.greatest[k] + beyond,
        }
        return;
    }
    match which {
        0 => district.limits[limit] = LIMIT_MOST + u32::from(beyond),
        1 => district.greatest[k] = if upper { RATING_MOST + beyond } else { 1 - beyond },
        2 => strategy.requirements[limit] = REQUIREMENT_MOST + u32::from(beyond),
        3 => strategy.gains[k] = (GAIN_MOST + beyond as i8) * if upper { 1 } else { -1 },
        4 => strategy.survival[cell] = 100 + beyond,
        5 => pavement.overall = OVERALL_MOST + wide,
        _ => pavement.minimum[cell] = RATING_MOST + beyond,
    }
}

/// Where the records of a sound file begin.
pub fn record_starts(bytes: &[u8]) -> Vec<usize> {
    let mut starts = Vec::new();
    let mut at = 0;
    while at < bytes.len() {
        starts.push(at);
        at += 4 + usize::from(u16::from_le_bytes([bytes[at], bytes[at + 1]]));
    }
    starts
}

/// A panel script and the files it loads, with paths relative to one folder.
pub struct Script {
    pub text: Vec<u8>,
    pub files: Vec<(String, Vec<u8>)>,
    /// Folders to make, for loads and exports that can't succeed.
    pub folders: Vec<String>,
}

impl Script {
    /// Puts files and folders in place below `folder`.
    pub fn write(&self, folder: &Path) -> io::Result<()> {
        fs::create_dir_all(folder)?;
        for name in &self.folders {
            fs::create_dir_all(folder.join(name))?;
        }
        for (name, bytes) in &self.files {
            fs::write(folder.join(name), bytes)?;
        }
        Ok(())
    }
}

/// Each segment and strategy of a district, and some that there are not, asked
/// why, and again after each of some edits.
fn asking_script(random: &mut Random) -> Script {
    let made = telling_district(random);
    let made = perhaps_led(random, made);
    let (n, s, r) = (made.segments.len() as u64, made.strategies.len() as u64, made.limits.len() as u64);
    let mut text = b"load d0.bin\n".to_vec();
    for _ in 0..=random.below(6) {
        for (i, j) in (1..=n).flat_map(|i| (1..=s).map(move |j| (i, j))) {
            text.extend(format!("why {i} {j}\n").into_bytes());
        }
        let odd =
            [numeral(random, n), numeral(random, s), random.below(n + 2).to_string(), random.below(s + 2).to_string()];
        text.extend(format!("why {} {}\nwhy {} {}\nshow\n", odd[0], odd[1], odd[2], odd[3]).into_bytes());
        let (i, j) = (random.within(1, n), random.within(1, s));
        let edit = match random.below(6) {
            5 => format!("leader {i} {}\n", random.below(i)),
            0 => format!("bar {i} {j}\n"),
            1 => format!("unbar {i} {j}\n"),
            2 => format!("rating {i} {} {}\n", random.size(1, made.greatest.len()), random.below(21)),
            _ => format!("limit {} {}\n", random.within(1, r), random.below(80)),
        };
        text.extend(edit.into_bytes());
    }
    Script { text, files: vec![("d0.bin".to_string(), file::encode(&made))], folders: vec!["folder".to_string()] }
}

/// Records of the survey van, points asked for between them, and now and then
/// any other line: a load, an edit, one that is no command.
fn metering_script(random: &mut Random) -> Script {
    let shape = small_shape(random, 4, 3);
    let mut files = vec![("d0.bin".to_string(), file::encode(&district(random, shape)))];
    files.push(("bad.bin".to_string(), damaged_file(random, true)));
    let mut text = Vec::new();
    let count = random.size(1, 300);
    for record in lists::records(random, count) {
        if random.chance(4) {
            text.extend(script_line(random, &files, [4, 3, 3, 3, 2, 3]));
            text.push(b'\n');
        }
        text.extend(record_line(&record).into_bytes());
        text.push(b'\n');
    }
    text.extend(b"roughness\nshow\n");
    Script { text, files, folders: vec!["folder".to_string()] }
}

/// A record, or a question for points, as a command.
fn record_line(record: &Call) -> String {
    match record {
        Call::Index(bits) => format!("index {bits}"),
        Call::Marker(bits) => format!("marker {bits}"),
        Call::Lost => "lost".to_string(),
        _ => "roughness".to_string(),
    }
}

/// Both offices: loads with equal tables and with others, edits, records and
/// questions, and lines that say which office later ones name.
fn sharing_script(random: &mut Random) -> Script {
    let shape = small_shape(random, 5, 4);
    let tables = district(random, shape);
    let mut files = vec![("d0.bin".to_string(), file::encode(&tables))];
    for at in 1..random.size(4, 8) {
        files.push((format!("d{at}.bin"), lists::shared_file(random, &tables)));
    }
    let most = [5, shape.strategies, 0, shape.distress_types, 0, shape.resources];
    let mut text = Vec::new();
    for _ in 0..random.size(10, 60) {
        let line = match random.below(100) {
            0..=24 => format!("office {}", random.pick(&["1", "2", "2", "01"])).into_bytes(),
            25 | 26 => format!("office {}", numeral(random, 2)).into_bytes(),
            27 => {
                let wrong = ["0", "3", "257", "65537", "4294967297", "4294967298", "18446744073709551615"];
                format!("office {}", random.pick(&wrong)).into_bytes()
            }
            28 => random
                .pick(&["office", "office ", "office 1 2", "offices 1", "Office 2", "office x"])
                .as_bytes()
                .to_vec(),
            29..=44 => format!("load {}", random.pick(&files).0).into_bytes(),
            45..=54 => b"show".to_vec(),
            55..=59 => b"page".to_vec(),
            60..=64 => b"roughness".to_vec(),
            _ => script_line(random, &files, most),
        };
        text.extend(line);
        text.push(b'\n');
    }
    for office in ["1", "2"] {
        text.extend(format!("office {office}\nshow\npage\nexport last{office}.bin\nroughness\n").into_bytes());
    }
    Script { text, files, folders: vec!["folder".to_string()] }
}

/// Four consoles: edits that arrive at them for both offices, steps, and loads
/// and other lines between them. Then steps till nothing waits any more, and what
/// both offices hold.
fn queueing_script(random: &mut Random) -> Script {
    let shape = Shape { segments: random.size(2, 5), ..small_shape(random, 0, 4) };
    let tables = district(random, shape);
    let mut files = vec![("d0.bin".to_string(), file::encode(&tables))];
    for at in 1..random.size(3, 6) {
        files.push((format!("d{at}.bin"), lists::shared_file(random, &tables)));
    }
    let most = [5, shape.strategies, 0, shape.distress_types, 0, shape.resources];
    let busy = random.within(1, 4);
    let arrivals = *random.pick(&[30, 50, 70]);
    let mut text = b"load d0.bin\n".to_vec();
    for _ in 0..random.size(20, 90) {
        let line = match random.below(100) {
            share if share < arrivals => queue_line(random, busy, most),
            80..=87 => {
                let office = random.pick(&["1", "2", "1", "2", "1", "2", "3", "4294967297"]);
                format!("office {office}").into_bytes()
            }
            88..=91 => format!("load {}", random.pick(&files).0).into_bytes(),
            92..=94 => b"show".to_vec(),
            95..=97 => script_line(random, &files, most),
            _ => b"step".to_vec(),
        };
        text.extend(line);
        text.push(b'\n');
    }
    text.extend(b"step\n".repeat(random.size(0, 33)));
    for office in ["1", "2"] {
        text.extend(format!("office {office}\nshow\npage\nexport last{office}.bin\n").into_bytes());
    }
    Script { text, files, folders: vec!["folder".to_string()] }
}

/// A line that has an edit wait: at the console that is busy, at another one, now
/// and then at a number that is none.
fn queue_line(random: &mut Random, busy: u64, most: [usize; 6]) -> Vec<u8> {
    let console = match random.below(20) {
        0 => random.pick(&["0", "5", "257", "65537", "4294967297", "18446744073709551615"]).to_string(),
        1..=10 => busy.to_string(),
        _ => numeral(random, 4),
    };
    format!("queue {console} {}", edit_line(random, most)).into_bytes()
}

/// An edit as a command.
fn edit_line(random: &mut Random, most: [usize; 6]) -> String {
    let [n, s, _, d, _, r] = most.map(|count| count as u64);
    match random.below(5) {
        0 => format!("bar {} {}", numeral(random, n), numeral(random, s)),
        1 => format!("unbar {} {}", numeral(random, n), numeral(random, s)),
        2 => format!("limit {} {}", numeral(random, r), numeral(random, 200)),
        3 => format!("rating {} {} {}", numeral(random, n), numeral(random, d), numeral(random, 50)),
        _ => format!("leader {} {}", numeral(random, n), random.below(n)),
    }
}

/// Blocks: choices for what an office holds, and for what it held before, edits and
/// loads between them, and what is shown.
fn blocking_script(random: &mut Random) -> Script {
    let shape = Shape { segments: random.size(2, 9), ..small_shape(random, 0, 4) };
    let tables = district(random, shape);
    let mut made = vec![perhaps_led(random, tables.clone())];
    for _ in 0..random.size(1, 3) {
        let segments = random.size(0, 9);
        let other = resettled(random, &tables, segments);
        made.push(perhaps_led(random, other));
    }
    let files: Vec<(String, Vec<u8>)> =
        made.iter().enumerate().map(|(at, one)| (format!("d{at}.bin"), file::encode(one))).collect();
    let most = [9, shape.strategies, 0, shape.distress_types, 0, shape.resources];
    let mut text = b"load d0.bin\n".to_vec();
    let (mut held, mut row) = (0, Vec::new());
    for _ in 0..random.size(10, 50) {
        let line = match random.below(100) {
            0..=29 => {
                row = choice(random, &made[held]);
                blocks_line(random, &row, 2 + shape.resources)
            }
            30..=46 => {
                let (resource, limit) = lists::limit_at_parts(random, &row, &made[held]);
                format!("limit {resource} {limit}")
            }
            47..=59 => edit_line(random, most),
            60..=66 => {
                held = random.size(0, made.len() - 1);
                format!("load d{held}.bin")
            }
            67..=72 => format!("office {}", random.pick(&["1", "2", "1", "2", "1", "3"])),
            73..=76 => format!("queue {} {}", random.within(1, 4), edit_line(random, most)),
            77..=79 => "step".to_string(),
            80..=83 => "page".to_string(),
            84..=87 => format!("why {} {}", numeral(random, 9), numeral(random, shape.strategies as u64)),
            _ => "show".to_string(),
        };
        text.extend(format!("{line}\nshow\n").into_bytes());
    }
    text.extend(b"export last.bin\nload last.bin\nshow\n");
    Script { text, files, folders: vec!["folder".to_string()] }
}

/// A row of blocks of this size as a command, now and then written otherwise than it
/// has to be, or none.
fn blocks_line(random: &mut Random, row: &[u32], size: usize) -> String {
    if random.chance(8) {
        return "blocks".to_string();
    }
    let mut row: Vec<u64> = row.iter().map(|&number| number.into()).collect();
    if !row.is_empty() && random.chance(8) {
        widen(random, &mut row, size);
    }
    let block = |block: &[u64]| block.iter().map(u64::to_string).collect::<Vec<_>>().join(" ");
    let line = row.chunks(size).map(block).collect::<Vec<_>>().join(" / ");
    match random.below(30) {
        0 => format!("blocks {}", line.replace(" / ", " ")),
        1 => format!("blocks {}", line.replace(" / ", "/")),
        2 => format!("blocks {line} /"),
        3 => format!("blocks / {line}"),
        4 => format!("blocks {line} 0"),
        5 => format!("blocks {line} "),
        6 => format!("blocks {}", vec![&line[..]; random.size(2, 60)].join(" / ")),
        7 => format!("blocks {}", line.replace(' ', " 000000000000000000")),
        _ => format!("blocks {line}"),
    }
}

/// Numbers of 64 bits in a row: parts that add to more than that, one that is the
/// right one in its low 32 bits alone, or a last segment behind which there is none.
fn widen(random: &mut Random, row: &mut [u64], size: usize) {
    match random.below(3) {
        0 => row.iter_mut().skip(size - 1).step_by(size).for_each(|part| *part = 1 << 63),
        1 => row[random.size(0, row.len() - 1)] += 1 << 32,
        _ => row.iter_mut().skip(1).step_by(size - 1).take(2).zip([u64::MAX, 0]).for_each(|(at, new)| *at = new),
    }
}

pub fn script(random: &mut Random) -> Script {
    match random.below(100) {
        0..=16 => return sharing_script(random),
        17..=33 => return queueing_script(random),
        34..=50 => return blocking_script(random),
        51..=65 => return asking_script(random),
        66..=75 => return metering_script(random),
        _ => {}
    }
    let mut files = Vec::new();
    let mut largest = [4, 3, 3, 3, 2, 3];
    for at in 0..random.size(1, 3) {
        let made = if random.chance(20) {
            page_district(random)
        } else {
            let shape = match random.below(20) {
                0 => shape(random),
                1..=4 => shape_up_to(random, [20, 11, 5, 5, 4, 8]),
                _ => small_shape(random, 6, 4),
            };
            district(random, shape)
        };
        let (segments, strategies, distress_types) = (made.segments.len(), made.strategies.len(), made.greatest.len());
        let counts = [segments, strategies, made.years, distress_types, 0, made.limits.len()];
        for (most, count) in largest.iter_mut().zip(counts) {
            *most = count.max(*most);
        }
        files.push((format!("d{at}.bin"), file_of(random, made)));
    }
    if random.chance(60) {
        files.push(("bad.bin".to_string(), damaged_file(random, true)));
    }
    if random.chance(10) {
        files.push(("any file.bin".to_string(), any_file(random)));
    }
    let folders = vec!["folder".to_string()];

    let mut text = Vec::new();
    for at in 0..random.size(5, 40) {
        if at == 0 && random.chance(80) {
            text.extend(b"load d0.bin\n");
            continue;
        }
        text.extend(script_line(random, &files, largest));
        text.extend(match random.below(60) {
            0 => &b"\r\n"[..],
            1 => b"\n\n",
            _ => b"\n",
        });
    }
    if random.chance(90) {
        text.extend(b"show\nexport last.bin\n");
    }
    // The last line may lack its line feed.
    if random.chance(15) {
        text.pop();
    }
    Script { text, files, folders }
}

/// One line of a script, without its line feed.
fn script_line(random: &mut Random, files: &[(String, Vec<u8>)], largest: [usize; 6]) -> Vec<u8> {
    let [n, s, _, d, _, r] = largest.map(|count| count as u64);
    let line = match random.below(100) {
        0..=9 => format!("load {}", random.pick(files).0),
        10..=11 => {
            format!("load {}", random.pick(&["missing.bin", "folder", "folder/none", "out0.bin", " d0.bin", "d0.bin "]))
        }
        12..=19 => format!("export {}", random.pick(&["out0.bin", "out1.bin", "folder/out 2.bin", "d0.bin"])),
        20..=21 => format!("export {}", random.pick(&["folder", "none/out.bin", "folder/", "."])),
        22..=28 => format!("bar {} {}", numeral(random, n), numeral(random, s)),
        29..=35 => {
            let segment = random.within(1, n);
            match random.chance(70) {
                true => format!("leader {segment} {}", random.below(segment)),
                false => format!("leader {} {}", numeral(random, n), numeral(random, n)),
            }
        }
        36..=41 => format!("unbar {} {}", numeral(random, n), numeral(random, s)),
        42..=53 => {
            let value = match random.below(12) {
                0 => 999_999_999,
                1 => 1_000_000_000,
                2 => random.draw(),
                3 => 0,
                4..=6 => random.within(0, 200),
                _ => random.within(0, 100_000),
            };
            format!("limit {} {value}", numeral(random, r))
        }
        54..=63 => format!("rating {} {} {}", numeral(random, n), numeral(random, d), numeral(random, 50)),
        64..=68 => "show".to_string(),
        69..=71 => "page".to_string(),
        72..=75 => format!("why {} {}", numeral(random, n), numeral(random, s)),
        76..=80 => record_line(&lists::records(random, 1)[0]),
        81 => format!("{} {}", random.pick(&["index", "marker"]), numeral(random, u32::MAX.into())),
        82..=88 => {
            let code = numeral(random, 8);
            let degree = random.below(4);
            let extent = numeral(random, 3);
            let seal = match random.chance(50) {
                true => random.below(4).to_string(),
                false => u64::from(code.parse::<u64>().unwrap_or(0) > 6).to_string(),
            };
            format!("points {code} {degree} {extent} {seal}")
        }
        _ => return odd_line(random),
    };
    line.into_bytes()
}

/// A number from 1 to `most` as text, now and then one that is not.
fn numeral(random: &mut Random, most: u64) -> String {
    match random.below(40) {
        0 => "0".to_string(),
        1 => (most + 1).to_string(),
        2 => random.draw().to_string(),
        3 => format!("{:020}", random.within(1, most)),
        4 => random.pick(&["18446744073709551615", "255", "256", "257", "65537", "4294967297"]).to_string(),
        5 if random.chance(30) => random
            .pick(&[
                "18446744073709551616",
                "99999999999999999999",
                "000000000000000000001",
                "-1",
                "+1",
                "1.0",
                "",
                "x",
                "0x1",
                "1\t",
            ])
            .to_string(),
        _ => random.within(1, most).to_string(),
    }
}

/// Lines at the edge of the console's language and beyond it.
fn odd_line(random: &mut Random) -> Vec<u8> {
    match random.below(14) {
        0 => b"# a remark".to_vec(),
        1 => [b"#".to_vec(), vec![b'x'; random.size(400, 2_000)]].concat(),
        2 => random.pick(&[&b""[..], b" ", b"\t \r", b"   "]).to_vec(),
        3 => random
            .pick(&[
                &b"load"[..],
                b"load ",
                b"export",
                b"export ",
                b"show ",
                b" show",
                b"Show",
                b"show 1",
                b"page 1",
                b"page ",
                b"Page",
                b"pages",
                b"bar",
                b"bar 1",
                b"bar 1 1 1",
                b"bar  1 1",
                b"bar 1 1 ",
                b"unbar 1,1",
                b"limit 1",
                b"limit 1 -5",
                b"rating 1 1",
                b"rating 1 1 1 1",
                b"points 1 1 1",
                b"points",
                b"why 1",
                b"why 1 1 1",
                b"index",
                b"index ",
                b"index 0 0",
                b"index 4294967296",
                b"Index 0",
                b"marker",
                b"marker -1",
                b"marker 18446744073709551615",
                b"leader",
                b"leader 1",
                b"leader 1 0 0",
                b"leader 1 -1",
                b"Leader 1 0",
                b"leaders 1 0",
                b"office",
                b"office 18446744073709551616",
                b"queue",
                b"queue 1",
                b"queue 1 ",
                b"queue bar 1 1",
                b"queue 1 bar 1",
                b"queue 5 bar 1",
                b"queue 1 bar 1 1 ",
                b"queue 1  bar 1 1",
                b"queue  1 bar 1 1",
                b"queue x bar 1 1",
                b"queue 1 show",
                b"queue 1 step",
                b"queue 1 load d0.bin",
                b"queue 1 queue 1 bar 1 1",
                b"queue 18446744073709551616 bar 1 1",
                b"Queue 1 bar 1 1",
                b"queues 1 bar 1 1",
                b"step 1",
                b"step ",
                b"Step",
                b"steps",
                b"blocks ",
                b"blocks 1",
                b"blocks /",
                b"blocks 1 1",
                b"blocks x",
                b"Blocks",
                b"block",
                b" blocks",
                b"queue 1 blocks",
                b"lost 0",
                b"lost ",
                b"roughness 1",
                b"roughness ",
                b"quit",
                b"load\td0.bin",
                b" # no remark",
            ])
            .to_vec(),
        4 => {
            // Around the longest line: blank, then not.
            let length = random.size(4_094, 4_099);
            vec![*random.pick(b" x"); length]
        }
        5 => {
            // Around the longest path; no file has such a name.
            let length = random.size(253, 258);
            [b"load ".to_vec(), vec![b'p'; length]].concat()
        }
        6 => {
            let length = random.size(253, 258);
            [b"export none/".to_vec(), vec![b'p'; length - 5]].concat()
        }
        7 => b"load d0\0.bin".to_vec(),
        8 => vec![b'9'; random.size(1, 3_000)],
        9 => {
            let length = random.size(60_000, 70_000);
            vec![b'a'; length]
        }
        10 => "load stra\u{df}e.bin".as_bytes().to_vec(),
        _ => {
            let length = random.size(1, 40);
            let mut bytes = random.bytes(length);
            // One line stays one line, and noise is no command.
            bytes.iter_mut().filter(|byte| **byte == b'\n').for_each(|byte| *byte = 0);
            bytes
        }
    }
}
