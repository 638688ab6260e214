//! Districts planned in blocks: worked out by hand, which rows are followed by a
//! second way to ask, and whole lists with a choice kept beside.

mod common;

use common::{card_bytes, CARD_LISTING};
use reference::blocks::followed;
use reference::calls::{decode, encode, encode_by, worked, Call};
use reference::counties::{districts, five, quarters, sixteen, HALVES};
use reference::desk::{Desk, Edit};
use reference::district::{District, MOST_SEGMENTS};
use reference::file;
use reference::lists;
use reference::make;
use reference::random::Random;
use reference::unit::{plan, plan_in, Plan, Unit};
use reference::vectors::{led, small};

fn wide(row: &[u32]) -> Vec<u64> {
    row.iter().map(|&number| number.into()).collect()
}

/// A plan as its list, its total in ten thousands, and its counts.
fn figures(plan: &Plan, segments: usize) -> (Vec<u8>, i64, [u64; 3]) {
    (plan.strategies[..segments].to_vec(), plan.total / 10_000, [plan.steps, plan.pickups, plan.changes])
}

#[test]
fn by_hand() {
    let expected = [
        (vec![1, 1, 1, 1], 40, [1, 1, 0]),
        (vec![2, 0], 19, [0, 0, 0]),
        (vec![0, 2], 19, [0, 0, 0]),
        (vec![0, 2], 19, [0, 0, 1]),
        (vec![2], 15, [0, 0, 1]),
        (vec![2, 2], 30, [0, 0, 1]),
        (vec![0, 0, 2], 19, [4, 0, 0]),
        (vec![1, 0, 0, 2], 11, [1, 0, 0]),
        (vec![1, 1, 0, 0], 20, [1, 1, 0]),
        (vec![1, 1, 1, 1], 40, [1, 2, 0]),
        (vec![2, 2, 1, 1], 50, [0, 0, 2]),
        (vec![1, 2, 2, 1], 50, [0, 3, 1]),
        (vec![0, 2], 10, [1, 0, 0]),
    ];
    assert_eq!(districts().len(), expected.len());
    for ((district, row), expected) in districts().into_iter().zip(expected) {
        let shown = plan_in(&district, &wide(&row));
        assert_eq!(figures(&shown, district.segments.len()), expected, "{row:?}");
        assert_eq!(shown.ceiling, plan(&district).ceiling);
    }
    // Without blocks the second district gives its room to the other segment, and the eighth picks up.
    let ordinary = |at: usize| figures(&plan(&districts()[at].0), districts()[at].0.segments.len());
    assert_eq!(ordinary(1), (vec![0, 2], 19, [2, 0, 0]));
    assert_eq!(ordinary(7), (vec![1, 0, 0, 2], 11, [1, 1, 0]));
    assert_eq!(ordinary(12), (vec![1, 0], 10, [1, 0, 0]));
    assert_eq!(figures(&plan_in(&five(), &wide(&HALVES)), 5), (vec![1; 5], 50, [1, 1, 0]));
    assert_eq!(plan_in(&sixteen(), &wide(&quarters())).pickups, 1);
}

/// The total after phase 2 is that of the district's run: behind the pick-ups in it,
/// and before its changes.
#[test]
fn total_after_phase_two() {
    let after: Vec<i64> = districts()
        .iter()
        .map(|(district, row)| plan_in(district, &wide(row)).total_after_phase_two / 10_000)
        .collect();
    assert_eq!(after, [40, 19, 19, 18, 10, 25, 19, 11, 20, 40, 40, 45, 10]);
}

/// Whether a row is followed, by the segments that its blocks have one by one.
fn asked_otherwise(district: &District, row: &[u64]) -> bool {
    let size = district.limits.len() + 2;
    if row.is_empty() || row.len() % size != 0 {
        return false;
    }
    let blocks: Vec<Vec<u64>> = row.chunks(size).map(|block| (block[0]..=block[1]).take(65).collect()).collect();
    let in_order = blocks.concat() == (1..=district.segments.len() as u64).collect::<Vec<_>>();
    let enough = |r: usize| {
        row.chunks(size).try_fold(u64::from(district.limits[r]), |rest, block| rest.checked_sub(block[2 + r])).is_some()
    };
    let block_of = |segment: u64| blocks.iter().position(|block| block.contains(&segment));
    let together = |(own, leader): (u64, u64)| leader == 0 || block_of(own) == block_of(leader);
    let leaders = (1..).zip(&district.segments).map(|(own, segment)| (own, segment.leader.into()));
    blocks.len() <= 4
        && blocks.iter().all(|block| !block.is_empty())
        && in_order
        && (0..district.limits.len()).all(enough)
        && leaders.into_iter().all(together)
}

/// All rows of up to two blocks over small numbers, for each way to lead three segments.
#[test]
fn every_small_row() {
    let mut found = 0;
    for leaders in [[0, 0, 0], [0, 1, 0], [0, 0, 1], [0, 0, 2], [0, 1, 2]] {
        let district = led(small(&[3], &[(&[1_000], 1, 100)], &[(100, 1, 0); 3]), &leaders);
        for first in 0..5u64.pow(3) {
            let block = [first / 25, first / 5 % 5, first % 5];
            assert_eq!(followed(&block, &district).is_some(), asked_otherwise(&district, &block), "{block:?}");
            for second in 0..5u64.pow(3) {
                let row = [&block[..], &[second / 25, second / 5 % 5, second % 5]].concat();
                let follows = followed(&row, &district).is_some();
                assert_eq!(follows, asked_otherwise(&district, &row), "{row:?} {leaders:?}");
                found += u32::from(follows);
            }
        }
    }
    assert!(found > 20, "{found}");
}

/// A block is planned as the whole district is with its parts as limits and every
/// strategy barred outside it.
fn barred_outside(district: &District, block: &[u64], alone: &Plan) {
    let (first, last) = (block[0] as usize, block[1] as usize);
    let mut barred = district.clone();
    barred.limits = block[2..].iter().map(|&part| part as u32).collect();
    let outside = (1..).zip(&mut barred.segments).filter(|(i, _)| !(first..=last).contains(i));
    outside.for_each(|(_, segment)| segment.bars = (1 << district.strategies.len()) - 1);
    let whole = plan(&barred);
    let mut strategies = [0; MOST_SEGMENTS];
    strategies[first - 1..last].copy_from_slice(&alone.strategies[..=last - first]);
    assert_eq!((whole.strategies, whole.total, whole.steps), (strategies, alone.total, alone.steps));
    assert_eq!((whole.pickups, whole.changes), (alone.pickups, alone.changes));
}

/// Rows from a seed, sound and spoiled, with numbers of 64 bits among them; the final
/// total is at least the sum of the blocks' totals.
#[test]
fn rows_from_a_seed() {
    let (mut follows, mut decided, mut fallen) = (0, 0, 0);
    let mut random = Random::new(41);
    for _ in 0..6_000 {
        let shape = make::small_shape(&mut random, 9, 4);
        let mut district = make::district(&mut random, shape);
        if random.chance(40) {
            make::set_leaders(&mut random, &mut district);
        }
        let mut row = wide(&make::choice(&mut random, &district));
        if !row.is_empty() && random.chance(10) {
            let at = random.size(0, row.len() - 1);
            row[at] = *random.pick(&[1 << 32, 1 << 63, u64::MAX, (1 << 32) + row[at]]);
        }
        let blocks = followed(&row, &district);
        assert_eq!(blocks.is_some(), asked_otherwise(&district, &row), "{row:?}");
        let (shown, ordinary) = (plan_in(&district, &row), plan(&district));
        let Some(blocks) = blocks else {
            assert_eq!(shown, ordinary);
            continue;
        };
        let alone: Vec<Plan> = blocks.iter().map(plan).collect();
        assert!(shown.total >= alone.iter().map(|plan| plan.total).sum());
        assert_eq!(shown.steps, alone.iter().map(|plan| plan.steps).sum::<u64>());
        assert_eq!(shown.ceiling, ordinary.ceiling);
        row.chunks(2 + district.limits.len())
            .zip(&alone)
            .for_each(|(block, alone)| barred_outside(&district, block, alone));
        follows += 1;
        decided += u32::from(shown.strategies != ordinary.strategies);
        fallen += u32::from(shown.total < ordinary.total);
    }
    assert!(follows > 2_000 && decided > 50 && fallen > 20, "{follows} {decided} {fallen}");
}

/// Sums of parts are exact, also past 64 bits.
#[test]
fn sums_of_parts() {
    let district = five();
    let half = 1 << 63;
    for parts in [[half, half], [half, half + 10], [u64::MAX, 1], [u64::MAX, 51]] {
        let row = [1, 2, parts[0], 0, 3, 5, parts[1], 0];
        assert!(followed(&row, &district).is_none());
    }
    assert!(followed(&[1, 2, 10, 0, 3, 5, 40, 100], &district).is_some());
    assert!(followed(&[1, 2, 10, 0, 3, 5, 41, 100], &district).is_none());
}

/// A choice is kept through edits, also where it is not followed, and dropped by a
/// load that is accepted. It is not exported.
#[test]
fn kept_and_dropped() {
    let mut unit = Unit::fresh();
    unit.load(&file::encode(&five())).unwrap();
    let ordinary = unit.show().clone();
    assert_eq!(unit.choose_blocks(&wide(&HALVES)), Ok(()));
    let in_halves = unit.show().clone();
    assert!(unit.in_blocks() && in_halves != ordinary);
    unit.set_limit(1, 49).unwrap();
    assert!(!unit.in_blocks());
    assert_eq!(unit.show(), &plan(unit.district()));
    unit.set_limit(1, 50).unwrap();
    assert_eq!(unit.show(), &in_halves);
    unit.set_leader(3, 2).unwrap();
    assert!(!unit.in_blocks());
    unit.set_leader(3, 0).unwrap();
    assert_eq!(unit.show(), &in_halves);
    assert!(unit.load(&[]).is_err());
    assert_eq!(unit.show(), &in_halves);
    let mut buffer = [0; file::LONGEST];
    let length = unit.export(&mut buffer).unwrap();
    assert_eq!(buffer[..length], file::encode(&five()));
    unit.load(&buffer[..length]).unwrap();
    assert_eq!(unit.show(), &ordinary);
    unit.set_limit(1, 50).unwrap();
    assert_eq!(unit.show(), &ordinary);
    // No numbers choose none.
    unit.choose_blocks(&wide(&HALVES)).unwrap();
    unit.choose_blocks(&[]).unwrap();
    assert_eq!(unit.show(), &ordinary);
}

/// An edit that waits is carried out on what its office has chosen by then.
#[test]
fn at_a_step() {
    let mut desk = Desk::fresh();
    desk.station.load(1, &file::encode(&five())).unwrap();
    desk.arrive(1, 1, Edit::SetLimit(1, 60)).unwrap();
    desk.station.office_mut(1).unwrap().choose_blocks(&wide(&HALVES)).unwrap();
    desk.step().unwrap().answer.unwrap();
    let unit = desk.station.office(1).unwrap();
    assert_eq!(unit.show(), &plan_in(unit.district(), &wide(&HALVES)));
    assert!(unit.in_blocks());
}

#[test]
fn lists_as_bytes() {
    let head = [18, 2, 0, 0, 0, 3, 0, 0, 0, 0, 0, 0, 0, 0, 0, 0, 0];
    let bytes = [&head[..], &[1, 0, 0, 0], &[2, 1, 0, 0], &[255; 4]].concat();
    let calls = [(2, Call::Blocks(vec![1, 258, u32::MAX]))];
    assert_eq!(encode_by(&calls), bytes);
    assert_eq!(decode(&bytes), calls);
    (0..29).for_each(|length| assert!(decode(&bytes[..length]).is_empty()));
    assert_eq!(decode(&encode(&[Call::Blocks(vec![]), Call::Lost])), [(1, Call::Blocks(vec![])), (1, Call::Lost)]);
    let shown = |office: u32, row: &[u32]| {
        worked(&encode_by(&[(1, Call::Load(card_bytes())), (office, Call::Blocks(row.to_vec()))]))
    };
    assert_eq!(shown(3, &[]), "refused 16\n");
    assert_eq!(shown(1, &[1, 2]), CARD_LISTING);
    assert_eq!(shown(2, &[1, 2, 130]), "benefit 0\nceiling 0\nsteps 0 0 0\n");
    // The part of 40 leaves segment 2 its first strategy from the start.
    assert_eq!(shown(1, &[1, 1, 60, 2, 2, 40]), CARD_LISTING.replace("steps 1", "steps 0"));
}

/// After each call of a list every plan is that of the district held and of the choice
/// that the office made last, unless it has loaded since.
#[test]
fn lists_with_a_choice_beside() {
    let mut seen = [0; 3];
    for case in 0..300 {
        let calls = lists::in_blocks(&mut Random::for_case(14, case), 40);
        let mut desk = Desk::fresh();
        let mut chosen: [Vec<u64>; 2] = Default::default();
        for (office, call) in &calls {
            let before = desk.clone();
            let answer = call.make(*office, &mut desk);
            match (call, answer) {
                (Call::Blocks(_), Err(refusal)) => {
                    assert_eq!((refusal.number(), &desk), (16, &before));
                    seen[0] += 1;
                }
                (Call::Blocks(row), Ok(())) => chosen[*office as usize - 1] = wide(row),
                (Call::Load(_), Ok(())) => chosen[*office as usize - 1].clear(),
                _ => {}
            }
            for (office, row) in (1..).zip(&chosen) {
                let unit = desk.station.office(office).unwrap();
                assert_eq!(unit.show(), &plan_in(unit.district(), row), "case {case}");
                seen[1] += u32::from(unit.in_blocks());
                seen[2] += u32::from(!row.is_empty() && !unit.in_blocks());
            }
        }
    }
    assert!(seen[0] > 20 && seen[1] > 500 && seen[2] > 500, "{seen:?}");
}
