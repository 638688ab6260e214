//! A district planned block by block, and then as a whole.
//!
//! A block is a run of consecutive segments with its own part of every limit. An
//! office's choice of blocks is a row of numbers, block after block: its first
//! segment, its last one, and its parts. Whether the row is followed is asked at each
//! working out, of the district held then; where it is not, the ordinary plan is made.

use crate::district::{District, Segment};
use crate::phases::{self, Outcome};
use crate::tables::Tables;

pub const MOST_BLOCKS: usize = 4;

/// The blocks of a row, each as a district of its own, where the row is followed.
pub fn followed(row: &[u64], district: &District) -> Option<Vec<District>> {
    let size = 2 + district.limits.len();
    let blocks: Vec<&[u64]> = row.chunks(size).collect();
    let whole = row.len() % size == 0 && (1..=MOST_BLOCKS).contains(&blocks.len());
    let follows =
        whole && cover(&blocks, district) && parts_fit(&blocks, district) && leaders_inside(&blocks, district);
    follows.then(|| blocks.iter().map(|block| alone(block, district)).collect())
}

/// They have each of 1 to N once and in order, and none is empty.
fn cover(blocks: &[&[u64]], district: &District) -> bool {
    let count = district.segments.len() as u64;
    let mut next = 1;
    for block in blocks {
        let (first, last) = (block[0], block[1]);
        if first != next || last < first || last > count {
            return false;
        }
        next = last + 1;
    }
    next == count + 1
}

/// For each resource all parts together are not above the limit.
fn parts_fit(blocks: &[&[u64]], district: &District) -> bool {
    let sum = |r: usize| -> u128 { blocks.iter().map(|block| u128::from(block[2 + r])).sum() };
    district.limits.iter().enumerate().all(|(r, &limit)| sum(r) <= limit.into())
}

/// Each leader lies in the block of its segment.
fn leaders_inside(blocks: &[&[u64]], district: &District) -> bool {
    let inside = |block: &&[u64]| {
        let leader = |i: usize| u64::from(district.segments[i].leader);
        places(block).map(leader).all(|leader| leader == 0 || (block[0]..=block[1]).contains(&leader))
    };
    blocks.iter().all(inside)
}

/// The places of a block's segments in the district.
fn places(block: &[u64]) -> std::ops::Range<usize> {
    block[0] as usize - 1..block[1] as usize
}

/// A block by itself: its segments counted from 1, leaders too, and its parts as limits.
fn alone(block: &[u64], district: &District) -> District {
    let before = places(block).start as u8;
    let own = |segment: &Segment| Segment { leader: segment.leader.saturating_sub(before), ..segment.clone() };
    District {
        limits: block[2..].iter().map(|&part| part as u32).collect(),
        segments: district.segments[places(block)].iter().map(own).collect(),
        ..district.clone()
    }
}

/// Each block is planned alone, the lists are joined, and phases 2 and 3 run over the
/// district. Steps are those of all blocks.
pub fn run(tables: &Tables, blocks: &[District]) -> Outcome {
    let mut joined = Vec::new();
    let mut steps = 0;
    for block in blocks {
        let own = Tables::fill(block);
        let outcome = phases::run(&own);
        joined.extend(own.strategies(&outcome.choice));
        steps += outcome.steps;
    }
    Outcome { steps, ..phases::go_on(tables, &joined) }
}
