//! What the phases and the ceiling look up, filled once for each plan.

use crate::district::District;
use crate::rating;

pub struct Tables {
    /// Number of resources.
    pub resources: usize,
    /// Each limit in the unit of the uses.
    pub room: Vec<u64>,
    pub segments: Vec<Options>,
    /// For each segment the place of its leader, which is lower than its own.
    pub leaders: Vec<Option<usize>>,
}

/// What one segment may take: nothing in place 0, then its candidates by
/// strategy number. Uses and shares have one row of resources per option.
pub struct Options {
    pub strategy: Vec<u8>,
    pub benefit: Vec<i64>,
    usage: Vec<u64>,
    share: Vec<u64>,
    down_share: Vec<u64>,
    resources: usize,
}

impl Tables {
    pub fn fill(district: &District) -> Tables {
        let resources = district.limits.len();
        let room: Vec<u64> = (0..resources).map(|r| rating::room(district, r)).collect();
        let segments = (0..district.segments.len()).map(|i| Options::of(district, i, &room)).collect();
        let leaders = district.segments.iter().map(|segment| usize::from(segment.leader).checked_sub(1)).collect();
        Tables { resources, room, segments, leaders }
    }

    /// The strategies of all segments, for the place of each one's choice among its options.
    pub fn strategies(&self, choice: &[usize]) -> Vec<u8> {
        self.segments.iter().zip(choice).map(|(segment, &option)| segment.strategy[option]).collect()
    }
}

impl Options {
    fn of(district: &District, i: usize, room: &[u64]) -> Options {
        let segment = &district.segments[i];
        let mut options = Options {
            strategy: vec![0],
            benefit: vec![0],
            usage: vec![0; room.len()],
            share: vec![0; room.len()],
            down_share: vec![0; room.len()],
            resources: room.len(),
        };
        for (j, strategy) in district.strategies.iter().enumerate() {
            // The cheap grounds for leaving it out come first.
            if rating::barred(segment, j) || !rating::fits_alone(district, segment, strategy) {
                continue;
            }
            let benefit = rating::benefit(district, segment, strategy);
            if benefit <= 0 || !rating::permitted(district, i, j) {
                continue;
            }
            options.strategy.push(j as u8 + 1);
            options.benefit.push(benefit);
            for (r, &room) in room.iter().enumerate() {
                let usage = rating::usage(segment, strategy, r);
                let (up, down) = shares(usage, room);
                options.usage.push(usage);
                options.share.push(up);
                options.down_share.push(down);
            }
        }
        options
    }

    /// How many options, nothing among them.
    pub fn count(&self) -> usize {
        self.strategy.len()
    }

    pub fn usage(&self, option: usize) -> &[u64] {
        &self.usage[option * self.resources..][..self.resources]
    }

    pub fn share(&self, option: usize) -> &[u64] {
        &self.share[option * self.resources..][..self.resources]
    }

    pub fn down_share(&self, option: usize) -> &[u64] {
        &self.down_share[option * self.resources..][..self.resources]
    }
}

/// The part of the limit that is used, in ten-thousandths, rounded up and
/// rounded down; both are 0 where the limit is 0.
pub fn shares(usage: u64, room: u64) -> (u64, u64) {
    if room == 0 {
        return (0, 0);
    }
    let parts = usage * 10_000;
    (parts.div_ceil(room), parts / room)
}
