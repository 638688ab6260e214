//! Small districts in which each reason of `why` comes up. Each segment is
//! a foot wide, so a mile of it has an area of 100: a requirement of 1,000
//! uses one unit. All indexes are 100, so percents are what survives.

use crate::district::*;

/// All three, with the names under which they are stored.
pub fn districts() -> [(&'static str, District); 3] {
    [("demands", demands()), ("limits", limits()), ("led", led())]
}

/// Segments in which demands decide: minimum ratings missed by either distress
/// type in either year, requirements missed, benefits of 0 and below.
pub fn demands() -> District {
    let strategy = |unit: u32, gains: [i8; 2], survival: [u8; 4]| Strategy {
        requirements: vec![1_000, 1_000 * unit],
        gains: gains.to_vec(),
        survival: survival.to_vec(),
    };
    let pavement = |overall: u16, minimum: [u8; 4]| PavementType { overall, minimum: minimum.to_vec() };
    District {
        years: 2,
        limits: vec![10, 10],
        greatest: vec![20, 20],
        strategies: vec![
            strategy(1, [8, 8], [100, 80, 100, 60]),
            strategy(1, [10, 10], [100, 100, 100, 100]),
            strategy(1, [8, 1], [100, 40, 100, 50]),
            strategy(1, [1, 6], [100, 100, 100, 100]),
            strategy(1, [8, 1], [100, 80, 100, 50]),
            strategy(1, [8, 4], [100, 80, 50, 0]),
            strategy(1, [4, 2], [100, 100, 100, 100]),
            strategy(1, [0, 0], [100, 100, 100, 100]),
            strategy(1, [5, -5], [50, 0, 0, 100]),
            strategy(11, [6, -6], [50, 0, 0, 100]),
            strategy(1, [6, -6], [100, 0, 0, 100]),
        ],
        types: vec![pavement(28, [12, 14, 12, 11]), pavement(26, [0, 0, 9, 4])],
        segments: vec![segment(1, 0b00_1000_0000, &[10, 10]), segment(2, 0b00_0000_0010, &[15, 10])],
    }
}

/// Two segments alike that share three limits of ten units each. Both have
/// strategy 1, which fills the first limit.
pub fn limits() -> District {
    let strategy = |gain: i8, requirements: [u32; 3]| Strategy {
        requirements: requirements.to_vec(),
        gains: vec![gain],
        survival: vec![100],
    };
    District {
        years: 1,
        limits: vec![10, 10, 10],
        greatest: vec![50],
        strategies: vec![
            strategy(20, [5_000, 4_000, 3_000]),
            strategy(24, [6_000, 6_000, 6_000]),
            strategy(40, [11_000, 0, 0]),
            strategy(40, [0, 11_000, 12_000]),
            strategy(20, [5_000, 4_000, 3_000]),
            strategy(10, [10_000, 0, 0]),
            strategy(35, [1_000, 7_000, 8_000]),
            strategy(15, [4_000, 4_000, 3_000]),
            strategy(25, [0, 0, 8_000]),
            strategy(12, [0, 6_001, 0]),
        ],
        types: vec![PavementType { overall: 0, minimum: vec![0] }],
        segments: vec![segment(1, 0, &[0]), segment(1, 0, &[0])],
    }
}

/// Segment 1 is barred from everything, 2 and 3 follow it and 6 follows 3, so
/// these four have nothing. Segment 4 has strategy 1, and so has 5, which
/// follows it; that leaves 4 of ten units.
pub fn led() -> District {
    let strategy =
        |units: u32, gain: i8| Strategy { requirements: vec![1_000 * units], gains: vec![gain], survival: vec![100] };
    let mut segments = vec![
        segment(1, 0b1111_1111, &[10]),
        segment(2, 0b0000_0010, &[10]),
        segment(2, 0b0000_0010, &[20]),
        segment(1, 0, &[0]),
        segment(1, 0b0000_0010, &[10]),
        segment(1, 0, &[10]),
    ];
    segments.iter_mut().zip([0, 1, 1, 0, 4, 3]).for_each(|(segment, leader)| segment.leader = leader);
    District {
        years: 1,
        limits: vec![10],
        greatest: vec![50],
        strategies: vec![
            strategy(3, 20),
            strategy(3, 20),
            strategy(3, 1),
            strategy(3, 4),
            strategy(3, 0),
            strategy(11, -5),
            strategy(11, 30),
            strategy(8, 21),
        ],
        types: vec![PavementType { overall: 0, minimum: vec![0] }, PavementType { overall: 15, minimum: vec![12] }],
        segments,
    }
}

/// A mile, one foot wide.
fn segment(pavement: u8, bars: u16, ratings: &[u8]) -> Segment {
    Segment {
        pavement,
        traffic: 100,
        environment: 100,
        length: 100,
        width: 1,
        bars,
        ratings: ratings.to_vec(),
        leader: 0,
    }
}
