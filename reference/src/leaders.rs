//! Small districts in which leaders decide. A segment is a foot wide; a mile of
//! it has an area of 100, so a requirement of 1,000 uses one unit for each mile
//! and a gain of 1 that lasts gives a benefit of 10,000.

use crate::district::District;
use crate::file;
use crate::vectors::{led, small};

/// A strategy: its requirement in units and its gain.
pub fn takes(units: u32, gain: i8) -> (Vec<u32>, i8) {
    (vec![1_000 * units], gain)
}

/// Segments have miles, bars and a leader.
pub fn district(limit: u32, strategies: &[(Vec<u32>, i8)], segments: &[(u16, u16, u8)]) -> District {
    let strategies: Vec<(&[u32], i8, u8)> =
        strategies.iter().map(|(requirements, gain)| (&requirements[..], *gain, 100)).collect();
    let sizes: Vec<(u16, u8, u16)> = segments.iter().map(|&(miles, bars, _)| (100 * miles, 1, bars)).collect();
    let leaders: Vec<u8> = segments.iter().map(|segment| segment.2).collect();
    led(small(&[limit], &strategies, &sizes), &leaders)
}

/// Each with its name.
pub fn districts() -> Vec<(&'static str, District)> {
    let one = [takes(10, 10)];
    // Strategy 1 gains little and strategy 2 much for the same ten units.
    let two = [takes(10, 1), takes(10, 10)];
    let chain = [(1, 0b10, 0), (1, 0b01, 1), (1, 0b01, 2), (1, 0b01, 0)];
    vec![
        // Nothing for 1, so nothing for 2, and so nothing for 3 either.
        ("start", district(100, &one, &[(1, 1, 0), (1, 0, 1), (1, 0, 2), (1, 0, 0)])),
        // 2 is barred from everything: 3 behind it takes nothing, 4 behind 1 does.
        ("middle", district(100, &one, &[(1, 0, 0), (1, 1, 1), (1, 0, 2), (1, 0, 1)])),
        // The first steps to nothing, and 2 and 3 with it. It is picked up again, and 2 behind it.
        ("step", district(30, &two, &chain)),
        // There is no room for 2 any more. Without 1 there would be.
        ("short", district(29, &two, &chain)),
        // All fit.
        ("ample", district(40, &two, &chain)),
        // The follower's step to nothing leaves its leader.
        ("follower", district(10, &two, &[(1, 0b01, 0), (1, 0b10, 1)])),
        // The follower steps to nothing. Then its leader gives up its best for it: a pair.
        ("both", district(20, &[takes(20, 40), takes(10, 30), takes(10, 15)], &[(1, 0b100, 0), (1, 0b011, 1)])),
        // Segment 3 in place of 1 would give more, but 2 would stay behind without its leader.
        (
            "kept",
            district(12, &[takes(10, 20), takes(1, 2), takes(11, 21)], &[(1, 0b110, 0), (1, 0b101, 1), (1, 0b011, 0)]),
        ),
        // The same where 2 is barred from everything: its leader may go.
        (
            "free",
            district(12, &[takes(10, 20), takes(1, 2), takes(11, 21)], &[(1, 0b110, 0), (1, 0b111, 1), (1, 0b011, 0)]),
        ),
        // The leader steps to its next strategy, which is not nothing: its follower stays.
        ("next", district(22, &[takes(20, 12), takes(12, 9), takes(10, 10)], &[(1, 0b100, 0), (1, 0b011, 1)])),
    ]
}

/// The one of this name.
pub fn named(name: &str) -> District {
    let mut all = districts();
    all.retain(|one| one.0 == name);
    all.swap_remove(0).1
}

/// The files that the stored console loads: some of the districts, one of them
/// with leaders that are all 0 in the form that has them, and one with a leader
/// that is not below its segment.
pub fn files() -> Vec<(&'static str, Vec<u8>)> {
    let mut all: Vec<(&str, Vec<u8>)> =
        ["start", "step", "short"].map(|name| (name, file::encode(&named(name)))).to_vec();
    all.push(("emptied", file::encode_led(&led(named("step"), &[0; 4]))));
    all.push(("misled", file::encode_led(&led(named("step"), &[0, 1, 3, 0]))));
    all
}
