//! Small districts and the blocks that they are planned in. Sizes are those of
//! `leaders`: a mile of a segment uses a unit for each 1,000 that is required, and a
//! gain of 1 there gives a benefit of 10,000.

use crate::district::{District, LENGTH_MOST, MOST_RESOURCES, WIDTH_MOST};
use crate::file;
use crate::leaders::{district, takes};
use crate::offices::bare;
use crate::vectors::small;

/// Five segments of a mile each, two resources, and ten units of both for each segment: all of it fits.
pub fn five() -> District {
    small(&[50, 100], &[(&[10_000, 10_000], 10, 100)], &[(100, 1, 0); 5])
}

/// Two blocks of it, of which the first gets half of what it wants of the first resource: one step, and one pick-up
/// behind it.
pub const HALVES: [u32; 8] = [1, 2, 10, 50, 3, 5, 40, 50];

/// Each with blocks.
pub fn districts() -> Vec<(District, Vec<u32>)> {
    let one = [takes(10, 10)];
    let mile = (1, 0, 0);
    let two = [takes(10, 10), takes(20, 15)];
    let dear = [takes(10, 9), takes(20, 19)];
    vec![
        // Segment 1 steps to nothing in its block, and is picked up in the district.
        (district(40, &one, &[mile; 4]), vec![1, 2, 10, 3, 4, 30]),
        // There is room for one. Who gets it is for the parts to say; without blocks it is 2.
        (district(20, &dear, &[mile; 2]), vec![1, 1, 20, 2, 2, 0]),
        (district(20, &dear, &[mile; 2]), vec![1, 1, 0, 2, 2, 20]),
        (district(20, &dear, &[mile; 2]), vec![1, 1, 10, 2, 2, 10]),
        // A part of 10 leaves strategy 2 out from the start; phase 3 changes to it in the district.
        (district(30, &two, &[mile]), vec![1, 1, 10]),
        // What block 1 leaves of its part is not block 2's.
        (district(40, &two, &[mile; 2]), vec![1, 1, 25, 2, 2, 15]),
        // One block has everything: steps are those of the ordinary plan, and nothing is left for the district to do.
        (district(20, &dear, &[mile; 3]), vec![1, 3, 20]),
        (district(29, &[takes(10, 1), takes(10, 10)], &[(1, 2, 0), (1, 1, 1), (1, 1, 2), (1, 1, 0)]), vec![1, 4, 29]),
        // Leaders within their blocks: 2 follows 1, and 4 follows 3, which can have nothing.
        (district(40, &one, &[mile, (1, 0, 1), (1, 1, 0), (1, 0, 3)]), vec![1, 2, 10, 3, 4, 30]),
        (district(40, &one, &[mile, mile, (1, 0, 2), (1, 0, 3)]), vec![1, 1, 0, 2, 4, 20]),
        // Four blocks, all with the same part, and none.
        (district(60, &two, &[mile; 4]), vec![1, 1, 15, 2, 2, 15, 3, 3, 15, 4, 4, 15]),
        (district(60, &two, &[mile; 4]), vec![1, 1, 0, 2, 2, 0, 3, 3, 0, 4, 4, 0]),
        // By shares of the parts segment 1 steps to nothing; by those of the limits 2 would.
        (
            small(
                &[100, 100],
                &[(&[60_000, 20_000], 10, 100), (&[45_000, 85_000], 10, 100)],
                &[(100, 1, 2), (100, 1, 1)],
            ),
            vec![1, 2, 60, 90],
        ),
    ]
}

/// The most resources that there are, and four segments, of which each uses almost a fifth of every limit. A line that
/// gives parts of all these is long.
pub fn sixteen() -> District {
    let each = [999_999; MOST_RESOURCES];
    small(&[100_000_000; MOST_RESOURCES], &[(&each, 10, 100)], &[(LENGTH_MOST, WIDTH_MOST, 0); 4])
}

/// Four blocks of it, of which the first gets too little: its segment is picked up behind them.
pub fn quarters() -> Vec<u32> {
    let block = |at: u32| [&[at, at][..], &[if at == 1 { 10_000_000 } else { 30_000_000 }; MOST_RESOURCES]].concat();
    (1..=4).flat_map(block).collect()
}

/// The files that the stored console loads.
pub fn files() -> Vec<(&'static str, Vec<u8>)> {
    let of = |name, district: District| (name, file::encode(&district));
    vec![of("county", five()), of("vacant", bare(five())), of("sixteen", sixteen())]
}
