//! The report's own example problem as a district (appendix C of the report;
//! the bars are those listed in appendix D).
//!
//! Where the report and the file's form don't meet:
//! - The report has 21 resources, a file at most 16. Five are left out that
//!   never bind before another one: the operators of grader, loader, truck and
//!   roller have the same requirements and availability as their machines, and
//!   the spreader follows its operators in proportion, with more to spare.
//! - Material, equipment and manpower are given as available per mile-foot of
//!   the whole network. The limit is that times the network's area, rounded
//!   down to whole units.
//! - The budget is in tens of dollars: 3,549 dollars per mile-foot is more
//!   than a requirement can hold.
//! - Lengths are in hundredths of a mile; 9.021 (segment 11) becomes 9.02.
//! - Failures per mile on pavement type 2 has minimum ratings printed as 0.020
//!   and 0.030 for years 1 to 8. Whether a slip of the cards or meant so, they
//!   demand next to nothing; the nearest whole number, 0, is taken.
//! - Survival is printed for 20 years; the period of analysis is 10.
//! - The benefits and permitted strategies printed in appendix D don't follow
//!   from the formulas of chapter II (the program there treats the
//!   serviceability index and late years in its own way), and its ranking
//!   differs too. So its list is no check on this one.

use crate::district::*;

/// Pavement type, length, width, bars (strategies 1 and 3 everywhere; 7 on
/// type 1, 8 on type 2), current ratings.
const SEGMENTS: [(u8, u16, u8, [u8; 6]); 15] = [
    (1, 453, 26, [10, 5, 20, 17, 20, 10]),
    (1, 1_232, 28, [10, 15, 25, 20, 40, 3]),
    (1, 362, 26, [10, 10, 15, 13, 40, 0]),
    (2, 700, 20, [10, 20, 20, 20, 40, 0]),
    (2, 226, 22, [10, 25, 25, 20, 40, 0]),
    (2, 1_380, 20, [10, 25, 25, 20, 40, 0]),
    (2, 1_237, 22, [8, 0, 10, 20, 10, 0]),
    (2, 334, 24, [10, 15, 25, 20, 20, 0]),
    (1, 739, 26, [15, 25, 5, 5, 40, 42]),
    (1, 1_201, 26, [15, 25, 25, 20, 40, 47]),
    (1, 902, 26, [15, 25, 25, 17, 40, 47]),
    (1, 564, 26, [15, 25, 25, 17, 40, 49]),
    (1, 932, 26, [13, 25, 25, 20, 40, 50]),
    (2, 667, 20, [8, 5, 0, 17, 20, 0]),
    (2, 744, 20, [10, 10, 10, 8, 20, 0]),
];

const WITHHELD: u16 = 1 << 0 | 1 << 2;
const WITHHELD_ON_TYPE: [u16; 2] = [1 << 6, 1 << 7];

/// Rutting, alligator, longitudinal, transverse cracking, failures per mile,
/// serviceability index.
const GREATEST: [u8; 6] = [15, 25, 25, 20, 40, 50];

const GAINS: [[i8; 6]; 8] = [
    [0, 5, 5, 5, 2, 2],
    [0, 15, 15, 15, 10, 2],
    [13, 19, 19, 19, 24, 45],
    [13, 20, 20, 20, 25, 45],
    [15, 25, 25, 20, 30, 50],
    [15, 25, 25, 20, 35, 50],
    [15, 25, 25, 20, 40, 50],
    [15, 25, 25, 20, 40, 50],
];

/// Available per mile-foot, then required by strategies 1 to 8; thousandths.
const PER_MILE_FOOT: [(&str, u64, [u32; 8]); 15] = [
    ("surfacing aggregate", 9_500, [0, 9_500, 0, 0, 0, 0, 10_000, 0]),
    ("asphalt cement", 4_600, [400, 800, 3_000, 1_500, 4_100, 8_100, 1_500, 1_500]),
    ("aggregate, item 340", 87_700, [0, 0, 20_000, 29_300, 80_500, 29_300, 0, 29_300]),
    ("aggregate, item 290", 87_700, [0, 0, 0, 0, 0, 132_000, 0, 143_000]),
    ("grader", 700, [0, 0, 0, 0, 0, 0, 667, 1_000]),
    ("pickup", 700, [8, 12, 111, 111, 222, 333, 667, 778]),
    ("loader", 340, [0, 12, 0, 0, 0, 0, 333, 333]),
    ("truck", 840, [17, 60, 278, 278, 556, 834, 1_667, 3_611]),
    ("roller", 1_000, [0, 24, 111, 111, 222, 333, 1_000, 1_111]),
    ("laydown machine", 170, [0, 0, 56, 56, 111, 168, 0, 56]),
    ("asphalt distributor", 340, [8, 12, 56, 56, 111, 168, 333, 0]),
    ("spreader operator", 1_340, [0, 48, 0, 0, 0, 0, 1_332, 0]),
    ("laydown machine operator", 850, [0, 0, 280, 280, 560, 840, 0, 280]),
    ("asphalt distributor operator", 670, [16, 24, 56, 56, 111, 168, 666, 56]),
    ("general labor", 1_660, [8, 12, 168, 168, 336, 504, 1_650, 1_018]),
];

/// Thousandths of ten dollars per mile-foot, and the whole in tens of dollars.
const COST: [u32; 8] = [5_600, 21_400, 95_000, 92_500, 200_000, 354_900, 94_400, 260_000];
const BUDGET: u32 = 120_200;

const OVERALL: [u16; 2] = [131, 114];

const MINIMUM: [[[u8; 10]; 6]; 2] = [
    [
        [5, 5, 5, 5, 5, 5, 5, 5, 5, 5],
        [20, 20, 20, 15, 15, 10, 10, 10, 5, 5],
        [20, 20, 20, 15, 15, 10, 10, 10, 5, 5],
        [15, 15, 10, 10, 10, 10, 5, 5, 5, 5],
        [40, 30, 30, 30, 30, 20, 20, 20, 20, 20],
        [40, 35, 30, 25, 20, 20, 15, 15, 10, 10],
    ],
    [
        [5, 5, 5, 5, 5, 5, 5, 5, 5, 5],
        [20, 15, 15, 10, 10, 5, 5, 5, 5, 5],
        [20, 15, 15, 10, 10, 5, 5, 5, 5, 5],
        [15, 10, 10, 10, 10, 10, 5, 5, 5, 5],
        [0, 0, 0, 0, 0, 0, 0, 0, 20, 20],
        [25, 20, 15, 15, 10, 10, 5, 5, 0, 0],
    ],
];

/// For each distress type, strategies 1 to 8, years 1 to 10.
const SURVIVAL: [[[u8; 10]; 8]; 6] = [
    [
        [100, 100, 100, 100, 69, 67, 48, 26, 17, 14],
        [100, 93, 91, 88, 78, 31, 22, 15, 7, 5],
        [100, 100, 100, 100, 88, 78, 46, 25, 25, 25],
        [100, 100, 100, 100, 79, 75, 75, 75, 75, 75],
        [100, 100, 100, 100, 100, 83, 71, 66, 62, 38],
        [100, 100, 100, 100, 100, 100, 100, 100, 100, 100],
        [100, 100, 100, 100, 100, 72, 67, 58, 50, 50],
        [100, 100, 100, 100, 100, 72, 67, 58, 50, 50],
    ],
    [
        [100, 100, 100, 87, 62, 50, 25, 8, 0, 0],
        [100, 94, 89, 89, 65, 28, 24, 15, 9, 7],
        [100, 100, 89, 82, 73, 67, 67, 67, 67, 36],
        [100, 100, 95, 91, 90, 61, 56, 55, 51, 28],
        [100, 100, 100, 100, 77, 64, 58, 53, 51, 38],
        [100, 100, 100, 100, 100, 71, 62, 44, 29, 29],
        [100, 100, 100, 100, 100, 49, 36, 36, 36, 29],
        [100, 100, 100, 100, 100, 49, 36, 36, 36, 29],
    ],
    [
        [100, 100, 79, 50, 50, 21, 0, 0, 0, 0],
        [100, 93, 88, 87, 67, 37, 32, 18, 9, 7],
        [100, 100, 100, 100, 100, 75, 50, 50, 25, 0],
        [100, 100, 93, 93, 40, 14, 14, 12, 7, 2],
        [100, 100, 100, 100, 100, 33, 11, 0, 0, 0],
        [100, 100, 100, 100, 100, 33, 33, 28, 17, 17],
        [100, 100, 100, 100, 100, 100, 100, 100, 65, 60],
        [100, 100, 100, 100, 100, 100, 100, 100, 65, 60],
    ],
    [
        [100, 100, 56, 53, 39, 19, 6, 5, 0, 0],
        [100, 92, 86, 85, 67, 38, 33, 18, 9, 6],
        [100, 100, 100, 100, 100, 83, 67, 67, 33, 0],
        [100, 100, 94, 94, 43, 18, 18, 14, 6, 1],
        [100, 100, 100, 100, 100, 63, 26, 22, 11, 4],
        [100, 100, 100, 100, 100, 33, 33, 28, 17, 17],
        [100, 100, 100, 100, 100, 100, 100, 100, 65, 60],
        [100, 100, 100, 100, 100, 100, 100, 100, 65, 60],
    ],
    [
        [100, 100, 100, 67, 67, 33, 33, 0, 0, 0],
        [100, 100, 91, 78, 47, 22, 20, 10, 4, 1],
        [100, 100, 100, 100, 100, 100, 100, 33, 33, 33],
        [100, 100, 100, 89, 53, 23, 16, 15, 13, 8],
        [100, 100, 100, 100, 77, 51, 48, 36, 33, 24],
        [100, 100, 100, 100, 100, 75, 59, 50, 50, 48],
        [100, 100, 100, 100, 100, 47, 36, 32, 27, 27],
        [100, 100, 100, 100, 100, 47, 36, 32, 27, 27],
    ],
    [
        [100, 90, 70, 50, 40, 30, 20, 10, 10, 0],
        [100, 90, 70, 50, 40, 30, 20, 10, 10, 0],
        [100, 100, 100, 90, 80, 70, 60, 50, 40, 30],
        [100, 100, 100, 90, 80, 70, 60, 50, 40, 30],
        [100, 100, 100, 100, 90, 80, 70, 60, 50, 50],
        [100, 100, 100, 100, 100, 90, 90, 80, 70, 60],
        [100, 100, 100, 90, 80, 70, 60, 50, 40, 30],
        [100, 100, 100, 90, 80, 70, 60, 50, 40, 30],
    ],
];

pub fn district() -> District {
    let segments: Vec<Segment> = SEGMENTS
        .iter()
        .map(|&(pavement, length, width, ratings)| Segment {
            pavement,
            traffic: 100,
            environment: 100,
            length,
            width,
            bars: WITHHELD | WITHHELD_ON_TYPE[usize::from(pavement) - 1],
            ratings: ratings.to_vec(),
            leader: 0,
        })
        .collect();
    // In hundredths of a mile-foot.
    let area: u64 = segments.iter().map(|s| u64::from(s.length) * u64::from(s.width)).sum();
    let mut limits: Vec<u32> =
        PER_MILE_FOOT.iter().map(|(_, available, _)| (available * area / 100_000) as u32).collect();
    limits.push(BUDGET);
    let strategies = (0..8)
        .map(|j| {
            let mut requirements: Vec<u32> = PER_MILE_FOOT.iter().map(|(_, _, by_strategy)| by_strategy[j]).collect();
            requirements.push(COST[j]);
            Strategy {
                requirements,
                gains: GAINS[j].to_vec(),
                survival: SURVIVAL.iter().flat_map(|by_strategy| by_strategy[j]).collect(),
            }
        })
        .collect();
    let types = OVERALL
        .iter()
        .zip(MINIMUM)
        .map(|(&overall, minimum)| PavementType { overall, minimum: minimum.concat() })
        .collect();
    District { years: 10, limits, greatest: GREATEST.to_vec(), strategies, types, segments }
}

/// Highway, county and control section of each segment, as they stand on its card.
const ROADS: [(&str, &str, &str); 15] = [
    ("US 79", "MILAM", "0204-05"),
    ("US 77", "MILAM", "0209-05"),
    ("US 190", "MILAM", "0815-02"),
    ("SH 0SR", "MADISON", "0475-04"),
    ("SH 0SR", "MADISON", "0475-03"),
    ("FM1696", "WALKER", "1809-02"),
    ("FM 1791", "WALKER", "1706-01"),
    ("FM2821", "WALKER", "2805-01"),
    ("SH 30", "WALKER", "0212-02"),
    ("SH 36", "BURLESON", "0816-03"),
    ("US 290", "WASHINGTON", "0114-09"),
    ("US 79", "MILAM", "0204-08"),
    ("SH 36", "BURLESON", "0186-02"),
    ("SH 0SR", "BRAZOS", "0475-02"),
    ("FM 908", "MILAM", "0858-02"),
];

/// Names of strategies, three on a card of 24 columns each, and of distress
/// types, four of 20 columns.
const NAMES: [(usize, &[&str]); 5] = [
    (24, &["FOG SEAL", "SEAL COAT", "OGPMS"]),
    (24, &["THIN OVERLAY", "MODERATE OVERLAY", "HEAVY OVERLAY"]),
    (24, &["LIGHTDUTY RECONSTRUCTION", "HEAVY DUTY RECONSTR."]),
    (20, &["RUTTING", "ALLIGATOR CRACKING", "LONGTUD. CRACKING", "TRANSVERSE CRACKING"]),
    (20, &["FAILURES/MILE", "SERVICEABILITY INDEX"]),
];

/// The example as a deck, up to the names of its distress types. The report prints
/// three decimals, which a card does not take.
pub fn deck() -> Vec<u8> {
    let mut lines = vec!["TEST PROBLEM FOR THE STATE OF TEXAS".to_string()];
    // Segments, strategies, years of data, periods, distress and highway types; materials, equipment, manpower.
    lines.push([15, 8, 20, 10, 6, 2, 4, 8, 8, 0].map(|count| format!("{count:5}")).concat());
    for ((kind, length, width, _), (road, county, section)) in SEGMENTS.iter().zip(ROADS) {
        let miles = format!("{}.{:02}", length / 100, length % 100);
        lines.push(format!(
            "{miles:>8}{:>8}{kind:4}{:>8}{:>8}{road:8}{county:12}{section:8}{:>8}{:>8}",
            format!("{width}.00"),
            "1.00",
            "1.00",
            "0.0",
            "0.0"
        ));
    }
    for (columns, names) in NAMES {
        lines.push(names.iter().map(|name| format!("{name:columns$}")).collect());
    }
    lines.iter().flat_map(|line| format!("{line:80}\n").into_bytes()).collect()
}
