//! The district a unit holds, as plain data.
//!
//! The six counts are the lengths of the vectors (and `years`). Numbers of
//! segments, strategies and so on count from 1 in files and calls; vectors
//! here count from 0.

pub const MOST_SEGMENTS: usize = 64;
pub const MOST_STRATEGIES: usize = 11;
pub const MOST_YEARS: usize = 10;
pub const MOST_DISTRESS_TYPES: usize = 9;
pub const MOST_PAVEMENT_TYPES: usize = 4;
pub const MOST_RESOURCES: usize = 16;

pub const LIMIT_MOST: u32 = 999_999_999;
pub const REQUIREMENT_MOST: u32 = 999_999;
pub const RATING_MOST: u8 = 50;
pub const GAIN_MOST: i8 = 50;
pub const OVERALL_MOST: u16 = 450;
pub const INDEX_LEAST: u16 = 100;
pub const INDEX_MOST: u16 = 1_000;
pub const LENGTH_MOST: u16 = 9_999;
pub const WIDTH_MOST: u8 = 200;

#[derive(Clone, Debug, PartialEq, Eq)]
pub struct District {
    /// Years of the analysis period, T.
    pub years: usize,
    /// Limit of each resource in whole units.
    pub limits: Vec<u32>,
    /// Greatest rating of each distress type.
    pub greatest: Vec<u8>,
    pub strategies: Vec<Strategy>,
    pub types: Vec<PavementType>,
    pub segments: Vec<Segment>,
}

#[derive(Clone, Debug, PartialEq, Eq)]
pub struct Strategy {
    /// Requirement of each resource per mile-foot, thousandths of a unit.
    pub requirements: Vec<u32>,
    /// Gain for each distress type.
    pub gains: Vec<i8>,
    /// Percent surviving: a row of T years for each distress type.
    pub survival: Vec<u8>,
}

#[derive(Clone, Debug, PartialEq, Eq)]
pub struct PavementType {
    /// What the year 1 ratings together must reach; 0 demands nothing.
    pub overall: u16,
    /// Minimum ratings: a row of T years for each distress type; 0 demands nothing.
    pub minimum: Vec<u8>,
}

#[derive(Clone, Debug, PartialEq, Eq)]
pub struct Segment {
    /// Pavement type, from 1.
    pub pavement: u8,
    /// Traffic index in hundredths.
    pub traffic: u16,
    /// Environment index in hundredths.
    pub environment: u16,
    /// Length in hundredths of a mile.
    pub length: u16,
    /// Width in feet.
    pub width: u8,
    /// Bit j - 1 bars strategy j.
    pub bars: u16,
    /// Current rating for each distress type.
    pub ratings: Vec<u8>,
    /// The segment without which this one gets nothing: a number from 1, lower
    /// than its own, or 0 for none.
    pub leader: u8,
}

impl District {
    /// What a unit holds before anything is loaded: no segments, one of
    /// everything else, greatest rating 1, all other values 0.
    pub fn fresh() -> District {
        District {
            years: 1,
            limits: vec![0],
            greatest: vec![1],
            strategies: vec![Strategy { requirements: vec![0], gains: vec![0], survival: vec![0] }],
            types: vec![PavementType { overall: 0, minimum: vec![0] }],
            segments: Vec::new(),
        }
    }

    pub fn has_leaders(&self) -> bool {
        self.segments.iter().any(|segment| segment.leader > 0)
    }
}
