//! The roughness meter: index readings of the survey van since the last mile
//! marker, and the points that they are worth.
//!
//! Records come as the 32 bits of a float. All is counted in whole 1024ths, so
//! nothing here is ever rounded.

use crate::refusal::Refusal;
use std::collections::VecDeque;

/// So many readings are kept.
pub const KEPT: usize = 64;

/// Parts of a whole.
const PARTS: u32 = 1_024;

/// A mean index in tenths, and the points from there on.
const ROWS: [(u32, u8); 6] = [(47, 0), (35, 5), (33, 10), (31, 20), (29, 30), (27, 40)];

/// Points below all rows.
const OTHERWISE: u8 = 50;

#[derive(Clone, Debug, PartialEq, Eq)]
pub struct Meter {
    /// The last readings in 1024ths, the oldest in front.
    window: VecDeque<u32>,
    /// The bits of the last marker, whatever they mean; 0 before the first.
    marker: u32,
}

/// What readings are worth, and the marker behind which they were taken.
#[derive(Clone, Copy, Debug, PartialEq, Eq)]
pub struct Roughness {
    pub points: u8,
    pub marker: u32,
}

impl Meter {
    pub fn fresh() -> Meter {
        Meter { window: VecDeque::new(), marker: 0 }
    }

    /// Takes an index reading in; the oldest makes room for it.
    pub fn index(&mut self, bits: u32) -> Result<(), Refusal> {
        let parts = reading(bits).ok_or(Refusal::Reading)?;
        self.window.push_back(parts);
        if self.window.len() > KEPT {
            self.window.pop_front();
        }
        Ok(())
    }

    /// A mile marker: readings start anew. Any bits are accepted.
    pub fn mark(&mut self, bits: u32) {
        self.marker = bits;
        self.window.clear();
    }

    /// A sample that was lost.
    pub fn lose(&mut self) {}

    pub fn roughness(&self) -> Result<Roughness, Refusal> {
        let (sum, count) = (self.window.iter().sum(), self.window.len() as u32);
        if count == 0 {
            return Err(Refusal::NoReading);
        }
        Ok(Roughness { points: points(sum, count), marker: self.marker })
    }
}

/// Points of so many readings, one or more, that sum to so many 1024ths.
pub fn points(sum: u32, count: u32) -> u8 {
    let reached = |tenths: u32| 10 * sum >= tenths * PARTS * count;
    ROWS.iter().find(|row| reached(row.0)).map_or(OTHERWISE, |row| row.1)
}

/// How many 1024ths the float of these bits is, if it is a reading: a whole
/// number of them from 0 to below 8 wholes, zero of either sign included.
pub fn reading(bits: u32) -> Option<u32> {
    let (negative, exponent, fraction) = (bits >> 31 == 1, bits >> 23 & 0xff, bits & 0x7f_ffff);
    if exponent == 0 && fraction == 0 {
        return Some(0);
    }
    // Floats from 2 to the power E on, below twice that, have exponent E + 127.
    // So a 1024th has 117 and 8 has 130; what is subnormal has 0, and what is
    // infinite or no number 255.
    if negative || !(117..130).contains(&exponent) {
        return None;
    }
    // The float is its significand divided by 2 to the power 150 - exponent.
    let significand = 1 << 23 | fraction;
    let unit = 1 << (140 - exponent);
    (significand % unit == 0).then_some(significand / unit)
}
