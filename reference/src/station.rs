//! The planning unit with its two offices.
//!
//! Offices share the counts other than N, greatest ratings, strategies and
//! pavement types. Each is kept as a whole here, with a district of its own; a
//! load sees to it that the shared tables in both are the same.

use crate::district::District;
use crate::file;
use crate::refusal::Refusal;
use crate::unit::Unit;

#[derive(Clone, Debug, PartialEq, Eq)]
pub struct Station {
    offices: [Unit; 2],
}

impl Station {
    pub fn fresh() -> Station {
        Station { offices: [Unit::fresh(), Unit::fresh()] }
    }

    /// The office that a call names, where there is such an office.
    pub fn office(&self, number: u64) -> Result<&Unit, Refusal> {
        Ok(&self.offices[place(number)?])
    }

    /// The same for edits and records. A load goes through `load`.
    pub fn office_mut(&mut self, number: u64) -> Result<&mut Unit, Refusal> {
        Ok(&mut self.offices[place(number)?])
    }

    /// The number of resources, which both offices have.
    pub fn resources(&self) -> usize {
        self.offices[0].district().limits.len()
    }

    /// Loads a file into an office. Other tables than those held are taken only
    /// while the other office has no segments; it then holds them too, and its
    /// limits are back at 0. A file that is refused for itself changes no tables.
    pub fn load(&mut self, number: u64, bytes: &[u8]) -> Result<(), Refusal> {
        let own = place(number)?;
        let other = &mut self.offices[1 - own];
        if let Some(new) = file::decode(bytes).ok().filter(|new| !same_tables(new, other.district())) {
            if !other.district().segments.is_empty() {
                return Err(Refusal::SharedTables);
            }
            other.hold(emptied(&new));
        }
        self.offices[own].load(bytes)
    }
}

/// Where the office of this number is kept.
fn place(number: u64) -> Result<usize, Refusal> {
    match number {
        1 => Ok(0),
        2 => Ok(1),
        _ => Err(Refusal::Office),
    }
}

/// Whether two districts have the same shared tables, value by value.
pub fn same_tables(one: &District, other: &District) -> bool {
    one.limits.len() == other.limits.len()
        && one.years == other.years
        && one.greatest == other.greatest
        && one.strategies == other.strategies
        && one.types == other.types
}

/// The shared tables of a district alone: no segments, and limits of 0.
fn emptied(new: &District) -> District {
    District { limits: vec![0; new.limits.len()], segments: Vec::new(), ..new.clone() }
}
