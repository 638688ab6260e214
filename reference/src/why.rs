//! Why a segment does not have a strategy, or that it has it: the first that
//! holds of nine reasons.

use crate::district::District;
use crate::rating;
use std::fmt;

/// Distress types, years and resources are numbers from 1 here.
#[derive(Clone, Copy, Debug, PartialEq, Eq)]
pub enum Reason {
    InTheProgramme,
    Barred,
    /// The first distress type that misses a minimum rating, and of that type
    /// the first year.
    MinimumMissed {
        distress: usize,
        year: usize,
    },
    OverallMissed,
    BenefitNotAbove0,
    /// The segment has a leader, and that has no strategy.
    LeaderHasNothing,
    /// The first resource whose limit the strategy is over, whatever the rest has.
    OverAlone {
        resource: usize,
    },
    /// The first resource whose limit it is over together with what the other
    /// segments have. What the segment itself has does not count.
    OverBeside {
        resource: usize,
    },
    /// In place of what the segment has it would be within the limits.
    NoGreater,
}

impl Reason {
    /// The place in the order of the nine, from 1.
    pub fn number(self) -> u8 {
        match self {
            Reason::InTheProgramme => 1,
            Reason::Barred => 2,
            Reason::MinimumMissed { .. } => 3,
            Reason::OverallMissed => 4,
            Reason::BenefitNotAbove0 => 5,
            Reason::LeaderHasNothing => 6,
            Reason::OverAlone { .. } => 7,
            Reason::OverBeside { .. } => 8,
            Reason::NoGreater => 9,
        }
    }
}

impl fmt::Display for Reason {
    fn fmt(&self, out: &mut fmt::Formatter) -> fmt::Result {
        match self {
            Reason::InTheProgramme => write!(out, "in the programme"),
            Reason::Barred => write!(out, "barred"),
            Reason::MinimumMissed { distress, year } => {
                write!(out, "minimum rating missed: distress {distress}, year {year}")
            }
            Reason::OverallMissed => write!(out, "overall requirement missed"),
            Reason::BenefitNotAbove0 => write!(out, "benefit not above 0"),
            Reason::LeaderHasNothing => write!(out, "the leader has nothing"),
            Reason::OverAlone { resource } => write!(out, "over limit {resource} alone"),
            Reason::OverBeside { resource } => write!(out, "over limit {resource} beside the others"),
            Reason::NoGreater => write!(out, "fits, but the total would be no greater"),
        }
    }
}

/// The first reason that holds of strategy j on segment i (both from 0) under
/// the district's own programme, which has strategy numbers, 0 for nothing.
pub fn why(district: &District, programme: &[u8], i: usize, j: usize) -> Reason {
    let (segment, strategy) = (&district.segments[i], &district.strategies[j]);
    if usize::from(programme[i]) == j + 1 {
        return Reason::InTheProgramme;
    }
    if rating::barred(segment, j) {
        return Reason::Barred;
    }
    let missed = rating::missed_minima(district, segment, strategy);
    if let Some(&(k, t)) = missed.first() {
        return Reason::MinimumMissed { distress: k + 1, year: t };
    }
    if rating::misses_overall(district, segment, strategy) {
        return Reason::OverallMissed;
    }
    if rating::benefit(district, segment, strategy) <= 0 {
        return Reason::BenefitNotAbove0;
    }
    if segment.leader > 0 && programme[usize::from(segment.leader) - 1] == 0 {
        return Reason::LeaderHasNothing;
    }
    let over = |r: usize, beside: u64| rating::usage(segment, strategy, r) + beside > rating::room(district, r);
    let resources = district.limits.len();
    if let Some(r) = (0..resources).find(|&r| over(r, 0)) {
        return Reason::OverAlone { resource: r + 1 };
    }
    if let Some(r) = (0..resources).find(|&r| over(r, others(district, programme, i, r))) {
        return Reason::OverBeside { resource: r + 1 };
    }
    // It would be a single change, and phase 3 has left none that raises the total.
    Reason::NoGreater
}

/// What the other segments' strategies use of a resource.
fn others(district: &District, programme: &[u8], i: usize, r: usize) -> u64 {
    let mut used = 0;
    for (other, segment) in district.segments.iter().enumerate() {
        let held = usize::from(programme[other]);
        if other != i && held > 0 {
            used += rating::usage(segment, &district.strategies[held - 1], r);
        }
    }
    used
}
