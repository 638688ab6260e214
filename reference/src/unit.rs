//! What one office of the planning unit holds: its district with its choice of
//! blocks and the plan, a roughness meter beside them, and the calls on these.
//! `station` has both offices.

use crate::blocks;
use crate::ceiling;
use crate::district::*;
use crate::file;
use crate::meter::{Meter, Roughness};
use crate::page;
use crate::phases;
use crate::refusal::Refusal;
use crate::tables::Tables;
use crate::why::{self, Reason};

/// What a show gives.
#[derive(Clone, Debug, PartialEq, Eq)]
pub struct Plan {
    /// 64 strategy numbers; 0 is nothing, also for a segment that there is not.
    pub strategies: [u8; MOST_SEGMENTS],
    pub total: i64,
    pub total_after_phase_two: i64,
    pub ceiling: i64,
    pub steps: u64,
    pub pickups: u64,
    pub changes: u64,
}

/// Works the ordinary programme and the ceiling out for a district.
pub fn plan(district: &District) -> Plan {
    plan_in(district, &[])
}

/// The same where blocks are chosen by a row of numbers: in these, if the row is
/// followed.
pub fn plan_in(district: &District, row: &[u64]) -> Plan {
    let tables = Tables::fill(district);
    let outcome = match blocks::followed(row, district) {
        Some(blocks) => blocks::run(&tables, &blocks),
        None => phases::run(&tables),
    };
    let mut strategies = [0; MOST_SEGMENTS];
    for (i, strategy) in tables.strategies(&outcome.choice).into_iter().enumerate() {
        strategies[i] = strategy;
    }
    Plan {
        strategies,
        total: outcome.total,
        total_after_phase_two: outcome.total_after_phase_two,
        ceiling: ceiling::ceiling(&tables),
        steps: outcome.steps,
        pickups: outcome.pickups,
        changes: outcome.changes,
    }
}

#[derive(Clone, Debug, PartialEq, Eq)]
pub struct Unit {
    district: District,
    /// The choice of blocks; no numbers for none.
    blocks: Vec<u64>,
    plan: Plan,
    meter: Meter,
}

impl Unit {
    pub fn fresh() -> Unit {
        let district = District::fresh();
        Unit { plan: plan(&district), district, blocks: Vec::new(), meter: Meter::fresh() }
    }

    pub fn district(&self) -> &District {
        &self.district
    }

    pub fn load(&mut self, bytes: &[u8]) -> Result<(), Refusal> {
        self.district = file::decode(bytes)?;
        self.blocks.clear();
        self.replan();
        Ok(())
    }

    /// Chooses the blocks that the district is planned in, till the next load that is
    /// accepted; no numbers choose none. Any row is taken, also one that is not
    /// followed now.
    pub fn choose_blocks(&mut self, row: &[u64]) -> Result<(), Refusal> {
        self.blocks = row.to_vec();
        self.replan();
        Ok(())
    }

    /// Whether the plan held was made in blocks.
    pub fn in_blocks(&self) -> bool {
        blocks::followed(&self.blocks, &self.district).is_some()
    }

    /// Puts this district in place of the one held.
    pub fn hold(&mut self, district: District) {
        self.district = district;
        self.replan();
    }

    pub fn bar(&mut self, segment: u64, strategy: u64) -> Result<(), Refusal> {
        let (i, j) = self.segment_and_strategy(segment, strategy)?;
        self.district.segments[i].bars |= 1 << j;
        self.replan();
        Ok(())
    }

    pub fn unbar(&mut self, segment: u64, strategy: u64) -> Result<(), Refusal> {
        let (i, j) = self.segment_and_strategy(segment, strategy)?;
        self.district.segments[i].bars &= !(1 << j);
        self.replan();
        Ok(())
    }

    pub fn set_limit(&mut self, resource: u64, limit: u64) -> Result<(), Refusal> {
        let r = place(resource, self.district.limits.len(), Refusal::Number)?;
        if limit > u64::from(LIMIT_MOST) {
            return Err(Refusal::NewValue);
        }
        self.district.limits[r] = limit as u32;
        self.replan();
        Ok(())
    }

    pub fn set_rating(&mut self, segment: u64, distress: u64, rating: u64) -> Result<(), Refusal> {
        let i = place(segment, self.district.segments.len(), Refusal::Segment)?;
        let k = place(distress, self.district.greatest.len(), Refusal::Number)?;
        if rating > u64::from(self.district.greatest[k]) {
            return Err(Refusal::NewValue);
        }
        self.district.segments[i].ratings[k] = rating as u8;
        self.replan();
        Ok(())
    }

    /// Names the segment without which this one gets nothing, or none by 0.
    pub fn set_leader(&mut self, segment: u64, leader: u64) -> Result<(), Refusal> {
        let i = place(segment, self.district.segments.len(), Refusal::Segment)?;
        if leader >= segment {
            return Err(Refusal::Leader);
        }
        self.district.segments[i].leader = leader as u8;
        self.replan();
        Ok(())
    }

    /// Writes the district's file at the front of the buffer and gives its
    /// length; what lies behind stays as it was.
    pub fn export(&self, buffer: &mut [u8]) -> Result<usize, Refusal> {
        let bytes = file::encode(&self.district);
        if buffer.len() < bytes.len() {
            return Err(Refusal::Buffer);
        }
        buffer[..bytes.len()].copy_from_slice(&bytes);
        Ok(bytes.len())
    }

    /// Writes the page of what is held at the front of the buffer and gives
    /// its length; what lies behind stays as it was.
    pub fn page(&self, buffer: &mut [u8]) -> Result<usize, Refusal> {
        let page = page::page(&self.district, &self.plan);
        if buffer.len() < page.len() {
            return Err(Refusal::Page);
        }
        buffer[..page.len()].copy_from_slice(page.as_bytes());
        Ok(page.len())
    }

    pub fn show(&self) -> &Plan {
        &self.plan
    }

    /// Why the segment does not have the strategy, or that it has it.
    pub fn why(&self, segment: u64, strategy: u64) -> Result<Reason, Refusal> {
        let (i, j) = self.segment_and_strategy(segment, strategy)?;
        Ok(why::why(&self.district, &self.plan.strategies, i, j))
    }

    /// An index reading of the survey van.
    pub fn index(&mut self, bits: u32) -> Result<(), Refusal> {
        self.meter.index(bits)
    }

    /// A mile marker, which is never refused.
    pub fn marker(&mut self, bits: u32) -> Result<(), Refusal> {
        self.meter.mark(bits);
        Ok(())
    }

    /// A lost sample, which is never refused either.
    pub fn lost(&mut self) -> Result<(), Refusal> {
        self.meter.lose();
        Ok(())
    }

    /// Points of the readings kept, and the bits of the last marker.
    pub fn roughness(&self) -> Result<Roughness, Refusal> {
        self.meter.roughness()
    }

    fn replan(&mut self) {
        self.plan = plan_in(&self.district, &self.blocks);
    }

    fn segment_and_strategy(&self, segment: u64, strategy: u64) -> Result<(usize, usize), Refusal> {
        let i = place(segment, self.district.segments.len(), Refusal::Segment)?;
        let j = place(strategy, self.district.strategies.len(), Refusal::Number)?;
        Ok((i, j))
    }
}

/// A number from 1 to `count` as a place from 0.
fn place(number: u64, count: usize, otherwise: Refusal) -> Result<usize, Refusal> {
    if (1..=count as u64).contains(&number) {
        Ok(number as usize - 1)
    } else {
        Err(otherwise)
    }
}
