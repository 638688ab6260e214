//! Four consoles before one unit. At each of them edits wait in a queue, and a
//! step carries one of them out.
//!
//! On arrival an edit's office and console are looked at, and whether there is a
//! place for it. Its own numbers are looked at in its step, by the district that is
//! held then.

use crate::refusal::Refusal;
use crate::station::Station;
use crate::unit::Unit;
use std::collections::VecDeque;

pub const CONSOLES: usize = 4;

/// How many edits can wait at one console.
pub const PLACES: usize = 8;

/// An edit, with its numbers as they came.
#[derive(Clone, Copy, Debug, PartialEq, Eq)]
pub enum Edit {
    Bar(u64, u64),
    Unbar(u64, u64),
    SetLimit(u64, u64),
    SetRating(u64, u64, u64),
    SetLeader(u64, u64),
}

impl Edit {
    pub fn make(self, unit: &mut Unit) -> Result<(), Refusal> {
        match self {
            Edit::Bar(segment, strategy) => unit.bar(segment, strategy),
            Edit::Unbar(segment, strategy) => unit.unbar(segment, strategy),
            Edit::SetLimit(resource, limit) => unit.set_limit(resource, limit),
            Edit::SetRating(segment, distress, rating) => unit.set_rating(segment, distress, rating),
            Edit::SetLeader(segment, leader) => unit.set_leader(segment, leader),
        }
    }
}

/// What a step carried out.
#[derive(Clone, Copy, Debug, PartialEq, Eq)]
pub struct Step {
    /// The console at which the edit was waiting, from 1.
    pub console: usize,
    /// What the edit is answered.
    pub answer: Result<(), Refusal>,
}

/// An edit in a queue, and the office that it is for.
#[derive(Clone, Debug, PartialEq, Eq)]
struct Waiting {
    office: u64,
    edit: Edit,
}

#[derive(Clone, Debug, PartialEq, Eq)]
pub struct Desk {
    /// Calls that do not wait go straight to it.
    pub station: Station,
    /// What waits at each console, the first to be carried out in front.
    queues: [VecDeque<Waiting>; CONSOLES],
    /// The place of the console that the next step looks at first.
    turn: usize,
}

impl Desk {
    pub fn fresh() -> Desk {
        Desk { station: Station::fresh(), queues: Default::default(), turn: 0 }
    }

    /// An edit for an office arrives at a console, and waits there.
    pub fn arrive(&mut self, office: u64, console: u64, edit: Edit) -> Result<(), Refusal> {
        self.station.office(office)?;
        let queue = &mut self.queues[place(console)?];
        if queue.len() == PLACES {
            return Err(Refusal::Queue);
        }
        queue.push_back(Waiting { office, edit });
        Ok(())
    }

    /// Carries out the first edit of the next console, in circular order, at which
    /// one waits. Accepted or refused, it is gone then, and the console behind is
    /// the next. Where none waits nothing changes.
    pub fn step(&mut self) -> Option<Step> {
        let at = (self.turn..CONSOLES).chain(0..self.turn).find(|&at| !self.queues[at].is_empty())?;
        let Waiting { office, edit } = self.queues[at].pop_front()?;
        self.turn = (at + 1) % CONSOLES;
        let answer = self.station.office_mut(office).and_then(|unit| edit.make(unit));
        Some(Step { console: at + 1, answer })
    }
}

/// Where the queue of the console of this number is kept.
fn place(console: u64) -> Result<usize, Refusal> {
    if (1..=CONSOLES as u64).contains(&console) {
        Ok(console as usize - 1)
    } else {
        Err(Refusal::Console)
    }
}
