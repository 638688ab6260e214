//! Lists of calls as bytes, and what the last of them gives.
//!
//! A call is 17 bytes: its kind, the office that it names in 4 bytes, and three
//! numbers of 4 bytes; low bytes come first.
//! The kinds are the words of the console, counted from 0: 0 is a load, whose
//! file follows and whose first number is the file's length; 1 an export, whose
//! first number is its room, cut to that of the longest file; 2 bar, 3 unbar,
//! 4 set limit, 5 set rating, 6 a show; 8 a page, whose first number is its
//! room, cut to that of the longest page; 9 why; 10 an index reading and 11 a
//! mile marker, whose first number is the record's bits; 12 a lost sample; 13
//! roughness; 14 set leader; 16 an edit that waits at the console of its first number;
//! 17 a step; 18 a choice of blocks, whose first number says how many numbers follow,
//! each of 4 bytes. Of why and of roughness only the refusal is answered. Survey
//! points, 7, and naming an office, 15, are no calls of an office. They count as a
//! show of the one that stands in them, as does any other kind.
//! The edit that waits follows as 17 bytes more, its kind and numbers those of the
//! call that it would be. It is for the office that stands in front; what stands in
//! the place of its own is not looked at. Another kind there makes the whole a show.
//! A step answers as its edit does. It names no office: where it is the last call, 1
//! shows office 1 and any other number office 2.
//! The list ends where no whole call is left.

use crate::desk::{Desk, Edit};
use crate::file;
use crate::listing::listing;
use crate::page;
use crate::refusal::Refusal;

const HEAD: usize = 17;

#[derive(Clone, Debug, PartialEq, Eq)]
pub enum Call {
    Load(Vec<u8>),
    Export(u32),
    Bar(u32, u32),
    Unbar(u32, u32),
    SetLimit(u32, u32),
    SetRating(u32, u32, u32),
    Show,
    Page(u32),
    Why(u32, u32),
    Index(u32),
    Marker(u32),
    Lost,
    Roughness,
    SetLeader(u32, u32),
    Queue(u32, Edit),
    Step,
    Blocks(Vec<u32>),
}

impl Call {
    fn write(&self, office: u32, out: &mut Vec<u8>) {
        let mut head = |kind: u8, numbers: [u32; 3]| {
            out.push(kind);
            out.extend(office.to_le_bytes());
            numbers.iter().for_each(|number| out.extend(number.to_le_bytes()));
        };
        match self {
            Call::Load(file) => {
                head(0, [file.len() as u32, 0, 0]);
                out.extend(file);
            }
            Call::Export(room) => head(1, [*room, 0, 0]),
            Call::Bar(i, j) => head(2, [*i, *j, 0]),
            Call::Unbar(i, j) => head(3, [*i, *j, 0]),
            Call::SetLimit(r, limit) => head(4, [*r, *limit, 0]),
            Call::SetRating(i, k, rating) => head(5, [*i, *k, *rating]),
            Call::Show => head(6, [0; 3]),
            Call::Page(room) => head(8, [*room, 0, 0]),
            Call::Why(i, j) => head(9, [*i, *j, 0]),
            Call::Index(bits) => head(10, [*bits, 0, 0]),
            Call::Marker(bits) => head(11, [*bits, 0, 0]),
            Call::Lost => head(12, [0; 3]),
            Call::Roughness => head(13, [0; 3]),
            Call::SetLeader(i, leader) => head(14, [*i, *leader, 0]),
            Call::Queue(console, edit) => {
                head(16, [*console, 0, 0]);
                Call::of(*edit).write(office, out);
            }
            Call::Step => head(17, [0; 3]),
            Call::Blocks(row) => {
                head(18, [row.len() as u32, 0, 0]);
                out.extend(row.iter().flat_map(|number| number.to_le_bytes()));
            }
        }
    }

    /// The call that makes the edit at once. Numbers in a list have 4 bytes.
    fn of(edit: Edit) -> Call {
        let four = |number: u64| number as u32;
        match edit {
            Edit::Bar(i, j) => Call::Bar(four(i), four(j)),
            Edit::Unbar(i, j) => Call::Unbar(four(i), four(j)),
            Edit::SetLimit(r, limit) => Call::SetLimit(four(r), four(limit)),
            Edit::SetRating(i, k, rating) => Call::SetRating(four(i), four(k), four(rating)),
            Edit::SetLeader(i, leader) => Call::SetLeader(four(i), four(leader)),
        }
    }

    /// The edit that the call makes, where it makes one.
    pub fn edit(&self) -> Option<Edit> {
        match *self {
            Call::Bar(i, j) => Some(Edit::Bar(i.into(), j.into())),
            Call::Unbar(i, j) => Some(Edit::Unbar(i.into(), j.into())),
            Call::SetLimit(r, limit) => Some(Edit::SetLimit(r.into(), limit.into())),
            Call::SetRating(i, k, rating) => Some(Edit::SetRating(i.into(), k.into(), rating.into())),
            Call::SetLeader(i, leader) => Some(Edit::SetLeader(i.into(), leader.into())),
            _ => None,
        }
    }

    /// The call at the front of the bytes, if it is there whole, with its office and what follows.
    fn take(bytes: &[u8]) -> Option<(u32, Call, &[u8])> {
        let (head, rest) = (bytes.get(..HEAD)?, &bytes[HEAD..]);
        let four = |at: usize| u32::from_le_bytes([head[at], head[at + 1], head[at + 2], head[at + 3]]);
        let [office, a, b, c] = [1, 5, 9, 13].map(four);
        let call = match head[0] {
            0 => {
                let file = rest.get(..a as usize)?;
                return Some((office, Call::Load(file.to_vec()), &rest[file.len()..]));
            }
            1 => Call::Export(a),
            2 => Call::Bar(a, b),
            3 => Call::Unbar(a, b),
            4 => Call::SetLimit(a, b),
            5 => Call::SetRating(a, b, c),
            8 => Call::Page(a),
            9 => Call::Why(a, b),
            10 => Call::Index(a),
            11 => Call::Marker(a),
            12 => Call::Lost,
            13 => Call::Roughness,
            14 => Call::SetLeader(a, b),
            16 => {
                let edit = Call::take(rest.get(..HEAD)?).and_then(|(_, call, _)| call.edit());
                return Some((office, edit.map_or(Call::Show, |edit| Call::Queue(a, edit)), &rest[HEAD..]));
            }
            17 => return Some((if office == 1 { 1 } else { 2 }, Call::Step, rest)),
            18 => {
                let numbers = rest.get(..4 * a as usize)?;
                let four = |one: &[u8]| u32::from_le_bytes([one[0], one[1], one[2], one[3]]);
                let row = numbers.chunks_exact(4).map(four).collect();
                return Some((office, Call::Blocks(row), &rest[numbers.len()..]));
            }
            _ => Call::Show,
        };
        Some((office, call, rest))
    }

    /// Makes the call, which names this office.
    pub fn make(&self, office: u32, desk: &mut Desk) -> Result<(), Refusal> {
        let office = u64::from(office);
        match self {
            Call::Load(file) => return desk.station.load(office, file),
            Call::Queue(console, edit) => return desk.arrive(office, (*console).into(), *edit),
            Call::Step => return desk.step().map_or(Ok(()), |step| step.answer),
            _ => {}
        }
        let station = &mut desk.station;
        let unit = station.office_mut(office)?;
        match self {
            Call::Export(room) => unit.export(&mut vec![0; file::LONGEST.min(*room as usize)]).map(|_| ()),
            Call::Bar(i, j) => unit.bar((*i).into(), (*j).into()),
            Call::Unbar(i, j) => unit.unbar((*i).into(), (*j).into()),
            Call::SetLimit(r, limit) => unit.set_limit((*r).into(), (*limit).into()),
            Call::SetRating(i, k, rating) => unit.set_rating((*i).into(), (*k).into(), (*rating).into()),
            Call::Load(_) | Call::Queue(..) | Call::Step | Call::Show => Ok(()),
            Call::Page(room) => unit.page(&mut vec![0; page::LONGEST.min(*room as usize)]).map(|_| ()),
            Call::Why(i, j) => unit.why((*i).into(), (*j).into()).map(|_| ()),
            Call::Index(bits) => unit.index(*bits),
            Call::Marker(bits) => unit.marker(*bits),
            Call::Lost => unit.lost(),
            Call::Roughness => unit.roughness().map(|_| ()),
            Call::SetLeader(i, leader) => unit.set_leader((*i).into(), (*leader).into()),
            Call::Blocks(row) => {
                let row: Vec<u64> = row.iter().map(|&number| number.into()).collect();
                unit.choose_blocks(&row)
            }
        }
    }
}

/// The bytes that stand for a list of calls, all of them by office 1.
pub fn encode(calls: &[Call]) -> Vec<u8> {
    let mut out = Vec::new();
    calls.iter().for_each(|call| call.write(1, &mut out));
    out
}

/// The same of calls that each name an office.
pub fn encode_by(calls: &[(u32, Call)]) -> Vec<u8> {
    let mut out = Vec::new();
    calls.iter().for_each(|(office, call)| call.write(*office, &mut out));
    out
}

pub fn decode(bytes: &[u8]) -> Vec<(u32, Call)> {
    let mut calls = Vec::new();
    let mut rest = bytes;
    while let Some((office, call, behind)) = Call::take(rest) {
        calls.push((office, call));
        rest = behind;
    }
    calls
}

/// What `vectors` prints for a list: the last call's refusal or, where it was
/// accepted, the plan after the list of the office that it named; that of office 1
/// where there is no call.
pub fn worked(bytes: &[u8]) -> String {
    let mut desk = Desk::fresh();
    let (mut named, mut last) = (1, Ok(()));
    for (office, call) in decode(bytes) {
        last = call.make(office, &mut desk);
        named = office;
    }
    match last.and_then(|()| desk.station.office(named.into())) {
        Ok(unit) => listing(unit.show(), unit.district().segments.len()),
        Err(refusal) => format!("refused {}\n", refusal.number()),
    }
}
