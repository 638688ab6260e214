//! Makes lists of calls at random.

use crate::calls::{encode_by, Call};
use crate::desk::{Desk, Edit};
use crate::district::{District, LIMIT_MOST, RATING_MOST};
use crate::file;
use crate::make;
use crate::meter;
use crate::page;
use crate::random::Random;
use crate::station::Station;

/// A frame for `vectors`: a list of calls, now and then cut short or noise.
pub fn any_list(random: &mut Random) -> Vec<u8> {
    if random.chance(2) {
        let length = random.size(0, 60);
        return random.bytes(length);
    }
    let count = random.size(0, 40);
    let calls = match random.below(12) {
        0..=2 => by_both(random, count),
        3..=5 => at_consoles(random, 2 * count),
        6..=8 => in_blocks(random, count),
        _ => by_one(random, count),
    };
    cut(random, encode_by(&calls))
}

/// Calls of office 1 alone, now and then with a run of records behind them.
fn by_one(random: &mut Random, count: usize) -> Vec<(u32, Call)> {
    let mut calls = list(random, count, true);
    if random.chance(20) {
        let count = random.size(1, 200);
        calls.extend(records(random, count));
    }
    calls.into_iter().map(|call| (1, call)).collect()
}

/// Now and then the bytes are cut short.
fn cut(random: &mut Random, mut bytes: Vec<u8>) -> Vec<u8> {
    if random.chance(10) {
        bytes.truncate(random.size(0, bytes.len()));
    }
    bytes
}

/// A list of so many calls by both offices over small districts. Loads bring the
/// tables that are held, the same with one value changed, others, or no segments;
/// now and then a call names an office that there is not.
pub fn by_both(random: &mut Random, count: usize) -> Vec<(u32, Call)> {
    let mut desk = Desk::fresh();
    // Most often one office makes most of the calls.
    let busy = *random.pick(&[1, 2]);
    let share = *random.pick(&[50, 50, 75, 90]);
    (0..count)
        .map(|at| {
            let office = match random.below(40) {
                0 => *random.pick(&NO_OFFICES),
                _ if random.chance(share) => busy,
                _ => 3 - busy,
            };
            let held = held(&desk.station, office);
            let call = match random.below(100) {
                0..=79 if at < 2 => Call::Load(shared_file(random, &held)),
                0..=14 => Call::Load(shared_file(random, &held)),
                // An office without segments has limits, which other tables take away.
                15..=59 if held.segments.is_empty() => {
                    Call::SetLimit(number(random, held.limits.len()), new_limit(random, 100))
                }
                15..=24 => set_leader(random, held.segments.len()),
                25..=34 => records(random, 1)[0].clone(),
                _ => call(random, &held, true),
            };
            // The generator follows what is held, so that most calls are sound.
            let _ = call.make(office, &mut desk);
            (office, call)
        })
        .collect()
}

/// What an office holds; for a number that is none, what a fresh one does.
fn held(station: &Station, office: u32) -> District {
    station.office(office.into()).map_or_else(|_| District::fresh(), |unit| unit.district().clone())
}

/// A list of so many calls with four consoles before the unit: edits that arrive,
/// one console busier than the others, steps, and loads and other calls between
/// them. In some lists edits arrive faster than steps take them, so that queues
/// are full, and in some nothing waits most of the time.
pub fn at_consoles(random: &mut Random, count: usize) -> Vec<(u32, Call)> {
    let mut desk = Desk::fresh();
    let busy = random.size(1, 4) as u32;
    let arrivals = *random.pick(&[30, 50, 50, 75]);
    (0..count)
        .map(|at| {
            let office = if random.chance(3) { *random.pick(&NO_OFFICES) } else { random.size(1, 2) as u32 };
            let held = held(&desk.station, office);
            let call = match random.below(100) {
                0..=79 if at < 2 => Call::Load(shared_file(random, &held)),
                share if share < arrivals => Call::Queue(console(random, busy), waiting(random, &held)),
                92..=95 => Call::Load(shared_file(random, &held)),
                96..=99 => call(random, &held, true),
                _ => Call::Step,
            };
            let _ = call.make(office, &mut desk);
            (office, call)
        })
        .collect()
}

/// A list of so many calls in which offices choose blocks: loads of districts with
/// some segments, choices for what is held and for what was held before, limits around
/// what parts add to, other edits that wait and that don't, and the other calls
/// between them.
pub fn in_blocks(random: &mut Random, count: usize) -> Vec<(u32, Call)> {
    let mut desk = Desk::fresh();
    // What each office has chosen last.
    let mut rows: [Vec<u32>; 2] = Default::default();
    (0..count)
        .map(|at| {
            let office = if random.chance(2) { *random.pick(&NO_OFFICES) } else { random.size(1, 2) as u32 };
            let held = held(&desk.station, office);
            let own = usize::from(office == 2);
            let call = match random.below(100) {
                0..=89 if at < 2 => Call::Load(settled_file(random, &held, at == 0)),
                0..=5 => Call::Load(settled_file(random, &held, false)),
                6..=29 => Call::Blocks(make::choice(random, &held)),
                30..=36 => Call::Blocks(random.pick(&rows).clone()),
                37..=40 => Call::Blocks(Vec::new()),
                41..=45 => Call::Queue(random.size(1, 4) as u32, waiting(random, &held)),
                46..=50 => Call::Step,
                51..=58 => Call::Show,
                59..=66 => set_leader(random, held.segments.len()),
                67..=84 => {
                    let (resource, limit) = limit_at_parts(random, &rows[own], &held);
                    Call::SetLimit(resource, limit)
                }
                _ => call(random, &held, true),
            };
            if let Call::Blocks(row) = &call {
                rows[own].clone_from(row);
            }
            let _ = call.make(office, &mut desk);
            (office, call)
        })
        .collect()
}

/// A resource, and what the parts of a row add to there as its limit, or one less,
/// or more.
pub fn limit_at_parts(random: &mut Random, row: &[u32], held: &District) -> (u32, u32) {
    let r = random.size(0, held.limits.len() - 1);
    let parts = row.chunks(2 + held.limits.len()).filter_map(|block| block.get(2 + r));
    let given: u64 = parts.map(|&part| u64::from(part)).sum();
    let limit = *random.pick(&[given.saturating_sub(1), given, 2 * given]);
    (r as u32 + 1, limit.min(LIMIT_MOST.into()) as u32)
}

/// A file with up to nine segments for an office of a unit that holds these tables,
/// or with tables of its own.
fn settled_file(random: &mut Random, held: &District, fresh: bool) -> Vec<u8> {
    let segments = random.size(1, 9);
    let mut made = match fresh {
        true => {
            let shape = make::small_shape(random, 0, 4);
            make::district(random, make::Shape { segments, ..shape })
        }
        false => make::resettled(random, held, segments),
    };
    if random.chance(40) {
        make::set_leaders(random, &mut made);
    }
    file::encode(&made)
}

/// Numbers that are no console, some of which are one in their low bytes.
pub const NO_CONSOLES: [u32; 8] = [0, 5, 8, 255, 257, 65_538, 0x8000_0003, u32::MAX];

/// The console that is busy, another one, or now and then a number that is none.
fn console(random: &mut Random, busy: u32) -> u32 {
    match random.below(40) {
        0 => *random.pick(&NO_CONSOLES),
        1..=20 => busy,
        _ => random.size(1, 4) as u32,
    }
}

/// An edit that is to wait. In its step the office may hold more segments than
/// now, or fewer, so the edit may be for one that is not there yet.
fn waiting(random: &mut Random, held: &District) -> Edit {
    let later = random.chance(40).then(|| make::resettled(random, held, 5));
    let held = later.as_ref().unwrap_or(held);
    loop {
        let made = if random.chance(25) { set_leader(random, held.segments.len()) } else { call(random, held, true) };
        if let Some(edit) = made.edit() {
            return edit;
        }
    }
}

/// Numbers that are no office, some of which are one in their low bytes.
pub const NO_OFFICES: [u32; 8] = [0, 3, 4, 255, 257, 65_538, 0x8000_0001, u32::MAX];

/// A file for an office of a unit that holds these tables.
pub fn shared_file(random: &mut Random, held: &District) -> Vec<u8> {
    let segments = if random.chance(25) { 0 } else { random.size(1, 5) };
    let mut made = match random.below(20) {
        0..=10 => make::resettled(random, held, segments),
        11..=16 => {
            let tables = make::retabled(random, held);
            make::resettled(random, &tables, segments)
        }
        _ => {
            let shape = make::small_shape(random, 5, 4);
            make::district(random, shape)
        }
    };
    if random.chance(30) {
        make::set_leaders(random, &mut made);
    }
    let mut bytes = if random.chance(10) { file::encode_led(&made) } else { file::encode(&made) };
    // Behind other tables something may be wrong as well.
    match random.below(20) {
        0 => bytes.push(0),
        1 => bytes.truncate(bytes.len() - random.size(1, 4)),
        _ => {}
    }
    bytes
}

/// A list of so many calls over small districts, in half of which leaders are
/// set, or without leaders; the first is a load more often than not.
pub fn list(random: &mut Random, count: usize, leaders: bool) -> Vec<Call> {
    let mut held = District::fresh();
    (0..count)
        .map(|at| {
            let load = random.chance(if at == 0 { 80 } else { 4 });
            if load {
                let shape = make::small_shape(random, 8, 4);
                held = make::district(random, shape);
                if leaders && random.chance(50) {
                    make::set_leaders(random, &mut held);
                }
                return Call::Load(file::encode(&held));
            }
            if leaders && random.chance(15) {
                return set_leader(random, held.segments.len());
            }
            call(random, &held, leaders)
        })
        .collect()
}

/// Any lower number as a leader, now and then one that is not lower.
fn set_leader(random: &mut Random, segments: usize) -> Call {
    let segment = number(random, segments);
    let leader = match random.below(10) {
        0 => segment,
        1 => *random.pick(&[0, 1, 63, 64, 256, u32::MAX]),
        _ => random.below(u64::from(segment.max(1))) as u32,
    };
    Call::SetLeader(segment, leader)
}

/// Any other call on a unit that holds, most likely, a district of this shape.
fn call(random: &mut Random, held: &District, leaders: bool) -> Call {
    let (n, s) = (held.segments.len(), held.strategies.len());
    let (d, r) = (held.greatest.len(), held.limits.len());
    match random.below(100) {
        0..=3 => Call::Load(make::damaged_file(random, leaders)),
        4..=28 => Call::Bar(number(random, n), number(random, s)),
        29..=48 => Call::Unbar(number(random, n), number(random, s)),
        49..=68 => {
            let resource = number(random, r);
            let limit = held.limits.get(resource.wrapping_sub(1) as usize).copied().unwrap_or(100);
            Call::SetLimit(resource, new_limit(random, limit))
        }
        69..=88 => {
            let distress = number(random, d);
            let most = held.greatest.get(distress.wrapping_sub(1) as usize).copied().unwrap_or(RATING_MOST);
            Call::SetRating(number(random, n), distress, rating(random, most.into()))
        }
        89..=92 => {
            let longest = if leaders { file::LONGEST } else { file::LONGEST_PLAIN };
            Call::Export(room(random, file::encode(held).len(), longest))
        }
        93..=95 => Call::Page(room(random, (n + 3) * page::LINE, page::LONGEST)),
        96 => Call::Why(number(random, n), number(random, s)),
        97 => Call::Show,
        98 => random.pick(&[Call::Lost, Call::Roughness]).clone(),
        _ => {
            let bits = bits(random);
            random.pick(&[Call::Index(bits), Call::Index(bits), Call::Marker(bits)]).clone()
        }
    }
}

/// Bits of a record at the ends of what a reading is, and of every kind of float
/// that is none.
pub const SPECIAL: [u32; 39] = [
    // Zero and minus zero.
    0x0000_0000,
    0x8000_0000,
    // One 1024th; a step below and above it; half of it, and one and a half; two and three of them.
    0x3a80_0000,
    0x3a7f_ffff,
    0x3a80_0001,
    0x3a00_0000,
    0x3ac0_0000,
    0x3b00_0000,
    0x3b40_0000,
    // One; a step below and above it; half a 1024th more, and a whole one more.
    0x3f80_0000,
    0x3f7f_ffff,
    0x3f80_0001,
    0x3f80_1000,
    0x3f80_2000,
    // Four, and half a 1024th less and more.
    0x4080_0000,
    0x407f_f800,
    0x4080_0400,
    // The greatest reading, half a 1024th more, the last float below 8, 8 and what follows, 16, the greatest float.
    0x40ff_f800,
    0x40ff_fc00,
    0x40ff_ffff,
    0x4100_0000,
    0x4100_0001,
    0x4180_0000,
    0x7f7f_ffff,
    // Below 0: a 1024th, one, the greatest reading's opposite.
    0xba80_0000,
    0xbf80_0000,
    0xc0ff_f800,
    // Subnormal, the least and the greatest, of both signs, and the least normal one.
    0x0000_0001,
    0x007f_ffff,
    0x8000_0001,
    0x807f_ffff,
    0x0080_0000,
    // Infinite, of both signs.
    0x7f80_0000,
    0xff80_0000,
    // No numbers: the usual one, with a payload, signalling, of the other sign, all ones.
    0x7fc0_0000,
    0x7fc0_1234,
    0x7f80_0001,
    0xffc0_0000,
    0xffff_ffff,
];

/// The bits of a reading of so many 1024ths.
pub fn reading(parts: u32) -> u32 {
    (parts as f32 / 1_024.0).to_bits()
}

/// Bits of a record: special ones, readings and what is beside them, any.
fn bits(random: &mut Random) -> u32 {
    match random.below(4) {
        0 => *random.pick(&SPECIAL),
        1 => reading(random.below(8_192) as u32),
        2 => reading(random.below(8_193) as u32).wrapping_add(*random.pick(&[1, u32::MAX, 1 << 31])),
        _ => random.draw() as u32,
    }
}

/// So many records of the survey van, with points asked for between them. Most
/// often the mean of all readings is kept at the begin of a row: there, or
/// about a 1024th of the sum beside it.
pub fn records(random: &mut Random, count: usize) -> Vec<Call> {
    let row: u32 = *random.pick(&[47, 35, 33, 31, 29, 27]);
    let (markers, close) = (*random.pick(&[0, 1, 5]), random.chance(70));
    let (mut sum, mut taken) = (0, 0);
    let mut record = || {
        if random.chance(markers) {
            (sum, taken) = (0, 0);
            return Call::Marker(bits(random));
        }
        let bits = match random.below(30) {
            0 => return Call::Lost,
            1 => bits(random),
            2..=9 => return Call::Roughness,
            _ if close => {
                let wanted = row * 1_024 * (taken + 1) / 10 + random.below(3) as u32;
                reading(wanted.saturating_sub(sum + 1).min(8_191))
            }
            _ => reading(random.below(8_192) as u32),
        };
        if let Some(parts) = meter::reading(bits) {
            (sum, taken) = (sum + parts, taken + 1);
        }
        Call::Index(bits)
    };
    (0..count).map(|_| record()).collect()
}

/// A number from 1 to `most`, now and then one that is not.
fn number(random: &mut Random, most: usize) -> u32 {
    match random.below(30) {
        0 => 0,
        1 => most as u32 + 1,
        2 => *random.pick(&[256, 257, 65_537, u32::MAX]),
        _ => random.size(1, most.max(1)) as u32,
    }
}

/// A rating from 0 to `most`, now and then one that is not.
fn rating(random: &mut Random, most: u32) -> u32 {
    match random.below(20) {
        0 => most + 1,
        1 => *random.pick(&[51, 255, 256, u32::MAX]),
        _ => random.within(0, most.into()) as u32,
    }
}

/// Just enough for a file or a page of this length, a byte less, none, one, enough
/// for the longest, and more.
fn room(random: &mut Random, length: usize, longest: usize) -> u32 {
    let (length, longest) = (length as u32, longest as u32);
    *random.pick(&[length, length - 1, 0, 1, longest, u32::MAX])
}

/// Around a limit that was there, or at the ends of the range.
fn new_limit(random: &mut Random, limit: u32) -> u32 {
    match random.below(12) {
        0 => 0,
        1 => LIMIT_MOST,
        2 => LIMIT_MOST + 1,
        3 => u32::MAX,
        _ => (u64::from(limit) * random.within(20, 180) / 100).min(LIMIT_MOST.into()) as u32,
    }
}
