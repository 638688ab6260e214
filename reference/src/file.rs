//! The district file: records of a length, a kind and a payload.
//!
//! There are two forms. Where the first record has kind 8 and not 1, each
//! segment has its leader behind its ratings.

use crate::district::*;
use crate::refusal::Refusal;

/// No valid file is longer.
pub const LONGEST: usize = 3_852;

/// No valid file without leaders is longer.
pub const LONGEST_PLAIN: usize = 3_788;

/// The kind of the first record, in a file without leaders and in one with them.
pub const PLAIN: u16 = 1;
pub const LED: u16 = 8;

/// A district from any bytes, or the first ground for refusal, record by record.
pub fn decode(bytes: &[u8]) -> Result<District, Refusal> {
    decode_of(bytes, &[PLAIN, LED])
}

/// The same where only some kinds are due at the first record.
pub fn decode_of(bytes: &[u8], due: &[u16]) -> Result<District, Refusal> {
    let mut records = Records { rest: bytes };

    let (form, counts) = records.next_of(due, 6)?;
    let led = form == LED;
    let most = [
        (0, MOST_SEGMENTS),
        (1, MOST_STRATEGIES),
        (1, MOST_YEARS),
        (1, MOST_DISTRESS_TYPES),
        (1, MOST_PAVEMENT_TYPES),
        (1, MOST_RESOURCES),
    ];
    for (&count, (low, high)) in counts.iter().zip(most) {
        need((low..=high).contains(&usize::from(count)))?;
    }
    let [n, s, t, d, y, r] = [0, 1, 2, 3, 4, 5].map(|at| usize::from(counts[at]));

    let payload = records.next(2, 4 * r)?;
    let limits: Vec<u32> = payload.chunks_exact(4).map(four).collect();
    need(limits.iter().all(|&limit| limit <= LIMIT_MOST))?;

    let greatest = records.next(3, d)?.to_vec();
    need(greatest.iter().all(|&g| (1..=RATING_MOST).contains(&g)))?;

    let mut strategies = Vec::with_capacity(s);
    for _ in 0..s {
        let payload = records.next(4, 4 * r + d + d * t)?;
        let (requirements, rest) = payload.split_at(4 * r);
        let (gains, survival) = rest.split_at(d);
        let strategy = Strategy {
            requirements: requirements.chunks_exact(4).map(four).collect(),
            gains: gains.iter().map(|&byte| byte as i8).collect(),
            survival: survival.to_vec(),
        };
        need(strategy.requirements.iter().all(|&q| q <= REQUIREMENT_MOST))?;
        need(strategy.gains.iter().all(|&g| (-GAIN_MOST..=GAIN_MOST).contains(&g)))?;
        need(strategy.survival.iter().all(|&percent| percent <= 100))?;
        strategies.push(strategy);
    }

    let mut types = Vec::with_capacity(y);
    for _ in 0..y {
        let payload = records.next(5, 2 + d * t)?;
        let (overall, minimum) = payload.split_at(2);
        let pavement_type = PavementType { overall: two(overall), minimum: minimum.to_vec() };
        need(pavement_type.overall <= OVERALL_MOST)?;
        need(pavement_type.minimum.iter().all(|&m| m <= RATING_MOST))?;
        types.push(pavement_type);
    }

    let mut segments = Vec::with_capacity(n);
    for number in 1..=n {
        let payload = records.next(6, 10 + d + usize::from(led))?;
        let segment = Segment {
            pavement: payload[0],
            traffic: two(&payload[1..3]),
            environment: two(&payload[3..5]),
            length: two(&payload[5..7]),
            width: payload[7],
            bars: two(&payload[8..10]),
            ratings: payload[10..10 + d].to_vec(),
            leader: if led { payload[10 + d] } else { 0 },
        };
        need((1..=y).contains(&usize::from(segment.pavement)))?;
        need((INDEX_LEAST..=INDEX_MOST).contains(&segment.traffic))?;
        need((INDEX_LEAST..=INDEX_MOST).contains(&segment.environment))?;
        need((1..=LENGTH_MOST).contains(&segment.length))?;
        need((1..=WIDTH_MOST).contains(&segment.width))?;
        need(segment.bars >> s == 0)?;
        need(segment.ratings.iter().zip(&greatest).all(|(rating, most)| rating <= most))?;
        need(usize::from(segment.leader) < number)?;
        segments.push(segment);
    }

    records.next(7, 0)?;
    if !records.rest.is_empty() {
        return Err(Refusal::ByteFollows);
    }

    Ok(District { years: t, limits, greatest, strategies, types, segments })
}

/// The file of a district, with leaders only where one is set. Decoding it
/// gives the same district back.
pub fn encode(district: &District) -> Vec<u8> {
    encode_as(district, if district.has_leaders() { LED } else { PLAIN })
}

/// The file of a district with leaders, also where all of them are 0, a form
/// that is read but never written by an export.
pub fn encode_led(district: &District) -> Vec<u8> {
    encode_as(district, LED)
}

/// The file of a district in the form that has this first kind. Leaders that are
/// set are lost where the form has none.
pub fn encode_as(district: &District, form: u16) -> Vec<u8> {
    let mut out = Vec::with_capacity(LONGEST);
    let counts = [
        district.segments.len(),
        district.strategies.len(),
        district.years,
        district.greatest.len(),
        district.types.len(),
        district.limits.len(),
    ];
    record(&mut out, form, &counts.map(|count| count as u8));
    record(&mut out, 2, &fours(&district.limits));
    record(&mut out, 3, &district.greatest);
    for strategy in &district.strategies {
        let mut payload = fours(&strategy.requirements);
        payload.extend(strategy.gains.iter().map(|&gain| gain as u8));
        payload.extend(&strategy.survival);
        record(&mut out, 4, &payload);
    }
    for pavement_type in &district.types {
        let mut payload = pavement_type.overall.to_le_bytes().to_vec();
        payload.extend(&pavement_type.minimum);
        record(&mut out, 5, &payload);
    }
    for segment in &district.segments {
        let mut payload = vec![segment.pavement];
        payload.extend(segment.traffic.to_le_bytes());
        payload.extend(segment.environment.to_le_bytes());
        payload.extend(segment.length.to_le_bytes());
        payload.push(segment.width);
        payload.extend(segment.bars.to_le_bytes());
        payload.extend(&segment.ratings);
        if form == LED {
            payload.push(segment.leader);
        }
        record(&mut out, 6, &payload);
    }
    record(&mut out, 7, &[]);
    out
}

/// What is left of a file while its records are taken off the front.
struct Records<'a> {
    rest: &'a [u8],
}

impl<'a> Records<'a> {
    /// The payload of the next record, which must be of this kind and length.
    fn next(&mut self, kind: u16, length: usize) -> Result<&'a [u8], Refusal> {
        self.next_of(&[kind], length).map(|(_, payload)| payload)
    }

    /// The same where any of some kinds is due: which one it is, and the payload.
    fn next_of(&mut self, kinds: &[u16], length: usize) -> Result<(u16, &'a [u8]), Refusal> {
        if self.rest.len() < 4 {
            return Err(Refusal::FileEnds);
        }
        let (head, rest) = self.rest.split_at(4);
        let kind = two(&head[2..]);
        if !kinds.contains(&kind) {
            return Err(Refusal::Kind);
        }
        if usize::from(two(head)) != length {
            return Err(Refusal::Length);
        }
        if rest.len() < length {
            return Err(Refusal::FileEnds);
        }
        let (payload, rest) = rest.split_at(length);
        self.rest = rest;
        Ok((kind, payload))
    }
}

fn need(in_range: bool) -> Result<(), Refusal> {
    if in_range {
        Ok(())
    } else {
        Err(Refusal::Value)
    }
}

fn two(bytes: &[u8]) -> u16 {
    u16::from_le_bytes([bytes[0], bytes[1]])
}

fn four(bytes: &[u8]) -> u32 {
    u32::from_le_bytes([bytes[0], bytes[1], bytes[2], bytes[3]])
}

fn fours(values: &[u32]) -> Vec<u8> {
    values.iter().flat_map(|value| value.to_le_bytes()).collect()
}

fn record(out: &mut Vec<u8>, kind: u16, payload: &[u8]) {
    out.extend((payload.len() as u16).to_le_bytes());
    out.extend(kind.to_le_bytes());
    out.extend(payload);
}
