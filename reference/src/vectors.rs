//! The stored cases: lists of calls, the same ones each time, group by group.
//!
//! What each comes to is worked out by `calls::worked`, and another
//! implementation is run on the same frames.

use crate::calls::{encode, encode_by, Call};
use crate::counties::{self, five, HALVES};
use crate::desk::{Edit, PLACES};
use crate::district::*;
use crate::make::{self, Shape, WIDEST};
use crate::offices::{self, bare, changed, north, south};
use crate::random::Random;
use crate::unit::{plan, plan_in, Plan};
use crate::{blocks, example, file, frames, leaders, lists, page};

/// Room for every file without leaders.
const ROOM: u32 = file::LONGEST_PLAIN as u32;

/// All frames, one after another.
pub fn frames() -> Vec<u8> {
    let mut out = Vec::new();
    for script in scripts() {
        frames::put(&mut out, &script);
    }
    out
}

fn scripts() -> Vec<Vec<u8>> {
    let mut cases = Cases { scripts: Vec::new() };
    beginnings(&mut cases);
    the_card(&mut cases);
    sizes(&mut cases);
    ties(&mut cases);
    limits_of_zero(&mut cases);
    negative_gains(&mut cases);
    bars(&mut cases);
    the_report(&mut cases);
    phases(&mut cases);
    refused_files(&mut cases);
    files_wrong_twice(&mut cases);
    refused_calls(&mut cases);
    ends_of_ranges(&mut cases);
    refused_exports(&mut cases);
    refused_pages(&mut cases);
    refused_whys(&mut cases);
    records(&mut cases);
    what_a_refusal_leaves(&mut cases);
    long_lists(&mut cases);
    ends_of_fields(&mut cases);
    files_cut(&mut cases);
    losses(&mut cases);
    losses_cut(&mut cases);
    ends_of_years(&mut cases);
    readings(&mut cases);
    led_districts(&mut cases);
    led_files(&mut cases);
    set_leaders(&mut cases);
    led_readings(&mut cases);
    two_offices(&mut cases);
    no_offices(&mut cases);
    kinds_that_are_no_calls(&mut cases);
    other_tables(&mut cases);
    other_tables_and_more(&mut cases);
    what_is_not_shared(&mut cases);
    tables_for_both(&mut cases);
    windows_of_both(&mut cases);
    lists_by_both(&mut cases);
    arrivals(&mut cases);
    turns(&mut cases);
    refused_steps(&mut cases);
    waiting_through_loads(&mut cases);
    waiting_as_bytes(&mut cases);
    lists_at_consoles(&mut cases);
    planned_in_blocks(&mut cases);
    rows_not_followed(&mut cases);
    blocks_kept_and_dropped(&mut cases);
    blocks_as_bytes(&mut cases);
    lists_in_blocks(&mut cases);
    cases.scripts
}

struct Cases {
    scripts: Vec<Vec<u8>>,
}

impl Cases {
    fn list(&mut self, calls: &[Call]) {
        self.scripts.push(encode(calls));
    }

    /// Calls that each name an office.
    fn by(&mut self, calls: &[(u32, Call)]) {
        self.scripts.push(encode_by(calls));
    }

    /// The same calls, and then what each office shows.
    fn by_and_shown(&mut self, calls: &[(u32, Call)]) {
        self.by(calls);
        for office in [1, 2] {
            self.by(&[calls, &[(office, Call::Show)]].concat());
        }
    }

    fn file(&mut self, bytes: Vec<u8>) {
        self.list(&[Call::Load(bytes)]);
    }

    fn district(&mut self, district: &District) {
        self.file(file::encode(district));
    }

    /// A district, and calls after its load.
    fn after(&mut self, district: &District, calls: &[Call]) {
        self.list(&[&[load(district)], calls].concat());
    }
}

fn load(district: &District) -> Call {
    Call::Load(file::encode(district))
}

// ---- groups

/// No call, or none that is there whole; kinds that are a show, and others whose numbers are large.
fn beginnings(cases: &mut Cases) {
    let whole = encode(&[load(&two_of_each())]);
    let more = encode(&[load(&two_of_each()), Call::SetLimit(1, 10)]);
    cases.list(&[]);
    // Cut within the first call, within its file, within the second call.
    for (bytes, length) in [(&whole, 16), (&whole, 17), (&whole, whole.len() - 1), (&more, more.len() - 1)] {
        cases.scripts.push(bytes[..length].to_vec());
    }
    // A file that claims more bytes than follow, and far more.
    cases.scripts.push([&whole[..], &[0, 1, 0, 0, 0, 1, 0, 0, 0, 0, 0, 0, 0, 0, 0, 0, 0]].concat());
    cases.scripts.push([&whole[..], &[0, 1, 0, 0, 0, 255, 255, 255, 255, 0, 0, 0, 0, 0, 0, 0, 0, 9]].concat());
    for kind in [6, 7, 8, 9, 10, 11, 12, 13, 14, 128, 255] {
        cases.scripts.push([&whole[..], &[kind, 1, 0, 0, 0], &[9; 12]].concat());
    }
    cases.list(&[Call::Show]);
    cases.list(&[Call::Export(ROOM)]);
}

/// The district on the test card, and what is marked with it.
fn the_card(cases: &mut Cases) {
    cases.district(&card());
    cases.after(&card(), &[Call::Bar(2, 2)]);
    for limit in [180, 179, 59, 0] {
        cases.after(&card(), &[Call::SetLimit(1, limit)]);
    }
}

/// Each count at its least, in its middle and at its greatest.
fn sizes(cases: &mut Cases) {
    let usual = Shape { segments: 5, strategies: 4, years: 3, distress_types: 3, pavement_types: 2, resources: 3 };
    let mut shapes = Vec::new();
    for n in [0, 1, 32, 64] {
        shapes.push(Shape { segments: n, ..usual });
    }
    for s in [1, 6, 11] {
        shapes.push(Shape { strategies: s, ..usual });
    }
    for t in [1, 5, 10] {
        shapes.push(Shape { years: t, ..usual });
    }
    for d in [1, 5, 9] {
        shapes.push(Shape { distress_types: d, ..usual });
    }
    for y in [1, 2, 4] {
        shapes.push(Shape { pavement_types: y, ..usual });
    }
    for r in [1, 8, 16] {
        shapes.push(Shape { resources: r, ..usual });
    }
    // One of everything, no segment beside the most of all else, the longest file.
    shapes.push(Shape { segments: 1, strategies: 1, years: 1, distress_types: 1, pavement_types: 1, resources: 1 });
    shapes.push(Shape { segments: 0, ..WIDEST });
    shapes.push(WIDEST);
    for (at, &shape) in shapes.iter().enumerate() {
        let planned = |_: &District, plan: &Plan| plan.total > 0 || shape.segments == 0;
        found(100 + at as u64, 1, |_| shape, planned).iter().for_each(|district| cases.district(district));
    }
    // The longest file again, where planning is long.
    cases.district(&make::busy_district(&mut Random::new(7), WIDEST));
}

/// Equal benefits and equal ratios: the lower number goes first.
fn ties(cases: &mut Cases) {
    let one = [1_000];
    let less = [900];
    // Two strategies alike; two of the same benefit, where the second needs less.
    cases.district(&plain(&[100], &[(10, &one), (10, &one)], &[(1, 0), (2, 0)]));
    for limit in [0, 9, 10, 18, 19, 20, 27, 28] {
        cases.district(&plain(&[limit], &[(10, &one), (10, &less)], &[(1, 0), (1, 0), (1, 0)]));
    }
    // Two segments alike and room for one: the lower steps.
    cases.district(&plain(&[10], &[(10, &one)], &[(1, 0), (1, 0)]));
    // Benefit and pull in the same proportion.
    cases.district(&plain(&[20], &[(10, &one)], &[(1, 0), (2, 0)]));
    cases.district(&plain(&[20], &[(10, &one)], &[(2, 0), (1, 0)]));
    // Two alike step to nothing, a larger one follows, and one of them is picked up again.
    let small_and_large = [(1, 45), (1, 45), (3, 0), (3, 0)];
    cases.district(&plain(&[45], &[(50, &one)], &small_and_large));
    cases.district(&plain(&[45], &[(50, &one), (50, &less)], &small_and_large));
    // A strategy that two twins share, over two resources.
    cases.district(&plain(&[20, 15], &[(10, &[1_000, 500]), (10, &[500, 1_000])], &[(1, 0), (1, 0), (1, 0)]));
}

/// Nothing that needs the resource is a candidate; what needs none of it is.
fn limits_of_zero(cases: &mut Cases) {
    let strategies: [(i8, &[u32]); 3] = [(30, &[1_000, 1_000]), (20, &[1_000, 0]), (10, &[0, 0])];
    for limits in [[0, 0], [0, 100], [100, 0], [100, 100]] {
        cases.district(&plain(&limits, &strategies, &[(1, 0), (3, 10)]));
    }
    let district = plain(&[100, 100], &strategies, &[(1, 0), (3, 10)]);
    cases.after(&district, &[Call::SetLimit(2, 0)]);
    cases.after(&district, &[Call::SetLimit(1, 0), Call::SetLimit(2, 0)]);
    cases.after(&district, &[Call::SetLimit(1, 0), Call::SetLimit(2, 0), Call::SetLimit(1, 100)]);
}

/// Benefits below 0 and sums that cancel; a division toward zero from below.
fn negative_gains(cases: &mut Cases) {
    let none = [0];
    cases.district(&plain(&[100], &[(-10, &none), (-50, &none), (1, &none)], &[(1, 0), (1, 50)]));
    for gains in [[20, -10], [10, -10], [10, -20], [50, -50], [-50, 50], [50, -49]] {
        let mut district = two_of_each();
        for strategy in &mut district.strategies {
            strategy.gains = gains.to_vec();
        }
        cases.district(&district);
    }
    // An effect of -94 and of 94: indexes 101 and 101, 90 percent, gain -1 and 1.
    let mut district = plain(&[100], &[(-1, &none), (1, &none)], &[(1, 5)]);
    district.greatest[0] = 20;
    (district.segments[0].traffic, district.segments[0].environment) = (101, 101);
    district.strategies.iter_mut().for_each(|strategy| strategy.survival[0] = 90);
    cases.district(&district);
    cases.after(&district, &[Call::Bar(1, 2)]);
    // Losses among other gains, and minimums that are not reached.
    let lossy = |_: &District, plan: &Plan| plan.total > 0;
    for district in found(300, 20, |random| make::small_shape(random, 4, 4), lossy) {
        if district.strategies.iter().any(|strategy| strategy.gains.iter().any(|&gain| gain < -20)) {
            cases.district(&district);
        }
    }
}

/// In the file, and by calls one after the other; and off again.
fn bars(cases: &mut Cases) {
    let mut barred = two_of_each();
    barred.segments.iter_mut().for_each(|segment| segment.bars = 3);
    cases.district(&barred);
    cases.after(&barred, &[Call::Unbar(1, 2)]);
    cases.after(&barred, &[Call::Unbar(1, 2), Call::Unbar(2, 1), Call::Unbar(2, 1)]);
    let all: Vec<Call> = [(1, 1), (1, 2), (2, 1), (2, 2)].map(|(i, j)| Call::Bar(i, j)).to_vec();
    for count in 1..=4 {
        cases.after(&two_of_each(), &all[..count]);
    }
    // The highest bit, which only eleven strategies have.
    let shape = Shape { segments: 3, strategies: 11, years: 2, distress_types: 2, pavement_types: 1, resources: 2 };
    for district in found(400, 1, |_| shape, |_, plan| plan.strategies[..3].contains(&11)) {
        let each: Vec<Call> = (1..=3).map(|i| Call::Bar(i, 11)).collect();
        cases.district(&district);
        cases.after(&district, &each);
        cases.after(&district, &[&each[..], &[Call::Unbar(2, 11)]].concat());
    }
}

/// The report's example problem, and its budget, resource 16, cut and raised.
fn the_report(cases: &mut Cases) {
    let district = example::district();
    cases.district(&district);
    for budget in [0, 12_020, 60_100, 110_000, 240_400, LIMIT_MOST] {
        cases.after(&district, &[Call::SetLimit(16, budget)]);
    }
    cases.after(&district, &[Call::Unbar(1, 1), Call::Unbar(1, 3), Call::SetRating(10, 6, 0), Call::Bar(3, 2)]);
}

/// Plans in which each phase has work to do.
fn phases(cases: &mut Cases) {
    let middle = |random: &mut Random| make::small_shape(random, 16, 6);
    let kept = [
        found(500, 4, middle, |_, plan| plan.steps > 4 && plan.pickups == 0),
        found(501, 6, middle, |_, plan| plan.pickups > 0),
        found(502, 2, middle, |_, plan| plan.pickups > 1),
        found(503, 6, middle, |_, plan| plan.changes > 0),
        found(504, 3, middle, |_, plan| plan.changes > 2),
        found(505, 4, middle, |_, plan| plan.steps > 0 && plan.pickups > 0 && plan.changes > 0),
        // What a pavement type demands leaves some segments without a candidate.
        found(506, 4, middle, |district, plan| plan.total > 0 && demanding(district) && plan.strategies[0] == 0),
    ];
    kept.iter().flatten().for_each(|district| cases.district(district));
    let wide = Shape { segments: 40, strategies: 8, years: 4, distress_types: 4, pavement_types: 2, resources: 6 };
    for seed in 0..2 {
        cases.district(&make::busy_district(&mut Random::new(600 + seed), wide));
    }
}

/// Refusals 1 to 5, at each record.
fn refused_files(cases: &mut Cases) {
    let bytes = file::encode(&one_of_each());
    let starts = make::record_starts(&bytes);
    cases.file(Vec::new());
    for (at, &start) in starts.iter().enumerate() {
        let end = starts.get(at + 1).copied().unwrap_or(bytes.len());
        // 1: ends within the first four bytes, and within the payload.
        cases.file(bytes[..start + 3].to_vec());
        if end > start + 4 {
            cases.file(bytes[..end - 1].to_vec());
        }
        // 2 and 3: another kind, another length.
        cases.file(with(&bytes, start + 2, bytes[start + 2] + 1));
        cases.file(with(&bytes, start, bytes[start] + 1));
    }
    cases.file(with(&bytes, 3, 1));
    cases.file(with(&bytes, 1, 1));
    // 4: each value a step beyond its range.
    for damage in beyond() {
        let mut district = one_of_each();
        damage(&mut district);
        cases.district(&district);
    }
    for (at, beyond) in [(4, 65), (5, 0), (5, 12), (6, 0), (6, 11), (7, 0), (7, 10), (8, 0), (8, 5), (9, 0), (9, 17)] {
        cases.file(with(&bytes, at, beyond));
    }
    // 5: a byte follows.
    cases.file([&bytes[..], &[0]].concat());
    cases.file([&bytes[..], &bytes].concat());
}

/// Two conditions at once: the first from the top, record by record.
fn files_wrong_twice(cases: &mut Cases) {
    let bytes = file::encode(&one_of_each());
    let second = make::record_starts(&bytes)[1];
    // Kind and length; length and an end within the payload; an end and a value.
    cases.file(with(&with(&bytes, second, 5), second + 2, 9));
    cases.file(with(&bytes, second, 5)[..second + 6].to_vec());
    cases.file(with(&bytes, second + 4, 255)[..second + 7].to_vec());
    // A value, and a byte behind the end; a value, and a kind in the next record.
    let limit = with(&bytes, second + 7, 255);
    cases.file([&limit[..], &[0]].concat());
    cases.file(with(&limit, second + 10, 9));
    // A count out of its range, and the lengths that would follow from it.
    cases.file(with(&with(&bytes, 9, 17), second, 68));
    // The end missing, and a byte there in its place.
    cases.file([&bytes[..bytes.len() - 4], &[0]].concat());
}

/// Refusals 6, 7 and 8, each alone and where others are due as well.
fn refused_calls(cases: &mut Cases) {
    let district = two_of_each();
    let mut calls = vec![
        // No such limit, or rating: 8.
        Call::SetLimit(1, LIMIT_MOST + 1),
        Call::SetLimit(2, u32::MAX),
        Call::SetRating(1, 1, 51),
        Call::SetRating(2, 2, 41),
        Call::SetRating(2, 2, 256),
        // Resource and limit: 7. Segment, distress and rating: 6. Distress and rating: 7.
        Call::SetLimit(3, LIMIT_MOST + 1),
        Call::SetRating(3, 3, 51),
        Call::SetRating(3, 1, 51),
        Call::SetRating(3, 3, 1),
        Call::SetRating(1, 3, 51),
        // Segment and strategy: 6.
        Call::Bar(3, 3),
        Call::Unbar(3, 3),
        Call::Bar(0, 0),
        Call::Unbar(0, 0),
    ];
    for number in [0, 3, 257, u32::MAX] {
        // No such segment: 6. No such strategy, resource or distress: 7.
        calls.extend([Call::Bar(number, 1), Call::Unbar(number, 2), Call::SetRating(number, 1, 0)]);
        calls.extend([Call::Bar(2, number), Call::Unbar(1, number), Call::SetRating(1, number, 0)]);
        calls.push(Call::SetLimit(number, 5));
    }
    for call in calls {
        cases.after(&district, &[call]);
    }
}

/// The ends of the ranges are accepted. A fresh unit has a resource, and no segment.
fn ends_of_ranges(cases: &mut Cases) {
    let district = two_of_each();
    for call in [Call::SetLimit(2, LIMIT_MOST), Call::SetRating(1, 1, 50), Call::SetRating(2, 2, 40), Call::Bar(2, 2)] {
        cases.after(&district, &[call]);
    }
    for call in
        [Call::Bar(1, 1), Call::Unbar(1, 1), Call::SetRating(1, 1, 1), Call::SetLimit(1, 1), Call::SetLimit(2, 1)]
    {
        cases.list(&[call]);
    }
}

/// Refusal 9, and room enough: none, one, a byte less than the file has, as many, more.
fn refused_exports(cases: &mut Cases) {
    cases.list(&[Call::Export(1)]);
    cases.list(&[Call::Export(1), Call::Show]);
    for district in [District::fresh(), two_of_each()] {
        let length = file::encode(&district).len() as u32;
        for room in [0, 1, length - 1, length, length + 1, ROOM, u32::MAX] {
            cases.after(&district, &[Call::Export(room)]);
        }
    }
    cases.after(&two_of_each(), &[Call::Export(1), Call::Export(ROOM)]);
    // The longest file.
    let widest = make::busy_district(&mut Random::new(7), WIDEST);
    for room in [ROOM - 1, ROOM, ROOM + 1] {
        cases.after(&widest, &[Call::Export(room)]);
    }
}

/// Refusal 11, and room enough: none, one, a line, a byte less than the page has, as many, more.
fn refused_pages(cases: &mut Cases) {
    cases.list(&[Call::Page(242)]);
    cases.list(&[Call::Page(243)]);
    let district = two_of_each();
    for room in [0, 1, 81, 404, 405, 406, page::LONGEST as u32, u32::MAX] {
        cases.after(&district, &[Call::Page(room)]);
    }
    cases.after(&district, &[Call::Page(1), Call::Show]);
    cases.after(&district, &[Call::SetLimit(1, 9), Call::Page(405), Call::Page(404)]);
    // The longest page.
    let longest = page::LONGEST as u32;
    for room in [longest - 1, longest, longest + 1] {
        cases.after(&dearest(), &[Call::Page(room)]);
    }
}

/// Why answers 6 and 7, the segment first, or gives a reason; it changes nothing.
fn refused_whys(cases: &mut Cases) {
    cases.list(&[Call::Why(1, 1)]);
    let district = two_of_each();
    for number in [0, 3, 257, u32::MAX] {
        for call in [Call::Why(number, 1), Call::Why(2, number), Call::Why(number, number)] {
            cases.after(&district, &[call]);
        }
    }
    for call in [Call::Why(1, 1), Call::Why(1, 2), Call::Why(2, 1), Call::Why(2, 2)] {
        cases.after(&district, &[Call::Bar(1, 2), Call::SetLimit(1, 9), call]);
    }
    cases.after(&district, &[Call::Why(3, 1), Call::Show]);
    cases.after(&district, &[Call::Why(3, 1), Call::Why(1, 1)]);
}

/// Readings are accepted or answer 12; roughness answers 13 where none is kept. A
/// list does not show points, so these are stored with the console.
fn records(cases: &mut Cases) {
    let one = Call::Index(lists::reading(1_024));
    let marker = Call::Marker(0x7fc0_1234);
    cases.list(&[Call::Roughness]);
    cases.list(&[Call::Lost]);
    cases.list(&[Call::Lost, Call::Roughness]);
    cases.list(std::slice::from_ref(&marker));
    cases.list(&[marker.clone(), Call::Roughness]);
    cases.list(&[marker.clone(), one.clone(), Call::Roughness]);
    cases.list(&[one.clone(), Call::Lost, Call::Roughness]);
    cases.list(&[one.clone(), Call::Roughness, Call::Roughness]);
    cases.list(&[one.clone(), marker.clone(), Call::Roughness]);
    cases.list(&[one.clone(), marker.clone(), Call::Lost, Call::Roughness]);
    // What is no reading changes nothing: none is kept, or the one before it is. A marker may be anything.
    for bits in lists::SPECIAL {
        cases.list(&[Call::Index(bits)]);
        cases.list(&[Call::Index(bits), Call::Roughness]);
        cases.list(&[one.clone(), Call::Index(bits), Call::Roughness]);
        cases.list(&[one.clone(), Call::Marker(bits), Call::Roughness]);
    }
    // As many readings as are kept, more, and twice as many; then a marker.
    for count in [63, 64, 65, 66, 128, 129, 200] {
        let many: Vec<Call> = (1..=count).map(|at| Call::Index(lists::reading(8_192 - 37 * at))).collect();
        cases.list(&[&many[..], &[Call::Roughness]].concat());
        cases.list(&[&many[..], &[marker.clone(), Call::Roughness]].concat());
    }
    // Loads and edits, refused ones too, leave what is kept.
    let district = two_of_each();
    let others = [
        load(&district),
        Call::Bar(1, 1),
        Call::SetLimit(1, 9),
        Call::SetRating(1, 1, 6),
        Call::Unbar(1, 1),
        Call::Load(Vec::new()),
        Call::Bar(3, 1),
        Call::Export(1),
        Call::Page(1),
        Call::Why(1, 3),
    ];
    for count in 1..=others.len() {
        let before = std::slice::from_ref(&one);
        cases.list(&[before, &others[..count], &[Call::Roughness]].concat());
    }
    cases.list(&[&others[..], &[Call::Roughness]].concat());
    // Records leave district and programme.
    for record in [one, marker, Call::Lost] {
        cases.after(&district, &[Call::SetLimit(1, 9), record.clone()]);
        cases.after(&district, &[Call::SetLimit(1, 9), record, Call::Index(u32::MAX), Call::Show]);
    }
}

/// Refused calls of every kind leave district and programme as they were.
fn what_a_refusal_leaves(cases: &mut Cases) {
    let district = two_of_each();
    let damaged = file::encode(&one_of_each())[1..].to_vec();
    let refused = [
        Call::Load(damaged),
        Call::Bar(1, 3),
        Call::Unbar(3, 1),
        Call::SetLimit(1, LIMIT_MOST + 1),
        Call::SetRating(1, 1, 51),
        Call::Export(1),
        Call::Page(1),
        Call::Why(1, 3),
        Call::Index(u32::MAX),
        Call::Roughness,
    ];
    for call in &refused {
        cases.after(&district, &[call.clone(), Call::Show]);
    }
    cases.after(&district, &refused);
    cases.after(&district, &[&refused[..], &[Call::Show]].concat());
    // What is accepted between them stays.
    cases.after(&district, &[&refused[..3], &[Call::SetLimit(1, 9)], &refused[3..], &[Call::Show]].concat());
    // A load replaces all that calls have made of the district before.
    cases.after(&district, &[Call::SetLimit(1, 9), Call::Bar(1, 1), load(&district)]);
}

/// Hundreds of calls, refused ones among them and at the end; then the same
/// with a show behind.
fn long_lists(cases: &mut Cases) {
    for (seed, count) in [(700, 100), (701, 200), (702, 300), (703, 400), (704, 500)] {
        let mut calls = lists::list(&mut Random::new(seed), count, false);
        cases.list(&calls);
        calls.push(Call::SetLimit(0, 1));
        cases.list(&calls);
        calls.push(Call::Show);
        cases.list(&calls);
    }
}

/// Each number of a file at the ends of its range, which loads.
fn ends_of_fields(cases: &mut Cases) {
    for change in within() {
        let mut district = one_of_each();
        change(&mut district);
        cases.district(&district);
    }
    // The greatest rating a step below its range, with a rating that it allows.
    let mut district = one_of_each();
    (district.greatest[0], district.segments[0].ratings[0]) = (0, 0);
    cases.district(&district);
}

/// Cut just before each record, and within a head whose kind is wrong already.
fn files_cut(cases: &mut Cases) {
    let bytes = file::encode(&one_of_each());
    for start in make::record_starts(&bytes) {
        cases.file(bytes[..start].to_vec());
        cases.file(with(&bytes, start + 2, 9)[..start + 3].to_vec());
    }
}

/// What is lost at once and what is gained late: ratings that are lowest right
/// after the work.
fn losses(cases: &mut Cases) {
    // A minimum that holds in year 1 and would not in year 0.
    let mut district = losing(&[[-4, 42]], [0, 0, 100, 0], [4, 0]);
    district.types[0].minimum[0] = 4;
    cases.district(&district);
    // Nothing to lose, and the gain comes late.
    let late = [100, 0, 0, 100];
    cases.district(&losing(&[[-4, 42]], late, [0, 0]));
    for overall in [1, 2, 5, 6] {
        let mut district = losing(&[[-4, 42]], late, [0, 5]);
        district.types[0].overall = overall;
        cases.district(&district);
    }
}

/// A loss deeper than the rating that it is taken from takes what is there.
fn losses_cut(cases: &mut Cases) {
    // The first distress type loses all in year 1 and half of it in year 2.
    let percents = [100, 50, 100, 100];
    let deep = |rating: u8| losing(&[[-6, 42]], percents, [rating, 5]);
    for rating in [0, 1, 2, 5, 6, 7] {
        cases.district(&deep(rating));
    }
    cases.after(&deep(6), &[Call::SetRating(1, 1, 2)]);
    cases.after(&deep(2), &[Call::SetRating(1, 1, 6)]);
    // What is left in year 2 reaches a minimum of 1, and not of 2.
    for minimum in [1, 2] {
        let mut district = deep(2);
        district.types[0].minimum[1] = minimum;
        cases.district(&district);
    }
    // Together with what is gained there are 47 in year 1.
    for overall in [47, 48] {
        let mut district = deep(2);
        district.types[0].overall = overall;
        cases.district(&district);
    }
    // The other distress type loses; both do; a loss where there is nothing, beside the least gain.
    for (gains, ratings) in [([42, -6], [5, 2]), ([-6, -6], [2, 2]), ([-6, -1], [2, 50]), ([1, -50], [49, 0])] {
        cases.district(&losing(&[gains], percents, ratings));
    }
    // Of two strategies the one that loses is the better where there is little to lose.
    for rating in [0, 9, 10, 11, 40] {
        cases.district(&losing(&[[-40, 30], [0, 20]], [100; 4], [rating, 5]));
    }
    // Plans with a strategy whose loss is cut.
    let cut = make::takes_a_cut_loss;
    let small = |random: &mut Random| make::small_shape(random, 6, 4);
    let kept = [
        found(800, 6, small, cut),
        found(801, 3, small, |district, plan| cut(district, plan) && plan.steps > 0),
        found(802, 3, small, |district, plan| cut(district, plan) && demanding(district)),
    ];
    kept.iter().flatten().for_each(|district| cases.district(district));
}

/// A year counts with what survives at its start and at its end; demands look
/// at its end.
fn ends_of_years(cases: &mut Cases) {
    // A gain that lasts in some of the years: what survives a year counts there and in the next.
    for percents in [&[0][..], &[60], &[100, 0], &[0, 100], &[0, 0], &[90, 70, 40, 0], &[0, 100, 0, 100]] {
        cases.district(&lasting(&[percents], 100));
    }
    // Ends whose sum is odd in millionths, twice: nothing of it is left over in all.
    cases.district(&lasting(&[&[99, 70]], 125));
    // All survives at the start of year 1 and nothing at its end, whatever the mean of the percents says.
    cases.district(&lasting(&[&[40, 0]], 200));
    // Of two strategies one is the better by the ends, the other one by both.
    cases.district(&lasting(&[&[100, 0], &[60, 60]], 100));
    cases.district(&lasting(&[&[60, 60], &[100, 0]], 100));
    // The first strategy leaves nothing at the end of year 2 and a mean of 5, the second one 6 at both ends.
    for minimum in [0, 1, 5, 6, 7, 8] {
        let mut district = lasting(&[&[100, 0], &[60, 60]], 100);
        district.types[0].minimum[1] = minimum;
        cases.district(&district);
    }
    // At the end of year 1 the two leave 10 and 6, with means of 10 and 8.
    for overall in [6, 7, 8, 9, 10, 11] {
        let mut district = lasting(&[&[100, 0], &[60, 60]], 100);
        district.types[0].overall = overall;
        cases.after(&district, &[Call::Bar(1, 1)]);
        cases.district(&district);
    }
    // A loss counts 50 for each point, at the start of year 1 alone, a gain 110: benefits below, at and above 0.
    for (loss, gain) in [(-12, 5), (-11, 5), (-10, 5), (-50, 50)] {
        cases.district(&losing(&[[loss, gain]], [0, 0, 60, 0], [50, 0]));
    }
    // Nothing is left at the end of any year, and still there is a benefit; none where nothing is gained.
    let mut district = plain(&[100], &[(1, &[0]), (0, &[0])], &[(1, 49), (1, 50)]);
    district.strategies.iter_mut().for_each(|strategy| strategy.survival[0] = 0);
    cases.district(&district);
}

/// Small districts that a wrong reading of one rule plans otherwise: see `wrong/`.
fn readings(cases: &mut Cases) {
    for district in [
        // Phase 1: a ratio by ten times as much, not rounded, to the nearest, rounded up.
        small(&[4], &[(&[56_441], 3, 100)], &[(7, 1, 0), (1, 1, 0)]),
        small(&[1], &[(&[9_395], 1, 100)], &[(4, 1, 0), (7, 1, 0)]),
        small(&[599], &[(&[40_000], 2, 100)], &[(246, 3, 0), (300, 3, 0)]),
        small(&[1], &[(&[60_000], 1, 30), (&[70_000], 1, 26)], &[(1, 1, 2), (1, 1, 1)]),
        // A surplus of the exact use, rounded up and rounded down.
        small(&[8], &[(&[57_151], 5, 100)], &[(7, 1, 0), (8, 1, 0)]),
        small(&[4], &[(&[56_441], 1, 100)], &[(7, 1, 0), (1, 1, 0)]),
        // A surplus where the shares, rounded up, are over 10,000 and the use just meets the limit.
        small(&[3, 3], &[(&[100_000, 0], 1, 0), (&[1_000, 2_000], 50, 100)], &[(1, 1, 2), (10, 10, 0), (10, 10, 0)]),
        // Phase 2: of equal benefits the lower strategy before the lower segment.
        small(&[6], &[(&[82], 1, 100), (&[121], 2, 100)], &[(290, 10, 0), (100, 10, 0), (300, 10, 0), (200, 10, 0)]),
        // Phase 3: single changes by strategy before segment; in pairs nothing as the last of the second.
        small(&[120], &[(&[2_000], 9, 100), (&[2_481], 10, 100), (&[999], 1, 100)], &[(297, 7, 0), (400, 10, 0)]),
        small(&[3_415], &[(&[0], 1, 100), (&[49_898], 5, 100)], &[(386, 10, 0), (299, 10, 0)]),
        // The ceiling: a price lowered, and raised, where it stays equal.
        small(&[100, 30], &[(&[3_000, 500], 1, 100), (&[1_697, 1_777], 4, 100)], &[(299, 10, 0), (100, 9, 0)]),
        small(&[40, 2], &[(&[1_000, 51], 1, 100)], &[(200, 10, 0), (200, 10, 0)]),
        dearest(),
    ] {
        cases.district(&district);
    }
}

/// Districts in which leaders decide, in each phase.
fn led_districts(cases: &mut Cases) {
    leaders::districts().iter().for_each(|(_, district)| cases.district(district));
    let middle = |random: &mut Random| make::small_shape(random, 12, 4);
    let kept = [
        found_led(900, 3, middle, |plan, _| plan.steps > 0),
        found_led(901, 3, middle, |plan, _| plan.pickups > 0),
        found_led(902, 3, middle, |plan, _| plan.changes > 0),
        found_led(903, 3, middle, |plan, _| plan.steps > 0 && plan.pickups > 0 && plan.changes > 0),
        // More, and less, of each than without leaders.
        found_led(904, 2, middle, |plan, unled| plan.pickups > unled.pickups),
        found_led(905, 2, middle, |plan, unled| plan.changes > unled.changes),
        found_led(906, 2, middle, |plan, unled| plan.steps > 1 && plan.steps < unled.steps),
    ];
    kept.iter().flatten().for_each(|district| cases.district(district));
    // The longest file, each segment behind the one before it.
    let chain: Vec<u8> = (0..MOST_SEGMENTS as u8).collect();
    cases.district(&led(make::busy_district(&mut Random::new(7), WIDEST), &chain));
}

/// Files with leaders: 1 to 5 at each record, what a leader may be, and both forms.
fn led_files(cases: &mut Cases) {
    let mut district = plain(&[100], &[(10, &[1_000])], &[(1, 5), (2, 5), (3, 5)]);
    district.limits[0] = 40;
    for leaders in [[0, 0, 0], [0, 1, 0], [0, 0, 1], [0, 0, 2], [0, 1, 1], [0, 1, 2]] {
        cases.file(file::encode_led(&led(district.clone(), &leaders)));
    }
    // 4: the segment itself, one behind it, none that there is.
    for leaders in [[1, 0, 0], [2, 0, 0], [0, 2, 0], [0, 3, 0], [0, 0, 3], [0, 0, 4], [0, 0, 64], [0, 0, 255]] {
        cases.file(file::encode_led(&led(district.clone(), &leaders)));
    }
    let bytes = file::encode(&led(district.clone(), &[0, 1, 2]));
    let starts = make::record_starts(&bytes);
    for (at, &start) in starts.iter().enumerate() {
        let end = starts.get(at + 1).copied().unwrap_or(bytes.len());
        cases.file(bytes[..start].to_vec());
        cases.file(bytes[..start + 3].to_vec());
        if end > start + 4 {
            cases.file(bytes[..end - 1].to_vec());
        }
        cases.file(with(&bytes, start + 2, bytes[start + 2] + 1));
        cases.file(with(&bytes, start, bytes[start] + 1));
        cases.file(with(&bytes, start, bytes[start].wrapping_sub(1)));
    }
    cases.file([&bytes[..], &[0]].concat());
    // The other kind of first record: its segments are a byte too long, or too short.
    cases.file(with(&bytes, 2, 1));
    cases.file(with(&file::encode(&district), 2, 8));
    // The high byte of the first kind; kind 8 where another is due.
    cases.file(with(&bytes, 3, 8));
    for start in starts {
        cases.file(with(&bytes, start + 2, 8));
    }
    // A leader out of its range, and a byte that follows, or a wrong kind behind it.
    let misled = file::encode_led(&led(district.clone(), &[0, 2, 0]));
    cases.file([&misled[..], &[0]].concat());
    cases.file(with(&misled, misled.len() - 2, 9));
    // No segment, in the form with leaders.
    cases.file(file::encode_led(&District::fresh()));
    cases.file(with(&file::encode_led(&District::fresh()), 4, 65));
    // Room for the export: that of the file without leaders, a byte less than with them, enough.
    for leaders in [[0, 0, 0], [0, 1, 0], [0, 0, 1], [0, 0, 2], [0, 1, 2]] {
        let calls =
            |room: usize| [Call::Load(file::encode_led(&led(district.clone(), &leaders))), Call::Export(room as u32)];
        for room in [bytes.len() - 4, bytes.len() - 3, bytes.len() - 1, bytes.len()] {
            cases.list(&calls(room));
        }
    }
    // The longest file. All is barred in it, so that there is nothing to plan.
    let mut widest = led(make::busy_district(&mut Random::new(7), WIDEST), &[0, 1]);
    widest.segments.iter_mut().for_each(|segment| segment.bars = (1 << MOST_STRATEGIES) - 1);
    for room in [file::LONGEST_PLAIN, file::LONGEST - 1, file::LONGEST] {
        cases.after(&widest, &[Call::Export(room as u32)]);
    }
    cases.after(&widest, &[Call::SetLeader(2, 0), Call::Export(ROOM)]);
    cases.after(&widest, &[Call::SetLeader(2, 0), Call::Export(ROOM - 1)]);
    // A file without leaders takes those away that were held.
    cases.list(&[load(&led(district.clone(), &[0, 1, 2])), load(&district), Call::Bar(1, 1)]);
    cases.list(&[load(&district), load(&led(district.clone(), &[0, 1, 2])), Call::Bar(1, 1)]);
    cases.list(&[load(&led(district.clone(), &[0, 1, 2])), Call::Load(misled), Call::Bar(1, 1)]);
}

/// Setting a leader: 6 before 14, what may be set, what is left alone, and that the plan is made afresh.
fn set_leaders(cases: &mut Cases) {
    let chain = leaders::named("step");
    let unled = led(chain.clone(), &[0; 4]);
    let mut calls = Vec::new();
    for number in [0, 5, 257, u32::MAX] {
        calls.extend([Call::SetLeader(number, 0), Call::SetLeader(number, 1), Call::SetLeader(number, u32::MAX)]);
    }
    for (i, leader) in (1..=4).flat_map(|i| (0..=5).map(move |leader| (i, leader))) {
        calls.push(Call::SetLeader(i, leader));
    }
    for (i, leader) in (1..=4).flat_map(|i| [256, 257, u32::MAX].map(move |leader| (i, leader))) {
        calls.push(Call::SetLeader(i, leader));
    }
    for call in calls {
        cases.after(&unled, std::slice::from_ref(&call));
        cases.after(&chain, &[call, Call::Show]);
    }
    cases.list(&[Call::SetLeader(1, 0)]);
    cases.list(&[Call::SetLeader(1, 1)]);
    cases.list(&[Call::SetLeader(0, 0)]);
    // One after the other, and taken back; each plan is made afresh.
    let edits = [
        Call::SetLeader(2, 1),
        Call::SetLeader(3, 2),
        Call::SetLeader(4, 3),
        Call::SetLimit(1, 29),
        Call::SetLeader(3, 1),
        Call::SetLeader(4, 4),
        Call::SetRating(1, 1, 50),
        Call::SetLeader(4, 1),
        Call::SetLeader(2, 0),
        Call::SetRating(1, 1, 0),
        Call::Bar(1, 1),
        Call::SetLeader(3, 3),
        Call::Unbar(1, 1),
        Call::SetLimit(1, 40),
        Call::SetLeader(4, 0),
        Call::SetLeader(3, 0),
    ];
    for count in 1..=edits.len() {
        cases.after(&unled, &edits[..count]);
    }
    // The leader of a segment stays through all other edits of it, and of its leader.
    for edit in [Call::Bar(3, 1), Call::Unbar(3, 1), Call::SetRating(3, 1, 1), Call::SetLimit(1, 30), Call::Bar(2, 1)] {
        cases.after(&chain, &[edit, Call::Bar(2, 2), Call::SetLimit(1, 40)]);
    }
    // Bars and window stay.
    cases.after(&chain, &[Call::SetLeader(1, 0), Call::SetLeader(2, 0), Call::SetLeader(3, 2), Call::SetLimit(1, 100)]);
    let one = Call::Index(lists::reading(1_024));
    cases.list(&[one.clone(), load(&chain), Call::SetLeader(3, 1), Call::Roughness]);
    cases.list(&[one, load(&chain), Call::SetLeader(3, 3), Call::Roughness]);
    // A kind of call that there is not.
    cases.scripts.push([&encode(&[load(&chain)])[..], &[15, 1, 0, 0, 0, 3, 0, 0, 0, 1, 0, 0, 0, 0, 0, 0, 0]].concat());
    for (seed, count) in [(710, 60), (711, 120), (712, 240)] {
        let mut calls = lists::list(&mut Random::new(seed), count, true);
        cases.list(&calls);
        calls.push(Call::Show);
        cases.list(&calls);
    }
}

/// Small districts that a wrong reading of what leaders do plans otherwise: see `wrong/`.
fn led_readings(cases: &mut Cases) {
    // Phase 1: the shares of followers that have gone count no more.
    let gone = small(&[2], &[(&[14_371], 19, 100)], &[(8, 1, 0), (1, 1, 0), (1, 1, 0), (6, 1, 0)]);
    cases.district(&led(gone, &[0, 0, 2, 0]));
}

/// Each office has its own segments, limits, bars, leaders and programme: what one does leaves the other.
fn two_offices(cases: &mut Cases) {
    cases.by(&[(2, Call::Show)]);
    cases.by(&[(2, load(&north()))]);
    cases.by(&[(2, load(&north())), (1, Call::Show)]);
    cases.by(&[(1, load(&north())), (2, Call::Show)]);
    let both = [(1, load(&north())), (2, load(&south()))];
    let edits = [
        Call::Bar(1, 2),
        Call::SetLimit(1, 20),
        Call::SetRating(2, 1, 45),
        Call::SetLeader(2, 1),
        Call::Unbar(1, 2),
        Call::SetLimit(2, 0),
    ];
    cases.by_and_shown(&both);
    for edit in &edits {
        for office in [1, 2] {
            cases.by_and_shown(&[&both[..], &[(office, edit.clone())]].concat());
        }
    }
    // Segment 3 is there in the second office alone, and its limit of resource 2 allows less.
    for call in [Call::Bar(3, 1), Call::Why(3, 1), Call::SetRating(3, 1, 0), Call::SetLeader(3, 2), Call::Page(486)] {
        for office in [1, 2] {
            cases.by(&[&both[..], &[(office, call.clone())]].concat());
        }
    }
    for district in [north(), south()] {
        let length = file::encode(&district).len() as u32;
        for (office, room) in [(1, length - 1), (1, length), (2, length - 1), (2, length)] {
            cases.by(&[&both[..], &[(office, Call::Export(room))]].concat());
        }
    }
    // All edits of one behind those of the other, and one by one in turn.
    let by = |office: u32| edits.iter().map(move |edit| (office, edit.clone())).collect::<Vec<_>>();
    cases.by_and_shown(&[&both[..], &by(1), &by(2)].concat());
    cases.by_and_shown(&[&both[..], &by(2), &by(1)[..3]].concat());
    let turns: Vec<(u32, Call)> = by(1).into_iter().zip(by(2)).flat_map(|(one, other)| [one, other]).collect();
    for count in 1..=turns.len() {
        cases.by(&[&both[..], &turns[..count]].concat());
    }
    // A fresh office has a resource and no segment, whatever the other one holds: its limits and a load by it.
    for call in [Call::SetLimit(1, 5), Call::SetLimit(2, 5), Call::SetLimit(3, 5), Call::Bar(1, 1), Call::Page(243)] {
        cases.by_and_shown(&[(1, load(&north())), (2, call)]);
    }
}

/// One call of each kind that is accepted behind the loads of both offices, and ones that are refused there.
fn calls_of_each_kind() -> Vec<Call> {
    vec![
        load(&north()),
        Call::Export(ROOM),
        Call::Bar(1, 1),
        Call::Unbar(1, 1),
        Call::SetLimit(1, 9),
        Call::SetRating(1, 1, 9),
        Call::SetLeader(2, 1),
        Call::Show,
        Call::Page(page::LONGEST as u32),
        Call::Why(1, 1),
        Call::Index(lists::reading(1_024)),
        Call::Marker(7),
        Call::Lost,
        Call::Roughness,
        Call::Load(Vec::new()),
        Call::Load([&file::encode(&north())[..], &[0]].concat()),
        load(&changed(north(), |d| d.greatest[1] += 1)),
        Call::Export(1),
        Call::Bar(9, 9),
        Call::Unbar(1, 9),
        Call::SetLimit(9, 9),
        Call::SetLimit(1, LIMIT_MOST + 1),
        Call::SetRating(1, 1, 51),
        Call::SetLeader(1, 1),
        Call::Page(1),
        Call::Why(9, 1),
        Call::Index(u32::MAX),
    ]
}

/// Refusal 16, before any other, and nothing is changed.
fn no_offices(cases: &mut Cases) {
    let both = [(1, load(&north())), (2, load(&south())), (1, Call::Index(0))];
    for call in calls_of_each_kind() {
        cases.by(&[(0, call.clone())]);
        for office in [3, 257, 65_538] {
            cases.by(&[&both[..], &[(office, call.clone())]].concat());
        }
        // Then what one of them shows, and whether the other has a reading.
        let after = [&both[..], &[(3, call.clone()), (0, call)]].concat();
        cases.by(&[&after[..], &[(1, Call::Show)]].concat());
        cases.by(&[&after[..], &[(2, Call::Roughness)]].concat());
    }
    for office in [3, 4, 5, 128, 255, 256, 258, 512, 65_536, 65_537, 0x8000_0001, 0x8000_0002, 0xffff_ff01, u32::MAX] {
        cases.by(&[(office, Call::Show)]);
        cases.by(&[&both[..], &[(office, Call::Bar(1, 1))]].concat());
    }
}

/// Points, naming an office, and kinds that there are not: a show of the office that stands there.
fn kinds_that_are_no_calls(cases: &mut Cases) {
    let both = encode_by(&[(1, load(&north())), (2, load(&south()))]);
    for kind in [7, 15, 19, 127, 255] {
        for office in [1, 2, 0, 3, 255] {
            let head = [kind, office, 0, 0, 0, 2, 0, 0, 0, 0, 0, 0, 0, 0, 0, 0, 0];
            cases.scripts.push([&both[..], &head].concat());
            // It says nothing of the next call's office.
            for next in [1, 2] {
                cases.scripts.push([&both[..], &head, &encode_by(&[(next, Call::Show)])].concat());
            }
        }
    }
    // The office's number has four bytes, the lowest first.
    for office in [[1, 1, 0, 0], [2, 0, 1, 0], [1, 0, 0, 1], [0, 1, 0, 0], [0, 0, 0, 1], [0, 0, 0, 2]] {
        cases.scripts.push([&both[..], &[6], &office, &[0; 12]].concat());
    }
}

/// Refusal 17, for one value in each of the shared tables and each count; and where it is not due.
fn other_tables(cases: &mut Cases) {
    for change in offices::changes() {
        let [other_north, other_south] = [changed(north(), change), changed(south(), change)];
        // The other office has segments, whether it is the first or the second.
        cases.by(&[(1, load(&north())), (2, load(&other_south))]);
        cases.by(&[(2, load(&bare(south()))), (2, load(&south())), (1, load(&bare(other_north.clone())))]);
        // It has none: none loaded, or a file without any. Then both hold the new tables.
        cases.by(&[(1, load(&bare(north()))), (2, load(&other_south))]);
        cases.by(&[(1, load(&north())), (1, load(&other_north)), (2, load(&south()))]);
        cases.by(&[(2, load(&south())), (2, load(&other_south)), (1, load(&other_north))]);
    }
    // Own segments do not stand in the way, nor what the other one had before.
    let gain: offices::Change = |d| d.strategies[0].gains[0] += 1;
    let [moved_north, moved_south] = [changed(north(), gain), changed(south(), gain)];
    cases.by(&[(1, load(&north())), (2, load(&south())), (1, load(&bare(north()))), (2, load(&moved_south))]);
    cases.by(&[(1, load(&north())), (2, load(&south())), (2, load(&bare(north()))), (2, load(&moved_south))]);
    cases.by(&[(2, load(&moved_south)), (2, load(&bare(moved_south.clone()))), (1, load(&north()))]);
    cases.by(&[(2, load(&south())), (1, Call::SetLimit(1, 5)), (1, Call::Index(0)), (2, load(&moved_south))]);
    // Refused, it changes nothing: neither office, nor the tables held.
    let refused = [(1, load(&north())), (2, load(&south())), (2, load(&moved_south))];
    cases.by_and_shown(&refused);
    cases.by(&[&refused[..], &[(1, load(&north()))]].concat());
    cases.by(&[&refused[..], &[(1, load(&moved_north))]].concat());
    cases.by(&[&refused[..], &[(2, load(&north()))]].concat());
    cases.by_and_shown(&[&refused[..], &[(2, Call::Bar(1, 1)), (1, Call::SetLimit(1, 20))]].concat());
    // The tables of a fresh unit are held as well.
    cases.by(&[(1, load(&one_of_each())), (2, load(&District::fresh()))]);
    cases.by(&[(1, load(&District::fresh())), (2, load(&District::fresh()))]);
    cases.by(&[(1, load(&one_of_each())), (2, load(&one_of_each())), (1, load(&card()))]);
}

/// All file checks come before 17.
fn other_tables_and_more(cases: &mut Cases) {
    let moved = file::encode(&changed(south(), |d| d.strategies[0].gains[0] += 1));
    let starts = make::record_starts(&moved);
    let first = [(1, load(&north()))];
    let mut files =
        vec![[&moved[..], &[0]].concat(), moved[..moved.len() - 1].to_vec(), moved[..moved.len() - 4].to_vec()];
    for &start in &starts[starts.len() - 4..] {
        files.push(with(&moved, start + 2, 9));
        files.push(with(&moved, start, moved[start] + 1));
        files.push(moved[..start + 2].to_vec());
    }
    // Values of the last segment: its pavement type, its bars, a rating, its leader.
    let last = starts[starts.len() - 2] + 4;
    for (at, byte) in [(0, 3), (8, 4), (10, 51), (12, 3)] {
        files.push(with(&moved, last + at, byte));
    }
    for bytes in files {
        cases.by(&[&first[..], &[(2, Call::Load(bytes.clone()))]].concat());
        // Refused for itself, a file changes no tables where it could.
        let calls = [(2, Call::Load(bytes)), (1, load(&south())), (2, load(&north()))];
        for count in 1..=3 {
            cases.by(&calls[..count]);
        }
    }
}

/// The number of segments, limits, all values of segments and the form of the file are no shared tables.
fn what_is_not_shared(cases: &mut Cases) {
    let alone: Vec<offices::Change> = vec![
        |d| d.limits[0] = 0,
        |d| d.limits[1] = LIMIT_MOST,
        |d| d.segments.clear(),
        |d| d.segments.truncate(1),
        |d| d.segments[0].pavement = 2,
        |d| d.segments[0].traffic = 200,
        |d| d.segments[1].environment = 150,
        |d| d.segments[0].length = 300,
        |d| d.segments[1].width = 12,
        |d| d.segments[0].bars = 2,
        |d| d.segments[1].ratings[1] = 39,
        |d| d.segments[1].leader = 1,
    ];
    for change in alone {
        cases.by_and_shown(&[(1, load(&north())), (2, load(&changed(north(), change)))]);
        cases.by(&[(2, load(&changed(north(), change))), (1, load(&north()))]);
    }
    cases.by(&[(1, load(&north())), (2, Call::Load(file::encode_led(&north())))]);
    cases.by(&[(1, Call::Load(file::encode_led(&south()))), (2, load(&north()))]);
    // What edits have made of the other's district is not shared either.
    for edit in [Call::SetLimit(1, 1), Call::SetRating(1, 1, 1), Call::Bar(1, 1), Call::SetLeader(2, 1)] {
        cases.by_and_shown(&[(1, load(&north())), (1, edit), (2, load(&north()))]);
    }
    // A load with equal tables leaves limits and edits of the other.
    let edits = [(1, Call::SetLimit(1, 20)), (1, Call::Bar(1, 1)), (1, Call::SetLeader(2, 1))];
    cases.by_and_shown(
        &[&[(1, load(&north()))], &edits[..], &[(2, load(&south())), (2, load(&bare(south())))]].concat(),
    );
}

/// A load of other tables gives them to the other office too: as many limits as there are resources now, all of
/// them 0, and the tables in its file.
fn tables_for_both(cases: &mut Cases) {
    let changes = offices::changes();
    for change in [changes[0], changes[23], changes[24]] {
        let other = changed(north(), change);
        let before = [(2, Call::SetLimit(1, 5)), (1, load(&north())), (2, Call::SetLimit(2, 7)), (1, load(&other))];
        for resource in 1..=4 {
            cases.by(&[&before[..], &[(2, Call::SetLimit(resource, 9))]].concat());
        }
        let length = file::encode(&bare(other.clone())).len() as u32;
        for room in [length - 1, length] {
            cases.by(&[&before[..], &[(2, Call::Export(room))]].concat());
        }
        cases.by(&[&before[..], &[(2, Call::Bar(1, 1))]].concat());
        cases.by(&[&before[..], &[(2, Call::Show)]].concat());
        cases.by(&[&before[..], &[(2, load(&other)), (2, Call::SetLimit(1, 20))]].concat());
    }
}

/// Each office has its own window; loads leave both.
fn windows_of_both(cases: &mut Cases) {
    let one = Call::Index(lists::reading(1_024));
    let moved = changed(north(), |d| d.strategies[0].gains[0] += 1);
    let between = [
        vec![],
        vec![(1, load(&north()))],
        vec![(2, load(&south()))],
        vec![(1, load(&north())), (2, load(&south()))],
        vec![(1, load(&north())), (1, load(&moved))],
        vec![(2, load(&north())), (2, load(&moved)), (1, load(&moved))],
        vec![(1, load(&north())), (2, load(&moved))],
        vec![(1, Call::Marker(1))],
        vec![(2, Call::Marker(2))],
        vec![(1, Call::Lost), (2, Call::Lost)],
        vec![(2, Call::Index(u32::MAX))],
        vec![(3, Call::Marker(3))],
        vec![(0, Call::Marker(3)), (3, Call::Index(0))],
    ];
    for calls in between {
        for (reader, asker) in [(1, 1), (1, 2), (2, 1), (2, 2)] {
            cases.by(&[&[(reader, one.clone())], &calls[..], &[(asker, Call::Roughness)]].concat());
        }
    }
    // More than are kept in one; one in the other.
    let mut many: Vec<(u32, Call)> = (0..70).map(|at| (1, Call::Index(lists::reading(100 * at)))).collect();
    many.push((2, Call::Roughness));
    cases.by(&many);
    many.extend([(2, one), (1, Call::Marker(0)), (2, Call::Roughness)]);
    cases.by(&many);
    many.push((1, Call::Roughness));
    cases.by(&many);
}

/// Many calls by both, and what each shows behind them.
fn lists_by_both(cases: &mut Cases) {
    for (seed, count) in [(720, 20), (721, 40), (722, 60), (723, 80), (724, 120), (725, 160), (726, 200)] {
        cases.by_and_shown(&lists::by_both(&mut Random::new(seed), count));
    }
}

/// Both offices with segments.
fn both() -> [(u32, Call); 2] {
    [(1, load(&north())), (2, load(&south()))]
}

/// An edit of office 1 that its ceiling tells from others of this kind.
fn sets(limit: u64) -> Edit {
    Edit::SetLimit(1, limit)
}

/// On arrival 16, then 20, then 21; the edit's own numbers are not looked at, and nothing is changed.
fn arrivals(cases: &mut Cases) {
    let at = |office: u32, console: u32| (office, Call::Queue(console, sets(20)));
    for console in [1, 2, 3, 4].into_iter().chain(lists::NO_CONSOLES) {
        cases.by(&[&both()[..], &[at(1, console)]].concat());
    }
    for (office, console) in [(2, 4), (2, 5), (0, 1), (3, 4), (0, 0), (3, 5), (257, 1), (u32::MAX, u32::MAX)] {
        cases.by(&[&both()[..], &[at(office, console)]].concat());
        cases.by(&[at(office, console)]);
    }
    // One place less than there are, all of them, more: then a step makes one free.
    for count in [PLACES - 1, PLACES, PLACES + 1, PLACES + 2] {
        let many = [&both()[..], &vec![at(1, 3); count]].concat();
        cases.by(&many);
        cases.by(&[&many[..], &[(1, Call::Step), at(1, 3)]].concat());
        cases.by(&[&many[..], &[(1, Call::Step), at(1, 3), at(1, 3)]].concat());
    }
    // Beside a full queue: the other consoles, the other office, and what is looked at first.
    let full = [&both()[..], &vec![at(1, 3); PLACES]].concat();
    for (office, console) in [(2, 3), (1, 1), (1, 2), (1, 4), (2, 2), (0, 3), (3, 3), (3, 5), (1, 0), (1, 5), (1, 259)]
    {
        cases.by(&[&full[..], &[at(office, console)]].concat());
    }
    cases.by(&[&full[..], &[at(1, 3), (1, Call::Show)]].concat());
    // Nothing is there for these to change.
    for edit in [Edit::Bar(0, 0), Edit::SetLimit(9, 9), Edit::SetRating(1, 1, 99), Edit::SetLeader(1, 1)] {
        cases.by(&[(2, Call::Queue(2, edit))]);
        cases.by(&[(2, Call::Queue(2, edit)), (2, Call::Step)]);
    }
}

/// Whose turn it is. 0 stands for a step and another number for the console at which an edit arrives; its limit says
/// which arrival it was.
fn turns(cases: &mut Cases) {
    let one_by_one = [&[1; PLACES][..], &[0; PLACES]].concat();
    let rows: [&[u32]; 13] = [
        // Nothing waits: at the start, and later. Such a step leaves the turn.
        &[0, 1, 2, 0, 0, 0],
        &[1, 0, 0, 1, 2, 0, 0],
        // Each in its turn, however they came.
        &[1, 2, 3, 4, 0, 0, 0, 0],
        &[4, 3, 2, 1, 0, 0, 0, 0],
        &[3, 3, 1, 1, 0, 0, 0, 0],
        &[2, 2, 2, 4, 3, 3, 0, 0, 0, 0, 0, 0],
        // The one behind the last is the next, also where it had nothing before.
        &[1, 2, 0, 1, 0, 0],
        &[2, 0, 2, 3, 0, 0],
        &[2, 0, 1, 2, 0, 0],
        &[4, 0, 4, 1, 0, 0],
        &[1, 4, 0, 2, 3, 0, 0, 0],
        &[3, 3, 3, 0, 1, 0, 4, 0, 2, 0, 0, 0],
        // As many as can wait at one.
        &one_by_one,
    ];
    let event = |(at, &number): (u64, &u32)| match number {
        0 => (1, Call::Step),
        console => (1, Call::Queue(console, sets(18 + 2 * at))),
    };
    let events = |row: &[u32]| (1..).zip(row).map(event).collect::<Vec<_>>();
    for row in rows {
        for (at, _) in row.iter().enumerate().filter(|one| *one.1 == 0) {
            cases.by(&[&both()[..], &events(&row[..=at])].concat());
        }
    }
    // As many as can wait at all.
    for steps in [1, 4, 5, 31, 32, 33] {
        let full = [&[1, 2, 3, 4].repeat(PLACES)[..], &vec![0; steps]].concat();
        cases.by(&[&both()[..], &events(&full)].concat());
    }
}

/// A refused edit uses its step, and is gone: one of each refusal, and what comes behind it.
fn refused_steps(cases: &mut Cases) {
    let most = u64::from(LIMIT_MOST);
    for edit in [
        Edit::Bar(3, 1),
        Edit::Unbar(1, 3),
        Edit::SetLimit(3, most + 1),
        Edit::SetLimit(1, most + 1),
        Edit::SetRating(1, 1, 51),
        Edit::SetLeader(2, 2),
        Edit::SetLeader(3, 3),
    ] {
        let waiting = [(1, edit), (1, sets(20)), (2, sets(30))].map(|(console, edit)| (1, Call::Queue(console, edit)));
        for steps in 1..=4 {
            cases.by(&[&both()[..], &waiting, &vec![(1, Call::Step); steps]].concat());
        }
        cases.by(&[&both()[..], &waiting[..1], &[(1, Call::Step), (1, Call::Step)]].concat());
    }
    // Accepted ones: each kind, for either office, and what both then show.
    for edit in [Edit::Bar(1, 2), Edit::Unbar(3, 1), Edit::SetRating(2, 1, 45), Edit::SetLeader(2, 1), sets(20)] {
        for office in [1, 2] {
            cases.by_and_shown(&[&both()[..], &[(office, Call::Queue(4, edit)), (office, Call::Step)]].concat());
        }
    }
}

/// An edit is looked at in its step, by the district that its office holds then.
fn waiting_through_loads(cases: &mut Cases) {
    let changes = offices::changes();
    let [wider, finer] = [changes[23], changes[1]].map(|change| changed(north(), change));
    // Each is refused for one of the two districts: segment 3, a resource, a rating, and what may be a leader.
    let edits = [
        (Edit::Bar(3, 1), [north(), south()]),
        (Edit::SetLimit(3, 60), [north(), wider]),
        (Edit::SetRating(2, 2, 41), [north(), finer]),
        (Edit::SetLeader(3, 2), [north(), south()]),
        (Edit::SetLeader(2, 1), [bare(north()), north()]),
    ];
    for (edit, [one, other]) in edits {
        for (before, behind) in [(&one, &other), (&other, &one)] {
            let calls = [(1, load(before)), (1, Call::Queue(2, edit)), (1, load(behind)), (1, Call::Step)];
            cases.by(&calls);
            cases.by(&[&calls[..], &[(1, Call::Show)]].concat());
            cases.by(&[&calls[..], &[(1, Call::Step)]].concat());
        }
    }
    // Loads leave what waits: those of either office, of other tables, and refused ones.
    let waiting = [(1, Call::Queue(1, sets(20))), (2, Call::Queue(1, Edit::Bar(1, 2)))];
    for file in [load(&north()), load(&south()), load(&bare(north())), Call::Load(Vec::new()), load(&card())] {
        for office in [1, 2, 3] {
            let calls = [&both()[..], &waiting, &[(office, file.clone()), (1, Call::Step), (1, Call::Step)]].concat();
            cases.by_and_shown(&calls);
        }
    }
    // What is edited at once comes first, and the edit that waits is carried out on what it left.
    let at_once = [Call::SetLimit(1, 40), Call::Bar(1, 1), Call::SetLeader(2, 1), Call::SetRating(1, 1, 50)];
    for count in 1..=at_once.len() {
        let at_once: Vec<(u32, Call)> = at_once[..count].iter().map(|call| (1, call.clone())).collect();
        cases.by(&[&both()[..], &waiting, &at_once, &[(1, Call::Step)]].concat());
        cases.by_and_shown(&[&both()[..], &waiting, &at_once, &[(1, Call::Step), (2, Call::Step)]].concat());
    }
}

/// An edit that waits is a call of its own behind its console; a step's office only says whose plan is shown.
fn waiting_as_bytes(cases: &mut Cases) {
    let both = encode_by(&both());
    let four = |numbers: &[u32]| numbers.iter().flat_map(|number| number.to_le_bytes()).collect::<Vec<_>>();
    let queue =
        |office: u32, kind: u8, body: [u32; 4]| [&[16][..], &four(&[office, 2, 7, 7]), &[kind], &four(&body)].concat();
    let step = encode_by(&[(1, Call::Step)]);
    for kind in (0..=19).chain([128, 255]) {
        for office in [2, 3] {
            cases.scripts.push([&both[..], &queue(office, kind, [1, 1, 1, 1])].concat());
        }
        cases.scripts.push([&both[..], &queue(1, kind, [1, 1, 1, 1]), &step].concat());
    }
    // The office that stands in the edit, and numbers that it has no use for.
    for (office, other) in [(1, 2), (2, 1), (1, 0), (1, 3), (2, u32::MAX), (0, 1), (3, 2)] {
        let bytes = [&both[..], &queue(office, 4, [other, 1, 20, 9]), &step].concat();
        for shown in [1, 2] {
            cases.scripts.push([&bytes[..], &encode_by(&[(shown, Call::Show)])].concat());
        }
    }
    // Cut short: in front of the edit, within it, and behind it.
    let whole = queue(1, 4, [1, 1, 20, 0]);
    for length in [16, 17, 18, 33, 34] {
        cases.scripts.push([&both[..], &whole[..length]].concat());
        cases.scripts.push([&both[..], &queue(5, 4, [1, 1, 20, 0])[..length]].concat());
    }
    cases.scripts.push([&both[..], &whole, &step[..16]].concat());
    // Steps that take an edit, and that take none.
    for office in [1, 2, 0, 3, 256, 257, u32::MAX] {
        let step = encode_by(&[(office, Call::Step)]);
        cases.scripts.push([&both[..], &step].concat());
        cases.scripts.push([&both[..], &whole, &step].concat());
        cases.scripts.push([&both[..], &queue(2, 4, [2, 9, 20, 0]), &step].concat());
        cases.scripts.push([&both[..], &step, &encode_by(&[(2, Call::Show)])].concat());
    }
    cases.by(&[(1, Call::Step)]);
}

/// Many arrivals and steps, with loads and other calls between them, and what each office shows behind them.
fn lists_at_consoles(cases: &mut Cases) {
    for (seed, count) in [(730, 40), (731, 80), (732, 120), (733, 160)] {
        cases.by_and_shown(&lists::at_consoles(&mut Random::new(seed), count));
    }
}

/// Districts planned in blocks: by hand, and such that blocks decide, in each phase.
fn planned_in_blocks(cases: &mut Cases) {
    for (district, row) in counties::districts() {
        cases.after(&district, &[Call::Blocks(row)]);
        cases.district(&district);
    }
    cases.after(&five(), &[Call::Blocks(HALVES.to_vec())]);
    cases.after(&counties::sixteen(), &[Call::Blocks(counties::quarters())]);
    let middle = |random: &mut Random| make::small_shape(random, 12, 4);
    type Wanted = fn(&Plan, &Plan) -> bool;
    let wanted: [(u64, usize, Wanted); 8] = [
        (1_000, 4, |plan, ordinary| plan.strategies != ordinary.strategies),
        (1_001, 4, |plan, ordinary| plan.total > ordinary.total),
        (1_002, 4, |plan, ordinary| plan.total < ordinary.total),
        (1_003, 3, |plan, ordinary| plan.steps > ordinary.steps + 1),
        (1_004, 3, |plan, ordinary| plan.steps > 0 && plan.steps + 1 < ordinary.steps),
        (1_005, 3, |plan, _| plan.steps > 0 && plan.pickups > 0 && plan.changes > 0),
        (1_006, 3, |plan, _| plan.pickups > 1),
        (1_007, 3, |plan, _| plan.changes > 1),
    ];
    for (seed, count, wanted) in wanted {
        for (district, row) in found_in_blocks(seed, count, middle, wanted) {
            cases.after(&district, &[Call::Blocks(row)]);
        }
    }
    let wide = |_: &mut Random| Shape {
        segments: 40,
        strategies: 6,
        years: 3,
        distress_types: 3,
        pavement_types: 2,
        resources: 5,
    };
    for (district, row) in found_in_blocks(1_008, 2, wide, |plan, ordinary| plan.strategies != ordinary.strategies) {
        cases.after(&district, &[Call::Blocks(row)]);
    }
}

/// Rows that are followed, and such that are not: too many blocks, an empty one, segments left out, there twice, in
/// another order or not there at all, parts that add to more than a limit, leaders outside, and numbers that make no
/// whole blocks.
fn rows_not_followed(cases: &mut Cases) {
    let four = [1, 1, 0, 0, 2, 2, 10, 10, 3, 3, 10, 10];
    let rows: Vec<Vec<u32>> = vec![
        HALVES.to_vec(),
        [&four[..], &[4, 5, 20, 20]].concat(),
        [&four[..], &[4, 4, 10, 10, 5, 5, 10, 10]].concat(),
        // An empty one: in the middle, in front and behind; two of them; and more than empty.
        vec![1, 2, 10, 50, 3, 2, 0, 0, 3, 5, 40, 50],
        vec![1, 0, 0, 0, 1, 2, 10, 50, 3, 5, 40, 50],
        vec![1, 2, 10, 50, 3, 5, 40, 50, 6, 5, 0, 0],
        vec![1, 2, 10, 50, 3, 1, 0, 0, 2, 5, 40, 50],
        // Segments left out: the first, the last, one between.
        vec![2, 2, 0, 50, 3, 5, 40, 50],
        vec![1, 2, 10, 50, 3, 4, 40, 50],
        vec![1, 1, 0, 50, 3, 5, 40, 50],
        vec![1, 2, 10, 50],
        // Twice: one of them, all of them. In another order.
        vec![1, 2, 10, 50, 2, 5, 40, 50],
        vec![1, 3, 10, 50, 3, 5, 40, 50],
        vec![1, 5, 10, 50, 1, 5, 40, 50],
        vec![3, 5, 40, 50, 1, 2, 10, 50],
        // Not there: before the first, behind the last, far behind.
        vec![0, 2, 10, 50, 3, 5, 40, 50],
        vec![1, 2, 10, 50, 3, 6, 40, 50],
        vec![1, 2, 10, 50, 3, 261, 40, 50],
        vec![257, 258, 10, 50, 259, 261, 40, 50],
        vec![1, 2, 10, 50, 3, u32::MAX, 40, 50],
        // Parts below the limits; one more than a limit, of the first and of the second resource; far more.
        vec![1, 2, 10, 0, 3, 5, 0, 0],
        vec![1, 2, 10, 50, 3, 5, 41, 50],
        vec![1, 2, 11, 50, 3, 5, 40, 50],
        vec![1, 2, 10, 50, 3, 5, 40, 51],
        vec![1, 2, 10, 51, 3, 5, 0, 50],
        vec![1, 2, 10, 101, 3, 5, 40, 0],
        vec![1, 2, 10, 50, 3, 5, u32::MAX, 50],
        vec![1, 2, 1 << 31, 50, 3, 5, 1 << 31, 50],
        // All of it in one block, and a little more.
        vec![1, 5, 40, 100],
        vec![1, 5, 51, 100],
        // No whole blocks, and blocks of another count of resources.
        vec![1],
        vec![1, 5],
        vec![1, 5, 40],
        HALVES[..7].to_vec(),
        [&HALVES[..], &[0]].concat(),
        [&HALVES[..], &[0; 3]].concat(),
        vec![1, 2, 10, 3, 5, 40],
        vec![1, 2, 10, 50, 0, 3, 5, 40, 50, 0],
        HALVES.repeat(10),
    ];
    for row in rows {
        cases.after(&five(), &[Call::Blocks(row)]);
    }
    // Four blocks of the most resources that would be followed, and another one.
    let fifth = [&[5, 5][..], &[0; MOST_RESOURCES]].concat();
    cases.after(&counties::sixteen(), &[Call::Blocks([counties::quarters(), fifth].concat())]);
    // A leader outside: in another block, before and behind it; inside: at both ends of the block.
    for leaders in
        [[0, 0, 1, 0, 0], [0, 0, 2, 0, 0], [0, 0, 0, 0, 2], [0, 1, 0, 3, 3], [0, 0, 0, 3, 4], [0, 1, 1, 3, 4]]
    {
        cases.after(&led(five(), &leaders), &[Call::Blocks(HALVES.to_vec())]);
    }
    // No segment, one, and the most.
    for row in [vec![], vec![1, 0, 0, 0], vec![1, 1, 0, 0], vec![0, 0, 0, 0]] {
        cases.after(&bare(five()), &[Call::Blocks(row.clone())]);
        cases.list(&[Call::Blocks(row)]);
    }
    let all = plain(&[100], &[(10, &[1_000])], &[(1, 0); MOST_SEGMENTS]);
    cases.after(&all, &[Call::Blocks(vec![1, 16, 25, 17, 32, 25, 33, 48, 25, 49, 64, 25])]);
    cases.after(&all, &[Call::Blocks(vec![1, 16, 25, 17, 32, 25, 33, 48, 25, 49, 65, 25])]);
}

/// A choice holds for all plans till the next load that is accepted, also where it is not followed for a while.
fn blocks_kept_and_dropped(cases: &mut Cases) {
    let halves = Call::Blocks(HALVES.to_vec());
    // Edits: limits below the parts and back, a leader outside and back, and what changes the plan in the blocks.
    let edits = [
        Call::SetLimit(1, 49),
        Call::SetLimit(1, 50),
        Call::SetLimit(2, 99),
        Call::SetLimit(2, 1_000),
        Call::SetLeader(4, 2),
        Call::SetLeader(4, 3),
        Call::SetLeader(3, 1),
        Call::SetLeader(3, 0),
        Call::Bar(1, 1),
        Call::Bar(3, 1),
        Call::Unbar(1, 1),
        Call::SetRating(2, 1, 45),
        Call::Unbar(3, 1),
        Call::SetRating(4, 1, 50),
        Call::SetRating(9, 1, 50),
        Call::SetLimit(1, 50),
    ];
    for count in 0..=edits.len() {
        cases.after(&five(), &[std::slice::from_ref(&halves), &edits[..count], &[Call::Show]].concat());
    }
    // Not followed on arrival, but later.
    cases.after(&five(), &[Call::SetLimit(1, 49), halves.clone()]);
    cases.after(&five(), &[Call::SetLimit(1, 49), halves.clone(), Call::SetLimit(1, 50)]);
    // None, another one, and one behind another.
    let other = Call::Blocks(vec![1, 4, 40, 100, 5, 5, 0, 0]);
    let none = Call::Blocks(Vec::new());
    for calls in [
        [&halves, &none],
        [&none, &halves],
        [&halves, &other],
        [&other, &halves],
        [&halves, &Call::Blocks(vec![1])],
        [&Call::Blocks(vec![1]), &halves],
    ] {
        let calls: Vec<Call> = calls.into_iter().cloned().collect();
        cases.after(&five(), &calls);
        cases.after(&five(), &[&calls[..], &[Call::SetLimit(1, 60)]].concat());
    }
    // Loads: the same file, another one, refused ones; the other office's, and its choice.
    let [mine, theirs] = [(1, load(&five())), (2, load(&led(five(), &[0, 1])))];
    let both = [mine.clone(), theirs.clone(), (1, halves.clone()), (2, other.clone())];
    cases.by_and_shown(&both);
    for call in [
        mine,
        theirs,
        (2, load(&bare(five()))),
        (1, Call::Load(Vec::new())),
        (1, load(&card())),
        (2, load(&card())),
        (3, load(&five())),
        (2, Call::SetLimit(1, 10)),
        (2, none.clone()),
        (3, none.clone()),
        (1, none),
        (0, other),
        (1, Call::Export(ROOM)),
        (1, Call::Page(u32::MAX)),
        (1, Call::Why(1, 1)),
        (1, Call::Marker(1)),
    ] {
        cases.by_and_shown(&[&both[..], &[call]].concat());
    }
    // A load drops it for good.
    cases.list(&[load(&five()), halves.clone(), load(&five()), Call::SetLimit(1, 60)]);
    cases.list(&[load(&five()), halves.clone(), load(&bare(five())), load(&five())]);
    // An edit that waits is carried out on what its office has chosen by then.
    let waits = (1, Call::Queue(1, Edit::SetLimit(1, 60)));
    for count in 1..=4 {
        let calls = [waits.clone(), (1, halves.clone()), (2, Call::Step), (1, load(&five()))];
        cases.by_and_shown(&[&[(1, load(&five()))], &calls[..count]].concat());
    }
}

/// A row stands behind its call, and the next call behind the row.
fn blocks_as_bytes(cases: &mut Cases) {
    let start = encode(&[load(&five())]);
    let halves = encode(&[Call::Blocks(HALVES.to_vec())]);
    let show = encode(&[Call::Show]);
    let claims = |count: u32| [&halves[..5], &count.to_le_bytes(), &halves[9..]].concat();
    // Cut within the call, within the row, and a byte before its end; numbers that the call has no use for.
    for length in [16, 17, 18, 21, 48] {
        cases.scripts.push([&start[..], &halves[..length]].concat());
    }
    cases.scripts.push([&start[..], &halves[..9], &[7; 8], &halves[17..]].concat());
    // More numbers than follow, and fewer.
    for count in [0, 4, 7, 9, 1 << 30, u32::MAX] {
        cases.scripts.push([&start[..], &claims(count)].concat());
        cases.scripts.push([&start[..], &claims(count), &show].concat());
    }
    cases.scripts.push([&start[..], &halves, &show].concat());
    // A choice is no edit that could wait: 34 bytes are a show, and its row is read as what comes next.
    let waits = [&[16, 1, 0, 0, 0, 2][..], &[0; 11]].concat();
    for row in [vec![], HALVES.to_vec()] {
        let choice = encode(&[Call::Blocks(row)]);
        cases.scripts.push([&start[..], &waits, &choice].concat());
        cases.scripts.push([&start[..], &waits, &choice, &show].concat());
    }
    cases.by(&[(1, load(&five())), (3, Call::Blocks(HALVES.to_vec())), (1, Call::Show)]);
    cases.by(&[(1, load(&five())), (2, Call::Blocks(HALVES.to_vec())), (1, Call::Bar(1, 1))]);
    for office in [0, 3, 257] {
        cases.by(&[(1, load(&five())), (office, Call::Blocks(HALVES.to_vec()))]);
        cases.by(&[(office, Call::Blocks(Vec::new()))]);
    }
}

/// Many calls by both, in blocks and not, and what each shows behind them.
fn lists_in_blocks(cases: &mut Cases) {
    for (seed, count) in [(740, 20), (741, 40), (742, 60), (743, 80), (744, 120), (745, 160), (746, 200)] {
        cases.by_and_shown(&lists::in_blocks(&mut Random::new(seed), count));
    }
}

// ---- districts

/// Districts whose pages are stored with the console, by the names of their files.
pub fn walls() -> Vec<(&'static str, District)> {
    vec![
        // Uses of a half, of less, and of just one unit, which come to less together than rounded one by one.
        ("rounds", small(&[1, 1, 1, 2], &[(&[500, 400, 100, 1_000], 1, 100)], &[(10, 10, 0), (10, 10, 0)])),
        // One resource more than there are columns.
        ("five", small(&[100, 200, 300, 400, 500], &[(&[1_000, 2_000, 3_000, 4_000, 5_000], 10, 100)], &[(250, 8, 0)])),
        // The second segment is barred, and the third too large for the limits.
        ("nothing", small(&[50, 60], &[(&[1_000, 2_000], 7, 100)], &[(100, 20, 0), (100, 20, 1), (400, 20, 0)])),
        // Lengths from a hundredth of a mile to the longest, widths from one foot to the widest.
        (
            "miles",
            small(
                &[LIMIT_MOST, 212, 148],
                &[(&[1, 10, 7], 3, 100)],
                &[(1, 1, 0), (99, 9, 0), (105, 99, 0), (1_000, 100, 0), (LENGTH_MOST, WIDTH_MOST, 0)],
            ),
        ),
        // No segment.
        ("none", small(&[7, LIMIT_MOST], &[(&[1, 1], 1, 100)], &[])),
        // Phase 3 raises the total.
        ("raised", small(&[3_415], &[(&[0], 1, 100), (&[49_898], 5, 100)], &[(386, 10, 0), (299, 10, 0)])),
        // The longest page, with a total and sums that fill their columns.
        ("longest", dearest()),
    ]
}

/// Benefits as great as they can be, and shares as small as bind: its price is
/// between 2 to the power 32 and 33, and no district's is higher.
fn dearest() -> District {
    let mut district = plain(&[LIMIT_MOST], &[(GAIN_MOST, &[800_000])], &[(1, 0); MOST_SEGMENTS]);
    let cells = MOST_DISTRESS_TYPES * MOST_YEARS;
    district.years = MOST_YEARS;
    district.greatest = vec![RATING_MOST; MOST_DISTRESS_TYPES];
    district.strategies[0].gains = vec![GAIN_MOST; MOST_DISTRESS_TYPES];
    district.strategies[0].survival = vec![100; cells];
    district.types[0].minimum = vec![0; cells];
    for segment in &mut district.segments {
        (segment.length, segment.width) = (LENGTH_MOST, WIDTH_MOST);
        segment.ratings = vec![0; MOST_DISTRESS_TYPES];
    }
    district
}

pub fn card() -> District {
    let mut card = plain(&[130], &[(5, &[1_000]), (15, &[3_000])], &[(1, 5), (2, 15)]);
    card.years = 2;
    card.greatest = vec![20];
    card.strategies[0].survival = vec![80, 40];
    card.strategies[1].survival = vec![90, 70];
    card.types[0].minimum = vec![0; 2];
    card.segments.iter_mut().for_each(|segment| segment.width = 20);
    card
}

/// Two of each count, with sizes and requirements that differ.
pub fn two_of_each() -> District {
    let strategy = |requirements: [u32; 2], gains: [i8; 2], percent: u8| Strategy {
        requirements: requirements.to_vec(),
        gains: gains.to_vec(),
        survival: vec![percent, percent - 20, percent, percent - 30],
    };
    let segment = |pavement: u8, length: u16, ratings: [u8; 2]| Segment {
        pavement,
        traffic: 105,
        environment: 100,
        length,
        width: 24,
        bars: 0,
        ratings: ratings.to_vec(),
        leader: 0,
    };
    District {
        years: 2,
        limits: vec![100, 150],
        greatest: vec![50, 40],
        strategies: vec![strategy([500, 1_500], [10, 15], 90), strategy([1_500, 2_000], [30, 20], 100)],
        types: vec![
            PavementType { overall: 0, minimum: vec![0; 4] },
            PavementType { overall: 20, minimum: vec![5, 3, 2, 1] },
        ],
        segments: vec![segment(1, 120, [10, 20]), segment(2, 200, [5, 10])],
    }
}

/// One of each count.
fn one_of_each() -> District {
    plain(&[100], &[(10, &[1_000])], &[(1, 5)])
}

/// One year and one distress type of at most 50, indexes of 100, nothing
/// demanded, all of a gain lasting. Strategies have a gain and requirements;
/// segments a length in miles, at a width of ten feet, and a rating.
fn plain(limits: &[u32], strategies: &[(i8, &[u32])], segments: &[(u16, u8)]) -> District {
    District {
        years: 1,
        limits: limits.to_vec(),
        greatest: vec![50],
        strategies: strategies
            .iter()
            .map(|&(gain, requirements)| Strategy {
                requirements: requirements.to_vec(),
                gains: vec![gain],
                survival: vec![100],
            })
            .collect(),
        types: vec![PavementType { overall: 0, minimum: vec![0] }],
        segments: segments
            .iter()
            .map(|&(miles, rating)| Segment {
                pavement: 1,
                traffic: 100,
                environment: 100,
                length: 100 * miles,
                width: 10,
                bars: 0,
                ratings: vec![rating],
                leader: 0,
            })
            .collect(),
    }
}

/// A mile of rating 0 with both indexes the same, and strategies with a gain of
/// 10 that lasts by these percents.
fn lasting(percents: &[&[u8]], index: u16) -> District {
    let strategies: Vec<(i8, &[u32])> = percents.iter().map(|_| (10, &[1_000][..])).collect();
    let mut district = plain(&[100], &strategies, &[(1, 0)]);
    district.years = percents[0].len();
    for (made, percents) in district.strategies.iter_mut().zip(percents) {
        made.survival = percents.to_vec();
    }
    district.types[0].minimum = vec![0; district.years];
    (district.segments[0].traffic, district.segments[0].environment) = (index, index);
    district
}

/// A mile with ratings of two distress types of at most 50 over two years, and
/// strategies with gains and losses that last by the same percents.
fn losing(gains: &[[i8; 2]], percents: [u8; 4], ratings: [u8; 2]) -> District {
    let strategies: Vec<(i8, &[u32])> = gains.iter().map(|_| (0, &[1_000][..])).collect();
    let mut district = plain(&[100], &strategies, &[(1, 0)]);
    district.years = 2;
    district.greatest = vec![50; 2];
    for (made, gains) in district.strategies.iter_mut().zip(gains) {
        (made.gains, made.survival) = (gains.to_vec(), percents.to_vec());
    }
    district.types[0].minimum = vec![0; 4];
    district.segments[0].ratings = ratings.to_vec();
    district
}

/// One year, one distress type of at most 50 and rating 0 everywhere, indexes of
/// 100, nothing demanded. Strategies have requirements, a gain and a percent;
/// segments a length, a width and bars.
pub fn small(limits: &[u32], strategies: &[(&[u32], i8, u8)], segments: &[(u16, u8, u16)]) -> District {
    let lasting: Vec<(i8, &[u32])> = strategies.iter().map(|&(requirements, gain, _)| (gain, requirements)).collect();
    let mut district = plain(limits, &lasting, &vec![(1, 0); segments.len()]);
    for (made, &(_, _, percent)) in district.strategies.iter_mut().zip(strategies) {
        made.survival[0] = percent;
    }
    for (made, &(length, width, bars)) in district.segments.iter_mut().zip(segments) {
        (made.length, made.width, made.bars) = (length, width, bars);
    }
    district
}

/// The district with these leaders.
pub fn led(mut district: District, leaders: &[u8]) -> District {
    district.segments.iter_mut().zip(leaders).for_each(|(segment, &leader)| segment.leader = leader);
    district
}

/// The first districts, from a seed, whose plan is as wanted.
fn found(
    seed: u64,
    count: usize,
    shape: impl Fn(&mut Random) -> Shape,
    wanted: impl Fn(&District, &Plan) -> bool,
) -> Vec<District> {
    let mut random = Random::new(seed);
    let mut kept = Vec::new();
    while kept.len() < count {
        let shape = shape(&mut random);
        let district = make::district(&mut random, shape);
        if wanted(&district, &plan(&district)) {
            kept.push(district);
        }
    }
    kept
}

/// The same of districts with leaders, whose plan is not that without them: the plan
/// with leaders, and the one without.
fn found_led(
    seed: u64,
    count: usize,
    shape: impl Fn(&mut Random) -> Shape,
    wanted: impl Fn(&Plan, &Plan) -> bool,
) -> Vec<District> {
    let mut random = Random::new(seed);
    let mut kept = Vec::new();
    while kept.len() < count {
        let shape = shape(&mut random);
        let mut district = make::district(&mut random, shape);
        let unled = plan(&district);
        make::set_leaders(&mut random, &mut district);
        let plan = plan(&district);
        if plan != unled && wanted(&plan, &unled) {
            kept.push(district);
        }
    }
    kept
}

/// The same of districts with a row of blocks that is followed: the plan in blocks, and the ordinary one.
fn found_in_blocks(
    seed: u64,
    count: usize,
    shape: impl Fn(&mut Random) -> Shape,
    wanted: impl Fn(&Plan, &Plan) -> bool,
) -> Vec<(District, Vec<u32>)> {
    let mut random = Random::new(seed);
    let mut kept = Vec::new();
    while kept.len() < count {
        let shape = shape(&mut random);
        let mut district = make::district(&mut random, shape);
        if random.chance(30) {
            make::set_leaders(&mut random, &mut district);
        }
        let row = make::choice(&mut random, &district);
        let numbers: Vec<u64> = row.iter().map(|&number| number.into()).collect();
        let followed = blocks::followed(&numbers, &district).is_some_and(|blocks| blocks.len() > 1);
        if followed && wanted(&plan_in(&district, &numbers), &plan(&district)) {
            kept.push((district, row));
        }
    }
    kept
}

fn demanding(district: &District) -> bool {
    district.types.iter().any(|pavement| pavement.overall > 0 || pavement.minimum.iter().any(|&least| least > 0))
}

/// The bytes with one changed.
fn with(bytes: &[u8], at: usize, byte: u8) -> Vec<u8> {
    let mut bytes = bytes.to_vec();
    bytes[at] = byte;
    bytes
}

/// Ways to put one value of a district of one of each a step beyond its range.
fn beyond() -> Vec<fn(&mut District)> {
    vec![
        |d| d.limits[0] = LIMIT_MOST + 1,
        |d| d.greatest[0] = 0,
        |d| d.greatest[0] = RATING_MOST + 1,
        |d| d.strategies[0].requirements[0] = REQUIREMENT_MOST + 1,
        |d| d.strategies[0].gains[0] = GAIN_MOST + 1,
        |d| d.strategies[0].gains[0] = -GAIN_MOST - 1,
        |d| d.strategies[0].survival[0] = 101,
        |d| d.types[0].overall = OVERALL_MOST + 1,
        |d| d.types[0].minimum[0] = RATING_MOST + 1,
        |d| d.segments[0].pavement = 0,
        |d| d.segments[0].pavement = 2,
        |d| d.segments[0].traffic = INDEX_LEAST - 1,
        |d| d.segments[0].traffic = INDEX_MOST + 1,
        |d| d.segments[0].environment = INDEX_LEAST - 1,
        |d| d.segments[0].environment = INDEX_MOST + 1,
        |d| d.segments[0].length = 0,
        |d| d.segments[0].length = LENGTH_MOST + 1,
        |d| d.segments[0].width = 0,
        |d| d.segments[0].width = WIDTH_MOST + 1,
        |d| d.segments[0].bars = 2,
        |d| d.segments[0].ratings[0] = 51,
    ]
}

/// Ways to put one value of a district of one of each at an end of its range.
fn within() -> Vec<fn(&mut District)> {
    vec![
        |d| d.limits[0] = 0,
        |d| d.limits[0] = LIMIT_MOST,
        |d| (d.greatest[0], d.segments[0].ratings[0]) = (1, 1),
        |d| d.greatest[0] = RATING_MOST,
        |d| d.strategies[0].requirements[0] = 0,
        |d| d.strategies[0].requirements[0] = REQUIREMENT_MOST,
        |d| d.strategies[0].gains[0] = GAIN_MOST,
        |d| d.strategies[0].gains[0] = -GAIN_MOST,
        |d| d.strategies[0].survival[0] = 0,
        |d| d.types[0].overall = OVERALL_MOST,
        |d| d.types[0].minimum[0] = RATING_MOST,
        |d| d.segments[0].traffic = INDEX_MOST,
        |d| d.segments[0].environment = INDEX_MOST,
        |d| d.segments[0].length = 1,
        |d| d.segments[0].length = LENGTH_MOST,
        |d| d.segments[0].width = 1,
        |d| d.segments[0].width = WIDTH_MOST,
        |d| d.segments[0].bars = 1,
        |d| d.segments[0].ratings[0] = 0,
        |d| d.segments[0].ratings[0] = 50,
    ]
}
