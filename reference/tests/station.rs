//! Two offices on one unit: worked out by hand, against a model that keeps files
//! and calls and starts anew for each answer, and with one office's calls left out.

mod common;

use common::{card, card_bytes};
use reference::calls::{decode, encode, encode_by, worked, Call};
use reference::desk::Desk;
use reference::district::District;
use reference::file::{self, LONGEST};
use reference::lists;
use reference::make;
use reference::offices::{bare, changed, changes, north, south, Change};
use reference::page;
use reference::random::Random;
use reference::refusal::Refusal;
use reference::station::Station;
use reference::unit::{plan, Unit};

const GAIN: Change = |d| d.strategies[0].gains[0] += 1;

fn load(station: &mut Station, office: u64, district: &District) -> u8 {
    station.load(office, &file::encode(district)).err().map_or(0, Refusal::number)
}

fn district(station: &Station, office: u64) -> &District {
    station.office(office).unwrap().district()
}

/// The tables of a district with no segments and these limits.
fn tables(of: &District, limits: &[u32]) -> District {
    District { limits: limits.to_vec(), segments: Vec::new(), ..of.clone() }
}

#[test]
fn numbers_of_offices() {
    let mut station = Station::fresh();
    assert_eq!(load(&mut station, 2, &card()), 0);
    let before = station.clone();
    let wrong = [0, 3, 255, 256, 257, 65_537, 1 << 32, (1 << 32) + 1, (1 << 32) + 2, (1 << 63) + 1, u64::MAX];
    for number in wrong {
        assert_eq!(station.office(number), Err(Refusal::Office));
        assert_eq!(station.office_mut(number), Err(Refusal::Office));
        // Before all that is wrong with a file, and for a sound one.
        for file in [vec![], vec![9; 9], card_bytes(), file::encode(&north()), [card_bytes(), vec![0]].concat()] {
            assert_eq!(station.load(number, &file), Err(Refusal::Office));
        }
    }
    assert_eq!((Refusal::Office.number(), Refusal::SharedTables.number()), (16, 17));
    assert_eq!(station, before);
}

/// What one does, the other does not see.
#[test]
fn each_its_own() {
    let mut station = Station::fresh();
    assert_eq!(load(&mut station, 1, &north()), 0);
    assert_eq!(load(&mut station, 2, &south()), 0);
    assert_eq!((district(&station, 1), district(&station, 2)), (&north(), &south()));
    for (one, other) in [(1, 2), (2, 1)] {
        let kept = station.office(other).unwrap().clone();
        let unit = station.office_mut(one).unwrap();
        unit.bar(1, 2).unwrap();
        unit.set_limit(2, 20).unwrap();
        unit.set_rating(2, 1, 45).unwrap();
        unit.set_leader(2, 1).unwrap();
        unit.unbar(1, 1).unwrap();
        unit.index(0x3f80_0000).unwrap();
        unit.marker(7).unwrap();
        assert_eq!(unit.show(), &plan(unit.district()));
        assert_eq!(station.office(other).unwrap(), &kept);
    }
    assert_eq!(district(&station, 1).segments.len(), 2);
    assert_eq!(station.office_mut(1).unwrap().bar(3, 1), Err(Refusal::Segment));
    assert_eq!(station.office_mut(2).unwrap().bar(3, 1), Ok(()));
}

/// Every change of every table and count, in both orders: refused beside the
/// other's segments, taken where it has none.
#[test]
fn other_tables() {
    for change in changes() {
        let [other_north, other_south] = [changed(north(), change), changed(south(), change)];
        assert!(file::decode(&file::encode(&other_north)).is_ok() && file::decode(&file::encode(&other_south)).is_ok());
        for (one, other) in [(1, 2), (2, 1)] {
            let mut station = Station::fresh();
            assert_eq!(load(&mut station, one, &north()), 0);
            let before = station.clone();
            assert_eq!(load(&mut station, other, &other_south), 17);
            assert_eq!(load(&mut station, other, &bare(other_south.clone())), 17);
            assert_eq!(station, before);
            // Own segments do not stand in the way.
            assert_eq!(load(&mut station, one, &other_north), 0);
            assert_eq!(district(&station, one), &other_north);
            assert_eq!(district(&station, other), &tables(&other_north, &vec![0; other_north.limits.len()]));
            assert_eq!(load(&mut station, other, &south()), 17);
            assert_eq!(load(&mut station, other, &other_south), 0);
            // Now both have segments, and neither may go back.
            assert_eq!((load(&mut station, one, &north()), load(&mut station, other, &south())), (17, 17));
            assert_eq!((district(&station, one), district(&station, other)), (&other_north, &other_south));
            // One gives its segments up: then the other may.
            assert_eq!(load(&mut station, one, &bare(other_north.clone())), 0);
            assert_eq!(load(&mut station, other, &south()), 0);
            assert_eq!(district(&station, one), &tables(&north(), &[0, 0]));
            assert_eq!(district(&station, other), &south());
        }
    }
}

/// What is no shared table may be another; so may the form of the file.
#[test]
fn what_is_not_shared() {
    let alone: [Change; 7] = [
        |d| d.limits = vec![1, 2],
        |d| d.segments.truncate(1),
        |d| d.segments.clear(),
        |d| d.segments[0].pavement = 2,
        |d| d.segments[1].bars = 3,
        |d| d.segments[1].ratings = vec![50, 0],
        |d| d.segments[1].leader = 1,
    ];
    for change in alone {
        let mut station = Station::fresh();
        assert_eq!(load(&mut station, 1, &north()), 0);
        station.office_mut(1).unwrap().set_limit(1, 77).unwrap();
        let before = station.office(1).unwrap().clone();
        assert_eq!(load(&mut station, 2, &changed(north(), change)), 0);
        assert_eq!(station.load(2, &file::encode_led(&north())), Ok(()));
        assert_eq!(station.office(1).unwrap(), &before);
    }
}

/// The other office's limits: kept by a load of equal tables, put back to 0 by one
/// of others, as many as there are resources then. A file without segments is
/// enough for that; one that is refused is not.
#[test]
fn limits_put_back() {
    let [wider, narrower] = [changes()[23], changes()[24]].map(|change| changed(north(), change));
    assert_eq!((wider.limits.len(), narrower.limits.len()), (3, 1));
    let mut station = Station::fresh();
    let set = |station: &mut Station, resource: u64, limit: u64| {
        station.office_mut(2).unwrap().set_limit(resource, limit).err().map_or(0, Refusal::number)
    };
    let limits = |station: &Station| district(station, 2).limits.clone();
    assert_eq!(set(&mut station, 1, 5), 0);
    assert_eq!(load(&mut station, 1, &District::fresh()), 0);
    assert_eq!(limits(&station), [5]);
    assert_eq!(load(&mut station, 1, &north()), 0);
    assert_eq!(limits(&station), [0, 0]);
    assert_eq!((set(&mut station, 1, 6), set(&mut station, 2, 7), set(&mut station, 3, 8)), (0, 0, 7));
    assert_eq!(load(&mut station, 1, &south()), 0);
    assert_eq!(limits(&station), [6, 7]);
    // Refused with 5, 4 and 1.
    let other = file::encode(&changed(north(), GAIN));
    let cut = &other[..other.len() - 1];
    let mut wrong = other.clone();
    wrong[other.len() - 5] = 51;
    assert_eq!(station.load(1, &[&other[..], &[0]].concat()), Err(Refusal::ByteFollows));
    assert_eq!(station.load(1, cut), Err(Refusal::FileEnds));
    assert_eq!(station.load(1, &wrong), Err(Refusal::Value));
    assert_eq!(limits(&station), [6, 7]);
    assert_eq!(load(&mut station, 1, &changed(north(), GAIN)), 0);
    assert_eq!(limits(&station), [0, 0]);
    assert_eq!(set(&mut station, 2, 9), 0);
    assert_eq!(load(&mut station, 1, &wider), 0);
    assert_eq!((limits(&station), set(&mut station, 3, 9), set(&mut station, 4, 9)), (vec![0; 3], 0, 7));
    assert_eq!(load(&mut station, 1, &bare(narrower.clone())), 0);
    assert_eq!((limits(&station), set(&mut station, 2, 9)), (vec![0], 7));
    // The file of the other is that of the new tables.
    let mut buffer = [0; LONGEST];
    let length = station.office(2).unwrap().export(&mut buffer).unwrap();
    assert_eq!(buffer[..length], file::encode(&tables(&narrower, &[0])));
    assert_eq!(station.office(2).unwrap().show(), &plan(&District::fresh()));
}

/// 17 comes after all file checks.
#[test]
fn file_checks_first() {
    let mut station = Station::fresh();
    assert_eq!(load(&mut station, 1, &north()), 0);
    let before = station.clone();
    let other = file::encode(&changed(south(), GAIN));
    assert_eq!(station.load(2, &other), Err(Refusal::SharedTables));
    for cut in 0..other.len() {
        assert_eq!(station.load(2, &other[..cut]), Err(Refusal::FileEnds));
    }
    assert_eq!(station.load(2, &[&other[..], &[0]].concat()), Err(Refusal::ByteFollows));
    for at in 0..other.len() {
        let mut wrong = other.clone();
        wrong[at] = 255;
        let expected = file::decode(&wrong).err().unwrap_or(Refusal::SharedTables);
        assert_eq!(station.load(2, &wrong), Err(expected));
    }
    assert_eq!(station, before);
}

/// A window for each; loads leave both, also those that change the tables.
#[test]
fn windows() {
    let mut station = Station::fresh();
    let points = |station: &Station| [1, 2].map(|office| station.office(office).unwrap().roughness().ok());
    let four = 0x4080_0000;
    station.office_mut(1).unwrap().index(four).unwrap();
    assert!(matches!(points(&station), [Some(_), None]));
    station.office_mut(2).unwrap().marker(9).unwrap();
    station.office_mut(2).unwrap().index(0).unwrap();
    let read = points(&station);
    let shown = read.map(|one| one.map(|one| (one.points, one.marker)));
    assert_eq!(shown, [Some((5, 0)), Some((50, 9))]);
    for (office, loaded) in
        [(1, north()), (1, changed(north(), GAIN)), (2, changed(south(), GAIN)), (2, bare(north())), (1, card())]
    {
        let _ = load(&mut station, office, &loaded);
        assert_eq!(points(&station), read);
    }
    assert_eq!(load(&mut station, 1, &card()), 17);
    station.office_mut(2).unwrap().marker(3).unwrap();
    assert_eq!(points(&station), [read[0], None]);
}

/// A call is 17 bytes, its office behind its kind; what is shown is that of the
/// office that the last call named.
#[test]
fn lists_as_bytes() {
    let calls = [(2, Call::SetRating(1, 0x0203, 4)), (0x0100_0005, Call::Show)];
    let bytes =
        [[5, 2, 0, 0, 0, 1, 0, 0, 0, 3, 2, 0, 0, 4, 0, 0, 0], [6, 5, 0, 0, 1, 0, 0, 0, 0, 0, 0, 0, 0, 0, 0, 0, 0]];
    assert_eq!(encode_by(&calls), bytes.concat());
    assert_eq!(decode(&bytes.concat()), calls);
    assert_eq!(decode(&bytes.concat()[..33]), calls[..1]);
    assert_eq!(encode(&[Call::Lost]), encode_by(&[(1, Call::Lost)]));
    let both = [(1, Call::Load(card_bytes())), (2, Call::Load(file::encode(&tables(&card(), &[9]))))];
    let shown = |office: u32, call: Call| worked(&encode_by(&[&both[..], &[(office, call)]].concat()));
    let nothing = "benefit 0\nceiling 0\nsteps 0 0 0\n";
    assert_eq!(shown(1, Call::Show), common::CARD_LISTING);
    assert_eq!(shown(1, Call::Lost), common::CARD_LISTING);
    assert_eq!(shown(2, Call::SetLimit(1, 4)), nothing);
    assert_eq!(shown(2, Call::Bar(1, 1)), "refused 6\n");
    assert_eq!(shown(3, Call::Bar(1, 1)), "refused 16\n");
    assert_eq!(shown(2, Call::Load(file::encode(&north()))), "refused 17\n");
    assert_eq!(worked(&encode_by(&both)), nothing);
    assert_eq!(worked(&[]), nothing);
    // Survey points, an office's name and what there is not.
    for kind in [7, 15, 19, 255] {
        let head = |office: u8| [kind, office, 0, 0, 0, 2, 0, 0, 0, 0, 0, 0, 0, 0, 0, 0, 0];
        let list = |office: u8| worked(&[&encode_by(&both)[..], &head(office)].concat());
        assert_eq!(
            [list(0), list(1), list(2), list(3)],
            ["refused 16\n", common::CARD_LISTING, nothing, "refused 16\n"]
        );
    }
}

// ---- lists from a seed

/// All that a call answers: an export's bytes, a plan, a reason, points.
fn answered(unit: &mut Unit, call: &Call) -> String {
    let lent = |most: usize, room: u32| vec![7; most.min(room as usize)];
    match *call {
        Call::Load(ref bytes) => format!("{:?}", unit.load(bytes)),
        Call::Export(room) => {
            let mut buffer = lent(LONGEST, room);
            format!("{:?} {buffer:?}", unit.export(&mut buffer))
        }
        Call::Page(room) => {
            let mut buffer = lent(page::LONGEST, room);
            format!("{:?} {buffer:?}", unit.page(&mut buffer))
        }
        Call::Bar(i, j) => format!("{:?}", unit.bar(i.into(), j.into())),
        Call::Unbar(i, j) => format!("{:?}", unit.unbar(i.into(), j.into())),
        Call::SetLimit(r, limit) => format!("{:?}", unit.set_limit(r.into(), limit.into())),
        Call::SetRating(i, k, rating) => format!("{:?}", unit.set_rating(i.into(), k.into(), rating.into())),
        Call::SetLeader(i, leader) => format!("{:?}", unit.set_leader(i.into(), leader.into())),
        Call::Show => format!("{:?}", unit.show()),
        Call::Why(i, j) => format!("{:?}", unit.why(i.into(), j.into())),
        Call::Index(bits) => format!("{:?}", unit.index(bits)),
        Call::Marker(bits) => format!("{:?}", unit.marker(bits)),
        Call::Lost => format!("{:?}", unit.lost()),
        Call::Roughness => format!("{:?}", unit.roughness()),
        Call::Queue(..) | Call::Step | Call::Blocks(_) => unreachable!("the lists here have none of these"),
    }
}

fn of_station(station: &mut Station, office: u32, call: &Call) -> String {
    match (call, station.office_mut(office.into())) {
        (_, Err(refusal)) => format!("{:?}", Err::<(), _>(refusal)),
        (Call::Load(bytes), _) => format!("{:?}", station.load(office.into(), bytes)),
        (_, Ok(unit)) => answered(unit, call),
    }
}

/// What an office has got: the file it stands on, edits since then, and records
/// since the start.
#[derive(Clone)]
struct Got {
    file: Vec<u8>,
    edits: Vec<Call>,
    records: Vec<Call>,
}

impl Got {
    /// A unit of one office that all of it is done to.
    fn unit(&self) -> Unit {
        let mut unit = Unit::fresh();
        unit.load(&self.file).unwrap();
        self.edits.iter().chain(&self.records).for_each(|call| drop(answered(&mut unit, call)));
        unit
    }
}

/// The bytes of a sound file that are shared: five counts, and records of kinds 3 to 5.
fn shared(file: &[u8]) -> Vec<u8> {
    let starts = make::record_starts(file);
    let records = starts.windows(2).map(|pair| &file[pair[0]..pair[1]]).filter(|record| (3..=5).contains(&record[2]));
    [&file[5..10], &records.collect::<Vec<_>>().concat()].concat()
}

/// The same file without segments, with limits of 0, in the older form.
fn emptied(file: &[u8]) -> Vec<u8> {
    let starts = make::record_starts(file);
    let mut kept = Vec::new();
    for (at, &start) in starts.iter().enumerate() {
        let mut record = file[start..*starts.get(at + 1).unwrap_or(&file.len())].to_vec();
        match record[2] {
            1 | 8 => (record[2], record[4]) = (1, 0),
            2 => record[4..].fill(0),
            6 => continue,
            _ => {}
        }
        kept.extend(record);
    }
    kept
}

struct Model {
    offices: [Got; 2],
}

impl Model {
    fn answer(&mut self, office: u32, call: &Call) -> String {
        if ![1, 2].contains(&office) {
            return "Err(Office)".to_string();
        }
        let [own, other] = [office as usize - 1, 2 - office as usize];
        let mut unit = self.offices[own].unit();
        if let Call::Load(file) = call {
            if unit.clone().load(file).is_ok() {
                if shared(file) != shared(&self.offices[own].file) {
                    if self.offices[other].file[4] > 0 {
                        return "Err(SharedTables)".to_string();
                    }
                    (self.offices[other].file, self.offices[other].edits) = (emptied(file), Vec::new());
                }
                (self.offices[own].file, self.offices[own].edits) = (file.clone(), Vec::new());
            }
        }
        let answer = answered(&mut unit, call);
        match call {
            Call::Index(_) | Call::Marker(_) | Call::Lost => self.offices[own].records.push(call.clone()),
            Call::Load(_) => {}
            // Refused ones and questions change nothing.
            _ => self.offices[own].edits.push(call.clone()),
        }
        answer
    }
}

/// Every answer, and what both offices hold after each call.
#[test]
fn lists_against_the_model() {
    let (mut refused, mut changed) = ([0; 18], 0);
    for case in 0..150 {
        let calls = lists::by_both(&mut Random::for_case(10, case), 30);
        let start = Got { file: file::encode(&District::fresh()), edits: Vec::new(), records: Vec::new() };
        let mut model = Model { offices: [start.clone(), start] };
        let mut station = Station::fresh();
        for (office, call) in &calls {
            let before = station.clone();
            let answer = of_station(&mut station, *office, call);
            assert_eq!(answer, model.answer(*office, call), "case {case}");
            let mut desk = Desk::fresh();
            desk.station = before.clone();
            if let Err(refusal) = call.make(*office, &mut desk) {
                refused[usize::from(refusal.number())] += 1;
                assert_eq!(station, before);
            }
            for office in [1, 2] {
                let (held, expected) = (station.office(office).unwrap(), model.offices[office as usize - 1].unit());
                assert_eq!(held, &expected, "case {case}");
                assert_eq!(held.show(), &plan(held.district()));
            }
            let limits = |station: &Station, office: u32| district(station, office.into()).limits.clone();
            let lost = |one: u32| one != *office && limits(&station, one) != limits(&before, one);
            changed += u32::from([1, 2].contains(office) && [1, 2].into_iter().any(lost));
        }
    }
    assert!(refused[16] > 50 && refused[17] > 100 && changed > 50, "{refused:?} {changed}");
}

/// Where the loads of one office changed no shared tables and the other got no
/// 17, the other's answers are those of the list without the calls of the one.
#[test]
fn calls_left_out() {
    let (mut left_out, mut with_loads) = (0, 0);
    for case in 0..1_500 {
        let calls = lists::by_both(&mut Random::for_case(11, case), 25);
        for one in [1, 2] {
            let other = 3 - one;
            let mut station = Station::fresh();
            let (mut answers, mut free, mut loads) = (Vec::new(), true, 0);
            for (office, call) in &calls {
                let before = station.clone();
                let answer = of_station(&mut station, *office, call);
                if *office == one && matches!(call, Call::Load(_)) {
                    let kept = |station: &Station| shared(&file::encode(district(station, one.into())));
                    free &= kept(&before) == kept(&station);
                    loads += u32::from(answer == "Ok(())");
                }
                free &= *office != other || answer != "Err(SharedTables)";
                if *office != one {
                    answers.push(answer);
                }
            }
            if free {
                let mut station = Station::fresh();
                let rest = calls.iter().filter(|call| call.0 != one);
                let alone: Vec<String> = rest.map(|(office, call)| of_station(&mut station, *office, call)).collect();
                assert_eq!(answers, alone, "case {case}");
                left_out += 1;
                with_loads += u32::from(loads > 0);
            }
        }
    }
    assert!(left_out > 200 && with_loads > 50, "{left_out} {with_loads}");
}

/// An export loads again, into a fresh unit and into one that holds the same
/// shared tables, and gives the same district and plan.
#[test]
fn reloads() {
    for case in 0..100 {
        let calls = lists::by_both(&mut Random::for_case(12, case), 20);
        let mut station = Station::fresh();
        calls.iter().for_each(|(office, call)| drop(of_station(&mut station, *office, call)));
        for office in [1, 2] {
            let held = station.office(office).unwrap().clone();
            let file = file::encode(held.district());
            for mut again in [Station::fresh(), station.clone()] {
                assert_eq!(again.load(office, &file), Ok(()));
                assert_eq!(again.office(office).unwrap().district(), held.district());
                assert_eq!(again.office(office).unwrap().show(), held.show());
            }
            let mut again = station.clone();
            again.load(office, &file).unwrap();
            assert_eq!(again, station);
        }
    }
}
