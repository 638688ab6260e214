//! Four consoles before one unit: worked out by hand, against a model that keeps
//! all arrivals in one row, and as the list of calls in which each edit stands at
//! its step.

mod common;

use common::{card, card_bytes, CARD_LISTING};
use reference::calls::{decode, encode_by, worked, Call};
use reference::desk::{Desk, Edit, Step, CONSOLES, PLACES};
use reference::district::District;
use reference::file;
use reference::lists;
use reference::offices::{bare, north, south};
use reference::random::Random;
use reference::refusal::Refusal;
use reference::station::{same_tables, Station};
use reference::unit::{plan, Unit};
use std::collections::BTreeMap;

/// Both offices hold the card.
fn desk() -> Desk {
    let mut desk = Desk::fresh();
    for office in [1, 2] {
        desk.station.load(office, &card_bytes()).unwrap();
    }
    desk
}

fn limit(desk: &Desk, office: u64) -> u32 {
    desk.station.office(office).unwrap().district().limits[0]
}

/// An edit that sets the limit arrives for office 1.
fn arrives(desk: &mut Desk, console: u64, limit: u64) {
    desk.arrive(1, console, Edit::SetLimit(1, limit)).unwrap();
}

fn accepted(console: usize) -> Option<Step> {
    Some(Step { console, answer: Ok(()) })
}

fn refused(console: usize, refusal: Refusal) -> Option<Step> {
    Some(Step { console, answer: Err(refusal) })
}

/// 0 stands for a step, another number for the console at which an edit arrives:
/// its limit says which arrival it was. Gives the console of each step, 0 for
/// none, and which arrival it carried out.
fn turns(events: &[u64]) -> Vec<(usize, u32)> {
    let mut desk = desk();
    let mut steps = Vec::new();
    for (at, &event) in (1..).zip(events) {
        match event {
            0 => steps.push(match desk.step() {
                Some(step) => (step.console, limit(&desk, 1)),
                None => (0, 0),
            }),
            console => arrives(&mut desk, console, at),
        }
    }
    steps
}

#[test]
fn an_edit_waits_for_its_step() {
    let mut desk = desk();
    let before = desk.station.clone();
    arrives(&mut desk, 3, 60);
    assert_eq!(desk.station, before);
    assert_eq!(desk.step(), accepted(3));
    assert_eq!((limit(&desk, 1), limit(&desk, 2)), (60, 130));
    let unit = desk.station.office(1).unwrap();
    assert_eq!(unit.show(), &plan(unit.district()));
    // Each kind, for the other office, in the order in which they came.
    let edits = [
        Edit::SetLeader(2, 1),
        Edit::Bar(1, 2),
        Edit::SetRating(2, 1, 7),
        Edit::Unbar(1, 2),
        Edit::Bar(2, 1),
        Edit::SetLimit(1, 59),
    ];
    edits.iter().for_each(|&edit| desk.arrive(2, 4, edit).unwrap());
    edits.iter().for_each(|_| assert_eq!(desk.step(), accepted(4)));
    let mut expected = card();
    expected.limits[0] = 59;
    (expected.segments[1].leader, expected.segments[1].bars, expected.segments[1].ratings[0]) = (1, 1, 7);
    assert_eq!(desk.station.office(2).unwrap().district(), &expected);
    assert_eq!(limit(&desk, 1), 60);
}

#[test]
fn turns_by_hand() {
    assert_eq!(turns(&[0, 1, 2, 0, 0, 0]), [(0, 0), (1, 2), (2, 3), (0, 0)]);
    assert_eq!(turns(&[4, 3, 2, 1, 0, 0, 0, 0]), [(1, 4), (2, 3), (3, 2), (4, 1)]);
    assert_eq!(turns(&[3, 3, 1, 0, 0, 0]), [(1, 3), (3, 1), (3, 2)]);
    // The console behind the last one is the next, also after a step that found nothing.
    assert_eq!(turns(&[2, 0, 2, 3, 0, 0]), [(2, 1), (3, 4), (2, 3)]);
    assert_eq!(turns(&[2, 0, 0, 0, 2, 3, 0, 0]), [(2, 1), (0, 0), (0, 0), (3, 6), (2, 5)]);
    assert_eq!(turns(&[4, 0, 4, 1, 0, 0]), [(4, 1), (1, 4), (4, 3)]);
    assert_eq!(turns(&[1, 4, 0, 2, 3, 1, 0, 0, 0, 0]), [(1, 1), (2, 4), (3, 5), (4, 2), (1, 6)]);
    // One that arrives at a console whose turn is over waits for all others.
    assert_eq!(turns(&[1, 2, 3, 4, 0, 1, 0, 0, 0, 0]), [(1, 1), (2, 2), (3, 3), (4, 4), (1, 6)]);
}

#[test]
fn arrivals() {
    assert_eq!((Refusal::Console.number(), Refusal::Queue.number()), (20, 21));
    let mut desk = desk();
    let edit = Edit::SetLimit(1, 9);
    (0..PLACES).for_each(|at| arrives(&mut desk, 2, at as u64));
    let before = desk.clone();
    let [no_office, no_console] = [(1 << 32) + 1, (1 << 63) + 2];
    for office in [0, 3, 257, no_office, u64::MAX] {
        for console in [0, 1, 2, 4, 5, no_console, u64::MAX] {
            assert_eq!(desk.arrive(office, console, edit), Err(Refusal::Office));
        }
    }
    for office in [1, 2] {
        for console in [0, 5, 8, 255, 256, 257, 258, 1 << 32, (1 << 32) + 2, no_console, u64::MAX] {
            assert_eq!(desk.arrive(office, console, edit), Err(Refusal::Console));
        }
        assert_eq!(desk.arrive(office, 2, edit), Err(Refusal::Queue));
    }
    assert_eq!(desk, before);
    // Another console has places; a step makes one free.
    arrives(&mut desk, 1, 99);
    assert_eq!((desk.step(), desk.step()), (accepted(1), accepted(2)));
    arrives(&mut desk, 2, 100);
    assert_eq!(desk.arrive(1, 2, edit), Err(Refusal::Queue));
    for expected in [1, 2, 3, 4, 5, 6, 7, 100] {
        assert_eq!((desk.step(), limit(&desk, 1)), (accepted(2), expected));
    }
    assert_eq!(desk.step(), None);
}

#[test]
fn nothing_waits() {
    for mut desk in [Desk::fresh(), desk()] {
        let before = desk.clone();
        assert_eq!((desk.step(), desk.step()), (None, None));
        assert_eq!(desk, before);
    }
}

/// Refused in its step, an edit is gone, nothing is changed, and the next console
/// is the next.
#[test]
fn a_refused_edit_uses_its_step() {
    let most = 999_999_999;
    for (edit, refusal) in [
        (Edit::Bar(3, 1), Refusal::Segment),
        (Edit::Unbar(1, 0), Refusal::Number),
        (Edit::SetLimit(2, 1), Refusal::Number),
        (Edit::SetLimit(1, most + 1), Refusal::NewValue),
        (Edit::SetRating(1, 1, 21), Refusal::NewValue),
        (Edit::SetRating(u64::MAX, 1, 1), Refusal::Segment),
        (Edit::SetLeader(1, 1), Refusal::Leader),
        (Edit::SetLeader(3, 3), Refusal::Segment),
    ] {
        let mut desk = desk();
        let station = desk.station.clone();
        desk.arrive(1, 1, edit).unwrap();
        arrives(&mut desk, 1, 10);
        arrives(&mut desk, 2, 20);
        assert_eq!(desk.step(), refused(1, refusal));
        assert_eq!(desk.station, station);
        assert_eq!((desk.step(), limit(&desk, 1)), (accepted(2), 20));
        assert_eq!((desk.step(), limit(&desk, 1)), (accepted(1), 10));
        assert_eq!(desk.step(), None);
    }
}

/// An edit is looked at in its step: loads may make it sound, or not, and leave
/// what waits.
#[test]
fn loads_between() {
    let load = |desk: &mut Desk, office: u64, district: &District| {
        desk.station.load(office, &file::encode(district)).err().map_or(0, Refusal::number)
    };
    let mut desk = Desk::fresh();
    desk.arrive(1, 1, Edit::Bar(3, 1)).unwrap();
    desk.arrive(1, 2, Edit::Bar(3, 1)).unwrap();
    desk.arrive(2, 3, Edit::SetLimit(2, 5)).unwrap();
    assert_eq!(load(&mut desk, 1, &south()), 0);
    assert_eq!(desk.step(), accepted(1));
    assert_eq!(load(&mut desk, 1, &north()), 0);
    assert_eq!(desk.step(), refused(2, Refusal::Segment));
    // Office 2 holds the limits that the load by office 1 gave it.
    assert_eq!(desk.step(), accepted(3));
    assert_eq!(desk.station.office(2).unwrap().district().limits, [0, 5]);
    // Refused loads leave what waits as well.
    desk.arrive(2, 1, Edit::SetLimit(1, 6)).unwrap();
    assert_eq!((load(&mut desk, 2, &card()), load(&mut desk, 3, &north())), (17, 16));
    assert_eq!(desk.step(), accepted(1));
    assert_eq!(desk.station.office(2).unwrap().district().limits, [6, 5]);
    assert_eq!(load(&mut desk, 1, &bare(north())), 0);
    desk.arrive(1, 4, Edit::SetRating(1, 1, 0)).unwrap();
    assert_eq!(desk.step(), refused(4, Refusal::Segment));
}

/// The edit is a call of its own behind its console; a step shows office 1 or 2.
#[test]
fn lists_as_bytes() {
    let queue = [16, 2, 0, 0, 0, 3, 0, 0, 0, 0, 0, 0, 0, 0, 0, 0, 0];
    let rating = [5, 2, 0, 0, 0, 1, 0, 0, 0, 3, 2, 0, 0, 4, 0, 0, 0];
    let step = [17, 1, 0, 0, 0, 0, 0, 0, 0, 0, 0, 0, 0, 0, 0, 0, 0];
    let calls = [(2, Call::Queue(3, Edit::SetRating(1, 0x0203, 4))), (1, Call::Step)];
    let bytes = [queue, rating, step].concat();
    assert_eq!(encode_by(&calls), bytes);
    assert_eq!(decode(&bytes), calls);
    assert_eq!(decode(&bytes[..50]), calls[..1]);
    (17..34).for_each(|length| assert!(decode(&bytes[..length]).is_empty()));
    // The office in the edit is not looked at. Another kind makes the whole a show.
    let mut other = bytes.clone();
    other[18..22].fill(9);
    assert_eq!(decode(&other), calls);
    for kind in [0, 1, 6, 7, 8, 9, 10, 11, 12, 13, 15, 16, 17, 18, 255] {
        other[17] = kind;
        assert_eq!(decode(&other), [(2, Call::Show), (1, Call::Step)]);
    }
    // What is shown: the plan of the office that stands in front of an edit, and for a step 1 or else 2.
    let both = [1, 2].map(|office| (office, Call::Load(card_bytes())));
    let shown = |calls: &[(u32, Call)]| worked(&encode_by(&[&both[..], calls].concat()));
    let nothing = "1 0\n2 0\nbenefit 0\nceiling 0\nsteps 0 0 0\n";
    let closes = Call::Queue(2, Edit::SetLimit(1, 0));
    assert_eq!(shown(&[(2, closes.clone())]), CARD_LISTING);
    assert_eq!(shown(&[(2, closes.clone()), (1, Call::Step)]), CARD_LISTING);
    for office in [2, 0, 3, u32::MAX] {
        assert_eq!(shown(&[(2, closes.clone()), (office, Call::Step)]), nothing);
        assert_eq!(shown(&[(office, Call::Step)]), CARD_LISTING);
    }
    assert_eq!(shown(&[(3, closes)]), "refused 16\n");
    assert_eq!(shown(&[(1, Call::Queue(5, Edit::Bar(1, 1)))]), "refused 20\n");
    assert_eq!(shown(&vec![(1, Call::Queue(4, Edit::Bar(1, 1))); 9]), "refused 21\n");
    assert_eq!(shown(&[(2, Call::Queue(1, Edit::Bar(3, 1))), (1, Call::Step)]), "refused 6\n");
}

// ---- lists from a seed

/// An edit that waits, in one row with all others.
struct Arrival {
    console: u32,
    office: u32,
    edit: Edit,
    /// Whether it would have been accepted at once.
    sound: bool,
    /// Edits of its console in front of it, and steps since it came.
    before: usize,
    steps: usize,
}

/// All arrivals that wait, in the order in which they came, and the console of
/// the last step.
struct Model {
    row: Vec<Arrival>,
    last: u32,
}

impl Model {
    fn waiting_at(&self, console: u32) -> usize {
        self.row.iter().filter(|arrival| arrival.console == console).count()
    }

    /// What an arrival is answered, in numbers.
    fn refusal(&self, office: u32, console: u32) -> u8 {
        match (office, console) {
            (0 | 3.., _) => 16,
            (_, 0 | 5..) => 20,
            _ if self.waiting_at(console) == 8 => 21,
            _ => 0,
        }
    }

    /// The arrival that a step takes: of those that wait the one whose console is
    /// the fewest places behind the last one's, and that came first.
    fn next(&mut self) -> Option<Arrival> {
        self.row.iter_mut().for_each(|arrival| arrival.steps += 1);
        let behind = |arrival: &Arrival| (arrival.console + 3 - self.last) % 4;
        let (at, _) = self.row.iter().enumerate().min_by_key(|(_, arrival)| behind(arrival))?;
        self.last = self.row[at].console;
        Some(self.row.remove(at))
    }
}

/// A call that does not wait, or an edit in its step: its office and what it answers.
type Said = (u32, Call, Result<(), Refusal>);

/// What came up, and how often.
type Seen = BTreeMap<String, u32>;

fn see(seen: &mut Seen, what: impl ToString, there: bool) {
    *seen.entry(what.to_string()).or_default() += u32::from(there);
}

/// Runs a list against the model. Gives the list with each edit standing at its step,
/// and what was answered there.
fn run(calls: &[(u32, Call)], seen: &mut Seen) -> (Vec<Said>, Desk) {
    let mut desk = Desk::fresh();
    let mut model = Model { row: Vec::new(), last: 4 };
    let mut said = Vec::new();
    for (office, call) in calls {
        match *call {
            Call::Queue(console, edit) => {
                let refusal = model.refusal(*office, console);
                let before = desk.clone();
                let answer = desk.arrive((*office).into(), console.into(), edit);
                assert_eq!(answer.err().map_or(0, Refusal::number), refusal);
                see(seen, format!("arrival {refusal}"), true);
                if refusal > 0 {
                    assert_eq!(desk, before);
                    continue;
                }
                assert_eq!(desk.station, before.station);
                let mut unit = desk.station.office((*office).into()).unwrap().clone();
                let sound = edit.make(&mut unit).is_ok();
                let before = model.waiting_at(console);
                model.row.push(Arrival { console, office: *office, edit, sound, before, steps: 0 });
            }
            Call::Step => {
                let before = desk.clone();
                let (step, next) = (desk.step(), model.next());
                assert_eq!(step.map(|step| step.console as u32), next.as_ref().map(|next| next.console));
                let (Some(step), Some(next)) = (step, next) else {
                    assert_eq!(desk, before);
                    see(seen, "idle", true);
                    continue;
                };
                // Within four steps for it and each edit in front of it.
                let most = CONSOLES * (next.before + 1);
                assert!(next.steps <= most);
                see(seen, "latest", next.steps == most);
                see(seen, "sound on arrival only", next.sound && step.answer.is_err());
                see(seen, "sound in its step only", !next.sound && step.answer.is_ok());
                let refusal = step.answer.err().map_or(0, Refusal::number);
                see(seen, format!("step {refusal}"), true);
                said.push((next.office, as_call(next.edit), step.answer));
            }
            _ => {
                let answer = call.make(*office, &mut desk);
                said.push((*office, call.clone(), answer));
            }
        }
        for office in [1, 2] {
            let unit = desk.station.office(office).unwrap();
            assert_eq!(unit.show(), &plan(unit.district()));
        }
    }
    (said, desk)
}

/// The call that makes an edit at once.
fn as_call(edit: Edit) -> Call {
    let [i, j, k] = match edit {
        Edit::Bar(i, j) | Edit::Unbar(i, j) | Edit::SetLimit(i, j) | Edit::SetLeader(i, j) => [i, j, 0],
        Edit::SetRating(i, j, k) => [i, j, k],
    }
    .map(|number| u32::try_from(number).unwrap());
    match edit {
        Edit::Bar(..) => Call::Bar(i, j),
        Edit::Unbar(..) => Call::Unbar(i, j),
        Edit::SetLimit(..) => Call::SetLimit(i, j),
        Edit::SetRating(..) => Call::SetRating(i, j, k),
        Edit::SetLeader(..) => Call::SetLeader(i, j),
    }
}

/// Each edit at its step: the same answers, and the same two offices.
#[test]
fn lists_against_the_model() {
    let mut seen = Seen::new();
    for case in 0..250 {
        let calls = lists::at_consoles(&mut Random::for_case(12, case), 90);
        let (said, desk) = run(&calls, &mut seen);
        let mut again = Desk::fresh();
        for (office, call, answer) in said {
            assert_eq!(call.make(office, &mut again), answer, "case {case}");
        }
        assert_eq!(again.station, desk.station, "case {case}");
    }
    let answers = ["arrival 0", "arrival 16", "arrival 20", "arrival 21", "idle", "step 0", "step 6", "step 7"];
    let others = ["step 8", "step 14", "latest", "sound on arrival only", "sound in its step only"];
    for what in answers.into_iter().chain(others) {
        assert!(seen.get(what).is_some_and(|&count| count > 50), "{what}: {seen:?}");
    }
}

/// In the list with each edit at its step, calls of one office that changed no
/// shared tables can be left out, where the other got no 17.
#[test]
fn one_office_left_out() {
    let mut left_out = 0;
    for case in 0..400 {
        let calls = lists::at_consoles(&mut Random::for_case(13, case), 60);
        let (said, _) = run(&calls, &mut Seen::new());
        for one in [1, 2] {
            if !free(&said, one) {
                continue;
            }
            let mut desk = Desk::fresh();
            for (office, call, answer) in said.iter().filter(|said| said.0 != one) {
                assert_eq!(call.make(*office, &mut desk), *answer, "case {case}");
            }
            left_out += 1;
        }
    }
    assert!(left_out > 50, "{left_out}");
}

/// Whether no load of the one changed the tables, and the other got no 17.
fn free(said: &[Said], one: u32) -> bool {
    let held = |station: &Station| station.office(one.into()).map(Unit::district).unwrap().clone();
    let mut desk = Desk::fresh();
    said.iter().all(|(office, call, answer)| {
        let before = held(&desk.station);
        let _ = call.make(*office, &mut desk);
        let changed = *office == one && !same_tables(&before, &held(&desk.station));
        !changed && (*office == one || *answer != Err(Refusal::SharedTables))
    })
}
