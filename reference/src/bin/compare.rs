//! Compares other programs with this library, case by case:
//! `compare [--plan PATH] [--page PATH] [--panel PATH] [--codec PATH] [--vectors PATH] [--up PATH] [--down PATH]
//! [--deck PATH] [--pack PATH] [--unpack PATH] --count N --seed S`.
//!
//! The cases are dealt out among the programs given. A case is made from the
//! seed and its number alone. Where answers differ, the case's files and both
//! answers stay in the work folder. With `--turned FILE` the stored cases of `up`
//! and `down` in that file are run as well, with `--decks FILE` those of `deck`,
//! and with `--texts FILE` those of `pack` and `unpack`, in front of the others.

use reference::calls::Call;
use reference::console::Console;
use reference::desk::{Desk, CONSOLES};
use reference::district::{District, Segment};
use reference::listing;
use reference::make;
use reference::options::Given;
use reference::random::Random;
use reference::refusal::Refusal;
use reference::station::{same_tables, Station};
use reference::tables::Tables;
use reference::turn::{self, Way};
use reference::unit::{plan, Plan, Unit};
use reference::{calls, deck, decks, example, file, frames, lists, pack, page, rating, text, texts, unpack};
use std::collections::{BTreeMap, BTreeSet, VecDeque};
use std::fs;
use std::io::{Read, Write};
use std::path::{Path, PathBuf};
use std::process::{Child, Command, ExitCode, Stdio};
use std::sync::mpsc;
use std::thread;
use std::time::Duration;

const USAGE: &str = "usage: compare [--plan PATH] [--page PATH] [--panel PATH] [--codec PATH] [--vectors PATH]
               [--up PATH] [--down PATH] [--turned FILE] [--deck PATH] [--decks FILE]
               [--pack PATH] [--unpack PATH] [--texts FILE]
               [--count N] [--seed S] [--work DIR] [--case K]
";
const PATIENCE: Duration = Duration::from_secs(120);

fn main() -> ExitCode {
    let arguments: Vec<String> = std::env::args().skip(1).collect();
    match run(&arguments) {
        Ok(0) => ExitCode::SUCCESS,
        Ok(_) => ExitCode::FAILURE,
        Err(message) => {
            eprint!("compare: {message}\n{USAGE}");
            ExitCode::FAILURE
        }
    }
}

#[derive(Clone, Copy, PartialEq, Eq, PartialOrd, Ord)]
enum Kind {
    Plan,
    Page,
    Codec,
    Vectors,
    Panel,
    Turn(Way),
    Deck,
    Text(text::Way),
}

impl Kind {
    fn name(self) -> &'static str {
        match self {
            Kind::Plan => "plan",
            Kind::Page => "page",
            Kind::Codec => "codec",
            Kind::Vectors => "vectors",
            Kind::Panel => "panel",
            Kind::Turn(Way::Up) => "up",
            Kind::Turn(Way::Down) => "down",
            Kind::Deck => "deck",
            Kind::Text(text::Way::Pack) => "pack",
            Kind::Text(text::Way::Unpack) => "unpack",
        }
    }

    /// How many of 25 cases it gets when all ten are there.
    fn weight(self) -> usize {
        match self {
            Kind::Plan => 5,
            Kind::Page => 3,
            Kind::Codec => 3,
            Kind::Vectors => 2,
            Kind::Panel => 2,
            Kind::Turn(_) => 2,
            Kind::Deck => 2,
            Kind::Text(_) => 2,
        }
    }
}

/// What was compared of one kind, and what came up in it.
#[derive(Default)]
struct Tally {
    agreed: u64,
    differed: u64,
    seen: BTreeMap<String, u64>,
}

impl Tally {
    fn see(&mut self, feature: impl Into<String>) {
        *self.seen.entry(feature.into()).or_default() += 1;
    }

    fn see_if(&mut self, feature: &str, there: bool) {
        if there {
            self.see(feature);
        }
    }
}

struct Run {
    seed: u64,
    work: PathBuf,
    tallies: BTreeMap<Kind, Tally>,
}

/// The number of differences.
fn run(arguments: &[String]) -> Result<u64, String> {
    let kinds = ["plan", "page", "panel", "codec", "vectors", "up", "down", "deck", "pack", "unpack"];
    let others = ["turned", "decks", "texts", "count", "seed", "work", "case"];
    let given = Given::read(arguments, &[&kinds[..], &others].concat())?;
    let (seed, count) = (given.number("seed", 1)?, given.number("count", 300)?);
    let cases = match given.text("case") {
        None => 0..count,
        Some(_) => {
            let case = given.number("case", 0)?;
            case..case + 1
        }
    };
    let programs = programs(&given)?;
    let turns: Vec<Kind> = programs.keys().flat_map(|&kind| vec![kind; kind.weight()]).collect();
    if turns.is_empty() {
        return Err("no program to compare with".to_string());
    }
    let work = PathBuf::from(given.text("work").unwrap_or("compare-work"));
    fs::create_dir_all(&work).map_err(|error| error.to_string())?;
    let mut run = Run {
        seed,
        work: fs::canonicalize(&work).map_err(|error| error.to_string())?,
        tallies: programs.keys().map(|&kind| (kind, Tally::default())).collect(),
    };

    if let Some(path) = given.text("turned") {
        run.stored_turns(&programs, path)?;
    }
    if let (Some(path), Some(program)) = (given.text("decks"), programs.get(&Kind::Deck)) {
        run.stored_decks(program, path)?;
    }
    if let Some(path) = given.text("texts") {
        run.stored_texts(&programs, path)?;
    }
    let mut files: Vec<(u64, Vec<u8>)> = Vec::new();
    let mut lists: Vec<(u64, Vec<u8>)> = Vec::new();
    for case in cases {
        let kind = turns[(case % turns.len() as u64) as usize];
        match kind {
            Kind::Plan => run.plan_case(&programs[&kind], case)?,
            Kind::Page => run.page_case(&programs[&kind], case)?,
            Kind::Panel => run.panel_case(&programs[&kind], case)?,
            Kind::Turn(way) => run.turn_case(way, &programs[&kind], case)?,
            Kind::Deck => run.deck_case(&programs[&kind], case)?,
            Kind::Text(way) => run.text_case(way, &programs[&kind], case)?,
            Kind::Codec => files.push((case, make::any_frame(&mut Random::for_case(seed, case)))),
            Kind::Vectors => lists.push((case, lists::any_list(&mut Random::for_case(seed, case)))),
        }
    }
    if let Some(program) = programs.get(&Kind::Codec) {
        run.frame_cases(Kind::Codec, program, &files, transcoded)?;
    }
    if let Some(program) = programs.get(&Kind::Vectors) {
        run.frame_cases(Kind::Vectors, program, &lists, worked)?;
    }

    Ok(run.report())
}

fn programs(given: &Given) -> Result<BTreeMap<Kind, PathBuf>, String> {
    let mut programs = BTreeMap::new();
    let turns = [Kind::Turn(Way::Up), Kind::Turn(Way::Down), Kind::Deck];
    let texts = [text::Way::Pack, text::Way::Unpack].map(Kind::Text);
    let first = [Kind::Plan, Kind::Page, Kind::Codec, Kind::Vectors, Kind::Panel];
    for kind in first.into_iter().chain(turns).chain(texts) {
        if let Some(path) = given.text(kind.name()) {
            // Programs are run from other folders too, so the path must be whole.
            let path = fs::canonicalize(path).map_err(|error| format!("{path}: {error}"))?;
            programs.insert(kind, path);
        }
    }
    Ok(programs)
}

impl Run {
    /// Says what was compared and seen; gives the number of differences.
    fn report(&self) -> u64 {
        let mut compared = 0;
        let mut differences = 0;
        for (kind, tally) in &self.tallies {
            let seen: Vec<String> = tally.seen.iter().map(|(what, count)| format!("{what} {count}")).collect();
            println!(
                "{}: {} agreed, {} differed; seen: {}",
                kind.name(),
                tally.agreed,
                tally.differed,
                seen.join(", ")
            );
            compared += tally.agreed + tally.differed;
            differences += tally.differed;
        }
        // Empty unless something differed.
        let _ = fs::remove_dir(&self.work);
        println!("compared {compared} cases, {differences} differences");
        differences
    }

    fn tally(&mut self, kind: Kind) -> &mut Tally {
        self.tallies.entry(kind).or_default()
    }

    fn agreed(&mut self, kind: Kind) {
        self.tally(kind).agreed += 1;
    }

    /// Reports a difference and keeps what is needed to look into it.
    fn differed(&mut self, kind: Kind, case: u64, kept: &[(&str, &[u8])]) -> Result<(), String> {
        self.tally(kind).differed += 1;
        let name = format!("{}-{}-{case}", kind.name(), self.seed);
        println!(
            "difference: {} case {case} of seed {}, kept as {}/{name}.*",
            kind.name(),
            self.seed,
            self.work.display()
        );
        for (what, bytes) in kept {
            fs::write(self.work.join(format!("{name}.{what}")), bytes).map_err(|error| error.to_string())?;
        }
        Ok(())
    }

    fn plan_case(&mut self, program: &Path, case: u64) -> Result<(), String> {
        let mut random = Random::for_case(self.seed, case);
        // The first case is the report's own example.
        let bytes = match case {
            0 => file::encode(&example::district()),
            _ => make::any_file(&mut random),
        };
        let expected = match file::decode(&bytes[..bytes.len().min(4_096)]) {
            Ok(district) => {
                let plan = plan(&district);
                features(self.tally(Kind::Plan), &district, &plan);
                listing::listing(&plan, district.segments.len())
            }
            Err(refusal) => {
                self.tally(Kind::Plan).see(format!("refused {}", refusal.number()));
                format!("refused {}\n", refusal.number())
            }
        };
        self.file_case(Kind::Plan, program, case, &bytes, expected.as_bytes())
    }

    fn page_case(&mut self, program: &Path, case: u64) -> Result<(), String> {
        let bytes = make::any_page_file(&mut Random::for_case(self.seed, case));
        let expected = match file::decode(&bytes[..bytes.len().min(4_096)]) {
            Ok(district) => {
                let plan = plan(&district);
                page_features(self.tally(Kind::Page), &district, &plan);
                page::page(&district, &plan)
            }
            Err(refusal) => {
                self.tally(Kind::Page).see(format!("refused {}", refusal.number()));
                format!("refused {}\n", refusal.number())
            }
        };
        self.file_case(Kind::Page, program, case, &bytes, expected.as_bytes())
    }

    fn turn_case(&mut self, way: Way, program: &Path, case: u64) -> Result<(), String> {
        let bytes = make::any_turned_file(&mut Random::for_case(self.seed, case), way);
        turn_features(self.tally(Kind::Turn(way)), way, &bytes);
        let expected = turn::answer(way, &bytes[..bytes.len().min(4_096)]);
        self.file_case(Kind::Turn(way), program, case, &bytes, &expected)
    }

    fn deck_case(&mut self, program: &Path, case: u64) -> Result<(), String> {
        // The first case is the report's own example.
        let mut random = Random::for_case(self.seed, case);
        let bytes = if case == 0 { example::deck() } else { decks::any_deck(&mut random) };
        let tally = self.tally(Kind::Deck);
        match deck::read(&bytes) {
            Ok(deck) => {
                tally.see("read");
                tally.see_if("N=0", deck.segments.is_empty());
                tally.see_if("N=64", deck.segments.len() == 64);
                tally.see_if("cards behind", bytes.len() > 81 * (deck.segments.len() + 2));
            }
            Err(refusal) => tally.see(format!("refused {}", refusal.number())),
        }
        let expected = deck::answer(&bytes);
        self.file_case(Kind::Deck, program, case, &bytes, expected.as_bytes())
    }

    /// The stored decks.
    fn stored_decks(&mut self, program: &Path, path: &str) -> Result<(), String> {
        let text = fs::read_to_string(path).map_err(|error| format!("{path}: {error}"))?;
        for (line, bytes, expected) in deck::cases(&text)? {
            self.tally(Kind::Deck).see("stored");
            if call(program, Path::new("."), &bytes)? == expected.as_bytes() {
                self.agreed(Kind::Deck);
            } else {
                self.tally(Kind::Deck).differed += 1;
                println!("difference: deck, line {line} of {path}");
            }
        }
        Ok(())
    }

    fn text_case(&mut self, way: text::Way, program: &Path, case: u64) -> Result<(), String> {
        let mut random = Random::for_case(self.seed, case);
        let tally = self.tally(Kind::Text(way));
        let bytes = match way {
            text::Way::Pack => texts::any_text(&mut random),
            text::Way::Unpack => texts::any_file(&mut random),
        };
        match way {
            text::Way::Pack => text_features(tally, &bytes),
            text::Way::Unpack => unpacked_features(tally, &bytes),
        }
        self.file_case(Kind::Text(way), program, case, &bytes, &text::answer(way, &bytes))
    }

    /// The stored cases of `pack` and `unpack`, each through its program where that
    /// is given.
    fn stored_texts(&mut self, programs: &BTreeMap<Kind, PathBuf>, path: &str) -> Result<(), String> {
        let text = fs::read_to_string(path).map_err(|error| format!("{path}: {error}"))?;
        for (line, way, bytes, expected) in text::cases(&text)? {
            let kind = Kind::Text(way);
            if let Some(program) = programs.get(&kind) {
                self.tally(kind).see("stored");
                if call(program, Path::new("."), &bytes)? == expected {
                    self.agreed(kind);
                } else {
                    self.tally(kind).differed += 1;
                    println!("difference: {}, line {line} of {path}", kind.name());
                }
            }
        }
        Ok(())
    }

    /// The stored cases of `up` and `down`, each through its program where that
    /// is given.
    fn stored_turns(&mut self, programs: &BTreeMap<Kind, PathBuf>, path: &str) -> Result<(), String> {
        let text = fs::read_to_string(path).map_err(|error| format!("{path}: {error}"))?;
        for (line, way, bytes, expected) in turn::cases(&text)? {
            let kind = Kind::Turn(way);
            if let Some(program) = programs.get(&kind) {
                self.tally(kind).see("stored");
                if call(program, Path::new("."), &bytes)? == expected {
                    self.agreed(kind);
                } else {
                    self.tally(kind).differed += 1;
                    println!("difference: {}, line {line} of {path}", kind.name());
                }
            }
        }
        Ok(())
    }

    /// The program gets a file and must print what is expected.
    fn file_case(
        &mut self,
        kind: Kind,
        program: &Path,
        case: u64,
        bytes: &[u8],
        expected: &[u8],
    ) -> Result<(), String> {
        let got = call(program, Path::new("."), bytes)?;
        if got == expected {
            self.agreed(kind);
            return Ok(());
        }
        self.differed(kind, case, &[("bin", bytes), ("expected", expected), ("got", &got)])
    }

    /// All frames go through one run of the program; `expected` notes what a
    /// frame has worth having tested, and gives its answer.
    fn frame_cases(
        &mut self,
        kind: Kind,
        program: &Path,
        frames: &[(u64, Vec<u8>)],
        expected: fn(&mut Tally, &[u8]) -> Vec<u8>,
    ) -> Result<(), String> {
        let mut input = Vec::new();
        frames.iter().for_each(|(_, frame)| frames::put(&mut input, frame));
        let output = call(program, Path::new("."), &input)?;
        let mut rest = &output[..];
        for (case, frame) in frames {
            let expected = expected(self.tally(kind), frame);
            if !rest.starts_with(&expected) {
                // From here on the answers can't be told apart.
                return self.differed(kind, *case, &[("bin", frame), ("expected", &expected), ("got", rest)]);
            }
            self.agreed(kind);
            rest = &rest[expected.len()..];
        }
        if !rest.is_empty() {
            let last = frames.last().map_or(0, |(case, _)| *case);
            return self.differed(kind, last, &[("got-more", rest)]);
        }
        Ok(())
    }

    /// Both sides run the script, each in a folder of its own; the answers
    /// and the files left behind must agree.
    fn panel_case(&mut self, program: &Path, case: u64) -> Result<(), String> {
        let script = make::script(&mut Random::for_case(self.seed, case));
        let name = format!("panel-{}-{case}", self.seed);
        let ours = self.work.join(format!("{name}.ours"));
        let theirs = self.work.join(format!("{name}.theirs"));
        for folder in [&ours, &theirs] {
            script.write(folder).map_err(|error| error.to_string())?;
        }
        let expected = self.expected_answers(&script.text, &ours);
        let got = call(program, &theirs, &script.text)?;
        let mut same = got == expected;
        for folder in ["", "folder"] {
            same &= contents(&ours.join(folder)) == contents(&theirs.join(folder));
        }
        if same {
            self.agreed(Kind::Panel);
            for folder in [&ours, &theirs] {
                fs::remove_dir_all(folder).map_err(|error| error.to_string())?;
            }
            return Ok(());
        }
        self.differed(Kind::Panel, case, &[("script", &script.text), ("expected", &expected), ("got", &got)])
    }

    fn expected_answers(&mut self, text: &[u8], folder: &Path) -> Vec<u8> {
        let tally = self.tally(Kind::Panel);
        let mut console = Console::fresh();
        let mut answers = Vec::new();
        let lines = text.strip_suffix(b"\n").unwrap_or(text).split(|&byte| byte == b'\n');
        for line in lines {
            let Some(answer) = console.answer(line, folder) else {
                tally.see("passed over");
                continue;
            };
            let held = console.held();
            if let (b"show", Ok(unit)) = (line, held) {
                tally.see("show");
                if unit.in_blocks() {
                    tally.see("show in blocks");
                } else {
                    features(tally, unit.district(), unit.show());
                }
            } else if let (b"page", Ok(unit)) = (line, held) {
                page_features(tally, unit.district(), unit.show());
            } else {
                let text = String::from_utf8_lossy(&answer);
                if line.starts_with(b"why ") && !text.starts_with("unknown") {
                    tally.see(format!("why: {}", reason(text.trim_end())));
                    answers.extend(answer);
                    continue;
                }
                // The first word says enough, but for refusals and failures.
                let words: Vec<&str> = text.split_whitespace().take(2).collect();
                tally.see(match words[0] {
                    _ if line == b"roughness" => format!("roughness: {}", words.join(" ")),
                    _ if line.starts_with(b"queue ") => format!("queue: {}", words.join(" ")),
                    _ if line.starts_with(b"blocks") => format!("blocks: {}", words.join(" ")),
                    "console" => {
                        format!("step: {}", text.split_whitespace().skip(2).collect::<Vec<_>>().join(" "))
                    }
                    "ok" | "points" => words[0].to_string(),
                    _ => words.join(" "),
                });
            }
            answers.extend(answer);
        }
        answers
    }
}

/// An answer of `why`, with each number that it names as the first or a later one.
fn reason(answer: &str) -> String {
    if answer.starts_with("refused") {
        return answer.to_string();
    }
    let plain = answer.replace(',', "");
    let words = plain.split(' ').map(|word| match word.parse::<u64>() {
        Ok(1) => "first",
        Ok(2..) => "later",
        _ => word,
    });
    words.collect::<Vec<_>>().join(" ")
}

/// What the codec answers to a frame.
fn transcoded(tally: &mut Tally, frame: &[u8]) -> Vec<u8> {
    match file::decode(frame) {
        Ok(district) => {
            let bytes = file::encode(&district);
            tally.see("accepted");
            tally.see_if("longest file", bytes.len() == file::LONGEST);
            tally.see_if("longest file without leaders", bytes.len() == file::LONGEST_PLAIN);
            tally.see_if("leaders", district.has_leaders());
            tally.see_if("leaders all 0", frame != bytes);
            let mut answer = vec![0];
            frames::put(&mut answer, &bytes);
            answer
        }
        Err(refusal) => {
            tally.see(format!("refused {}", refusal.number()));
            vec![refusal.number()]
        }
    }
}

/// Notes what a text has that is worth having tested: what is made of it, or the
/// words of its complaint.
fn text_features(tally: &mut Tally, text: &[u8]) {
    match pack::pack(text) {
        Ok(file) => {
            tally.see(if file[2] == 8 { "packed with leaders" } else { "packed" });
            tally.see_if("N=0", file[4] == 0);
            tally.see_if("longest file", file.len() == file::LONGEST || file.len() == file::LONGEST_PLAIN);
            tally.see_if("longest text", text.len() == pack::TEXT_MOST);
            tally.see_if("last line without its end", text.last() != Some(&b'\n'));
        }
        Err(complaint) => tally.see(texts::sort_of(&complaint)),
    }
}

/// The same of a file to be unpacked.
fn unpacked_features(tally: &mut Tally, bytes: &[u8]) {
    match unpack::unpack(bytes) {
        Ok(text) => {
            tally.see(if text.starts_with("led") { "unpacked with leaders" } else { "unpacked" });
            tally.see_if("N=0", bytes[4] == 0);
            tally.see_if("longest file", bytes.len() == file::LONGEST || bytes.len() == file::LONGEST_PLAIN);
        }
        Err(refused) => {
            tally.see(format!("refused {}", refused.refusal.number()));
            tally.see_if("of the form with leaders", bytes.len() >= 4 && bytes[2..4] == file::LED.to_le_bytes());
            tally.see_if("more than 4096 bytes", bytes.len() > unpack::FILE_MOST);
        }
    }
}

/// Notes what a file to be turned has that is worth having tested.
fn turn_features(tally: &mut Tally, way: Way, bytes: &[u8]) {
    match turn::turn(way, bytes) {
        Ok(turned) => {
            tally.see("turned");
            tally.see_if("N=0", bytes[4] == 0);
            tally.see_if("longest file", bytes.len().max(turned.len()) == file::LONGEST);
        }
        Err(refusal) => {
            tally.see(format!("refused {}", refusal.number()));
            let other = [file::PLAIN, file::LED][usize::from(way == Way::Up)];
            let wanted = bytes.len() >= 4 && bytes[2..4] == other.to_le_bytes();
            tally.see_if("of the wanted form", wanted && file::decode(bytes).is_ok());
            tally.see_if("of the wanted form, damaged", wanted && file::decode(bytes).is_err());
            // A leader is set in a segment that is in order, and something else is wrong behind it.
            let led = way == Way::Down && !wanted && refusal.number() < 15 && leader_in_front(bytes);
            tally.see_if("damaged behind a leader", led);
        }
    }
}

/// Whether the records of a file in the form with leaders, up to the first that
/// is not whole, have a segment with a leader.
fn leader_in_front(bytes: &[u8]) -> bool {
    let mut rest = bytes;
    while rest.len() >= 4 {
        let length = usize::from(u16::from_le_bytes([rest[0], rest[1]]));
        let Some(payload) = rest.get(4..4 + length) else { return false };
        if rest[2..4] == [6, 0] && payload.last().is_some_and(|&leader| leader > 0) {
            return true;
        }
        rest = &rest[4 + length..];
    }
    false
}

/// What `vectors` prints for a list of calls.
fn worked(tally: &mut Tally, list: &[u8]) -> Vec<u8> {
    let printed = calls::worked(list);
    let calls = calls::decode(list);
    tally.see_if("no call", calls.is_empty());
    tally.see_if("20 calls or more", calls.len() >= 20);
    tally.see(if printed.starts_with("refused") { printed.trim_end() } else { "planned" });
    office_features(tally, &calls);
    desk_features(tally, &calls);
    block_features(tally, &calls);
    printed.into_bytes()
}

/// Notes what a list has that concerns both offices: who shows, what loads did to
/// the tables, and 17 anywhere in it.
fn office_features(tally: &mut Tally, calls: &[(u32, Call)]) {
    tally.see_if("both offices", [1, 2].iter().all(|&office| calls.iter().any(|call| call.0 == office)));
    let mut desk = Desk::fresh();
    let mut seen = [false; 4];
    for (office, call) in calls {
        let before = desk.station.clone();
        let refusal = call.make(*office, &mut desk).err().map_or(0, |refusal| refusal.number());
        seen[0] |= refusal == 16;
        seen[1] |= refusal == 17;
        if let (Call::Load(_), 0) = (call, refusal) {
            let held =
                |station: &Station, office: u32| station.office(office.into()).map(|unit| unit.district().clone());
            let (Ok(old), Ok(new), Ok(other)) =
                (held(&before, *office), held(&desk.station, *office), held(&before, 3 - office))
            else {
                continue;
            };
            let same = same_tables(&old, &new);
            seen[2] |= !same && other.limits.iter().any(|&limit| limit > 0);
            seen[3] |= same && !other.segments.is_empty();
        }
    }
    let features =
        ["16 among them", "17 among them", "tables changed, limits lost", "equal tables, both with segments"];
    features.iter().zip(seen).for_each(|(feature, seen)| tally.see_if(feature, seen));
}

/// Notes what a list has that concerns the four consoles: arrivals that are refused,
/// steps where nothing waits, what edits come to in their steps, and whether that is
/// what they would have come to on arrival.
fn desk_features(tally: &mut Tally, calls: &[(u32, Call)]) {
    let mut desk = Desk::fresh();
    let mut seen = BTreeSet::new();
    // Whether each edit that waits would have been accepted on arrival.
    let mut sound: [VecDeque<bool>; CONSOLES] = Default::default();
    for (office, call) in calls {
        let feature = match call {
            Call::Queue(console, edit) => {
                let unit = desk.station.office((*office).into()).cloned();
                let answer = desk.arrive((*office).into(), (*console).into(), *edit);
                if answer.is_ok() {
                    let at_once = unit.and_then(|mut unit| edit.make(&mut unit));
                    sound[*console as usize - 1].push_back(at_once.is_ok());
                }
                outcome("arrivals", answer)
            }
            Call::Step => match desk.step() {
                None => "idle steps".to_string(),
                Some(step) => {
                    match (sound[step.console - 1].pop_front(), step.answer) {
                        (Some(true), Err(_)) => seen.insert("edits sound on arrival only".to_string()),
                        (Some(false), Ok(())) => seen.insert("edits sound in their steps only".to_string()),
                        _ => false,
                    };
                    outcome("steps", step.answer)
                }
            },
            _ => {
                let _ = call.make(*office, &mut desk);
                continue;
            }
        };
        seen.insert(feature);
    }
    seen.into_iter().for_each(|feature| tally.see(feature));
}

/// Notes what a list has that concerns blocks: choices that are followed and that are
/// not, what the plan is then, and edits that make one followed or not.
fn block_features(tally: &mut Tally, calls: &[(u32, Call)]) {
    let mut desk = Desk::fresh();
    let mut seen = BTreeSet::new();
    for (office, call) in calls {
        let followed = |desk: &Desk| desk.station.office((*office).into()).is_ok_and(Unit::in_blocks);
        let before = followed(&desk);
        let _ = call.make(*office, &mut desk);
        let after = followed(&desk);
        match call {
            Call::Blocks(row) if row.is_empty() => seen.insert("no blocks chosen"),
            Call::Blocks(_) if after => seen.insert("blocks followed"),
            Call::Blocks(_) => seen.insert("blocks not followed"),
            Call::Load(_) if before && !after => seen.insert("blocks dropped by a load"),
            _ if before && !after => seen.insert("blocks not followed behind an edit"),
            _ if after && !before => seen.insert("blocks followed behind an edit"),
            _ => false,
        };
        if let (true, Ok(unit)) = (after, desk.station.office((*office).into())) {
            let ordinary = plan(unit.district());
            if unit.show() != &ordinary {
                seen.insert("blocks decide");
            }
            if unit.show().strategies != ordinary.strategies {
                seen.insert("blocks decide the programme");
            }
        }
    }
    seen.into_iter().for_each(|feature| tally.see(feature));
}

/// What was asked for, and its refusal where it got one.
fn outcome(asked: &str, answer: Result<(), Refusal>) -> String {
    match answer {
        Ok(()) => asked.to_string(),
        Err(refusal) => format!("{asked} refused {}", refusal.number()),
    }
}

/// Notes what a district and its plan have that is worth having tested.
fn features(tally: &mut Tally, district: &District, plan: &Plan) {
    let tables = Tables::fill(district);
    let n = district.segments.len();
    tally.see("planned");
    tally.see_if("N=0", n == 0);
    tally.see_if("N=64", n == 64);
    tally.see_if("widest", file::encode(district).len() >= file::LONGEST_PLAIN);
    if district.has_leaders() {
        led_features(tally, district, plan, &tables);
    }
    tally.see_if("steps>0", plan.steps > 0);
    tally.see_if("pickups>0", plan.pickups > 0);
    tally.see_if("changes>0", plan.changes > 0);
    tally.see_if("all phases", plan.steps > 0 && plan.pickups > 0 && plan.changes > 0);
    tally.see_if("total>0", plan.total > 0);
    tally.see_if("total<ceiling", plan.total < plan.ceiling);
    tally.see_if("negative gains", district.strategies.iter().any(|s| s.gains.iter().any(|&gain| gain < 0)));
    tally.see_if("losses cut", make::takes_a_cut_loss(district, plan));
    tally.see_if("zero limits", district.limits.contains(&0));
    let all = (1u16 << district.strategies.len()) - 1;
    tally.see_if("all strategies barred", n > 0 && district.segments.iter().all(|s| s.bars == all));
    tally.see_if("minimum demanded", district.types.iter().any(|t| t.minimum.iter().any(|&m| m > 0)));
    tally.see_if("overall demanded", district.types.iter().any(|t| t.overall > 0));
    let twice = |values: Vec<i64>| {
        let mut sorted = values;
        sorted.sort_unstable();
        sorted.windows(2).any(|pair| pair[0] == pair[1])
    };
    let ties_within = tables.segments.iter().any(|s| twice(s.benefit[1..].to_vec()));
    let bests = tables.segments.iter().filter_map(|s| s.benefit[1..].iter().max().copied());
    tally.see_if("ties", ties_within || twice(bests.collect()));
}

/// The same of a district in which a leader is set.
fn led_features(tally: &mut Tally, district: &District, plan: &Plan, tables: &Tables) {
    let segments = &district.segments;
    let named: Vec<usize> = tables.leaders.iter().flatten().copied().collect();
    let all = (1u16 << district.strategies.len()) - 1;
    tally.see("leaders");
    tally.see_if("chains of leaders", named.iter().any(|&leader| segments[leader].leader > 0));
    let followers = |leader: usize| named.iter().filter(|&&one| one == leader).count();
    tally.see_if("many followers of one leader", named.iter().any(|&leader| followers(leader) >= 4));
    tally.see_if("leaders barred from everything", named.iter().any(|&leader| segments[leader].bars == all));
    let idle = |leader: usize| segments[leader].bars != all && tables.segments[leader].count() == 1;
    tally.see_if("other leaders without candidates", named.iter().any(|&leader| idle(leader)));
    let unled = District {
        segments: segments.iter().map(|segment| Segment { leader: 0, ..segment.clone() }).collect(),
        ..district.clone()
    };
    tally.see_if("leaders decide", self::plan(&unled) != *plan);
}

/// Notes what a page has that is worth having tested.
fn page_features(tally: &mut Tally, district: &District, plan: &Plan) {
    let (n, r) = (district.segments.len(), district.limits.len());
    tally.see("paged");
    tally.see_if("N=0", n == 0);
    tally.see_if("N=64", n == 64);
    tally.see(match r {
        1..=3 => "R<4",
        4 => "R=4",
        _ => "R>4",
    });
    tally.see_if("nothing", plan.strategies[..n].contains(&0));
    tally.see_if("0.01 miles", district.segments.iter().any(|segment| segment.length == 1));
    tally.see_if("99.99 miles", district.segments.iter().any(|segment| segment.length == 9_999));
    tally.see_if("200 feet", district.segments.iter().any(|segment| segment.width == 200));
    tally.see_if("total after phase 2 less", plan.total_after_phase_two < plan.total);
    let exact = |i: usize, r: usize| match plan.strategies[i] {
        0 => 0,
        j => rating::usage(&district.segments[i], &district.strategies[usize::from(j) - 1], r),
    };
    let sums = || (0..r.min(4)).map(|r| (0..n).map(|i| exact(i, r)).sum::<u64>().div_ceil(100_000));
    let one_by_one = (0..r.min(4)).map(|r| (0..n).map(|i| exact(i, r).div_ceil(100_000)).sum());
    tally.see_if("rounded once", sums().ne(one_by_one));
    tally.see_if("sums of 9 digits", sums().any(|sum| sum > 99_999_999));
    tally.see_if("limits of 9 digits", district.limits.iter().take(4).any(|&limit| limit > 99_999_999));
    tally.see_if("totals of 14 digits", plan.total > 9_999_999_999_999);
}

/// Names and contents of a folder's files. New files left over from an
/// export that failed are not compared.
fn contents(folder: &Path) -> BTreeMap<std::ffi::OsString, Vec<u8>> {
    let entries = fs::read_dir(folder).into_iter().flatten().flatten();
    entries
        .filter(|entry| entry.path().is_file() && !entry.file_name().to_string_lossy().ends_with(".new"))
        .map(|entry| (entry.file_name(), fs::read(entry.path()).unwrap_or_default()))
        .collect()
}

/// Runs a program in a folder with this input; gives what it printed. One
/// that doesn't end is stopped, and what it printed till then is lost.
fn call(program: &Path, folder: &Path, input: &[u8]) -> Result<Vec<u8>, String> {
    let spawned = Command::new(program)
        .current_dir(folder)
        .stdin(Stdio::piped())
        .stdout(Stdio::piped())
        .stderr(Stdio::null())
        .spawn();
    let mut child: Child = spawned.map_err(|error| format!("{}: {error}", program.display()))?;
    let (mut stdin, mut stdout) = (child.stdin.take().unwrap(), child.stdout.take().unwrap());
    let input = input.to_vec();
    // It may end before it has read everything: a failed write is no matter.
    let writer = thread::spawn(move || drop(stdin.write_all(&input)));
    let (sender, receiver) = mpsc::channel();
    let reader = thread::spawn(move || {
        let mut output = Vec::new();
        let _ = stdout.read_to_end(&mut output);
        let _ = sender.send(output);
    });
    let output = receiver.recv_timeout(PATIENCE).unwrap_or_else(|_| {
        let _ = child.kill();
        b"(took too long)".to_vec()
    });
    let _ = child.wait();
    let _ = (writer.join(), reader.join());
    Ok(output)
}
