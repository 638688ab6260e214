//! Runs the cases that are stored with the proved programs, and the computed
//! ones that no program prints, through this library. Prints the first that
//! comes to something else than what is stored, and then ends with a failure.
//!
//! It is what a wrong reading of the rules is held against: see `wrong/`.

use reference::refusal::Refusal;
use reference::unit::{plan_in, Unit};
use reference::{calls, console, deck, file, frames, listing, options::Given, page, rating, text, turn};
use std::panic::{catch_unwind, AssertUnwindSafe};
use std::path::Path;
use std::process::ExitCode;
use std::sync::atomic::{AtomicUsize, Ordering};
use std::{fs, io};

const USAGE: &str = "usage: stored --crates DIR --computed FILE --turned FILE --decks FILE --texts FILE --work DIR\n";

static PANICS: AtomicUsize = AtomicUsize::new(0);

fn main() -> ExitCode {
    let arguments: Vec<String> = std::env::args().skip(1).collect();
    // A wrong reading may panic. Such a case tells nothing, and the next is looked at.
    std::panic::set_hook(Box::new(|_| {
        PANICS.fetch_add(1, Ordering::Relaxed);
    }));
    match first_different(&arguments) {
        Ok(None) if PANICS.load(Ordering::Relaxed) == 0 => ExitCode::SUCCESS,
        Ok(None) => {
            println!("no case differs, but some panic");
            ExitCode::from(2)
        }
        Ok(Some(case)) => {
            println!("{case}");
            ExitCode::FAILURE
        }
        Err(message) => {
            eprint!("stored: {message}\n{USAGE}");
            ExitCode::from(2)
        }
    }
}

fn first_different(arguments: &[String]) -> Result<Option<String>, String> {
    let given = Given::read(arguments, &["crates", "computed", "turned", "decks", "texts", "work"])?;
    let (crates, work) = (Path::new(given.needed("crates")?), Path::new(given.needed("work")?));
    let error = |error: io::Error| error.to_string();
    let read = |name: &str| fs::read(crates.join(name)).map_err(error);

    let file = read("plan/stdin")?;
    let worked = [answer(|| listing::answer(&file))];
    if let Some(at) = differs(worked, &[lossy(&read("plan/stdout")?)]) {
        return Ok(Some(format!("plan {at}")));
    }

    let file = read("page/stdin")?;
    let worked = [answer(|| page::answer(&file))];
    if let Some(at) = differs(worked, &[lossy(&read("page/stdout")?)]) {
        return Ok(Some(format!("page {at}")));
    }

    for (name, way) in [("up", turn::Way::Up), ("down", turn::Way::Down)] {
        let file = read(&format!("{name}/stdin"))?;
        let worked = [answer(|| hex(&turn::answer(way, &file)))];
        if let Some(at) = differs(worked, &[hex(&read(&format!("{name}/stdout"))?)]) {
            return Ok(Some(format!("{name} {at}")));
        }
    }

    let cards = read("deck/stdin")?;
    let worked = [answer(|| deck::answer(&cards))];
    if let Some(at) = differs(worked, &[lossy(&read("deck/stdout")?)]) {
        return Ok(Some(format!("deck {at}")));
    }

    let cases = deck::cases(&fs::read_to_string(given.needed("decks")?).map_err(error)?)?;
    for (line, cards, stored) in cases {
        if differs([answer(|| deck::answer(&cards))], &[stored]).is_some() {
            return Ok(Some(format!("line {line} of decks.txt")));
        }
    }

    let cases = text::cases(&fs::read_to_string(given.needed("texts")?).map_err(error)?)?;
    for (line, way, input, stored) in cases {
        if differs([answer(|| hex(&text::answer(way, &input)))], &[hex(&stored)]).is_some() {
            return Ok(Some(format!("line {line} of texts.txt")));
        }
    }

    for (name, way) in [("pack", text::Way::Pack), ("unpack", text::Way::Unpack)] {
        let input = read(&format!("{name}/stdin"))?;
        let worked = [answer(|| hex(&text::answer(way, &input)))];
        if differs(worked, &[hex(&read(&format!("{name}/stdout"))?)]).is_some() {
            return Ok(Some(name.to_string()));
        }
    }

    let lists = split(&read("vectors/stdin")?);
    let worked = lists.iter().map(|list| answer(|| calls::worked(list)));
    if let Some(at) = differs(worked, &listings(&lossy(&read("vectors/stdout")?))) {
        return Ok(Some(format!("list {at} of vectors")));
    }

    let files = split(&read("transcode/stdin")?);
    let worked = [answer(|| files.iter().map(|file| codec(file)).collect())];
    if differs(worked, &[hex(&read("transcode/stdout")?)]).is_some() {
        return Ok(Some("transcode".to_string()));
    }

    copy(&crates.join("panel/data"), work).map_err(error)?;
    let input = read("panel/stdin")?;
    let worked = answer(|| {
        let mut output = Vec::new();
        let done = console::run(&mut &input[..], &mut output, work);
        done.map_or_else(|error| error.to_string(), |()| lossy(&output))
    });
    if let Some(worked) = worked {
        if let Some(at) = differs(by_line(&worked).into_iter().map(Some), &by_line(&lossy(&read("panel/stdout")?))) {
            return Ok(Some(format!("line {at} of panel")));
        }
    }

    let cases = turn::cases(&fs::read_to_string(given.needed("turned")?).map_err(error)?)?;
    for (line, way, file, stored) in cases {
        if differs([answer(|| hex(&turn::answer(way, &file)))], &[hex(&stored)]).is_some() {
            return Ok(Some(format!("line {line} of turned.txt")));
        }
    }

    let lines = fs::read_to_string(given.needed("computed")?).map_err(error)?;
    let (worked, stored): (Vec<_>, Vec<_>) = lines.lines().filter_map(computed).unzip();
    Ok(differs(worked, &stored).map(|at| format!("computed {at}")))
}

/// The number of the first answer that is not the stored one; no further ones
/// are worked out. An answer that is missing is one that panicked.
fn differs(worked: impl IntoIterator<Item = Option<String>>, stored: &[String]) -> Option<usize> {
    let mut worked = worked.into_iter();
    let holds = |stored: &String| worked.next().is_some_and(|answer| answer.is_none_or(|answer| answer == *stored));
    let other = stored.iter().map(holds).position(|holds| !holds);
    other.or_else(|| worked.next().map(|_| stored.len())).map(|at| at + 1)
}

fn answer(work: impl FnOnce() -> String) -> Option<String> {
    catch_unwind(AssertUnwindSafe(work)).ok()
}

fn lossy(bytes: &[u8]) -> String {
    String::from_utf8_lossy(bytes).into_owned()
}

fn by_line(text: &str) -> Vec<String> {
    text.lines().map(str::to_string).collect()
}

/// The frames up to the end, or to one that is cut short or too long.
fn split(mut bytes: &[u8]) -> Vec<Vec<u8>> {
    let mut all = Vec::new();
    while let Ok(Some(frame)) = frames::next(&mut bytes) {
        all.push(frame);
    }
    all
}

/// What `vectors` printed, list by list: a refusal, or a listing up to its counts.
fn listings(text: &str) -> Vec<String> {
    let mut all = Vec::new();
    let mut one = String::new();
    for line in text.lines() {
        one.push_str(line);
        one.push('\n');
        if line.starts_with("refused") || line.starts_with("steps") {
            all.push(std::mem::take(&mut one));
        }
    }
    all
}

/// What `transcode` answers to a frame, in hexadecimal.
fn codec(bytes: &[u8]) -> String {
    match file::decode(bytes) {
        Err(refusal) => hex(&[refusal.number()]),
        Ok(district) => {
            let mut answer = vec![0];
            frames::put(&mut answer, &file::encode(&district));
            hex(&answer)
        }
    }
}

fn hex(bytes: &[u8]) -> String {
    bytes.iter().map(|byte| format!("{byte:02x}")).collect()
}

fn unhex(text: &str) -> Vec<u8> {
    (0..text.len() / 2).filter_map(|at| u8::from_str_radix(text.get(2 * at..2 * at + 2)?, 16).ok()).collect()
}

/// A line `CASE: ANSWER`, where the case ends with a file in hexadecimal: what
/// the library makes of it, and what stands there. Ratings, survivals and
/// effects are those of segment 1 under strategy 1, for distress type 1. A row of
/// blocks has a comma between two numbers.
fn computed(line: &str) -> Option<(Option<String>, String)> {
    let (case, wanted) = line.split_once(": ").filter(|_| !line.starts_with('#'))?;
    let words: Vec<&str> = case.split(' ').collect();
    let worked = answer(|| {
        let mut unit = Unit::fresh();
        let _ = unit.load(&unhex(words.last().unwrap_or(&"")));
        let district = unit.district();
        let one = || (&district.segments[0], &district.strategies[0]);
        match words[..] {
            ["fresh"] => hex(&file::encode(district)),
            ["places", _] => numbers(unit.show().strategies),
            ["after", _] => unit.show().total_after_phase_two.to_string(),
            ["after", row, _] => {
                let row: Vec<u64> = row.split(',').filter_map(|number| number.parse().ok()).collect();
                plan_in(district, &row).total_after_phase_two.to_string()
            }
            ["export", length, _] => lent(length, |buffer| unit.export(buffer)),
            ["page", length, _] => lent(length, |buffer| unit.page(buffer)),
            ["ratings", _] => numbers((0..=district.years).map(|t| rating::rating(district, one().0, one().1, 0, t))),
            ["survivals", _] => numbers(one().1.survival.iter().map(|&percent| rating::survival(one().0, percent))),
            ["effect", _] => rating::effect(district, one().0, one().1).to_string(),
            _ => "unknown case".to_string(),
        }
    });
    Some((worked, wanted.to_string()))
}

fn numbers<T: ToString>(all: impl IntoIterator<Item = T>) -> String {
    all.into_iter().map(|one| one.to_string()).collect::<Vec<_>>().join(" ")
}

/// A call into a lent buffer of ones: its answer, and the bytes that have changed.
fn lent(length: &str, call: impl Fn(&mut [u8]) -> Result<usize, Refusal>) -> String {
    let mut buffer = vec![255; length.parse().unwrap_or(0)];
    let answer = call(&mut buffer);
    let written = buffer.iter().rposition(|&byte| byte != 255).map_or(0, |at| at + 1);
    match answer {
        Ok(length) => format!("{length}, {written} written"),
        Err(refusal) => format!("refused {}, {written} written", refusal.number()),
    }
}

fn copy(from: &Path, to: &Path) -> io::Result<()> {
    fs::create_dir_all(to)?;
    for entry in fs::read_dir(from)? {
        let entry = entry?;
        fs::copy(entry.path(), to.join(entry.file_name()))?;
    }
    Ok(())
}
