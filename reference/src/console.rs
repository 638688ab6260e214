//! The panel: a console over one unit with its two offices and the four consoles
//! before it, fresh at its start.
//!
//! How lines are read, where more than one reading was possible:
//! - Words are separated by exactly one blank, with none in front or behind.
//! - A PATH is all the rest of its line after `load ` or `export `: 1 to 255
//!   bytes, blanks among them or at its ends too, but no NUL byte.
//! - `office N` says which office the calls of later lines name, whatever number
//!   it is; 1 at the start. A wrong one is refused when a call is made. A line that
//!   is no command, and a file that can't be read, make none; `points` names none.
//! - `queue C EDIT` has an edit, written as the command that makes it at once, wait at
//!   console C for the office that calls name now. What is no edit there makes the line
//!   no command. `step` carries one out, and names no office.
//! - `blocks` chooses none. `blocks FIRST LAST PART.. / FIRST LAST PART.. ..` has any
//!   number of blocks, as many parts for each as there are resources now, and a stroke
//!   between two blocks; other lines of that word are no command.
//! - A number is one to 20 digits (zeros in front are fine) within 64 bits.
//! - The bits of a reading or a marker are a number within 32 bits.
//! - A line is blank if it holds only blanks, tabs and carriage returns.
//! - A line of more than 4,096 bytes (its line feed not counted) is an unknown
//!   command, even a blank one, unless it begins with `#`.
//! - The last line may lack its line feed.
//! - A load reads at most 4,096 bytes of its file. No valid file is longer
//!   than 3,852, so a cut file is refused on what was read.
//! - An export is written to PATH with `.new` behind it, then renamed. Whatever
//!   goes wrong on the way answers `cannot write`, and the new file is removed.

use crate::desk::{Desk, Edit, Step};
use crate::listing::listing;
use crate::meter::Roughness;
use crate::page;
use crate::refusal::Refusal;
use crate::survey;
use crate::unit::Unit;
use std::ffi::OsStr;
use std::fs::{self, File};
use std::io::{self, BufRead, Read, Write};
use std::os::unix::ffi::OsStrExt;
use std::path::Path;

pub const LINE_MOST: usize = 4_096;
pub const PATH_MOST: usize = 255;
pub const FILE_MOST: u64 = 4_096;

/// Answers every line of the input until it ends. Paths are taken relative
/// to `base`.
pub fn run(input: &mut dyn BufRead, output: &mut dyn Write, base: &Path) -> io::Result<()> {
    let mut console = Console::fresh();
    while let Some(line) = next_line(input)? {
        if let Some(answer) = console.answer(&line, base) {
            output.write_all(&answer)?;
            output.flush()?;
        }
    }
    Ok(())
}

/// The next line without its line feed. Of a long one only a byte more than a
/// line may have is kept, which is enough to know that it is too long.
fn next_line(input: &mut dyn BufRead) -> io::Result<Option<Vec<u8>>> {
    let mut line = Vec::new();
    let mut seen = false;
    loop {
        let chunk = match input.fill_buf() {
            Err(error) if error.kind() == io::ErrorKind::Interrupted => continue,
            other => other?,
        };
        if chunk.is_empty() {
            return Ok(seen.then_some(line));
        }
        seen = true;
        let end = chunk.iter().position(|&byte| byte == b'\n');
        let taken = end.unwrap_or(chunk.len());
        let kept = taken.min(LINE_MOST + 1 - line.len());
        line.extend(&chunk[..kept]);
        input.consume(end.map_or(taken, |at| at + 1));
        if end.is_some() {
            return Ok(Some(line));
        }
    }
}

pub struct Console {
    desk: Desk,
    /// The office that calls name.
    office: u64,
}

impl Console {
    pub fn fresh() -> Console {
        Console { desk: Desk::fresh(), office: 1 }
    }

    /// What the office holds that calls name now.
    pub fn held(&self) -> Result<&Unit, Refusal> {
        self.desk.station.office(self.office)
    }

    /// The answer to one line, its line feed included; none for a line that is
    /// passed over.
    pub fn answer(&mut self, line: &[u8], base: &Path) -> Option<Vec<u8>> {
        if line.first() == Some(&b'#') {
            return None;
        }
        if line.len() > LINE_MOST {
            return Some(unknown());
        }
        if line.iter().all(|byte| b" \t\r".contains(byte)) {
            return None;
        }
        Some(self.obey(line, base).unwrap_or_else(unknown))
    }

    /// Carries a command out; none if the line is not one.
    fn obey(&mut self, line: &[u8], base: &Path) -> Option<Vec<u8>> {
        if let Some(path) = line.strip_prefix(b"load ") {
            return path_ok(path).then(|| self.load(path, base));
        }
        if let Some(path) = line.strip_prefix(b"export ") {
            return path_ok(path).then(|| self.export(path, base));
        }
        if let Some(waiting) = line.strip_prefix(b"queue ") {
            return self.queue(waiting);
        }
        if let Some(blocks) = line.strip_prefix(b"blocks ") {
            let row = row(blocks, 2 + self.desk.station.resources())?;
            return Some(answered(self.edit(|unit| unit.choose_blocks(&row))));
        }
        let (command, numbers) = words(line)?;
        let asked = match (command, &numbers[..]) {
            (b"show", []) => self.held().map(shown),
            (b"page", []) => self.held().and_then(page),
            (b"points", &[code, degree, extent, seal]) => {
                survey::points(code, degree, extent, seal).map(|points| format!("points {points}\n"))
            }
            (b"why", &[i, j]) => self.held().and_then(|unit| unit.why(i, j)).map(|reason| format!("{reason}\n")),
            (b"roughness", []) => self.call(|unit| unit.roughness()).map(roughness),
            (b"index", &[bits]) => {
                let bits = u32::try_from(bits).ok()?;
                self.edit(|unit| unit.index(bits))
            }
            (b"marker", &[bits]) => {
                let bits = u32::try_from(bits).ok()?;
                self.edit(|unit| unit.marker(bits))
            }
            (b"lost", []) => self.edit(Unit::lost),
            (b"office", &[office]) => {
                self.office = office;
                Ok(OK.to_string())
            }
            (b"step", []) => Ok(stepped(self.desk.step())),
            (b"blocks", []) => self.edit(|unit| unit.choose_blocks(&[])),
            (command, numbers) => {
                let edit = edit(command, numbers)?;
                self.edit(|unit| edit.make(unit))
            }
        };
        Some(answered(asked))
    }

    /// `C EDIT`: the edit is to wait at console C. None if that is not what stands there.
    fn queue(&mut self, waiting: &[u8]) -> Option<Vec<u8>> {
        let blank = waiting.iter().position(|&byte| byte == b' ')?;
        let console = number(&waiting[..blank])?;
        let (command, numbers) = words(&waiting[blank + 1..])?;
        let edit = edit(command, &numbers)?;
        Some(answered(self.desk.arrive(self.office, console, edit).map(|()| OK.to_string())))
    }

    /// A call of the office that calls name now.
    fn call<T>(&mut self, call: impl FnOnce(&mut Unit) -> Result<T, Refusal>) -> Result<T, Refusal> {
        call(self.desk.station.office_mut(self.office)?)
    }

    /// An edit that does not wait, a record, or a choice of blocks.
    fn edit(&mut self, call: impl FnOnce(&mut Unit) -> Result<(), Refusal>) -> Result<String, Refusal> {
        self.call(call).map(|()| OK.to_string())
    }

    fn load(&mut self, path: &[u8], base: &Path) -> Vec<u8> {
        let Ok(file) = File::open(base.join(OsStr::from_bytes(path))) else {
            return cannot("open", path);
        };
        let mut bytes = Vec::new();
        if file.take(FILE_MOST).read_to_end(&mut bytes).is_err() {
            return cannot("read", path);
        }
        answered(self.desk.station.load(self.office, &bytes).map(|()| OK.to_string()))
    }

    fn export(&self, path: &[u8], base: &Path) -> Vec<u8> {
        let mut buffer = [0; FILE_MOST as usize];
        let length = match self.held().and_then(|unit| unit.export(&mut buffer)) {
            Ok(length) => length,
            Err(refusal) => return answered(Err(refusal)),
        };
        let new = base.join(OsStr::from_bytes(&[path, b".new"].concat()));
        let target = base.join(OsStr::from_bytes(path));
        let Ok(mut file) = File::create(&new) else {
            return cannot("write", path);
        };
        if file.write_all(&buffer[..length]).is_err() || fs::rename(&new, &target).is_err() {
            let _ = fs::remove_file(&new);
            return cannot("write", path);
        }
        format!("ok {length}\n").into_bytes()
    }
}

const OK: &str = "ok\n";

fn unknown() -> Vec<u8> {
    b"unknown command\n".to_vec()
}

/// An answer, or its refusal.
fn answered(answer: Result<String, Refusal>) -> Vec<u8> {
    answer.unwrap_or_else(|refusal| format!("refused {}\n", refusal.number())).into_bytes()
}

fn shown(unit: &Unit) -> String {
    listing(unit.show(), unit.district().segments.len())
}

fn page(unit: &Unit) -> Result<String, Refusal> {
    let mut buffer = [0; page::LONGEST];
    let length = unit.page(&mut buffer)?;
    Ok(String::from_utf8_lossy(&buffer[..length]).into_owned())
}

fn roughness(Roughness { points, marker }: Roughness) -> String {
    format!("points {points} marker {marker}\n")
}

/// What a step answers: the console that it took an edit from, and the edit's answer.
fn stepped(step: Option<Step>) -> String {
    match step {
        Some(Step { console, answer: Ok(()) }) => format!("console {console} ok\n"),
        Some(Step { console, answer: Err(refusal) }) => format!("console {console} refused {}\n", refusal.number()),
        None => "idle\n".to_string(),
    }
}

/// The first word of a line and the numbers behind it; none where one is no number.
fn words(line: &[u8]) -> Option<(&[u8], Vec<u64>)> {
    let mut words = line.split(|&byte| byte == b' ');
    Some((words.next()?, words.map(number).collect::<Option<_>>()?))
}

/// The numbers of blocks that stand in a line, each of this size, with a stroke
/// between two of them; none where something else stands there.
fn row(blocks: &[u8], size: usize) -> Option<Vec<u64>> {
    let words: Vec<&[u8]> = blocks.split(|&byte| byte == b' ').collect();
    let mut row = Vec::new();
    for block in words.split(|word| *word == b"/") {
        let numbers = block.iter().map(|word| number(word)).collect::<Option<Vec<u64>>>()?;
        if numbers.len() != size {
            return None;
        }
        row.extend(numbers);
    }
    Some(row)
}

/// The edit that a command is; none where it is another, or none.
fn edit(command: &[u8], numbers: &[u64]) -> Option<Edit> {
    match (command, numbers) {
        (b"bar", &[i, j]) => Some(Edit::Bar(i, j)),
        (b"unbar", &[i, j]) => Some(Edit::Unbar(i, j)),
        (b"limit", &[r, limit]) => Some(Edit::SetLimit(r, limit)),
        (b"rating", &[i, k, rating]) => Some(Edit::SetRating(i, k, rating)),
        (b"leader", &[i, leader]) => Some(Edit::SetLeader(i, leader)),
        _ => None,
    }
}

fn number(word: &[u8]) -> Option<u64> {
    if word.is_empty() || word.len() > 20 || !word.iter().all(u8::is_ascii_digit) {
        return None;
    }
    std::str::from_utf8(word).ok()?.parse().ok()
}

fn path_ok(path: &[u8]) -> bool {
    (1..=PATH_MOST).contains(&path.len()) && !path.contains(&0)
}

fn cannot(what: &str, path: &[u8]) -> Vec<u8> {
    [b"cannot ", what.as_bytes(), b" ", path, b"\n"].concat()
}
