//! Measures a program against this library's `plan` on the same files:
//! `measure --proved PATH --reference PATH --files DIR`.
//!
//! DIR holds what `slowest` and `generate series` write. Instructions are
//! counted by valgrind's callgrind. Times are taken in turn and given as a
//! ratio only. Both programs must print the same listing for every file.

use reference::options::Given;
use reference::tables::Tables;
use reference::{file, phases};
use std::fs::{self, File};
use std::path::{Path, PathBuf};
use std::process::{Command, ExitCode, Stdio};
use std::time::Instant;

/// How many rounds are timed. In each both programs run, one right after the
/// other, so that both find the machine equally busy.
const ROUNDS: usize = 51;

fn main() -> ExitCode {
    let arguments: Vec<String> = std::env::args().skip(1).collect();
    match run(&arguments) {
        Ok(()) => ExitCode::SUCCESS,
        Err(message) => {
            eprintln!("measure: {message}");
            ExitCode::FAILURE
        }
    }
}

fn run(arguments: &[String]) -> Result<(), String> {
    let given = Given::read(arguments, &["proved", "reference", "files"])?;
    let programs = Programs {
        proved: PathBuf::from(given.needed("proved")?),
        reference: PathBuf::from(given.needed("reference")?),
        files: PathBuf::from(given.needed("files")?),
    };
    let empty = programs.count(Path::new("/dev/null"))?;
    let worst = districts(&programs, empty)?;
    println!();
    series(&programs)?;
    println!();
    println!("ratio {worst:.2}");
    Ok(())
}

/// The widest and the slowest districts, one line each; gives the worst ratio.
fn districts(programs: &Programs, empty: Counts) -> Result<f64, String> {
    println!("instructions in millions; tried: options and pairs that phase 3 went past; net: less an empty run;");
    println!("time: as a ratio, the median of {ROUNDS} rounds in which each runs once");
    println!("{:<12}{:>8}{:>10}{HEADS}{:>8}{:>8}", "district", "changes", "tried", "net", "time");
    let mut worst: f64 = 0.0;
    for name in [programs.named("widest-", 10)?, programs.named("slowest-", 10)?].concat() {
        let file = programs.file(&name);
        let searched = Searched::of(&file)?;
        let counts = programs.count(&file)?;
        let net = counts.without(empty).ratio();
        let time = programs.time_ratio(&file)?;
        println!("{name:<12}{:>8}{:>10}{}{net:>8.2}{time:>8.2}", searched.changes, searched.tried, counts.columns());
        worst = worst.max(counts.ratio());
    }
    println!("{:<30}{}", "empty run", empty.columns());
    Ok(worst)
}

/// One district cut down in N, in S and in R, one line for each size.
fn series(programs: &Programs) -> Result<(), String> {
    println!("one district cut down in one count, instructions in millions");
    println!("{:<12}{:>8}{:>10}{HEADS}", "count", "changes", "tried");
    for letter in ["n", "s", "r"] {
        for name in programs.named(letter, 5)? {
            let file = programs.file(&name);
            let searched = Searched::of(&file)?;
            let count = format!("{} = {}", letter.to_uppercase(), name[1..].trim_start_matches('0'));
            let counts = programs.count(&file)?;
            println!("{count:<12}{:>8}{:>10}{}", searched.changes, searched.tried, counts.columns());
        }
    }
    Ok(())
}

/// What phase 3 does on a file's district.
struct Searched {
    changes: u64,
    tried: u64,
}

impl Searched {
    fn of(path: &Path) -> Result<Searched, String> {
        let bytes = fs::read(path).map_err(|error| told(path, error))?;
        let district = file::decode(&bytes).map_err(|_| told(path, "the file is refused"))?;
        let outcome = phases::run(&Tables::fill(&district));
        Ok(Searched { changes: outcome.changes, tried: outcome.tried })
    }
}

const HEADS: &str = "    proved reference   ratio";

/// Instructions of both programs on one file.
#[derive(Clone, Copy)]
struct Counts {
    proved: u64,
    reference: u64,
}

impl Counts {
    fn ratio(self) -> f64 {
        self.proved as f64 / self.reference as f64
    }

    fn without(self, empty: Counts) -> Counts {
        Counts { proved: self.proved - empty.proved, reference: self.reference - empty.reference }
    }

    fn columns(self) -> String {
        let millions = |count: u64| count as f64 / 1e6;
        format!("{:>10.2}{:>10.2}{:>8.2}", millions(self.proved), millions(self.reference), self.ratio())
    }
}

struct Programs {
    proved: PathBuf,
    reference: PathBuf,
    files: PathBuf,
}

impl Programs {
    /// The names of the files that are this and a number, in order.
    fn named(&self, start: &str, count: usize) -> Result<Vec<String>, String> {
        let entries = fs::read_dir(&self.files).map_err(|error| told(&self.files, error))?;
        let numbered =
            |name: &String| name.strip_prefix(start).is_some_and(|rest| rest.bytes().all(|byte| byte.is_ascii_digit()));
        let mut names: Vec<String> = entries
            .flatten()
            .filter_map(|entry| Some(entry.file_name().to_str()?.strip_suffix(".bin")?.to_string()))
            .filter(numbered)
            .collect();
        names.sort();
        if names.len() != count {
            return Err(told(&self.files, format!("{} files {start}*.bin, not {count}", names.len())));
        }
        Ok(names)
    }

    fn file(&self, name: &str) -> PathBuf {
        self.files.join(name).with_extension("bin")
    }

    /// Counts both programs' instructions. A difference in what they print
    /// is a failure: speed is compared for the same answers only.
    fn count(&self, file: &Path) -> Result<Counts, String> {
        let (proved, listing) = self.counted(&self.proved, file)?;
        let (reference, expected) = self.counted(&self.reference, file)?;
        if listing != expected {
            return Err(told(file, "THE LISTINGS DIFFER"));
        }
        Ok(Counts { proved, reference })
    }

    /// How many instructions a program takes for a file, and what it prints.
    fn counted(&self, program: &Path, file: &Path) -> Result<(u64, Vec<u8>), String> {
        let path = self.files.join("callgrind.out");
        let output = Command::new("valgrind")
            .args(["-q", "--tool=callgrind"])
            .arg(format!("--callgrind-out-file={}", path.display()))
            .arg(program)
            .stdin(opened(file)?)
            .output()
            .map_err(|error| format!("valgrind: {error}"))?;
        if !output.status.success() {
            return Err(told(program, String::from_utf8_lossy(&output.stderr)));
        }
        let profile = fs::read_to_string(&path).map_err(|error| told(&path, error))?;
        let total = profile.lines().find_map(|line| line.strip_prefix("totals: ")?.trim().parse().ok());
        Ok((total.ok_or_else(|| told(&path, "no total in it"))?, output.stdout))
    }

    /// The proved program's time over the reference's: the median of all rounds.
    fn time_ratio(&self, file: &Path) -> Result<f64, String> {
        let mut ratios = Vec::with_capacity(ROUNDS);
        for _ in 0..ROUNDS {
            ratios.push(timed(&self.proved, file)? / timed(&self.reference, file)?);
        }
        ratios.sort_by(f64::total_cmp);
        Ok(ratios[ROUNDS / 2])
    }
}

/// One run from its start to its end, in seconds.
fn timed(program: &Path, file: &Path) -> Result<f64, String> {
    let mut command = Command::new(program);
    command.stdin(opened(file)?).stdout(Stdio::null());
    let start = Instant::now();
    let status = command.status().map_err(|error| told(program, error))?;
    let taken = start.elapsed().as_secs_f64();
    if status.success() {
        Ok(taken)
    } else {
        Err(told(program, status))
    }
}

fn opened(path: &Path) -> Result<File, String> {
    File::open(path).map_err(|error| told(path, error))
}

fn told(path: &Path, what: impl std::fmt::Display) -> String {
    format!("{}: {what}", path.display())
}
