//! Writes districts, damaged files, frames and panel scripts from a seed.

use reference::district::District;
use reference::make::{self, Shape};
use reference::options::Given;
use reference::random::Random;
use reference::{counties, example, file, frames, leaders, offices, reasons, vectors};
use std::fs;
use std::io::{self, BufWriter, Write};
use std::path::Path;
use std::process::ExitCode;

const USAGE: &str = "usage:
  generate files   --count N --seed S --out DIR   files of every kind, sound and damaged
  generate frames  --count N --seed S             frames for codec, to standard output
  generate scripts --count N --seed S --out DIR   panel scripts, each in a folder with its files
  generate series  --seed S --out DIR             districts that grow in N, in S and in R
  generate example                                the report's example problem, to standard output
  generate deck                                   the same as a deck of cards, to standard output
  generate blocks  --out DIR                      the files that are stored for blocks, for the console
  generate leaders --out DIR                      the files with leaders that are stored, for the console
  generate offices --out DIR                      the files of two offices that are stored, for the console
  generate reasons --out DIR                      the districts whose reasons are stored, for the console
  generate vectors                                the stored lists of calls as frames, to standard output
  generate walls   --out DIR                      the districts whose pages are stored, for the console
";

fn main() -> ExitCode {
    let arguments: Vec<String> = std::env::args().skip(1).collect();
    match run(&arguments) {
        Ok(()) => ExitCode::SUCCESS,
        Err(message) => {
            eprint!("generate: {message}\n{USAGE}");
            ExitCode::FAILURE
        }
    }
}

fn run(arguments: &[String]) -> Result<(), String> {
    let (what, rest) = arguments.split_first().ok_or("what shall it write?")?;
    let given = Given::read(rest, &["count", "seed", "out"])?;
    let (count, seed) = (given.number("count", 100)?, given.number("seed", 1)?);
    match what.as_str() {
        "files" => files(count, seed, Path::new(given.needed("out")?)),
        "frames" => frames(count, seed),
        "scripts" => scripts(count, seed, Path::new(given.needed("out")?)),
        "series" => series(seed, Path::new(given.needed("out")?)),
        "example" => io::stdout().write_all(&file::encode(&example::district())),
        "deck" => io::stdout().write_all(&example::deck()),
        "walls" => named(encoded(vectors::walls()), Path::new(given.needed("out")?)),
        "reasons" => named(encoded(reasons::districts()), Path::new(given.needed("out")?)),
        "leaders" => named(leaders::files(), Path::new(given.needed("out")?)),
        "offices" => named(offices::files(), Path::new(given.needed("out")?)),
        "blocks" => named(counties::files(), Path::new(given.needed("out")?)),
        "vectors" => io::stdout().write_all(&vectors::frames()),
        _ => return Err(format!("unknown argument {what}")),
    }
    .map_err(|error| error.to_string())
}

fn files(count: u64, seed: u64, out: &Path) -> io::Result<()> {
    fs::create_dir_all(out)?;
    for case in 0..count {
        let bytes = make::any_file(&mut Random::for_case(seed, case));
        fs::write(out.join(format!("{case:06}.bin")), bytes)?;
    }
    Ok(())
}

fn frames(count: u64, seed: u64) -> io::Result<()> {
    let mut output = BufWriter::new(io::stdout().lock());
    for case in 0..count {
        let mut frame = Vec::new();
        frames::put(&mut frame, &make::any_frame(&mut Random::for_case(seed, case)));
        output.write_all(&frame)?;
    }
    output.flush()
}

fn scripts(count: u64, seed: u64, out: &Path) -> io::Result<()> {
    for case in 0..count {
        let script = make::script(&mut Random::for_case(seed, case));
        let folder = out.join(format!("{case:06}"));
        script.write(&folder)?;
        fs::write(folder.join("script.txt"), &script.text)?;
    }
    Ok(())
}

/// Files under names of their own.
fn named(files: impl IntoIterator<Item = (&'static str, Vec<u8>)>, out: &Path) -> io::Result<()> {
    fs::create_dir_all(out)?;
    for (name, bytes) in files {
        fs::write(out.join(name), bytes)?;
    }
    Ok(())
}

/// Districts as files, with their names.
fn encoded(districts: impl IntoIterator<Item = (&'static str, District)>) -> Vec<(&'static str, Vec<u8>)> {
    districts.into_iter().map(|(name, district)| (name, file::encode(&district))).collect()
}

/// One busy district of the widest shape, cut down in one count at a time:
/// what is left stays the same, so that cost can be read against the count.
fn series(seed: u64, out: &Path) -> io::Result<()> {
    fs::create_dir_all(out)?;
    let whole = make::busy_district(&mut Random::new(seed), make::WIDEST);
    for n in [8, 16, 32, 48, 64] {
        write_cut(&whole, Shape { segments: n, ..make::WIDEST }, &out.join(format!("n{n:02}.bin")))?;
    }
    for s in [1, 3, 5, 8, 11] {
        write_cut(&whole, Shape { strategies: s, ..make::WIDEST }, &out.join(format!("s{s:02}.bin")))?;
    }
    for r in [1, 4, 8, 12, 16] {
        write_cut(&whole, Shape { resources: r, ..make::WIDEST }, &out.join(format!("r{r:02}.bin")))?;
    }
    Ok(())
}

fn write_cut(whole: &District, shape: Shape, path: &Path) -> io::Result<()> {
    fs::write(path, file::encode(&make::cut(whole, shape)))
}
