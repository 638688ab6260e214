//! Finds the widest and the slowest districts: `slowest --seed S --out DIR`.
//!
//! Slow is what phase 3 makes slow, so districts are ranked by how many
//! options it went past. That is counted, not timed: a seed gives the same
//! files on every machine. The widest have the most candidates, all counts
//! being the greatest.

use reference::district::{District, LIMIT_MOST};
use reference::make::{self, WIDEST};
use reference::options::Given;
use reference::random::Random;
use reference::tables::Tables;
use reference::{file, phases};
use std::cmp::Reverse;
use std::fs;
use std::path::Path;
use std::process::ExitCode;

const KEPT: usize = 10;

struct Found {
    district: District,
    candidates: usize,
    tried: u64,
    changes: u64,
}

impl Found {
    fn of(district: District) -> Found {
        let tables = Tables::fill(&district);
        let outcome = phases::run(&tables);
        let candidates = tables.segments.iter().map(|segment| segment.count() - 1).sum();
        Found { district, candidates, tried: outcome.tried, changes: outcome.changes }
    }
}

fn main() -> ExitCode {
    let arguments: Vec<String> = std::env::args().skip(1).collect();
    match run(&arguments) {
        Ok(()) => ExitCode::SUCCESS,
        Err(message) => {
            eprintln!("slowest: {message}\nusage: slowest --seed S --out DIR [--count N]");
            ExitCode::FAILURE
        }
    }
}

fn run(arguments: &[String]) -> Result<(), String> {
    let given = Given::read(arguments, &["seed", "out", "count"])?;
    let (seed, count) = (given.number("seed", 1)?, given.number("count", 400)?);
    let out = Path::new(given.needed("out")?);
    let mut random = Random::new(seed);

    let mut found: Vec<Found> = (0..count)
        .map(|case| {
            let district = match case % 4 {
                0 => make::district(&mut random, WIDEST),
                _ => make::busy_district(&mut random, WIDEST),
            };
            Found::of(district)
        })
        .collect();

    found.sort_by_key(|f| Reverse(f.tried));
    let mut wide = found.split_off(KEPT.min(found.len()));
    let mut slow = found;
    // Other limits or lengths on the slowest so far: kept where slower still.
    for _ in 0..2 * count {
        let mut district = random.pick(&slow).district.clone();
        if random.chance(50) {
            for limit in &mut district.limits {
                *limit = (u64::from(*limit) * random.within(90, 110) / 100).min(LIMIT_MOST.into()) as u32;
            }
        } else {
            for segment in &mut district.segments {
                segment.length = random.within(u64::from(segment.length) * 9 / 10, segment.length.into()).max(1) as u16;
            }
        }
        slow.push(Found::of(district));
        slow.sort_by_key(|f| Reverse(f.tried));
        // Equal counts are most likely the same plan twice.
        slow.dedup_by_key(|f| f.tried);
        slow.truncate(KEPT);
    }

    wide.sort_by_key(|f| (Reverse(f.candidates), Reverse(f.tried)));
    wide.truncate(KEPT);
    write(&wide, "widest", out)?;
    write(&slow, "slowest", out)
}

fn write(found: &[Found], name: &str, out: &Path) -> Result<(), String> {
    fs::create_dir_all(out).map_err(|error| error.to_string())?;
    for (at, f) in found.iter().enumerate() {
        let bytes = file::encode(&f.district);
        let path = out.join(format!("{name}-{at}.bin"));
        fs::write(&path, &bytes).map_err(|error| error.to_string())?;
        println!(
            "{name}-{at}.bin: {} bytes, {} candidates, {} changes, {} options tried",
            bytes.len(),
            f.candidates,
            f.changes,
            f.tried
        );
    }
    Ok(())
}
