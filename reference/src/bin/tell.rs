//! Finds a small district for which a wrong reading of the rules comes to
//! something else than this library, and makes it as simple as it can.
//!
//! `--wrong` is the program `vectors` of a copy with that reading; `scripts/tell`
//! builds it. What is printed goes into the group `readings` of `src/vectors.rs`.

use reference::calls::{self, Call};
use reference::district::District;
use reference::options::Given;
use reference::random::Random;
use reference::vectors::{led, small};
use reference::{file, frames};
use std::io::Write;
use std::process::{Command, ExitCode, Stdio};

const USAGE: &str = "usage: tell --wrong PATH [--count N] [--seed S] [--segments N]\n";

/// What `small` makes a district of: limits; strategies with requirements, a
/// gain and a percent; segments with a length, a width and bars. Then leaders.
#[derive(Clone)]
struct Sketch {
    limits: Vec<u32>,
    strategies: Vec<(Vec<u32>, i8, u8)>,
    segments: Vec<(u16, u8, u16)>,
    leaders: Vec<u8>,
}

fn main() -> ExitCode {
    let arguments: Vec<String> = std::env::args().skip(1).collect();
    match run(&arguments) {
        Ok(()) => ExitCode::SUCCESS,
        Err(message) => {
            eprint!("tell: {message}\n{USAGE}");
            ExitCode::FAILURE
        }
    }
}

fn run(arguments: &[String]) -> Result<(), String> {
    let given = Given::read(arguments, &["wrong", "count", "seed", "segments"])?;
    let (wrong, most) = (given.needed("wrong")?, given.number("segments", 4)? as usize);
    let mut random = Random::new(given.number("seed", 1)?);
    let mut best: Option<Sketch> = None;
    for _ in 0..given.number("count", 100_000)?.div_ceil(5_000) {
        let sketches: Vec<Sketch> = (0..5_000).map(|_| sketch(&mut random, most)).collect();
        for found in differing(wrong, &sketches)? {
            if best.as_ref().is_none_or(|best| weight(&found) < weight(best)) {
                best = Some(found);
            }
        }
    }
    let mut best = best.ok_or("none found")?;
    // The simplest that still differs, until nothing simpler does.
    while let Some(simpler) = differing(wrong, &simpler(&best))?.into_iter().next() {
        best = simpler;
    }
    println!("small(&{:?}, &{:?}, &{:?})", best.limits, best.strategies, best.segments);
    println!("leaders {:?}", best.leaders);
    print!("{}", calls::worked(&list(&best)));
    Ok(())
}

fn weight(sketch: &Sketch) -> (usize, usize, usize) {
    (sketch.segments.len(), sketch.strategies.len(), sketch.limits.len())
}

/// Those of them, in their order, that the other program answers otherwise.
fn differing(wrong: &str, sketches: &[Sketch]) -> Result<Vec<Sketch>, String> {
    let error = |error: std::io::Error| error.to_string();
    let mut input = Vec::new();
    sketches.iter().for_each(|sketch| frames::put(&mut input, &list(sketch)));
    let mut child = Command::new(wrong).stdin(Stdio::piped()).stdout(Stdio::piped()).spawn().map_err(error)?;
    let mut stdin = child.stdin.take().ok_or("no standard input")?;
    let writer = std::thread::spawn(move || stdin.write_all(&input));
    let output = child.wait_with_output().map_err(error)?;
    let _ = writer.join();
    let mut rest = &output.stdout[..];
    let mut found = Vec::new();
    for sketch in sketches {
        let answer = calls::worked(&list(sketch));
        // Answers end with the line of counts, or are a refusal.
        let mut length = 0;
        for line in rest.split_inclusive(|&byte| byte == b'\n') {
            length += line.len();
            if line.starts_with(b"steps") || line.starts_with(b"refused") {
                break;
            }
        }
        let (other, behind) = rest.split_at(length);
        if other != answer.as_bytes() {
            found.push(sketch.clone());
        }
        rest = behind;
    }
    Ok(found)
}

fn district(sketch: &Sketch) -> District {
    let strategies: Vec<(&[u32], i8, u8)> =
        sketch.strategies.iter().map(|(requirements, gain, percent)| (&requirements[..], *gain, *percent)).collect();
    led(small(&sketch.limits, &strategies, &sketch.segments), &sketch.leaders)
}

fn list(sketch: &Sketch) -> Vec<u8> {
    calls::encode(&[Call::Load(file::encode(&district(sketch)))])
}

fn sketch(random: &mut Random, most: usize) -> Sketch {
    let (segments, strategies) = (random.size(1, most), random.size(1, 3));
    let resources = random.size(1, 3);
    let scale = *random.pick(&[10, 1_000, 60_000]);
    let manner = random.below(4);
    let gain = *random.pick(&[3, 20, 50]);
    let mut made = Sketch {
        limits: vec![0; resources],
        strategies: (0..strategies)
            .map(|_| {
                let requirement = |random: &mut Random| match manner {
                    0 => 1_000 * random.below(5) as u32,
                    _ => random.within(0, scale) as u32,
                };
                let requirements = (0..resources).map(|_| requirement(random)).collect();
                let percent = if manner < 2 { 100 } else { random.within(60, 100) as u8 };
                (requirements, random.within(1, gain) as i8, percent)
            })
            .collect(),
        segments: (0..segments)
            .map(|_| match manner {
                0 => (100 * random.within(1, 4) as u16, 10, 0),
                1 => (random.within(1, 9) as u16, 1, 0),
                _ => (random.within(1, 400) as u16, random.within(1, 20) as u8, random.below(1 << strategies) as u16),
            })
            .collect(),
        leaders: vec![0; segments],
    };
    if random.chance(50) {
        made.leaders = (1..=segments as u64).map(|own| random.below(own) as u8).collect();
    }
    // Limits at which some of it fits and some does not.
    for (r, limit) in made.limits.iter_mut().enumerate() {
        let area: u64 = made.segments.iter().map(|segment| u64::from(segment.0) * u64::from(segment.1)).sum();
        let dearest = made.strategies.iter().map(|strategy| u64::from(strategy.0[r])).max().unwrap_or(0);
        *limit = match manner {
            // Shares that are round, and sums of them that are just 10,000.
            0 => 10 * random.within(1, 12) as u32,
            _ => (area * dearest * random.within(20, 110) / 10_000_000 + random.below(2)).min(999_999_999) as u32,
        };
    }
    made
}

/// The sketch with one thing left out or a number lowered, the most drastic first.
fn simpler(from: &Sketch) -> Vec<Sketch> {
    let mut all = Vec::new();
    let mut add = |change: &dyn Fn(&mut Sketch)| {
        let mut made = from.clone();
        change(&mut made);
        all.push(made);
    };
    for i in 0..from.segments.len() {
        add(&|made| {
            made.segments.remove(i);
            // Who followed it follows nobody; numbers behind it are one less.
            made.leaders.remove(i);
            let own = i as u8 + 1;
            for leader in made.leaders.iter_mut().filter(|leader| **leader >= own) {
                *leader = if *leader == own { 0 } else { *leader - 1 };
            }
        });
    }
    for i in (0..from.segments.len()).filter(|&i| from.leaders[i] > 0) {
        add(&|made| made.leaders[i] = 0);
    }
    for j in (0..from.strategies.len()).filter(|_| from.strategies.len() > 1) {
        add(&|made| {
            made.strategies.remove(j);
            let below = (1 << j) - 1;
            made.segments.iter_mut().for_each(|one| one.2 = one.2 & below | one.2 >> 1 & !below);
        });
    }
    for r in (0..from.limits.len()).filter(|_| from.limits.len() > 1) {
        add(&|made| {
            made.limits.remove(r);
            for strategy in &mut made.strategies {
                strategy.0.remove(r);
            }
        });
    }
    for i in 0..from.segments.len() {
        let (length, width, bars) = from.segments[i];
        if bars != 0 {
            add(&|made| made.segments[i].2 = 0);
        }
        for lower in lower(u32::from(width), 1) {
            add(&|made| made.segments[i].1 = lower as u8);
        }
        for lower in lower(u32::from(length), 1) {
            add(&|made| made.segments[i].0 = lower as u16);
        }
    }
    for j in 0..from.strategies.len() {
        if from.strategies[j].2 != 100 {
            add(&|made| made.strategies[j].2 = 100);
        }
        for lower in lower(from.strategies[j].1 as u32, 1) {
            add(&|made| made.strategies[j].1 = lower as i8);
        }
        for r in 0..from.limits.len() {
            for lower in lower(from.strategies[j].0[r], 0) {
                add(&|made| made.strategies[j].0[r] = lower);
            }
        }
    }
    for r in 0..from.limits.len() {
        for lower in lower(from.limits[r], 0) {
            add(&|made| made.limits[r] = lower);
        }
    }
    all
}

/// Lower numbers: the least, rounded ones, half, and one less.
fn lower(number: u32, least: u32) -> Vec<u32> {
    let mut all = vec![least];
    all.extend([10_000, 1_000, 100, 10].map(|unit| number / unit * unit));
    all.extend([number / 2, number.saturating_sub(1)]);
    all.retain(|&one| one >= least && one < number);
    all
}
