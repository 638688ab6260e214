//! The text that `plan` prints and `show` answers.

use crate::unit::Plan;
use std::fmt::Write;

/// One line for each of the first `segments` places, then the results.
pub fn listing(plan: &Plan, segments: usize) -> String {
    let mut text = String::new();
    for (i, strategy) in plan.strategies[..segments].iter().enumerate() {
        // Writing to a String can't fail.
        let _ = writeln!(text, "{} {}", i + 1, strategy);
    }
    let _ = writeln!(text, "benefit {}", plan.total);
    let _ = writeln!(text, "ceiling {}", plan.ceiling);
    let _ = writeln!(text, "steps {} {} {}", plan.steps, plan.pickups, plan.changes);
    text
}

/// What `plan` prints for a file.
pub fn answer(file: &[u8]) -> String {
    match crate::file::decode(file) {
        Ok(district) => listing(&crate::unit::plan(&district), district.segments.len()),
        Err(refusal) => format!("refused {}\n", refusal.number()),
    }
}
