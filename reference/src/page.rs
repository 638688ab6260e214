//! The page for the office wall: lines of 80 characters, each with a line feed.
//!
//! A heading, a line for each segment, a line with the total and what is used
//! in all, a line of limits. A use is shown in whole units, rounded up; what is
//! used in all is added up exactly and rounded up once.

use crate::district::*;
use crate::rating;
use crate::unit::Plan;

/// The columns from the left, each with its heading and its width.
const COLUMNS: [(&str, usize); 9] =
    [("NO", 2), ("MILES", 5), ("FT", 3), ("ST", 2), ("BENEFIT", 14), ("R1", 9), ("R2", 9), ("R3", 9), ("R4", 9)];

/// What stands between two columns, and behind the last.
const BETWEEN: &str = " ";
const BEHIND: &str = "          ";

/// Columns of resources.
const RESOURCES: usize = 4;

/// A whole unit of a resource, as uses are counted.
const UNIT: u64 = 100_000;

pub const LINE: usize = 81;

/// No page is longer.
pub const LONGEST: usize = (MOST_SEGMENTS + 3) * LINE;

/// What a line has in its columns, from the left; an empty text leaves its
/// column blank.
type Row = Vec<String>;

pub fn page(district: &District, plan: &Plan) -> String {
    let mut rows = vec![heading()];
    rows.extend((0..district.segments.len()).map(|i| segment(district, plan, i)));
    rows.push(totals(district, plan));
    rows.push(limits(district));
    rows.iter().map(line).collect()
}

/// What the program `page` prints for a file.
pub fn answer(file: &[u8]) -> String {
    match crate::file::decode(file) {
        Ok(district) => page(&district, &crate::unit::plan(&district)),
        Err(refusal) => format!("refused {}\n", refusal.number()),
    }
}

/// Every column's heading, also where the district has fewer resources.
fn heading() -> Row {
    COLUMNS.iter().map(|(heading, _)| heading.to_string()).collect()
}

fn segment(district: &District, plan: &Plan, i: usize) -> Row {
    let segment = &district.segments[i];
    let (number, strategy) = (i + 1, plan.strategies[i]);
    let benefit = taken(district, plan, i).map_or(0, |taken| rating::benefit(district, segment, taken));
    let uses = resources(district, |r| whole(used(district, plan, i, r)));
    let (number, strategy, benefit) = (number.to_string(), strategy.to_string(), benefit.to_string());
    [vec![number, miles(segment.length), segment.width.to_string(), strategy, benefit], uses].concat()
}

fn totals(district: &District, plan: &Plan) -> Row {
    let in_all = |r: usize| -> u64 { (0..district.segments.len()).map(|i| used(district, plan, i, r)).sum() };
    let uses = resources(district, |r| whole(in_all(r)));
    [blank(4), vec![plan.total.to_string()], uses].concat()
}

fn limits(district: &District) -> Row {
    let limits = resources(district, |r| district.limits[r].to_string());
    [blank(5), limits].concat()
}

fn blank(columns: usize) -> Row {
    vec![String::new(); columns]
}

/// A text for each resource that has a column, blank where there is no such resource.
fn resources(district: &District, text: impl Fn(usize) -> String) -> Row {
    (0..RESOURCES).map(|r| if r < district.limits.len() { text(r) } else { String::new() }).collect()
}

/// The strategy that a segment gets, if it gets one.
fn taken<'a>(district: &'a District, plan: &Plan, i: usize) -> Option<&'a Strategy> {
    let number = usize::from(plan.strategies[i]);
    number.checked_sub(1).map(|j| &district.strategies[j])
}

/// What a segment uses of a resource, exactly; nothing uses nothing.
fn used(district: &District, plan: &Plan, i: usize, r: usize) -> u64 {
    taken(district, plan, i).map_or(0, |strategy| rating::usage(&district.segments[i], strategy, r))
}

/// Whole units, rounded up.
fn whole(exact: u64) -> String {
    exact.div_ceil(UNIT).to_string()
}

/// Hundredths of a mile as miles.
fn miles(length: u16) -> String {
    format!("{}.{:02}", length / 100, length % 100)
}

fn line(row: &Row) -> String {
    let fields: Vec<String> = row.iter().zip(COLUMNS).map(|(text, (_, width))| field(text, width)).collect();
    format!("{}{BEHIND}\n", fields.join(BETWEEN))
}

/// Right-aligned. A text that is too wide, which no district in its ranges has,
/// is shown as asterisks.
fn field(text: &str, width: usize) -> String {
    if text.len() > width {
        return "*".repeat(width);
    }
    format!("{text:>width$}")
}
