//! The page for the office wall: pages worked out by hand, the call, and the
//! page once more, written as one format.

mod common;

use common::{card, card_bytes, CARD_PAGE};
use reference::district::*;
use reference::file::encode;
use reference::page::{self, LINE, LONGEST};
use reference::random::Random;
use reference::refusal::Refusal;
use reference::unit::{plan, Plan, Unit};
use reference::{make, vectors};

const HEADING: &str = "NO MILES  FT ST        BENEFIT        R1        R2        R3        R4          \n";

fn page_of(district: &District) -> String {
    page::page(district, &plan(district))
}

fn wall(name: &str) -> District {
    vectors::walls().into_iter().find(|wall| wall.0 == name).unwrap().1
}

/// The page of a district is the heading and these lines.
fn check(district: &District, lines: &[&str]) {
    let lines: String = lines.iter().map(|line| format!("{line}\n")).collect();
    assert_eq!(page_of(district), format!("{HEADING}{lines}"));
}

#[test]
fn the_card() {
    // Areas 2,000 and 4,000; effects 15 x 175 and 5 x 150; uses 2,000 x 3 and 4,000 x 1 hundredths.
    assert_eq!(page_of(&card()), CARD_PAGE);
    assert_eq!(page::answer(&card_bytes()), CARD_PAGE);
    assert_eq!(page::answer(&card_bytes()[..86]), "refused 1\n");
}

#[test]
fn five_resources() {
    // An area of 2,000, and uses of 20 to 100 units, the last of which has no column.
    check(
        &wall("five"),
        &[
            " 1  2.50   8  1        2000000        20        40        60        80          ",
            "                       2000000        20        40        60        80          ",
            "                                     100       200       300       400          ",
        ],
    );
}

#[test]
fn no_segment() {
    check(
        &wall("none"),
        &[
            "                             0         0         0                              ",
            "                                       7 999999999                              ",
        ],
    );
    let blank = " ".repeat(40);
    check(&District::fresh(), &[&format!("{:>30}{:>10}{blank}", 0, 0), &format!("{:>30}{:>10}{blank}", "", 0)]);
}

#[test]
fn sums_are_rounded_up_once() {
    // Uses of 0.5, 0.4, 0.1 and 1 unit, twice.
    check(
        &wall("rounds"),
        &[
            " 1  0.10  10  1          10000         1         1         1         1          ",
            " 2  0.10  10  1          10000         1         1         1         1          ",
            "                         20000         1         1         1         2          ",
            "                                       1         1         1         2          ",
        ],
    );
}

#[test]
fn nothing_is_shown_as_zeros() {
    check(
        &wall("nothing"),
        &[
            " 1  1.00  20  1        1400000        20        40                              ",
            " 2  1.00  20  0              0         0         0                              ",
            " 3  4.00  20  0              0         0         0                              ",
            "                       1400000        20        40                              ",
            "                                      50        60                              ",
        ],
    );
}

#[test]
fn lengths_and_widths() {
    // Areas 1, 891, 10,395, 100,000 and 1,999,800; a benefit is 300 times the area.
    check(
        &wall("miles"),
        &[
            " 1  0.01   1  1            300         1         1         1                    ",
            " 2  0.99   9  1         267300         1         1         1                    ",
            " 3  1.05  99  1        3118500         1         2         1                    ",
            " 4 10.00 100  1       30000000         1        10         7                    ",
            " 5 99.99 200  1      599940000        20       200       140                    ",
            "                     633326100        22       212       148                    ",
            "                               999999999       212       148                    ",
        ],
    );
}

#[test]
fn the_longest_page_fills_its_columns() {
    let page = page_of(&wall("longest"));
    assert_eq!((page.len(), LONGEST), (5_427, 5_427));
    // 62 of 64 segments get 899,910,000,000 for 15,998,400 units each.
    let lines: Vec<&str> = page.lines().collect();
    assert_eq!(lines[1], format!(" 1 99.99 200  0{:>15}{:>10}{:40}", 0, 0, ""));
    assert_eq!(lines[64], format!("64 99.99 200  1   899910000000  15998400{:40}", ""));
    assert_eq!(lines[65], format!("{:16}55794420000000 991900800{:40}", "", ""));
    assert_eq!(lines[66], format!("{:31}999999999{:40}", "", ""));
}

#[test]
fn what_is_too_wide_is_asterisks() {
    // No file and no call leads to such a district.
    let mut district = wall("five");
    (district.segments[0].length, district.limits[1]) = (10_000, 1_000_000_000);
    let shown = Plan { total: 100_000_000_000_000, ..plan(&district) };
    let page = page::page(&district, &shown);
    let lines: Vec<&str> = page.lines().collect();
    assert!(lines[1].starts_with(" 1 *****   8 "));
    assert_eq!(lines[2][..31], format!("{:16}************** ", ""));
    assert_eq!(lines[3], format!("{:37}100 *********       300       400{:10}", "", ""));
}

#[test]
fn the_call_writes_the_page_and_no_more() {
    let mut unit = Unit::fresh();
    unit.load(&card_bytes()).unwrap();
    let before = unit.clone();
    for room in [0, 1, 81, 404] {
        let mut buffer = vec![7; room];
        assert_eq!(unit.page(&mut buffer), Err(Refusal::Page));
        assert_eq!(buffer, vec![7; room]);
    }
    for room in [405, 406, LONGEST, LONGEST + 100] {
        let mut buffer = vec![7; room];
        assert_eq!(unit.page(&mut buffer), Ok(405));
        assert_eq!(buffer[..405], *CARD_PAGE.as_bytes());
        assert!(buffer[405..].iter().all(|&byte| byte == 7));
    }
    assert_eq!(unit, before);
    assert_eq!(Refusal::Page.number(), 11);
}

#[test]
fn the_page_follows_the_calls() {
    let mut unit = Unit::fresh();
    unit.load(&card_bytes()).unwrap();
    unit.bar(1, 2).unwrap();
    unit.set_limit(1, 39).unwrap();
    let mut buffer = [0; LONGEST];
    let length = unit.page(&mut buffer).unwrap();
    // Strategy 1 on segment 1: area 2,000, effect 5 x 150, and 20 units; segment 2 would need 40.
    let expected = [
        HEADING,
        " 1  1.00  20  1        1500000        20                                        \n",
        " 2  2.00  20  0              0         0                                        \n",
        "                       1500000        20                                        \n",
        "                                      39                                        \n",
    ];
    assert_eq!(String::from_utf8_lossy(&buffer[..length]), expected.concat());
}

/// The page in 128 bits and without a table of columns.
fn literal(district: &District, plan: &Plan) -> String {
    let up = |exact: i128| if exact % 100_000 == 0 { exact / 100_000 } else { exact / 100_000 + 1 };
    let four = |number: &dyn Fn(usize) -> i128| {
        [0, 1, 2, 3].map(|r| if district.limits.len() > r { number(r).to_string() } else { String::new() })
    };
    let exact = |i: usize, r: usize| match plan.strategies[i] {
        0 => 0,
        j => {
            let area = i128::from(district.segments[i].length) * i128::from(district.segments[i].width);
            area * i128::from(district.strategies[usize::from(j) - 1].requirements[r])
        }
    };
    let mut text = HEADING.to_string();
    let mut total = 0;
    for (i, segment) in district.segments.iter().enumerate() {
        let j = plan.strategies[i];
        let benefit = match j {
            0 => 0,
            _ => reference::rating::benefit(district, segment, &district.strategies[usize::from(j) - 1]),
        };
        total += benefit;
        let [a, b, c, d] = four(&|r| up(exact(i, r)));
        text += &format!(
            "{:2} {:2}.{}{} {:3} {j:2} {benefit:14} {a:>9} {b:>9} {c:>9} {d:>9}          \n",
            i + 1,
            segment.length / 100,
            segment.length / 10 % 10,
            segment.length % 10,
            segment.width,
        );
    }
    let [a, b, c, d] = four(&|r| up((0..district.segments.len()).map(|i| exact(i, r)).sum()));
    text += &format!("{total:30} {a:>9} {b:>9} {c:>9} {d:>9}          \n");
    let [a, b, c, d] = four(&|r| i128::from(district.limits[r]));
    text += &format!("{:30} {a:>9} {b:>9} {c:>9} {d:>9}          \n", "");
    text
}

#[test]
fn made_districts() {
    let mut random = Random::new(31);
    let mut seen = [0; 17];
    for _ in 0..600 {
        let district = make::page_district(&mut random);
        seen[district.limits.len()] += 1;
        let shown = plan(&district);
        let page = page::page(&district, &shown);
        assert_eq!(page, literal(&district, &shown), "{:02x?}", encode(&district));
        assert_eq!(page.len(), (district.segments.len() + 3) * LINE);
        assert!(page.lines().all(|line| line.len() == 80 && line.is_ascii() && !line.contains('*')));
    }
    assert!(seen[1..].iter().all(|&count| count > 5), "{seen:?}");
}
