//! Survey points against Table 1 as printed.

use reference::refusal::Refusal;
use reference::survey::points;

/// A row for each degree: slight, moderate, severe.
const TABLE: &str = "
rutting       0 2 5    5 7 10    10 12 15
raveling      5 8 10   10 12 15  15 18 20
flushing      5 8 10   10 12 15  15 18 20
corrugations  5 8 10   10 12 15  15 18 20
alligator     5 10 15  10 15 20  15 20 25
patching      0 2 5    5 7 10    7 15 20
";

/// A row for each degree: sealed, partially sealed, not sealed.
const CRACKING: &str = "
longitudinal  2 5 8   3 7 12   5 10 15
longitudinal  5 8 10  7 12 15  10 15 20
longitudinal  8 10 15 12 15 20 15 20 25
transverse    2 5 8   3 7 10   3 7 12
transverse    5 8 10  7 10 15  7 12 15
transverse    8 10 15 10 15 20 12 15 20
";

fn rows(text: &str) -> Vec<Vec<u8>> {
    let lines = text.trim().lines();
    lines.map(|line| line.split_whitespace().skip(1).map(|n| n.parse().unwrap()).collect()).collect()
}

#[test]
fn all_combinations_near_the_table() {
    let (table, cracking) = (rows(TABLE), rows(CRACKING));
    for code in 0..=10u64 {
        for degree in 0..=5u64 {
            for extent in 0..=5u64 {
                for seal in 0..=5u64 {
                    let seal_fine = match code {
                        1..=6 => seal == 0,
                        7 | 8 => (1..=3).contains(&seal),
                        _ => false,
                    };
                    let fine = seal_fine && degree <= 3 && (1..=3).contains(&extent);
                    let expected = if !fine {
                        Err(Refusal::Survey)
                    } else if degree == 0 {
                        Ok(0)
                    } else if code <= 6 {
                        Ok(table[code as usize - 1][(3 * (degree - 1) + extent - 1) as usize])
                    } else {
                        Ok(cracking[(3 * (code - 7) + degree - 1) as usize][(3 * (seal - 1) + extent - 1) as usize])
                    };
                    assert_eq!(points(code, degree, extent, seal), expected, "{code} {degree} {extent} {seal}");
                }
            }
        }
    }
}

#[test]
fn large_numbers_are_not_cut_down() {
    for large in [1 << 8, 1 << 16, 1 << 32] {
        assert_eq!(points(large + 1, 1, 1, 0), Err(Refusal::Survey));
        assert_eq!(points(1, large + 1, 1, 0), Err(Refusal::Survey));
        assert_eq!(points(1, large, 1, 0), Err(Refusal::Survey));
        assert_eq!(points(1, 1, large + 1, 0), Err(Refusal::Survey));
        assert_eq!(points(1, 1, 1, large), Err(Refusal::Survey));
    }
}
