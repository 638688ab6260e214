//! What a plan has to be, checked against all programmes of small districts:
//! rivals are taken over permitted strategies, whatever their benefit. Those one
//! or two segments away respect leaders, and a segment that another one names as
//! its leader has only strategies with benefits above 0 in them; the ceiling is
//! one for all programmes.

use reference::district::District;
use reference::make;
use reference::random::Random;
use reference::rating;
use reference::unit::{plan, plan_in};
use reference::vectors::{led, small};

/// For each segment nothing and each permitted strategy: number, benefit, uses.
type Row = (usize, i64, Vec<u64>);

fn rows(district: &District) -> Vec<Vec<Row>> {
    let resources = district.limits.len();
    let row = |i: usize, j: usize| {
        let (segment, strategy) = (&district.segments[i], &district.strategies[j - 1]);
        let uses = (0..resources).map(|r| rating::usage(segment, strategy, r)).collect();
        (j, rating::benefit(district, segment, strategy), uses)
    };
    (0..district.segments.len())
        .map(|i| {
            let nothing = (0, 0, vec![0; resources]);
            let permitted = (1..=district.strategies.len()).filter(|&j| rating::permitted(district, i, j - 1));
            std::iter::once(nothing).chain(permitted.map(|j| row(i, j))).collect()
        })
        .collect()
}

/// All ways to pick one place from each row.
fn all_picks(rows: &[Vec<Row>]) -> Vec<Vec<usize>> {
    let mut picks = vec![Vec::new()];
    for row in rows {
        picks = picks.into_iter().flat_map(|pick| (0..row.len()).map(move |at| [&pick[..], &[at]].concat())).collect();
    }
    picks
}

fn check(district: &District) -> bool {
    let changed = check_in(district, &[]);
    let shown = plan(district);
    if wants_fit(district, &rows(district)) {
        assert_eq!(shown.total, shown.ceiling);
    }
    assert!(shown.steps <= (district.segments.len() * district.strategies.len()) as u64);
    changed
}

/// What holds of a plan in blocks as well.
fn check_in(district: &District, choice: &[u64]) -> bool {
    let rows = rows(district);
    let within = |pick: &[usize]| {
        (0..district.limits.len()).all(|r| {
            let used: u64 = pick.iter().zip(&rows).map(|(&at, row)| row[at].2[r]).sum();
            used <= rating::room(district, r)
        })
    };
    let total = |pick: &[usize]| -> i64 { pick.iter().zip(&rows).map(|(&at, row)| row[at].1).sum() };

    let shown = plan_in(district, choice);
    let n = district.segments.len();
    let chosen: Option<Vec<usize>> =
        (0..n).map(|i| rows[i].iter().position(|row| row.0 == usize::from(shown.strategies[i]))).collect();
    let chosen = chosen.expect("only permitted strategies are taken");
    let respects = |pick: &[usize]| {
        let has_leader = |i: usize| match district.segments[i].leader {
            0 => true,
            leader => pick[usize::from(leader) - 1] != 0,
        };
        (0..n).all(|i| pick[i] == 0 || has_leader(i))
    };
    let above_0 = |pick: &[usize], i: usize| pick[i] == 0 || rows[i][pick[i]].1 > 0;
    let leads = |i: usize| district.segments.iter().any(|one| usize::from(one.leader) == i + 1);
    let may_rival = |pick: &[usize]| respects(pick) && (0..n).all(|i| !leads(i) || above_0(pick, i));
    assert!(within(&chosen) && respects(&chosen) && (0..n).all(|i| above_0(&chosen, i)));
    assert_eq!(total(&chosen), shown.total);
    assert!(shown.strategies[n..].iter().all(|&strategy| strategy == 0));
    for pick in all_picks(&rows) {
        if !within(&pick) {
            continue;
        }
        assert!(total(&pick) <= shown.ceiling);
        let different = pick.iter().zip(&chosen).filter(|(a, b)| a != b).count();
        assert!(different > 2 || !may_rival(&pick) || total(&pick) <= shown.total);
        // Where total and ceiling agree no programme has more.
        assert!(total(&pick) <= shown.total || shown.total < shown.ceiling);
    }
    assert!(shown.total_after_phase_two >= 0);
    assert!(shown.changes as i64 <= shown.total - shown.total_after_phase_two);
    shown.changes > 0
}

/// The best candidates of all segments fit together, and each segment with a
/// candidate has no leader, or one with a candidate.
fn wants_fit(district: &District, rows: &[Vec<Row>]) -> bool {
    let candidates =
        |i: usize| rows[i].iter().filter(move |row| row.0 > 0 && rating::candidate(district, i, row.0 - 1));
    let fits = (0..district.limits.len()).all(|r| {
        let best = |i: usize| candidates(i).min_by_key(|row| (std::cmp::Reverse(row.1), row.0));
        let used: u64 = (0..rows.len()).filter_map(|i| best(i).map(|row| row.2[r])).sum();
        used <= rating::room(district, r)
    });
    let led = |i: usize| match district.segments[i].leader {
        0 => true,
        leader => candidates(usize::from(leader) - 1).count() > 0,
    };
    fits && (0..rows.len()).all(|i| candidates(i).count() == 0 || led(i))
}

#[test]
fn made_districts() {
    let mut random = Random::new(31);
    for _ in 0..6_000 {
        let shape = make::small_shape(&mut random, 4, 3);
        check(&make::district(&mut random, shape));
    }
}

#[test]
fn districts_in_which_all_limits_bind() {
    let mut random = Random::new(32);
    let mut changed = 0;
    for _ in 0..3_000 {
        let mut shape = make::small_shape(&mut random, 0, 3);
        shape.segments = 4;
        changed += u32::from(check(&make::busy_district(&mut random, shape)));
    }
    assert!(changed > 100, "only {changed} had changes");
}

#[test]
fn districts_with_leaders() {
    let mut random = Random::new(34);
    let mut changed = 0;
    for case in 0..8_000 {
        let mut shape = make::small_shape(&mut random, 4, 3);
        let mut district = match case % 2 {
            0 => make::district(&mut random, shape),
            _ => {
                shape.segments = 4;
                make::busy_district(&mut random, shape)
            }
        };
        make::set_leaders(&mut random, &mut district);
        changed += u32::from(check(&district));
    }
    assert!(changed > 100, "only {changed} had changes");
}

/// In blocks a plan is as good beside its rivals as an ordinary one, also where it is
/// another; equal figures where money isn't short are for ordinary plans only.
#[test]
fn districts_in_blocks() {
    let mut random = Random::new(35);
    let (mut decided, mut below) = (0, 0);
    for case in 0..6_000 {
        let mut shape = make::small_shape(&mut random, 4, 3);
        let mut district = match case % 2 {
            0 => make::district(&mut random, shape),
            _ => {
                shape.segments = 4;
                make::busy_district(&mut random, shape)
            }
        };
        if random.chance(40) {
            make::set_leaders(&mut random, &mut district);
        }
        let row: Vec<u64> = make::choice(&mut random, &district).into_iter().map(u64::from).collect();
        check_in(&district, &row);
        let (shown, ordinary) = (plan_in(&district, &row), plan(&district));
        decided += u32::from(shown.strategies != ordinary.strategies);
        below += u32::from(shown.total < ordinary.total);
    }
    assert!(decided > 30 && below > 5, "{decided} {below}");
}

/// Benefits above 0 are asked of leaders, and not of their followers alone: all
/// that segment 1 may have loses a point, so it has nothing, and neither has 2
/// behind it. Both together would gain 9.
#[test]
fn a_loss_for_a_leader_would_have_more() {
    let mut district =
        led(small(&[2], &[(&[1_000], -1, 100), (&[1_000], 10, 100)], &[(100, 1, 2), (100, 1, 1)]), &[0, 1]);
    district.segments[0].ratings = vec![5];
    check(&district);
    let shown = plan(&district);
    assert_eq!((&shown.strategies[..2], shown.total), (&[0, 0][..], 0));
    let both: i64 = rows(&district).iter().map(|row| row[1].1).sum();
    assert_eq!(both, 90_000);
}

#[test]
fn counts_on_larger_districts() {
    let mut random = Random::new(33);
    for _ in 0..300 {
        let shape = make::shape(&mut random);
        let district = make::district(&mut random, shape);
        let shown = plan(&district);
        assert!(shown.steps <= (shape.segments * shape.strategies) as u64);
        assert!(shown.changes as i64 <= shown.total - shown.total_after_phase_two);
        assert!(shown.total <= shown.ceiling);
    }
}
