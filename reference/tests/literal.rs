//! The rules written down once more, word by word and without any care for
//! speed, and compared with the library on made districts. Nothing is kept
//! from one question to the next here, and all arithmetic has 128 bits.

mod common;

use reference::counties::{five, HALVES};
use reference::district::*;
use reference::file;
use reference::make;
use reference::random::Random;
use reference::unit::{plan, plan_in, Unit};
use reference::vectors::led;
use reference::why::why;

struct Rules<'a> {
    d: &'a District,
}

/// Strategy of each segment, 0 for nothing.
type Programme = Vec<usize>;

impl Rules<'_> {
    fn counts(&self) -> (usize, usize, usize, usize) {
        (self.d.segments.len(), self.d.strategies.len(), self.d.greatest.len(), self.d.limits.len())
    }

    fn gain(&self, i: usize, j: usize, k: usize) -> i128 {
        let current = i128::from(self.d.segments[i].ratings[k]);
        let gain = i128::from(self.d.strategies[j - 1].gains[k]);
        let room = i128::from(self.d.greatest[k]) - current;
        let cut = if gain < room { gain } else { room };
        if cut > -current {
            cut
        } else {
            -current
        }
    }

    fn survival(&self, i: usize, j: usize, k: usize, t: usize) -> i128 {
        if t == 0 {
            return 1_000_000;
        }
        let segment = &self.d.segments[i];
        let percent = i128::from(self.d.strategies[j - 1].survival[k * self.d.years + t - 1]);
        let s = 1_000_000 - i128::from(segment.traffic) * i128::from(segment.environment) * (100 - percent);
        if s < 0 {
            0
        } else {
            s
        }
    }

    fn rating(&self, i: usize, j: usize, k: usize, t: usize) -> i128 {
        1_000_000 * i128::from(self.d.segments[i].ratings[k]) + self.gain(i, j, k) * self.survival(i, j, k, t)
    }

    fn area(&self, i: usize) -> i128 {
        i128::from(self.d.segments[i].length) * i128::from(self.d.segments[i].width)
    }

    fn benefit(&self, i: usize, j: usize) -> i128 {
        if j == 0 {
            return 0;
        }
        let mut sum = 0;
        for k in 0..self.d.greatest.len() {
            for t in 1..=self.d.years {
                sum += self.gain(i, j, k) * (self.survival(i, j, k, t - 1) + self.survival(i, j, k, t));
            }
        }
        let effect = if sum < 0 { -(-sum / 20_000) } else { sum / 20_000 };
        self.area(i) * effect
    }

    fn usage(&self, i: usize, j: usize, r: usize) -> i128 {
        if j == 0 {
            0
        } else {
            self.area(i) * i128::from(self.d.strategies[j - 1].requirements[r])
        }
    }

    fn room(&self, r: usize) -> i128 {
        i128::from(self.d.limits[r]) * 100_000
    }

    fn demands(&self, i: usize) -> &PavementType {
        &self.d.types[usize::from(self.d.segments[i].pavement) - 1]
    }

    fn barred(&self, i: usize, j: usize) -> bool {
        (self.d.segments[i].bars / (1 << (j - 1))) % 2 == 1
    }

    fn minimum_met(&self, i: usize, j: usize, k: usize, t: usize) -> bool {
        let minimum = i128::from(self.demands(i).minimum[k * self.d.years + t - 1]);
        minimum == 0 || self.rating(i, j, k, t) >= 1_000_000 * minimum
    }

    fn overall_met(&self, i: usize, j: usize) -> bool {
        let first_year: i128 = (0..self.d.greatest.len()).map(|k| self.rating(i, j, k, 1)).sum();
        let overall = i128::from(self.demands(i).overall);
        overall == 0 || first_year >= 1_000_000 * overall
    }

    fn permitted(&self, i: usize, j: usize) -> bool {
        let minima_met = (0..self.d.greatest.len()).all(|k| (1..=self.d.years).all(|t| self.minimum_met(i, j, k, t)));
        !self.barred(i, j) && minima_met && self.overall_met(i, j)
    }

    fn candidate(&self, i: usize, j: usize) -> bool {
        let fits = (0..self.d.limits.len()).all(|r| self.usage(i, j, r) <= self.room(r));
        self.permitted(i, j) && self.benefit(i, j) > 0 && fits
    }

    fn used(&self, programme: &Programme, r: usize) -> i128 {
        programme.iter().enumerate().map(|(i, &j)| self.usage(i, j, r)).sum()
    }

    fn within_limits(&self, programme: &Programme) -> bool {
        (0..self.d.limits.len()).all(|r| self.used(programme, r) <= self.room(r))
    }

    fn total(&self, programme: &Programme) -> i128 {
        programme.iter().enumerate().map(|(i, &j)| self.benefit(i, j)).sum()
    }

    fn leader(&self, i: usize) -> Option<usize> {
        match self.d.segments[i].leader {
            0 => None,
            number => Some(usize::from(number) - 1),
        }
    }

    fn leader_has_nothing(&self, programme: &[usize], i: usize) -> bool {
        match self.leader(i) {
            None => false,
            Some(leader) => programme[leader] == 0,
        }
    }

    /// Segment i names l, or one that follows from l.
    fn follows(&self, i: usize, l: usize) -> bool {
        match self.leader(i) {
            None => false,
            Some(leader) => leader == l || self.follows(leader, l),
        }
    }

    fn respects_leaders(&self, programme: &Programme) -> bool {
        (0..programme.len()).all(|i| programme[i] == 0 || !self.leader_has_nothing(programme, i))
    }

    /// All of the nine reasons that hold, with every distress type, year and
    /// resource that could be named, in the order in which they are asked for.
    fn reasons(&self, programme: &Programme, i: usize, j: usize) -> Vec<String> {
        let mut holding = Vec::new();
        let mut say = |holds: bool, reason: String| holding.extend(holds.then_some(reason));
        say(programme[i] == j, "in the programme".to_string());
        say(self.barred(i, j), "barred".to_string());
        for k in 0..self.d.greatest.len() {
            for t in 1..=self.d.years {
                let reason = format!("minimum rating missed: distress {}, year {t}", k + 1);
                say(!self.minimum_met(i, j, k, t), reason);
            }
        }
        say(!self.overall_met(i, j), "overall requirement missed".to_string());
        say(self.benefit(i, j) <= 0, "benefit not above 0".to_string());
        say(self.leader_has_nothing(programme, i), "the leader has nothing".to_string());
        for r in 0..self.d.limits.len() {
            say(self.usage(i, j, r) > self.room(r), format!("over limit {} alone", r + 1));
        }
        let mut changed = programme.clone();
        changed[i] = j;
        for r in 0..self.d.limits.len() {
            say(self.used(&changed, r) > self.room(r), format!("over limit {} beside the others", r + 1));
        }
        let fits = self.within_limits(&changed) && self.total(&changed) <= self.total(programme);
        say(fits, "fits, but the total would be no greater".to_string());
        holding
    }

    fn share(&self, i: usize, j: usize, r: usize) -> i128 {
        let room = self.room(r);
        if room == 0 {
            0
        } else {
            (self.usage(i, j, r) * 10_000 + room - 1) / room
        }
    }

    fn down_share(&self, i: usize, j: usize, r: usize) -> i128 {
        let room = self.room(r);
        if room == 0 {
            0
        } else {
            self.usage(i, j, r) * 10_000 / room
        }
    }

    /// Of two candidates, j comes before l by falling benefit.
    fn before(&self, i: usize, j: usize, l: usize) -> bool {
        let (first, second) = (self.benefit(i, j), self.benefit(i, l));
        first > second || first == second && j < l
    }

    /// The candidate next behind j (the first of all if j is none), or nothing.
    fn next(&self, i: usize, j: Option<usize>) -> usize {
        let mut next = 0;
        for l in 1..=self.d.strategies.len() {
            let behind = j.is_none_or(|j| self.before(i, j, l));
            if self.candidate(i, l) && behind && (next == 0 || self.before(i, l, next)) {
                next = l;
            }
        }
        next
    }

    fn phase_one(&self) -> (Programme, u64) {
        let (n, _, _, resources) = self.counts();
        let mut programme = Programme::new();
        for i in 0..n {
            let nothing = self.leader_has_nothing(&programme, i);
            programme.push(if nothing { 0 } else { self.next(i, None) });
        }
        let mut steps = 0;
        while !self.within_limits(&programme) {
            let surplus = |r: usize| {
                let shares: i128 = (0..n).map(|i| self.share(i, programme[i], r)).sum();
                if self.used(&programme, r) > self.room(r) {
                    shares - 10_000
                } else {
                    0
                }
            };
            let surpluses: Vec<i128> = (0..resources).map(surplus).collect();
            let mut least: Option<(i128, usize)> = None;
            for (i, &j) in programme.iter().enumerate() {
                let pull: i128 = (0..resources).map(|r| self.share(i, j, r) * surpluses[r]).sum();
                if pull > 0 {
                    let ratio = self.benefit(i, j) * 1_000_000 / pull;
                    if least.is_none() || ratio < least.unwrap().0 {
                        least = Some((ratio, i));
                    }
                }
            }
            let i = least.unwrap().1;
            programme[i] = self.next(i, Some(programme[i]));
            if programme[i] == 0 {
                (0..n).filter(|&l| self.follows(l, i)).for_each(|l| programme[l] = 0);
            }
            steps += 1;
        }
        (programme, steps)
    }

    fn phase_two(&self, programme: &mut Programme) -> u64 {
        let (n, s, _, _) = self.counts();
        let mut pickups = 0;
        loop {
            let mut best: Option<(i128, Programme)> = None;
            for i in (0..n).filter(|&i| programme[i] == 0 && !self.leader_has_nothing(programme, i)) {
                for j in (1..=s).filter(|&j| self.candidate(i, j)) {
                    let mut with = programme.clone();
                    with[i] = j;
                    let benefit = self.benefit(i, j);
                    if self.within_limits(&with) && best.as_ref().is_none_or(|(most, _)| benefit > *most) {
                        best = Some((benefit, with));
                    }
                }
            }
            match best {
                None => return pickups,
                Some((_, with)) => *programme = with,
            }
            pickups += 1;
        }
    }

    fn first_change(&self, programme: &Programme) -> Option<Programme> {
        let (n, s, _, _) = self.counts();
        let may = |i: usize, j: usize| j != programme[i] && (j == 0 || self.candidate(i, j));
        let counts = |changed: &Programme| {
            let rises = self.total(changed) > self.total(programme);
            rises && self.within_limits(changed) && self.respects_leaders(changed)
        };
        for i in 0..n {
            for j in (0..=s).filter(|&j| may(i, j)) {
                let mut changed = programme.clone();
                changed[i] = j;
                if counts(&changed) {
                    return Some(changed);
                }
            }
        }
        for i in 0..n {
            for l in i + 1..n {
                for j in (0..=s).filter(|&j| may(i, j)) {
                    for m in (0..=s).filter(|&m| may(l, m)) {
                        let mut changed = programme.clone();
                        changed[i] = j;
                        changed[l] = m;
                        if counts(&changed) {
                            return Some(changed);
                        }
                    }
                }
            }
        }
        None
    }

    fn ceiling_at(&self, prices: &[i128]) -> i128 {
        let (n, s, _, resources) = self.counts();
        let mut ceiling = 10_000 * prices.iter().sum::<i128>();
        for i in 0..n {
            let mut greatest = 0;
            for j in (1..=s).filter(|&j| self.candidate(i, j)) {
                let cost: i128 = (0..resources).map(|r| prices[r] * self.down_share(i, j, r)).sum();
                greatest = greatest.max(self.benefit(i, j) - cost);
            }
            ceiling += greatest;
        }
        ceiling
    }

    fn ceiling(&self) -> i128 {
        let mut prices = vec![0i128; self.d.limits.len()];
        for power in (0..=40).rev() {
            let step = 1i128 << power;
            for r in 0..prices.len() {
                let now = self.ceiling_at(&prices);
                prices[r] += step;
                if self.ceiling_at(&prices) < now {
                    continue;
                }
                prices[r] -= step;
                if prices[r] >= step {
                    prices[r] -= step;
                    if self.ceiling_at(&prices) >= now {
                        prices[r] += step;
                    }
                }
            }
        }
        self.ceiling_at(&prices)
    }
}

/// The blocks that a row says, each as a district, in the words of the rule: none
/// where the ordinary plan is made instead.
fn blocks(d: &District, row: &[u64]) -> Option<Vec<District>> {
    let (n, resources) = (d.segments.len(), d.limits.len());
    if row.is_empty() || row.len() % (2 + resources) != 0 {
        return None;
    }
    // The numbers of each block's segments, and its parts. More than all segments need not be counted.
    let said: Vec<(Vec<u64>, &[u64])> =
        row.chunks(2 + resources).map(|one| ((one[0]..=one[1]).take(n + 1).collect(), &one[2..])).collect();
    let more_than_four = said.len() > 4;
    let one_is_empty = said.iter().any(|(segments, _)| segments.is_empty());
    let numbers: Vec<u64> = said.iter().flat_map(|(segments, _)| segments.clone()).collect();
    if more_than_four || one_is_empty || numbers != (1..=n as u64).collect::<Vec<_>>() {
        return None;
    }
    for (r, &limit) in d.limits.iter().enumerate() {
        let given: u128 = said.iter().map(|(_, parts)| u128::from(parts[r])).sum();
        if given > u128::from(limit) {
            return None;
        }
    }
    for (segments, _) in &said {
        for &i in segments {
            let leader = u64::from(d.segments[i as usize - 1].leader);
            if leader != 0 && !segments.contains(&leader) {
                return None;
            }
        }
    }
    let alone = |(segments, parts): &(Vec<u64>, &[u64])| {
        let mut alone = District { segments: Vec::new(), ..d.clone() };
        alone.limits = parts.iter().map(|&part| u32::try_from(part).unwrap()).collect();
        for &i in segments {
            let mut segment = d.segments[i as usize - 1].clone();
            let place = segments.iter().position(|&one| one == u64::from(segment.leader));
            segment.leader = place.map_or(0, |place| place as u8 + 1);
            alone.segments.push(segment);
        }
        alone
    };
    Some(said.iter().map(alone).collect())
}

/// All three phases of each block, and the lists joined.
fn joined(blocks: &[District]) -> (Programme, u64) {
    let (mut all, mut sum) = (Programme::new(), 0);
    for block in blocks {
        let rules = Rules { d: block };
        let (mut programme, steps) = rules.phase_one();
        rules.phase_two(&mut programme);
        while let Some(changed) = rules.first_change(&programme) {
            programme = changed;
        }
        all.extend(programme);
        sum += steps;
    }
    (all, sum)
}

fn check(district: &District) {
    check_in(district, &[]);
}

fn check_in(district: &District, row: &[u64]) {
    let rules = Rules { d: district };
    let shown = plan_in(district, row);
    let (mut programme, steps) = match blocks(district, row) {
        Some(blocks) => joined(&blocks),
        None => rules.phase_one(),
    };
    assert_eq!(shown.steps, steps);
    assert_eq!(shown.pickups, rules.phase_two(&mut programme));
    assert_eq!(i128::from(shown.total_after_phase_two), rules.total(&programme));
    let mut changes = 0;
    while let Some(changed) = rules.first_change(&programme) {
        programme = changed;
        changes += 1;
    }
    assert_eq!(shown.changes, changes);
    assert_eq!(i128::from(shown.total), rules.total(&programme));
    assert_eq!(i128::from(shown.ceiling), rules.ceiling());
    for (i, j) in (0..district.segments.len()).flat_map(|i| (1..=district.strategies.len()).map(move |j| (i, j))) {
        let named = why(district, &shown.strategies, i, j - 1).to_string();
        assert_eq!(Some(&named), rules.reasons(&programme, i, j).first(), "segment {}, strategy {j}", i + 1);
    }
    programme.resize(MOST_SEGMENTS, 0);
    let strategies: Programme = shown.strategies.iter().map(|&j| usize::from(j)).collect();
    assert_eq!(strategies, programme);
}

#[test]
fn small_districts() {
    let mut random = Random::new(21);
    for _ in 0..3_000 {
        let shape = make::small_shape(&mut random, 7, 4);
        check(&make::district(&mut random, shape));
    }
}

#[test]
fn busy_districts() {
    let mut random = Random::new(22);
    for _ in 0..150 {
        let mut shape = make::small_shape(&mut random, 7, 4);
        shape.segments += 3;
        check(&make::busy_district(&mut random, shape));
    }
}

/// Districts in which many reasons hold of the same strategy.
#[test]
fn telling_districts() {
    let mut random = Random::new(23);
    for _ in 0..2_000 {
        check(&make::telling_district(&mut random));
    }
}

/// The same kinds of districts with leaders. In some of them plans differ from
/// those without.
#[test]
fn districts_with_leaders() {
    let mut random = Random::new(24);
    let mut decided = 0;
    for case in 0..5_000 {
        let mut shape = make::small_shape(&mut random, 7, 4);
        let mut district = match case % 5 {
            0 | 1 => make::district(&mut random, shape),
            2 => make::telling_district(&mut random),
            _ => {
                shape.segments += 2;
                make::busy_district(&mut random, shape)
            }
        };
        let unled = plan(&district);
        make::set_leaders(&mut random, &mut district);
        check(&district);
        decided += u32::from(plan(&district) != unled);
    }
    assert!(decided > 1_000, "only {decided} differ");
}

/// Districts planned in blocks, and rows that are not followed.
#[test]
fn districts_in_blocks() {
    let mut random = Random::new(25);
    let (mut in_blocks, mut decided) = (0, 0);
    for case in 0..3_000 {
        let mut shape = make::small_shape(&mut random, 8, 4);
        let mut district = match case % 3 {
            0 => make::district(&mut random, shape),
            1 => make::telling_district(&mut random),
            _ => {
                shape.segments += 1;
                make::busy_district(&mut random, shape)
            }
        };
        if random.chance(30) {
            make::set_leaders(&mut random, &mut district);
        }
        let row: Vec<u64> = make::choice(&mut random, &district).into_iter().map(u64::from).collect();
        check_in(&district, &row);
        in_blocks += u32::from(blocks(&district, &row).is_some());
        decided += u32::from(plan_in(&district, &row).strategies != plan(&district).strategies);
    }
    assert!(in_blocks > 1_500 && decided > 100, "{in_blocks} {decided}");
}

/// An office that holds the district and has chosen these blocks.
fn chosen(district: &District, row: &[u64]) -> Unit {
    let mut unit = Unit::fresh();
    unit.load(&file::encode(district)).unwrap();
    assert_eq!(unit.choose_blocks(row), Ok(()));
    unit
}

/// Whether the row is followed, in the words of the rule and as the library has it; the plan is right either way.
fn follows(district: &District, row: &[u64]) -> bool {
    check_in(district, row);
    let unit = chosen(district, row);
    assert_eq!(unit.show(), &plan_in(district, row));
    assert_eq!(unit.in_blocks(), blocks(district, row).is_some(), "{row:?}");
    unit.in_blocks()
}

/// Each condition by itself, at its edge, with numbers of any 64 bits. The district has five segments, limits of 50
/// and 100, and two numbers in front of two parts for each block.
#[test]
fn conditions_on_blocks() {
    const MOST: u64 = u64::MAX;
    let (half, quarter) = (1 << 63, 1 << 62);
    let past = |number: u64| number + (1 << 32);
    let halves: Vec<u64> = HALVES.iter().map(|&number| number.into()).collect();
    let followed: [&[u64]; 7] = [
        // The parts add to just the limits, to less, and to nothing; a part of 0.
        &[1, 2, 10, 50, 3, 5, 40, 50],
        &[1, 2, 10, 49, 3, 5, 39, 50],
        &[1, 2, 0, 0, 3, 5, 0, 0],
        &[1, 2, 50, 0, 3, 5, 0, 100],
        // One block, two of which one has one segment, and four.
        &[1, 5, 50, 100],
        &[1, 4, 40, 90, 5, 5, 10, 10],
        &[1, 1, 5, 10, 2, 2, 10, 20, 3, 3, 15, 30, 4, 5, 20, 40],
    ];
    followed.iter().for_each(|row| assert!(follows(&five(), row), "{row:?}"));
    let ordinary: [&[u64]; 39] = [
        // More than four: five, each with one segment and its share; and an empty one behind four.
        &[1, 1, 10, 20, 2, 2, 10, 20, 3, 3, 10, 20, 4, 4, 10, 20, 5, 5, 10, 20],
        &[1, 1, 5, 10, 2, 2, 10, 20, 3, 3, 15, 30, 4, 5, 20, 40, 6, 5, 0, 0],
        // One is empty: in front, between, behind, and all of them.
        &[1, 0, 0, 0, 1, 2, 10, 50, 3, 5, 40, 50],
        &[1, 2, 10, 50, 3, 2, 0, 0, 3, 5, 40, 50],
        &[1, 2, 10, 50, 3, 5, 40, 50, 6, 5, 0, 0],
        &[1, 0, 0, 0],
        &[0, 0, 0, 0],
        // Not each of 1 to 5: the first is left out, the last, one between, all but one; one that there is not.
        &[2, 2, 10, 50, 3, 5, 40, 50],
        &[1, 2, 10, 50, 3, 4, 40, 50],
        &[1, 2, 10, 50, 4, 5, 40, 50],
        &[1, 1, 50, 100],
        &[0, 2, 10, 50, 3, 5, 40, 50],
        &[1, 2, 10, 50, 3, 6, 40, 50],
        // Not once: one of them twice, all of them twice. Not in order.
        &[1, 3, 10, 50, 3, 5, 40, 50],
        &[1, 5, 10, 50, 1, 5, 40, 50],
        &[3, 5, 40, 50, 1, 2, 10, 50],
        // Far away; and numbers that are the right ones in their low 32 bits alone.
        &[1, 2, 10, 50, 3, MOST, 40, 50],
        &[1, MOST, 50, 100],
        &[MOST, 5, 50, 100],
        &[MOST, MOST, 50, 100],
        &[past(1), past(5), 50, 100],
        &[1, past(5), 50, 100],
        &[1, past(2), 10, 50, past(3), 5, 40, 50],
        // One behind the greatest number is none: not 0, from where the others would go on.
        &[1, MOST, 10, 50, 0, 5, 40, 50],
        &[0, MOST, 10, 50, 0, 5, 40, 50],
        &[1, 2, 10, 50, 3, MOST, 20, 20, 0, 5, 20, 30],
        // Parts add to one more than the first limit, the second, the first though none is above it.
        &[1, 2, 10, 50, 3, 5, 41, 50],
        &[1, 2, 10, 51, 3, 5, 40, 50],
        &[1, 5, 51, 100],
        &[1, 2, 50, 0, 3, 5, 50, 0],
        // They add to 0, to 50 and to 100 in 64 bits, and to 50 in 32.
        &[1, 2, half, 0, 3, 5, half, 0],
        &[1, 2, MOST, 0, 3, 5, 51, 0],
        &[1, 2, 0, half, 3, 5, 0, half + 100],
        &[1, 1, quarter, 0, 2, 2, quarter, 0, 3, 3, quarter, 0, 4, 5, quarter, 0],
        &[1, 5, past(50), 100],
        &[1, 2, past(10), 50, 3, 5, 40, 50],
        // Other lengths: numbers are missing, there is one too many, and blocks of one resource and of three.
        &[1, 5],
        &[1, 2, 10, 3, 5, 40],
        &[1, 2, 10, 50, 0, 3, 5, 40, 50, 0],
    ];
    ordinary.iter().for_each(|row| assert!(!follows(&five(), row), "{row:?}"));
    for length in (0..8).filter(|&length| length != 4) {
        assert!(!follows(&five(), &halves[..length]));
    }
    assert!(!follows(&five(), &[&halves[..], &[0]].concat()));
    assert!(!follows(&five(), &halves.repeat(30)));
    // A leader in the block before, and in the own one: its first, its last but one.
    for (leaders, inside) in [
        ([0, 0, 1, 0, 0], false),
        ([0, 0, 2, 0, 0], false),
        ([0, 0, 0, 0, 2], false),
        ([0, 1, 0, 3, 1], false),
        ([0, 1, 0, 3, 3], true),
        ([0, 1, 0, 3, 4], true),
    ] {
        assert_eq!(follows(&led(five(), &leaders), &halves), inside, "{leaders:?}");
    }
    // Without segments none are followed, and with some none are not either.
    let bare = District { segments: Vec::new(), ..five() };
    for row in [&[][..], &[1, 0, 0, 0], &[1, 0, 50, 100], &[0, 0, 0, 0], &[1, 1, 0, 0]] {
        assert!(!follows(&bare, row));
    }
}

/// One block with all of every limit: the ordinary programme and steps, and nothing is left to pick up or to change.
#[test]
fn one_block_is_the_ordinary_programme() {
    let mut random = Random::new(26);
    let mut changed = 0;
    for case in 0..1_000 {
        let shape = make::small_shape(&mut random, 8, 4);
        let mut district = match case % 2 {
            0 => make::telling_district(&mut random),
            _ => make::busy_district(&mut random, make::Shape { segments: shape.segments + 1, ..shape }),
        };
        if random.chance(30) {
            make::set_leaders(&mut random, &mut district);
        }
        let ordinary = plan(&district);
        let row =
            [1, district.segments.len() as u64].into_iter().chain(district.limits.iter().map(|&limit| limit.into()));
        let unit = chosen(&district, &row.collect::<Vec<u64>>());
        let shown = unit.show();
        assert!(unit.in_blocks());
        assert_eq!(
            (shown.strategies, shown.total, shown.ceiling),
            (ordinary.strategies, ordinary.total, ordinary.ceiling)
        );
        assert_eq!((shown.steps, shown.pickups, shown.changes), (ordinary.steps, 0, 0));
        assert_eq!(shown.total_after_phase_two, ordinary.total);
        changed += u32::from(ordinary.changes > 0);
    }
    assert!(changed > 100, "{changed}");
}

/// A choice stays while it is not followed: each edit, and each load that is refused, asks anew.
#[test]
fn blocks_off_and_on() {
    let row: Vec<u64> = HALVES.iter().map(|&number| number.into()).collect();
    let mut unit = chosen(&five(), &row);
    let in_halves = unit.show().clone();
    assert!(unit.in_blocks() && in_halves != plan(&five()));
    let edits: [(fn(&mut Unit), bool); 14] = [
        (|unit| unit.set_limit(1, 49).unwrap(), false),
        (|unit| unit.set_limit(2, 99).unwrap(), false),
        (|unit| unit.set_limit(1, 50).unwrap(), false),
        (|unit| unit.set_limit(2, 100).unwrap(), true),
        (|unit| unit.set_leader(3, 2).unwrap(), false),
        (|unit| unit.set_leader(4, 3).unwrap(), false),
        (|unit| unit.set_leader(3, 0).unwrap(), true),
        (|unit| unit.set_leader(4, 0).unwrap(), true),
        (|unit| unit.bar(1, 1).unwrap(), true),
        (|unit| unit.unbar(1, 1).unwrap(), true),
        (|unit| unit.set_rating(2, 1, 50).unwrap(), true),
        (|unit| unit.set_rating(2, 1, five().segments[1].ratings[0].into()).unwrap(), true),
        (|unit| assert!(unit.set_limit(3, 0).is_err()), true),
        (|unit| assert!(unit.load(&[]).is_err()), true),
    ];
    for (at, (edit, expected)) in edits.into_iter().enumerate() {
        edit(&mut unit);
        check_in(unit.district(), &row);
        assert_eq!(unit.show(), &plan_in(unit.district(), &row));
        assert_eq!(unit.in_blocks(), expected, "edit {at}");
    }
    assert_eq!(unit.show(), &in_halves);
    // Another choice takes its place, also one that is not followed; none ends it, and so does the same file.
    unit.choose_blocks(&[1, 5]).unwrap();
    assert_eq!(unit.show(), &plan(&five()));
    unit.set_limit(1, 50).unwrap();
    assert!(!unit.in_blocks());
    unit.choose_blocks(&row).unwrap();
    unit.choose_blocks(&[]).unwrap();
    assert_eq!(unit.show(), &plan(&five()));
    unit.choose_blocks(&row).unwrap();
    assert_eq!(unit.show(), &in_halves);
    unit.load(&file::encode(&five())).unwrap();
    unit.set_limit(1, 50).unwrap();
    assert_eq!(unit.show(), &plan(&five()));
}

/// Every value at the end of its range that makes products large.
fn extreme(n: usize, s: usize, r: usize, limit: u32) -> District {
    let cells = MOST_DISTRESS_TYPES * MOST_YEARS;
    District {
        years: MOST_YEARS,
        limits: vec![limit; r],
        greatest: vec![RATING_MOST; MOST_DISTRESS_TYPES],
        strategies: (0..s)
            .map(|j| Strategy {
                requirements: vec![REQUIREMENT_MOST; r],
                gains: vec![GAIN_MOST - j as i8; MOST_DISTRESS_TYPES],
                survival: vec![100; cells],
            })
            .collect(),
        types: vec![PavementType { overall: 0, minimum: vec![0; cells] }],
        segments: (0..n)
            .map(|_| Segment {
                pavement: 1,
                traffic: INDEX_MOST,
                environment: INDEX_MOST,
                length: LENGTH_MOST,
                width: WIDTH_MOST,
                bars: 0,
                ratings: vec![0; MOST_DISTRESS_TYPES],
                leader: 0,
            })
            .collect(),
    }
}

/// One segment uses a little more than 19,997,980 units of a resource.
const LIMITS: [u32; 5] = [19_997_981, 40_000_000, 100_000_000, LIMIT_MOST, 19_997_980];

#[test]
fn extreme_districts() {
    for limit in LIMITS {
        check(&extreme(6, 2, 2, limit));
    }
}

#[test]
fn extreme_districts_of_the_widest_shape_stay_within_64_bits() {
    for limit in LIMITS {
        let shown = plan(&extreme(64, 11, 16, limit));
        assert!(shown.total <= shown.ceiling);
        // What one segment gains: area x gain x distress types x years, in hundredths.
        let one = 1_999_800 * 50 * 9 * 10 * 100;
        assert_eq!(shown.total % one, 0);
    }
}

#[test]
fn the_test_card_with_many_limits() {
    let mut district = reference::file::decode(&common::card_bytes()).unwrap();
    for limit in (0..=200).step_by(7) {
        district.limits[0] = limit;
        check(&district);
    }
}

#[test]
fn the_example_of_the_report() {
    check(&reference::example::district());
}
