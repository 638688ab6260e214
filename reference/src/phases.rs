//! The three phases that work a programme out.

use crate::tables::Tables;
use std::cmp::Reverse;

/// A programme and how it came about.
pub struct Outcome {
    /// For each segment the place of its choice among its options.
    pub choice: Vec<usize>,
    pub total: i64,
    pub total_after_phase_two: i64,
    pub steps: u64,
    pub pickups: u64,
    pub changes: u64,
    /// Options and pairs of options that phase 3 went past: a measure of how
    /// long the search was. No answer depends on it.
    pub tried: u64,
}

pub fn run(tables: &Tables) -> Outcome {
    let mut programme = Programme::empty(tables);
    let steps = programme.step_down();
    finish(programme, steps)
}

/// Phases 2 and 3 alone, from a list of strategies that are candidates, are within
/// the limits together and respect leaders.
pub fn go_on(tables: &Tables, strategies: &[u8]) -> Outcome {
    let mut programme = Programme::empty(tables);
    for (i, strategy) in strategies.iter().enumerate() {
        let option = tables.segments[i].strategy.iter().position(|one| one == strategy);
        programme.choose(i, option.expect("a strategy that is no candidate"));
    }
    finish(programme, 0)
}

/// Phases 2 and 3, behind so many steps.
fn finish(mut programme: Programme, steps: u64) -> Outcome {
    let pickups = programme.pick_up();
    let total_after_phase_two = programme.total();
    let (changes, tried) = programme.improve();
    Outcome {
        total: programme.total(),
        choice: programme.choice,
        total_after_phase_two,
        steps,
        pickups,
        changes,
        tried,
    }
}

/// One choice for each segment, with the summed use of each resource.
struct Programme<'a> {
    tables: &'a Tables,
    choice: Vec<usize>,
    used: Vec<u64>,
}

impl<'a> Programme<'a> {
    /// Nothing for every segment.
    fn empty(tables: &'a Tables) -> Programme<'a> {
        Programme { choice: vec![0; tables.segments.len()], used: vec![0; tables.resources], tables }
    }

    fn total(&self) -> i64 {
        let chosen = self.choice.iter().zip(&self.tables.segments);
        chosen.map(|(&option, segment)| segment.benefit[option]).sum()
    }

    /// Gives segment i another option and keeps the sums right.
    fn choose(&mut self, i: usize, option: usize) {
        let segment = &self.tables.segments[i];
        let old = segment.usage(self.choice[i]);
        let new = segment.usage(option);
        for ((used, old), new) in self.used.iter_mut().zip(old).zip(new) {
            *used = *used - old + new;
        }
        self.choice[i] = option;
    }

    /// Segment i has no leader, or one that has a strategy.
    fn may_have(&self, i: usize) -> bool {
        self.tables.leaders[i].is_none_or(|leader| self.choice[leader] != 0)
    }

    /// Whoever would have a strategy if these segments got these options has no
    /// leader, or one that would have a strategy too.
    fn respects_leaders(&self, changes: &[(usize, usize)]) -> bool {
        let after = |i: usize| changes.iter().find(|change| change.0 == i).map_or(self.choice[i], |change| change.1);
        let kept =
            |(i, leader): (usize, &Option<usize>)| after(i) == 0 || leader.is_none_or(|leader| after(leader) != 0);
        self.tables.leaders.iter().enumerate().all(kept)
    }

    fn over_a_limit(&self) -> bool {
        self.used.iter().zip(&self.tables.room).any(|(used, room)| used > room)
    }

    /// Phase 1: everyone takes the best, unless the leader has nothing; while a
    /// limit is exceeded, the segment with the least benefit for its pull steps
    /// down. One that comes to nothing takes all that follow from it along.
    fn step_down(&mut self) -> u64 {
        let tables = self.tables;
        // Candidates by falling benefit, nothing last. The sort is stable, so
        // that of equal ones the lower strategy stays in front.
        let orders: Vec<Vec<usize>> = tables
            .segments
            .iter()
            .map(|segment| {
                let mut order: Vec<usize> = (1..segment.count()).collect();
                order.sort_by_key(|&option| Reverse(segment.benefit[option]));
                order.push(0);
                order
            })
            .collect();
        let mut place = vec![0; tables.segments.len()];
        let mut shares = vec![0u64; tables.resources];
        let mut surplus = vec![0u64; tables.resources];
        for (i, order) in orders.iter().enumerate() {
            // The leader's number is lower, so what it takes is known here.
            if !self.may_have(i) {
                continue;
            }
            self.choose(i, order[0]);
            for (sum, share) in shares.iter_mut().zip(tables.segments[i].share(order[0])) {
                *sum += share;
            }
        }

        let mut steps = 0;
        while self.over_a_limit() {
            for r in 0..tables.resources {
                // Shares are rounded up, so over the limit they exceed 10,000.
                surplus[r] = if self.used[r] > tables.room[r] { shares[r] - 10_000 } else { 0 };
            }
            let mut least: Option<(u64, usize)> = None;
            for (i, segment) in tables.segments.iter().enumerate() {
                let share = segment.share(self.choice[i]);
                let pull: u64 = share.iter().zip(&surplus).map(|(share, surplus)| share * surplus).sum();
                if pull == 0 {
                    continue;
                }
                let ratio = segment.benefit[self.choice[i]] as u64 * 1_000_000 / pull;
                if least.is_none_or(|(low, _)| ratio < low) {
                    least = Some((ratio, i));
                }
            }
            // What exceeds a limit has a share of it, so someone has a pull.
            let (_, i) = least.expect("a limit is exceeded but nobody uses it");
            let segment = &tables.segments[i];
            let old = self.choice[i];
            place[i] += 1;
            let new = orders[i][place[i]];
            for ((sum, old), new) in shares.iter_mut().zip(segment.share(old)).zip(segment.share(new)) {
                *sum = *sum - old + new;
            }
            self.choose(i, new);
            // From low numbers to high, so that followers of followers go too.
            for follower in i + 1..tables.segments.len() {
                if self.choice[follower] != 0 && !self.may_have(follower) {
                    let given_up = tables.segments[follower].share(self.choice[follower]);
                    shares.iter_mut().zip(given_up).for_each(|(sum, share)| *sum -= share);
                    self.choose(follower, 0);
                }
            }
            steps += 1;
        }
        steps
    }

    /// Phase 2: segments with nothing, but not those whose leader has nothing,
    /// pick up what still fits, the greatest benefit first.
    fn pick_up(&mut self) -> u64 {
        let tables = self.tables;
        let mut pickups = 0;
        loop {
            let mut best: Option<(i64, usize, usize)> = None;
            for (i, segment) in tables.segments.iter().enumerate() {
                if self.choice[i] != 0 || !self.may_have(i) {
                    continue;
                }
                for option in 1..segment.count() {
                    let benefit = segment.benefit[option];
                    if best.is_none_or(|(most, ..)| benefit > most) && self.fits_beside(segment.usage(option)) {
                        best = Some((benefit, i, option));
                    }
                }
            }
            let Some((_, i, option)) = best else {
                return pickups;
            };
            self.choose(i, option);
            pickups += 1;
        }
    }

    fn fits_beside(&self, usage: &[u64]) -> bool {
        let rows = self.used.iter().zip(usage).zip(&self.tables.room);
        rows.into_iter().all(|((used, usage), room)| used + usage <= *room)
    }

    /// Phase 3: the first change of one or two segments that raises the total
    /// within the limits and respects leaders is made, and the search begins again.
    fn improve(&mut self) -> (u64, u64) {
        let tables = self.tables;
        let count = tables.segments.len();
        let mut rest = vec![0u64; tables.resources];
        let mut changes = 0;
        let mut tried = 0;
        'search: loop {
            for i in 0..count {
                let segment = &tables.segments[i];
                let held = self.choice[i];
                tried += segment.count() as u64;
                // What everybody else leaves of each resource.
                let rows = self.used.iter().zip(&tables.room).zip(segment.usage(held));
                for (rest, ((used, room), own)) in rest.iter_mut().zip(rows) {
                    *rest = room + own - used;
                }
                for option in 0..segment.count() {
                    // The one held doesn't rise, so it needs no test of its own.
                    let rises = segment.benefit[option] > segment.benefit[held];
                    if rises && within(segment.usage(option), &rest) && self.respects_leaders(&[(i, option)]) {
                        self.choose(i, option);
                        changes += 1;
                        continue 'search;
                    }
                }
            }
            for i in 0..count {
                let first = &tables.segments[i];
                let first_held = self.choice[i];
                for j in i + 1..count {
                    let second = &tables.segments[j];
                    let second_held = self.choice[j];
                    tried += (first.count() * second.count()) as u64;
                    let own = first.usage(first_held).iter().zip(second.usage(second_held));
                    let rows = self.used.iter().zip(&tables.room).zip(own);
                    for (rest, ((used, room), (one, two))) in rest.iter_mut().zip(rows) {
                        *rest = room + one + two - used;
                    }
                    let now = first.benefit[first_held] + second.benefit[second_held];
                    for a in 0..first.count() {
                        if a == first_held {
                            continue;
                        }
                        let missing = now - first.benefit[a];
                        let usage = first.usage(a);
                        // If the first alone has no room, no second will help.
                        if !within(usage, &rest) {
                            continue;
                        }
                        for (b, &benefit) in second.benefit.iter().enumerate() {
                            let rises = benefit > missing && b != second_held;
                            let fits = rises && both_within(usage, second.usage(b), &rest);
                            if fits && self.respects_leaders(&[(i, a), (j, b)]) {
                                self.choose(i, a);
                                self.choose(j, b);
                                changes += 1;
                                continue 'search;
                            }
                        }
                    }
                }
            }
            return (changes, tried);
        }
    }
}

fn within(usage: &[u64], rest: &[u64]) -> bool {
    usage.iter().zip(rest).all(|(usage, rest)| usage <= rest)
}

fn both_within(one: &[u64], two: &[u64], rest: &[u64]) -> bool {
    one.iter().zip(two).zip(rest).all(|((one, two), rest)| one + two <= *rest)
}
