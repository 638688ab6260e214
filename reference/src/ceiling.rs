//! The ceiling: a total no programme within the limits can pass.

use crate::tables::Tables;

/// Searches prices from large steps to small ones and gives the lowest
/// ceiling found. All values stay below 10^18: a price is below 2^41, a
/// down-share at most 10,000, and there are at most 16 resources.
pub fn ceiling(tables: &Tables) -> i64 {
    // All candidates in a row; `ends` marks where each segment's stop. `net`
    // is a candidate's benefit less its down-shares at the prices held.
    let mut net: Vec<i64> = Vec::new();
    let mut ends: Vec<usize> = Vec::new();
    let mut down: Vec<Vec<i64>> = vec![Vec::new(); tables.resources];
    for segment in &tables.segments {
        for option in 1..segment.count() {
            net.push(segment.benefit[option]);
            for (column, &share) in down.iter_mut().zip(segment.down_share(option)) {
                column.push(share as i64);
            }
        }
        ends.push(net.len());
    }

    let mut prices = vec![0i64; tables.resources];
    let mut price_sum = 0i64;
    let mut held = worth(&net, &ends, &down[0], 0);
    for power in (0..=40).rev() {
        let step = 1i64 << power;
        for r in 0..tables.resources {
            for change in [step, -step] {
                if prices[r] + change < 0 {
                    continue;
                }
                let trial = 10_000 * (price_sum + change) + worth(&net, &ends, &down[r], change);
                if trial < held {
                    held = trial;
                    prices[r] += change;
                    price_sum += change;
                    for (net, down) in net.iter_mut().zip(&down[r]) {
                        *net -= change * down;
                    }
                    break;
                }
            }
        }
    }
    held
}

/// The segments' part of the ceiling if one price changed by `change`: for
/// each segment the best candidate's net benefit, or 0.
fn worth(net: &[i64], ends: &[usize], down: &[i64], change: i64) -> i64 {
    let mut sum = 0;
    let mut start = 0;
    for &end in ends {
        let mut best = 0;
        for (net, down) in net[start..end].iter().zip(&down[start..end]) {
            best = best.max(net - change * down);
        }
        sum += best;
        start = end;
    }
    sum
}
