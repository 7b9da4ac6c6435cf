//! The family of orders with twins: jobs that are before the same jobs and after the same.

use crate::check::Tally;
use crate::families::both_ways;
use crate::generate::*;
use second::MOST_JOBS;

/// Kinds of jobs, numbered kind by kind; the jobs of a kind are twins, but where an order of
/// single jobs is left out or put in. Now and then some numbers are exchanged.
pub fn kinds_of_jobs(rng: &mut Rng, _: usize, tally: &mut Tally) {
    for round in 0..150 {
        let most = if round < 30 { MOST_JOBS } else { 24 };
        let kinds = rng.from(2, 10);
        let mut ends = vec![0];
        for kind in 0..kinds {
            let left = most - ends[kind] - (kinds - kind - 1);
            let most = rng.pick(&[1, left.min(2 * most / kinds)]);
            ends.push(ends[kind] + rng.from(1, most));
        }
        let count = ends[kinds];
        let mut orders = Vec::new();
        for (earlier, later) in of_kinds(rng, kinds) {
            for u in ends[earlier]..ends[earlier + 1] {
                orders.extend((ends[later]..ends[later + 1]).map(|v| (u, v)));
            }
        }
        if !orders.is_empty() && rng.percent(60) {
            orders.remove(rng.below(orders.len()));
        }
        if rng.percent(40) {
            orders.push((rng.below(count), rng.below(count)));
        }
        if rng.percent(30) {
            let mut names: Vec<usize> = (0..count).collect();
            (0..rng.from(1, 4)).for_each(|_| names.swap(rng.below(count), rng.below(count)));
            orders = orders.iter().map(|&(u, v)| (names[u], names[v])).collect();
        }
        both_ways(rng, tally, count, &orders);
    }
}

/// The orders that a tree of so many jobs cannot do without, now and then with one more.
fn of_kinds(rng: &mut Rng, kinds: usize) -> Orders {
    let mut orders = meant(&shape(rng, kinds, false)).needed;
    let (first, second) = (rng.below(kinds), rng.below(kinds));
    if first != second && rng.percent(20) {
        orders.push((first, second));
    }
    orders
}
