//! The families of pair lists for their joins alone.

use crate::check::Tally;
use crate::generate::*;
use second::{MOST_JOBS, MOST_ORDERS};
use std::collections::BTreeSet;

fn compare(tally: &mut Tally, count: usize, orders: &[(usize, usize)]) {
    tally.compare_joins(count as u16, &list(orders));
}

/// Each order once or more, up to so many times, shuffled.
fn repeated(rng: &mut Rng, orders: &[(usize, usize)], most: usize) -> Orders {
    let mut repeated = Vec::new();
    for &order in orders {
        repeated.resize(repeated.len() + rng.from(1, most), order);
    }
    rng.shuffle(&mut repeated);
    repeated
}

/// The orders as they are, and each up to five times.
fn compare_repeated(rng: &mut Rng, tally: &mut Tally, count: usize, orders: &[(usize, usize)]) {
    compare(tally, count, orders);
    compare(tally, count, &repeated(rng, orders, 5));
}

/// So many orders along one ranking of two jobs or more, and so no circle.
fn along_ranking(rng: &mut Rng, count: usize, orders: usize) -> Orders {
    let jobs = any_jobs(rng, count);
    let mut order = || {
        let later = rng.from(1, count - 1);
        (jobs[rng.below(later)], jobs[later])
    };
    (0..orders).map(|_| order()).collect()
}

/// The orders of a series of the jobs.
fn series_of(jobs: &[usize]) -> Orders {
    jobs.windows(2).map(|pair| (pair[0], pair[1])).collect()
}

fn turned(orders: &[(usize, usize)]) -> Orders {
    orders.iter().map(|&(u, v)| (v, u)).collect()
}

/// So many jobs forwards, backwards and in any sequence.
fn each_sequence(rng: &mut Rng, count: usize) -> [Vec<usize>; 3] {
    let forwards: Vec<usize> = (0..count).collect();
    let backwards = forwards.iter().rev().copied().collect();
    [forwards, backwards, any_jobs(rng, count)]
}

/// Each order up to five times, twice with nothing between, and twice with all
/// others between.
pub fn repeated_orders(rng: &mut Rng, _: usize, tally: &mut Tally) {
    for round in 0..180 {
        let count = job_count(rng).max(2);
        let orders = match round % 3 {
            0 => series_parallel(rng, count),
            1 => any_graph(rng, count),
            _ => {
                let orders = rng.below(3 * count);
                along_ranking(rng, count, orders)
            }
        };
        compare_repeated(rng, tally, count, &orders);
        compare(tally, count, &repeated(rng, &orders, 2));
        let next: Orders = orders.iter().flat_map(|&order| [order; 2]).collect();
        compare(tally, count, &next);
        compare(tally, count, &orders.repeat(2));
    }
}

/// 4,096 orders, and some more or fewer: few of them different, many or all.
pub fn many_orders(rng: &mut Rng, part: usize, tally: &mut Tally) {
    for round in 0..24 {
        let count = match round % 4 {
            0 => rng.from(2, 10),
            1 => MOST_JOBS,
            _ => rng.from(11, MOST_JOBS),
        };
        let length = match round % 6 {
            0 => rng.from(MOST_ORDERS - 1, MOST_ORDERS + 1),
            1 => rng.from(MOST_ORDERS + 1, 9000),
            _ => MOST_ORDERS,
        };
        let drawn = rng.from(1, length);
        let drawn = rng.pick(&[drawn, drawn.min(3 * count), length]);
        let mut orders = along_ranking(rng, count, drawn);
        if rng.percent(40) {
            // A circle, perhaps.
            let at = rng.below(drawn);
            orders[at] = (rng.below(count), rng.below(count));
        }
        while orders.len() < length {
            let order = rng.pick(&orders[..drawn]);
            orders.push(order);
        }
        rng.shuffle(&mut orders);
        compare(tally, count, &orders);
    }
    // All different: 64 jobs before 64, and some of any 92 jobs.
    let jobs = any_jobs(rng, MOST_JOBS);
    let wide = (0..64).flat_map(|i| (64..MOST_JOBS).map(move |j| (i, j)));
    let mut wide: Orders = wide.map(|(i, j)| (jobs[i], jobs[j])).collect();
    rng.shuffle(&mut wide);
    let dense = (0..92).flat_map(|j| (0..j).map(move |i| (i, j)));
    let mut dense: Orders = dense.map(|(i, j)| (jobs[i], jobs[j])).collect();
    rng.shuffle(&mut dense);
    for orders in [&wide[..], &dense, &dense[..MOST_ORDERS]] {
        compare(tally, MOST_JOBS, orders);
        compare(tally, MOST_JOBS, &turned(orders));
        let (u, v) = rng.pick(orders);
        compare(tally, MOST_JOBS, &[orders, &[(v, u)]].concat());
        compare(tally, MOST_JOBS, &[orders, &[(u, v)]].concat());
    }
    if part == 0 {
        for length in [32_767, 32_768, 65_535, 65_536, 65_537, 70_000] {
            let mut orders = vec![(0, 1); length];
            compare(tally, 3, &orders);
            orders[length - 1] = (1, 2);
            compare(tally, 3, &orders);
            orders[length / 2] = (2, 0);
            compare(tally, 3, &orders);
        }
    }
}

pub const RELATION_PARTS: usize = 8;

/// Every relation on 3 jobs, orders from a job to itself among them, the jobs
/// numbered from 0, in other sequences and further up.
pub fn every_relation(rng: &mut Rng, part: usize, tally: &mut Tally) {
    for relation in (part..1 << 9).step_by(RELATION_PARTS) {
        let any = any_jobs(rng, MOST_JOBS);
        for (count, jobs) in [
            (3, [0, 1, 2]),
            (3, [2, 0, 1]),
            (4, [3, 2, 0]),
            (65, [63, 64, 0]),
            (MOST_JOBS, [127, 64, 63]),
            (MOST_JOBS, [any[0], any[1], any[2]]),
            // Refused, unless the last job is in no order.
            (2, [0, 1, 2]),
        ] {
            let chosen = (0..9).filter(|i| relation >> i & 1 == 1);
            let orders: Orders = chosen.map(|i| (jobs[i / 3], jobs[i % 3])).collect();
            compare_repeated(rng, tally, count, &orders);
        }
    }
}

/// Relations on 4 to 6 jobs: any, without orders from a job to itself, and along
/// a ranking, which then has an order back now and then.
pub fn small_relations(rng: &mut Rng, _: usize, tally: &mut Tally) {
    for round in 0..1200 {
        let count = rng.from(4, 6);
        let rank = any_jobs(rng, count);
        let chance = rng.pick(&[5, 15, 30, 50, 80]);
        let back = rng.pick(&[0, 0, 1, 5]);
        let mut orders = Vec::new();
        for u in 0..count {
            for v in 0..count {
                let chance = match round % 4 {
                    0 => chance,
                    1 if u == v => 0,
                    1 => chance,
                    _ if rank[u] < rank[v] => chance,
                    _ => back,
                };
                if rng.percent(chance) {
                    orders.push((u, v));
                }
            }
        }
        compare_repeated(rng, tally, count, &orders);
    }
}

pub const SERIES_PARTS: usize = 16;

/// Series of every number of jobs: alone, with orders that follow from it, closed
/// to a circle, with an order back and with one from a job to itself.
pub fn series(rng: &mut Rng, part: usize, tally: &mut Tally) {
    for count in (2..=MOST_JOBS - part).rev().step_by(SERIES_PARTS) {
        for jobs in each_sequence(rng, count) {
            let series = series_of(&jobs);
            compare_repeated(rng, tally, count, &series);
            let backwards: Orders = series.iter().rev().copied().collect();
            compare(tally, count, &backwards);

            let mut more = series.clone();
            for _ in 0..rng.from(1, 2 * count) {
                let later = rng.from(1, count - 1);
                more.push((jobs[rng.below(later)], jobs[later]));
            }
            compare_repeated(rng, tally, count, &more);

            let later = rng.from(1, count - 1);
            let back = (jobs[later], jobs[rng.below(later)]);
            for circle in [(jobs[count - 1], jobs[0]), back, (jobs[later], jobs[later])] {
                let orders = [&series[..], &[circle]].concat();
                compare_repeated(rng, tally, count, &orders);
                let orders = [&more[..], &[circle]].concat();
                compare(tally, count, &orders);
            }
        }
    }
}

/// A series into a circle and one out of it; a circle with dense orders among the
/// other jobs, which lead into it or come after it. The circle's jobs are the first
/// ones, the last or any.
pub fn late_circles(rng: &mut Rng, _: usize, tally: &mut Tally) {
    for _ in 0..16 {
        let count = if rng.percent(30) {
            rng.from(2, MOST_JOBS)
        } else {
            rng.from(2, 30)
        };
        let any = rng.from(1, count);
        let circle = rng.pick(&[1, 2, any.min(5), any]);
        for jobs in each_sequence(rng, count) {
            let (rest, on_circle) = jobs.split_at(count - circle);
            let mut orders = series_of(&jobs);
            orders.push((on_circle[circle - 1], on_circle[0]));
            compare_repeated(rng, tally, count, &orders);
            compare_repeated(rng, tally, count, &turned(&orders));

            let mut orders = series_of(on_circle);
            orders.push((on_circle[circle - 1], on_circle[0]));
            let chance = rng.pick(&[10, 50, 100]);
            for (i, &u) in rest.iter().enumerate() {
                let later = rest[i + 1..].iter().map(|&v| (u, v));
                orders.extend(later.filter(|_| rng.percent(chance)));
            }
            // The dense orders alone beside the circle, one way into it, and many.
            compare(tally, count, &orders);
            for most in [1, count] {
                if !rest.is_empty() {
                    for _ in 0..most {
                        orders.push((rng.pick(rest), rng.pick(on_circle)));
                    }
                }
                rng.shuffle(&mut orders);
                compare(tally, count, &orders);
                compare(tally, count, &turned(&orders));
            }
        }
    }
}

pub const COUNTS: [usize; 15] = [
    128, 127, 129, 130, 0, 1, 2, 63, 64, 65, 255, 256, 257, 32_768, 65_535,
];

/// Orders between jobs about the first, the 64th, the last and the one after it,
/// alone, beside others and with one number more; every pair of the jobs.
pub fn edges(rng: &mut Rng, part: usize, tally: &mut Tally) {
    let count = COUNTS[part];
    let stated = count as u16;
    let mut jobs = BTreeSet::from([0, 1, 62, 63, 64, 65, 126, 127, 128, 255, 256, 65_535]);
    jobs.extend([count.saturating_sub(1), count, (count + 1).min(65_535)]);
    tally.compare_joins(stated, &[]);
    let series = series_of(&any_jobs(rng, count.min(MOST_JOBS)));
    compare(tally, count, &series);
    for &u in &jobs {
        tally.compare_joins(stated, &[u as u16]);
        tally.compare_joins(stated, &[&list(&series)[..], &[u as u16]].concat());
        for &v in &jobs {
            compare(tally, count, &[(u, v)]);
            compare(tally, count, &[(u, v), (u, v)]);
            compare(tally, count, &[(u, v), (v, u)]);
            let third = rng.below(count.min(MOST_JOBS) + 1);
            tally.compare_joins(stated, &[u as u16, v as u16, third as u16]);
            compare(tally, count, &[(u, v), (v, third), (u, third)]);
            let mut orders = series.clone();
            orders.insert(rng.below(series.len() + 1), (u, v));
            compare(tally, count, &orders);
        }
    }
    // One job too many is enough.
    let most = count.min(MOST_JOBS + 1);
    let pairs = (0..most).flat_map(|u| (0..most).map(move |v| (u, v)));
    let pairs: Orders = pairs.collect();
    let which: [fn(usize, usize) -> bool; 4] =
        [|_, _| true, |u, v| u != v, |u, v| u < v, |u, v| u > v];
    for among in which {
        let mut orders = pairs.clone();
        orders.retain(|&(u, v)| among(u, v));
        compare(tally, count, &orders);
        rng.shuffle(&mut orders);
        compare(tally, count, &orders);
    }
}

/// A number of a list that is no job, lists with one number more, and other
/// counts.
pub fn refused(rng: &mut Rng, _: usize, tally: &mut Tally) {
    for _ in 0..250 {
        let count = job_count(rng).max(2);
        let orders = if rng.percent(50) {
            let orders = rng.from(1, 3 * count);
            along_ranking(rng, count, orders)
        } else {
            any_graph(rng, count)
        };
        let mut list = list(&repeated(rng, &orders, 2));
        for stated in [count - 1, count, MOST_JOBS, MOST_JOBS + 1, 256 + count] {
            tally.compare_joins(stated as u16, &list);
        }
        let any = rng.below(65_536);
        let off = rng.pick(&[count, 256, 256 + count, 32_768, 65_535, any]) as u16;
        list.push(off);
        tally.compare_joins(count as u16, &list);
        list.push(0);
        tally.compare_joins(count as u16, &list);
        list.truncate(list.len() - 2);
        if !list.is_empty() {
            for at in [0, list.len() - 1, rng.below(list.len())] {
                let mut list = list.clone();
                list[at] = off;
                tally.compare_joins(count as u16, &list);
            }
        }
    }
}
