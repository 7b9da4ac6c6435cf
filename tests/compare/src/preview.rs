//! The orders that are previewed on every pair list, and the families of pair lists with
//! one more order for these previews alone.

use crate::check::Tally;
use crate::generate::*;
use crate::reason::no_job;
use second::{MOST_JOBS, MOST_ORDERS};
use std::collections::BTreeSet;

type Order = (u16, u16);

/// An order drawn by the list alone, on the list, and its last order on those ahead.
pub fn some_orders(count: u16, list: &[u16]) -> Vec<(&[u16], Order)> {
    let bytes: Vec<u8> = list.iter().flat_map(|n| n.to_le_bytes()).collect();
    let drawn = any_order(&mut rng_of(&bytes), count as usize, list);
    let mut some = vec![(list, drawn)];
    if let Some((ahead, &[first, second])) = list.split_last_chunk() {
        some.push((ahead, (first, second)));
    }
    some
}

/// How many jobs an order can name where the count says so many.
fn jobs_of(count: usize) -> usize {
    count.clamp(1, MOST_JOBS)
}

/// Mostly two jobs; else a job with itself or with what is no job, or an order of the
/// list again or turned.
fn any_order(rng: &mut Rng, count: usize, list: &[u16]) -> Order {
    let kinds = each_kind(rng, count, list);
    match rng.below(12) {
        kind @ 0..=5 => kinds[kind + 1],
        _ => kinds[0],
    }
}

/// Two jobs, a job with itself, with what is no job both ways round, an order of the list
/// again and turned, two numbers that are no jobs.
fn each_kind(rng: &mut Rng, count: usize, list: &[u16]) -> [Order; 7] {
    let jobs = jobs_of(count);
    let (one, other) = (rng.below(jobs) as u16, rng.below(jobs) as u16);
    let off = no_job(rng, jobs) as u16;
    let beside = rng.pick(&[off, jobs as u16, 65_535]);
    let (first, second) = match list.len() / 2 {
        0 => (other, one),
        orders => {
            let at = 2 * rng.below(orders);
            (list[at], list[at + 1])
        }
    };
    [
        (one, other),
        (one, one),
        (one, off),
        (off, one),
        (first, second),
        (second, first),
        (off, beside),
    ]
}

/// Each of these orders on the list.
fn compare(tally: &mut Tally, count: usize, list: &[u16], hours: &[u16], orders: &[Order]) {
    for &order in orders {
        tally.compare_preview(count as u16, list, hours, order);
    }
}

/// Every two of the numbers, each with itself too.
fn every_two(numbers: &[u16]) -> Vec<Order> {
    let with_each = |&first: &u16| numbers.iter().map(move |&second| (first, second));
    numbers.iter().flat_map(with_each).collect()
}

/// The jobs, the number after the last and the last number of 16 bits.
fn numbers_to(count: usize) -> Vec<u16> {
    let mut numbers: Vec<u16> = (0..=count as u16).collect();
    numbers.push(65_535);
    numbers
}

pub const SHORT_PARTS: usize = 8;

/// Every list of up to 6 numbers that are jobs of up to 3 or the number after the last,
/// odd ones too; every two of these numbers and 65,535.
pub fn short_lists(rng: &mut Rng, part: usize, tally: &mut Tally) {
    for count in 0..=3 {
        let orders = every_two(&numbers_to(count));
        for length in 0..=6 {
            for choice in (part..(count + 1).pow(length)).step_by(SHORT_PARTS) {
                let mut choice = choice;
                let mut list = Vec::new();
                for _ in 0..length {
                    list.push((choice % (count + 1)) as u16);
                    choice /= count + 1;
                }
                let hours = hours_within(rng, count);
                compare(tally, count, &list, &hours, &orders);
            }
        }
    }
}

pub const RELATION_PARTS: usize = 16;

/// Every relation on up to 3 jobs, and on 4 jobs every one without an order from a job to
/// itself; every two of the jobs, the number after them and 65,535.
pub fn every_relation(rng: &mut Rng, part: usize, tally: &mut Tally) {
    for count in 1..=4 {
        let pairs = (0..count).flat_map(|u| (0..count).map(move |v| (u, v)));
        let pairs: Orders = pairs.filter(|(u, v)| count < 4 || u != v).collect();
        let numbers = every_two(&numbers_to(count));
        for relation in (part..1 << pairs.len()).step_by(RELATION_PARTS) {
            let chosen = (0..pairs.len()).filter(|i| relation >> i & 1 == 1);
            let mut orders: Orders = chosen.map(|i| pairs[i]).collect();
            rng.shuffle(&mut orders);
            let hours = hours_within(rng, count);
            compare(tally, count, &list(&orders), &hours, &numbers);
        }
    }
}

pub const ORDER_PARTS: usize = 16;

/// Every circle-free order on 5 and 6 jobs, by all relations that go along one ranking of
/// the jobs; every two of these.
pub fn every_order(rng: &mut Rng, part: usize, tally: &mut Tally) {
    for count in [5, 6] {
        let along = (0..count).flat_map(|v| (0..v).map(move |u| (u, v)));
        let along: Orders = along.collect();
        let every: Vec<u16> = (0..count as u16).collect();
        let every = every_two(&every);
        for relation in (part..1 << along.len()).step_by(ORDER_PARTS) {
            let jobs = any_jobs(rng, count);
            let chosen = (0..along.len()).filter(|i| relation >> i & 1 == 1);
            let ranked = chosen.map(|i| (jobs[along[i].0], jobs[along[i].1]));
            let mut orders: Orders = ranked.collect();
            rng.shuffle(&mut orders);
            let hours = hours_within(rng, count);
            compare(tally, count, &list(&orders), &hours, &every);
        }
    }
}

/// The orders of trees, as they are, with one or two left out, one turned and one too many:
/// those left out, some that follow from the tree, the same turned, and any.
pub fn near_trees(rng: &mut Rng, _: usize, tally: &mut Tally) {
    for round in 0..250 {
        let count = match round {
            0..=9 => rng.from(64, MOST_JOBS),
            10 => MOST_JOBS,
            _ => job_count(rng).max(2),
        };
        near_tree(rng, tally, count);
    }
}

fn near_tree(rng: &mut Rng, tally: &mut Tally, count: usize) {
    let meant = meant(&shape(rng, count, false));
    let (mut orders, all) = (meant.needed, meant.all);
    rng.shuffle(&mut orders);
    orders.truncate(MOST_ORDERS - 2);
    let turned = |(u, v): (usize, usize)| (v, u);
    let hours = hours_within(rng, count);
    let mut compare_some = |rng: &mut Rng, orders: &[(usize, usize)], more: &[(usize, usize)]| {
        let mut previewed = more.to_vec();
        previewed.extend([0; 3].map(|_| (rng.below(count), rng.below(count))));
        if !all.is_empty() {
            let follows = rng.pick(&all);
            previewed.extend([follows, turned(follows)]);
        }
        let previewed = previewed.iter().map(|&(u, v)| (u as u16, v as u16));
        let previewed: Vec<Order> = previewed.collect();
        compare(tally, count, &list(orders), &hours, &previewed);
    };
    let (job, off) = (rng.below(count), no_job(rng, count));
    compare_some(rng, &orders, &[(job, job), (job, off), (off, job)]);
    if let Some((&last, others)) = orders.split_last() {
        compare_some(rng, others, &[last, turned(last)]);
        if let Some((&other, fewer)) = others.split_last() {
            compare_some(rng, fewer, &[last, other]);
            let with_turned = [fewer, &[turned(other)]].concat();
            compare_some(rng, &with_turned, &[last, other]);
        }
    }
    let more = (job, (job + rng.from(1, count - 1)) % count);
    orders.insert(rng.below(orders.len() + 1), more);
    compare_some(rng, &orders, &[more, turned(more)]);
}

/// What may be wrong with a list.
#[derive(Clone, Copy)]
enum Wrong {
    Nothing,
    Outside,
    Itself,
    Turned,
    Other,
}

const WRONGS: [Wrong; 5] = [
    Wrong::Nothing,
    Wrong::Outside,
    Wrong::Itself,
    Wrong::Turned,
    Wrong::Other,
];

/// Two orders or more, with the one at this place exchanged: by one that names no job,
/// puts a job before itself, turns another, or is of any two jobs.
fn made_wrong(rng: &mut Rng, count: usize, orders: &Orders, wrong: Wrong, at: usize) -> Vec<u16> {
    let jobs = jobs_of(count);
    let mut orders = orders.clone();
    let (job, off) = (rng.below(jobs), no_job(rng, jobs));
    let (u, v) = orders[(at + rng.from(1, orders.len() - 1)) % orders.len()];
    orders[at] = match wrong {
        Wrong::Nothing => orders[at],
        Wrong::Outside => rng.pick(&[(job, off), (off, job), (off, off)]),
        Wrong::Itself => (job, job),
        Wrong::Turned => (v, u),
        Wrong::Other => (job, rng.below(jobs)),
    };
    list(&orders)
}

/// Two orders or more of a tree, at most so many.
fn some_tree_orders(rng: &mut Rng, count: usize, most: usize) -> Orders {
    let mut orders = series_parallel(rng, count);
    while orders.len() < 2 {
        orders.push((0, count - 1));
    }
    orders.truncate(most);
    orders
}

/// Faults of the list, at its first place, its last and one between, beside those of the
/// order.
pub fn two_faults(rng: &mut Rng, _: usize, tally: &mut Tally) {
    for _ in 0..18 {
        let count = job_count(rng).max(2);
        let orders = some_tree_orders(rng, count, 200);
        let hours = hours_within(rng, count);
        for wrong in WRONGS {
            let last = orders.len() - 1;
            for at in [0, rng.from(0, last), last] {
                let list = made_wrong(rng, count, &orders, wrong, at);
                let previewed = each_kind(rng, count, &list);
                compare(tally, count, &list, &hours, &previewed);
            }
        }
    }
}

pub const WRONG_PARTS: usize = WRONGS.len();

const FULL_COUNTS: [usize; 9] = [128, 127, 4, 2, 1, 0, 129, 256, 65_535];
const FULL_LENGTHS: [usize; 11] = [
    4094, 4095, 4096, 4097, 4098, 8192, 32_767, 32_768, 32_770, 65_536, 65_538,
];

/// Lists about as long as the longest, and so long that 16 bits do not number them, with
/// something wrong for each part but the first; hours for each job, or wrong too.
pub fn full_lists(rng: &mut Rng, part: usize, tally: &mut Tally) {
    for count in FULL_COUNTS {
        let jobs = jobs_of(count);
        let half = jobs.div_ceil(2);
        // Up to 4,096 different orders, and few.
        let after = half.min(jobs - 1);
        let wide = (0..half).flat_map(|u| (after..jobs).map(move |v| (u, v)));
        let few = (0..half).map(|u| (u, jobs - 1)).take(3);
        for own in [wide.collect(), few.collect::<Orders>()] {
            for length in FULL_LENGTHS {
                full_list(rng, tally, (count, &own, length), WRONGS[part]);
            }
        }
    }
    if part == 0 {
        last_of_full(rng, tally);
    }
}

/// A list of so many orders, each one of these.
fn full_list(
    rng: &mut Rng,
    tally: &mut Tally,
    (count, own, length): (usize, &Orders, usize),
    wrong: Wrong,
) {
    let mut orders: Orders = own.iter().copied().take(length).collect();
    orders.resize_with(length, || rng.pick(own));
    rng.shuffle(&mut orders);
    let any = rng.below(length);
    let at = rng.pick(&[0, any, length - 1]);
    let list = made_wrong(rng, count, &orders, wrong, at);
    let kinds = each_kind(rng, count, &list);
    let right = hours_within(rng, count);
    if length > MOST_ORDERS + 2 {
        compare(tally, count, &list, &right, &kinds[..2]);
        return;
    }
    compare(tally, count, &list, &right, &kinds);
    for _ in 0..2 {
        let other = wrong_hours(rng, count);
        compare(tally, count, &list, &other, &[rng.pick(&kinds)]);
    }
    let more = [0; 6].map(|_| each_kind(rng, count, &list)[0]);
    compare(tally, count, &list, &right, &more);
}

/// Each of some of 4,096 different orders on the others, and on all: of 64 jobs before 64,
/// the most reduced orders, and of groups as deep as they go, the longest record.
fn last_of_full(rng: &mut Rng, tally: &mut Tally) {
    let jobs = any_jobs(rng, MOST_JOBS);
    let wide = (0..64).flat_map(|u| (64..MOST_JOBS).map(move |v| (u, v)));
    let even = (0..MOST_JOBS).step_by(2);
    let deep = even.flat_map(|u| (u + 1..MOST_JOBS).map(move |v| (u, v)));
    for orders in [wide.collect::<Orders>(), deep.collect()] {
        assert_eq!(orders.len(), MOST_ORDERS);
        let named = orders.iter().map(|&(u, v)| (jobs[u], jobs[v]));
        let orders: Orders = named.collect();
        let hours = hours_within(rng, MOST_JOBS);
        for at in [0, rng.below(MOST_ORDERS), MOST_ORDERS - 1] {
            let mut others = orders.clone();
            let (u, v) = others.remove(at);
            let both = [(u as u16, v as u16), (v as u16, u as u16)];
            compare(tally, MOST_JOBS, &list(&others), &hours, &both);
            compare(tally, MOST_JOBS, &list(&orders), &hours, &both);
        }
    }
}

/// Hours for too few jobs or too many, or with one above the most.
fn wrong_hours(rng: &mut Rng, count: usize) -> Vec<u16> {
    let lengths = [0, count.saturating_sub(1), count + 1, 256 + count];
    let mut hours = match rng.below(3) {
        0 => {
            let length = rng.pick(&lengths);
            hours_within(rng, length)
        }
        _ => hours_within(rng, count),
    };
    if !hours.is_empty() {
        let any = rng.below(hours.len());
        let job = rng.pick(&[0, any, hours.len() - 1]);
        hours[job] = rng.pick(&[4095, 4096, 65_535]);
    }
    hours
}

const ODD_COUNTS: [usize; 9] = [0, 1, 2, 5, 128, 129, 256, 32_768, 65_535];
const ODD_LENGTHS: [usize; 12] = [
    1, 3, 5, 7, 255, 8189, 8191, 8193, 8195, 65_533, 65_535, 65_537,
];
pub const ODD_PARTS: usize = 4;

/// Odd lists, short, about as long as the longest and longer: of good orders and of bad
/// ones, by the part.
pub fn odd_lists(rng: &mut Rng, part: usize, tally: &mut Tally) {
    for count in ODD_COUNTS {
        let jobs = jobs_of(count) as u16;
        let job = rng.below(jobs as usize) as u16;
        let numbers: [&[u16]; ODD_PARTS] = [&[0, jobs - 1], &[job], &[jobs], &[0, 65_535]];
        for length in ODD_LENGTHS {
            let list: Vec<u16> = numbers[part].iter().copied().cycle().take(length).collect();
            let kinds = each_kind(rng, count, &list);
            let right = hours_within(rng, count);
            let other = wrong_hours(rng, count);
            for hours in [right, other, Vec::new()] {
                let previewed = match length {
                    0..1000 => &kinds[..],
                    _ => &[rng.pick(&kinds), rng.pick(&kinds)],
                };
                compare(tally, count, &list, &hours, previewed);
            }
        }
    }
}

const HOURS_COUNTS: [usize; 9] = [1, 2, 5, 64, 127, 128, 0, 129, 65_535];
const ABOVE: [u16; 4] = [4096, 4095, 8192, 65_535];
pub const HOURS_PARTS: usize = ABOVE.len();

/// Hours lists of several lengths, with 4,095, 4,096 or more, by the part, at the first
/// job, the last and one between, beside what is tested ahead and after.
pub fn hours(rng: &mut Rng, part: usize, tally: &mut Tally) {
    for count in HOURS_COUNTS {
        let jobs = jobs_of(count);
        let tree = some_tree_orders(rng, jobs.max(2), 100);
        let full = vec![(0, jobs - 1); MOST_ORDERS];
        let mut lists = vec![Vec::new(), vec![0; 3], list(&full), list(&full[1..])];
        for wrong in WRONGS {
            let at = rng.below(tree.len());
            lists.push(made_wrong(rng, count, &tree, wrong, at));
        }
        let mut lengths = BTreeSet::from([0, 1, 127, 128, 129, 256 + count, 65_536 + count]);
        lengths.extend([count, count + 1, count.saturating_sub(1)]);
        for length in lengths {
            let places = BTreeSet::from([0, length / 2, length.saturating_sub(1)]);
            // That job alone, and all from there on.
            for (from, to) in places.iter().flat_map(|&at| [(at, at + 1), (at, length)]) {
                let mut hours = hours_within(rng, length);
                if let Some(hours) = hours.get_mut(from..to) {
                    hours.fill(ABOVE[part]);
                }
                for list in &lists {
                    let kinds = each_kind(rng, count, list);
                    let previewed = match list.len().max(length) {
                        0..1000 => &[kinds[0], rng.pick(&kinds), rng.pick(&kinds)][..],
                        _ => &[rng.pick(&kinds)],
                    };
                    compare(tally, count, list, &hours, previewed);
                }
            }
        }
    }
}

const EDGE_COUNTS: [usize; 10] = [128, 127, 65, 64, 63, 2, 1, 129, 0, 65_535];
pub const EDGE_PARTS: usize = 4;

/// Orders between numbers about the first job, the 64th, the last and the one after it: by
/// the part on two groups one before the other, on a series, turned as well, and on none.
pub fn edges(rng: &mut Rng, part: usize, tally: &mut Tally) {
    for count in EDGE_COUNTS {
        let jobs = jobs_of(count);
        let mut numbers = BTreeSet::from([0, 1, 62, 63, 64, 65, 126, 127, 128, 129, 255, 256]);
        numbers.extend([jobs - 1, jobs, 256 + jobs - 1, 32_768, 65_280, 65_535]);
        let numbers: Vec<u16> = numbers.into_iter().map(|number| number as u16).collect();
        let half = jobs / 2;
        // The last jobs are in none of these.
        let groups = (0..half).flat_map(|u| (half..jobs.max(3) - 3).map(move |v| (u, v)));
        let series = (1..jobs).map(|job| (job - 1, job));
        let turned = (1..jobs).map(|job| (job, job - 1));
        let orders: Orders = match part {
            0 => groups.collect(),
            1 => series.collect(),
            2 => turned.collect(),
            _ => Vec::new(),
        };
        let hours = hours_within(rng, count);
        compare(tally, count, &list(&orders), &hours, &every_two(&numbers));
    }
}
