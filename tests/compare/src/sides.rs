//! The families of records and orders for the sequence of side children: most jobs first,
//! equal ones by smallest job.

use crate::check::{Input, Tally};
use crate::families::{both_ways, compare_record};
use crate::generate::*;
use crate::runs::small_or_any;
use second::MOST_JOBS;

/// The tree's bytes; whether they are a record.
fn compare(rng: &mut Rng, tally: &mut Tally, tree: &Shape) -> bool {
    let hours = hours_within(rng, tree.jobs().len());
    compare_record(rng, tally, laid_out(tree, &hours)) != 11
}

pub const FORMER_PARTS: usize = 8;

/// Trees in the former order, by smallest job alone: every one on up to 6 jobs, and larger
/// ones.
pub fn former_order(rng: &mut Rng, part: usize, tally: &mut Tally) {
    for count in 1..=6 {
        let jobs: Vec<usize> = (0..count).collect();
        for tree in every_former(&jobs).iter().skip(part).step_by(FORMER_PARTS) {
            compare(rng, tally, tree);
        }
    }
    for round in 0..60 {
        let count = match round {
            0..=3 => rng.from(65, MOST_JOBS),
            _ => small_or_any(rng),
        };
        let tree = shape(rng, count, true);
        compare(rng, tally, &former(tree.clone()));
        let jobs = any_jobs(rng, count);
        let side = branches(rng, &jobs, count.div_ceil(4));
        compare(rng, tally, &former(side));
        // In one group alone.
        let mut tree = plain(tree);
        if tree.sides() > 0 {
            let mut ahead = rng.below(tree.sides());
            change_side(&mut tree, &mut ahead, &mut |children| {
                children.sort_by_cached_key(Shape::smallest_job);
            });
            compare(rng, tally, &tree);
        }
    }
}

/// The jobs side by side in branches of about so many, one more or one less.
fn branches(rng: &mut Rng, jobs: &[usize], about: usize) -> Shape {
    let mut rest = jobs;
    let mut children = Vec::new();
    while !rest.is_empty() {
        let size = rng.from(about.max(2) - 1, about + 1);
        let (part, others) = rest.split_at(size.min(rest.len()));
        children.push(branch(rng, part));
        rest = others;
    }
    group(true, children)
}

/// The jobs in a row, or in a chain of groups.
fn branch(rng: &mut Rng, jobs: &[usize]) -> Shape {
    match rng.below(3) {
        0 => uneven(rng, jobs, false, 3),
        1 => uneven(rng, jobs, false, MOST_JOBS),
        _ => group(false, leaves(jobs)),
    }
}

pub const SEQUENCE_PARTS: usize = 7;

/// Up to 6 jobs in rows side by side, the jobs and the rows in every sequence; up to 5 so
/// after one more job and ahead of it.
pub fn every_sequence(rng: &mut Rng, part: usize, tally: &mut Tally) {
    for count in 2..=6 {
        let jobs: Vec<usize> = (0..count).collect();
        for side in rows(&jobs).iter().skip(part).step_by(SEQUENCE_PARTS) {
            compare(rng, tally, side);
        }
        for &one in &jobs {
            let others: Vec<usize> = (0..count).filter(|&job| job != one).collect();
            for side in rows(&others).iter().skip(part).step_by(SEQUENCE_PARTS) {
                let one = Shape::Leaf(one);
                let after = vec![one.clone(), side.clone()];
                let ahead = vec![side.clone(), one];
                for children in [after, ahead] {
                    compare(rng, tally, &group(false, children));
                }
            }
        }
    }
}

/// Every sequence of the jobs, cut into two rows or more at every choice of places.
fn rows(jobs: &[usize]) -> Vec<Shape> {
    let mut sides = Vec::new();
    for sequence in sequences(jobs) {
        for cuts in 1..1 << (jobs.len() - 1) {
            let mut rows: Vec<Vec<usize>> = vec![Vec::new()];
            for (place, &job) in sequence.iter().enumerate() {
                rows.last_mut().unwrap().push(job);
                if cuts >> place & 1 == 1 {
                    rows.push(Vec::new());
                }
            }
            let each = rows.iter().map(|row| group(false, leaves(row)));
            sides.push(group(true, each.collect()));
        }
    }
    sides
}

fn sequences(jobs: &[usize]) -> Vec<Vec<usize>> {
    if jobs.is_empty() {
        return vec![Vec::new()];
    }
    let mut sequences = Vec::new();
    for first in 0..jobs.len() {
        let mut others = jobs.to_vec();
        let job = others.remove(first);
        for rest in self::sequences(&others) {
            sequences.push([&[job], &rest[..]].concat());
        }
    }
    sequences
}

pub const NEAR_PARTS: usize = 16;

/// Plain trees with two side children exchanged: every one on up to 5 jobs with each two
/// neighbours, larger ones with some; two branches of many jobs in both sequences.
pub fn nearly_in_order(rng: &mut Rng, part: usize, tally: &mut Tally) {
    for count in 2..=5 {
        let jobs: Vec<usize> = (0..count).collect();
        for tree in every_plain(&jobs).iter().skip(part).step_by(NEAR_PARTS) {
            for at in 0..tree.sides() {
                for left in 0..count - 1 {
                    exchange(rng, tally, tree, (at, left, left + 1));
                }
            }
        }
    }
    for _ in 0..24 {
        let count = small_or_any(rng).max(2);
        let jobs = any_jobs(rng, count);
        let about = rng.from(1, count.div_ceil(2));
        for tree in [shape(rng, count, true), branches(rng, &jobs, about)].map(plain) {
            some_exchanged(rng, tally, &tree);
        }
    }
    // Sizes that fill so many bits, or one more or one less.
    for first in [31, 32, 33, 63, 64, 65, 126, 127] {
        for rest in [1, 2, first - 1, first, first + 1, MOST_JOBS - first] {
            if first + rest <= MOST_JOBS {
                two_branches(rng, tally, first, rest);
            }
        }
    }
}

/// The tree with these two children of this side group exchanged, if it has both.
fn exchange(
    rng: &mut Rng,
    tally: &mut Tally,
    tree: &Shape,
    (at, left, right): (usize, usize, usize),
) {
    let mut tree = tree.clone();
    let mut has_both = false;
    change_side(&mut tree, &mut { at }, &mut |children| {
        has_both = left < right && right < children.len();
        if has_both {
            children.swap(left, right);
        }
    });
    if has_both {
        let is_record = compare(rng, tally, &tree);
        assert!(!is_record, "second itself reads side children out of order");
    }
}

/// The tree, and with two children of a side group exchanged: the first neighbours, the
/// last, some between, and any two.
fn some_exchanged(rng: &mut Rng, tally: &mut Tally, tree: &Shape) {
    let is_record = compare(rng, tally, tree);
    assert!(is_record, "second itself reads no record of a plain tree");
    if tree.sides() == 0 {
        return;
    }
    for _ in 0..3 {
        let at = rng.below(tree.sides());
        let mut children = 0;
        let mut counted = tree.clone();
        change_side(&mut counted, &mut { at }, &mut |all| children = all.len());
        let last = children - 1;
        let (left, one, other) = (rng.below(last), rng.below(children), rng.below(children));
        for (left, right) in [
            (0, 1),
            (last - 1, last),
            (left, left + 1),
            (one.min(other), one.max(other)),
        ] {
            exchange(rng, tally, tree, (at, left, right));
        }
    }
}

/// Two branches of these sizes, of any jobs, in both sequences.
fn two_branches(rng: &mut Rng, tally: &mut Tally, first: usize, rest: usize) {
    let jobs = any_jobs(rng, first + rest);
    let (one, other) = jobs.split_at(first);
    let (one, other) = (branch(rng, one), branch(rng, other));
    for children in [[one.clone(), other.clone()], [other, one]] {
        let side = group(true, children.map(plain).to_vec());
        compare(rng, tally, &side);
    }
}

/// The orders of branches of about the same number of jobs, and of two of which one has
/// many.
pub fn branch_orders(rng: &mut Rng, _: usize, tally: &mut Tally) {
    for round in 0..60 {
        let (count, about) = match round {
            0..=3 => (rng.from(65, MOST_JOBS), rng.from(30, 66)),
            _ => (rng.from(2, 24), rng.from(1, 6)),
        };
        let jobs = any_jobs(rng, count);
        let side = branches(rng, &jobs, about);
        compare_orders(rng, tally, &side);
    }
    for first in [63, 64, 65, 126, 127] {
        let count = rng.from(first + 1, MOST_JOBS);
        let jobs = any_jobs(rng, count);
        let (one, other) = jobs.split_at(first);
        let children = [one, other].map(|jobs| branch(rng, jobs));
        compare_orders(rng, tally, &group(true, children.to_vec()));
    }
}

/// The orders that the tree cannot do without, with areas long enough and with others.
fn compare_orders(rng: &mut Rng, tally: &mut Tally, tree: &Shape) {
    let count = tree.jobs().len();
    let mut orders = meant(tree).needed;
    rng.shuffle(&mut orders);
    both_ways(rng, tally, count, &orders);
    let hours = hours_within(rng, count);
    tally.compare_enough(&Input::Pairs(count as u16, list(&orders), hours));
}
