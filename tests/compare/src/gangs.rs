//! The families of records whose shapes matter for gangs.

use crate::check::Tally;
use crate::generate::*;
use crate::runs::small_or_any;
use second::MOST_JOBS;

/// The record of a tree with no hours, the most, both mixed, and any.
fn compare(rng: &mut Rng, tally: &mut Tally, tree: &Shape) {
    let count = tree.jobs().len();
    let mixed = (0..count).map(|_| rng.pick(&[0, 4095])).collect();
    let any = (0..count).map(|_| rng.below(4096) as u16).collect();
    for hours in [vec![0; count], vec![4095; count], mixed, any] {
        tally.compare_questions(&laid_out(tree, &hours));
    }
}

/// Chains and side groups in turn, from two to as many in each other as there can be,
/// their children of unequal widths: four such trees a round. Of a chain these stay as
/// they were drawn.
pub fn uneven_trees(rng: &mut Rng, rounds: usize, mut each: impl FnMut(&mut Rng, &Shape)) {
    for round in 0..rounds {
        let count = small_or_any(rng);
        let mut jobs: Vec<usize> = (0..count).collect();
        if round % 2 == 1 {
            rng.shuffle(&mut jobs);
        }
        for depth in [2, 3, 4, MOST_JOBS] {
            let side = rng.percent(50);
            let tree = plain(uneven(rng, &jobs, side, depth));
            each(rng, &tree);
        }
    }
}

pub fn unequal_widths(rng: &mut Rng, _: usize, tally: &mut Tally) {
    uneven_trees(rng, 120, |rng, tree| compare(rng, tally, tree));
}

pub const NUMBER_PARTS: usize = 16;

/// Trees of so many gangs: so many free jobs in a chain with single jobs and with smaller
/// side groups, and at the heads of as many chains, one of them with all other jobs or
/// each with some.
pub fn trees_of(rng: &mut Rng, gangs: usize, jobs: &[usize]) -> [Shape; 4] {
    let (free, rest) = jobs.split_at(gangs);
    [
        chain_with(rng, free, rest, 1),
        chain_with(rng, free, rest, gangs),
        chains_from(rng, free, rest, 1),
        chains_from(rng, free, rest, gangs),
    ]
    .map(plain)
}

/// Every number of gangs, of any jobs that are enough and of the most.
pub fn every_number(rng: &mut Rng, part: usize, tally: &mut Tally) {
    for gangs in (1..=MOST_JOBS - part).rev().step_by(NUMBER_PARTS) {
        for count in [rng.from(gangs, MOST_JOBS), MOST_JOBS] {
            let jobs = any_jobs(rng, count);
            for tree in trees_of(rng, gangs, &jobs) {
                let record = laid_out(&tree, &vec![0; count]);
                assert!(
                    second::gangs(&record).hours.len() == gangs,
                    "second itself counts other gangs"
                );
                compare(rng, tally, &tree);
            }
        }
    }
}

/// A chain of the free jobs side by side and of the rest, up to so many at a time side
/// by side.
fn chain_with(rng: &mut Rng, free: &[usize], mut rest: &[usize], most: usize) -> Shape {
    let mut children = Vec::new();
    while !rest.is_empty() {
        let (part, others) = rest.split_at(rng.from(1, most.min(rest.len())));
        children.push(group(true, leaves(part)));
        rest = others;
    }
    let at = rng.below(children.len() + 1);
    children.insert(at, group(true, leaves(free)));
    group(false, children)
}

/// Chains side by side that begin with the free jobs; each of the rest goes on in one
/// of so many of them.
fn chains_from(rng: &mut Rng, free: &[usize], rest: &[usize], most: usize) -> Shape {
    let mut chains: Vec<Vec<usize>> = free.iter().map(|&job| vec![job]).collect();
    for &job in rest {
        chains[rng.below(most)].push(job);
    }
    let each = chains.iter().map(|jobs| group(false, leaves(jobs)));
    group(true, each.collect())
}

pub const SIX_PARTS: usize = 4;

/// Every plain tree on 6 jobs; hours of which no two gangs have the same together.
pub fn six_jobs(_: &mut Rng, part: usize, tally: &mut Tally) {
    let trees = every_plain(&[0, 1, 2, 3, 4, 5]);
    assert_eq!(trees.len(), 51_303);
    for tree in trees.iter().skip(part).step_by(SIX_PARTS) {
        tally.compare_questions(&laid_out(tree, &[1, 2, 4, 8, 16, 32]));
    }
}
