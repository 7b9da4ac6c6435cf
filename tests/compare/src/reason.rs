//! The pairs of job numbers that are asked for their reason, and the families of
//! records for these questions alone.

use crate::check::Tally;
use crate::gangs::{trees_of, uneven_trees};
use crate::generate::*;
use crate::runs::{extremes, small_or_any};
use second::MOST_JOBS;

type Pairs = Vec<(u16, u16)>;

/// Every two of the numbers, each with itself too.
fn every_two(numbers: &[usize]) -> Pairs {
    let with_each = |&first: &usize| {
        let pair = move |&second: &usize| (first as u16, second as u16);
        numbers.iter().map(pair)
    };
    numbers.iter().flat_map(with_each).collect()
}

/// How many jobs the bytes say there are, be they a record or not.
fn stated(bytes: &[u8]) -> usize {
    bytes.first().map_or(1, |&first| first as usize / 2 + 1)
}

/// A number that is no job of so many: the first of these, with the last eight bits of
/// one that is, the last of all, any.
pub fn no_job(rng: &mut Rng, count: usize) -> usize {
    let job = rng.below(count);
    let any = rng.from(count, 65_535);
    let edges = [count, count + 1, 128, 255, 256, 65_535];
    let bits = [256 + job, 32_768 + job, 65_280 + job];
    match rng.below(10) {
        0..=4 => rng.pick(&edges),
        5..=7 => rng.pick(&bits),
        _ => any,
    }
}

/// Some pairs, drawn by the bytes alone: two jobs both ways round, one job, and a
/// number that is no job with one that is and with another.
pub fn some_pairs(bytes: &[u8]) -> [(u16, u16); 5] {
    let mut rng = rng_of(bytes);
    let count = stated(bytes);
    let (one, other) = (rng.below(count) as u16, rng.below(count) as u16);
    let off = no_job(&mut rng, count) as u16;
    let beside = match rng.below(3) {
        0 => off,
        _ => no_job(&mut rng, count) as u16,
    };
    let either = rng.pick(&[(one, off), (off, one)]);
    [
        (one, other),
        (other, one),
        (one, one),
        either,
        (off, beside),
    ]
}

/// These pairs in the tree's record.
fn compare_pairs(rng: &mut Rng, tally: &mut Tally, tree: &Shape, pairs: &[(u16, u16)]) {
    let record = laid_out(tree, &hours_within(rng, tree.jobs().len()));
    let is_record = tally.compare_reasons(&record, pairs);
    assert!(is_record, "second itself reads no record of a plain tree");
}

/// Every two jobs of the tree.
fn compare(rng: &mut Rng, tally: &mut Tally, tree: &Shape) {
    let jobs: Vec<usize> = (0..tree.jobs().len()).collect();
    compare_pairs(rng, tally, tree, &every_two(&jobs));
}

pub fn any_trees(rng: &mut Rng, _: usize, tally: &mut Tally) {
    for _ in 0..60 {
        let count = small_or_any(rng);
        let tree = plain(shape(rng, count, true));
        compare(rng, tally, &tree);
    }
    for count in [rng.from(100, MOST_JOBS), MOST_JOBS] {
        let tree = plain(shape(rng, count, true));
        compare(rng, tally, &tree);
    }
}

pub const EXTREME_PARTS: usize = 16;

/// For every job count: of few jobs and of the most each of the trees, else one of each
/// kind.
pub fn extreme_trees(rng: &mut Rng, part: usize, tally: &mut Tally) {
    for count in (1..=MOST_JOBS - part).rev().step_by(EXTREME_PARTS) {
        let any = any_jobs(rng, count);
        for side in [false, true] {
            let trees = extremes(rng, &any, side);
            let one = rng.below(trees.len());
            let taken = match count {
                33..127 => &trees[one..=one],
                _ => &trees[..],
            };
            taken.iter().for_each(|tree| compare(rng, tally, tree));
        }
    }
}

pub fn unequal_widths(rng: &mut Rng, _: usize, tally: &mut Tally) {
    uneven_trees(rng, 30, |rng, tree| compare(rng, tally, tree));
}

pub const NUMBER_PARTS: usize = 16;

/// One number of gangs for each part, of 128 jobs.
pub fn some_numbers(rng: &mut Rng, part: usize, tally: &mut Tally) {
    let about = MOST_JOBS / NUMBER_PARTS;
    let gangs = rng.from(part * about + 1, (part + 1) * about);
    let jobs = any_jobs(rng, MOST_JOBS);
    for tree in trees_of(rng, gangs, &jobs) {
        compare(rng, tally, &tree);
    }
}

pub const SMALL_PARTS: usize = 8;

/// Every plain tree on up to 6 jobs; on up to 5 with numbers that are no jobs too.
pub fn small_trees(rng: &mut Rng, part: usize, tally: &mut Tally) {
    for count in 1..=6 {
        let jobs: Vec<usize> = (0..count).collect();
        for tree in every_plain(&jobs).iter().skip(part).step_by(SMALL_PARTS) {
            compare(rng, tally, tree);
            if count < 6 {
                compare_about(rng, tally, tree);
            }
        }
    }
}

/// Some jobs of so many, and numbers that are no jobs.
fn numbers_about(rng: &mut Rng, count: usize) -> Vec<usize> {
    let job = rng.below(count);
    let mut numbers = vec![0, job, count - 1, count, count + 1, 127, 128, 129, 255];
    for ahead in [256, 32_768, 65_280] {
        numbers.extend([
            ahead - 1,
            ahead,
            ahead + job,
            ahead + count - 1,
            ahead + count,
        ]);
    }
    numbers.extend([65_534, 65_535]);
    numbers
}

/// Every two of these.
fn compare_about(rng: &mut Rng, tally: &mut Tally, tree: &Shape) {
    let numbers = numbers_about(rng, tree.jobs().len());
    compare_pairs(rng, tally, tree, &every_two(&numbers));
}

pub const COUNT_PARTS: usize = 16;

/// Numbers that are no jobs, for every job count; each job's last eight bits in a
/// number that is none, in either place and in both.
pub fn no_jobs(rng: &mut Rng, part: usize, tally: &mut Tally) {
    for count in (1..=MOST_JOBS - part).rev().step_by(COUNT_PARTS) {
        for _ in 0..4 {
            let tree = plain(shape(rng, count, true));
            compare_about(rng, tally, &tree);
        }
        let mut pairs = Pairs::new();
        for job in 0..count {
            let other = rng.below(count) as u16;
            let off = (256 * rng.from(1, 255) + job) as u16;
            pairs.extend([(off, other), (other, off), (off, off), (job as u16, off)]);
        }
        let tree = plain(shape(rng, count, true));
        compare_pairs(rng, tally, &tree, &pairs);
    }
}

/// Bytes of which most are no record: then 11, whatever the numbers are.
pub fn no_records(rng: &mut Rng, part: usize, tally: &mut Tally) {
    for round in 0..12 * FLAWS.len() {
        let bytes = flawed_record(rng, FLAWS[round % FLAWS.len()]);
        let numbers = numbers_about(rng, stated(&bytes));
        tally.compare_reasons(&bytes, &every_two(&numbers));
    }
    if part > 0 {
        return;
    }
    let longest = nested_record(rng, 127);
    let numbers = [0, 1, 126, 127, 128, 65_535];
    for length in 0..longest.len() {
        tally.compare_reasons(&longest[..length], &every_two(&numbers));
    }
    for byte in 0..=255 {
        for length in [1, 2, 4, 464, 465] {
            tally.compare_reasons(&vec![byte; length], &every_two(&numbers));
        }
    }
}
