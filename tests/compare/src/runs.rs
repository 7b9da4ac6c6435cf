//! The families of records for questions to them alone: the longest run, the gangs
//! and some reasons.

use crate::check::Tally;
use crate::generate::*;
use second::{LONGEST_RECORD, MOST_JOBS};

/// Hours for so many jobs: none, the most, few enough that totals are often
/// equal, and any.
fn each_hours(rng: &mut Rng, count: usize) -> [Vec<u16>; 6] {
    let mut below = |bound: usize| (0..count).map(|_| rng.below(bound) as u16).collect();
    let (two, three, any) = (below(2), below(3), below(4096));
    let within = hours_within(rng, count);
    [vec![0; count], vec![4095; count], two, three, any, within]
}

/// A job count, small or any.
pub fn small_or_any(rng: &mut Rng) -> usize {
    if rng.percent(10) {
        rng.from(1, MOST_JOBS)
    } else {
        rng.from(1, 24)
    }
}

pub fn any_trees(rng: &mut Rng, _: usize, tally: &mut Tally) {
    for _ in 0..150 {
        let count = small_or_any(rng);
        let tree = plain(shape(rng, count, true));
        for hours in each_hours(rng, count) {
            tally.compare_questions(&laid_out(&tree, &hours));
        }
    }
}

pub const EXTREME_PARTS: usize = 16;

/// One group; groups of about the same number of jobs in one group; groups of two,
/// chain and side in turn, each the first child of the one ahead, each the last of a
/// chain, and each the first or the last of a chain, by the job beside it. The outermost
/// is of this kind; any jobs are given.
pub fn extremes(rng: &mut Rng, any: &[usize], side: bool) -> [Shape; 7] {
    let count = any.len();
    let ascending: Vec<usize> = (0..count).collect();
    let descending: Vec<usize> = (0..count).rev().collect();
    [
        blocks(&ascending, side, 1),
        blocks(any, side, 1),
        blocks(any, side, 2),
        blocks(any, side, rng.from(1, count)),
        nested(&descending, side, |_| false),
        nested(&ascending, side, |_| true),
        nested(any, side, |job| job % 2 == 0),
    ]
    .map(plain)
}

/// Each of these with both kinds outermost, for every job count.
pub fn extreme_trees(rng: &mut Rng, part: usize, tally: &mut Tally) {
    for count in (1..=MOST_JOBS - part).rev().step_by(EXTREME_PARTS) {
        let any = any_jobs(rng, count);
        for side in [false, true] {
            for tree in extremes(rng, &any, side) {
                for hours in each_hours(rng, count) {
                    tally.compare_questions(&laid_out(&tree, &hours));
                }
            }
        }
    }
}

/// Trees in which all children of a side group have the same total, then some of
/// them less.
pub fn equal_totals(rng: &mut Rng, _: usize, tally: &mut Tally) {
    for _ in 0..250 {
        let count = small_or_any(rng);
        let tree = plain(shape(rng, count, true));
        let most = most_alike(&tree);
        for total in [
            0,
            1,
            rng.below(10),
            rng.below(most + 1),
            most - rng.below(3),
            most,
        ] {
            for less in [0, 20, 70] {
                let mut hours = vec![0; count];
                share(rng, &tree, total.min(most), less, &mut hours);
                tally.compare_questions(&laid_out(&tree, &hours));
            }
        }
    }
}

/// The greatest total that all children of each side group can have.
fn most_alike(tree: &Shape) -> usize {
    match tree {
        Shape::Leaf(_) => 4095,
        Shape::Group { side, children } => {
            let each = children.iter().map(most_alike);
            if *side {
                each.min().unwrap()
            } else {
                each.sum()
            }
        }
    }
}

/// Hours with this total; a child of a side group has one less with the given
/// chance.
fn share(rng: &mut Rng, tree: &Shape, total: usize, less: usize, hours: &mut [u16]) {
    match tree {
        Shape::Leaf(job) => hours[*job] = total as u16,
        Shape::Group {
            side: true,
            children,
        } => {
            for child in children {
                let fewer = rng.percent(less) as usize;
                share(rng, child, total.saturating_sub(fewer), less, hours);
            }
        }
        Shape::Group {
            side: false,
            children,
        } => {
            let each: Vec<usize> = children.iter().map(most_alike).collect();
            let (mut left, mut later) = (total, each.iter().sum::<usize>());
            for (child, most) in children.iter().zip(each) {
                later -= most;
                let part = rng.from(left.saturating_sub(later), left.min(most));
                share(rng, child, part, less, hours);
                left -= part;
            }
        }
    }
}

pub const SMALL_PARTS: usize = 16;

/// Every plain tree on up to 5 jobs with every choice of a few hours.
pub fn small_trees(_: &mut Rng, part: usize, tally: &mut Tally) {
    let choices: [&[u16]; 5] = [
        &[0, 1, 2048, 4095],
        &[0, 1, 2, 4095],
        &[0, 1, 2, 4095],
        &[0, 1, 2],
        &[0, 1],
    ];
    for count in 1..=5 {
        let jobs: Vec<usize> = (0..count).collect();
        let of = choices[count - 1];
        let trees = every_plain(&jobs);
        assert_eq!(trees.len(), [1, 3, 19, 195, 2791][count - 1]);
        for tree in trees.iter().skip(part).step_by(SMALL_PARTS) {
            for choice in 0..of.len().pow(count as u32) {
                let each = |job: usize| of[choice / of.len().pow(job as u32) % of.len()];
                let hours: Vec<u16> = (0..count).map(each).collect();
                tally.compare_questions(&laid_out(tree, &hours));
            }
        }
    }
}

/// Bytes that are no record, or nearly none.
pub fn no_records(rng: &mut Rng, part: usize, tally: &mut Tally) {
    tally.compare_questions(&[]);
    for round in 0..600 {
        let record = flawed_record(rng, FLAWS[round % FLAWS.len()]);
        tally.compare_questions(&record);
    }
    for _ in 0..40 {
        let count = rng.from(1, 9);
        let tree = plain(shape(rng, count, true));
        let hours = hours_within(rng, count);
        damaged_everywhere(rng, tally, &laid_out(&tree, &hours));
    }
    for _ in 0..12 {
        let count = small_or_any(rng);
        let tree = plain(shape(rng, count, true));
        let hours = hours_within(rng, count);
        let record = laid_out(&tree, &hours);
        for _ in 0..4 {
            damages(&record)
                .iter()
                .for_each(|damaged| tally.compare_questions(damaged));
            tally.compare_questions(&flip(&record, rng.below(8 * record.len())));
            tally.compare_questions(&record[..rng.below(record.len())]);
        }
    }
    for _ in 0..400 {
        let length = rng.pick(&[4, 7, 8, 12, 40, LONGEST_RECORD, LONGEST_RECORD + 1]);
        let length = rng.from(1, length);
        let mut bytes: Vec<u8> = (0..length).map(|_| rng.below(256) as u8).collect();
        tally.compare_questions(&bytes);
        // As many jobs as there is room for.
        let count = (8 * length / 20).clamp(1, MOST_JOBS);
        bytes[0] = 2 * (count - 1) as u8 + bytes[0] % 2;
        tally.compare_questions(&bytes);
    }
    if part == 0 {
        about_the_longest(rng, tally);
    }
}

/// Every bit flipped, cut off after every byte, lengthened, any two jobs exchanged,
/// hours of fewer bits and of more.
fn damaged_everywhere(rng: &mut Rng, tally: &mut Tally, record: &[u8]) {
    tally.compare_questions(record);
    for at in 0..8 * record.len() {
        tally.compare_questions(&flip(record, at));
    }
    for length in 0..record.len() {
        tally.compare_questions(&record[..length]);
    }
    for more in [0, 1, 0x80, rng.below(256)] {
        tally.compare_questions(&[record, &[more as u8]].concat());
        tally.compare_questions(&[&[more as u8], record].concat());
    }
    tally.compare_questions(&[record, record].concat());
    let fields = job_fields(record);
    for (i, &one) in fields.iter().enumerate() {
        for &other in &fields[..i] {
            tally.compare_questions(&swap_jobs(record, one, other));
        }
    }
    for width in 0..=16 {
        tally.compare_questions(&with_hours_of(record, width));
    }
}

/// Groups of two nested in each other, more than there can be as well; the longest
/// record with bytes more and fewer; strings of one byte, most of them too long.
fn about_the_longest(rng: &mut Rng, tally: &mut Tally) {
    for groups in 0..=245 {
        tally.compare_questions(&nested_record(rng, groups));
    }
    let mut longest = nested_record(rng, 127);
    assert_eq!(longest.len(), LONGEST_RECORD);
    for length in 0..LONGEST_RECORD {
        tally.compare_questions(&longest[..length]);
    }
    for _ in 0..60 {
        longest.push(0);
        tally.compare_questions(&longest);
    }
    for length in [
        463, 464, 465, 466, 1000, 8192, 65_535, 65_536, 65_540, 70_000,
    ] {
        longest.resize(length, 0);
        tally.compare_questions(&longest);
        for byte in [0, 0x55, 0x80, 0xaa, 0xff] {
            tally.compare_questions(&vec![byte; length]);
        }
    }
}
