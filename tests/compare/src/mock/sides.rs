//! Side children in a wrong sequence: laid out so by an analysis, taken so by the record
//! reader, or listed so by both.

use super::{fault, FAULT, FAULTS};
use crate::ffi::and_zeros;
use second::tree::{side_rank, Tree};
use second::{gangs, record, Outcome};
use std::cmp::{Ordering, Reverse};
use std::sync::atomic;

/// Whether the children of a group are meant, by the number of side groups over it.
type Meant = fn(&Tree, usize) -> bool;

const MEANT: [(&str, Meant); 4] = [
    ("side children are ", |group, _| is_side(group)),
    ("outermost side children are ", |group, over| {
        is_side(group) && over == 0
    }),
    ("inner side children are ", |group, over| {
        is_side(group) && over > 0
    }),
    ("the children of any group are ", |_, _| true),
];

fn is_side(group: &Tree) -> bool {
    matches!(group, Tree::Side(_))
}

/// The groups whose children are done so by the fault, and how its name goes on.
fn fault_of(done: &str) -> Option<(Meant, &'static str)> {
    let name = FAULTS[FAULT.load(atomic::Ordering::Relaxed)];
    let after = |(words, meant): &(&str, Meant)| {
        let rest = name.strip_prefix(words)?.strip_prefix(done)?;
        Some((*meant, rest))
    };
    MEANT.iter().find_map(after)
}

fn jobs(tree: &Tree) -> usize {
    tree.forward().len()
}

pub fn smallest(tree: &Tree) -> Option<usize> {
    tree.forward().into_iter().min()
}

fn hours(tree: &Tree) -> usize {
    match tree {
        Tree::Leaf { hours, .. } => *hours,
        _ => tree.children().iter().map(hours).sum(),
    }
}

/// Most jobs first, equal ones by smallest job.
fn rank(tree: &Tree) -> impl Ord {
    side_rank(&tree.forward())
}

/// Puts children into a sequence.
type Sort = fn(&mut Vec<Tree>);

fn by<K: Ord>(all: &mut [Tree], key: fn(&Tree) -> K) {
    all.sort_by_cached_key(key);
}

const FORMER: Sort = |all| by(all, smallest);
const DOWNWARDS: Sort = |all| by(all, |one| Reverse((jobs(one), smallest(one))));

/// Sequences that are wrong, the first one in a chain alone.
const SORTS: [(&str, Sort); 14] = [
    ("most jobs first", |all| by(all, rank)),
    ("by smallest job", FORMER),
    ("by smallest job but for the largest", largest_alone),
    ("fewest jobs first", |all| {
        by(all, |one| (jobs(one), smallest(one)))
    }),
    ("most jobs first, equal ones by largest job", |all| {
        by(all, |one| {
            (Reverse(jobs(one)), one.forward().into_iter().max())
        })
    }),
    ("most jobs first, equal ones by first leaf", |all| {
        by(all, |one| (Reverse(jobs(one)), one.forward()[0]))
    }),
    ("most jobs first, equal ones by last leaf", |all| {
        by(all, |one| (Reverse(jobs(one)), one.forward().pop()))
    }),
    ("most jobs first, equal ones downwards", DOWNWARDS),
    ("most nodes first", |all| {
        by(all, |one| (Reverse(one.nodes().len()), smallest(one)))
    }),
    ("most children first", |all| {
        by(all, |one| (Reverse(one.children().len()), smallest(one)))
    }),
    ("most hours first", |all| {
        by(all, |one| (Reverse(hours(one)), smallest(one)))
    }),
    ("most gangs first", |all| {
        by(all, |one| {
            (Reverse(gangs::of_tree(one).len()), smallest(one))
        })
    }),
    ("as if 64 jobs were none", |all| {
        by(all, |one| (Reverse(jobs(one) % 64), smallest(one)))
    }),
    ("as if 127 jobs were none", |all| {
        by(all, |one| (Reverse(jobs(one) % 127), smallest(one)))
    }),
];

fn largest_alone(all: &mut Vec<Tree>) {
    by(all, smallest);
    let most = all.iter().map(jobs).max();
    let largest = all.iter().position(|one| Some(jobs(one)) == most);
    all[..=largest.unwrap_or(0)].rotate_right(1);
}

fn sort_named(name: &str) -> Option<Sort> {
    let found = SORTS.iter().find(|(sort, _)| *sort == name);
    found.map(|(_, sort)| *sort)
}

/// The tree with the children that are meant sorted so.
fn sorted(tree: &Tree, meant: Meant, sort: Sort, over: usize) -> Tree {
    let below = over + is_side(tree) as usize;
    let child = |child| sorted(child, meant, sort, below);
    let mut children: Vec<Tree> = tree.children().iter().map(child).collect();
    if meant(tree, over) {
        sort(&mut children);
    }
    match tree {
        Tree::Leaf { .. } => tree.clone(),
        Tree::Chain(_) => Tree::Chain(children),
        Tree::Side(_) => Tree::Side(children),
    }
}

fn sides_sorted(tree: &Tree, sort: Sort) -> Tree {
    sorted(tree, |group, _| is_side(group), sort, 0)
}

/// Whether the side children are in the former order, by smallest job alone.
pub fn is_former(tree: &Tree) -> bool {
    sides_sorted(tree, FORMER) == *tree
}

/// The outcome of an analysis with children laid out in a wrong sequence.
pub fn laid_out(mut outcome: Outcome) -> Outcome {
    let Some((meant, name)) = fault_of("laid out ") else {
        return outcome;
    };
    let read = record::read(&outcome.record);
    if let Some(((count, tree), sort)) = read.zip(sort_named(name)) {
        let tree = sorted(&tree, meant, sort, 0);
        outcome.record = record::lay_out(count, &tree);
        outcome.forward = sequence(&tree.forward());
        outcome.reverse = sequence(&tree.reverse());
    }
    outcome
}

fn sequence(jobs: &[usize]) -> [u8; 128] {
    let jobs: Vec<u8> = jobs.iter().map(|&job| job as u8).collect();
    and_zeros(&jobs)
}

/// The sequences of a record, where side children are listed wrong.
pub fn listed(mut outcome: Outcome, record: &[u8]) -> Outcome {
    for (name, sort) in [
        ("the forward sequence is by smallest job", FORMER),
        ("the reverse sequence is by smallest job", FORMER),
        (
            "the reverse sequence has equal side children from left to right",
            DOWNWARDS,
        ),
    ] {
        if outcome.number != 0 || !fault(name) {
            continue;
        }
        if let Some((_, tree)) = record::read(record) {
            let tree = sides_sorted(&tree, sort);
            if name.starts_with("the forward") {
                outcome.forward = sequence(&tree.forward());
            } else {
                outcome.reverse = sequence(&tree.reverse());
            }
        }
    }
    outcome
}

/// Whether children are taken in this sequence; there are two or more.
type Takes = fn(&[Tree]) -> bool;

fn in_order(all: &[Tree]) -> bool {
    all.windows(2).all(|two| rank(&two[0]) < rank(&two[1]))
}

/// Whether this is so of the numbers of jobs and the smallest jobs of any two neighbours.
fn neighbours(all: &[Tree], so: fn([usize; 2], [Option<usize>; 2]) -> bool) -> bool {
    let each = |two: &[Tree]| {
        so(
            [jobs(&two[0]), jobs(&two[1])],
            [smallest(&two[0]), smallest(&two[1])],
        )
    };
    all.windows(2).all(each)
}

/// Whether each child has fewer jobs than the one at the first place that is given for its
/// own, or as many and a larger smallest job than all ahead from the second place on.
fn held(all: &[Tree], counted: fn(usize) -> usize, from: fn(usize) -> usize) -> bool {
    let follows = |at: usize| match jobs(&all[at]).cmp(&jobs(&all[counted(at)])) {
        Ordering::Less => true,
        Ordering::Greater => false,
        Ordering::Equal => {
            let mut ahead = all[from(at)..at].iter();
            ahead.all(|other| smallest(other) < smallest(&all[at]))
        }
    };
    (1..all.len()).all(follows)
}

/// Wrong ways to take them.
const READINGS: [(&str, Takes); 15] = [
    ("in any sequence", |_| true),
    ("in any sequence where they are equal", |all| {
        neighbours(all, |jobs, _| jobs[0] >= jobs[1])
    }),
    ("in any sequence where they are unequal", |all| {
        neighbours(all, |jobs, least| jobs[0] != jobs[1] || least[0] < least[1])
    }),
    ("with no two equal", |all| {
        neighbours(all, |jobs, _| jobs[0] > jobs[1])
    }),
    ("as if one job more were none", |all| {
        neighbours(all, |jobs, least| match jobs[0].abs_diff(jobs[1]) {
            0 | 1 => least[0] < least[1],
            _ => jobs[0] > jobs[1],
        })
    }),
    ("most jobs first and by smallest job at once", |all| {
        neighbours(all, |jobs, least| jobs[0] >= jobs[1] && least[0] < least[1])
    }),
    ("in the former order too", |all| {
        in_order(all) || neighbours(all, |_, least| least[0] < least[1])
    }),
    ("each against the first", |all| {
        all[1..].iter().all(|one| rank(&all[0]) < rank(one))
    }),
    ("each against the one two places ahead", |all| {
        all.windows(3)
            .all(|three| rank(&three[0]) < rank(&three[2]))
    }),
    ("with jobs counted against the first's", |all| {
        held(all, |_| 0, |at| at - 1)
    }),
    ("with jobs counted against those two places ahead", |all| {
        held(all, |at| at.saturating_sub(2), |at| at - 1)
    }),
    ("with the smallest job against all ahead", |all| {
        held(all, |at| at - 1, |_| 0)
    }),
    ("in any sequence after the second", |all| {
        in_order(&all[..2])
    }),
    ("in order but for the first", |all| in_order(&all[1..])),
    ("in order but for the last", |all| {
        in_order(&all[..all.len() - 1])
    }),
];

/// Whether the children that are meant are taken as the name says, and those of all other
/// side groups are in order.
fn all_taken(tree: &Tree, meant: Meant, name: &str, over: usize) -> bool {
    let here = match tree {
        Tree::Leaf { .. } => true,
        _ if meant(tree, over) => taken(tree.children(), name),
        Tree::Chain(_) => true,
        Tree::Side(all) => in_order(all),
    };
    let below = over + is_side(tree) as usize;
    let child = |child| all_taken(child, meant, name, below);
    here && tree.children().iter().all(child)
}

fn taken(all: &[Tree], name: &str) -> bool {
    if let Some(sort) = sort_named(name) {
        let mut sorted = all.to_vec();
        sort(&mut sorted);
        return sorted == all;
    }
    let reading = READINGS.iter().find(|(reading, _)| *reading == name);
    reading.map_or(in_order(all), |(_, takes)| takes(all))
}

/// The job count and the tree of bytes that are taken for a record.
pub fn read(bytes: &[u8]) -> Option<(usize, Tree)> {
    let Some((meant, name)) = fault_of("read ") else {
        return record::read(bytes);
    };
    record::spelled(bytes).filter(|(count, tree)| {
        tree.groups_have_two_or_more()
            && tree.jobs_below(*count)
            && tree.no_job_twice()
            && tree.every_job_stands(*count)
            && tree.no_chain_in_chain()
            && tree.no_side_in_side()
            && all_taken(tree, meant, name, 0)
    })
}
