//! Trees: their meaning, their sequences, and the plain tree of an order.

use crate::order::{free, Before};
use std::cmp::Reverse;

#[derive(Clone, Debug, PartialEq, Eq, PartialOrd, Ord)]
pub enum Tree {
    Leaf { job: usize, hours: usize },
    Chain(Vec<Tree>),
    Side(Vec<Tree>),
}

impl Tree {
    pub fn children(&self) -> &[Tree] {
        match self {
            Tree::Leaf { .. } => &[],
            Tree::Chain(children) | Tree::Side(children) => children,
        }
    }

    /// Leaves from left to right.
    pub fn forward(&self) -> Vec<usize> {
        match self {
            Tree::Leaf { job, .. } => vec![*job],
            _ => self.children().iter().flat_map(Tree::forward).collect(),
        }
    }

    /// The same with the children of every side group taken right to left.
    pub fn reverse(&self) -> Vec<usize> {
        match self {
            Tree::Leaf { job, .. } => vec![*job],
            Tree::Chain(children) => children.iter().flat_map(Tree::reverse).collect(),
            Tree::Side(children) => children.iter().rev().flat_map(Tree::reverse).collect(),
        }
    }

    /// This node and all below it.
    pub fn nodes(&self) -> Vec<&Tree> {
        let mut nodes = vec![self];
        for child in self.children() {
            nodes.extend(child.nodes());
        }
        nodes
    }

    pub fn groups(&self) -> usize {
        self.nodes()
            .iter()
            .filter(|node| !matches!(node, Tree::Leaf { .. }))
            .count()
    }

    /// The hours of each job below the count. Every job must stand on a leaf.
    pub fn hours(&self, count: usize) -> Vec<usize> {
        let nodes = self.nodes();
        let of = |wanted: usize| {
            let on_leaf = |node: &&Tree| match node {
                Tree::Leaf { job, hours } if *job == wanted => Some(*hours),
                _ => None,
            };
            nodes.iter().find_map(on_leaf).unwrap()
        };
        (0..count).map(of).collect()
    }

    /// u is before v exactly when the lowest node over both is a chain and u's
    /// child of it comes earlier. A node is the lowest over two jobs when they
    /// are in different children of it. The leaves must be below the count.
    pub fn meaning(&self, count: usize) -> Before {
        let mut before = vec![vec![false; count]; count];
        for node in self.nodes() {
            let Tree::Chain(children) = node else {
                continue;
            };
            let jobs: Vec<Vec<usize>> = children.iter().map(Tree::forward).collect();
            for later in 0..jobs.len() {
                for earlier in 0..later {
                    for &u in &jobs[earlier] {
                        for &v in &jobs[later] {
                            before[u][v] = true;
                        }
                    }
                }
            }
        }
        before
    }

    // The rules for a tree and for its plain form, one by one.

    pub fn groups_have_two_or_more(&self) -> bool {
        self.nodes()
            .iter()
            .all(|node| matches!(node, Tree::Leaf { .. }) || node.children().len() >= 2)
    }

    pub fn jobs_below(&self, count: usize) -> bool {
        self.forward().iter().all(|&job| job < count)
    }

    pub fn no_job_twice(&self) -> bool {
        let jobs = self.forward();
        (0..jobs.len()).all(|i| !jobs[..i].contains(&jobs[i]))
    }

    pub fn every_job_stands(&self, count: usize) -> bool {
        let jobs = self.forward();
        (0..count).all(|job| jobs.contains(&job))
    }

    pub fn no_chain_in_chain(&self) -> bool {
        self.nodes().iter().all(|node| {
            !matches!(node, Tree::Chain(_))
                || !node
                    .children()
                    .iter()
                    .any(|child| matches!(child, Tree::Chain(_)))
        })
    }

    pub fn no_side_in_side(&self) -> bool {
        self.nodes().iter().all(|node| {
            !matches!(node, Tree::Side(_))
                || !node
                    .children()
                    .iter()
                    .any(|child| matches!(child, Tree::Side(_)))
        })
    }

    pub fn side_children_in_order(&self) -> bool {
        let rank = |child: &Tree| side_rank(&child.forward());
        self.nodes().iter().all(|node| match node {
            Tree::Side(children) => children
                .windows(2)
                .all(|pair| rank(&pair[0]) < rank(&pair[1])),
            _ => true,
        })
    }

    /// A tree in plain form on the jobs below the count.
    pub fn is_plain(&self, count: usize) -> bool {
        self.groups_have_two_or_more()
            && self.jobs_below(count)
            && self.no_job_twice()
            && self.every_job_stands(count)
            && self.no_chain_in_chain()
            && self.no_side_in_side()
            && self.side_children_in_order()
    }
}

/// What a side group's children ascend by, of the jobs in each: the one with most jobs
/// is first, and of equal ones that with the smallest job.
pub fn side_rank(jobs: &[usize]) -> (Reverse<usize>, Option<usize>) {
    (Reverse(jobs.len()), jobs.iter().min().copied())
}

/// The plain tree that means the order, if any does, with the hours of each job.
pub fn of_order(before: &Before, hours: &[usize]) -> Option<Tree> {
    of_jobs(before, hours, (0..before.len()).collect())
}

/// The plain tree of the order among some jobs, which ascend.
fn of_jobs(before: &Before, hours: &[usize], jobs: Vec<usize>) -> Option<Tree> {
    if jobs.len() == 1 {
        return Some(Tree::Leaf {
            job: jobs[0],
            hours: hours[jobs[0]],
        });
    }
    let parts = side_parts(before, &jobs);
    if parts.len() >= 2 {
        return Some(Tree::Side(of_each(before, hours, parts)?));
    }
    let parts = chain_parts(before, &jobs);
    if parts.len() >= 2 {
        return Some(Tree::Chain(of_each(before, hours, parts)?));
    }
    None
}

fn of_each(before: &Before, hours: &[usize], parts: Vec<Vec<usize>>) -> Option<Vec<Tree>> {
    parts
        .into_iter()
        .map(|part| of_jobs(before, hours, part))
        .collect()
}

/// The jobs in parts such that jobs of different parts are free, as a side group has
/// them: a flood fill from the smallest job left, over pairs that are not free.
fn side_parts(before: &Before, jobs: &[usize]) -> Vec<Vec<usize>> {
    let mut left = jobs.to_vec();
    let mut parts = Vec::new();
    while !left.is_empty() {
        let mut part = vec![left.remove(0)];
        let mut looked_at = 0;
        while looked_at < part.len() {
            let u = part[looked_at];
            looked_at += 1;
            let (joined, rest) = left.iter().partition(|&&v| !free(before, u, v));
            part.extend::<Vec<usize>>(joined);
            left = rest;
        }
        part.sort();
        parts.push(part);
    }
    parts.sort_by_key(|part| side_rank(part));
    parts
}

/// The jobs in as many parts as can be, such that all of one part is before all
/// of the next. Jobs of an earlier part have fewer jobs before them, so the
/// parts lie one after the other once the jobs are sorted by that number.
fn chain_parts(before: &Before, jobs: &[usize]) -> Vec<Vec<usize>> {
    let mut sorted = jobs.to_vec();
    sorted.sort_by_cached_key(|&v| jobs.iter().filter(|&&u| before[u][v]).count());
    let mut parts = Vec::new();
    let mut start = 0;
    for cut in 1..=sorted.len() {
        let (ahead, behind) = sorted.split_at(cut);
        if ahead.iter().all(|&u| behind.iter().all(|&v| before[u][v])) {
            let mut part = sorted[start..cut].to_vec();
            part.sort();
            parts.push(part);
            start = cut;
        }
    }
    parts
}
