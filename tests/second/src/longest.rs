//! The longest run of work of a tree.

use crate::tree::Tree;

/// Jobs of which each is before every later one, and their hours together.
#[derive(Clone, Debug, Default, PartialEq, Eq)]
pub struct Run {
    pub total: usize,
    /// Earliest first.
    pub jobs: Vec<usize>,
}

pub fn of_tree(tree: &Tree) -> Run {
    let runs = tree.children().iter().map(of_tree).collect();
    match tree {
        Tree::Leaf { job, hours } => Run {
            total: *hours,
            jobs: vec![*job],
        },
        Tree::Chain(_) => added(runs),
        Tree::Side(_) => first_greatest(runs),
    }
}

/// The runs one after the other.
pub fn added(runs: Vec<Run>) -> Run {
    Run {
        total: runs.iter().map(|run| run.total).sum(),
        jobs: runs.into_iter().flat_map(|run| run.jobs).collect(),
    }
}

/// The first of the runs with the greatest total.
pub fn first_greatest(runs: Vec<Run>) -> Run {
    let greatest = runs.iter().map(|run| run.total).max();
    let is_greatest = |run: &Run| Some(run.total) == greatest;
    runs.into_iter().find(is_greatest).unwrap()
}
