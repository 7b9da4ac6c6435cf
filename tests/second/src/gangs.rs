//! The fewest gangs for the jobs of a tree.

use crate::longest::{self, Run};
use crate::tree::Tree;

/// The gangs by their numbers. The jobs of one are ordered among themselves: they
/// are a run.
pub fn of_tree(tree: &Tree) -> Vec<Run> {
    let each = tree.children().iter().map(of_tree);
    match tree {
        Tree::Leaf { .. } => vec![longest::of_tree(tree)],
        Tree::Chain(_) => joined(each.collect()),
        Tree::Side(_) => each.flatten().collect(),
    }
}

/// Gang 0 of every child, then gang 1 of every one that has it, and so on.
fn joined(each: Vec<Vec<Run>>) -> Vec<Run> {
    let most = each.iter().map(Vec::len).max().unwrap_or(0);
    let mut gangs = vec![Run::default(); most];
    for of_child in each {
        for (gang, more) in gangs.iter_mut().zip(of_child) {
            gang.total += more.total;
            gang.jobs.extend(more.jobs);
        }
    }
    gangs
}
