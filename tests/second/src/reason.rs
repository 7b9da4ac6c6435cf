//! The lowest node of a tree over two of its jobs, and what it says of them.

use crate::tree::Tree;

/// How the first of two jobs stands to the second, numbered as in the request.
#[derive(Clone, Copy, Debug, PartialEq, Eq)]
pub enum Rule {
    Same = 1,
    Before = 2,
    After = 3,
    Free = 4,
}

/// The rule of two jobs, and of the lowest node over both the position, counted in
/// nodes from 0, each ahead of its children, and the number of jobs under it.
#[derive(Clone, Copy, Debug, PartialEq, Eq)]
pub struct Lowest {
    pub rule: Rule,
    pub position: usize,
    pub jobs: usize,
}

/// What is found in a node and all below it.
struct Found {
    nodes: usize,
    jobs: usize,
    /// Whether the first job stands there, and the second.
    has: [bool; 2],
    /// Where both do; the position is counted from this node.
    lowest: Option<Lowest>,
}

/// The lowest node over both jobs, if they stand in the tree.
pub fn of_tree(tree: &Tree, pair: [usize; 2]) -> Option<Lowest> {
    find(tree, pair).lowest
}

fn find(tree: &Tree, pair: [usize; 2]) -> Found {
    let each = tree.children().iter().map(|child| find(child, pair));
    match tree {
        Tree::Leaf { job, .. } => on_leaf(pair.map(|sought| sought == *job)),
        Tree::Chain(_) => in_group(each.collect(), |first, second| match first < second {
            true => Rule::Before,
            false => Rule::After,
        }),
        Tree::Side(_) => in_group(each.collect(), |_, _| Rule::Free),
    }
}

fn on_leaf(has: [bool; 2]) -> Found {
    let lowest = Lowest {
        rule: Rule::Same,
        position: 0,
        jobs: 1,
    };
    Found {
        nodes: 1,
        jobs: 1,
        has,
        lowest: (has == [true; 2]).then_some(lowest),
    }
}

/// A group of these children. By it two jobs in different ones, given by their places,
/// have this rule.
fn in_group(children: Vec<Found>, rule: fn(usize, usize) -> Rule) -> Found {
    let jobs = children.iter().map(|child| child.jobs).sum();
    let places = [0, 1].map(|which| children.iter().position(|child| child.has[which]));
    let lowest = match places {
        [Some(first), Some(second)] if first == second => in_child(&children, first),
        [Some(first), Some(second)] => Some(Lowest {
            rule: rule(first, second),
            position: 0,
            jobs,
        }),
        _ => None,
    };
    Found {
        nodes: 1 + nodes_of(&children),
        jobs,
        has: places.map(|place| place.is_some()),
        lowest,
    }
}

/// The child's node, its position counted from the group: after it and all of the
/// children ahead.
fn in_child(children: &[Found], place: usize) -> Option<Lowest> {
    let lowest = children[place].lowest?;
    let ahead = 1 + nodes_of(&children[..place]);
    Some(Lowest {
        position: ahead + lowest.position,
        ..lowest
    })
}

fn nodes_of(children: &[Found]) -> usize {
    children.iter().map(|child| child.nodes).sum()
}
