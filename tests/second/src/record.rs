//! The record: a string of the characters 0 and 1, turned into bytes.

use crate::tree::Tree;
use crate::LONGEST_RECORD;

/// Bits of a job number, a count or a number of children, and of hours.
const NUMBER: usize = 7;
const HOURS: usize = 12;

fn field(value: usize, width: usize) -> String {
    assert!(value < 1 << width);
    format!("{value:0width$b}")
}

fn node_bits(tree: &Tree) -> String {
    let (kind, children) = match tree {
        Tree::Leaf { job, hours } => {
            return "0".to_string() + &field(*job, NUMBER) + &field(*hours, HOURS)
        }
        Tree::Chain(children) => ("0", children),
        Tree::Side(children) => ("1", children),
    };
    let mut bits = "1".to_string() + kind + &field(children.len() - 1, NUMBER);
    for child in children {
        bits += &node_bits(child);
    }
    bits
}

/// The bytes of a tree laid out, plain or not.
pub fn lay_out(count: usize, tree: &Tree) -> Vec<u8> {
    let mut bits = field(count - 1, NUMBER) + &node_bits(tree);
    while bits.len() % 8 != 0 {
        bits += "0";
    }
    (0..bits.len() / 8)
        .map(|i| u8::from_str_radix(&bits[8 * i..8 * i + 8], 2).unwrap())
        .collect()
}

/// The job count and the plain tree that the bytes spell, if they are the
/// record of one.
pub fn read(record: &[u8]) -> Option<(usize, Tree)> {
    spelled(record).filter(|(count, tree)| tree.is_plain(*count))
}

/// The job count and the tree, plain or not, that the bytes spell, if they are
/// no more than the longest record and spell one.
pub fn spelled(record: &[u8]) -> Option<(usize, Tree)> {
    if record.len() > LONGEST_RECORD {
        return None;
    }
    let bits: String = record.iter().map(|byte| format!("{byte:08b}")).collect();
    let mut rest = bits.as_str();
    let count = take_number(&mut rest, NUMBER)? + 1;
    let tree = take_node(&mut rest)?;
    let only_fill_follows = rest.len() < 8 && !rest.contains('1');
    only_fill_follows.then_some((count, tree))
}

fn take<'a>(rest: &mut &'a str, length: usize) -> Option<&'a str> {
    if rest.len() < length {
        return None;
    }
    let (taken, left) = rest.split_at(length);
    *rest = left;
    Some(taken)
}

fn take_number(rest: &mut &str, width: usize) -> Option<usize> {
    usize::from_str_radix(take(rest, width)?, 2).ok()
}

/// A node and all below it, with no rule tested.
fn take_node(rest: &mut &str) -> Option<Tree> {
    if take(rest, 1)? == "0" {
        return Some(Tree::Leaf {
            job: take_number(rest, NUMBER)?,
            hours: take_number(rest, HOURS)?,
        });
    }
    let kind = take(rest, 1)?;
    let children = take_number(rest, NUMBER)? + 1;
    let mut taken = Vec::new();
    for _ in 0..children {
        taken.push(take_node(rest)?);
    }
    Some(if kind == "0" {
        Tree::Chain(taken)
    } else {
        Tree::Side(taken)
    })
}
