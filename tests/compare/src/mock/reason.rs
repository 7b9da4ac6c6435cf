//! The reason between two jobs, wrong in one way. It is found otherwise than in
//! `second`: over a list of the nodes, from both leaves upwards.

use super::{answer_to, fault, let_pass, FAULT};
use crate::ffi::Reason;
use second::tree::{side_rank, Tree};
use std::cell::RefCell;
use std::cmp::Reverse;
use std::rc::Rc;
use std::sync::atomic::Ordering;

#[derive(Clone, Copy, PartialEq)]
enum Kind {
    Leaf { job: usize, hours: usize },
    Chain,
    Side,
}

struct Node {
    kind: Kind,
    /// The group over it, and its place among the children of that.
    over: Option<usize>,
    place: usize,
    depth: usize,
    /// The position after it and all below it.
    end: usize,
}

/// The job count and the nodes of a record, node before children.
struct Listed {
    count: usize,
    nodes: Vec<Node>,
}

impl Listed {
    fn new(count: usize, tree: &Tree) -> Listed {
        let mut listed = Listed {
            count,
            nodes: Vec::new(),
        };
        listed.put(tree, None, 0, 0);
        listed
    }

    fn put(&mut self, tree: &Tree, over: Option<usize>, place: usize, depth: usize) {
        let at = self.nodes.len();
        let kind = match tree {
            Tree::Leaf { job, hours } => Kind::Leaf {
                job: *job,
                hours: *hours,
            },
            Tree::Chain(_) => Kind::Chain,
            Tree::Side(_) => Kind::Side,
        };
        self.nodes.push(Node {
            kind,
            over,
            place,
            depth,
            end: 0,
        });
        for (place, child) in tree.children().iter().enumerate() {
            self.put(child, Some(at), place, depth + 1);
        }
        self.nodes[at].end = self.nodes.len();
    }

    fn is_leaf(&self, at: usize) -> bool {
        matches!(self.nodes[at].kind, Kind::Leaf { .. })
    }

    /// The leaves from one position to another.
    fn leaves(&self, from: usize, to: usize) -> Vec<usize> {
        (from..to).filter(|&at| self.is_leaf(at)).collect()
    }

    /// The jobs under a node, as they stand.
    fn jobs(&self, at: usize) -> Vec<usize> {
        let job = |at: usize| match self.nodes[at].kind {
            Kind::Leaf { job, .. } => Some(job),
            _ => None,
        };
        (at..self.nodes[at].end).filter_map(job).collect()
    }

    /// The leaf of a job, or the root where it stands on none.
    fn leaf_of(&self, sought: usize) -> usize {
        if fault("a job is taken for the leaf at its place") {
            let leaves = self.leaves(0, self.nodes.len());
            return leaves.get(sought).copied().unwrap_or(0);
        }
        let has = |node: &Node| matches!(node.kind, Kind::Leaf { job, .. } if job == sought);
        self.nodes.iter().position(has).unwrap_or(0)
    }

    /// The node and all groups over it, the root last.
    fn upwards(&self, at: usize) -> Vec<usize> {
        std::iter::successors(Some(at), |&at| self.nodes[at].over).collect()
    }

    /// The places of the nodes from the root down to this one, those in side groups by
    /// what is given for them.
    fn places(&self, at: usize, in_side: impl Fn(usize) -> isize) -> Vec<isize> {
        let place = |at: &usize| {
            let node = &self.nodes[*at];
            match node.over.map(|over| self.nodes[over].kind) {
                Some(Kind::Side) => in_side(*at),
                _ => node.place as isize,
            }
        };
        self.upwards(at).iter().rev().map(place).collect()
    }

    /// How many nodes come ahead of this one by another sequence.
    fn ahead<T: Ord>(&self, at: usize, by: impl Fn(usize) -> T) -> usize {
        let here = by(at);
        let ahead = |other: &usize| by(*other) < here;
        (0..self.nodes.len()).filter(ahead).count()
    }
}

/// A fault, the bytes asked with it, and what they have.
type Asked = (usize, Vec<u8>, Option<Rc<Listed>>);

thread_local! {
    /// Those asked last: many pairs are asked of one record.
    static LAST: RefCell<Asked> = RefCell::default();
}

/// What the bytes have, if they are a record or are let pass as one.
fn listed(record: &[u8]) -> Option<Rc<Listed>> {
    let number = FAULT.load(Ordering::Relaxed);
    LAST.with_borrow_mut(|last| {
        if last.0 != number || last.1 != record {
            let read = second::record::read(record)
                .or_else(|| let_pass(record, "a reason is given where "));
            let listed = read.map(|(count, tree)| Rc::new(Listed::new(count, &tree)));
            *last = (number, record.to_vec(), listed);
        }
        last.2.clone()
    })
}

/// The reason between two jobs of bytes.
pub fn wrong_reason(record: &[u8], first: u16, second: u16) -> Reason {
    let pair = taken([first as usize, second as usize]);
    let listed = listed(record);
    let number = number_of(record, listed.as_deref(), pair);
    let mut reason = Reason {
        answer: number,
        ..Reason::default()
    };
    match listed {
        Some(listed) if number == 0 => decide(&mut reason, &listed, pair),
        _ => left_over(&mut reason, record, pair),
    }
    if number == 0 && fault("the answer to a reason has the record's places") {
        reason.answer = answer_to(record);
    }
    reason
}

/// The job numbers as they are taken.
fn taken(pair: [usize; 2]) -> [usize; 2] {
    let [mut first, mut second] = pair;
    if fault("the first job number has 8 bits") {
        first %= 1 << 8;
    }
    if fault("the second job number has 8 bits") {
        second %= 1 << 8;
    }
    if fault("a job number has 15 bits") {
        (first, second) = (first % (1 << 15), second % (1 << 15));
    }
    if fault("a job number above 127 is taken for 127") {
        (first, second) = (first.min(127), second.min(127));
    }
    if fault("the second job is taken for the first too") {
        first = second;
    }
    [first, second]
}

/// The answer's number.
fn number_of(record: &[u8], listed: Option<&Listed>, pair: [usize; 2]) -> u64 {
    let Some(listed) = listed else {
        return number_of_no_record(record, pair);
    };
    if record.len() == 464 && fault("the longest record has no reasons") {
        return 11;
    }
    match is_refused(listed, pair) {
        true if fault("11 is given for what is no job") => 11,
        true => 14,
        false => 0,
    }
}

/// Whether one of the numbers is taken for no job.
fn is_refused(listed: &Listed, pair: [usize; 2]) -> bool {
    let off = pair.map(|job| is_off(job, listed.count));
    let mut refused = off[0] || off[1];
    let [first, second] = pair;
    if first == listed.count && fault("the job numbered as the count is let pass as the first") {
        refused = off[1];
    }
    if second == listed.count && fault("the job numbered as the count is let pass as the second") {
        refused = off[0];
    }
    if fault("the first job number is not tested") {
        refused = off[1];
    }
    if fault("the second job number is not tested") {
        refused = off[0];
    }
    if fault("14 is given only where neither is a job") {
        refused = off[0] && off[1];
    }
    if first == second && fault("the same job is told of what is no job") {
        refused = false;
    }
    if first == second && fault("the same job twice is refused") {
        refused = true;
    }
    if listed.count == 1 && fault("one job alone is refused") {
        refused = true;
    }
    if pair == [126, 127] && fault("jobs 126 and 127 are refused together") {
        refused = true;
    }
    refused
}

/// Whether a number is taken for no job of so many.
fn is_off(job: usize, count: usize) -> bool {
    if fault("a number is tested against 128 alone") {
        return job >= 128;
    }
    if fault("a number from 32,768 on is taken for one below 0") {
        return job >= count && job < 32_768;
    }
    if fault("the last job is refused") {
        return job + 1 >= count;
    }
    if fault("job 127 is refused") {
        return job >= count.min(127);
    }
    job >= count
}

/// The answer's number for bytes that are no record.
fn number_of_no_record(record: &[u8], pair: [usize; 2]) -> u64 {
    let stated = record.first().map_or(0, |&first| first as usize / 2 + 1);
    let any_from = |count: usize| pair.iter().any(|&job| job >= count);
    let early = (any_from(stated) && fault("14 is tested ahead of 11"))
        || (any_from(128) && fault("a number from 128 on is refused ahead of 11"))
        || (record.is_empty() && fault("no bytes are a record of no jobs"));
    if early {
        14
    } else {
        11
    }
}

/// A refusal with more than its number.
fn left_over(reason: &mut Reason, record: &[u8], pair: [usize; 2]) {
    let by_11 = reason.answer == 11;
    if by_11 && fault("a rule stays on refusal by 11") {
        reason.rule = 4;
    }
    if by_11 && fault("a position stays on refusal by 11") {
        reason.position = 1;
    }
    if by_11 && fault("jobs stay on refusal by 11") {
        reason.jobs = record.len() as u64;
    }
    if !by_11 && fault("a rule stays on refusal by 14") {
        reason.rule = 1 + (pair[0] != pair[1]) as u64;
    }
    if !by_11 && fault("a position stays on refusal by 14") {
        reason.position = 1;
    }
    if !by_11 && fault("jobs stay on refusal by 14") {
        reason.jobs = 1;
    }
    if !by_11 && fault("14 has the job as its place") {
        reason.answer += 256 * pair[0].max(pair[1]) as u64;
    }
}

/// The rule of two jobs, the node that is told and the jobs under it.
fn decide(reason: &mut Reason, listed: &Listed, pair: [usize; 2]) {
    let leaves = pair.map(|job| listed.leaf_of(job));
    let [ups, others] = leaves.map(|leaf| listed.upwards(leaf));
    let lowest = *ups.iter().find(|at| others.contains(at)).unwrap();
    let child = |ups: &[usize]| {
        let below = ups.iter().take_while(|&&at| at != lowest);
        below.last().copied()
    };
    let children = [child(&ups), child(&others)];
    reason.rule = rule(listed, lowest, children, pair);
    let told = told(listed, lowest, leaves);
    reason.position = position(listed, told, lowest) as u64;
    reason.jobs = jobs(listed, told, children, leaves) as u64;
    if listed.is_leaf(lowest) {
        of_one_job(reason, listed, lowest, pair[0]);
    }
    if fault("the rule is numbered from 0") {
        reason.rule -= 1;
    }
}

/// What is told of one job with itself.
fn of_one_job(reason: &mut Reason, listed: &Listed, leaf: usize, job: usize) {
    if let Some(over) = listed.nodes[leaf].over {
        if fault("the same job shows the group over its leaf") {
            reason.position = over as u64;
            reason.jobs = listed.jobs(over).len() as u64;
        }
    }
    if fault("the same job shows the outermost group") {
        reason.position = 0;
        reason.jobs = listed.count as u64;
    }
    if fault("the same job has its number for a position") {
        reason.position = job as u64;
    }
    if fault("the same job has no position") {
        reason.position = 0;
    }
    if fault("the same job has no jobs under it") {
        reason.jobs = 0;
    }
    if fault("the same job is free of itself") {
        reason.rule = 4;
    }
    if fault("the same job is before itself") {
        reason.rule = 2;
    }
}

/// The rule by the lowest node over both jobs, which stand in these children of it.
fn rule(listed: &Listed, lowest: usize, children: [Option<usize>; 2], pair: [usize; 2]) -> u64 {
    let mut kind = listed.nodes[lowest].kind;
    if matches!(kind, Kind::Leaf { .. }) {
        return 1;
    }
    let upwards = listed.upwards(lowest);
    let any_is = |kind: Kind| upwards.iter().any(|&at| listed.nodes[at].kind == kind);
    if fault("the rule is that of the outermost group") {
        kind = listed.nodes[0].kind;
    }
    if any_is(Kind::Side) && fault("jobs in any side group are free") {
        kind = Kind::Side;
    }
    if any_is(Kind::Chain) && fault("jobs in any chain are ordered") {
        kind = Kind::Chain;
    }
    let chain = kind == Kind::Chain;
    if chain && fault("free is told for a chain") {
        return 4;
    }
    if chain && fault("a chain puts the first job before the second") {
        return 2;
    }
    if !chain && !fault("the children of a side group are taken for ordered") {
        return 4;
    }
    let exchanged = fault("before and after are exchanged")
        || (pair[0] > pair[1] && fault("the rule is that of the smaller job to the other"));
    if is_earlier(listed, children, pair) != exchanged {
        2
    } else {
        3
    }
}

/// Whether the first job's child comes earlier.
fn is_earlier(listed: &Listed, children: [Option<usize>; 2], pair: [usize; 2]) -> bool {
    if fault("the child order is that of the job numbers") {
        return pair[0] < pair[1];
    }
    if fault("the child order is that of the smallest jobs") {
        let [first, second] = children.map(|child| listed.jobs(child.unwrap_or(0)));
        return first.iter().min() < second.iter().min();
    }
    if fault("the child order is that of the numbers of jobs") {
        let [first, second] = children.map(|child| listed.jobs(child.unwrap_or(0)).len());
        return first < second;
    }
    if fault("the child order is that of side children") {
        let [first, second] = children.map(|child| side_rank(&listed.jobs(child.unwrap_or(0))));
        return first < second;
    }
    children[0] < children[1]
}

/// The node that is told, where it is another than the lowest over both jobs.
fn told(listed: &Listed, lowest: usize, leaves: [usize; 2]) -> usize {
    let over = |at: usize| listed.nodes[at].over.unwrap_or(at);
    if listed.is_leaf(lowest) {
        return lowest;
    }
    if fault("the group over the lowest one is told") {
        return over(lowest);
    }
    if fault("the outermost group is told") {
        return 0;
    }
    if fault("the group over the first job is told") {
        return over(leaves[0]);
    }
    if fault("the group over the second job is told") {
        return over(leaves[1]);
    }
    let ahead = leaves[0].min(leaves[1]);
    if fault("the last group ahead of both leaves is told") {
        let groups = (0..ahead).rev().find(|&at| !listed.is_leaf(at));
        return groups.unwrap_or(lowest);
    }
    if fault("the first leaf of the two is told") {
        return ahead;
    }
    if fault("of groups that end together one stays open") {
        return one_stays_open(listed, lowest, ahead);
    }
    for (name, depth) in [
        ("a group in 64 others is not told", 64),
        ("a group in 126 others is not told", 126),
    ] {
        if listed.nodes[lowest].depth == depth && fault(name) {
            return over(lowest);
        }
    }
    lowest
}

/// The child of the lowest group that has the earlier leaf, where two groups or more end
/// ahead of the later one.
fn one_stays_open(listed: &Listed, lowest: usize, leaf: usize) -> usize {
    let upwards = listed.upwards(leaf);
    let below = upwards.iter().position(|&at| at == lowest).unwrap();
    if below < 3 {
        lowest
    } else {
        upwards[below - 1]
    }
}

/// The position that is told of a node.
fn position(listed: &Listed, at: usize, lowest: usize) -> usize {
    if listed.nodes[lowest].kind == Kind::Side && fault("a side group has no position") {
        return 0;
    }
    if at == 254 && fault("the last of 255 nodes has no position") {
        return 0;
    }
    let position = counted(listed, at);
    for (name, bits) in [("a position has 6 bits", 6), ("a position has 7 bits", 7)] {
        if fault(name) {
            return position % (1 << bits);
        }
    }
    position
}

/// The nodes ahead of one, or what is counted in their stead.
fn counted(listed: &Listed, at: usize) -> usize {
    let node = &listed.nodes[at];
    if fault("positions are counted from 1") {
        return at + 1;
    }
    if fault("positions are counted in leaves") {
        return listed.leaves(0, at).len();
    }
    if fault("positions are counted in groups") {
        return at - listed.leaves(0, at).len();
    }
    if fault("positions are counted in bits") {
        let leaves = listed.leaves(0, at).len();
        return 7 + 20 * leaves + 9 * (at - leaves);
    }
    if fault("positions are counted level by level") {
        return listed.ahead(at, |at| (listed.nodes[at].depth, at));
    }
    if fault("positions are counted after the children") {
        let by = |at: usize| (listed.nodes[at].end, Reverse(listed.nodes[at].depth));
        return listed.ahead(at, by);
    }
    if fault("positions go from right to left in side groups") {
        let turned = |at: usize| -(listed.nodes[at].place as isize);
        return listed.ahead(at, |at| listed.places(at, turned));
    }
    if fault("positions go by smallest job in side groups") {
        let smallest = |at: usize| listed.jobs(at).into_iter().min().unwrap_or(0) as isize;
        return listed.ahead(at, |at| listed.places(at, smallest));
    }
    if fault("positions are those in the group over the node") {
        return at - node.over.unwrap_or(0);
    }
    if fault("the depth is told for a position") {
        return node.depth;
    }
    if fault("positions leave out what is below earlier children") {
        let upwards = listed.upwards(at);
        let places = upwards.iter().map(|&at| listed.nodes[at].place + 1);
        return places.sum::<usize>() - 1;
    }
    at
}

/// The number of jobs that is told of a node over two leaves, which stand in these
/// children of the lowest.
fn jobs(listed: &Listed, at: usize, children: [Option<usize>; 2], leaves: [usize; 2]) -> usize {
    let jobs = jobs_under(listed, at, children, leaves);
    if fault("the count of jobs is one too few") {
        return jobs - 1;
    }
    if fault("the count of jobs is one too many") {
        return jobs + 1;
    }
    if fault("128 jobs are told as 0") {
        return jobs % 128;
    }
    if listed.nodes[at].end == 255 && fault("the last of 255 nodes is not counted") {
        return jobs.max(2) - 1;
    }
    jobs
}

/// The jobs under the node, or what is counted in their stead.
fn jobs_under(
    listed: &Listed,
    at: usize,
    children: [Option<usize>; 2],
    leaves: [usize; 2],
) -> usize {
    let node = &listed.nodes[at];
    let jobs = listed.jobs(at);
    if fault("jobs under a group are counted in nodes") {
        return node.end - at;
    }
    if fault("jobs under a group are counted in nodes below it") {
        return (node.end - at - 1).max(1);
    }
    if fault("jobs under a group are counted in children") {
        let child = |other: &&Node| other.over == Some(at);
        return listed.nodes.iter().filter(child).count().max(1);
    }
    if fault("jobs under a group are counted in its two children") {
        let within = children.map(|child| child.map_or(0, |child| listed.jobs(child).len()));
        return (within[0] + within[1]).max(1);
    }
    if fault("jobs are counted from one leaf to the other") {
        let (from, to) = (leaves[0].min(leaves[1]), leaves[0].max(leaves[1]));
        return listed.leaves(from, to + 1).len();
    }
    if fault("jobs after the later leaf are not counted") {
        return listed.leaves(at, leaves[0].max(leaves[1]) + 1).len();
    }
    if fault("jobs ahead of the earlier leaf are not counted") {
        return listed.leaves(leaves[0].min(leaves[1]), node.end).len();
    }
    if fault("jobs are counted as far as the greatest") {
        return jobs.iter().max().unwrap() + 1;
    }
    if fault("all jobs of the record are told") {
        return listed.count;
    }
    if fault("jobs with no hours are not counted") {
        let idle = |node: &&Node| matches!(node.kind, Kind::Leaf { hours: 0, .. });
        return jobs.len() - listed.nodes[at..node.end].iter().filter(idle).count();
    }
    jobs.len()
}
