//! The gangs of a record, wrong in one way. They are made otherwise than in `second`:
//! each job is put into its gang on the way down the tree.

use super::sides::smallest;
use super::{answer_to, fault, let_pass};
use crate::ffi::{and_zeros, GangPlan};
use second::gangs;
use second::order::free;
use second::tree::Tree;
use std::cmp::Reverse;

/// The gangs of bytes.
pub fn wrong_gangs(record: &[u8]) -> GangPlan {
    let read = second::record::read(record);
    let refused = read.is_none();
    let mut plan: GangPlan = second::gangs_of(None).into();
    if let Some((count, tree)) = read.or_else(|| let_pass(record, "gangs are given where ")) {
        plan = planned(&tree, count);
    }
    if !refused && fault("the answer to gangs has the record's places") {
        plan.answer = answer_to(record);
    }
    if record.len() == 464 && fault("the longest record has no gangs") {
        plan = second::gangs_of(None).into();
    }
    if refused && fault("a count of gangs stays on refusal") {
        plan.count = 1;
    }
    if refused && fault("a gang's hours stay on refusal") {
        plan.hours[127] = 1;
    }
    if refused && fault("a job's gang stays on refusal") {
        plan.gangs[127] = 1;
    }
    plan
}

/// The gangs of a tree on so many jobs.
fn planned(tree: &Tree, count: usize) -> GangPlan {
    let mut plan = GangPlan {
        answer: 0,
        count: 0,
        hours: [0; 128],
        gangs: [0; 128],
    };
    let gangs = if fault("each job by its number has the first gang that can have it") {
        first_fit(&mut plan, tree, count)
    } else {
        fill(&mut plan, tree, 0)
    };
    // There may be more of what is no record.
    plan.count = gangs.min(128) as u64;
    renumbered(&mut plan, &tree.forward(), count);
    miscounted(&mut plan, tree, count);
    plan
}

/// Puts a job into a gang, if there can be one of that number.
fn put(plan: &mut GangPlan, job: usize, hours: usize, gang: usize) {
    if gang < 128 {
        plan.hours[gang] += hours as u32;
        plan.gangs[job] = gang as u8;
    }
}

/// Each job in turn goes to the first gang of which all jobs are ordered with it; how
/// many gangs these make.
fn first_fit(plan: &mut GangPlan, tree: &Tree, count: usize) -> usize {
    let before = tree.meaning(count);
    let mut gangs: Vec<Vec<usize>> = Vec::new();
    for (job, hours) in tree.hours(count).into_iter().enumerate() {
        let takes = |gang: &Vec<usize>| !gang.iter().any(|&other| free(&before, job, other));
        let gang = gangs.iter().position(takes).unwrap_or(gangs.len());
        gangs.resize(gangs.len().max(gang + 1), Vec::new());
        gangs[gang].push(job);
        put(plan, job, hours, gang);
    }
    gangs.len()
}

/// Puts the jobs of a tree into gangs from this one on; how many these are.
fn fill(plan: &mut GangPlan, tree: &Tree, from: usize) -> usize {
    let children: Vec<&Tree> = tree.children().iter().collect();
    match tree {
        Tree::Leaf { job, hours } => {
            put(plan, *job, *hours, from);
            1
        }
        Tree::Chain(_) => fill_chain(plan, &children, from),
        Tree::Side(_) => fill_side(plan, children, from),
    }
}

/// Each child's gangs from the same one on; how many each has.
fn fill_each(plan: &mut GangPlan, children: &[&Tree], from: usize) -> Vec<usize> {
    let each = children.iter().map(|child| fill(plan, child, from));
    each.collect()
}

/// Each child's gangs after those of the ones ahead; how many each has.
fn fill_in_turn(plan: &mut GangPlan, children: &[&Tree], from: usize) -> Vec<usize> {
    let mut next = from;
    let mut gangs = Vec::new();
    for child in children {
        gangs.push(fill(plan, child, next));
        next += gangs[gangs.len() - 1];
    }
    gangs
}

fn most(gangs: &[usize]) -> usize {
    gangs.iter().copied().max().unwrap()
}

fn fill_chain(plan: &mut GangPlan, children: &[&Tree], from: usize) -> usize {
    if fault("a chain numbers its children's gangs one after the other") {
        return fill_in_turn(plan, children, from).iter().sum();
    }
    if fault("a chain joins its children's last gangs") {
        let width = |child: &&Tree| gangs::of_tree(child).len();
        let widths: Vec<usize> = children.iter().map(width).collect();
        for (child, gangs) in children.iter().zip(&widths) {
            fill(plan, child, from + most(&widths) - gangs);
        }
        return most(&widths);
    }
    let gangs = fill_each(plan, children, from);
    if fault("a chain has as many gangs as its first child") {
        return gangs[0];
    }
    if fault("a chain has as many gangs as its last child") {
        return gangs[gangs.len() - 1];
    }
    most(&gangs)
}

fn fill_side(plan: &mut GangPlan, mut children: Vec<&Tree>, from: usize) -> usize {
    if fault("a later child's gangs are numbered ahead of an earlier one's") {
        children.reverse();
    }
    // Sorting keeps the order of equals.
    if fault("the gangs of the child with most gangs are numbered first") {
        children.sort_by_key(|child| Reverse(gangs::of_tree(child).len()));
    }
    if fault("the gangs of the child with the smallest job are numbered first") {
        children.sort_by_key(|child| smallest(child));
    }
    if fault("the children of a side group share gangs") {
        return most(&fill_each(plan, &children, from));
    }
    let gangs = fill_in_turn(plan, &children, from);
    if fault("a side group has as many gangs as its widest child") {
        return most(&gangs);
    }
    gangs.iter().sum()
}

/// The gangs in another sequence or of other jobs, where that is wrong.
fn renumbered(plan: &mut GangPlan, forward: &[usize], count: usize) {
    if fault("gangs are numbered by their smallest jobs") {
        let mut former: Vec<u8> = Vec::new();
        for job in 0..count {
            if !former.contains(&plan.gangs[job]) {
                former.push(plan.gangs[job]);
            }
        }
        let hours: Vec<u32> = former
            .iter()
            .map(|&gang| plan.hours[gang as usize])
            .collect();
        plan.hours = and_zeros(&hours);
        for gang in &mut plan.gangs[..count] {
            *gang = former.iter().position(|other| other == gang).unwrap() as u8;
        }
    }
    if fault("the gangs of jobs are listed in leaf order") {
        let gangs: Vec<u8> = forward.iter().map(|&job| plan.gangs[job]).collect();
        plan.gangs = and_zeros(&gangs);
    }
    if fault("gangs are numbered from 1") {
        plan.gangs[..count].iter_mut().for_each(|gang| *gang += 1);
    }
    if fault("the number of a gang has 6 bits") {
        plan.gangs = plan.gangs.map(|gang| gang % (1 << 6));
    }
}

/// The hours and the count, where they are wrong, and what is left after them.
fn miscounted(plan: &mut GangPlan, tree: &Tree, count: usize) {
    let gangs = plan.count as usize;
    if fault("the last job of a gang is left out of its hours") {
        let (forward, hours) = (tree.forward(), tree.hours(count));
        for (gang, together) in plan.hours[..gangs].iter_mut().enumerate() {
            let last = forward
                .iter()
                .rfind(|&&job| plan.gangs[job] as usize == gang);
            *together -= hours[*last.unwrap()] as u32;
        }
    }
    for (name, bits) in [
        ("the hours of a gang have 16 bits", 16),
        ("the hours of a gang have 18 bits", 18),
    ] {
        if fault(name) {
            plan.hours = plan.hours.map(|hours| hours % (1 << bits));
        }
    }
    if fault("a gang with no hours is left out") {
        let some: Vec<u32> = plan.hours.into_iter().filter(|&hours| hours > 0).collect();
        plan.count = some.len() as u64;
        plan.hours = and_zeros(&some);
    }
    if fault("the last of 128 gangs is left out") {
        plan.count = plan.count.min(127);
        plan.hours[127] = 0;
    }
    if fault("the count of gangs is one too many") {
        plan.count += 1;
    }
    if fault("the count of gangs is one too few") {
        plan.count -= 1;
    }
    if gangs < 128 && fault("hours are left after the last gang") {
        plan.hours[gangs] = 1;
    }
    if count < 128 && fault("a gang is left after the last job") {
        plan.gangs[count] = 1;
    }
}
