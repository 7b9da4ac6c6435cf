//! Everything of a small size, held against the definitions in their barest form.

use second::joins::{by_passes, different, of_list, Joins};
use second::order::{before, first_n, free, reduced, Before};
use second::tree::{of_order, Tree};
use second::{
    analyse_pairs, gangs, joins, longest_run, preview, read_record, reason, reason_of, record,
    sheet, GangPlan, Reason,
};
use std::cmp::Ordering;
use std::collections::{BTreeMap, HashSet};

/// Different hours for each job, 0 and the most among them.
const HOURS: [usize; 5] = [4095, 0, 2048, 1, 1234];

/// Every tree on the jobs, plain or not, with these hours.
fn all_trees(jobs: &[usize]) -> Vec<Tree> {
    if jobs.len() == 1 {
        return vec![Tree::Leaf {
            job: jobs[0],
            hours: HOURS[jobs[0]],
        }];
    }
    let lists = all_lists(jobs).into_iter().filter(|list| list.len() >= 2);
    lists
        .flat_map(|list| [Tree::Chain(list.clone()), Tree::Side(list)])
        .collect()
}

/// Every list of trees that have the jobs between them, a single tree of all
/// the jobs left out unless there is one job.
fn all_lists(jobs: &[usize]) -> Vec<Vec<Tree>> {
    if jobs.is_empty() {
        return vec![Vec::new()];
    }
    let mut lists = Vec::new();
    for choice in 1u32..1 << jobs.len() {
        let pick = |wanted: u32| -> Vec<usize> {
            (0..jobs.len())
                .filter(|i| choice >> i & 1 == wanted)
                .map(|i| jobs[i])
                .collect()
        };
        let (first, rest) = (pick(1), pick(0));
        if rest.is_empty() && first.len() > 1 {
            continue;
        }
        let rests = lists_of_rest(&rest);
        for tree in all_trees(&first) {
            for rest in &rests {
                let mut list = vec![tree.clone()];
                list.extend(rest.iter().cloned());
                lists.push(list);
            }
        }
    }
    lists
}

fn lists_of_rest(jobs: &[usize]) -> Vec<Vec<Tree>> {
    let mut lists = all_lists(jobs);
    if jobs.len() > 1 {
        lists.extend(all_trees(jobs).into_iter().map(|tree| vec![tree]));
    }
    lists
}

fn jobs(count: usize) -> Vec<usize> {
    (0..count).collect()
}

fn smallest_job(tree: &Tree) -> Option<usize> {
    tree.forward().into_iter().min()
}

/// How one child of a side group stands to another: with more jobs it is ahead, with
/// fewer it is behind, and with as many it goes by the smallest job.
fn stands_ahead(one: &Tree, other: &Tree) -> Ordering {
    match other.forward().len().cmp(&one.forward().len()) {
        Ordering::Equal => smallest_job(one).cmp(&smallest_job(other)),
        unequal => unequal,
    }
}

/// u is before v in the tree, in the definition's words.
fn is_before(tree: &Tree, u: usize, v: usize) -> bool {
    let child_with = |job| {
        tree.children()
            .iter()
            .position(|child| child.forward().contains(&job))
            .unwrap()
    };
    if tree.children().is_empty() {
        return false;
    }
    let (of_u, of_v) = (child_with(u), child_with(v));
    if of_u == of_v {
        return is_before(&tree.children()[of_u], u, v);
    }
    matches!(tree, Tree::Chain(_)) && of_u < of_v
}

#[test]
fn one_plain_tree_for_each_order_a_tree_means() {
    for (count, orders) in [(1, 1), (2, 3), (3, 19), (4, 195), (5, 2791)] {
        let mut means: BTreeMap<Before, Vec<Tree>> = BTreeMap::new();
        for tree in all_trees(&jobs(count)) {
            let meaning = tree.meaning(count);
            for u in 0..count {
                for v in 0..count {
                    assert_eq!(meaning[u][v], is_before(&tree, u, v));
                }
            }
            let plain = means.entry(meaning).or_default();
            if tree.is_plain(count) {
                plain.push(tree);
            }
        }
        assert_eq!(means.len(), orders);
        for (meaning, plain) in means {
            assert_eq!(plain.len(), 1);
            assert_eq!(first_n(&meaning), None);
            assert_eq!(of_order(&meaning, &HOURS), Some(plain[0].clone()));
        }
    }
}

/// The tree with the children of every side group by smallest job alone, the former
/// order.
fn former(tree: &Tree) -> Tree {
    let mut children: Vec<Tree> = tree.children().iter().map(former).collect();
    match tree {
        Tree::Leaf { .. } => tree.clone(),
        Tree::Chain(_) => Tree::Chain(children),
        Tree::Side(_) => {
            children.sort_by_key(smallest_job);
            Tree::Side(children)
        }
    }
}

/// Of any two children of a side group the one further left has more jobs, or as many and
/// the smaller smallest job. A record in the former order is read where that is the same,
/// and else made again.
#[test]
fn side_children_of_plain_trees() {
    for (count, changed) in [(1, 0), (2, 0), (3, 2), (4, 34), (5, 710)] {
        let trees = all_trees(&jobs(count)).into_iter();
        let plain: Vec<Tree> = trees.filter(|tree| tree.is_plain(count)).collect();
        for node in plain.iter().flat_map(Tree::nodes) {
            let Tree::Side(children) = node else {
                continue;
            };
            for right in 1..children.len() {
                for left in 0..right {
                    let ahead = stands_ahead(&children[left], &children[right]);
                    assert_eq!(ahead, Ordering::Less, "{node:?}");
                }
            }
        }
        let former: Vec<Tree> = plain.iter().map(former).collect();
        let differ = |(new, former): &(&Tree, &Tree)| new != former;
        let differing = plain.iter().zip(&former).filter(differ).count();
        assert_eq!(differing, changed, "{count} jobs");
        for (new, former) in plain.iter().zip(&former) {
            let bytes = record::lay_out(count, former);
            assert_eq!(record::read(&bytes).is_some(), new == former, "{former:?}");
            // Made again from its sheet.
            let again = of_order(&former.meaning(count), &HOURS);
            assert_eq!(again.as_ref(), Some(new));
        }
    }
}

#[test]
fn reader_takes_the_records_of_plain_trees_alone() {
    for count in 1..=4 {
        for tree in all_trees(&jobs(count)) {
            let bytes = record::lay_out(count, &tree);
            let expected = tree.is_plain(count).then(|| (count, tree));
            assert_eq!(record::read(&bytes), expected);
        }
    }
}

/// The bits of a record of so many jobs that are no hours'.
fn bits_of_no_hours(record: &[u8], count: usize) -> Vec<usize> {
    let bit = |at: usize| record[at / 8] >> (7 - at % 8) & 1;
    let mut bits: Vec<usize> = (0..7).collect();
    let (mut at, mut leaves) = (7, 0);
    while leaves < count {
        let (width, next) = if bit(at) == 1 { (9, 9) } else { (8, 20) };
        leaves += (bit(at) == 0) as usize;
        bits.extend(at..at + width);
        at += next;
    }
    bits.extend(at..8 * record.len());
    bits
}

/// A bit that is no hours' gives another of the records with these hours or
/// none; a bit of hours gives the same tree with these other hours.
#[test]
fn reader_on_every_bit_flipped() {
    let mut records = BTreeMap::new();
    for count in 1..=4 {
        for tree in all_trees(&jobs(count)) {
            if tree.is_plain(count) {
                records.insert(record::lay_out(count, &tree), count);
            }
        }
    }
    let taken = |bytes: &[u8]| read_record(bytes, 8192).number == 0;
    assert!(!taken(&[]));
    for (record, &count) in &records {
        let of_no_hours = bits_of_no_hours(record, count);
        assert_eq!(8 * record.len() - of_no_hours.len(), 12 * count);
        let read = read_record(record, 8192);
        for bit in 0..8 * record.len() {
            let mut bytes = record.clone();
            bytes[bit / 8] ^= 0x80 >> (bit % 8);
            let changed = read_record(&bytes, 8192);
            if of_no_hours.contains(&bit) {
                assert_eq!(changed.number == 0, records.contains_key(&bytes));
                continue;
            }
            let differs = |&job: &usize| changed.hours[job] != read.hours[job];
            let differing: Vec<usize> = (0..128).filter(differs).collect();
            assert_eq!(differing.len(), 1);
            let job = differing[0];
            assert!((changed.hours[job] ^ read.hours[job]).is_power_of_two());
            assert_eq!(changed.places, read.places);
            assert_eq!(changed.reduced, read.reduced);
            assert_eq!(changed.forward, read.forward);
            assert_eq!(changed.reverse, read.reverse);
        }
        for length in 0..record.len() {
            assert!(!taken(&record[..length]));
        }
    }
}

#[test]
fn reader_on_every_string_of_up_to_two_bytes_and_longer_zeros() {
    let taken = |bytes: &[u8]| read_record(bytes, 8192).number == 0;
    for first in 0..=255 {
        assert!(!taken(&[first]));
        for second in 0..=255 {
            assert!(!taken(&[first, second]));
        }
    }
    for length in 0..600 {
        assert_eq!(taken(&vec![0; length]), length == 4);
    }
}

/// The followed-on order by adding pairs until none is missing.
fn followed_on(count: usize, orders: &[(usize, usize)]) -> Before {
    let mut table = vec![vec![false; count]; count];
    for &(u, v) in orders {
        table[u][v] = true;
    }
    loop {
        let mut grew = false;
        for u in 0..count {
            for v in 0..count {
                for w in 0..count {
                    if table[u][v] && table[v][w] && !table[u][w] {
                        table[u][w] = true;
                        grew = true;
                    }
                }
            }
        }
        if !grew {
            return table;
        }
    }
}

/// Every N, in the definition's words.
fn every_n(table: &Before) -> Vec<[u64; 4]> {
    let count = table.len();
    let mut ns = Vec::new();
    for a in 0..count {
        for b in 0..count {
            for c in 0..count {
                for d in 0..count {
                    let orders = table[a][c] && table[b][c] && table[b][d];
                    let frees = [(a, b), (c, d), (a, d)];
                    if orders && frees.iter().all(|&(u, v)| free(table, u, v)) {
                        ns.push([a as u64, b as u64, c as u64, d as u64]);
                    }
                }
            }
        }
    }
    ns
}

#[test]
fn every_relation_on_up_to_four_jobs() {
    for count in 1..=4usize {
        let plain: BTreeMap<Before, Tree> = all_trees(&jobs(count))
            .into_iter()
            .filter(|tree| tree.is_plain(count))
            .map(|tree| (tree.meaning(count), tree))
            .collect();
        for relation in 0u32..1 << (count * count) {
            let chosen = (0..count * count).filter(|i| relation >> i & 1 == 1);
            let orders: Vec<(usize, usize)> = chosen.map(|i| (i / count, i % count)).collect();
            let list: Vec<u16> = orders
                .iter()
                .flat_map(|&(u, v)| [u as u16, v as u16])
                .collect();
            let hours = HOURS.map(|hours| hours as u16);
            let outcome = analyse_pairs(count as u16, &list, &hours[..count], 464, 8192);

            let table = followed_on(count, &orders);
            assert_eq!(before(count, &orders), table);
            let selfish = orders.iter().position(|&(u, v)| u == v);
            let circle = (0..count).find(|&job| table[job][job]);
            let ns = every_n(&table);
            if let Some(at) = selfish {
                assert_eq!((outcome.number, outcome.places), (6, [at as u64, 0, 0, 0]));
            } else if let Some(job) = circle {
                assert_eq!((outcome.number, outcome.places), (7, [job as u64, 0, 0, 0]));
            } else if let Some(first) = ns.iter().min() {
                assert_eq!((outcome.number, outcome.places), (8, *first));
                assert!(!plain.contains_key(&table));
            } else {
                let tree = &plain[&table];
                assert_eq!(outcome.number, 0);
                assert_eq!(outcome.record, record::lay_out(count, tree));
                assert_eq!(outcome.places[2] as usize, tree.groups());
                // The reduced orders are the fewest with this followed-on order.
                let fewest = reduced(&table);
                assert_eq!(before(count, &fewest), table);
                for left_out in 0..fewest.len() {
                    let mut fewer = fewest.clone();
                    fewer.remove(left_out);
                    assert_ne!(before(count, &fewer), table);
                }
                let listed: Vec<(usize, usize)> = outcome
                    .reduced
                    .chunks(2)
                    .map(|o| (o[0] as usize, o[1] as usize))
                    .collect();
                assert_eq!(listed, fewest);
                assert!(listed.windows(2).all(|pair| pair[0] < pair[1]));
                check_reasons(&outcome.record, &table);
            }
        }
    }
}

fn with_hours(tree: &Tree, hours: &[usize]) -> Tree {
    let of_each = |children: &[Tree]| {
        let child = |child| with_hours(child, hours);
        children.iter().map(child).collect()
    };
    match tree {
        Tree::Leaf { job, .. } => Tree::Leaf {
            job: *job,
            hours: hours[*job],
        },
        Tree::Chain(children) => Tree::Chain(of_each(children)),
        Tree::Side(children) => Tree::Side(of_each(children)),
    }
}

/// Every set of jobs of which any two stand so, each listed in the sequence given.
fn every_set(sequence: &[usize], stand_so: impl Fn(usize, usize) -> bool) -> Vec<Vec<usize>> {
    let mut sets = Vec::new();
    for choice in 0u32..1 << sequence.len() {
        let chosen = (0..sequence.len()).filter(|place| choice >> place & 1 == 1);
        let set: Vec<usize> = chosen.map(|place| sequence[place]).collect();
        if (0..set.len()).all(|i| set[..i].iter().all(|&u| stand_so(u, set[i]))) {
            sets.push(set);
        }
    }
    sets
}

/// Tries every set of the tree's jobs. The total is the greatest sum of hours over
/// those in which any two jobs are ordered. Of those with that sum that no further
/// job can join, the run is the one that comes first by its jobs' places in the
/// forward sequence: two that part do so in a side group, and the one that goes
/// on in the child further left comes first.
fn check_run_by_every_set(tree: &Tree, count: usize) {
    let table = tree.meaning(count);
    let hours = tree.hours(count);
    let forward = tree.forward();
    let ordered = |u: usize, v: usize| table[u][v] || table[v][u];
    let sum = |set: &[usize]| set.iter().map(|&job| hours[job]).sum::<usize>();
    // By their places, in which each job is ahead of all that are after it.
    let sets = every_set(&forward, ordered);
    let greatest = sets.iter().map(|set| sum(set)).max().unwrap();

    let run = longest_run(&record::lay_out(count, tree));
    let jobs: Vec<usize> = run.jobs.iter().map(|&job| job as usize).collect();
    assert_eq!((run.number, run.places), (0, [0; 4]));
    assert_eq!(run.total as usize, greatest, "{tree:?}");
    assert!(sets.contains(&jobs) && sum(&jobs) == greatest, "{tree:?}");
    for (i, &later) in jobs.iter().enumerate() {
        assert!(jobs[..i].iter().all(|&earlier| table[earlier][later]));
    }

    let none_can_join = |set: &&Vec<usize>| {
        let joins = |job: usize| set.iter().all(|&other| ordered(job, other));
        sum(set) == greatest && !(0..count).any(joins)
    };
    let places = |set: &&Vec<usize>| -> Vec<Option<usize>> {
        let place = |job: &usize| forward.iter().position(|other| other == job);
        set.iter().map(place).collect()
    };
    let first = sets.iter().filter(none_can_join).min_by_key(places);
    assert_eq!(Some(&jobs), first, "{tree:?}");

    // The same by each job alone: no side group over it has it in another child
    // than the first in which the greatest of these sums is found.
    let greatest_within = |node: &Tree| {
        let within = node.forward();
        let inside = sets
            .iter()
            .filter(|set| set.iter().all(|job| within.contains(job)));
        inside.map(|set| sum(set)).max().unwrap()
    };
    let mut left_out = vec![false; count];
    for node in tree.nodes() {
        let Tree::Side(children) = node else {
            continue;
        };
        let sums: Vec<usize> = children.iter().map(greatest_within).collect();
        let taken = sums.iter().position(|sum| Some(sum) == sums.iter().max());
        for (i, child) in children.iter().enumerate() {
            if Some(i) != taken {
                child.forward().iter().for_each(|&job| left_out[job] = true);
            }
        }
    }
    let kept: Vec<usize> = forward.into_iter().filter(|&job| !left_out[job]).collect();
    assert_eq!(jobs, kept, "{tree:?}");
}

#[test]
fn longest_run_of_every_small_record() {
    // Every choice of these hours for each job.
    let choices: [&[usize]; 5] = [
        &[0, 1, 7, 4095],
        &[0, 1, 2, 3, 4095],
        &[0, 1, 2, 3],
        &[0, 1, 2],
        &[0, 1],
    ];
    for count in 1..=5 {
        let trees = all_trees(&jobs(count)).into_iter();
        let of = choices[count - 1];
        for tree in trees.filter(|tree| tree.is_plain(count)) {
            check_run_by_every_set(&tree, count);
            for choice in 0..of.len().pow(count as u32) {
                let each = |job: usize| of[choice / of.len().pow(job as u32) % of.len()];
                let hours: Vec<usize> = (0..count).map(each).collect();
                check_run_by_every_set(&with_hours(&tree, &hours), count);
            }
        }
    }
}

/// Numbers from a seed: the upper bits of a linear congruential generator.
struct Numbers(u64);

impl Numbers {
    fn below(&mut self, bound: usize) -> usize {
        self.0 = self
            .0
            .wrapping_mul(6364136223846793005)
            .wrapping_add(1442695040888963407);
        (self.0 >> 33) as usize % bound
    }
}

/// A plain tree on the jobs, a group of this kind unless there is one job.
fn some_tree(numbers: &mut Numbers, jobs: &[usize], side: bool) -> Tree {
    if jobs.len() == 1 {
        return Tree::Leaf {
            job: jobs[0],
            hours: 0,
        };
    }
    let most = 1 + numbers.below(5);
    let mut cuts: Vec<usize> = (0..most)
        .map(|_| 1 + numbers.below(jobs.len() - 1))
        .collect();
    cuts.extend([0, jobs.len()]);
    cuts.sort();
    cuts.dedup();
    let mut child = |ends: &[usize]| some_tree(numbers, &jobs[ends[0]..ends[1]], !side);
    let mut children: Vec<Tree> = cuts.windows(2).map(&mut child).collect();
    if side {
        children.sort_by(stands_ahead);
        Tree::Side(children)
    } else {
        Tree::Chain(children)
    }
}

/// A plain tree on 6 to 12 jobs for each round, without hours.
fn some_trees(numbers: &mut Numbers, rounds: usize, mut check: impl FnMut(&mut Numbers, &Tree)) {
    for round in 0..rounds {
        let count = 6 + round % 7;
        let mut jobs = jobs(count);
        for i in 1..count {
            jobs.swap(i, numbers.below(i + 1));
        }
        let side = numbers.below(2) == 1;
        let tree = some_tree(numbers, &jobs, side);
        assert!(tree.is_plain(count));
        check(numbers, &tree);
    }
}

/// Hours below the bound for so many jobs.
fn some_hours(numbers: &mut Numbers, count: usize, bound: usize) -> Vec<usize> {
    (0..count).map(|_| numbers.below(bound)).collect()
}

#[test]
fn longest_run_of_some_records_of_up_to_12_jobs() {
    some_trees(&mut Numbers(3), 4000, |numbers, tree| {
        let count = tree.forward().len();
        for bound in [1, 2, 3, 10, 4096] {
            let hours = some_hours(numbers, count, bound);
            check_run_by_every_set(&with_hours(tree, &hours), count);
        }
        check_run_by_every_set(&with_hours(tree, &vec![4095; count]), count);
    });
}

/// Whether the jobs can be assigned to these gangs, which have some already, and to
/// new ones, at most so many in all, so that any two in a gang are ordered.
fn assignable(jobs: &[usize], gangs: &mut Vec<Vec<usize>>, most: usize, table: &Before) -> bool {
    let Some((&job, rest)) = jobs.split_first() else {
        return true;
    };
    for number in 0..gangs.len() {
        if gangs[number].iter().any(|&other| free(table, job, other)) {
            continue;
        }
        gangs[number].push(job);
        if assignable(rest, gangs, most, table) {
            return true;
        }
        gangs[number].pop();
    }
    if gangs.len() == most {
        return false;
    }
    gangs.push(vec![job]);
    let done = assignable(rest, gangs, most, table);
    gangs.pop();
    done
}

/// The gang of each job in two other ways: in each side group over the job, add for
/// each child left of it the most jobs of that child that are free of each other; and
/// take the jobs in the forward sequence, each to the first gang of which all jobs are
/// ordered with it.
fn gangs_of_jobs(tree: &Tree, table: &Before, free_sets: &[Vec<usize>]) -> [Vec<usize>; 2] {
    let most_free_within = |node: &Tree| {
        let within = node.forward();
        let inside = |set: &&Vec<usize>| set.iter().all(|job| within.contains(job));
        free_sets.iter().filter(inside).map(Vec::len).max().unwrap()
    };
    let mut ahead = vec![0; table.len()];
    for node in tree.nodes() {
        let Tree::Side(children) = node else {
            continue;
        };
        let mut left = 0;
        for child in children {
            child.forward().iter().for_each(|&job| ahead[job] += left);
            left += most_free_within(child);
        }
    }
    let mut gangs: Vec<Vec<usize>> = vec![Vec::new(); table.len()];
    let mut first = vec![0; table.len()];
    for job in tree.forward() {
        let takes = |gang: &Vec<usize>| !gang.iter().any(|&other| free(table, job, other));
        first[job] = gangs.iter().position(takes).unwrap();
        gangs[first[job]].push(job);
    }
    [ahead, first]
}

/// No gang is empty, its jobs are ordered, and its hours are theirs together.
fn check_each_gang(plan: &GangPlan, table: &Before, hours: &[usize]) {
    for (number, &together) in plan.hours.iter().enumerate() {
        let has = |job: &usize| plan.gangs[*job] as usize == number;
        let gang: Vec<usize> = (0..table.len()).filter(has).collect();
        assert!(!gang.is_empty(), "{plan:?}");
        for &u in &gang {
            assert!(!gang.iter().any(|&v| free(table, u, v)), "{plan:?}");
        }
        let sum: usize = gang.iter().map(|&job| hours[job]).sum();
        assert_eq!(together as usize, sum, "{plan:?}");
    }
    let together: u32 = plan.hours.iter().sum();
    assert_eq!(together as usize, hours.iter().sum::<usize>(), "{plan:?}");
}

/// Tries every set of the tree's jobs, and every assignment of them to fewer gangs.
fn check_gangs_by_every_set(tree: &Tree, count: usize) {
    let table = tree.meaning(count);
    let free_sets = every_set(&tree.forward(), |u, v| free(&table, u, v));
    let most_free = free_sets.iter().map(Vec::len).max().unwrap();

    let plan = gangs(&record::lay_out(count, tree));
    assert_eq!((plan.number, plan.places), (0, [0; 4]));
    assert_eq!(plan.hours.len(), most_free, "{tree:?}");
    for fewer in 0..=most_free {
        let can = assignable(&jobs(count), &mut Vec::new(), fewer, &table);
        assert_eq!(can, fewer == most_free, "{tree:?}");
    }
    check_each_gang(&plan, &table, &tree.hours(count));
    let of_jobs: Vec<usize> = plan.gangs.iter().map(|&gang| gang as usize).collect();
    for by_other_words in gangs_of_jobs(tree, &table, &free_sets) {
        assert_eq!(of_jobs, by_other_words, "{tree:?}");
    }
}

#[test]
fn gangs_of_every_small_record() {
    for count in 1..=5 {
        let trees = all_trees(&jobs(count)).into_iter();
        for tree in trees.filter(|tree| tree.is_plain(count)) {
            for hours in [HOURS, [0; 5], [4095; 5], [1, 2, 4, 8, 16]] {
                check_gangs_by_every_set(&with_hours(&tree, &hours), count);
            }
        }
    }
}

#[test]
fn gangs_of_some_records_of_up_to_12_jobs() {
    some_trees(&mut Numbers(6), 4000, |numbers, tree| {
        let count = tree.forward().len();
        let hours = some_hours(numbers, count, 4096);
        check_gangs_by_every_set(&with_hours(tree, &hours), count);
    });
}

/// The jobs under each node of a record of so many jobs, the nodes as they come in its
/// bits: a leaf is under every group that still has a child to come.
fn jobs_under(record: &[u8], count: usize) -> Vec<Vec<usize>> {
    let bit = |at: usize| (record[at / 8] >> (7 - at % 8)) as usize & 1;
    let number = |at: usize| (at..at + 7).fold(0, |number, at| 2 * number + bit(at));
    let mut nodes: Vec<Vec<usize>> = Vec::new();
    // Each open group, and how many of its children are to come.
    let mut open: Vec<(usize, usize)> = Vec::new();
    let (mut at, mut leaves) = (7, 0);
    while leaves < count {
        let position = nodes.len();
        nodes.push(Vec::new());
        if let Some((_, to_come)) = open.last_mut() {
            *to_come -= 1;
        }
        if bit(at) == 1 {
            open.push((position, number(at + 2) + 1));
            at += 9;
        } else {
            let job = number(at + 1);
            nodes[position].push(job);
            open.iter().for_each(|&(group, _)| nodes[group].push(job));
            leaves += 1;
            at += 20;
        }
        while open.last().is_some_and(|&(_, to_come)| to_come == 0) {
            open.pop();
        }
    }
    assert!(open.is_empty());
    nodes
}

/// The rule of two jobs by the order alone.
fn rule_of(table: &Before, u: usize, v: usize) -> u64 {
    let so = [u == v, table[u][v], table[v][u], free(table, u, v)];
    assert_eq!(so.iter().filter(|&&so| so).count(), 1);
    so.iter().position(|&so| so).unwrap() as u64 + 1
}

/// The rule that a node gives by its kind and the sequence of its children, if both
/// jobs stand there and in no one child.
fn rule_by(node: &Tree, u: usize, v: usize) -> Option<u64> {
    let child_with = |job: usize| {
        let with = |child: &Tree| child.forward().contains(&job);
        node.children().iter().position(with)
    };
    match node {
        Tree::Leaf { job, .. } => (u == *job && v == *job).then_some(1),
        _ => {
            let (of_u, of_v) = (child_with(u)?, child_with(v)?);
            let chain = matches!(node, Tree::Chain(_));
            let rule = match chain {
                true if of_u < of_v => 2,
                true => 3,
                false => 4,
            };
            (of_u != of_v).then_some(rule)
        }
    }
}

/// The position of the node over both jobs that has the fewest, of all by the jobs
/// under each.
fn lowest_over(nodes: &[Vec<usize>], u: usize, v: usize) -> usize {
    let over = |at: &usize| nodes[*at].contains(&u) && nodes[*at].contains(&v);
    let over: Vec<usize> = (0..nodes.len()).filter(over).collect();
    let fewest = over.iter().map(|&at| nodes[at].len()).min().unwrap();
    let mut lowest = over.into_iter().filter(|&at| nodes[at].len() == fewest);
    let position = lowest.next().unwrap();
    assert_eq!(lowest.next(), None);
    position
}

/// Holds the reasons between every two jobs of a record to its order and to all its
/// nodes.
fn check_reasons(record: &[u8], table: &Before) {
    let count = table.len();
    let under = jobs_under(record, count);
    let read = record::read(record);
    let (_, tree) = read.as_ref().unwrap();
    let nodes = tree.nodes();
    for u in 0..count {
        for v in 0..count {
            let position = lowest_over(&under, u, v);
            let expected = Reason {
                number: 0,
                places: [0; 4],
                rule: rule_of(table, u, v),
                position: position as u64,
                jobs: under[position].len() as u64,
            };
            let given = reason_of(read.as_ref(), u as u16, v as u16);
            assert_eq!(given, expected, "{tree:?}: {u} and {v}");
            let by_node = rule_by(nodes[position], u, v);
            assert_eq!(by_node, Some(given.rule), "{tree:?}: {u} and {v}");
        }
    }
    for (u, v) in [(count, 0), (0, count), (count, count), (65_535, count)] {
        assert_eq!(reason(record, u as u16, v as u16).number, 14);
    }
}

/// The order of a record by the reduced orders that it gives back.
fn order_of(record: &[u8], count: usize) -> Before {
    let reduced = read_record(record, 8192).reduced;
    let orders = reduced.chunks(2).map(|o| (o[0] as usize, o[1] as usize));
    followed_on(count, &orders.collect::<Vec<_>>())
}

#[test]
fn reasons_in_every_small_record() {
    for count in 1..=5 {
        let trees = all_trees(&jobs(count)).into_iter();
        for tree in trees.filter(|tree| tree.is_plain(count)) {
            let record = record::lay_out(count, &tree);
            check_reasons(&record, &order_of(&record, count));
        }
    }
}

#[test]
fn reasons_in_some_records_of_up_to_12_jobs() {
    some_trees(&mut Numbers(7), 2000, |numbers, tree| {
        let count = tree.forward().len();
        let hours = some_hours(numbers, count, 4096);
        let record = record::lay_out(count, &with_hours(tree, &hours));
        check_reasons(&record, &order_of(&record, count));
    });
}

#[test]
fn reasons_in_some_records_of_up_to_64_jobs() {
    let mut numbers = Numbers(8);
    for count in (13..=64).step_by(3) {
        let mut jobs = jobs(count);
        for i in 1..count {
            jobs.swap(i, numbers.below(i + 1));
        }
        for side in [false, true] {
            let record = record::lay_out(count, &some_tree(&mut numbers, &jobs, side));
            check_reasons(&record, &order_of(&record, count));
        }
    }
}

/// A job's row, made once from the finished rows of the jobs after it, each join
/// counted; for orders without a circle.
fn finished_row(job: usize, next: &Before, rows: &mut [Option<Vec<bool>>], joins: &mut u64) {
    if rows[job].is_some() {
        return;
    }
    let mut row = vec![false; next.len()];
    for after in (0..next.len()).filter(|&after| next[job][after]) {
        finished_row(after, next, rows, joins);
        row[after] = true;
        for (has, more) in row.iter_mut().zip(rows[after].as_ref().unwrap()) {
            *has |= more;
        }
        *joins += 1;
    }
    rows[job] = Some(row);
}

/// The joins of the passes by what the rows are known to be: at the time of a
/// job's pass a row has those jobs to which a run over smaller jobs alone leads.
fn joins_by_runs(next: &Before) -> u64 {
    let count = next.len();
    let mut joins = 0;
    for job in (0..count).filter(|&job| next[job].contains(&true)) {
        for from in 0..count {
            let mut met = vec![false; count];
            let mut to_visit = vec![from];
            while let Some(at) = to_visit.pop() {
                for after in (0..count).filter(|&after| next[at][after]) {
                    if !met[after] && after < job {
                        to_visit.push(after);
                    }
                    met[after] = true;
                }
            }
            joins += met[job] as u64;
        }
    }
    joins
}

/// The joins of orders on so many jobs, each order written once and then again in
/// another sequence, against both ways to count them; whether there is a circle.
fn check_joins(numbers: &mut Numbers, count: usize, orders: &[(usize, usize)]) -> bool {
    let mut next = vec![vec![false; count]; count];
    orders.iter().for_each(|&(u, v)| next[u][v] = true);
    let table = followed_on(count, orders);
    let circle = (0..count).any(|job| table[job][job]);
    let mut expected = 0;
    if circle {
        expected = joins_by_runs(&next);
    } else {
        let mut rows = vec![None; count];
        for job in 0..count {
            finished_row(job, &next, &mut rows, &mut expected);
        }
        let rows: Before = rows.into_iter().map(Option::unwrap).collect();
        assert_eq!(rows, table);
    }

    let mut again = orders.to_vec();
    for _ in 0..2 {
        let list: Vec<u16> = again
            .iter()
            .flat_map(|&(u, v)| [u as u16, v as u16])
            .collect();
        let given = Joins {
            number: if circle { 7 } else { 0 },
            count: expected,
        };
        assert_eq!(of_list(count as u16, &list), given, "{count} {list:?}");
        assert_eq!(joins(count as u16, &list), expected);
        // The last number of an odd list is left out, wherever it would lead.
        let odd = [&list[..], &[u16::MAX]].concat();
        assert_eq!(joins(count as u16, &odd), expected);
        assert_eq!(by_passes(count, &different(&list)).1, table);
        for _ in 0..4 * orders.len() {
            again.push(orders[numbers.below(orders.len())]);
        }
        for i in 1..again.len() {
            again.swap(i, numbers.below(i + 1));
        }
    }
    circle
}

#[test]
fn joins_of_every_relation_on_up_to_four_jobs() {
    let mut numbers = Numbers(4);
    // Graphs without a circle on labelled jobs.
    for (count, without) in [(0, 1), (1, 1), (2, 3), (3, 25), (4, 543)] {
        let mut circles = 0;
        for relation in 0u32..1 << (count * count) {
            let chosen = (0..count * count).filter(|i| relation >> i & 1 == 1);
            let orders: Vec<(usize, usize)> = chosen.map(|i| (i / count, i % count)).collect();
            circles += check_joins(&mut numbers, count, &orders) as u32;
        }
        assert_eq!((1 << (count * count)) - circles, without);
    }
}

#[test]
fn joins_of_some_relations_on_up_to_20_jobs() {
    let mut numbers = Numbers(5);
    let mut circles = 0;
    for round in 0..6000 {
        let count = 5 + round % 16;
        let mut rank = jobs(count);
        for i in 1..count {
            rank.swap(i, numbers.below(i + 1));
        }
        let along_rank = round % 4 > 0;
        let mut orders = Vec::new();
        for _ in 0..numbers.below([count, 2 * count, count * count][round % 3] + 1) {
            let (u, v) = (numbers.below(count), numbers.below(count));
            if rank[u] < rank[v] || !along_rank || numbers.below(200) == 0 {
                orders.push((u, v));
            }
        }
        circles += check_joins(&mut numbers, count, &orders) as u32;
    }
    assert!((1000..5000).contains(&circles), "{circles}");
}

/// What is told of a list of orders on 1 to 128 jobs with hours for each, unless it is
/// accepted: refusals 4 to 8, each in its sentence's words.
fn told_of(count: usize, orders: &[(usize, usize)]) -> Option<(u64, [u64; 4])> {
    let at = |place: usize| [place as u64, 0, 0, 0];
    if orders.len() > 4096 {
        return Some((4, at(0)));
    }
    let off = |job: usize| job >= count;
    if let Some(place) = orders.iter().position(|&(u, v)| off(u) || off(v)) {
        return Some((5, at(place)));
    }
    if let Some(place) = orders.iter().position(|&(u, v)| u == v) {
        return Some((6, at(place)));
    }
    let table = followed_on(count, orders);
    if let Some(job) = (0..count).find(|&job| table[job][job]) {
        return Some((7, at(job)));
    }
    every_n(&table).into_iter().min().map(|first| (8, first))
}

/// The number that each answer to a preview has, and how often.
type Answers = BTreeMap<u64, u32>;

/// Holds the previews of every two of these numbers on a list to the analysis of the
/// copy with the order at its end, and that on small lists to the refusals' words.
fn check_previews(answers: &mut Answers, count: usize, list: &[u16], numbers: &[u16]) {
    let hours: Vec<u16> = (0..count).map(|job| HOURS[job % 5] as u16).collect();
    for &first in numbers {
        for &second in numbers {
            let given = preview(count as u16, list, &hours, (first, second));
            let copy = [list, &[first, second]].concat();
            let whole = analyse_pairs(count as u16, &copy, &hours, 464, 8192);
            assert_eq!(
                (given.number, given.places),
                (whole.number, whole.places),
                "{count} {list:?} {first} {second}"
            );
            *answers.entry(given.number).or_default() += 1;
            if count > 6 || list.len() % 2 == 1 {
                continue;
            }
            let pair = |order: &[u16]| (order[0] as usize, order[1] as usize);
            let orders: Vec<(usize, usize)> = copy.chunks_exact(2).map(pair).collect();
            let told = match count {
                0 => Some((3, [0; 4])),
                _ => told_of(count, &orders),
            };
            let refused = (given.number != 0).then_some((given.number, given.places));
            assert_eq!(refused, told, "{count} {list:?} {first} {second}");
        }
    }
}

/// The numbers below the count, the count and the last number of 16 bits.
fn numbers_to(count: usize) -> Vec<u16> {
    let mut numbers: Vec<u16> = (0..=count as u16).collect();
    numbers.push(u16::MAX);
    numbers
}

/// A list of these orders of all pairs of so many jobs, by its bits.
fn list_of(relation: usize, pairs: &[[u16; 2]]) -> Vec<u16> {
    let chosen = (0..pairs.len()).filter(|i| relation >> i & 1 == 1);
    chosen.flat_map(|i| pairs[i]).collect()
}

fn pairs_of(count: usize, with_itself: bool) -> Vec<[u16; 2]> {
    let jobs = 0..count as u16;
    let pairs = jobs.clone().flat_map(|u| jobs.clone().map(move |v| [u, v]));
    pairs
        .filter(|pair| with_itself || pair[0] != pair[1])
        .collect()
}

/// Every relation on up to 3 jobs, the same as an odd list, and on 4 jobs every one
/// without an order from a job to itself.
#[test]
fn previews_on_every_relation_on_up_to_four_jobs() {
    let mut answers = Answers::new();
    for count in 0..=4 {
        let pairs = pairs_of(count, count < 4);
        for relation in 0..1 << pairs.len() {
            let list = list_of(relation, &pairs);
            check_previews(&mut answers, count, &list, &numbers_to(count));
            if count < 4 {
                let odd = [&list[..], &[0]].concat();
                check_previews(&mut answers, count, &odd, &[0, 1, count as u16]);
            }
        }
    }
    let numbers: Vec<u64> = answers.into_keys().collect();
    assert_eq!(numbers, [0, 2, 3, 5, 6, 7, 8]);
}

/// Every list of up to 2 orders on the jobs and one number that is none.
#[test]
fn previews_on_every_list_of_up_to_two_orders() {
    let mut answers = Answers::new();
    for count in 0..=4 {
        let pairs = pairs_of(count + 1, true);
        let numbers = numbers_to(count);
        check_previews(&mut answers, count, &[], &numbers);
        for one in &pairs {
            check_previews(&mut answers, count, one, &numbers);
            for other in &pairs {
                check_previews(&mut answers, count, &[*one, *other].concat(), &numbers);
            }
        }
    }
    // Two of its own and one more are the least that can have an N.
    let numbers: Vec<u64> = answers.into_keys().collect();
    assert_eq!(numbers, [0, 3, 5, 6, 7, 8]);
}

/// Orders along a ranking, mostly those of a tree with some left out or put in.
#[test]
fn previews_on_some_lists_of_up_to_20_jobs() {
    let mut numbers = Numbers(7);
    let mut answers = Answers::new();
    for round in 0..3000 {
        let count = 5 + round % 16;
        let mut rank = jobs(count);
        for i in 1..count {
            rank.swap(i, numbers.below(i + 1));
        }
        let tree = some_tree(&mut numbers, &rank, round % 2 == 1);
        let mut orders = match round % 4 {
            3 => Vec::new(),
            _ => reduced(&tree.meaning(count)),
        };
        for _ in 0..numbers.below([2, 3, count][round % 3]) {
            let later = 1 + numbers.below(count - 1);
            let order = (rank[numbers.below(later)], rank[later]);
            let at = numbers.below(orders.len() + 1);
            orders.insert(at, order);
        }
        if round % 4 < 2 && !orders.is_empty() {
            orders.remove(numbers.below(orders.len()));
        }
        let list: Vec<u16> = orders
            .iter()
            .flat_map(|&(u, v)| [u as u16, v as u16])
            .collect();
        let some: Vec<u16> = (0..5).map(|_| numbers.below(count) as u16).collect();
        check_previews(&mut answers, count, &list, &some);
    }
    for number in [0, 6, 7, 8] {
        assert!(answers[&number] > 5000, "{answers:?}");
    }
}

/// Whether the whole text has the line form.
fn has_form(text: &[u8]) -> bool {
    let number = |field: &[u8], digits: usize| {
        (1..=digits).contains(&field.len())
            && field.iter().all(|byte| (b'0'..=b'9').contains(byte))
            && (field.len() == 1 || field[0] != b'0')
    };
    let Some((b'\n', body)) = text.split_last() else {
        return false;
    };
    let mut lines = body.split(|&byte| byte == b'\n').map(|text| {
        let text = text.strip_suffix(b"\r").unwrap_or(text);
        text.split(|&byte| byte == b' ').collect::<Vec<&[u8]>>()
    });
    let first = lines.next().unwrap();
    if first.len() != 1 || !number(first[0], 3) {
        return false;
    }
    let hours: Vec<_> = lines.by_ref().take(value(first[0])).collect();
    hours.len() == value(first[0])
        && hours
            .iter()
            .all(|fields| fields.len() == 1 && number(fields[0], 4))
        && lines.all(|fields| fields.len() == 2 && fields.iter().all(|field| number(field, 3)))
}

fn value(digits: &[u8]) -> usize {
    std::str::from_utf8(digits).unwrap().parse().unwrap()
}

/// Whether some text of the form begins so: with its last line ended in one of
/// the shortest ways, and as many hours lines after it as are still due.
fn begins_form(text: &[u8]) -> bool {
    let endings: [&[u8]; 5] = [b"", b"\n", b"0\n", b" 0\n", b"0 0\n"];
    endings.iter().any(|ending| {
        let ended = [text, ending].concat();
        let lines = ended.iter().filter(|&&byte| byte == b'\n').count();
        let digits: Vec<u8> = ended
            .iter()
            .copied()
            .take_while(u8::is_ascii_digit)
            .collect();
        if digits.is_empty() || digits.len() > 3 {
            return false;
        }
        let due = (value(&digits) + 1).saturating_sub(lines);
        has_form(&[&ended[..], &b"0\n".repeat(due)].concat())
    })
}

/// Holds every text of these letters that begins so against the form; broken is
/// the place where it is already, if it is.
fn every_text(letters: &[u8], text: &mut Vec<u8>, broken: Option<usize>, longest: usize) {
    let expected = match broken {
        None if has_form(text) => None,
        None => Some(text.len()),
        broken => broken,
    };
    assert_eq!(
        sheet::read(text).err(),
        expected,
        "{:?}",
        text.escape_ascii().to_string()
    );
    if text.len() == longest {
        return;
    }
    for &letter in letters {
        text.push(letter);
        let here = || (!begins_form(text)).then(|| text.len() - 1);
        let broken = broken.or_else(here);
        every_text(letters, text, broken, longest);
        text.pop();
    }
}

#[test]
fn place_of_a_broken_line_on_every_short_text() {
    every_text(b"019 \r\n-", &mut Vec::new(), None, 7);
    every_text(b"02 \r\n", &mut Vec::new(), None, 9);
    for ahead in ["1\n", "2\r\n", "2\n4095\n", "1\n100", "0\r\n", "0\n1 10"] {
        assert!(begins_form(ahead.as_bytes()));
        every_text(b"019 \r\n", &mut ahead.into(), None, ahead.len() + 6);
    }
}

/// Every text of so many letters.
fn texts(letters: &'static [u8], length: u32) -> impl Iterator<Item = Vec<u8>> {
    (0..letters.len().pow(length)).map(move |mut choice| {
        let mut text = Vec::new();
        for _ in 0..length {
            text.push(letters[choice % letters.len()]);
            choice /= letters.len();
        }
        text
    })
}

/// Every text of the form of up to so many bytes that has no digits but 0 and 1
/// after its count, which is below 4, put together from its lines, with the
/// numbers on them.
fn all_of_form(longest: usize) -> Vec<(Vec<u8>, Vec<usize>)> {
    let numbers = |least: usize| [0, 1].map(|digit| 10 * least + digit);
    let mut jobs = vec![0, 1];
    jobs.extend(numbers(1));
    jobs.extend(numbers(1).map(numbers).concat());
    let mut hours = jobs.clone();
    hours.extend(jobs[4..].iter().flat_map(|&least| numbers(least)));

    let mut counts = Vec::new();
    let mut hours_lines = Vec::new();
    let mut orders = Vec::new();
    for end in ["\n", "\r\n"] {
        counts.extend((0..4).map(|count| (format!("{count}{end}"), vec![count])));
        hours_lines.extend(hours.iter().map(|h| (format!("{h}{end}"), vec![*h])));
        for &u in &jobs {
            orders.extend(jobs.iter().map(|v| (format!("{u} {v}{end}"), vec![u, *v])));
        }
    }
    let mut texts = counts;
    let mut done = 0;
    while done < texts.len() {
        let (text, listed) = texts[done].clone();
        let next = if listed.len() <= listed[0] {
            &hours_lines
        } else {
            &orders
        };
        for (line, numbers) in next {
            if text.len() + line.len() <= longest {
                texts.push((text.clone() + line, [&listed[..], numbers].concat()));
            }
        }
        done += 1;
    }
    texts.retain(|(_, listed)| listed.len() > listed[0]);
    texts
        .into_iter()
        .map(|(text, listed)| (text.into_bytes(), listed))
        .collect()
}

#[test]
fn place_of_a_broken_line_by_the_texts_that_begin_so() {
    let longest = 8;
    // A text cut within these bytes can be ended with few more: a line's end or
    // an order's, and an hours line of two bytes for each that is still due.
    let of_form = all_of_form(longest + 5);
    let mut beginnings = HashSet::new();
    for (text, listed) in &of_form {
        let sheet = sheet::read(text).unwrap();
        let mut read = vec![sheet.count];
        read.extend(&sheet.hours);
        read.extend(sheet.orders.iter().flat_map(|&(u, v)| [u, v]));
        assert_eq!(read, *listed);
        for length in 0..=text.len().min(longest) {
            beginnings.insert(text[..length].to_vec());
        }
    }
    let of_form: HashSet<Vec<u8>> = of_form.into_iter().map(|(text, _)| text).collect();
    for ahead in [
        "0\n", "0\r\n", "1\n", "1\r\n", "2\n", "2\r\n", "3\n", "3\r\n",
    ] {
        for length in 0..=longest - ahead.len() {
            for text in texts(b"01 \r\n-", length as u32) {
                let text = [ahead.as_bytes(), &text].concat();
                let expected = if of_form.contains(&text) {
                    None
                } else {
                    Some(
                        (0..text.len())
                            .find(|&at| !beginnings.contains(&text[..=at]))
                            .unwrap_or(text.len()),
                    )
                };
                assert_eq!(
                    sheet::read(&text).err(),
                    expected,
                    "{:?}",
                    text.escape_ascii().to_string()
                );
            }
        }
    }
}
