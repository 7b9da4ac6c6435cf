//! The answer to a pair list with one more order after its own. The order is written
//! nowhere: the list is followed on without it, then the runs over it are put in.

use crate::{MOST_HOURS, MOST_JOBS, MOST_ORDERS};

/// An answer's number and places.
type Answer = (u64, [usize; 4]);

/// A set of jobs, a bit for each.
type Jobs = u128;

/// Bits of a record: its job count, and each leaf and each group of the tree.
const COUNT: usize = 7;
const LEAF: usize = 1 + 7 + 12;
const GROUP: usize = 2 + 7;

/// A pair list, its hours and the order that would be the last.
pub struct Asked<'a> {
    pub count: usize,
    pub list: &'a [u16],
    pub hours: &'a [u16],
    pub order: (usize, usize),
}

impl Asked<'_> {
    /// The first refusal that holds, as the papers test them, or acceptance.
    pub fn answer(&self) -> Answer {
        let count = self.count;
        if self.list.len() % 2 == 1 {
            return (2, [0; 4]);
        }
        if !(1..=MOST_JOBS).contains(&count) {
            return (3, [0; 4]);
        }
        // No room is left for one more.
        if self.own_orders() >= MOST_ORDERS {
            return (4, [0; 4]);
        }
        if self.hours.len() != count {
            return (12, [0; 4]);
        }
        let above = |&hours: &u16| hours as usize > MOST_HOURS;
        if let Some(job) = self.hours.iter().position(above) {
            return (13, [job, 0, 0, 0]);
        }
        if let Some(place) = self.first_order(|u, v| u.max(v) >= count) {
            return (5, [place, 0, 0, 0]);
        }
        if let Some(place) = self.first_order(|u, v| u == v) {
            return (6, [place, 0, 0, 0]);
        }
        self.followed_on().answer()
    }

    fn own_orders(&self) -> usize {
        self.list.len() / 2
    }

    /// The place of the first order that is so, be it the last.
    fn first_order(&self, is_so: impl Fn(usize, usize) -> bool) -> Option<usize> {
        let (first, second) = self.order;
        let mut own = self.list.chunks_exact(2);
        own.position(|order| is_so(order[0] as usize, order[1] as usize))
            .or_else(|| is_so(first, second).then_some(self.own_orders()))
    }

    /// A run has the one more order not at all, or it leads up to its first job, over
    /// it, and on from its second.
    fn followed_on(&self) -> Order {
        let mut order = Order::of_list(self.count, self.list);
        let (first, second) = self.order;
        let up_to = order.before[first] | job(first);
        let on_from = order.after[second] | job(second);
        each(up_to).for_each(|u| order.after[u] |= on_from);
        each(on_from).for_each(|v| order.before[v] |= up_to);
        order
    }
}

fn job(number: usize) -> Jobs {
    1 << number
}

/// The jobs of a set, the least first.
fn each(mut jobs: Jobs) -> impl Iterator<Item = usize> {
    std::iter::from_fn(move || {
        let least = jobs.trailing_zeros() as usize;
        jobs &= jobs.wrapping_sub(1);
        (least < MOST_JOBS).then_some(least)
    })
}

/// The jobs after each job and those before it.
struct Order {
    after: Vec<Jobs>,
    before: Vec<Jobs>,
}

impl Order {
    /// By way of one job more at a time: what is before that job is before all that is
    /// after it.
    fn of_list(count: usize, list: &[u16]) -> Order {
        let mut order = Order {
            after: vec![0; count],
            before: vec![0; count],
        };
        for pair in list.chunks_exact(2) {
            let (u, v) = (pair[0] as usize, pair[1] as usize);
            order.after[u] |= job(v);
            order.before[v] |= job(u);
        }
        for way in 0..count {
            let (before, after) = (order.before[way], order.after[way]);
            each(before).for_each(|u| order.after[u] |= after);
            each(after).for_each(|v| order.before[v] |= before);
        }
        order
    }

    fn count(&self) -> usize {
        self.after.len()
    }

    fn all(&self) -> Jobs {
        Jobs::MAX >> (MOST_JOBS - self.count())
    }

    /// The jobs that are ordered with this one.
    fn ordered(&self, job: usize) -> Jobs {
        self.after[job] | self.before[job]
    }

    /// The jobs that are free of this one.
    fn free(&self, number: usize) -> Jobs {
        self.all() & !self.ordered(number) & !job(number)
    }

    /// From refusal 7 on, with areas long enough.
    fn answer(&self) -> Answer {
        let before_itself = |&number: &usize| self.after[number] & job(number) != 0;
        if let Some(job) = (0..self.count()).find(before_itself) {
            return (7, [job, 0, 0, 0]);
        }
        if let Some(places) = self.first_n() {
            return (8, places);
        }
        let groups = self.groups(self.all());
        let bits = COUNT + LEAF * self.count() + GROUP * groups;
        (0, [bits.div_ceil(8), self.reduced(), groups, 0])
    }

    /// The first N: least a, then least b, c, d.
    fn first_n(&self) -> Option<[usize; 4]> {
        for a in 0..self.count() {
            for b in each(self.free(a)) {
                let for_d = self.after[b] & self.free(a);
                if for_d == 0 {
                    continue;
                }
                for c in each(self.after[a] & self.after[b]) {
                    if let Some(d) = each(for_d & self.free(c)).next() {
                        return Some([a, b, c, d]);
                    }
                }
            }
        }
        None
    }

    /// How many pairs u, v have u before v and no job between.
    fn reduced(&self) -> usize {
        let from = |u: usize| {
            let next = |&v: &usize| self.after[u] & self.before[v] == 0;
            each(self.after[u]).filter(next).count()
        };
        (0..self.count()).map(from).sum()
    }

    /// How many groups the plain tree of these jobs has: one over the parts that hang
    /// together by ordered pairs, or else by free ones, and those of each part.
    fn groups(&self, jobs: Jobs) -> usize {
        if jobs.count_ones() == 1 {
            return 0;
        }
        let mut parts = parts(jobs, |job| self.ordered(job));
        if parts.len() == 1 {
            parts = self::parts(jobs, |job| self.free(job));
        }
        assert!(parts.len() > 1, "an order without an N has a tree");
        let within: usize = parts.into_iter().map(|part| self.groups(part)).sum();
        1 + within
    }
}

/// The jobs in parts that hang together, each job with its neighbours.
fn parts(jobs: Jobs, neighbours: impl Fn(usize) -> Jobs) -> Vec<Jobs> {
    let mut left = jobs;
    let mut parts = Vec::new();
    while let Some(least) = each(left).next() {
        let mut part = job(least);
        loop {
            let grown = each(part).fold(part, |grown, job| grown | neighbours(job)) & jobs;
            if grown == part {
                break;
            }
            part = grown;
        }
        left &= !part;
        parts.push(part);
    }
    parts
}
