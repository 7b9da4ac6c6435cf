//! How often one job's row, the jobs after it, is joined into another's while the
//! followed-on order is made (request A.4).

use crate::order::Before;
use crate::MOST_JOBS;
use std::collections::BTreeSet;

/// Orders, each once however often it is written.
pub type Different = BTreeSet<(usize, usize)>;

/// A count of joins, and by the number of its refusal what is so of the list: 3,
/// more than 128 jobs, or 5, an order names a job not below the count, both with
/// nothing counted; 7, there is a circle, which an order from a job to itself is
/// too; else 0.
#[derive(Clone, Copy, Debug, PartialEq, Eq)]
pub struct Joins {
    pub number: u64,
    pub count: u64,
}

/// The joins for a pair list, its last number left out where it is odd.
pub fn of_list(count: u16, list: &[u16]) -> Joins {
    let count = count as usize;
    let orders = different(list);
    let (number, joins) = if count > MOST_JOBS {
        (3, 0)
    } else if orders.iter().any(|&(u, v)| u >= count || v >= count) {
        (5, 0)
    } else if has_circle(count, &orders) {
        (7, by_passes(count, &orders).0)
    } else {
        (0, orders.len() as u64)
    };
    Joins {
        number,
        count: joins,
    }
}

/// The different ones of the whole orders in a list.
pub fn different(list: &[u16]) -> Different {
    let orders = list.chunks_exact(2);
    orders
        .map(|order| (order[0] as usize, order[1] as usize))
        .collect()
}

/// Whether jobs are left when those with no order onward to a job that is left
/// are taken away again and again.
pub fn has_circle(count: usize, orders: &Different) -> bool {
    let mut left = vec![true; count];
    loop {
        let mut onward = vec![false; count];
        for &(u, v) in orders {
            onward[u] |= left[u] && left[v];
        }
        if onward == left {
            return left.contains(&true);
        }
        left = onward;
    }
}

/// The joins of Warshall's passes, and the rows that they end with: for each job
/// in turn its row, unless it is empty, is joined into every row that has the job.
/// The request leaves the count with a circle free; these passes are what the
/// entry that hands it back names.
pub fn by_passes(count: usize, orders: &Different) -> (u64, Before) {
    let mut rows = vec![vec![false; count]; count];
    for &(u, v) in orders {
        rows[u][v] = true;
    }
    let mut joins = 0;
    for job in 0..count {
        let joined = rows[job].clone();
        if !joined.contains(&true) {
            continue;
        }
        for row in rows.iter_mut().filter(|row| row[job]) {
            for (has, more) in row.iter_mut().zip(&joined) {
                *has |= more;
            }
            joins += 1;
        }
    }
    (joins, rows)
}
