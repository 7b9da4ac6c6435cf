//! A search for an N that passes over jobs that are no twins of the ones just below them.

use super::{fault, Asked};
use second::joins;
use second::order::{self, Before};
use second::Outcome;

/// How the job stands to another one: whether it is before it, and after it.
type Side = fn(&Before, usize, usize) -> bool;

const ROW: Side = |before, job, other| before[job][other];
const COLUMN: Side = |before, job, other| before[other][job];

/// What a job and the one just below it have in common, to all jobs below a number.
const PASSED_OVER: [(&str, &[Side], usize); 3] = [
    (
        "a job with the row of the one below it is passed over",
        &[ROW],
        128,
    ),
    (
        "a job with the column of the one below it is passed over",
        &[COLUMN],
        128,
    ),
    (
        "twins are told by the jobs below 64 alone",
        &[ROW, COLUMN],
        64,
    ),
];

/// The outcome, without its N where the first job of that is passed over.
pub fn passed_over(asked: &Asked, mut outcome: Outcome) -> Outcome {
    let given = PASSED_OVER.iter().find(|(name, ..)| fault(name));
    let job = outcome.places[0] as usize;
    if let Some((_, sides, bound)) = given.filter(|_| outcome.number == 8 && job > 0) {
        let count = asked.count as usize;
        let orders: Vec<(usize, usize)> = joins::different(&asked.list).into_iter().collect();
        let before = order::before(count, &orders);
        let alike = |side: &Side| {
            (0..count.min(*bound))
                .all(|other| side(&before, job, other) == side(&before, job - 1, other))
        };
        if sides.iter().all(alike) {
            outcome.places = [0; 4];
        }
    }
    outcome
}
