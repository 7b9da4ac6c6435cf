//! The harness finds every fault of the mock, and none in the mock without one.

use compare::check::Tally;
use compare::mock::{FAULT, FAULTS};
use std::sync::atomic::Ordering;

#[test]
fn every_fault_is_found() {
    // The first part of every family is enough; the quick families come last.
    let mut tasks = compare::families::tasks();
    tasks.dedup_by_key(|task| task.family);
    tasks.reverse();
    for (fault, name) in FAULTS.iter().enumerate() {
        FAULT.store(fault, Ordering::Relaxed);
        let mut tally = Tally::default();
        for task in &tasks {
            task.run(&mut tally);
            if tally.failed > 0 {
                break;
            }
        }
        assert_eq!(tally.failed > 0, fault != 0, "{name}");
    }
}
