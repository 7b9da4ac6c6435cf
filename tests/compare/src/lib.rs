//! The product's C entries held against `second`, bit for bit, on inputs from
//! a fixed seed. A read past an input's end kills the process.

pub mod check;
pub mod families;
pub mod ffi;
pub mod gangs;
pub mod generate;
pub mod joins;
pub mod lent;
#[cfg(feature = "mock")]
pub mod mock;
pub mod preview;
pub mod reason;
pub mod runs;
pub mod sides;
pub mod twins;

use check::Tally;
use families::Task;
use std::sync::atomic::{AtomicUsize, Ordering};
use std::thread;

/// Runs the tasks on all cores. What a task does depends on nothing but the
/// task, so the outcome is the same for any number of threads.
pub fn run(tasks: &[Task]) -> Tally {
    let next = AtomicUsize::new(0);
    let threads = thread::available_parallelism().map_or(2, |cores| cores.get());
    let work = || {
        let mut tally = Tally::default();
        while let Some(task) = tasks.get(next.fetch_add(1, Ordering::Relaxed)) {
            task.run(&mut tally);
        }
        tally
    };
    thread::scope(|scope| {
        let workers: Vec<_> = (0..threads).map(|_| scope.spawn(work)).collect();
        let mut all = Tally::default();
        for worker in workers {
            all.add(worker.join().unwrap());
        }
        all
    })
}
