//! The C entries of the libraries under test, and nothing else that is unsafe but
//! what `lent` does and the mock's own bodies.

use crate::check::{Guarded, ENOUGH};
use crate::lent::Lent;
use second::packed;

extern "C" {
    fn ordersheet_analyse(
        sheet: *const u8,
        sheet_len: usize,
        record: *mut u8,
        record_len: usize,
        reduced: *mut u8,
        reduced_len: usize,
    ) -> u64;

    fn ordersheet_read(
        record: *const u8,
        record_len: usize,
        reduced: *mut u8,
        reduced_len: usize,
    ) -> u64;

    fn ordersheet_test_sheet(
        sheet: *const u8,
        sheet_len: usize,
        record: *mut u8,
        record_len: usize,
        reduced: *mut u8,
        reduced_len: usize,
        forward: *mut u8,
        forward_len: usize,
        reverse: *mut u8,
        reverse_len: usize,
    ) -> u64;

    fn ordersheet_test_pairs(
        count: u16,
        list: *const u16,
        list_len: usize,
        hours: *const u16,
        hours_len: usize,
        record: *mut u8,
        record_len: usize,
        reduced: *mut u8,
        reduced_len: usize,
        forward: *mut u8,
        forward_len: usize,
        reverse: *mut u8,
        reverse_len: usize,
    ) -> u64;

    fn ordersheet_test_read(
        record: *const u8,
        record_len: usize,
        reduced: *mut u8,
        reduced_len: usize,
        hours: *mut u16,
        hours_len: usize,
        forward: *mut u8,
        forward_len: usize,
        reverse: *mut u8,
        reverse_len: usize,
    ) -> u64;

    fn ordersheet_longest_run(record: *const u8, record_len: usize) -> Run;

    fn ordersheet_gangs(record: *const u8, record_len: usize) -> GangPlan;

    fn ordersheet_reason(record: *const u8, record_len: usize, first: u16, second: u16) -> Reason;

    fn ordersheet_preview(
        count: u16,
        list: *const u16,
        list_len: usize,
        hours: *const u16,
        hours_len: usize,
        first: u16,
        second: u16,
    ) -> u64;

    fn bench_joins(arcs: *const u16, numbers: usize, n: u16, again: u16) -> usize;
}

/// What comes back of a longest run: its jobs, so many, have zeros after them.
#[derive(Debug, PartialEq, Eq)]
#[repr(C)]
pub struct Run {
    pub answer: u64,
    pub total: u64,
    pub count: u64,
    pub jobs: [u8; 128],
}

/// What comes back of gangs: their hours, so many, and the gangs of the jobs have
/// zeros after them.
#[derive(Debug, PartialEq, Eq)]
#[repr(C)]
pub struct GangPlan {
    pub answer: u64,
    pub count: u64,
    pub hours: [u32; 128],
    pub gangs: [u8; 128],
}

/// What comes back of two jobs: the number of their rule, the lowest node over both by
/// its position, and the jobs under it.
#[derive(Debug, Default, PartialEq, Eq)]
#[repr(C)]
pub struct Reason {
    pub answer: u64,
    pub rule: u64,
    pub position: u64,
    pub jobs: u64,
}

impl From<second::LongestRun> for Run {
    fn from(run: second::LongestRun) -> Run {
        Run {
            answer: packed(run.number, run.places),
            total: run.total,
            count: run.jobs.len() as u64,
            jobs: and_zeros(&run.jobs),
        }
    }
}

impl From<second::GangPlan> for GangPlan {
    fn from(plan: second::GangPlan) -> GangPlan {
        GangPlan {
            answer: packed(plan.number, plan.places),
            count: plan.hours.len() as u64,
            hours: and_zeros(&plan.hours),
            gangs: and_zeros(&plan.gangs),
        }
    }
}

impl From<second::Reason> for Reason {
    fn from(reason: second::Reason) -> Reason {
        Reason {
            answer: packed(reason.number, reason.places),
            rule: reason.rule,
            position: reason.position,
            jobs: reason.jobs,
        }
    }
}

/// The entries, and zeros after them.
pub fn and_zeros<T: Copy + Default>(entries: &[T]) -> [T; 128] {
    let mut all = [T::default(); 128];
    all[..entries.len()].copy_from_slice(entries);
    all
}

/// The areas lent to a call.
pub struct Areas {
    pub record: Guarded,
    pub reduced: Guarded,
    pub forward: Guarded,
    pub reverse: Guarded,
    pub hours: Guarded,
}

pub fn analyse(sheet: &Lent<u8>, areas: &mut Areas) -> u64 {
    unsafe {
        ordersheet_analyse(
            sheet.pointer(),
            sheet.length(),
            areas.record.pointer(),
            areas.record.length(),
            areas.reduced.pointer(),
            areas.reduced.length(),
        )
    }
}

pub fn read(record: &Lent<u8>, areas: &mut Areas) -> u64 {
    unsafe {
        ordersheet_read(
            record.pointer(),
            record.length(),
            areas.reduced.pointer(),
            areas.reduced.length(),
        )
    }
}

pub fn test_sheet(sheet: &Lent<u8>, areas: &mut Areas) -> u64 {
    unsafe {
        ordersheet_test_sheet(
            sheet.pointer(),
            sheet.length(),
            areas.record.pointer(),
            areas.record.length(),
            areas.reduced.pointer(),
            areas.reduced.length(),
            areas.forward.pointer(),
            areas.forward.length(),
            areas.reverse.pointer(),
            areas.reverse.length(),
        )
    }
}

pub fn test_pairs(count: u16, list: &Lent<u16>, hours: &Lent<u16>, areas: &mut Areas) -> u64 {
    unsafe {
        ordersheet_test_pairs(
            count,
            list.pointer(),
            list.length(),
            hours.pointer(),
            hours.length(),
            areas.record.pointer(),
            areas.record.length(),
            areas.reduced.pointer(),
            areas.reduced.length(),
            areas.forward.pointer(),
            areas.forward.length(),
            areas.reverse.pointer(),
            areas.reverse.length(),
        )
    }
}

pub fn test_read(record: &Lent<u8>, areas: &mut Areas) -> u64 {
    unsafe {
        ordersheet_test_read(
            record.pointer(),
            record.length(),
            areas.reduced.pointer(),
            areas.reduced.length(),
            areas.hours.pointer_16(),
            areas.hours.length() / 2,
            areas.forward.pointer(),
            areas.forward.length(),
            areas.reverse.pointer(),
            areas.reverse.length(),
        )
    }
}

pub fn longest_run(record: &Lent<u8>) -> Run {
    unsafe { ordersheet_longest_run(record.pointer(), record.length()) }
}

pub fn gangs(record: &Lent<u8>) -> GangPlan {
    unsafe { ordersheet_gangs(record.pointer(), record.length()) }
}

pub fn reason(record: &Lent<u8>, first: u16, second: u16) -> Reason {
    unsafe { ordersheet_reason(record.pointer(), record.length(), first, second) }
}

pub fn preview(count: u16, list: &Lent<u16>, hours: &Lent<u16>, order: (u16, u16)) -> u64 {
    unsafe {
        ordersheet_preview(
            count,
            list.pointer(),
            list.length(),
            hours.pointer(),
            hours.length(),
            order.0,
            order.1,
        )
    }
}

/// The answer alone of the analysis of a pair list, with areas long enough.
pub fn answer_to_pairs(count: u16, list: &Lent<u16>, hours: &Lent<u16>) -> u64 {
    let (mut record, mut reduced) = ([0; ENOUGH.0], [0; ENOUGH.1]);
    let (mut forward, mut reverse) = ([0; 128], [0; 128]);
    unsafe {
        ordersheet_test_pairs(
            count,
            list.pointer(),
            list.length(),
            hours.pointer(),
            hours.length(),
            record.as_mut_ptr(),
            record.len(),
            reduced.as_mut_ptr(),
            reduced.len(),
            forward.as_mut_ptr(),
            forward.len(),
            reverse.as_mut_ptr(),
            reverse.len(),
        )
    }
}

pub fn joins(count: u16, list: &Lent<u16>) -> usize {
    // the closure is made once more for every other number of orders: the count is the same
    let again = (list.length() / 2 % 2) as u16;
    unsafe { bench_joins(list.pointer(), list.length(), count, again) }
}
