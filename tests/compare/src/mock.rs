//! The C entries made of `second`, to try the harness with no library. A fault
//! other than 0 makes them wrong in one way, which the harness has to find.

mod gangs;
mod preview;
mod reason;
mod sides;
mod twins;

use crate::ffi;
use crate::generate::{list, with_hours_of, Bits};
use second::joins::{self, Different, Joins};
use second::longest::{self, Run};
use second::order;
use second::sheet::Sheet;
use second::tree::Tree;
use second::{packed, LongestRun, Outcome, LONGEST_RECORD, LONGEST_SHEET, MOST_HOURS};
use std::slice::{from_raw_parts, from_raw_parts_mut};
use std::sync::atomic::{AtomicUsize, Ordering};

pub static FAULT: AtomicUsize = AtomicUsize::new(0);

pub const FAULTS: [&str; 428] = [
    "none",
    "a byte after the record is set",
    "a byte after the reduced orders is set",
    "a byte ahead of the record area is set",
    "a byte after the area for reduced orders is set",
    "the record is written though the answer is 10",
    "the record area is cleared on refusal",
    "the area for reduced orders is cleared on refusal by 11",
    "10 is tested ahead of 9",
    "an area that just suffices is too short for the record",
    "an area that just suffices is too short for the reduced orders",
    "10 is tested ahead of 11",
    "the forward sequence stays on refusal",
    "the reverse sequence is not cleared after its last job",
    "the third place is packed eight bits too high",
    "4,096 orders are too many",
    "4,097 orders are not too many",
    "the longest sheet is too long",
    "a sheet of a byte more than the longest is not too long",
    "a sheet of 32,773 bytes is too long",
    "a sheet of 36,870 bytes is too long",
    "the place of a broken line is one too far where the sheet stops short",
    "a carriage return alone ends a line",
    "a carriage return ends the last line",
    "carriage returns are left out wherever they stand",
    "two carriage returns and a line feed end a line",
    "a line feed and a carriage return end a line",
    "a line ends as the first one does",
    "the count line ends in a line feed alone",
    "a carriage return in an empty line is let pass",
    "the place after a carriage return is the carriage return's",
    "the place is the carriage return's where the sheet stops short after it",
    "the place of a wrong carriage return is that of the line feed after it",
    "a carriage return ahead of a line feed is not counted in places",
    "an odd list is refused for its count first",
    "a self order counts as a circle",
    "the order's place counts from 1",
    "c and d of the N are exchanged",
    "a job with the row of the one below it is passed over",
    "a job with the column of the one below it is passed over",
    "twins are told by the jobs below 64 alone",
    "the last byte of a record may be missing where it is zero",
    "bits that fill the last byte may be set",
    "zero bytes may follow the record",
    "the input is written to",
    "the hours list is written to",
    "a leaf has the hours of the job after its own",
    "a leaf has the hours of the job numbered as its place among the leaves",
    "hours of 4,095 are too many",
    "hours of 4,096 are not too many",
    "hours above 9,999 are not too many",
    "the place of 13 is one too far",
    "the place of 13 is the last such job",
    "12 is tested ahead of 3",
    "12 is tested ahead of 4",
    "13 is tested ahead of 4",
    "13 is tested ahead of 12",
    "5 is tested ahead of 13",
    "a longer hours list is let pass",
    "a shorter hours list is let pass",
    "hours are heeded in the sequences",
    "hours lines are counted one short",
    "an hours line more is wanted",
    "an hours line is wanted for count 0",
    "at most 128 hours lines are read",
    "the place of missing hours lines is that of the last line",
    "a fifth digit of hours is accepted",
    "a leading zero of hours is accepted",
    "a fourth digit of hours is not accepted",
    "a fourth digit of the count is accepted",
    "a fourth digit of an order is accepted",
    "an hours line ends in a line feed alone",
    "the bits of hours are written in the wrong order",
    "the bits of hours are read in the wrong order",
    "hours are written with 13 bits",
    "hours are written with 11 bits",
    "hours are not handed back",
    "hours are handed back in leaf order",
    "hours are not cleared after the last job",
    "hours stay on refusal",
    "hours are handed back though the answer is 10",
    "a byte after the area for hours is set",
    "a record of 464 bytes is too long",
    "a record over 272 bytes is too long",
    "a record without hours is read",
    "side children are laid out by smallest job",
    "side children are laid out by smallest job but for the largest",
    "side children are laid out fewest jobs first",
    "side children are laid out most jobs first, equal ones by largest job",
    "side children are laid out most jobs first, equal ones by first leaf",
    "side children are laid out most jobs first, equal ones by last leaf",
    "side children are laid out most jobs first, equal ones downwards",
    "side children are laid out most nodes first",
    "side children are laid out most children first",
    "side children are laid out most hours first",
    "side children are laid out most gangs first",
    "side children are laid out as if 64 jobs were none",
    "side children are laid out as if 127 jobs were none",
    "outermost side children are laid out by smallest job",
    "inner side children are laid out by smallest job",
    "the children of any group are laid out most jobs first",
    "the forward sequence is by smallest job",
    "the reverse sequence is by smallest job",
    "the reverse sequence has equal side children from left to right",
    "side children are read by smallest job",
    "side children are read by smallest job but for the largest",
    "side children are read fewest jobs first",
    "side children are read most jobs first, equal ones by largest job",
    "side children are read most jobs first, equal ones by first leaf",
    "side children are read most jobs first, equal ones by last leaf",
    "side children are read most jobs first, equal ones downwards",
    "side children are read most nodes first",
    "side children are read most children first",
    "side children are read most hours first",
    "side children are read most gangs first",
    "side children are read as if 64 jobs were none",
    "side children are read as if 127 jobs were none",
    "outermost side children are read by smallest job",
    "inner side children are read by smallest job",
    "side children are read in any sequence",
    "side children are read in any sequence where they are equal",
    "side children are read in any sequence where they are unequal",
    "side children are read with no two equal",
    "side children are read as if one job more were none",
    "side children are read most jobs first and by smallest job at once",
    "side children are read in the former order too",
    "side children are read each against the first",
    "side children are read each against the one two places ahead",
    "side children are read with jobs counted against the first's",
    "side children are read with jobs counted against those two places ahead",
    "side children are read with the smallest job against all ahead",
    "side children are read in any sequence after the second",
    "side children are read in order but for the first",
    "side children are read in order but for the last",
    "the children of any group are read most jobs first",
    "outermost side children are read in any sequence",
    "inner side children are read in any sequence",
    "the last child with the greatest total is taken",
    "the first child of a side group is taken",
    "of children with the greatest total the one with most jobs in its run is taken",
    "of children with the greatest total the one with the smallest job is taken",
    "the child with most jobs in its run is taken",
    "the child with the smallest job is taken",
    "a chain takes its child with the greatest total",
    "a side group adds its children's runs",
    "jobs with no hours are left out of a run",
    "a run is listed latest first",
    "a run is listed by job number",
    "the total of a run has 16 bits",
    "the count of a run is one too many",
    "the count of a run is one too few",
    "a job is left after a run",
    "the last of 128 jobs of a run is left out",
    "the answer to a run has the record's places",
    "the record of a run is written to",
    "a total stays on refusal",
    "a count stays on refusal",
    "jobs stay on refusal",
    "a run is given where zero bytes follow the record",
    "a run is given where bits that fill the last byte are set",
    "a run is given where a group has one child",
    "a run is given where a job stands twice",
    "a run is given where a job does not stand",
    "a run is given where a group is in one of its kind",
    "a run is given where side children are out of order",
    "a run is given where side children are in the former order",
    "a chain numbers its children's gangs one after the other",
    "a chain joins its children's last gangs",
    "a chain has as many gangs as its first child",
    "a chain has as many gangs as its last child",
    "the children of a side group share gangs",
    "a side group has as many gangs as its widest child",
    "a later child's gangs are numbered ahead of an earlier one's",
    "the gangs of the child with most gangs are numbered first",
    "the gangs of the child with the smallest job are numbered first",
    "each job by its number has the first gang that can have it",
    "gangs are numbered by their smallest jobs",
    "gangs are numbered from 1",
    "the number of a gang has 6 bits",
    "the gangs of jobs are listed in leaf order",
    "the last job of a gang is left out of its hours",
    "the hours of a gang have 16 bits",
    "the hours of a gang have 18 bits",
    "a gang with no hours is left out",
    "the last of 128 gangs is left out",
    "the count of gangs is one too many",
    "the count of gangs is one too few",
    "hours are left after the last gang",
    "a gang is left after the last job",
    "the answer to gangs has the record's places",
    "the record of gangs is written to",
    "the longest record has no gangs",
    "a count of gangs stays on refusal",
    "a gang's hours stay on refusal",
    "a job's gang stays on refusal",
    "gangs are given where zero bytes follow the record",
    "gangs are given where bits that fill the last byte are set",
    "gangs are given where a group has one child",
    "gangs are given where a job stands twice",
    "gangs are given where a job does not stand",
    "gangs are given where a group is in one of its kind",
    "gangs are given where side children are out of order",
    "gangs are given where side children are in the former order",
    "a job is taken for the leaf at its place",
    "the answer to a reason has the record's places",
    "the first job number has 8 bits",
    "the second job number has 8 bits",
    "a job number has 15 bits",
    "a job number above 127 is taken for 127",
    "the second job is taken for the first too",
    "the longest record has no reasons",
    "the job numbered as the count is let pass as the first",
    "the job numbered as the count is let pass as the second",
    "the first job number is not tested",
    "the second job number is not tested",
    "14 is given only where neither is a job",
    "the same job is told of what is no job",
    "the same job twice is refused",
    "one job alone is refused",
    "jobs 126 and 127 are refused together",
    "11 is given for what is no job",
    "a number is tested against 128 alone",
    "a number from 32,768 on is taken for one below 0",
    "the last job is refused",
    "job 127 is refused",
    "14 is tested ahead of 11",
    "a number from 128 on is refused ahead of 11",
    "no bytes are a record of no jobs",
    "a rule stays on refusal by 11",
    "a position stays on refusal by 11",
    "jobs stay on refusal by 11",
    "a rule stays on refusal by 14",
    "a position stays on refusal by 14",
    "jobs stay on refusal by 14",
    "14 has the job as its place",
    "the rule is numbered from 0",
    "the same job shows the group over its leaf",
    "the same job shows the outermost group",
    "the same job has its number for a position",
    "the same job has no position",
    "the same job has no jobs under it",
    "the same job is free of itself",
    "the same job is before itself",
    "the rule is that of the outermost group",
    "jobs in any side group are free",
    "jobs in any chain are ordered",
    "free is told for a chain",
    "a chain puts the first job before the second",
    "the children of a side group are taken for ordered",
    "before and after are exchanged",
    "the rule is that of the smaller job to the other",
    "the child order is that of the job numbers",
    "the child order is that of the smallest jobs",
    "the child order is that of the numbers of jobs",
    "the child order is that of side children",
    "the group over the lowest one is told",
    "the outermost group is told",
    "the group over the first job is told",
    "the group over the second job is told",
    "the last group ahead of both leaves is told",
    "the first leaf of the two is told",
    "of groups that end together one stays open",
    "a group in 64 others is not told",
    "a group in 126 others is not told",
    "positions are counted from 1",
    "positions are counted in leaves",
    "positions are counted in groups",
    "positions are counted in bits",
    "positions are counted level by level",
    "positions are counted after the children",
    "positions go from right to left in side groups",
    "positions go by smallest job in side groups",
    "positions are those in the group over the node",
    "the depth is told for a position",
    "positions leave out what is below earlier children",
    "a side group has no position",
    "the last of 255 nodes has no position",
    "a position has 6 bits",
    "a position has 7 bits",
    "jobs under a group are counted in nodes",
    "jobs under a group are counted in nodes below it",
    "jobs under a group are counted in children",
    "jobs under a group are counted in its two children",
    "jobs are counted from one leaf to the other",
    "jobs after the later leaf are not counted",
    "jobs ahead of the earlier leaf are not counted",
    "jobs are counted as far as the greatest",
    "all jobs of the record are told",
    "jobs with no hours are not counted",
    "the count of jobs is one too few",
    "the count of jobs is one too many",
    "128 jobs are told as 0",
    "the last of 255 nodes is not counted",
    "the record of a reason is written to",
    "a reason is given where zero bytes follow the record",
    "a reason is given where bits that fill the last byte are set",
    "a reason is given where a group has one child",
    "a reason is given where a job stands twice",
    "a reason is given where a job does not stand",
    "a reason is given where a group is in one of its kind",
    "a reason is given where side children are out of order",
    "a reason is given where side children are in the former order",
    "the third place of a preview is packed eight bits too high",
    "the order of a preview is turned",
    "the first number of the order has 8 bits",
    "the second number of the order has 8 bits",
    "the numbers of the order have 15 bits",
    "a number of the order above 127 is taken for 127",
    "the order is put ahead of the list",
    "the order is left out",
    "an order outside is left out",
    "the order's first number is not tested",
    "the order's second number is not tested",
    "the count is let pass in the order",
    "an order from a job to itself is left out",
    "an order that is there already is left out",
    "the order takes the place of the last one",
    "an odd list is previewed without its last number",
    "an odd list is closed by the order's first number",
    "a full list has room for the order",
    "a list of 4,097 orders has room for the order",
    "the length of a previewed list has 16 bits",
    "a list of 4,095 orders is full",
    "128 jobs are too many for a preview",
    "129 jobs are not too many for a preview",
    "no jobs are enough for a preview",
    "a list with no orders has no preview",
    "4 is told with the list's length in a preview",
    "2 is told with the list's length in a preview",
    "3 is tested ahead of 2 in a preview",
    "4 is tested ahead of 2 in a preview",
    "4 is tested ahead of 3 in a preview",
    "12 is tested ahead of 3 in a preview",
    "12 is tested ahead of 4 in a preview",
    "13 is tested ahead of 4 in a preview",
    "13 is tested ahead of 12 in a preview",
    "6 is tested ahead of 5 in a preview",
    "5 of the order is tested ahead of 12",
    "5 of the order is tested ahead of 13",
    "hours are not heeded in a preview",
    "hours of 4,095 are too many in a preview",
    "hours of 4,096 are let pass in a preview",
    "the place of 13 is the last such job in a preview",
    "13 has no place in a preview",
    "a longer hours list is let pass in a preview",
    "a shorter hours list is let pass in a preview",
    "the length of previewed hours has 8 bits",
    "the length of previewed hours has 16 bits",
    "5 of the order is told ahead of 5 of the list",
    "6 of the order is told ahead of 6 of the list",
    "6 of the order is told ahead of 5 of the list",
    "an order from a job to itself is told as outside",
    "an order from a job to itself is told as a circle",
    "a list that is refused is told without the order",
    "6 of the list is told ahead of 5 of the order",
    "7 of the list is told ahead of 5 of the order",
    "7 of the list is told ahead of 6 of the order",
    "8 of the list is told ahead of 6 of the order",
    "8 of the list is told ahead of 7",
    "8 of the list is told though the order undoes it",
    "the N of the list is told",
    "the circle of the list is told",
    "the place of the order is one too far",
    "the place of the order is one too near",
    "the place of the order is 0",
    "the place of the order is counted in numbers",
    "the place of the order has 8 bits",
    "the place of the order has 11 bits",
    "the places of the list's orders count from 1 in a preview",
    "a fault of the list is told at the order",
    "a circle is told at the order's first job",
    "a circle is told at the order's second job",
    "a circle is told at its greatest job",
    "a circle without job 0 is missed in a preview",
    "c and d of the N are exchanged in a preview",
    "an N is told without its places in a preview",
    "an N or a circle is not sought in a preview",
    "what is before the order's first job is not put before its second",
    "what is after the order's second job is not put after its first",
    "the order is not followed on",
    "9 is given for an accepted preview",
    "10 is given for an accepted preview",
    "the record area of a preview has 463 bytes",
    "the record area of a preview has 272 bytes",
    "a preview has room for 4,095 reduced orders",
    "a preview has room for 2,048 reduced orders",
    "an accepted preview has no places",
    "an accepted preview has the places of the list alone",
    "an accepted preview has the record bytes of the list alone",
    "an accepted preview has the reduced orders of the list alone",
    "an accepted preview has the groups of the list alone",
    "an accepted preview has one more reduced order than the list alone",
    "an accepted preview has all written orders",
    "an accepted preview has all different orders",
    "the record of a preview has no hours",
    "the last bits of a preview's record are not counted",
    "the record of a preview is counted in bits",
    "leaves are counted among the groups of a preview",
    "the fourth place of a preview is the job count",
    "the list of a preview is written to",
    "the hours of a preview are written to",
    "repeats of an order are joined again",
    "a repeat is joined again where another order stands between",
    "an order that follows from others is not joined",
    "a join of a row with no jobs is not counted",
    "without a circle the joins of the passes are counted",
    "without a circle one join too few is counted",
    "with a circle one join too few is counted",
    "with a circle the different orders are counted",
    "a row joined into itself is not counted",
    "a join that adds no job is not counted in the passes",
    "rows with no jobs are joined in the passes",
    "the passes go by the written orders alone",
    "the passes go from the last job to the first",
    "joins made before the circle was met are counted too",
    "a circle is not met unless job 0 is before it",
    "an order onto itself is left out",
    "joins are counted for more than 128 jobs",
    "joins are not counted for 128 jobs",
    "joins are counted where an order names a job not below the count",
    "joins are counted where an order names the job numbered as the count",
    "the last number of an odd list is taken for an order",
    "an odd list has no joins",
    "orders after the 4,096th are not joined",
    "a row has no jobs from 64 on",
    "a count of joins has 8 bits",
    "a count of joins has 14 bits",
    "a list is written to for its joins",
];

fn fault(name: &str) -> bool {
    let fault = FAULT.load(Ordering::Relaxed);
    fault != 0 && FAULTS[fault] == name
}

/// The areas as the C caller lends them.
struct Lent {
    record: *mut u8,
    record_len: usize,
    reduced: *mut u8,
    reduced_len: usize,
    sequences: Option<(*mut u8, *mut u8)>,
    hours: Option<(*mut u16, usize)>,
}

impl Lent {
    unsafe fn write(&self, mut outcome: Outcome, count: usize) -> u64 {
        let refused = outcome.number != 0;
        let record = from_raw_parts_mut(self.record, self.record_len);
        let reduced = from_raw_parts_mut(self.reduced, self.reduced_len);
        record[..outcome.record.len()].copy_from_slice(&outcome.record);
        reduced[..outcome.reduced.len()].copy_from_slice(&outcome.reduced);
        if !refused && fault("a byte after the record is set") {
            if let Some(byte) = record.get_mut(outcome.record.len()) {
                *byte = 0;
            }
        }
        if !refused && fault("a byte after the reduced orders is set") {
            if let Some(byte) = reduced.get_mut(outcome.reduced.len()) {
                *byte = 0;
            }
        }
        if fault("a byte ahead of the record area is set") {
            *self.record.sub(1) = 0;
        }
        if fault("a byte after the area for reduced orders is set") {
            *self.reduced.add(self.reduced_len) = 0;
        }
        if refused && fault("the record area is cleared on refusal") {
            record.fill(0);
        }
        if outcome.number == 11 && fault("the area for reduced orders is cleared on refusal by 11")
        {
            reduced.fill(0);
        }
        if outcome.number == 8 && fault("c and d of the N are exchanged") {
            outcome.places.swap(2, 3);
        }
        if let Some((forward, reverse)) = self.sequences {
            let forward = from_raw_parts_mut(forward, 128);
            let reverse = from_raw_parts_mut(reverse, 128);
            if !(refused && fault("the forward sequence stays on refusal")) {
                forward.copy_from_slice(&outcome.forward);
            }
            let all = refused || !fault("the reverse sequence is not cleared after its last job");
            let entries = if all { 128 } else { count };
            reverse[..entries].copy_from_slice(&outcome.reverse[..entries]);
        }
        if let Some((hours, room)) = self.hours {
            self.write_hours(&outcome, count, from_raw_parts_mut(hours, room));
            if fault("a byte after the area for hours is set") {
                *hours.add(room).cast::<u8>() ^= 1;
            }
        }
        if fault("the third place is packed eight bits too high") {
            outcome.places.swap(2, 3);
        }
        packed(outcome.number, outcome.places)
    }

    unsafe fn write_hours(&self, outcome: &Outcome, count: usize, area: &mut [u16]) {
        let mut entries = outcome.hours;
        if fault("the bits of hours are read in the wrong order") {
            entries = entries.map(turned);
        }
        if fault("hours are not handed back") {
            entries = [0; 128];
        }
        if outcome.number == 0 && fault("hours are handed back in leaf order") {
            for place in 0..count {
                entries[place] = outcome.hours[outcome.forward[place] as usize];
            }
        }
        let mut written = area.len().min(128);
        if outcome.number == 0 && fault("hours are not cleared after the last job") {
            written = written.min(count);
        }
        if outcome.number != 0 && fault("hours stay on refusal") {
            written = 0;
        }
        area[..written].copy_from_slice(&entries[..written]);
    }
}

/// The 12 bits in the other order.
fn turned(hours: u16) -> u16 {
    hours.reverse_bits() >> 4
}

fn plain_refusal(number: u64, place: u64) -> Outcome {
    Outcome {
        number,
        places: [place, 0, 0, 0],
        record: Vec::new(),
        reduced: Vec::new(),
        forward: [0; 128],
        reverse: [0; 128],
        hours: [0; 128],
    }
}

/// What is analysed: the job count, orders and hours of a sheet or pair list.
struct Asked {
    count: u16,
    list: Vec<u16>,
    hours: Vec<u16>,
}

impl Asked {
    fn of_sheet(sheet: &Sheet) -> Asked {
        Asked {
            count: sheet.count as u16,
            list: list(&sheet.orders),
            hours: sheet.hours.iter().map(|&hours| hours as u16).collect(),
        }
    }

    /// The analysis with other hours.
    fn with(&self, hours: &[u16], lent: &Lent) -> Outcome {
        let (record, reduced) = (lent.record_len, lent.reduced_len);
        second::analyse_pairs(self.count, &self.list, hours, record, reduced)
    }

    /// The outcome where it is wrong about hours.
    fn misheeded(&self, mut outcome: Outcome, lent: &Lent) -> Outcome {
        let hours = &self.hours;
        let count = self.count as usize;
        let number = outcome.number;
        let above = |most: usize| hours.iter().position(|&h| h as usize > most);
        let each = |hours: &[u16], change: fn(u16) -> u16| -> Vec<u16> {
            hours.iter().map(|&h| change(h)).collect()
        };
        let accepted = number == 0;
        if accepted && fault("a leaf has the hours of the job after its own") {
            let mut after = hours.clone();
            after.rotate_left(1);
            return self.with(&after, lent);
        }
        let by_place = "a leaf has the hours of the job numbered as its place among the leaves";
        if accepted && fault(by_place) {
            let mut placed = hours.clone();
            for place in 0..count {
                placed[outcome.forward[place] as usize] = hours[place];
            }
            return self.with(&placed, lent);
        }
        if accepted && fault("the bits of hours are written in the wrong order") {
            return self.with(&each(hours, turned), lent);
        }
        for (name, width) in [
            ("hours are written with 13 bits", 13),
            ("hours are written with 11 bits", 11),
        ] {
            if accepted && fault(name) {
                outcome.record = with_hours_of(&outcome.record, width);
                outcome.places[0] = outcome.record.len() as u64;
                if outcome.record.len() > lent.record_len {
                    return plain_refusal(9, 0);
                }
            }
        }
        if accepted && hours[0] == 4095 && fault("hours are heeded in the sequences") {
            outcome.forward[..count].sort();
        }

        let tested_later = matches!(number, 0 | 5..=10 | 13);
        if let Some(job) = above(MOST_HOURS - 1) {
            if tested_later && fault("hours of 4,095 are too many") {
                return plain_refusal(13, job as u64);
            }
        }
        if number == 13 {
            let cut = |hours| if hours == 4096 { 0 } else { hours };
            if fault("hours of 4,096 are not too many") {
                return self.with(&each(hours, cut), lent);
            }
            let cut = |hours| if hours > 9999 { 0 } else { hours };
            if fault("hours above 9,999 are not too many") {
                return self.with(&each(hours, cut), lent);
            }
            if fault("the place of 13 is one too far") {
                outcome.places[0] += 1;
            }
            if fault("the place of 13 is the last such job") {
                let last = hours.iter().rposition(|&h| h as usize > MOST_HOURS);
                outcome.places[0] = last.unwrap() as u64;
            }
            if fault("5 is tested ahead of 13") {
                let without = self.with(&vec![0; count], lent);
                if without.number == 5 {
                    return without;
                }
            }
        }
        let other_length = hours.len() != count;
        for (name, later) in [
            ("12 is tested ahead of 3", 3),
            ("12 is tested ahead of 4", 4),
        ] {
            if other_length && number == later && fault(name) {
                return plain_refusal(12, 0);
            }
        }
        for (name, later) in [
            ("13 is tested ahead of 4", 4),
            ("13 is tested ahead of 12", 12),
        ] {
            if let Some(job) = above(MOST_HOURS).filter(|_| number == later && fault(name)) {
                return plain_refusal(13, job as u64);
            }
        }
        let mut as_long = hours.clone();
        as_long.resize(count, 0);
        for (name, passes) in [
            ("a longer hours list is let pass", hours.len() > count),
            ("a shorter hours list is let pass", hours.len() < count),
        ] {
            if number == 12 && passes && fault(name) {
                return self.with(&as_long, lent);
            }
        }
        outcome
    }
}

unsafe fn analysed(
    analysis: impl Fn(usize, usize) -> Outcome,
    asked: Option<&Asked>,
    lent: &Lent,
) -> Outcome {
    let mut outcome = analysis(lent.record_len, lent.reduced_len);
    let number = outcome.number;
    let orders = asked.map_or(0, |asked| asked.list.len() / 2);
    if number == 10 && fault("the record is written though the answer is 10") {
        let record = analysis(lent.record_len, 8192).record;
        from_raw_parts_mut(lent.record, record.len()).copy_from_slice(&record);
    }
    if number == 9 && fault("10 is tested ahead of 9") {
        outcome = analysis(LONGEST_RECORD, lent.reduced_len);
        if outcome.number == 0 {
            outcome = plain_refusal(9, 0);
        }
    }
    let tight = "an area that just suffices is too short for the record";
    if number == 0 && outcome.record.len() == lent.record_len && fault(tight) {
        outcome = plain_refusal(9, 0);
    }
    let tight = "an area that just suffices is too short for the reduced orders";
    if number == 0 && outcome.reduced.len() == lent.reduced_len && fault(tight) {
        outcome = plain_refusal(10, 0);
    }
    if orders == 4096 && !matches!(number, 1..=3) && fault("4,096 orders are too many") {
        outcome = plain_refusal(4, 0);
    }
    if number == 6 && fault("a self order counts as a circle") {
        outcome = plain_refusal(7, 0);
    }
    if matches!(number, 5 | 6) && fault("the order's place counts from 1") {
        outcome.places[0] += 1;
    }
    let outcome = match asked {
        Some(asked) => twins::passed_over(asked, asked.misheeded(outcome, lent)),
        None => outcome,
    };
    let record = outcome.record.clone();
    sides::laid_out(sides::listed(outcome, &record))
}

/// The text with every such piece exchanged.
fn exchanged(text: &[u8], piece: &[u8], by: &[u8]) -> Vec<u8> {
    let mut done = Vec::new();
    let mut rest = text;
    while let Some(&byte) = rest.first() {
        if let Some(after) = rest.strip_prefix(piece) {
            done.extend(by);
            rest = after;
        } else {
            done.push(byte);
            rest = &rest[1..];
        }
    }
    done
}

/// The sheet as a reader takes it that is wrong about line ends.
fn taken(sheet: &[u8]) -> Vec<u8> {
    let mut taken = sheet.to_vec();
    if sheet.len() > LONGEST_SHEET {
        return taken;
    }
    if fault("a carriage return alone ends a line") {
        for at in 0..sheet.len() {
            if sheet[at] == b'\r' && sheet.get(at + 1) != Some(&b'\n') {
                taken[at] = b'\n';
            }
        }
    }
    if sheet.last() == Some(&b'\r') && fault("a carriage return ends the last line") {
        taken.push(b'\n');
    }
    if fault("carriage returns are left out wherever they stand") {
        taken = exchanged(sheet, b"\r", b"");
    }
    if fault("two carriage returns and a line feed end a line") {
        taken = exchanged(sheet, b"\r\r\n", b"\r\n");
    }
    if fault("a line feed and a carriage return end a line") {
        taken = exchanged(sheet, b"\n\r", b"\n");
    }
    if fault("a carriage return in an empty line is let pass") {
        taken = exchanged(sheet, b"\n\r\n", b"\n");
    }
    taken
}

/// A sheet as a reader takes it that is wrong about hours lines or digits: bytes
/// are put in or left out, and places from there on are so much less or more.
struct Changed {
    text: Vec<u8>,
    from: usize,
    by: isize,
}

impl Changed {
    fn new(text: &[u8]) -> Changed {
        Changed {
            text: text.to_vec(),
            from: 0,
            by: 0,
        }
    }

    fn put_in(&mut self, at: usize, bytes: &[u8]) {
        self.text.splice(at..at, bytes.iter().copied());
        self.from = at;
        self.by = bytes.len() as isize;
    }

    fn leave_out(&mut self, at: usize) {
        self.text.remove(at);
        self.from = at;
        self.by = -1;
    }

    /// The place in the sheet of a place in the text.
    fn place(&self, place: u64) -> u64 {
        if place as usize >= self.from {
            (place as isize - self.by).max(self.from as isize) as u64
        } else {
            place
        }
    }
}

/// The first bytes of the lines, and the end.
fn starts(sheet: &[u8]) -> Vec<usize> {
    let feeds = (0..sheet.len()).filter(|&at| sheet[at] == b'\n');
    std::iter::once(0).chain(feeds.map(|at| at + 1)).collect()
}

fn digits_from(sheet: &[u8], start: usize) -> usize {
    let digits = sheet[start..]
        .iter()
        .take_while(|byte| byte.is_ascii_digit());
    digits.count()
}

/// The count, if the first line is one.
fn count_of(sheet: &[u8]) -> Option<usize> {
    let digits = digits_from(sheet, 0);
    let text = std::str::from_utf8(&sheet[..digits]).ok()?;
    text.parse().ok().filter(|_| digits <= 3)
}

fn says_no_job(sheet: &[u8]) -> bool {
    sheet.starts_with(b"0\n") || sheet.starts_with(b"0\r\n")
}

/// Where numbers of hours begin that are there.
fn hours_starts(sheet: &[u8]) -> Vec<usize> {
    let count = count_of(sheet).unwrap_or(0);
    let starts = starts(sheet);
    starts.into_iter().skip(1).take(count).collect()
}

/// Where numbers of orders begin that are there.
fn order_starts(sheet: &[u8]) -> Vec<usize> {
    let count = count_of(sheet).unwrap_or(0);
    let firsts = starts(sheet).into_iter().skip(1 + count);
    firsts
        .flat_map(|first| [first, first + digits_from(sheet, first) + 1])
        .filter(|&start| start < sheet.len())
        .collect()
}

fn changed(sheet: &[u8]) -> Changed {
    let mut changed = Changed::new(sheet);
    let Some(count) = count_of(sheet) else {
        if digits_from(sheet, 0) == 4 && fault("a fourth digit of the count is accepted") {
            changed.leave_out(3);
        }
        return changed;
    };
    let starts = starts(sheet);
    let after = |line: usize| starts.get(line).copied();
    if let Some(at) = after(count).filter(|_| count > 0) {
        if fault("hours lines are counted one short") {
            changed.put_in(at, b"0\n");
        }
    }
    if let Some(at) = after(129).filter(|_| count > 128) {
        if fault("at most 128 hours lines are read") {
            changed.put_in(at, &b"0\n".repeat(count - 128));
        }
    }
    if says_no_job(sheet) && fault("an hours line is wanted for count 0") {
        changed.text[0] = b'1';
    }
    let with_digits = |starts: Vec<usize>, digits: usize| {
        let mut starts = starts.into_iter();
        starts.find(|&start| digits_from(sheet, start) == digits)
    };
    if fault("a fifth digit of hours is accepted") {
        if let Some(start) = with_digits(hours_starts(sheet), 5) {
            changed.leave_out(start + 4);
        }
    }
    if fault("a fourth digit of an order is accepted") {
        if let Some(start) = with_digits(order_starts(sheet), 4) {
            changed.leave_out(start + 3);
        }
    }
    if fault("a leading zero of hours is accepted") {
        let mut starts = hours_starts(sheet).into_iter();
        let zero = starts.find(|&at| sheet[at..].starts_with(b"0") && digits_from(sheet, at) == 2);
        if let Some(start) = zero {
            changed.leave_out(start);
        }
    }
    changed
}

/// The outcome where an hours line is refused that should not be.
fn too_strict(sheet: &[u8], outcome: Outcome) -> Outcome {
    let hours_starts = hours_starts(sheet);
    let mut ends = hours_starts.iter().map(|&at| at + digits_from(sheet, at));
    let fourth = hours_starts
        .iter()
        .find(|&&at| digits_from(sheet, at) >= 4)
        .map(|at| at + 3);
    let with_return = ends.find(|&at| sheet.get(at) == Some(&b'\r'));
    let sooner = |place: usize| match outcome.number {
        1 => false,
        2 => outcome.places[0] > place as u64,
        _ => true,
    };
    for (name, place) in [
        ("a fourth digit of hours is not accepted", fourth),
        ("an hours line ends in a line feed alone", with_return),
    ] {
        if let Some(place) = place.filter(|&place| fault(name) && sooner(place)) {
            return plain_refusal(2, place as u64);
        }
    }
    let count = count_of(sheet).unwrap_or(0);
    let starts = starts(sheet);
    let in_form = !matches!(outcome.number, 1 | 2);
    if in_form && count > 0 && starts.len() == 2 + count && fault("an hours line more is wanted") {
        return plain_refusal(2, sheet.len() as u64);
    }
    let short = outcome.number == 2
        && outcome.places[0] == sheet.len() as u64
        && (2..=count + 1).contains(&starts.len())
        && sheet.ends_with(b"\n");
    if short && fault("the place of missing hours lines is that of the last line") {
        return plain_refusal(2, starts[starts.len() - 2] as u64);
    }
    outcome
}

/// The first place where a line ends otherwise than the first one.
fn other_end(sheet: &[u8]) -> Option<usize> {
    let has_return = |at: usize| at > 0 && sheet[at - 1] == b'\r';
    let mut ends = (0..sheet.len()).filter(|&at| sheet[at] == b'\n');
    let first = has_return(ends.next()?);
    let other = ends.find(|&at| has_return(at) != first)?;
    Some(if first { other } else { other - 1 })
}

/// Where the count line has a carriage return.
fn return_in_count_line(sheet: &[u8]) -> Option<usize> {
    let line = sheet.split(|&byte| byte == b'\n').next()?;
    line.iter().position(|&byte| byte == b'\r')
}

/// The outcome where refusal 2 or its place is wrong about line ends.
fn misplaced(sheet: &[u8], mut outcome: Outcome) -> Outcome {
    for (name, wrong) in [
        ("a line ends as the first one does", other_end(sheet)),
        (
            "the count line ends in a line feed alone",
            return_in_count_line(sheet),
        ),
    ] {
        if let Some(wrong) = wrong.filter(|_| outcome.number != 1 && fault(name)) {
            if outcome.number != 2 || outcome.places[0] > wrong as u64 {
                return plain_refusal(2, wrong as u64);
            }
        }
    }
    if outcome.number != 2 {
        return outcome;
    }
    let place = outcome.places[0] as usize;
    let (ahead, rest) = sheet.split_at(place);
    let after_return = ahead.last() == Some(&b'\r');
    let pairs = ahead.windows(2).filter(|pair| pair == b"\r\n").count();
    if after_return && fault("the place after a carriage return is the carriage return's") {
        outcome.places[0] -= 1;
    }
    let short = "the place is the carriage return's where the sheet stops short after it";
    if after_return && rest.is_empty() && fault(short) {
        outcome.places[0] -= 1;
    }
    let late = "the place of a wrong carriage return is that of the line feed after it";
    if rest.starts_with(b"\r\n") && fault(late) {
        outcome.places[0] += 1;
    }
    if fault("a carriage return ahead of a line feed is not counted in places") {
        outcome.places[0] -= pairs as u64;
    }
    outcome
}

unsafe fn sheet_analysed(sheet: *const u8, sheet_len: usize, lent: &Lent) -> u64 {
    if sheet_len > 0 && fault("the input is written to") {
        *(sheet as *mut u8) ^= 1;
    }
    let sheet = from_raw_parts(sheet, sheet_len);
    let mut changed = Changed::new(&taken(sheet));
    if sheet_len <= LONGEST_SHEET {
        let other = self::changed(&changed.text);
        if other.text.len() <= LONGEST_SHEET {
            changed = other;
        }
    }
    let read = second::sheet::read(&changed.text).ok();
    let asked = read.as_ref().map(Asked::of_sheet);
    let analysis = |record, reduced| second::analyse_sheet(&changed.text, record, reduced);
    let mut outcome = analysed(analysis, asked.as_ref(), lent);
    if outcome.number == 2 {
        outcome.places[0] = changed.place(outcome.places[0]).min(sheet_len as u64);
    } else if says_no_job(sheet) && fault("an hours line is wanted for count 0") {
        outcome = plain_refusal(3, 0);
    }
    outcome = too_strict(sheet, misplaced(sheet, outcome));
    if sheet_len == LONGEST_SHEET && fault("the longest sheet is too long") {
        outcome = plain_refusal(1, 0);
    }
    let not_too_long = "a sheet of a byte more than the longest is not too long";
    if sheet_len == LONGEST_SHEET + 1 && fault(not_too_long) {
        let place = second::sheet::read(sheet).err().unwrap_or(sheet_len);
        outcome = plain_refusal(2, place as u64);
    }
    for (name, length) in [
        ("a sheet of 32,773 bytes is too long", 32_773),
        ("a sheet of 36,870 bytes is too long", 36_870),
    ] {
        if sheet_len == length && fault(name) {
            outcome = plain_refusal(1, 0);
        }
    }
    let stops_short = outcome.number == 2 && outcome.places[0] == sheet_len as u64;
    if stops_short && fault("the place of a broken line is one too far where the sheet stops short")
    {
        outcome.places[0] += 1;
    }
    let Some(mut asked) = asked else {
        return lent.write(outcome, 0);
    };
    let many = asked.list.len() == 2 * 4097 && outcome.number == 4;
    if many && fault("4,097 orders are not too many") {
        asked.list.truncate(2 * 4096);
        outcome = asked.with(&asked.hours, lent);
    }
    lent.write(outcome, asked.count as usize)
}

/// A record in the layout without hours, with hours of 0 put in.
fn widened(record: &[u8]) -> Option<Vec<u8>> {
    let bit = |at: usize| record.get(at / 8).map(|byte| byte >> (7 - at % 8) & 1);
    let mut bits = Bits::default();
    let copy = |bits: &mut Bits, from: usize, width: usize| {
        (from..from + width).try_for_each(|at| bit(at).map(|bit| bits.put(bit as usize, 1)))
    };
    copy(&mut bits, 0, 7)?;
    let (mut at, mut leaves) = (7, 0);
    while leaves <= record[0] >> 1 {
        if bit(at)? == 1 {
            copy(&mut bits, at, 9)?;
            at += 9;
        } else {
            copy(&mut bits, at, 8)?;
            bits.put(0, 12);
            at += 8;
            leaves += 1;
        }
    }
    (at.div_ceil(8) == record.len()).then(|| bits.bytes())
}

unsafe fn record_read(record: *const u8, record_len: usize, lent: &Lent) -> u64 {
    let mut record = from_raw_parts(record, record_len).to_vec();
    let count = record.first().map_or(0, |byte| (byte >> 1) as usize + 1);
    let read = sides::read(&record);
    let mut outcome = second::read_record_of(read.as_ref(), record_len, lent.reduced_len);
    outcome = sides::listed(outcome, &record);
    if outcome.number == 11 {
        if lent.reduced_len < 2 && fault("10 is tested ahead of 11") {
            outcome = plain_refusal(10, 0);
        }
        if fault("the last byte of a record may be missing where it is zero") {
            record.push(0);
            outcome = second::read_record(&record, lent.reduced_len);
        }
        if fault("bits that fill the last byte may be set") {
            if let Some(last) = record.last_mut() {
                *last &= 0xfe;
            }
            outcome = second::read_record(&record, lent.reduced_len);
        }
        if fault("zero bytes may follow the record") && record.last() == Some(&0) {
            record.pop();
            outcome = second::read_record(&record, lent.reduced_len);
        }
        if fault("a record without hours is read") {
            if let Some(record) = widened(&record) {
                outcome = second::read_record(&record, lent.reduced_len);
            }
        }
    }
    if outcome.number == 10 && fault("hours are handed back though the answer is 10") {
        outcome.hours = second::read_record(&record, 8192).hours;
    }
    for (name, too_long) in [
        ("a record of 464 bytes is too long", record_len == 464),
        ("a record over 272 bytes is too long", record_len > 272),
    ] {
        if too_long && fault(name) {
            outcome = plain_refusal(11, 0);
        }
    }
    lent.write(outcome, count)
}

/// The run of a tree where a rule is wrong.
fn run_of(tree: &Tree) -> Run {
    let runs: Vec<Run> = tree.children().iter().map(run_of).collect();
    match tree {
        Tree::Leaf { hours: 0, .. } if fault("jobs with no hours are left out of a run") => {
            Run::default()
        }
        Tree::Leaf { .. } => longest::of_tree(tree),
        Tree::Chain(_) if fault("a chain takes its child with the greatest total") => {
            longest::first_greatest(runs)
        }
        Tree::Chain(_) => longest::added(runs),
        Tree::Side(children) => run_of_side(children, runs),
    }
}

fn run_of_side(children: &[Tree], mut runs: Vec<Run>) -> Run {
    let alone = "the child with the smallest job is taken";
    let of_greatest = "of children with the greatest total the one with the smallest job is taken";
    if fault(alone) || fault(of_greatest) {
        let mut each: Vec<(&Tree, Run)> = children.iter().zip(runs).collect();
        each.sort_by_key(|(child, _)| sides::smallest(child));
        runs = each.into_iter().map(|(_, run)| run).collect();
        if fault(alone) {
            runs.truncate(1);
        }
    }
    if fault("the last child with the greatest total is taken") {
        runs.reverse();
    }
    if fault("the first child of a side group is taken") {
        runs.truncate(1);
    }
    // Sorting keeps the order of equals.
    if fault("of children with the greatest total the one with most jobs in its run is taken") {
        runs.sort_by_key(|run| usize::MAX - run.jobs.len());
    }
    if fault("the child with most jobs in its run is taken") {
        runs.sort_by_key(|run| usize::MAX - run.jobs.len());
        runs.truncate(1);
    }
    if fault("a side group adds its children's runs") {
        return longest::added(runs);
    }
    longest::first_greatest(runs)
}

/// Whether a tree on so many jobs breaks a rule.
type Breaks = fn(&Tree, usize) -> bool;

/// Rules that may not be tested.
const UNTESTED: [(&str, Breaks); 6] = [
    ("a group has one child", |tree, _| {
        !tree.groups_have_two_or_more()
    }),
    ("a job stands twice", |tree, _| !tree.no_job_twice()),
    ("a job does not stand", |tree, count| {
        !tree.every_job_stands(count)
    }),
    ("a group is in one of its kind", |tree, _| {
        !tree.no_chain_in_chain() || !tree.no_side_in_side()
    }),
    ("side children are out of order", |tree, _| {
        !tree.side_children_in_order()
    }),
    ("side children are in the former order", |tree, _| {
        !tree.side_children_in_order() && sides::is_former(tree)
    }),
];

/// The job count and tree of bytes that are no record, where by a fault with a name
/// that begins so a plan is given of them all the same.
fn let_pass(record: &[u8], given: &str) -> Option<(usize, Tree)> {
    let name = FAULTS[FAULT.load(Ordering::Relaxed)];
    let untested = name.strip_prefix(given)?;
    let mut bytes = record.to_vec();
    if untested == "zero bytes follow the record" {
        while bytes.last() == Some(&0) && second::record::read(&bytes).is_none() {
            bytes.pop();
        }
        return second::record::read(&bytes);
    }
    if untested == "bits that fill the last byte are set" {
        *bytes.last_mut()? &= 0xfe;
        return second::record::read(&bytes);
    }
    let (_, breaks) = UNTESTED.iter().find(|(rule, _)| *rule == untested)?;
    let (count, tree) = second::record::spelled(&bytes)?;
    (tree.jobs_below(count) && breaks(&tree, count)).then_some((count, tree))
}

/// The answer when the record is read.
fn answer_to(record: &[u8]) -> u64 {
    let read = second::read_record(record, 8192);
    packed(read.number, read.places)
}

/// The run of bytes, all that comes back of it wrong in one way.
fn wrong_run(record: &[u8]) -> ffi::Run {
    let read = second::record::read(record);
    let refused = read.is_none();
    let read = read.or_else(|| let_pass(record, "a run is given where "));
    let number = if read.is_some() { 0 } else { 11 };
    let Run { total, mut jobs } = read.map_or(Run::default(), |(_, tree)| run_of(&tree));
    jobs.truncate(128);
    if fault("a run is listed latest first") {
        jobs.reverse();
    }
    if fault("a run is listed by job number") {
        jobs.sort();
    }
    if fault("the last of 128 jobs of a run is left out") {
        jobs.truncate(127);
    }
    let mut run = ffi::Run::from(LongestRun {
        number,
        places: [0; 4],
        total: total as u64,
        jobs: jobs.iter().map(|&job| job as u8).collect(),
    });
    if fault("the total of a run has 16 bits") {
        run.total %= 1 << 16;
    }
    if !refused && fault("the count of a run is one too many") {
        run.count += 1;
    }
    if !refused && fault("the count of a run is one too few") {
        run.count -= 1;
    }
    if !refused && jobs.len() < 128 && fault("a job is left after a run") {
        run.jobs[jobs.len()] = 1;
    }
    if !refused && fault("the answer to a run has the record's places") {
        run.answer = answer_to(record);
    }
    if refused && fault("a total stays on refusal") {
        run.total = 1;
    }
    if refused && fault("a count stays on refusal") {
        run.count = 1;
    }
    if refused && fault("jobs stay on refusal") {
        run.jobs[127] = 1;
    }
    run
}

/// The list as a count of joins takes it that is wrong about its orders.
fn taken_list(list: &[u16]) -> Vec<u16> {
    let mut taken = list.to_vec();
    let odd = list.len() % 2 == 1;
    if odd && fault("the last number of an odd list is taken for an order") {
        taken.push(0);
    }
    if odd && fault("an odd list has no joins") {
        taken.clear();
    }
    if fault("orders after the 4,096th are not joined") {
        taken.truncate(2 * 4096);
    }
    let keep = |keeps: fn(&&[u16]) -> bool| list.chunks_exact(2).filter(keeps).flatten();
    if fault("an order onto itself is left out") {
        taken = keep(|order| order[0] != order[1]).copied().collect();
    }
    if fault("a row has no jobs from 64 on") {
        taken = keep(|order| order[1] < 64).copied().collect();
    }
    taken
}

/// One join of the passes: the job whose row is joined and that whose row it is
/// joined into, and whether the one row has jobs and the other gains some.
struct Join {
    job: usize,
    into: usize,
    has_jobs: bool,
    adds: bool,
}

/// The joins of the passes that are counted, those of rows with no jobs among
/// them.
fn passes(jobs: usize, orders: &Different, counted: fn(Join) -> bool) -> u64 {
    let mut rows = vec![vec![false; jobs]; jobs];
    orders.iter().for_each(|&(u, v)| rows[u][v] = true);
    let mut joins = 0;
    for job in 0..jobs {
        let joined = rows[job].clone();
        for (into, row) in rows.iter_mut().enumerate().filter(|(_, row)| row[job]) {
            let before = row.clone();
            row.iter_mut()
                .zip(&joined)
                .for_each(|(has, &more)| *has |= more);
            let join = Join {
                job,
                into,
                has_jobs: joined.contains(&true),
                adds: *row != before,
            };
            joins += counted(join) as u64;
        }
    }
    joins
}

/// The orders onto a job that has an order onward.
fn with_more_after(orders: &Different) -> u64 {
    let goes_on = |job: usize| orders.iter().any(|&(u, _)| u == job);
    orders.iter().filter(|order| goes_on(order.1)).count() as u64
}

/// The joins of a list without a circle, wrong in one way.
fn wrong_without_circle(jobs: usize, list: &[u16], joins: u64) -> u64 {
    let written = list.chunks_exact(2);
    if fault("repeats of an order are joined again") {
        return written.len() as u64;
    }
    if fault("a repeat is joined again where another order stands between") {
        let mut written: Vec<&[u16]> = written.collect();
        written.dedup();
        return written.len() as u64;
    }
    if fault("an order that follows from others is not joined") {
        let orders: Vec<(usize, usize)> = joins::different(list).into_iter().collect();
        return order::reduced(&order::before(jobs, &orders)).len() as u64;
    }
    if fault("a join of a row with no jobs is not counted") {
        return with_more_after(&joins::different(list));
    }
    if fault("without a circle the joins of the passes are counted") {
        return joins::by_passes(jobs, &joins::different(list)).0;
    }
    if fault("without a circle one join too few is counted") {
        return joins.saturating_sub(1);
    }
    joins
}

/// The joins of orders with a circle, wrong in one way.
fn wrong_with_circle(jobs: usize, orders: &Different, joins: u64) -> u64 {
    if fault("with a circle one join too few is counted") {
        return joins - 1;
    }
    if fault("with a circle the different orders are counted") {
        return orders.len() as u64;
    }
    if fault("a row joined into itself is not counted") {
        return passes(jobs, orders, |join| join.has_jobs && join.job != join.into);
    }
    if fault("a join that adds no job is not counted in the passes") {
        return passes(jobs, orders, |join| join.adds);
    }
    if fault("rows with no jobs are joined in the passes") {
        return passes(jobs, orders, |_| true);
    }
    if fault("the passes go by the written orders alone") {
        return with_more_after(orders);
    }
    if fault("the passes go from the last job to the first") {
        let other = orders.iter().map(|&(u, v)| (jobs - 1 - u, jobs - 1 - v));
        return joins::by_passes(jobs, &other.collect()).0;
    }
    let table = || joins::by_passes(jobs, orders).1;
    if fault("joins made before the circle was met are counted too") {
        let table = table();
        let before_circle = |u: usize| (0..jobs).any(|v| table[u][v] && table[v][v]);
        let made = orders.iter().filter(|order| !before_circle(order.0));
        return joins + made.count() as u64;
    }
    if fault("a circle is not met unless job 0 is before it") {
        let table = table();
        if !(0..jobs).any(|v| table[0][v] && table[v][v]) {
            return orders.len() as u64;
        }
    }
    joins
}

/// The joins of a list, wrong in one way.
fn wrong_joins(count: u16, list: &[u16]) -> u64 {
    let list = taken_list(list);
    let jobs = count as usize;
    let Joins {
        number,
        count: mut joins,
    } = joins::of_list(count, &list);
    match number {
        0 => joins = wrong_without_circle(jobs, &list, joins),
        7 => joins = wrong_with_circle(jobs, &joins::different(&list), joins),
        3 if fault("joins are counted for more than 128 jobs") => {
            joins = joins::different(&list).len() as u64;
        }
        5 if fault("joins are counted where an order names a job not below the count") => {
            let mut orders = joins::different(&list);
            orders.retain(|&(u, v)| u < jobs && v < jobs);
            joins = orders.len() as u64;
        }
        5 if fault("joins are counted where an order names the job numbered as the count") => {
            joins = second::joins(count + 1, &list);
        }
        _ => {}
    }
    if count == 128 && fault("joins are not counted for 128 jobs") {
        joins = 0;
    }
    if fault("a count of joins has 8 bits") {
        joins %= 1 << 8;
    }
    if fault("a count of joins has 14 bits") {
        joins %= 1 << 14;
    }
    joins
}

#[no_mangle]
pub unsafe extern "C" fn bench_joins(
    arcs: *const u16,
    numbers: usize,
    n: u16,
    _again: u16,
) -> usize {
    if numbers > 0 && fault("a list is written to for its joins") {
        *(arcs as *mut u16).add(numbers - 1) ^= 1;
    }
    wrong_joins(n, from_raw_parts(arcs, numbers)) as usize
}

#[no_mangle]
pub unsafe extern "C" fn ordersheet_longest_run(record: *const u8, record_len: usize) -> ffi::Run {
    if record_len > 0 && fault("the record of a run is written to") {
        *(record as *mut u8).add(record_len - 1) ^= 1;
    }
    wrong_run(from_raw_parts(record, record_len))
}

#[no_mangle]
pub unsafe extern "C" fn ordersheet_gangs(record: *const u8, record_len: usize) -> ffi::GangPlan {
    if record_len > 0 && fault("the record of gangs is written to") {
        *(record as *mut u8).add(record_len - 1) ^= 1;
    }
    gangs::wrong_gangs(from_raw_parts(record, record_len))
}

#[no_mangle]
pub unsafe extern "C" fn ordersheet_reason(
    record: *const u8,
    record_len: usize,
    first: u16,
    second: u16,
) -> ffi::Reason {
    if record_len > 0 && fault("the record of a reason is written to") {
        *(record as *mut u8).add(record_len - 1) ^= 1;
    }
    reason::wrong_reason(from_raw_parts(record, record_len), first, second)
}

#[no_mangle]
pub unsafe extern "C" fn ordersheet_preview(
    count: u16,
    list: *const u16,
    list_len: usize,
    hours: *const u16,
    hours_len: usize,
    first: u16,
    second: u16,
) -> u64 {
    if list_len > 0 && fault("the list of a preview is written to") {
        *(list as *mut u16).add(list_len - 1) ^= 1;
    }
    if hours_len > 0 && fault("the hours of a preview are written to") {
        *(hours as *mut u16).add(hours_len - 1) ^= 1;
    }
    let list = from_raw_parts(list, list_len);
    let hours = from_raw_parts(hours, hours_len);
    preview::wrong_preview(count, list, hours, (first, second))
}

#[no_mangle]
pub unsafe extern "C" fn ordersheet_analyse(
    sheet: *const u8,
    sheet_len: usize,
    record: *mut u8,
    record_len: usize,
    reduced: *mut u8,
    reduced_len: usize,
) -> u64 {
    let lent = Lent {
        record,
        record_len,
        reduced,
        reduced_len,
        sequences: None,
        hours: None,
    };
    sheet_analysed(sheet, sheet_len, &lent)
}

#[no_mangle]
pub unsafe extern "C" fn ordersheet_read(
    record: *const u8,
    record_len: usize,
    reduced: *mut u8,
    reduced_len: usize,
) -> u64 {
    let mut none = [0; 1];
    let none = none[1..].as_mut_ptr();
    let lent = Lent {
        record: none,
        record_len: 0,
        reduced,
        reduced_len,
        sequences: None,
        hours: None,
    };
    record_read(record, record_len, &lent)
}

#[no_mangle]
pub unsafe extern "C" fn ordersheet_test_sheet(
    sheet: *const u8,
    sheet_len: usize,
    record: *mut u8,
    record_len: usize,
    reduced: *mut u8,
    reduced_len: usize,
    forward: *mut u8,
    _forward_len: usize,
    reverse: *mut u8,
    _reverse_len: usize,
) -> u64 {
    let sequences = Some((forward, reverse));
    let lent = Lent {
        record,
        record_len,
        reduced,
        reduced_len,
        sequences,
        hours: None,
    };
    sheet_analysed(sheet, sheet_len, &lent)
}

#[no_mangle]
pub unsafe extern "C" fn ordersheet_test_pairs(
    count: u16,
    list: *const u16,
    list_len: usize,
    hours: *const u16,
    hours_len: usize,
    record: *mut u8,
    record_len: usize,
    reduced: *mut u8,
    reduced_len: usize,
    forward: *mut u8,
    _forward_len: usize,
    reverse: *mut u8,
    _reverse_len: usize,
) -> u64 {
    let sequences = Some((forward, reverse));
    let lent = Lent {
        record,
        record_len,
        reduced,
        reduced_len,
        sequences,
        hours: None,
    };
    if hours_len > 0 && fault("the hours list is written to") {
        *(hours as *mut u16) ^= 1;
    }
    let asked = Asked {
        count,
        list: from_raw_parts(list, list_len).to_vec(),
        hours: from_raw_parts(hours, hours_len).to_vec(),
    };
    let analysis =
        |record, reduced| second::analyse_pairs(count, &asked.list, &asked.hours, record, reduced);
    let mut outcome = analysed(analysis, Some(&asked), &lent);
    if count == 0 && outcome.number == 2 && fault("an odd list is refused for its count first") {
        outcome = plain_refusal(3, 0);
    }
    lent.write(outcome, count as usize)
}

#[no_mangle]
pub unsafe extern "C" fn ordersheet_test_read(
    record: *const u8,
    record_len: usize,
    reduced: *mut u8,
    reduced_len: usize,
    hours: *mut u16,
    hours_len: usize,
    forward: *mut u8,
    _forward_len: usize,
    reverse: *mut u8,
    _reverse_len: usize,
) -> u64 {
    let mut none = [0; 1];
    let none = none[1..].as_mut_ptr();
    let sequences = Some((forward, reverse));
    let lent = Lent {
        record: none,
        record_len: 0,
        reduced,
        reduced_len,
        sequences,
        hours: Some((hours, hours_len)),
    };
    record_read(record, record_len, &lent)
}
