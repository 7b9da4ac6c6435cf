//! One input held against `second`, and the count of all of them.

use crate::ffi::{self, Areas};
use crate::generate::{damages, list};
use crate::lent::Lent;
use crate::preview::some_orders;
use crate::reason::some_pairs;
use second::joins::Joins;
use second::tree::Tree;
use second::{packed, Outcome, Preview};
use std::collections::{BTreeMap, HashSet};
use std::fmt::{Debug, Write};
use std::hash::{DefaultHasher, Hash, Hasher};

/// Areas long enough for any record and any reduced orders.
pub const ENOUGH: (usize, usize) = (464, 8192);

const GUARD: usize = 64;
/// Failures printed in full.
const SHOWN: u64 = 5;

#[derive(Clone, Hash, PartialEq, Eq)]
pub enum Input {
    Sheet(Vec<u8>),
    /// A job count, the orders and the hours.
    Pairs(u16, Vec<u16>, Vec<u16>),
    Record(Vec<u8>),
}

impl Input {
    pub fn second(&self, record_area: usize, reduced_area: usize) -> Outcome {
        match self {
            Input::Sheet(sheet) => second::analyse_sheet(sheet, record_area, reduced_area),
            Input::Pairs(count, list, hours) => {
                second::analyse_pairs(*count, list, hours, record_area, reduced_area)
            }
            Input::Record(record) => second::read_record(record, reduced_area),
        }
    }

    /// The job count, the pair list of orders and the hours, as a sheet in form has them
    /// too.
    fn listed(&self, outcome: &Outcome) -> Option<(u16, Vec<u16>, Vec<u16>)> {
        match self {
            // Not in form, and no need to read it again.
            Input::Sheet(_) if outcome.number == 2 => None,
            Input::Sheet(sheet) => {
                let read = second::sheet::read(sheet).ok()?;
                let hours = read.hours.iter().map(|&hours| hours as u16);
                Some((read.count as u16, list(&read.orders), hours.collect()))
            }
            Input::Pairs(count, list, hours) => Some((*count, list.clone(), hours.clone())),
            Input::Record(_) => None,
        }
    }

    fn show(&self) -> String {
        match self {
            Input::Sheet(sheet) => format!("sheet b\"{}\"", sheet.escape_ascii()),
            Input::Pairs(count, list, hours) => {
                format!("pair list: count {count}, list {list:?}, hours {hours:?}")
            }
            Input::Record(record) => format!("record {}", hex(record)),
        }
    }
}

/// What an entry hands back beside its answer, the record and the reduced orders.
#[derive(Clone, Copy, PartialEq)]
enum Handed {
    Nothing,
    Sequences,
    /// The sequences, and the hours in an area for so many.
    Hours(usize),
}

/// Entries of an area for hours: mostly as many as there are, now and then more
/// or fewer, as the record has it.
fn hours_room(record: &[u8]) -> usize {
    let sum: usize = record.iter().map(|&byte| byte as usize).sum();
    match sum % 32 {
        at @ 0..=5 => [0, 1, 2, 127, 129, 200][at],
        _ => 128,
    }
}

fn bytes_of(numbers: &[u16]) -> Vec<u8> {
    numbers.iter().flat_map(|n| n.to_ne_bytes()).collect()
}

fn hex(bytes: &[u8]) -> String {
    bytes.iter().map(|byte| format!("{byte:02x}")).collect()
}

/// A patterned area with patterned guard bytes on both sides.
pub struct Guarded {
    bytes: Vec<u8>,
    before: Vec<u8>,
}

impl Guarded {
    fn new(length: usize, pattern: &mut u64) -> Guarded {
        let mut bytes = Vec::with_capacity(length + 2 * GUARD + 8);
        while bytes.len() < length + 2 * GUARD {
            *pattern = pattern
                .wrapping_mul(6364136223846793005)
                .wrapping_add(1442695040888963407);
            bytes.extend_from_slice(&(*pattern ^ *pattern >> 31).to_le_bytes());
        }
        bytes.truncate(length + 2 * GUARD);
        Guarded {
            before: bytes.clone(),
            bytes,
        }
    }

    pub fn pointer(&mut self) -> *mut u8 {
        self.bytes[GUARD..].as_mut_ptr()
    }

    /// The area as one of 16-bit numbers.
    pub fn pointer_16(&mut self) -> *mut u16 {
        let pointer = self.pointer().cast::<u16>();
        assert!(pointer.is_aligned(), "an area for hours is not aligned");
        pointer
    }

    /// Bytes of the area.
    pub fn length(&self) -> usize {
        self.bytes.len() - 2 * GUARD
    }

    fn area(&self) -> &[u8] {
        &self.bytes[GUARD..GUARD + self.length()]
    }

    /// Whether the area begins with the written bytes and all else, guards
    /// included, is as it was.
    fn is(&self, written: &[u8]) -> bool {
        let mut expected = self.before.clone();
        if written.len() > self.length() {
            return false;
        }
        expected[GUARD..GUARD + written.len()].copy_from_slice(written);
        self.bytes == expected
    }

    /// The bytes that are not as they were, by their offset from the area.
    fn show(&self) -> String {
        let changed = |i: &usize| self.bytes[*i] != self.before[*i];
        let places: Vec<isize> = (0..self.bytes.len())
            .filter(changed)
            .map(|i| i as isize - GUARD as isize)
            .collect();
        match (places.first(), places.last()) {
            (Some(first), Some(last)) => {
                let end = (*last + 1).clamp(0, self.length() as isize) as usize;
                format!(
                    "{} (changed from {first} to {last})",
                    hex(&self.area()[..end])
                )
            }
            _ => "untouched".to_string(),
        }
    }
}

#[derive(Default)]
pub struct Tally {
    pub family: &'static str,
    pub inputs: u64,
    pub failed: u64,
    /// Inputs of each family, and of those the answers by number.
    pub families: BTreeMap<&'static str, [u64; 14]>,
    /// Records that were asked for their plans, and bytes that are none.
    pub questions: [u64; 2],
    /// Pairs of job numbers asked for their reason: of each rule, refused by 14, by 11.
    pub reasons: [u64; 6],
    /// Previews of one more order, by the answer's number.
    pub previews: [u64; 14],
    /// Calls for a count of joins: without a circle, with one, refused.
    pub joins: [u64; 3],
    distinct: HashSet<u64>,
    pattern: u64,
}

impl Tally {
    pub fn add(&mut self, other: Tally) {
        self.inputs += other.inputs;
        self.failed += other.failed;
        for (family, answers) in other.families {
            let sums = self.families.entry(family).or_default();
            for (sum, answer) in sums.iter_mut().zip(answers) {
                *sum += answer;
            }
        }
        for (sum, calls) in self.questions.iter_mut().zip(other.questions) {
            *sum += calls;
        }
        for (sum, calls) in self.reasons.iter_mut().zip(other.reasons) {
            *sum += calls;
        }
        for (sum, calls) in self.previews.iter_mut().zip(other.previews) {
            *sum += calls;
        }
        for (sum, calls) in self.joins.iter_mut().zip(other.joins) {
            *sum += calls;
        }
        self.distinct.extend(other.distinct);
    }

    pub fn distinct(&self) -> usize {
        self.distinct.len()
    }

    /// Holds every entry that takes the input against `second`, the questions to the
    /// record that it is or gives, the joins of the orders that it has and some previews
    /// on them; counts one input.
    pub fn compare(&mut self, input: &Input, record_area: usize, reduced_area: usize) -> Outcome {
        let expected = input.second(record_area, reduced_area);
        let lent = (record_area, reduced_area);
        let mut wrong = match input {
            Input::Sheet(sheet) => self
                .call(
                    "ordersheet_analyse",
                    sheet,
                    lent,
                    Handed::Nothing,
                    &expected,
                    ffi::analyse,
                )
                .or_else(|| {
                    self.call(
                        "ordersheet_test_sheet",
                        sheet,
                        lent,
                        Handed::Sequences,
                        &expected,
                        ffi::test_sheet,
                    )
                }),
            Input::Pairs(count, list, hours) => {
                let beside = Lent::beside(hours);
                let call = |list: &Lent<u16>, areas: &mut Areas| {
                    ffi::test_pairs(*count, list, &beside, areas)
                };
                self.call(
                    "ordersheet_test_pairs",
                    list,
                    lent,
                    Handed::Sequences,
                    &expected,
                    call,
                )
                .or_else(|| (!beside.is(hours)).then(|| "  the hours were changed".to_string()))
            }
            Input::Record(record) => self
                .call(
                    "ordersheet_read",
                    record,
                    lent,
                    Handed::Nothing,
                    &expected,
                    ffi::read,
                )
                .or_else(|| {
                    self.call(
                        "ordersheet_test_read",
                        record,
                        lent,
                        Handed::Hours(hours_room(record)),
                        &expected,
                        ffi::test_read,
                    )
                }),
        };
        if let Input::Record(record) = input {
            wrong = wrong.or_else(|| self.questions(record).1);
        } else if expected.number == 0 {
            wrong = wrong.or_else(|| self.questions(&expected.record).1);
        }
        if let Some((count, list, hours)) = input.listed(&expected) {
            wrong = wrong.or_else(|| self.joins(count, &list).1);
            for (list, order) in some_orders(count, &list) {
                wrong = wrong.or_else(|| self.preview(count, list, &hours, order).1);
            }
        }
        let wrong = wrong.map(|wrong| {
            let areas = format!("record area {record_area}, reduced area {reduced_area}");
            format!("{}\n  {areas}\n{wrong}", input.show())
        });
        self.settle((input, record_area, reduced_area), (expected.number, wrong));
        expected
    }

    /// Holds the questions to a record, or of bytes that are none, against `second`: its
    /// longest run, its gangs and some reasons; counts one input.
    pub fn compare_questions(&mut self, record: &[u8]) {
        let held = self.questions(record);
        self.settle(("questions", record), held);
    }

    /// Holds the reasons between these pairs of job numbers against `second`, in a record
    /// or in bytes that are none; counts one input. Whether it is a record.
    pub fn compare_reasons(&mut self, record: &[u8], pairs: &[(u16, u16)]) -> bool {
        let read = second::record::read(record);
        let number = if read.is_some() { 0 } else { 11 };
        let wrong = self.reasons(record, read.as_ref(), pairs);
        self.settle(("reasons", record, pairs), (number, wrong));
        read.is_some()
    }

    /// Holds the joins of a pair list against `second`; counts one input.
    pub fn compare_joins(&mut self, count: u16, list: &[u16]) {
        let held = self.joins(count, list);
        self.settle(("joins", count, list), held);
    }

    /// Holds the preview of one more order on a pair list against `second`; counts one
    /// input. The number of its answer.
    pub fn compare_preview(
        &mut self,
        count: u16,
        list: &[u16],
        hours: &[u16],
        order: (u16, u16),
    ) -> u64 {
        let held = self.preview(count, list, hours, order);
        let number = held.0;
        self.settle(("preview", count, list, hours, order), held);
        number
    }

    /// The same as `compare` with areas that are long enough; an accepted sheet's or
    /// list's record is read back.
    pub fn compare_enough(&mut self, input: &Input) -> Outcome {
        let outcome = self.compare(input, ENOUGH.0, ENOUGH.1);
        self.read_back(&outcome);
        outcome
    }

    /// Reads the record of an accepted sheet or pair list; what comes back must
    /// be what the analysis gave. Reads it damaged as well.
    pub fn read_back(&mut self, outcome: &Outcome) {
        if outcome.record.is_empty() {
            return;
        }
        let input = Input::Record(outcome.record.clone());
        let back = self.compare(&input, 0, outcome.reduced.len());
        let same = Outcome {
            record: Vec::new(),
            ..outcome.clone()
        };
        assert!(back == same, "second itself reads back something else");
        for damaged in damages(&outcome.record) {
            self.compare(&Input::Record(damaged), 0, outcome.reduced.len() + 8);
        }
    }

    fn count(&mut self, input: impl Hash, number: u64) {
        self.inputs += 1;
        self.families.entry(self.family).or_default()[number as usize] += 1;
        let mut hasher = DefaultHasher::new();
        input.hash(&mut hasher);
        self.distinct.insert(hasher.finish());
    }

    /// Counts an input with its answer's number and what was wrong with it, if
    /// anything.
    fn settle(&mut self, input: impl Hash, (number, wrong): (u64, Option<String>)) {
        self.count(input, number);
        if let Some(wrong) = wrong {
            self.fail(&wrong);
        }
    }

    fn fail(&mut self, report: &str) {
        self.failed += 1;
        if self.failed <= SHOWN {
            eprintln!("FAILED in {}: {report}\n", self.family);
        }
    }

    /// One call with a fresh copy of the input and fresh areas; what is wrong
    /// with it, if anything.
    fn call<T: Copy + PartialEq>(
        &mut self,
        entry: &str,
        input: &[T],
        lent: (usize, usize),
        handed: Handed,
        expected: &Outcome,
        call: impl FnOnce(&Lent<T>, &mut Areas) -> u64,
    ) -> Option<String> {
        let copy = Lent::new(input);
        let hours_room = match handed {
            Handed::Hours(room) => room,
            _ => 0,
        };
        let hours = bytes_of(&expected.hours[..hours_room.min(128)]);
        let mut areas = Areas {
            record: Guarded::new(lent.0, &mut self.pattern),
            reduced: Guarded::new(lent.1, &mut self.pattern),
            forward: Guarded::new(128, &mut self.pattern),
            reverse: Guarded::new(128, &mut self.pattern),
            hours: Guarded::new(2 * hours_room, &mut self.pattern),
        };
        let answer = call(&copy, &mut areas);
        let none: &[u8] = &[];
        let sequences = handed != Handed::Nothing;
        let sequence = |entries| if sequences { entries } else { none };
        let right = answer == packed(expected.number, expected.places)
            && areas.record.is(&expected.record)
            && areas.reduced.is(&expected.reduced)
            && areas.forward.is(sequence(&expected.forward))
            && areas.reverse.is(sequence(&expected.reverse))
            && areas.hours.is(&hours)
            && copy.is(input);
        if right {
            return None;
        }
        let mut report = String::new();
        let places = expected.places;
        let _ = writeln!(report, "  second: {} {places:?}", expected.number);
        let _ = writeln!(report, "    record {}", hex(&expected.record));
        let _ = writeln!(report, "    reduced {}", hex(&expected.reduced));
        if sequences {
            let _ = writeln!(report, "    forward {}", hex(&expected.forward));
            let _ = writeln!(report, "    reverse {}", hex(&expected.reverse));
            let _ = writeln!(
                report,
                "    hours, in an area of {hours_room}: {}",
                hex(&hours)
            );
        }
        let places = [
            answer >> 8 & 0xffff,
            answer >> 24 & 0xffff,
            answer >> 40 & 0xff,
            answer >> 48,
        ];
        let _ = writeln!(
            report,
            "  {entry}: {} {places:?} (hexadecimal {answer:x})",
            answer & 0xff
        );
        let _ = writeln!(report, "    record {}", areas.record.show());
        let _ = writeln!(report, "    reduced {}", areas.reduced.show());
        let _ = writeln!(report, "    forward {}", areas.forward.show());
        let _ = writeln!(report, "    reverse {}", areas.reverse.show());
        let _ = writeln!(report, "    hours {}", areas.hours.show());
        if !copy.is(input) {
            let _ = writeln!(report, "    the input was changed");
        }
        Some(report)
    }

    /// One call for each plan of the record and for some reasons: the number that
    /// `second` gives, and what is wrong with a call, if anything.
    fn questions(&mut self, record: &[u8]) -> (u64, Option<String>) {
        // Once for all of them: it takes most of the time.
        let read = second::record::read(record);
        let run = second::longest_run_of(read.as_ref());
        let gangs = second::gangs_of(read.as_ref());
        let number = run.number;
        self.questions[(number != 0) as usize] += 1;
        let wrong = asked("ordersheet_longest_run", record, run, ffi::longest_run)
            .or_else(|| asked("ordersheet_gangs", record, gangs, ffi::gangs))
            .or_else(|| self.reasons(record, read.as_ref(), &some_pairs(record)));
        (number, wrong)
    }

    /// One call for each pair of job numbers, as far as the first that is wrong; what is
    /// wrong with it.
    fn reasons(
        &mut self,
        record: &[u8],
        read: Option<&(usize, Tree)>,
        pairs: &[(u16, u16)],
    ) -> Option<String> {
        let mut wrong = |&(first, second): &(u16, u16)| {
            let reason = second::reason_of(read, first, second);
            let kind = match reason.number {
                0 => reason.rule as usize - 1,
                14 => 4,
                _ => 5,
            };
            self.reasons[kind] += 1;
            let call = |copy: &Lent<u8>| ffi::reason(copy, first, second);
            let report = asked("ordersheet_reason", record, reason, call)?;
            Some(format!(
                "{report}    the jobs, in decimal: {first}, {second}\n"
            ))
        };
        pairs.iter().find_map(&mut wrong)
    }

    /// One call for the preview of an order on fresh copies of a pair list and its hours,
    /// and one for the analysis of the list with the order at its end: the number that
    /// `second` gives, and what is wrong with either, if anything.
    fn preview(
        &mut self,
        count: u16,
        list: &[u16],
        hours: &[u16],
        order: (u16, u16),
    ) -> (u64, Option<String>) {
        let Preview { number, places } = second::preview(count, list, hours, order);
        self.previews[number as usize] += 1;
        let expected = packed(number, places);
        let (copy, beside) = (Lent::new(list), Lent::beside(hours));
        let given = ffi::preview(count, &copy, &beside, order);
        let (list_stays, hours_stay) = (copy.is(list), beside.is(hours));
        let longer = Lent::new(&[list, &[order.0, order.1]].concat());
        let analysed = ffi::answer_to_pairs(count, &longer, &beside);
        if given == expected && analysed == expected && list_stays && hours_stay {
            return (number, None);
        }
        let mut report = format!("preview of {order:?}: count {count}, list {list:?}, ");
        let _ = writeln!(report, "hours {hours:?}, answers in hexadecimal");
        let _ = writeln!(report, "  second: {expected:x}");
        let _ = writeln!(report, "  ordersheet_preview: {given:x}");
        let _ = writeln!(
            report,
            "  ordersheet_test_pairs, the order at the end: {analysed:x}"
        );
        for (stays, said) in [(list_stays, "orders"), (hours_stay, "hours")] {
            if !stays {
                let _ = writeln!(report, "    the {said} were changed");
            }
        }
        (number, Some(report))
    }

    /// One call for the joins of a fresh copy of the pair list: the number that
    /// `second` gives, and what is wrong with the call, if anything.
    fn joins(&mut self, count: u16, list: &[u16]) -> (u64, Option<String>) {
        let Joins {
            number,
            count: expected,
        } = second::joins::of_list(count, list);
        let copy = Lent::new(list);
        let joins = ffi::joins(count, &copy) as u64;
        let (kind, said) = match number {
            0 => (0, "without a circle"),
            7 => (1, "with a circle"),
            _ => (2, "refused"),
        };
        self.joins[kind] += 1;
        if joins == expected && copy.is(list) {
            return (number, None);
        }
        let mut report = format!("joins of pair list: count {count}, list {list:?}\n");
        let _ = writeln!(report, "  second: {expected} ({said})");
        let _ = writeln!(report, "  bench_joins: {joins}");
        if !copy.is(list) {
            let _ = writeln!(report, "    the list was changed");
        }
        (number, Some(report))
    }
}

/// One call with a fresh copy of the record; what is wrong with it, if anything.
fn asked<T: Debug + PartialEq>(
    entry: &str,
    record: &[u8],
    expected: impl Into<T>,
    call: impl FnOnce(&Lent<u8>) -> T,
) -> Option<String> {
    let expected = expected.into();
    let copy = Lent::new(record);
    let given = call(&copy);
    if given == expected && copy.is(record) {
        return None;
    }
    let mut report = format!("record {}, all in hexadecimal\n", hex(record));
    let _ = writeln!(report, "  second: {expected:x?}");
    let _ = writeln!(report, "  {entry}: {given:x?}");
    if !copy.is(record) {
        let _ = writeln!(report, "    the record was changed");
    }
    Some(report)
}
