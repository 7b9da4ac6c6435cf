//! The analysis of order sheets and pair lists, the record reader, the longest
//! run, the gangs, the reason between two jobs, the preview of one more order and the
//! count of joins, written from document 01 and requests A.1 to A.8 alone by the
//! plainest search their words allow; the count with a circle, of which they say
//! nothing, by the definition that the product has.

pub mod cases;
pub mod gangs;
pub mod joins;
pub mod longest;
pub mod order;
pub mod preview;
pub mod reason;
pub mod record;
pub mod sheet;
pub mod tree;

use longest::Run;
use sheet::Sheet;
use tree::Tree;

pub const MOST_JOBS: usize = 128;
pub const MOST_ORDERS: usize = 4096;
pub const MOST_HOURS: usize = 4095;
pub const LONGEST_SHEET: usize = 37_637;
pub const LONGEST_RECORD: usize = 464;

/// An answer and what is written: on refusal (`number` other than 0) the lists
/// are empty, the sequences and hours all zeros. Reading a record leaves `record`
/// empty.
#[derive(Clone, Debug, PartialEq, Eq)]
pub struct Outcome {
    pub number: u64,
    pub places: [u64; 4],
    /// What is written to the record area.
    pub record: Vec<u8>,
    /// What is written to the area for reduced orders, two bytes an order.
    pub reduced: Vec<u8>,
    pub forward: [u8; MOST_JOBS],
    pub reverse: [u8; MOST_JOBS],
    /// The hours of each job, 0 from the job count on. Reading a record hands
    /// them back; an analysis does not.
    pub hours: [u16; MOST_JOBS],
}

fn refused(number: u64, places: [usize; 4]) -> Outcome {
    Outcome {
        number,
        places: places.map(|place| place as u64),
        record: Vec::new(),
        reduced: Vec::new(),
        forward: [0; MOST_JOBS],
        reverse: [0; MOST_JOBS],
        hours: [0; MOST_JOBS],
    }
}

/// The analysis of a sheet, with areas of the two lengths lent.
pub fn analyse_sheet(sheet: &[u8], record_area: usize, reduced_area: usize) -> Outcome {
    if sheet.len() > LONGEST_SHEET {
        return refused(1, [0; 4]);
    }
    match sheet::read(sheet) {
        Err(place) => refused(2, [place, 0, 0, 0]),
        Ok(sheet) => from_refusal_3(&sheet, record_area, reduced_area),
    }
}

/// The analysis of a pair list and its hours, with areas of the two lengths
/// lent.
pub fn analyse_pairs(
    count: u16,
    list: &[u16],
    hours: &[u16],
    record_area: usize,
    reduced_area: usize,
) -> Outcome {
    if list.len() % 2 == 1 {
        return refused(2, [0; 4]);
    }
    let listed = Sheet {
        count: count as usize,
        hours: hours.iter().map(|&hours| hours as usize).collect(),
        orders: list
            .chunks(2)
            .map(|pair| (pair[0] as usize, pair[1] as usize))
            .collect(),
    };
    from_refusal_3(&listed, record_area, reduced_area)
}

fn from_refusal_3(sheet: &Sheet, record_area: usize, reduced_area: usize) -> Outcome {
    let Sheet {
        count,
        hours,
        orders,
    } = sheet;
    let count = *count;
    if count == 0 || count > MOST_JOBS {
        return refused(3, [0; 4]);
    }
    if orders.len() > MOST_ORDERS {
        return refused(4, [0; 4]);
    }
    if hours.len() != count {
        return refused(12, [0; 4]);
    }
    if let Some(job) = hours.iter().position(|&hours| hours > MOST_HOURS) {
        return refused(13, [job, 0, 0, 0]);
    }
    if let Some(at) = orders.iter().position(|&(u, v)| u >= count || v >= count) {
        return refused(5, [at, 0, 0, 0]);
    }
    if let Some(at) = orders.iter().position(|&(u, v)| u == v) {
        return refused(6, [at, 0, 0, 0]);
    }
    let before = order::before(count, orders);
    if let Some(job) = (0..count).find(|&job| before[job][job]) {
        return refused(7, [job, 0, 0, 0]);
    }
    if let Some(places) = order::first_n(&before) {
        return refused(8, places);
    }
    let tree = tree::of_order(&before, hours).expect("an order without an N has a tree");
    let record = record::lay_out(count, &tree);
    let reduced = order::reduced(&before);
    if record_area < record.len() {
        return refused(9, [0; 4]);
    }
    if reduced_area < 2 * reduced.len() {
        return refused(10, [0; 4]);
    }
    accepted(count, record.len(), &tree, &reduced, record)
}

/// The record reader, with an area of the given length lent.
pub fn read_record(record: &[u8], reduced_area: usize) -> Outcome {
    read_record_of(record::read(record).as_ref(), record.len(), reduced_area)
}

/// The same of the job count and tree that were read from so many bytes, if these are a
/// record.
pub fn read_record_of(
    read: Option<&(usize, Tree)>,
    record_bytes: usize,
    reduced_area: usize,
) -> Outcome {
    let Some((count, tree)) = read else {
        return refused(11, [0; 4]);
    };
    let reduced = order::reduced(&tree.meaning(*count));
    if reduced_area < 2 * reduced.len() {
        return refused(10, [0; 4]);
    }
    accepted(*count, record_bytes, tree, &reduced, Vec::new())
}

fn accepted(
    count: usize,
    record_bytes: usize,
    tree: &Tree,
    reduced: &[(usize, usize)],
    record: Vec<u8>,
) -> Outcome {
    Outcome {
        number: 0,
        places: [
            record_bytes as u64,
            reduced.len() as u64,
            tree.groups() as u64,
            0,
        ],
        record,
        reduced: reduced
            .iter()
            .flat_map(|&(u, v)| [u as u8, v as u8])
            .collect(),
        forward: entries(&tree.forward()).map(|job| job as u8),
        reverse: entries(&tree.reverse()).map(|job| job as u8),
        hours: entries(&tree.hours(count)).map(|hours| hours as u16),
    }
}

/// An answer, the total of a longest run and its jobs, earliest first; on refusal
/// the total is 0 and there are no jobs.
#[derive(Clone, Debug, PartialEq, Eq)]
pub struct LongestRun {
    pub number: u64,
    pub places: [u64; 4],
    pub total: u64,
    pub jobs: Vec<u8>,
}

/// The longest run of a record.
pub fn longest_run(record: &[u8]) -> LongestRun {
    longest_run_of(record::read(record).as_ref())
}

/// The same of the job count and tree that were read, if the bytes are a record.
pub fn longest_run_of(read: Option<&(usize, Tree)>) -> LongestRun {
    let run = read.map_or(Run::default(), |(_, tree)| longest::of_tree(tree));
    LongestRun {
        number: number_of(read),
        places: [0; 4],
        total: run.total as u64,
        jobs: run.jobs.into_iter().map(|job| job as u8).collect(),
    }
}

/// An answer, the hours of each gang's jobs together, as many as there are gangs,
/// and the gang of each job; on refusal there are none of either.
#[derive(Clone, Debug, PartialEq, Eq)]
pub struct GangPlan {
    pub number: u64,
    pub places: [u64; 4],
    pub hours: Vec<u32>,
    pub gangs: Vec<u8>,
}

/// The gangs of a record.
pub fn gangs(record: &[u8]) -> GangPlan {
    gangs_of(record::read(record).as_ref())
}

/// The same of the job count and tree that were read, if the bytes are a record.
pub fn gangs_of(read: Option<&(usize, Tree)>) -> GangPlan {
    let gangs = read.map_or(Vec::new(), |(_, tree)| gangs::of_tree(tree));
    let mut of_jobs = vec![0; read.map_or(0, |(count, _)| *count)];
    for (number, gang) in gangs.iter().enumerate() {
        gang.jobs
            .iter()
            .for_each(|&job| of_jobs[job] = number as u8);
    }
    GangPlan {
        number: number_of(read),
        places: [0; 4],
        hours: gangs.iter().map(|gang| gang.total as u32).collect(),
        gangs: of_jobs,
    }
}

/// An answer and the reason between two jobs: the number of its rule, the position in
/// the record of the lowest node over both and the number of jobs under that; on
/// refusal these are 0.
#[derive(Clone, Debug, PartialEq, Eq)]
pub struct Reason {
    pub number: u64,
    pub places: [u64; 4],
    pub rule: u64,
    pub position: u64,
    pub jobs: u64,
}

/// The reason between two jobs of a record.
pub fn reason(record: &[u8], first: u16, second: u16) -> Reason {
    reason_of(record::read(record).as_ref(), first, second)
}

/// The same of the job count and tree that were read, if the bytes are a record.
pub fn reason_of(read: Option<&(usize, Tree)>, first: u16, second: u16) -> Reason {
    let pair = [first as usize, second as usize];
    let (number, lowest) = match read {
        None => (11, None),
        Some((count, _)) if pair.iter().any(|job| job >= count) => (14, None),
        Some((_, tree)) => (0, reason::of_tree(tree, pair)),
    };
    assert!(
        lowest.is_some() == (number == 0),
        "a job stands on no leaf of a record"
    );
    Reason {
        number,
        places: [0; 4],
        rule: lowest.map_or(0, |lowest| lowest.rule as u64),
        position: lowest.map_or(0, |lowest| lowest.position as u64),
        jobs: lowest.map_or(0, |lowest| lowest.jobs as u64),
    }
}

/// The answer's number, 11 where the bytes are no record.
fn number_of(read: Option<&(usize, Tree)>) -> u64 {
    match read {
        Some(_) => 0,
        None => 11,
    }
}

/// An answer alone, that of an analysis which writes nothing.
#[derive(Clone, Copy, Debug, PartialEq, Eq)]
pub struct Preview {
    pub number: u64,
    pub places: [u64; 4],
}

/// The answer that a pair list and its hours would get with this order at the list's
/// end and areas long enough.
pub fn preview(count: u16, list: &[u16], hours: &[u16], order: (u16, u16)) -> Preview {
    let asked = preview::Asked {
        count: count as usize,
        list,
        hours,
        order: (order.0 as usize, order.1 as usize),
    };
    let (number, places) = asked.answer();
    Preview {
        number,
        places: places.map(|place| place as u64),
    }
}

/// The joins of one job's row into another's that make a pair list's followed-on
/// order: without a circle as many as there are different orders. 0 where there
/// are more than 128 jobs or an order names a job not below the count.
pub fn joins(count: u16, list: &[u16]) -> u64 {
    joins::of_list(count, list).count
}

/// The numbers, and zeros after them.
fn entries(numbers: &[usize]) -> [usize; MOST_JOBS] {
    let mut entries = [0; MOST_JOBS];
    entries[..numbers.len()].copy_from_slice(numbers);
    entries
}

/// The one 64-bit number handed to the planning desk.
pub fn packed(number: u64, places: [u64; 4]) -> u64 {
    number + 256 * places[0] + (1 << 24) * places[1] + (1 << 40) * places[2] + (1 << 48) * places[3]
}

/// What the program `ordersheet` prints for a sheet.
pub fn printed(sheet: &[u8]) -> Vec<u8> {
    let outcome = analyse_sheet(sheet, LONGEST_RECORD, 2 * MOST_ORDERS);
    let [first, second, third, fourth] = outcome.places;
    if outcome.number != 0 {
        let number = outcome.number;
        return format!("refused {number} {first} {second} {third} {fourth}\n").into_bytes();
    }
    let mut text = format!("accepted {first} {second} {third}\nrecord ");
    for byte in &outcome.record {
        text += &format!("{byte:02x}");
    }
    text += "\n";
    for order in outcome.reduced.chunks(2) {
        text += &format!("{} {}\n", order[0], order[1]);
    }
    // The record's first seven bits are the job count minus 1.
    let count = (outcome.record[0] >> 1) as usize + 1;
    for (word, entries) in [("forward", outcome.forward), ("reverse", outcome.reverse)] {
        text += word;
        for job in &entries[..count] {
            text += &format!(" {job}");
        }
        text += "\n";
    }
    text.into_bytes()
}
