//! The families of inputs.

use crate::check::{Input, Tally, ENOUGH};
use crate::gangs;
use crate::generate::*;
use crate::joins;
use crate::preview;
use crate::reason;
use crate::runs;
use crate::sides;
use crate::twins;
use second::{cases, LONGEST_RECORD, LONGEST_SHEET, MOST_ORDERS};
use std::collections::BTreeSet;

const SEED: u64 = 0x0720_2401;

type Body = fn(&mut Rng, usize, &mut Tally);

/// One part of a family.
#[derive(Clone, Copy)]
pub struct Task {
    pub family: &'static str,
    part: usize,
    body: Body,
}

impl Task {
    pub fn run(&self, tally: &mut Tally) {
        let name = self
            .family
            .bytes()
            .fold(SEED, |seed, byte| 31 * seed % 1_000_003 + byte as u64);
        tally.family = self.family;
        (self.body)(
            &mut Rng::new(name << 20 | self.part as u64),
            self.part,
            tally,
        );
    }
}

/// All tasks, those of the heavy families first.
pub fn tasks() -> Vec<Task> {
    let families: [(&'static str, usize, Body); 69] = [
        (
            "sheets about the longest",
            LONG_COUNTS.len(),
            longest_sheets,
        ),
        ("large orders", 12, large_orders),
        ("series-parallel orders", 40, series_parallel_orders),
        ("some orders more", 30, some_orders_more),
        ("any graph", 30, any_graphs),
        ("orders with twins", 8, twins::kinds_of_jobs),
        ("the last bytes", LAST_PARTS, last_bytes),
        ("many orders", 10, many_orders),
        ("areas of every length", 20, every_area),
        ("damaged records", 20, damaged_records),
        ("off the list and self orders", 20, off_the_list),
        ("edited sheets", 20, edited_sheets),
        ("line ends mixed", 30, mixed_ends),
        ("a carriage return put in", 30, return_put_in),
        ("a carriage return taken out", 10, return_taken_out),
        ("a carriage return doubled", 10, return_doubled),
        ("lines that end otherwise", 10, wrong_ends),
        ("cut short at every byte", 10, cut_short),
        ("every text of up to 6 letters", TEXT_PARTS, every_text),
        ("records with a flaw", 20, flawed_records),
        ("questions on any tree", 20, runs::any_trees),
        (
            "questions on extreme trees",
            runs::EXTREME_PARTS,
            runs::extreme_trees,
        ),
        ("longest runs that are equal", 10, runs::equal_totals),
        (
            "questions on small trees",
            runs::SMALL_PARTS,
            runs::small_trees,
        ),
        ("gangs of unequal widths", 10, gangs::unequal_widths),
        (
            "gangs of every number",
            gangs::NUMBER_PARTS,
            gangs::every_number,
        ),
        (
            "gangs of every tree of 6 jobs",
            gangs::SIX_PARTS,
            gangs::six_jobs,
        ),
        (
            "reasons on extreme trees",
            reason::EXTREME_PARTS,
            reason::extreme_trees,
        ),
        ("reasons on any tree", 20, reason::any_trees),
        ("reasons of unequal widths", 10, reason::unequal_widths),
        (
            "reasons of some numbers of gangs",
            reason::NUMBER_PARTS,
            reason::some_numbers,
        ),
        (
            "reasons on trees of up to 6 jobs",
            reason::SMALL_PARTS,
            reason::small_trees,
        ),
        ("reasons of no jobs", reason::COUNT_PARTS, reason::no_jobs),
        ("reasons on no record", 10, reason::no_records),
        (
            "previews on lists about full",
            preview::WRONG_PARTS,
            preview::full_lists,
        ),
        ("previews near trees", 24, preview::near_trees),
        (
            "previews at the last jobs",
            preview::EDGE_PARTS,
            preview::edges,
        ),
        (
            "previews on every relation",
            preview::RELATION_PARTS,
            preview::every_relation,
        ),
        (
            "previews on orders of 5 and 6 jobs",
            preview::ORDER_PARTS,
            preview::every_order,
        ),
        (
            "previews on lists of 0 to 6 numbers",
            preview::SHORT_PARTS,
            preview::short_lists,
        ),
        ("previews with two faults", 10, preview::two_faults),
        (
            "previews on odd lists",
            preview::ODD_PARTS,
            preview::odd_lists,
        ),
        ("previews and hours", preview::HOURS_PARTS, preview::hours),
        ("questions on no record", 10, runs::no_records),
        ("joins of repeated orders", 10, joins::repeated_orders),
        ("joins of 4,096 orders", 10, joins::many_orders),
        (
            "joins of every relation on 3 jobs",
            joins::RELATION_PARTS,
            joins::every_relation,
        ),
        ("joins of some on 4 to 6 jobs", 10, joins::small_relations),
        ("joins of series", joins::SERIES_PARTS, joins::series),
        ("joins of a circle reached late", 10, joins::late_circles),
        ("joins at the last jobs", joins::COUNTS.len(), joins::edges),
        ("joins of lists with a fault", 10, joins::refused),
        ("hours of every bit pattern", PATTERN_PARTS, every_hours),
        ("every bit flipped", FLIP_PARTS, every_bit),
        ("hours alone differ", 20, hours_alone),
        ("hours above 4,095", 20, hours_above),
        (
            "hours lists of every length",
            LIST_COUNTS.len(),
            hours_lists,
        ),
        ("lines that are another's", 10, other_lines),
        ("hours lines cut after every byte", 10, cut_hours_lines),
        (
            "hours lines too few and too many",
            LINE_COUNTS.len(),
            counted_hours_lines,
        ),
        ("branches as orders", 5, sides::branch_orders),
        (
            "side children nearly in order",
            sides::NEAR_PARTS,
            sides::nearly_in_order,
        ),
        (
            "side children in every sequence",
            sides::SEQUENCE_PARTS,
            sides::every_sequence,
        ),
        (
            "records in the former order",
            sides::FORMER_PARTS,
            sides::former_order,
        ),
        ("every order on up to 6 jobs", ORDER_PARTS, every_order),
        (
            "every relation on up to 4 jobs",
            RELATION_PARTS,
            every_relation,
        ),
        ("every byte string of up to 2 bytes", 1, short_byte_strings),
        ("every record of up to 4 jobs", 1, small_records),
        ("the paper's cases", 1, paper_cases),
    ];
    let mut tasks = Vec::new();
    for (family, parts, body) in families {
        tasks.extend((0..parts).map(|part| Task { family, part, body }));
    }
    tasks
}

/// Areas for an input: long enough mostly, else of any length.
fn some_areas(rng: &mut Rng) -> (usize, usize) {
    match rng.below(10) {
        0..=4 => ENOUGH,
        5 => (rng.below(30), ENOUGH.1),
        6 => (ENOUGH.0, rng.below(20)),
        7 => (rng.below(30), rng.below(20)),
        8 => (rng.below(465), rng.below(300)),
        _ => (rng.from(464, 500), rng.from(8192, 8300)),
    }
}

fn as_sheet(count: usize, hours: &[u16], orders: &Orders) -> Input {
    Input::Sheet(sheet(count, hours, orders))
}

fn as_pairs(count: usize, hours: &[u16], orders: &Orders) -> Input {
    Input::Pairs(count as u16, list(orders), hours.to_vec())
}

/// The orders as a sheet and as a pair list, with hours, the record read back.
pub fn both_ways(rng: &mut Rng, tally: &mut Tally, count: usize, orders: &Orders) {
    let hours = hours(rng, count);
    let (record_area, reduced_area) = some_areas(rng);
    let outcome = tally.compare(&as_sheet(count, &hours, orders), record_area, reduced_area);
    tally.read_back(&outcome);
    let (record_area, reduced_area) = some_areas(rng);
    tally.compare(&as_pairs(count, &hours, orders), record_area, reduced_area);
}

fn series_parallel_orders(rng: &mut Rng, _: usize, tally: &mut Tally) {
    for _ in 0..500 {
        let count = job_count(rng);
        let orders = series_parallel(rng, count);
        both_ways(rng, tally, count, &orders);
    }
}

fn some_orders_more(rng: &mut Rng, _: usize, tally: &mut Tally) {
    for _ in 0..500 {
        let count = job_count(rng);
        let mut orders = series_parallel(rng, count);
        for _ in 0..rng.from(1, 4) {
            let order = (rng.below(count), rng.below(count));
            let at = rng.below(orders.len() + 1);
            if order.0 != order.1 {
                orders.insert(at, order);
            }
        }
        both_ways(rng, tally, count, &orders);
    }
}

fn any_graphs(rng: &mut Rng, _: usize, tally: &mut Tally) {
    for _ in 0..500 {
        let count = job_count(rng);
        let orders = any_graph(rng, count);
        both_ways(rng, tally, count, &orders);
    }
}

/// Accepted and crossed orders of many jobs, and the extreme shapes.
fn large_orders(rng: &mut Rng, part: usize, tally: &mut Tally) {
    for round in 0..8 {
        let count = rng.from(100, 128);
        let mut orders = series_parallel(rng, count);
        if round % 2 == 1 {
            orders.truncate(4095);
            orders.push((rng.below(count), rng.below(count)));
        }
        both_ways(rng, tally, count, &orders);
    }
    let mut jobs: Vec<usize> = (0..128).collect();
    if part > 0 {
        rng.shuffle(&mut jobs);
    }
    let chain = (1..128).map(|i| (jobs[i - 1], jobs[i])).collect();
    // Chain and side in turn, 127 groups of two.
    let nested = (0..127)
        .step_by(2)
        .flat_map(|i| (i + 1..128).map(move |j| (i, j)));
    let nested = nested.map(|(i, j)| (jobs[i], jobs[j])).collect();
    let wide = (0..64).flat_map(|i| (64..128).map(move |j| (i, j)));
    let wide: Orders = wide.map(|(i, j)| (jobs[i], jobs[j])).collect();
    // One order short of the widest: crossed.
    let mut short = wide.clone();
    short.remove(rng.below(short.len()));
    for orders in [Vec::new(), chain, nested, wide, short] {
        let hours = hours_within(rng, 128);
        for input in [
            as_sheet(128, &hours, &orders),
            as_pairs(128, &hours, &orders),
        ] {
            let outcome = tally.compare_enough(&input);
            let (record, reduced) = (outcome.record.len(), outcome.reduced.len());
            tally.compare(&input, record, reduced);
            tally.compare(&input, record.saturating_sub(1), reduced);
        }
    }
}

/// 4,095 to 8,000 orders.
fn many_orders(rng: &mut Rng, _: usize, tally: &mut Tally) {
    for _ in 0..60 {
        let count = if rng.percent(80) {
            rng.from(2, 10)
        } else {
            rng.from(11, 128)
        };
        let mut orders = any_graph(rng, count);
        if rng.percent(60) {
            orders = series_parallel(rng, count);
        }
        if orders.is_empty() {
            orders.push((0, 1));
        }
        let length = if rng.percent(50) {
            rng.from(4095, 4098)
        } else {
            rng.from(4095, 8000)
        };
        orders.truncate(length);
        while orders.len() < length {
            let order = rng.pick(&orders);
            orders.push(order);
        }
        // Something tested later than the number of orders, or nothing.
        let at = rng.below(length);
        match rng.below(6) {
            0 => orders[at] = (rng.below(count), rng.from(count, 999)),
            1 => orders[at] = (0, 0),
            2 => orders[at] = (rng.below(count), rng.below(count)),
            _ => {}
        }
        let stated = if rng.percent(5) {
            rng.pick(&[0, 129, 999])
        } else {
            count
        };
        both_ways(rng, tally, stated, &orders);
    }
}

/// Jobs not below the count, counts off the limits, self orders, odd lists.
fn off_the_list(rng: &mut Rng, _: usize, tally: &mut Tally) {
    for _ in 0..500 {
        let count = job_count(rng);
        let mut orders = if rng.percent(60) {
            series_parallel(rng, count)
        } else {
            any_graph(rng, count)
        };
        for _ in 0..rng.below(4) {
            let job = rng.below(count);
            let off = if rng.percent(50) {
                count
            } else {
                rng.from(count, 999)
            };
            let order = rng.pick(&[(job, off), (off, job), (off, off), (job, job), (job, job)]);
            let at = rng.below(orders.len() + 1);
            orders.insert(at, order);
        }
        let stated = match rng.below(20) {
            0 => 0,
            1 => rng.from(129, 999),
            2 => rng.from(1, 128),
            _ => count,
        };
        both_ways(rng, tally, stated, &orders);

        let mut list = list(&orders);
        if !list.is_empty() && rng.percent(50) {
            let at = rng.below(list.len());
            let off = [rng.below(65_536), count, 256, 256 + count, 32_768, 65_535];
            list[at] = rng.pick(&off) as u16;
        }
        if rng.percent(30) {
            list.push(rng.below(count) as u16);
        }
        let stated = match rng.below(10) {
            0 => rng.pick(&[0, 129, 255, 256, 256 + count, 32_768, 65_535]),
            _ => count,
        };
        let length = if rng.percent(90) {
            count
        } else {
            rng.below(140)
        };
        let hours = hours(rng, length);
        let (record_area, reduced_area) = some_areas(rng);
        tally.compare(
            &Input::Pairs(stated as u16, list, hours),
            record_area,
            reduced_area,
        );
    }
}

fn record_of(rng: &mut Rng, count: usize) -> Vec<u8> {
    let orders = series_parallel(rng, count);
    let hours = hours_within(rng, count);
    as_pairs(count, &hours, &orders)
        .second(ENOUGH.0, ENOUGH.1)
        .record
}

/// The bytes with an area for reduced orders, long enough mostly; the answer's number.
pub fn compare_record(rng: &mut Rng, tally: &mut Tally, record: Vec<u8>) -> u64 {
    let reduced_area = if rng.percent(80) {
        ENOUGH.1
    } else {
        rng.below(12)
    };
    let outcome = tally.compare(&Input::Record(record), 0, reduced_area);
    outcome.number
}

/// Records of accepted orders with a bit or a byte changed, shortened,
/// lengthened, and with two jobs exchanged.
fn damaged_records(rng: &mut Rng, _: usize, tally: &mut Tally) {
    for _ in 0..60 {
        let count = job_count(rng);
        let record = record_of(rng, count);
        compare_record(rng, tally, record.clone());
        let small = record.len() <= 8;

        let bits = 8 * record.len();
        let flips = if small {
            (0..bits).collect()
        } else {
            some_below(rng, bits, 20)
        };
        for at in flips {
            compare_record(rng, tally, flip(&record, at));
        }
        for at in some_below(rng, record.len(), 8) {
            let mut damaged = record.clone();
            damaged[at] = damaged[at].wrapping_add(rng.from(1, 255) as u8);
            compare_record(rng, tally, damaged);
        }
        let lengths = if small {
            (0..record.len()).collect()
        } else {
            some_below(rng, record.len(), 6)
        };
        for length in lengths {
            compare_record(rng, tally, record[..length].to_vec());
        }
        compare_record(rng, tally, record[..record.len() - 1].to_vec());
        for more in [1, 2, 464, 512] {
            let mut zeros = record.clone();
            zeros.resize(record.len() + more, 0);
            compare_record(rng, tally, zeros);
        }
        let mut longer = record.clone();
        longer.push(rng.below(256) as u8);
        compare_record(rng, tally, longer);
        let twice = [&record[..], &record[..]].concat();
        compare_record(rng, tally, twice);
        let fields = job_fields(&record);
        let pairs = fields.len() * fields.len();
        let swaps = if small {
            (0..pairs).collect()
        } else {
            some_below(rng, pairs, 12)
        };
        for pair in swaps {
            let (one, other) = (pair / fields.len(), pair % fields.len());
            if one < other {
                compare_record(rng, tally, swap_jobs(&record, fields[one], fields[other]));
            }
        }
    }
}

fn some_below(rng: &mut Rng, bound: usize, most: usize) -> Vec<usize> {
    (0..most.min(bound)).map(|_| rng.below(bound)).collect()
}

/// Records laid out by hand with one flaw, or with none.
fn flawed_records(rng: &mut Rng, part: usize, tally: &mut Tally) {
    for round in 0..900 {
        let record = flawed_record(rng, FLAWS[round % FLAWS.len()]);
        compare_record(rng, tally, record);
    }
    if part > 0 {
        return;
    }
    // Groups of two nested in each other, more than there can be as well.
    for depth in 0..=245 {
        let record = nested_record(rng, depth);
        compare_record(rng, tally, record);
    }
    for length in [272, 464, 465, 1000, 8192, 65_536, 65_538, 70_000] {
        for byte in [0, 0x55, 0x80, 0xaa, 0xff] {
            compare_record(rng, tally, vec![byte; length]);
        }
    }
}

/// Sheets damaged by one to three edits.
fn edited_sheets(rng: &mut Rng, _: usize, tally: &mut Tally) {
    for _ in 0..1500 {
        let count = if rng.percent(90) {
            rng.from(1, 12)
        } else {
            job_count(rng)
        };
        let orders = series_parallel(rng, count);
        let hours = hours(rng, count);
        let mut text = any_end(rng, &sheet(count, &hours, &orders));
        for _ in 0..rng.from(1, 3) {
            edit(rng, &mut text);
        }
        let (record_area, reduced_area) = some_areas(rng);
        tally.compare(&Input::Sheet(text), record_area, reduced_area);
    }
}

/// A sheet in form, with line feeds alone: accepted, or refused by 13 or any
/// number from 3 to 8 but 4.
fn any_sheet(rng: &mut Rng, count: usize) -> Vec<u8> {
    let mut orders = if rng.percent(70) {
        series_parallel(rng, count)
    } else {
        any_graph(rng, count)
    };
    orders.truncate(MOST_ORDERS - 2);
    let (u, v) = (rng.below(count), rng.below(count));
    match rng.below(10) {
        0 => orders.push((u, rng.from(count, 999))),
        1 => orders.push((u, u)),
        2 => orders.extend([(u, v), (v, u)]),
        3 => orders.push((u, v)),
        _ => {}
    }
    rng.shuffle(&mut orders);
    let off = rng.pick(&[0, 0, 129, 999]);
    let stated = if rng.percent(4) { off } else { count };
    sheet(stated, &hours(rng, stated), &orders)
}

/// Sheets of every kind with line ends of both kinds; they say what they say
/// with line feeds alone.
fn mixed_ends(rng: &mut Rng, _: usize, tally: &mut Tally) {
    for round in 0..600 {
        let count = job_count(rng);
        let text = if round == 0 {
            let hours = hours(rng, count);
            sheet(count, &hours, &vec![(0, 1); rng.from(4095, 4099)])
        } else {
            any_sheet(rng, count)
        };
        let mut mixed = any_end(rng, &text);
        let read = second::sheet::read(&mixed);
        assert!(
            read == second::sheet::read(&text),
            "second itself reads line ends otherwise"
        );
        if rng.percent(10) {
            edit(rng, &mut mixed);
        }
        let (record_area, reduced_area) = some_areas(rng);
        tally.compare(&Input::Sheet(mixed), record_area, reduced_area);
    }
}

/// Long enough for any order on up to 8 jobs.
const SMALL: (usize, usize) = (30, 40);

fn compare_small(tally: &mut Tally, sheet: Vec<u8>) {
    tally.compare(&Input::Sheet(sheet), SMALL.0, SMALL.1);
}

/// A small sheet of every kind with line ends of every kind.
fn small_sheets(rng: &mut Rng) -> [Vec<u8>; 3] {
    let count = rng.from(1, 8);
    let mut text = any_sheet(rng, count);
    // Not the long ones of a large count.
    while text.len() > 200 {
        text = any_sheet(rng, count);
    }
    each_end(rng, &text)
}

fn put_in(sheet: &[u8], at: usize, bytes: &[u8]) -> Vec<u8> {
    [&sheet[..at], bytes, &sheet[at..]].concat()
}

fn returns(sheet: &[u8]) -> Vec<usize> {
    (0..sheet.len()).filter(|&at| sheet[at] == b'\r').collect()
}

/// A carriage return at every place, between two bytes and instead of one.
fn return_put_in(rng: &mut Rng, part: usize, tally: &mut Tally) {
    for _ in 0..6 {
        for sheet in small_sheets(rng) {
            for at in 0..=sheet.len() {
                compare_small(tally, put_in(&sheet, at, b"\r"));
            }
            for at in 0..sheet.len() {
                let mut changed = sheet.clone();
                changed[at] = b'\r';
                compare_small(tally, changed);
            }
        }
    }
    // Some places of a large sheet.
    let count = rng.from(100, 128);
    let hours = hours_within(rng, count);
    let text = sheet(count, &hours, &series_parallel(rng, count));
    let sheet = each_end(rng, &text)[part % 3].clone();
    for at in some_below(rng, sheet.len() + 1, 10) {
        tally.compare_enough(&Input::Sheet(put_in(&sheet, at, b"\r")));
    }
}

/// Each carriage return left out, of sheets in form and of those with one too
/// many.
fn return_taken_out(rng: &mut Rng, _: usize, tally: &mut Tally) {
    for _ in 0..45 {
        for sheet in small_sheets(rng) {
            let one_more = put_in(&sheet, rng.below(sheet.len() + 1), b"\r");
            for sheet in [sheet, one_more] {
                for at in returns(&sheet) {
                    let mut fewer = sheet.clone();
                    fewer.remove(at);
                    compare_small(tally, fewer);
                }
            }
        }
    }
}

/// Each carriage return twice and three times, and all of them twice.
fn return_doubled(rng: &mut Rng, _: usize, tally: &mut Tally) {
    for _ in 0..50 {
        for sheet in small_sheets(rng) {
            let mut all = sheet.clone();
            for at in returns(&sheet).into_iter().rev() {
                compare_small(tally, put_in(&sheet, at, b"\r"));
                compare_small(tally, put_in(&sheet, at, b"\r\r"));
                all.insert(at, b'\r');
            }
            compare_small(tally, all);
        }
    }
}

/// What no line ends in, though it is like an end.
const WRONG_ENDS: [&[u8]; 14] = [
    b"",
    b"\r",
    b"\n\r",
    b"\r\r",
    b"\r\r\n",
    b"\r\n\r",
    b"\n\n",
    b"\n\r\n",
    b"\r\n\n",
    b"\r\n\r\n",
    b" \r\n",
    b"\r \n",
    b"\r0\n",
    b"\x0b\n",
];

/// Each line with a wrong end, then all lines with it.
fn wrong_ends(rng: &mut Rng, _: usize, tally: &mut Tally) {
    for _ in 0..10 {
        for sheet in small_sheets(rng) {
            let lines: Vec<&[u8]> = sheet.split_inclusive(|&byte| byte == b'\n').collect();
            let content = |line: &[u8]| -> Vec<u8> {
                let ends = |byte: &u8| *byte == b'\r' || *byte == b'\n';
                line.iter()
                    .copied()
                    .take_while(|byte| !ends(byte))
                    .collect()
            };
            for end in WRONG_ENDS {
                for changed in 0..lines.len() {
                    let mut text = lines[..changed].concat();
                    text.extend(content(lines[changed]));
                    text.extend(end);
                    text.extend(lines[changed + 1..].concat());
                    compare_small(tally, text);
                }
                let all = lines.iter().map(|line| [&content(line)[..], end].concat());
                compare_small(tally, all.collect::<Vec<_>>().concat());
            }
        }
    }
}

fn cut_short(rng: &mut Rng, _: usize, tally: &mut Tally) {
    for _ in 0..25 {
        for sheet in small_sheets(rng) {
            for length in 0..=sheet.len() {
                compare_small(tally, sheet[..length].to_vec());
            }
        }
    }
}

const LAST_PARTS: usize = 9;

/// What stands at one of the last places instead of its byte, or ahead of it.
const LAST_BYTES: &[u8] = b"\0\t\n\r 019:/x\xff";

/// The least job of so many digits.
const LEAST: [usize; 4] = [0, 0, 10, 100];

/// Sheets with a last line of each length, one byte changed at each of the last
/// places. Those with line ends of one kind have all lines alike.
fn last_bytes(rng: &mut Rng, part: usize, tally: &mut Tally) {
    let digits = (part / 3 + 1, part % 3 + 1);
    for ahead in [0, 1, 3, 30] {
        let alike = vec![digits; ahead + 1];
        let mut any = alike.clone();
        any[..ahead].fill_with(|| (rng.from(1, 3), rng.from(1, 3)));
        let alike = sheet_of_digits(rng, &alike);
        let any = sheet_of_digits(rng, &any);
        let [without, with, _] = each_end(rng, &alike);
        let [_, _, mixed] = each_end(rng, &any);
        for sheet in [without, with, mixed] {
            changed_at_the_end(tally, &sheet);
        }
    }
    // An hours line is the last one, or the count line.
    let count = LEAST[digits.1] + 9;
    let mut hours = hours_within(rng, count);
    hours[count - 1] = rng.from([0, 10, 1000][part / 3], [9, 999, 9999][part / 3]) as u16;
    for text in [sheet(count, &hours, &[]), sheet(count, &[], &[])] {
        for sheet in each_end(rng, &text) {
            changed_at_the_end(tally, &sheet);
        }
    }
}

/// A sheet with an order for each entry, its jobs of so many digits. The last
/// order is none of those ahead.
fn sheet_of_digits(rng: &mut Rng, digits: &[(usize, usize)]) -> Vec<u8> {
    let order =
        |(i, &(u, v)): (usize, &(usize, usize))| (LEAST[u] + i % 4, LEAST[v] + 4 + i / 8 % 4);
    let mut orders: Orders = digits.iter().enumerate().map(order).collect();
    let (u, v) = digits[digits.len() - 1];
    *orders.last_mut().unwrap() = (LEAST[u] + rng.below(4), LEAST[v] + 8);
    let most = digits.iter().map(|&(u, v)| u.max(v)).max().unwrap();
    let count = LEAST[most] + 9;
    sheet(count, &hours_within(rng, count), &orders)
}

/// At each of the last 20 places and at the end, the sheet cut off, a byte put
/// in, taken out and replaced.
fn changed_at_the_end(tally: &mut Tally, sheet: &[u8]) {
    let mut compare = |sheet| tally.compare(&Input::Sheet(sheet), ENOUGH.0, 80);
    for at in sheet.len().saturating_sub(20)..=sheet.len() {
        compare(sheet[..at].to_vec());
        for &byte in LAST_BYTES {
            compare(put_in(sheet, at, &[byte]));
        }
        if at < sheet.len() {
            let mut changed = sheet.to_vec();
            for &byte in LAST_BYTES {
                changed[at] = byte;
                compare(changed.clone());
            }
            changed.remove(at);
            compare(changed);
        }
    }
}

const TEXT_PARTS: usize = 10;

/// Every text of a few letters, from the start of a sheet and further on.
fn every_text(_: &mut Rng, part: usize, tally: &mut Tally) {
    let letters = b"01 \r\n";
    for (ahead, most) in [
        (&b""[..], 6),
        (b"1\r\n", 6),
        (b"2\n0\n", 6),
        (b"0\r\n", 6),
        (b"2\r\n100", 5),
        (b"3\n0\n0\r\n0\n0 1", 5),
    ] {
        for length in 0..=most {
            for choice in (part..letters.len().pow(length)).step_by(TEXT_PARTS) {
                let mut choice = choice;
                let mut text = ahead.to_vec();
                for _ in 0..length {
                    text.push(letters[choice % letters.len()]);
                    choice /= letters.len();
                }
                compare_small(tally, text);
            }
        }
    }
}

/// Every length of each area from 0 to more than enough; for small orders
/// every pair of lengths.
fn every_area(rng: &mut Rng, part: usize, tally: &mut Tally) {
    for round in 0..12 {
        let large = part == 0 && round == 0;
        let count = if large {
            rng.from(40, 64)
        } else {
            rng.from(1, 7)
        };
        let orders = series_parallel(rng, count);
        let hours = hours_within(rng, count);
        let as_sheet = as_sheet(count, &hours, &orders);
        let as_pairs = as_pairs(count, &hours, &orders);
        let outcome = as_sheet.second(ENOUGH.0, ENOUGH.1);
        let (record, reduced) = (outcome.record.len(), outcome.reduced.len());
        for input in [as_sheet, as_pairs] {
            if (record + 2) * (reduced + 2) <= 200 {
                for record_area in 0..record + 2 {
                    for reduced_area in 0..reduced + 2 {
                        tally.compare(&input, record_area, reduced_area);
                    }
                }
                continue;
            }
            for record_area in 0..record + 2 {
                tally.compare(&input, record_area, reduced);
            }
            for reduced_area in 0..reduced + 2 {
                tally.compare(&input, record, reduced_area);
                tally.compare(&input, record.saturating_sub(1), reduced_area);
            }
        }
        let input = Input::Record(outcome.record);
        for reduced_area in 0..reduced + 2 {
            tally.compare(&input, 0, reduced_area);
        }
    }
}

const RELATION_PARTS: usize = 16;

/// Every relation on up to 4 jobs as a pair list; on up to 3 jobs as a sheet
/// too, and as a list with a smaller and a larger count.
fn every_relation(rng: &mut Rng, part: usize, tally: &mut Tally) {
    for count in 1..=4 {
        for relation in (part..1 << (count * count)).step_by(RELATION_PARTS) {
            let chosen = (0..count * count).filter(|i| relation >> i & 1 == 1);
            let orders: Orders = chosen.map(|i| (i / count, i % count)).collect();
            let hours = hours_within(rng, count);
            let input = as_pairs(count, &hours, &orders);
            let areas = if relation % 8 == 0 {
                some_areas(rng)
            } else {
                (15, 24)
            };
            let outcome = tally.compare(&input, areas.0, areas.1);
            if count < 4 {
                tally.read_back(&outcome);
                tally.compare_enough(&as_sheet(count, &hours, &orders));
                for other in [count - 1, 5] {
                    let hours = hours_within(rng, other);
                    tally.compare_enough(&as_pairs(other, &hours, &orders));
                }
            }
        }
    }
}

const ORDER_PARTS: usize = 16;

/// Every circle-free order on up to 6 jobs, by all relations that go along one
/// ranking of the jobs; the numbering is drawn for each.
fn every_order(rng: &mut Rng, part: usize, tally: &mut Tally) {
    for count in 1..=6 {
        let along: Orders = (0..count)
            .flat_map(|v| (0..v).map(move |u| (u, v)))
            .collect();
        for relation in (part..1 << along.len()).step_by(ORDER_PARTS) {
            let mut jobs: Vec<usize> = (0..count).collect();
            rng.shuffle(&mut jobs);
            let chosen = (0..along.len()).filter(|i| relation >> i & 1 == 1);
            let mut orders: Orders = chosen
                .map(|i| (jobs[along[i].0], jobs[along[i].1]))
                .collect();
            rng.shuffle(&mut orders);
            let hours = hours_within(rng, count);
            tally.compare(&as_sheet(count, &hours, &orders), 22, 18);
        }
    }
}

fn short_byte_strings(_: &mut Rng, _: usize, tally: &mut Tally) {
    tally.compare(&Input::Record(Vec::new()), 0, 8);
    for first in 0..=255 {
        tally.compare(&Input::Record(vec![first]), 0, 8);
        for second in 0..=255 {
            tally.compare(&Input::Record(vec![first, second]), 0, 8);
        }
    }
    // The same bytes as a sheet, the digits' neighbours among them.
    tally.compare_enough(&Input::Sheet(Vec::new()));
    for first in 0..=255 {
        tally.compare_enough(&Input::Sheet(vec![first]));
        for second in [b'\n', b' ', b'/', b'0', b'9', b':', b'\r', 0, 255] {
            tally.compare_enough(&Input::Sheet(vec![first, second]));
            for ahead in [&b"2\n"[..], b"2\n0\n0\n"] {
                let text = [ahead, &[first, second]].concat();
                tally.compare_enough(&Input::Sheet(text));
            }
        }
        // The byte ahead of a carriage return and after one, at each place of a
        // line.
        for ahead in [
            &b""[..],
            b"2",
            b"2\n",
            b"2\r\n",
            b"2\n0",
            b"2\n0\n",
            b"2\n0\n4095",
            b"2\n0\n0\r\n",
            b"2\n0\n0\n0",
            b"2\n0\n0\n0 ",
            b"2\n0\n0\n0 1",
        ] {
            for after in [&b""[..], b"\n", b"0\n0 1\r\n"] {
                for middle in [vec![first, b'\r'], vec![b'\r', first]] {
                    compare_small(tally, [ahead, &middle, after].concat());
                }
            }
        }
    }
}

/// Every valid record of up to 4 jobs with all its one-bit neighbours, and with
/// hours of fewer bits and of more.
fn small_records(rng: &mut Rng, _: usize, tally: &mut Tally) {
    let mut records = BTreeSet::new();
    for count in 1..=4 {
        for relation in 0..1 << (count * count) {
            let chosen = (0..count * count).filter(|i| relation >> i & 1 == 1);
            let orders: Orders = chosen.map(|i| (i / count, i % count)).collect();
            let hours = [4095, 0, 0x555, 1];
            let outcome = as_pairs(count, &hours[..count], &orders).second(15, 8);
            if outcome.number == 0 {
                records.insert(outcome.record);
            }
        }
    }
    for record in records {
        tally.compare(&Input::Record(record.clone()), 0, 12);
        for at in 0..8 * record.len() {
            tally.compare(&Input::Record(flip(&record, at)), 0, 12);
        }
        for width in 0..=16 {
            compare_record(rng, tally, with_hours_of(&record, width));
        }
    }
}

const LONG_COUNTS: [usize; 4] = [128, 127, 120, 999];

/// Bytes of the longest sheet that is accepted with line feeds alone.
const WITHOUT_RETURNS: usize = 4 + 5 * 128 + 8 * MOST_ORDERS;

/// Its lines.
const LINES: usize = 1 + 128 + MOST_ORDERS;

/// As many orders as there may be, of jobs with three digits.
fn long_orders(rng: &mut Rng) -> Orders {
    (0..MOST_ORDERS)
        .map(|_| (rng.from(100, 113), rng.from(114, 127)))
        .collect()
}

/// Hours of four digits.
fn long_hours(rng: &mut Rng, count: usize) -> Vec<u16> {
    (0..count).map(|_| rng.from(1000, 4095) as u16).collect()
}

/// A sheet of so many bytes with that many orders and hours: job 99 for some
/// jobs, each a byte less, and a carriage return for each byte missing.
fn mixed_of_length(rng: &mut Rng, length: usize) -> Vec<u8> {
    let least = WITHOUT_RETURNS.saturating_sub(length);
    let most = (WITHOUT_RETURNS + LINES - length).min(MOST_ORDERS);
    let mut orders = long_orders(rng);
    let fewer = rng.from(least, most);
    orders[..fewer].iter_mut().for_each(|order| order.0 = 99);
    rng.shuffle(&mut orders);
    let text = sheet(128, &long_hours(rng, 128), &orders);
    with_returns(rng, &text, length - text.len())
}

/// A text of so many bytes, in form, with more orders than there may be. The
/// count has one digit, as all hours have.
fn orders_of_length(rng: &mut Rng, count: usize, length: usize) -> Vec<u8> {
    let least = (length - 3 - 3 * count).div_ceil(5);
    let orders = rng.from(least, (length - 2 - 2 * count) / 4);
    let text = sheet(count, &vec![7; count], &vec![(1, 2); orders]);
    with_returns(rng, &text, length - text.len())
}

/// Sheets about as long as the longest, in form and not, and about as long as
/// the longest with line feeds alone.
fn longest_sheets(rng: &mut Rng, part: usize, tally: &mut Tally) {
    let count = LONG_COUNTS[part];
    let hours = long_hours(rng, count);
    let mut longest = long_orders(rng);
    // So many that the sheet is the longest of its count, or a few bytes less.
    longest.truncate((LONGEST_SHEET - 5 - 6 * count) / 9);
    // Job 99 for one of the two, or hours of three digits: a byte less.
    let mut one_less = longest.clone();
    one_less[77].0 = 99;
    let mut less_hours = hours.clone();
    less_hours[77] = 999;
    let more: [&[u8]; 8] = [b"", b"\n", b"\r", b"\r\n", b"1", b" ", b"1 2\n", b"1 2\r\n"];
    for (orders, hours, less) in [
        (&longest, &hours, 0),
        (&one_less, &hours, 1),
        (&longest, &less_hours, 1),
    ] {
        let text = sheet(count, hours, orders);
        let [without, with, _] = each_end(rng, &text);
        if count == 128 {
            assert_eq!(without.len(), WITHOUT_RETURNS - less);
            assert_eq!(with.len(), LONGEST_SHEET - less);
        }
        for sheet in [with, without] {
            for more in more {
                tally.compare_enough(&Input::Sheet([&sheet[..], more].concat()));
                tally.compare_enough(&Input::Sheet([more, &sheet[..]].concat()));
            }
            for length in sheet.len() - 9..sheet.len() {
                tally.compare_enough(&Input::Sheet(sheet[..length].to_vec()));
            }
            for _ in 0..6 {
                let mut edited = sheet.clone();
                edit(rng, &mut edited);
                tally.compare_enough(&Input::Sheet(edited));
            }
        }
        // One line or some with the other end.
        let lines = lines(&text);
        for returns in [1, 2, 2048, lines - 2, lines - 1] {
            tally.compare_enough(&Input::Sheet(with_returns(rng, &text, returns)));
        }
    }
    if part == 0 {
        exact_lengths(rng, tally);
    }
}

/// Texts of lengths about the two, about those that were the longest, and of
/// some others.
fn exact_lengths(rng: &mut Rng, tally: &mut Tally) {
    let about = |length: usize| [length - 1, length, length + 1, length + 2];
    let mut lengths = [WITHOUT_RETURNS, LONGEST_SHEET, 32_772, 36_869]
        .map(about)
        .concat();
    for &length in &lengths {
        if length <= LONGEST_SHEET {
            for _ in 0..3 {
                tally.compare_enough(&Input::Sheet(mixed_of_length(rng, length)));
            }
        }
        for count in [0, 9] {
            tally.compare_enough(&Input::Sheet(orders_of_length(rng, count, length)));
        }
        // Broken somewhere, too long or not.
        for _ in 0..6 {
            let mut broken = orders_of_length(rng, 9, length);
            let at = rng.below(length);
            broken[at] = rng.pick(b"\r\r\n 0x");
            tally.compare_enough(&Input::Sheet(broken));
        }
    }
    lengths.extend([40_000, 65_535, 65_536, 65_537, 70_000, 200_000]);
    for length in lengths {
        for byte in [b'\n', b'\r', b'0', b'1', b'x', 0] {
            tally.compare_enough(&Input::Sheet(vec![byte; length]));
        }
        // In form, as far as it goes.
        for order in [&b"1 2\n"[..], b"1 2\r\n"] {
            let mut text = sheet(9, &[0; 9], &[]);
            while text.len() < length {
                text.extend(order);
            }
            text.truncate(length);
            tally.compare_enough(&Input::Sheet(text));
        }
    }
    // More orders than a pair list's 16 bits could number, and more hours.
    for orders in [4096, 4097, 32_768, 32_769, 65_536, 65_537, 70_000] {
        for hours in [3, 2, 4, orders, 65_536 + 3] {
            let hours = vec![0; hours];
            tally.compare_enough(&Input::Pairs(3, [0, 1].repeat(orders), hours.clone()));
            tally.compare_enough(&Input::Pairs(3, [9, 9].repeat(orders), hours));
        }
    }
}

fn paper_cases(_: &mut Rng, _: usize, tally: &mut Tally) {
    for case in cases::cases() {
        match case.input {
            cases::Input::Sheet(sheet) => {
                tally.compare_enough(&Input::Sheet(sheet.clone()));
                tally.compare(&Input::Sheet(sheet.clone()), 0, 0);
                if let Ok(read) = second::sheet::read(&sheet) {
                    let hours: Vec<u16> = read.hours.iter().map(|&h| h as u16).collect();
                    tally.compare_enough(&as_pairs(read.count, &hours, &read.orders));
                }
            }
            cases::Input::Pairs { count, list, hours } => {
                tally.compare_enough(&Input::Pairs(count, list.clone(), hours.clone()));
                tally.compare(&Input::Pairs(count, list, hours), 0, 0);
            }
            cases::Input::Record(record) => {
                tally.compare_enough(&Input::Record(record));
            }
        }
    }
}

/// Counts and the hours lines after them: none, too few, as many as the count
/// says, too many.
const LINE_COUNTS: [usize; 9] = [0, 1, 2, 5, 127, 128, 129, 130, 999];

fn counted_hours_lines(rng: &mut Rng, part: usize, tally: &mut Tally) {
    let count = LINE_COUNTS[part];
    let mut lines = BTreeSet::from([0, 1, 127, 128, 129, 998, 999, 1000]);
    lines.extend([count.saturating_sub(1), count, count + 1, count + 2]);
    lines.retain(|&lines| lines <= count + 130);
    for &lines in &lines {
        for tail in [&[][..], &[(0, 1)], &[(0, 1), (1, 0)]] {
            for _ in 0..2 {
                let hours = hours(rng, lines);
                for sheet in each_end(rng, &sheet(count, &hours, tail)) {
                    tally.compare_enough(&Input::Sheet(sheet.clone()));
                    let mut broken = sheet;
                    edit(rng, &mut broken);
                    tally.compare_enough(&Input::Sheet(broken));
                }
            }
        }
    }
}

/// Lines and what is like them, with a stroke between: counts, hours, orders, and
/// numbers of a form that some of these may not have.
const LINE_TEXTS: &str = "\
    / /0/1/2/9/10/99/100/128/129/999/1000/1001/4094/4095/4096/4097/8191/8192/9999/\
    10000/40950/65536/69631/99999/4294967296/00/01/000/0000/0001/04095/09/ 0/0 /0 0/0 1/1 0/\
    1  0/1 2 0/0 999/999 999/0 1000/1000 0/4095 0/0 4095/0 00/00 0/1 01/-1/+1/1.5/x/4095x/\
    \t1/1e3/1 x";

/// Each line of a small sheet replaced by such a text, with it put in ahead, and
/// left out.
fn other_lines(rng: &mut Rng, part: usize, tally: &mut Tally) {
    for _ in 0..2 {
        let sheet = &small_sheets(rng)[part % 3];
        let lines: Vec<&[u8]> = sheet.split_inclusive(|&byte| byte == b'\n').collect();
        for at in 0..lines.len() {
            let (ahead, after) = (lines[..at].concat(), lines[at + 1..].concat());
            compare_small(tally, [&ahead[..], &after].concat());
            let end = rng.pick(&["\n", "\r\n"]);
            for text in LINE_TEXTS.split('/') {
                let line = format!("{text}{end}").into_bytes();
                compare_small(tally, [&ahead, &line, lines[at], &after].concat());
                compare_small(tally, [&ahead, &line, &after[..]].concat());
            }
        }
        // Two lines exchanged.
        for at in 1..lines.len() {
            let mut lines = lines.clone();
            lines.swap(at - 1, at);
            compare_small(tally, lines.concat());
        }
    }
}

/// Sheets of one to three jobs with every mixture of line ends, cut after every
/// byte.
fn cut_hours_lines(rng: &mut Rng, _: usize, tally: &mut Tally) {
    for count in [1, 1, 2, 2, 3] {
        let digits = |rng: &mut Rng| rng.pick(&[0, 10, 100, 1000, 4095, 9999]) as u16;
        let hours: Vec<u16> = (0..count).map(|_| digits(rng)).collect();
        let orders = &[(0, 1)][..rng.below(2)];
        let text = sheet(count, &hours, orders);
        let lines: Vec<&[u8]> = text.split(|&byte| byte == b'\n').collect();
        let lines = &lines[..lines.len() - 1];
        for mixture in 0..1 << lines.len() {
            let mut mixed = Vec::new();
            for (i, line) in lines.iter().enumerate() {
                let end: &[u8] = if mixture >> i & 1 == 1 {
                    b"\r\n"
                } else {
                    b"\n"
                };
                mixed.extend([line, end].concat());
            }
            for length in 0..=mixed.len() {
                compare_small(tally, mixed[..length].to_vec());
            }
        }
    }
}

const LIST_COUNTS: [usize; 5] = [0, 1, 5, 128, 129];

/// Hours lists of every length from 0 to 140 and of some that have the count as
/// their last bits, alone and beside each other refusal that is tested near 12:
/// what is tested first has to be given.
fn hours_lists(rng: &mut Rng, part: usize, tally: &mut Tally) {
    let count = LIST_COUNTS[part];
    let lists: [Vec<u16>; 6] = [
        Vec::new(),
        vec![0, 1, 0, 1],
        vec![0, 1, count as u16, 0],
        vec![0, 0],
        vec![0, 1, 0],
        vec![500; 2 * MOST_ORDERS + 2],
    ];
    for length in (0..=140).chain([256 + count, 65_536 + count]) {
        let within = hours_within(rng, length);
        let mut above = within.clone();
        if length > 0 {
            let any = rng.below(length);
            let job = rng.pick(&[0, length - 1, any]);
            above[job] = rng.pick(&[4096, 9999, 65_535]);
        }
        for hours in [within, above] {
            for list in &lists {
                let areas = rng.pick(&[ENOUGH, (0, 0)]);
                let input = Input::Pairs(count as u16, list.clone(), hours.clone());
                tally.compare(&input, areas.0, areas.1);
            }
        }
    }
}

/// Hours above 4,095 of the first, the last, some and all jobs, alone and beside
/// each other refusal; hours of 4,095 in the same places.
fn hours_above(rng: &mut Rng, _: usize, tally: &mut Tally) {
    for _ in 0..50 {
        let count = job_count(rng);
        let mut orders = series_parallel(rng, count);
        let job = rng.below(count);
        match rng.below(8) {
            0 => orders.insert(0, (job, rng.from(count, 999))),
            1 => orders.push((job, job)),
            2 => orders = any_graph(rng, count),
            3 => orders.resize(rng.from(4095, 4098), (job, count)),
            _ => {}
        }
        let stated = match rng.below(20) {
            0 => rng.pick(&[0, 129, 999]),
            _ => count,
        };
        let mut hours = hours_within(rng, stated);
        for above in [4095, 4096, rng.from(4097, 9999) as u16, 9999] {
            let last = stated.saturating_sub(1);
            let most = rng.below(stated + 1);
            let which = [vec![0], vec![last], vec![0, last], (0..most).collect()];
            let which = &which[rng.below(4)];
            which.iter().for_each(|&job| {
                if job < stated {
                    hours[job] = above;
                }
            });
            let (record_area, reduced_area) = some_areas(rng);
            tally.compare(
                &as_sheet(stated, &hours, &orders),
                record_area,
                reduced_area,
            );
            tally.compare(
                &as_pairs(stated, &hours, &orders),
                record_area,
                reduced_area,
            );
            if stated > 0 {
                // Numbers that no sheet has; 0 and 4,095 are their last bits.
                let wide = rng.pick(&[8192, 12_287, 32_768, 36_863, 61_440, 65_535]);
                let at = rng.below(stated);
                let mut hours = hours.clone();
                hours[at] = wide;
                tally.compare(
                    &as_pairs(stated, &hours, &orders),
                    record_area,
                    reduced_area,
                );
            }
            hours = hours_within(rng, stated);
        }
    }
}

const PATTERN_PARTS: usize = 8;

/// Hours of every bit pattern on the one leaf there is, and on some leaf among
/// others.
fn every_hours(rng: &mut Rng, part: usize, tally: &mut Tally) {
    for pattern in (part..4096).step_by(PATTERN_PARTS) {
        let alone = tally.compare(&as_pairs(1, &[pattern as u16], &vec![]), 4, 0);
        tally.compare(&Input::Record(alone.record), 0, 0);
        let count = rng.from(2, 9);
        let orders = series_parallel(rng, count);
        let mut hours = hours_within(rng, count);
        hours[rng.below(count)] = pattern as u16;
        let outcome = tally.compare(&as_sheet(count, &hours, &orders), 40, 60);
        tally.compare(&Input::Record(outcome.record), 0, 60);
    }
}

const FLIP_PARTS: usize = 16;

/// Every bit flipped, of the longest record and of others; a byte more, a byte
/// less, and hours of fewer bits and of more.
fn every_bit(rng: &mut Rng, part: usize, tally: &mut Tally) {
    let longest = nested_record(&mut Rng::new(SEED), 127);
    assert_eq!(longest.len(), LONGEST_RECORD);
    for at in (part..8 * longest.len()).step_by(FLIP_PARTS) {
        tally.compare(&Input::Record(flip(&longest, at)), 0, 254);
    }
    let count = rng.from(10, 40);
    for record in [record_of(rng, count), record_of(rng, 128), longest] {
        tally.compare(&Input::Record(record.clone()), 0, ENOUGH.1);
        if record.len() < 120 {
            for at in 0..8 * record.len() {
                tally.compare(&Input::Record(flip(&record, at)), 0, ENOUGH.1);
            }
        }
        for more in [0, 1, 0x80, rng.below(256)] {
            let longer = [&record[..], &[more as u8]].concat();
            tally.compare(&Input::Record(longer), 0, ENOUGH.1);
        }
        compare_record(rng, tally, record[..record.len() - 1].to_vec());
        for width in 0..=16 {
            compare_record(rng, tally, with_hours_of(&record, width));
        }
    }
}

/// Inputs that differ in hours alone, none of them above 4,095, get the same
/// number, places, reduced orders and sequences.
fn hours_alone(rng: &mut Rng, _: usize, tally: &mut Tally) {
    for _ in 0..60 {
        let count = job_count(rng);
        let mut orders = if rng.percent(70) {
            series_parallel(rng, count)
        } else {
            any_graph(rng, count)
        };
        if rng.percent(10) {
            orders.push((rng.below(count), rng.below(count + 1)));
        }
        let (record_area, reduced_area) = some_areas(rng);
        let mut outcomes = Vec::new();
        for hours in [
            vec![0; count],
            vec![4095; count],
            hours_within(rng, count),
            (0..count).map(|_| rng.below(4096) as u16).collect(),
        ] {
            for input in [
                as_sheet(count, &hours, &orders),
                as_pairs(count, &hours, &orders),
            ] {
                let mut outcome = tally.compare(&input, record_area, reduced_area);
                if outcome.number == 0 {
                    let record = Input::Record(outcome.record.clone());
                    let back = tally.compare(&record, 0, reduced_area);
                    assert!(
                        back.hours[..count] == hours && back.hours[count..] == [0; 128][count..],
                        "second itself reads back other hours"
                    );
                }
                outcome.record.clear();
                outcome.hours = [0; 128];
                outcomes.push(outcome);
            }
        }
        assert!(
            outcomes.iter().all(|outcome| *outcome == outcomes[0]),
            "second itself heeds hours"
        );
    }
}
