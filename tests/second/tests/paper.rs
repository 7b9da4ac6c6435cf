//! What document 01 and requests A.1 to A.8 say of single sheets, lists and
//! records.

use second::cases::{cases, sheet, widest, zeros, Input};
use second::record::lay_out;
use second::tree::Tree;
use second::{
    analyse_pairs, analyse_sheet, gangs, joins, longest_run, packed, preview, printed, read_record,
    reason, reason_of, GangPlan, LongestRun, Outcome, Reason, LONGEST_RECORD, LONGEST_SHEET,
    MOST_ORDERS,
};

const ENOUGH: (usize, usize) = (464, 8192);

fn analysed(shown: &str) -> Outcome {
    analyse_sheet(&sheet(shown), ENOUGH.0, ENOUGH.1)
}

/// The same with an hours line of 0 for each job put in.
fn zero_analysed(shown: &str) -> Outcome {
    analysed(&zeros(shown))
}

fn listed(count: u16, list: &[u16], hours: &[u16]) -> Outcome {
    analyse_pairs(count, list, hours, ENOUGH.0, ENOUGH.1)
}

fn refused(outcome: &Outcome, number: u64, places: [u64; 4]) {
    assert_eq!((outcome.number, outcome.places), (number, places));
    assert!(outcome.record.is_empty() && outcome.reduced.is_empty());
    assert_eq!((outcome.forward, outcome.reverse), ([0; 128], [0; 128]));
    assert_eq!(outcome.hours, [0; 128]);
}

/// Refusals 2, each at its place.
fn broken(places: &[(&str, u64)]) {
    for &(shown, place) in places {
        refused(&analysed(shown), 2, [place, 0, 0, 0]);
    }
}

/// The same with an hours line of 0 for each job put in after the count line,
/// ahead of the place.
fn zero_broken(places: &[(&str, u64)]) {
    for &(shown, place) in places {
        let with_hours = zeros(shown);
        let put_in = (with_hours.len() - shown.len()) as u64;
        broken(&[(&with_hours, place + put_in)]);
    }
}

#[test]
fn every_case() {
    assert_eq!(cases().iter().filter(|case| case.starred).count(), 12);
    for case in cases() {
        assert!(case.holds(), "{}: {}", case.shown, case.answer());
    }
}

#[test]
fn the_printed_sample_to_the_byte() {
    let text = "accepted 17 4 3\nrecord 0981810000060404000080000c00010000\n\
                0 1\n0 2\n1 3\n2 3\nforward 0 1 2 3 4\nreverse 4 0 2 1 3\n";
    let sample = sheet("5/0/0/0/0/0/0 1/0 2/1 3/2 3/0 3/");
    assert_eq!(printed(&sample), text.as_bytes());
    let crossed = sheet("4/1/2/3/4/0 2/1 2/1 3/");
    assert_eq!(printed(&crossed), b"refused 8 0 1 2 3\n");
}

#[test]
fn records_of_accepted_cases_read_back() {
    for shown in [
        &zeros("5/0 1/0 2/1 3/2 3/0 3/"),
        "5/8/40/4095/1/0/0 1/0 2/1 3/2 3/0 3/",
        &zeros("128/"),
        &("128/".to_string() + &"4095/".repeat(128)),
        "1/0/",
        "1/4095/",
        "2/1/4095/1 0/",
        "2/2048/7/",
        "3/1/2/3/2 0/",
        &widest(),
    ] {
        let outcome = analysed(shown);
        assert_eq!(outcome.number, 0);
        let back = read_record(&outcome.record, ENOUGH.1);
        assert_eq!(
            back,
            Outcome {
                record: Vec::new(),
                ..outcome
            }
        );
    }
}

#[test]
fn seen_orders_that_are_no_n() {
    let outcome = zero_analysed("5/0 2/1 2/1 3/0 4/4 3/1 4/");
    assert_eq!(outcome.reduced, [0, 2, 0, 4, 1, 2, 1, 4, 4, 3]);
    assert_eq!(outcome.forward[..5], [0, 1, 4, 3, 2]);
    assert_eq!(outcome.reverse[..5], [1, 0, 2, 4, 3]);
}

/// The longest sheet with these line ends: 128 jobs, hours of four digits, as
/// many orders as there may be but some left out.
fn long(end: &str, orders_left_out: usize) -> String {
    format!("128{end}")
        + &format!("4095{end}").repeat(128)
        + &format!("126 127{end}").repeat(MOST_ORDERS - orders_left_out)
}

#[test]
fn sheet_length() {
    assert_eq!(LONGEST_SHEET, 37_637);
    let longest = long("</", 0);
    assert_eq!(longest.len(), LONGEST_SHEET);
    assert_eq!(analysed(&longest).number, 0);
    assert_eq!(analysed(&longest.replacen("126", "12", 1)).number, 0);
    for more in ["x", "<", "/", "</", "1 2/"] {
        let too_long = longest.clone() + more;
        refused(&analysed(&too_long), 1, [0; 4]);
        assert_eq!(printed(&sheet(&too_long)), b"refused 1 0 0 0 0\n");
    }
    // Broken and too long, then broken and as long as the longest.
    refused(&analysed(&"<".repeat(LONGEST_SHEET + 1)), 1, [0; 4]);
    refused(&analysed(&"<".repeat(LONGEST_SHEET)), 2, [0; 4]);
    refused(&analysed(&("128</".to_string() + &longest)), 1, [0; 4]);

    let last = LONGEST_SHEET as u64;
    let all_but_one = long("</", 1);
    for (count, order, place) in [
        ("128</", "126 127<", last - 1),
        ("128</", "126 1271/", last - 2),
        ("128</", "126 127<<", last - 1),
        ("128</", "126 127< ", last - 1),
        ("128/", "126 127</1", last),
        ("128/", "126 127</<", last - 1),
    ] {
        let shown = all_but_one.replacen("128</", count, 1) + order;
        refused(&analysed(&shown), 2, [place, 0, 0, 0]);
    }
    // Longer for other counts, though no sheet of them is accepted.
    let hours = "999</".to_string() + &"9999</".repeat(999);
    let orders = (LONGEST_SHEET - hours.len()) / 9;
    let shown = hours.clone() + &"126 127</".repeat(orders);
    refused(&analysed(&shown), 3, [0; 4]);
    refused(&analysed(&(shown + "126 127</")), 1, [0; 4]);
}

/// The longest sheet with line feeds alone, and with some carriage returns.
#[test]
fn shorter_line_ends() {
    let shown = long("/", 0);
    assert_eq!(shown.len(), 33_412);
    let outcome = analysed(&shown);
    assert_eq!(outcome.number, 0);
    for carriage_returns in [1, 2, 128, 129, 130, MOST_ORDERS, MOST_ORDERS + 129] {
        let shown = shown.replacen('/', "</", carriage_returns);
        assert_eq!(shown.len(), 33_412 + carriage_returns);
        assert_eq!(analysed(&shown), outcome);
    }
    for (more, place) in [("1", 33_413), ("<", 33_412), ("/", 33_412), ("x", 33_412)] {
        refused(&analysed(&(shown.clone() + more)), 2, [place, 0, 0, 0]);
    }
    refused(&analysed(&(shown + "1 2/")), 4, [0; 4]);
}

#[test]
fn line_form() {
    broken(&[
        ("/", 0),
        ("-1/", 0),
        ("1234/", 3),
        ("00/", 1),
        ("5 /", 1),
        ("5 1/", 1),
        ("0/x", 2),
    ]);
    zero_broken(&[
        ("5//", 2),
        ("5/ 0 1/", 2),
        ("5/0/", 3),
        ("5/0 /", 4),
        ("5/0  1/", 4),
        ("5/0 1 /", 5),
        ("5/0 1 2/", 5),
        ("5/0 01/", 5),
        ("5/0 1000/", 7),
        ("5/1000 0/", 5),
        ("5/0 1/2 3", 9),
        ("5/0 1/2", 7),
        ("5/0 1/2 ", 8),
        ("5/0\t1/", 3),
        ("999/9 x", 6),
    ]);
    refused(&zero_analysed("999/999 999/"), 3, [0; 4]);
    refused(&zero_analysed("128/127 128/"), 5, [0; 4]);
}

#[test]
fn hours_lines() {
    broken(&[
        ("5/", 2),
        ("5//", 2),
        ("5/ ", 2),
        ("5/x", 2),
        ("5/-1/", 2),
        ("5/0", 3),
        ("5/0 ", 3),
        ("5/0x", 3),
        ("5/0/", 4),
        ("5/0//", 4),
        ("5/0 1/", 3),
        ("5/00/", 3),
        ("5/01/", 3),
        ("5/0000/", 3),
        ("5/12345/", 6),
        ("5/99999/", 6),
        ("5/9999 /", 6),
        ("5/9999x", 6),
        ("5/1/2/3/4/", 10),
        ("5/1/2/3/4/5", 11),
        ("5/1/2/3/4/0 1/", 11),
        ("5/1/2/3/4/5/6/", 13),
        ("5/1/2/3/4/5/1234/", 15),
        ("5/1/2/3/4/5/0 1/6/", 17),
        ("0/0/", 3),
        ("0//", 2),
        ("1/4095/0/", 8),
        ("129/0 1/", 5),
        ("999/", 4),
    ]);
    for count in [0, 1, 5, 127, 128, 129, 999] {
        let too_few = format!("{count}/") + &"7/".repeat(count - count.min(1));
        let enough = zeros(&format!("{count}/"));
        let length = enough.len() as u64;
        if count > 0 {
            broken(&[
                (&too_few, length - 2),
                (&(too_few.clone() + "0 1/"), length - 1),
            ]);
        }
        broken(&[(&(enough.clone() + "0/"), length + 1)]);
        broken(&[(&(enough.clone() + "0 0"), length + 3)]);
        let outcome = analysed(&(enough + "0 1/"));
        let number = match count {
            0 | 129 | 999 => 3,
            1 => 5,
            _ => 0,
        };
        assert_eq!(outcome.number, number);
    }
}

#[test]
fn hours_above_the_most() {
    for (shown, job) in [
        ("1/4096/", 0),
        ("1/9999/", 0),
        ("3/4095/4096/0/", 1),
        ("3/4095/4095/5000/", 2),
        ("3/4096/9999/4097/", 0),
        ("2/0/4096/0 2/", 1),
        ("2/0/4096</0 0/", 1),
        ("2/0/4096/0 1/1 0/", 1),
    ] {
        refused(&analysed(shown), 13, [job, 0, 0, 0]);
    }
    assert_eq!(analysed("3/4095/4095/4095/").number, 0);
    refused(&analysed("0/"), 3, [0; 4]);
    let off = |count: usize| format!("{count}/") + &"9999/".repeat(count);
    refused(&analysed(&off(129)), 3, [0; 4]);
    refused(&analysed(&off(999)), 3, [0; 4]);
    refused(&analysed(&(off(2) + &"5 5/".repeat(4097))), 4, [0; 4]);
    refused(&analyse_sheet(&sheet(&off(2)), 0, 0), 13, [0; 4]);
    let last = "128/".to_string() + &"4095/".repeat(127) + "4096/";
    refused(&analysed(&last), 13, [127, 0, 0, 0]);
}

/// Number, places, reduced orders and sequences are the same for any hours.
#[test]
fn nothing_else_depends_on_hours() {
    for orders in [
        "",
        "0 1/1 2/",
        "0 2/1 2/1 3/",
        "0 1/1 0/",
        "3 0/3 1/0 2/1 2/",
        "9 9/",
    ] {
        let expected = zero_analysed(&("4/".to_string() + orders));
        for hours in ["1/2/3/4/", "4095/0/4095/0/", "4095/4095/4095/4095/"] {
            let outcome = analysed(&format!("4/{hours}{orders}"));
            let same = Outcome {
                record: outcome.record.clone(),
                hours: outcome.hours,
                ..expected.clone()
            };
            assert_eq!(outcome, same);
            assert_eq!(outcome.record == expected.record, outcome.number != 0);
        }
    }
}

#[test]
fn carriage_returns() {
    broken(&[
        ("<", 0),
        ("</", 0),
        ("<5/", 0),
        ("5<", 2),
        ("5<<", 2),
        ("5<</", 2),
        ("5< /", 2),
        ("5<0 1/", 2),
        ("5<x", 2),
        ("0< ", 2),
        ("12<3/", 3),
        ("1234</", 3),
        ("05</", 1),
        ("5 </", 1),
        ("5<0 1<", 2),
        ("0</x", 3),
    ]);
    broken(&[
        ("5/<", 2),
        ("5/</", 2),
        ("5</<", 3),
        ("5</0<", 5),
        ("5</0<<", 5),
        ("5</0</", 6),
        ("5</0<0/", 5),
        ("5</4095<", 8),
        ("5</4095</", 9),
        ("5</40951</", 7),
        ("5/4095</<", 8),
        ("1/40<95/", 5),
        ("1/7</<", 5),
        ("1/7</7</", 6),
    ]);
    zero_broken(&[
        ("5/<", 2),
        ("5/</", 2),
        ("5/<0 1/", 2),
        ("5</</", 3),
        ("5<//", 3),
        ("5/0<", 3),
        ("5/0</", 3),
        ("5/0< 1/", 3),
        ("5/0 </", 4),
        ("5/0 <1/", 4),
        ("5/0 1<", 6),
        ("5/0 1< ", 6),
        ("5/0 1<2/", 6),
        ("5/0 1<</", 6),
        ("5/0 1 </", 5),
        ("5/0 1/<", 6),
        ("5</0 1</<", 8),
        ("5</0 1</2", 9),
        ("5</0 1</2 ", 10),
        ("5</0 1</2 3", 11),
        ("5</0 1</2 3<", 12),
        ("999</9 x</", 7),
    ]);
    refused(&analysed("0</"), 3, [0; 4]);
    refused(&zero_analysed("999</999 999/"), 3, [0; 4]);
    refused(&zero_analysed("2</1 1</0 2/"), 5, [1, 0, 0, 0]);
    refused(&zero_analysed("2/0 1</1 1</"), 6, [1, 0, 0, 0]);
    refused(&zero_analysed("3/1 2</2 1/"), 7, [1, 0, 0, 0]);
    refused(&zero_analysed("4</0 2/1 2</1 3/"), 8, [0, 1, 2, 3]);
    refused(&analysed("2</4096</0</"), 13, [0; 4]);
}

#[test]
fn every_mixture_of_line_ends() {
    for shown in [
        "5/1/20/300/4000/0/0 1/0 2/1 3/2 3/0 3/",
        "3/0/0/0/1 2/2 1/",
        "4/9/8/7/6/0 2/1 2/1 3/",
        "2/4096/0/",
    ] {
        let parts: Vec<&str> = shown.split('/').collect();
        let lines = parts.len() - 1;
        for mixture in 0..1 << lines {
            let line = |i: usize| {
                let end = if mixture >> i & 1 == 1 { "</" } else { "/" };
                parts[i].to_string() + end
            };
            let mixed: String = (0..lines).map(line).collect();
            assert_eq!(analysed(&mixed), analysed(shown), "{mixed}");
        }
    }
}

#[test]
fn checking_order() {
    // Off the list comes ahead of a self order, that ahead of a circle.
    refused(&zero_analysed("3/1 1/0 1/1 0/2 3/"), 5, [3, 0, 0, 0]);
    refused(&zero_analysed("3/0 1/1 0/2 2/1 1/"), 6, [2, 0, 0, 0]);
    refused(&zero_analysed("6/0 2/1 2/1 3/5 4/4 5/"), 7, [4, 0, 0, 0]);
    // A job after a circle is not before itself.
    refused(&zero_analysed("4/3 2/2 3/2 0/1 2/"), 7, [2, 0, 0, 0]);
    refused(
        &zero_analysed(&("129/".to_string() + &"0 0/".repeat(4097))),
        3,
        [0; 4],
    );
    refused(
        &analysed(&("2/9999/0/".to_string() + &"9 9/".repeat(4097))),
        4,
        [0; 4],
    );
    refused(
        &analysed(&("2/1/4096/".to_string() + &"0 1/".repeat(4097) + "x")),
        2,
        [16_397, 0, 0, 0],
    );
    refused(
        &analysed(&("2</1</4096/".to_string() + &"0 1</".repeat(4097) + "<")),
        2,
        [20_496, 0, 0, 0],
    );
}

#[test]
fn areas() {
    let sample = sheet("5/1/2/3/4/5/0 1/0 2/1 3/2 3/0 3/");
    for record_area in 0..20 {
        for reduced_area in 0..10 {
            let outcome = analyse_sheet(&sample, record_area, reduced_area);
            if record_area < 17 {
                refused(&outcome, 9, [0; 4]);
            } else if reduced_area < 8 {
                refused(&outcome, 10, [0; 4]);
            } else {
                assert_eq!((outcome.number, outcome.places), (0, [17, 4, 3, 0]));
                assert_eq!(outcome.record.len(), 17);
                assert_eq!(outcome.reduced, [0, 1, 0, 2, 1, 3, 2, 3]);
            }
        }
    }
    // Refusals tested ahead of 9 come whatever the areas.
    refused(
        &analyse_sheet(&sheet("4/0/0/0/0/0 2/1 2/1 3/"), 0, 0),
        8,
        [0, 1, 2, 3],
    );
    refused(&analyse_pairs(1, &[], &[], 0, 0), 12, [0; 4]);
    let record = [0x03, 0x01, 0x01, 0xff, 0xf0, 0x08, 0x01];
    refused(&read_record(&record, 1), 10, [0; 4]);
    refused(&read_record(&record[..6], 1), 11, [0; 4]);
    let read = read_record(&record, 2);
    assert_eq!(
        (read.number, read.places, read.reduced),
        (0, [7, 1, 1, 0], vec![1, 0])
    );
    assert_eq!(read.hours[..2], [0x801, 4095]);
    assert_eq!(read.hours[2..], [0; 126]);
}

#[test]
fn pair_lists() {
    refused(&analyse_pairs(0, &[7], &[9999], 0, 0), 2, [0; 4]);
    refused(&listed(5, &[0, 1, 2], &[0; 5]), 2, [0; 4]);
    refused(&listed(0, &[], &[]), 3, [0; 4]);
    refused(&listed(u16::MAX, &[], &[]), 3, [0; 4]);
    refused(&listed(129, &[], &[0; 129]), 3, [0; 4]);
    refused(&listed(2, &[1; 8194], &[0; 2]), 4, [0; 4]);
    let hours = [0; 2];
    let list = [0, 1, 1, 1, 65_535, 0];
    refused(&listed(2, &list, &hours), 5, [2, 0, 0, 0]);
    let list = [0, 1, 1, 1, 0, 0];
    refused(&listed(2, &list, &hours), 6, [1, 0, 0, 0]);
    let list = [0, 1, 0, 2, 1, 3, 2, 3, 0, 3];
    assert_eq!(
        listed(5, &list, &[8, 40, 4095, 1, 0]),
        analysed("5/8/40/4095/1/0/0 1/0 2/1 3/2 3/0 3/")
    );
}

#[test]
fn hours_lists() {
    for count in [1, 2, 127, 128] {
        for length in (0..=140).filter(|&length| length != count) {
            refused(&listed(count as u16, &[], &vec![0; length]), 12, [0; 4]);
            // Ahead of 13, 5 and 6, after 4 and 2.
            let hours = vec![4096; length];
            refused(&listed(count as u16, &[500, 500], &hours), 12, [0; 4]);
            refused(&listed(count as u16, &[0; 8194], &hours), 4, [0; 4]);
            refused(&listed(count as u16, &[0; 3], &hours), 2, [0; 4]);
        }
        assert_eq!(listed(count as u16, &[], &vec![4095; count]).number, 0);
        for job in 0..count {
            let mut hours = vec![4095; count];
            hours[job] = 4096;
            let place = [job as u64, 0, 0, 0];
            refused(&listed(count as u16, &[500, 500], &hours), 13, place);
            hours[job..].fill(u16::MAX);
            refused(&listed(count as u16, &[0, 0], &hours), 13, place);
        }
    }
    for count in [0, 129, 256, u16::MAX] {
        refused(&listed(count, &[], &[4096]), 3, [0; 4]);
    }
}

#[test]
fn packing() {
    assert_eq!(packed(8, [0, 1, 2, 3]), 0x0003_0200_0100_0008);
    assert_eq!(packed(0, [464, 4096, 127, 0]), 0x0000_7f10_0001_d000);
    assert_eq!(packed(2, [32_772, 0, 0, 0]), 0x80_0402);
    assert_eq!(packed(2, [37_637, 0, 0, 0]), 0x93_0502);
    assert_eq!(packed(13, [127, 0, 0, 0]), 0x7f0d);
}

/// 127 groups of two, chain and side in turn, all nested: each even job is before all
/// that are above it.
fn deepest() -> String {
    let mut shown = "128/".to_string() + &"4095/".repeat(128);
    for u in (0..127).step_by(2) {
        for v in u + 1..128 {
            shown += &format!("{u} {v}/");
        }
    }
    shown
}

#[test]
fn longest_record() {
    let outcome = analysed(&deepest());
    assert_eq!(LONGEST_RECORD, 464);
    assert_eq!((outcome.number, outcome.places), (0, [464, 127, 127, 0]));
    let mut longer = outcome.record.clone();
    longer.push(0);
    refused(&read_record(&longer, 254), 11, [0; 4]);
    refused(&read_record(&longer[..463], 254), 11, [0; 4]);
    let back = read_record(&outcome.record, 254);
    assert_eq!(
        back,
        Outcome {
            record: Vec::new(),
            ..outcome
        }
    );
}

/// Each job's hours stand on its leaf, the most significant bit first.
#[test]
fn hours_of_each_leaf() {
    // 3/5/6/7/2 0/ is a side group of the chain 2, 0 and of 1.
    let bits = "0000010".to_string()
        + "110000001"
        + "100000001"
        + "00000010"
        + "000000000111"
        + "00000000"
        + "000000000101"
        + "00000001"
        + "000000000110"
        + "000";
    let outcome = analysed("3/5/6/7/2 0/");
    let written: String = outcome.record.iter().map(|b| format!("{b:08b}")).collect();
    assert_eq!(written, bits);
    for hours in 0..4096 {
        let record = listed(1, &[], &[hours]).record;
        assert_eq!(record, ((hours as u32) << 5).to_be_bytes());
        assert_eq!(read_record(&record, 0).hours[0], hours);
    }
    // Older records, without hours.
    for record in [&[0, 0][..], &[3, 1, 1, 0], &[3, 0x81, 0, 1]] {
        refused(&read_record(record, 8192), 11, [0; 4]);
    }
}

/// Hours for 8 jobs: none, and some.
const EACH_HOURS: [[usize; 8]; 2] = [[0; 8], [7, 4095, 0, 1, 40, 2048, 3, 16]];

/// The sheet of these orders with hours for so many jobs.
fn with_hours(count: usize, hours: &[usize], orders: &str) -> String {
    let lines = hours[..count].iter().map(|hours| format!("{hours}/"));
    format!("{count}/") + &lines.collect::<String>() + orders
}

/// Request A.8, by the two sequences.
#[test]
fn largest_branch_first() {
    for (count, orders, forward, reverse) in [
        (3, "1 2/", &[1, 2, 0][..], &[0, 1, 2][..]),
        (3, "2 0/", &[2, 0, 1], &[1, 2, 0]),
        (5, "0 1/2 3/3 4/", &[2, 3, 4, 0, 1], &[0, 1, 2, 3, 4]),
        // Not the largest alone.
        (6, "1 2/3 4/4 5/", &[3, 4, 5, 1, 2, 0], &[0, 1, 2, 3, 4, 5]),
        (
            7,
            "1 2/4 5/5 6/",
            &[4, 5, 6, 1, 2, 0, 3],
            &[3, 0, 1, 2, 4, 5, 6],
        ),
        // Equal ones by smallest job, be it the first leaf or not.
        (3, "", &[0, 1, 2], &[2, 1, 0]),
        (4, "0 3/1 2/", &[0, 3, 1, 2], &[1, 2, 0, 3]),
        (4, "3 0/1 2/", &[3, 0, 1, 2], &[1, 2, 3, 0]),
        (6, "4 1/5 0/3 2/", &[5, 0, 4, 1, 3, 2], &[3, 2, 4, 1, 5, 0]),
        (
            6,
            "5 3/5 0/1 2/2 4/",
            &[5, 0, 3, 1, 2, 4],
            &[1, 2, 4, 5, 3, 0],
        ),
        // Equal in jobs, whatever their groups: a job before two beside three in a row,
        // both ways round.
        (
            6,
            "0 1/0 2/3 4/4 5/",
            &[0, 1, 2, 3, 4, 5],
            &[3, 4, 5, 0, 2, 1],
        ),
        (
            6,
            "3 4/3 5/0 1/1 2/",
            &[0, 1, 2, 3, 4, 5],
            &[3, 5, 4, 0, 1, 2],
        ),
        // A side group in a chain, and such a chain in a side group.
        (5, "4 0/4 1/4 3/1 2/", &[4, 1, 2, 0, 3], &[4, 3, 0, 1, 2]),
        (5, "0 4/2 4/3 4/1 2/", &[1, 2, 0, 3, 4], &[3, 0, 1, 2, 4]),
        (
            7,
            "0 1/0 2/2 3/4 5/5 6/",
            &[0, 2, 3, 1, 4, 5, 6],
            &[4, 5, 6, 0, 1, 2, 3],
        ),
        (
            8,
            "0 1/1 2/3 4/3 5/5 6/6 7/",
            &[3, 5, 6, 7, 4, 0, 1, 2],
            &[0, 1, 2, 3, 4, 5, 6, 7],
        ),
    ] {
        for hours in EACH_HOURS {
            let outcome = analysed(&with_hours(count, &hours, orders));
            assert_eq!(outcome.number, 0, "{orders}");
            assert_eq!(outcome.forward[..count], *forward, "{orders}");
            assert_eq!(outcome.reverse[..count], *reverse, "{orders}");
            let back = read_record(&outcome.record, ENOUGH.1);
            assert_eq!(
                (back.forward, back.reverse),
                (outcome.forward, outcome.reverse)
            );
        }
    }
}

/// The total and the jobs of the longest run of a sheet's record.
fn run(shown: &str) -> (u64, Vec<u8>) {
    let run = longest_run(&analysed(shown).record);
    assert_eq!((run.number, run.places), (0, [0; 4]), "{shown}");
    (run.total, run.jobs)
}

#[test]
fn longest_runs() {
    for (shown, total, jobs) in [
        // A leaf.
        ("1/0/", 0, &[0][..]),
        ("1/1/", 1, &[0]),
        ("1/4095/", 4095, &[0]),
        // A chain adds, and keeps jobs with no hours.
        ("2/3/4/1 0/", 7, &[1, 0]),
        ("3/0/5/0/2 1/1 0/", 5, &[2, 1, 0]),
        // A side group takes the greatest, of equal ones the first.
        ("2/3/4/", 4, &[1]),
        ("2/4/3/", 4, &[0]),
        ("2/4/4/", 4, &[0]),
        ("4/1/7/7/7/", 7, &[1]),
        // The first child is the one with most jobs, whatever these are.
        ("3/2/5/3/2 0/", 5, &[2, 0]),
        ("3/2/6/3/2 0/", 6, &[1]),
        ("3/4/3/1/1 2/", 4, &[1, 2]),
        ("3/5/3/1/1 2/", 5, &[0]),
        ("3/1/4/3/0 2/", 4, &[0, 2]),
        ("3/0/0/0/1 2/", 0, &[1, 2]),
        ("3/0/0/0/0 2/", 0, &[0, 2]),
        // Of equal ones it is the chain 3, 0, though its leaf 3 is above job 1.
        ("4/1/2/2/3/3 0/1 2/", 4, &[3, 0]),
        ("4/1/2/3/3/3 0/1 2/", 5, &[1, 2]),
        // The first child has most jobs, the run in it has fewer: equal totals, then that
        // of the other is greater.
        ("7/1/1/1/2/1/1/1/0 1/1 2/3 4/3 5/3 6/", 3, &[3, 4]),
        ("7/1/1/2/2/1/1/1/0 1/1 2/3 4/3 5/3 6/", 4, &[0, 1, 2]),
        // The sample, with job 4 aside; then with a longer job 2, and with 4 as long as the
        // chain, and longer.
        ("5/40/16/16/24/8/0 1/0 2/1 3/2 3/0 3/", 80, &[0, 1, 3]),
        ("5/40/16/17/24/8/0 1/0 2/1 3/2 3/0 3/", 81, &[0, 2, 3]),
        ("5/40/16/16/24/80/0 1/0 2/1 3/2 3/0 3/", 80, &[0, 1, 3]),
        ("5/40/16/16/24/81/0 1/0 2/1 3/2 3/0 3/", 81, &[4]),
        ("5/0/0/0/0/0/0 1/0 2/1 3/2 3/0 3/", 0, &[0, 1, 3]),
        // Two side groups in a chain, each by itself.
        ("4/1/2/4/3/0 2/0 3/1 2/1 3/", 6, &[1, 2]),
        ("4/2/2/3/4/0 2/0 3/1 2/1 3/", 6, &[0, 3]),
        ("4/2/2/3/3/2 0/3 0/2 1/3 1/", 5, &[2, 0]),
    ] {
        assert_eq!(run(shown), (total, jobs.to_vec()), "{shown}");
    }
}

/// 128 jobs of the same hours, with no orders.
fn all_of(hours: usize) -> String {
    "128/".to_string() + &format!("{hours}/").repeat(128)
}

/// One series of 128 jobs, then the same turned.
fn both_series() -> [String; 2] {
    let chain = (1..128).map(|job| format!("{} {job}/", job - 1));
    let turned = (1..128).map(|job| format!("{job} {}/", job - 1));
    [chain.collect(), turned.collect()]
}

#[test]
fn longest_runs_of_128_jobs() {
    let every: Vec<u8> = (0..128).collect();
    let [chain, turned] = both_series();
    for (hours, total) in [(4095, 524_160), (1, 128), (0, 0)] {
        let all = all_of(hours);
        let (in_chain, in_turned) = (all.clone() + &chain, all.clone() + &turned);
        assert_eq!(run(&in_chain), (total, every.clone()));
        let latest_first = every.iter().rev().copied().collect();
        assert_eq!(run(&in_turned), (total, latest_first));
        assert_eq!(run(&all), (hours as u64, vec![0]));
    }
    // Side by side, with one of more hours, and with one more as long.
    let one_more = |at: usize| {
        let mut hours = vec!["4094/"; 128];
        hours[at] = "4095/";
        hours[127] = "4095/";
        "128/".to_string() + &hours.concat()
    };
    for at in 0..128 {
        assert_eq!(run(&one_more(at)), (4095, vec![at as u8]));
    }
    assert_eq!(run(&widest()), (0, vec![0, 64]));
}

/// The hours of each gang of a sheet's record, and the gang of each job.
fn planned(shown: &str) -> (Vec<u32>, Vec<u8>) {
    let plan = gangs(&analysed(shown).record);
    assert_eq!((plan.number, plan.places), (0, [0; 4]), "{shown}");
    (plan.hours, plan.gangs)
}

#[test]
fn fewest_gangs() {
    for (shown, hours, of_jobs) in [
        // A leaf.
        ("1/0/", &[0][..], &[0][..]),
        ("1/4095/", &[4095], &[0]),
        // A chain has one gang where its children have one.
        ("2/3/4/1 0/", &[7], &[0, 0]),
        ("3/0/5/0/2 1/1 0/", &[5], &[0, 0, 0]),
        // A side group numbers one after the other, gangs of no hours too.
        ("2/3/4/", &[3, 4], &[0, 1]),
        ("4/1/0/7/0/", &[1, 0, 7, 0], &[0, 1, 2, 3]),
        // The first child is the one with most jobs; of equal ones it is the chain 3, 0,
        // though its leaf 3 is above job 1.
        ("3/1/2/4/2 0/", &[5, 2], &[0, 1, 0]),
        ("3/1/2/4/1 2/", &[6, 1], &[1, 0, 0]),
        ("4/1/2/4/8/3 0/1 2/", &[9, 6], &[0, 1, 1, 0]),
        // Side groups in a chain: as wide, one way round and the other; the first wider,
        // with a leaf between; the last wider.
        ("4/1/2/4/8/0 2/0 3/1 2/1 3/", &[5, 10], &[0, 1, 0, 1]),
        ("4/1/2/4/8/2 0/3 0/2 1/3 1/", &[5, 10], &[0, 1, 0, 1]),
        (
            "6/1/2/4/8/16/32/0 3/1 3/2 3/3 4/3 5/",
            &[25, 34, 4],
            &[0, 1, 2, 0, 0, 1],
        ),
        ("4/1/2/4/8/0 1/0 2/0 3/", &[3, 4, 8], &[0, 0, 1, 2]),
        // Side by side: 3 before 4, 5 and 6, then 0 and 1 before 2.
        (
            "7/1/2/4/8/16/32/64/0 2/1 2/3 4/3 5/3 6/",
            &[24, 32, 64, 5, 2],
            &[3, 4, 3, 0, 0, 1, 2],
        ),
        // In a chain: 0 before 1, and 2 aside; then 4 before 5 and 6, and 3 aside.
        (
            "7/1/2/4/8/16/32/64/0 1/1 3/1 4/2 3/2 4/4 5/4 6/",
            &[51, 68, 8],
            &[0, 0, 1, 2, 0, 0, 1],
        ),
    ] {
        let expected = (hours.to_vec(), of_jobs.to_vec());
        assert_eq!(planned(shown), expected, "{shown}");
    }
}

/// The hull of docs/FOREMAN.md: the plate, the first frame and the stringer, then the
/// second frame, then the hatch cover.
#[test]
fn gangs_of_the_hull() {
    let hull = "5/40/16/16/24/8/0 1/0 2/1 3/2 3/0 3/";
    let gangs = vec![0, 0, 1, 0, 2];
    assert_eq!(planned(hull), (vec![40 + 16 + 24, 16, 8], gangs.clone()));
    let without_hours = "5/0/0/0/0/0/0 1/0 2/1 3/2 3/0 3/";
    assert_eq!(planned(without_hours), (vec![0, 0, 0], gangs));
}

#[test]
fn gangs_of_128_jobs() {
    let every: Vec<u8> = (0..128).collect();
    for (hours, total) in [(4095, 524_160), (1, 128), (0, 0)] {
        for series in both_series() {
            let in_series = all_of(hours) + &series;
            assert_eq!(planned(&in_series), (vec![total], vec![0; 128]));
        }
        let alone = vec![hours as u32; 128];
        assert_eq!(planned(&all_of(hours)), (alone, every.clone()));
        let each = vec![2 * hours as u32; 64];
        let two_of_each = every.iter().map(|job| job % 64).collect();
        let wide = widest().replacen(&all_of(0), &all_of(hours), 1);
        assert_eq!(planned(&wide), (each, two_of_each));
    }
}

/// The rule, the position and the jobs of a reason.
fn decided(reason: Reason) -> [u64; 3] {
    assert_eq!((reason.number, reason.places), (0, [0; 4]));
    [reason.rule, reason.position, reason.jobs]
}

/// The reasons between any two jobs of a record, which is read once.
fn reasons_in(record: &[u8]) -> impl Fn(u16, u16) -> Reason {
    let read = second::record::read(record);
    move |first, second| reason_of(read.as_ref(), first, second)
}

/// Holds the reasons between every two jobs of a sheet's record to what is said, the
/// entries of each first job in a row.
fn every_two(shown: &str, said: &[&[[u64; 3]]]) {
    let record = analysed(shown).record;
    for (first, row) in said.iter().enumerate() {
        assert_eq!(row.len(), said.len());
        for (second, &expected) in row.iter().enumerate() {
            let given = reason(&record, first as u16, second as u16);
            assert_eq!(decided(given), expected, "{shown}: {first} and {second}");
        }
    }
    // No job is left out.
    let count = said.len() as u16;
    assert_eq!(reason(&record, count, 0).number, 14);
}

#[test]
fn reasons() {
    // A leaf, whatever its hours; a chain; a side group.
    every_two("1/0/", &[&[[1, 0, 1]]]);
    every_two("1/4095/", &[&[[1, 0, 1]]]);
    let (one, other) = ([1, 1, 1], [1, 2, 1]);
    let (before, after, free) = ([2, 0, 2], [3, 0, 2], [4, 0, 2]);
    every_two("2/3/4/0 1/", &[&[one, before], &[after, other]]);
    every_two("2/3/4/1 0/", &[&[other, after], &[before, one]]);
    every_two("2/3/4/", &[&[one, free], &[free, other]]);
    // A side group of the chain 2, 0 and of 1, then of the chain 1, 2 and of 0: the chain
    // is its first child.
    every_two(
        "3/0/0/0/2 0/",
        &[
            &[[1, 3, 1], [4, 0, 3], [3, 1, 2]],
            &[[4, 0, 3], [1, 4, 1], [4, 0, 3]],
            &[[2, 1, 2], [4, 0, 3], [1, 2, 1]],
        ],
    );
    every_two(
        "3/0/7/0/1 2/",
        &[
            &[[1, 4, 1], [4, 0, 3], [4, 0, 3]],
            &[[4, 0, 3], [1, 2, 1], [2, 1, 2]],
            &[[4, 0, 3], [3, 1, 2], [1, 3, 1]],
        ],
    );
    // A chain of the side groups 0, 2 and 1, 3: positions 1 and 4.
    every_two(
        "4/0/0/0/0/0 1/0 3/2 1/2 3/",
        &[
            &[[1, 2, 1], [2, 0, 4], [4, 1, 2], [2, 0, 4]],
            &[[3, 0, 4], [1, 5, 1], [3, 0, 4], [4, 4, 2]],
            &[[4, 1, 2], [2, 0, 4], [1, 3, 1], [2, 0, 4]],
            &[[3, 0, 4], [4, 4, 2], [3, 0, 4], [1, 6, 1]],
        ],
    );
}

/// The printed sample: the chain at position 1 has 0, the side group of 1 and 2 at
/// position 3, and 3; 4 is aside.
#[test]
fn reasons_in_the_sample() {
    let (before, after, aside) = ([2, 1, 4], [3, 1, 4], [4, 0, 5]);
    let free = [4, 3, 2];
    for hours in ["0/0/0/0/0/", "40/16/16/24/8/"] {
        every_two(
            &format!("5/{hours}0 1/0 2/1 3/2 3/0 3/"),
            &[
                &[[1, 2, 1], before, before, before, aside],
                &[after, [1, 4, 1], free, before, aside],
                &[after, free, [1, 5, 1], before, aside],
                &[after, after, after, [1, 6, 1], aside],
                &[aside, aside, aside, aside, [1, 7, 1]],
            ],
        );
    }
}

/// Every two of 128 jobs: in one group of each kind, in a chain of two side groups, and
/// as deep as they go.
#[test]
fn reasons_of_128_jobs() {
    let [chain, turned] = both_series();
    let records = [
        all_of(7) + &chain,
        all_of(7) + &turned,
        all_of(7),
        widest(),
        deepest(),
    ]
    .map(|shown| reasons_in(&analysed(&shown).record));
    for u in 0..128 {
        for v in 0..128 {
            let rule = |ordered: bool| match ordered {
                true if u < v => 2,
                true => 3,
                false => 4,
            };
            let half = u / 64;
            let low = u.min(v);
            // A chain, its leaf and a side group by turns, then the side groups' leaves.
            let group = 3 * (low / 2) + 2 * (low % 2);
            let mut expected = [
                [rule(true), 0, 128],
                [5 - rule(true), 0, 128],
                [rule(false), 0, 128],
                [rule(true), 0, 128],
                [rule(low % 2 == 0), group, 128 - low],
            ];
            if half == v / 64 {
                expected[3] = [rule(false), 1 + 65 * half, 64];
            }
            if u == v {
                let leaf = |position: u64| [1, position, 1];
                let deep = match u {
                    127 => 191,
                    _ if u % 2 == 0 => group + 1,
                    _ => 254 - u / 2,
                };
                let in_half = u + 2 + half;
                expected = [u + 1, 128 - u, u + 1, in_half, deep].map(leaf);
            }
            let given = records
                .each_ref()
                .map(|reasons| decided(reasons(u as u16, v as u16)));
            assert_eq!(given, expected, "{u} and {v}");
        }
    }
}

/// No rule, no group and no jobs.
fn no_reason(number: u64) -> Reason {
    Reason {
        number,
        places: [0; 4],
        rule: 0,
        position: 0,
        jobs: 0,
    }
}

/// Job numbers below the count and not, the count itself and those with a job's last
/// eight bits among them.
fn numbers_about(count: u16) -> Vec<u16> {
    let mut numbers = vec![0, count - 1, count, count + 1, 127, 128, 129, 255];
    numbers.extend([256, 255 + count, 256 + count, 32_767, 32_768]);
    numbers.extend([32_767 + count, 65_280, 65_279 + count, 65_534, 65_535]);
    numbers
}

#[test]
fn no_reason_for_a_job_not_below_the_count() {
    for count in 1..=128 {
        let reasons = reasons_in(&listed(count, &[], &vec![0; count as usize]).record);
        for first in numbers_about(count) {
            for second in numbers_about(count) {
                let given = reasons(first, second);
                if first >= count || second >= count {
                    assert_eq!(given, no_reason(14), "{count}: {first} and {second}");
                } else {
                    assert_eq!(given.number, 0, "{count}: {first} and {second}");
                }
            }
        }
    }
}

/// 11 is tested ahead of 14.
#[test]
fn no_reason_in_what_is_no_record() {
    for bytes in no_records() {
        for first in numbers_about(5) {
            for second in numbers_about(5) {
                assert_eq!(reason(&bytes, first, second), no_reason(11), "{bytes:?}");
            }
        }
    }
}

/// Bytes that are no record: that of a sheet cut off and lengthened, strings of one
/// byte, side children the wrong way round, a job twice, a chain in a chain.
fn no_records() -> Vec<Vec<u8>> {
    let record = analysed("5/40/16/16/24/8/0 1/0 2/1 3/2 3/0 3/").record;
    let cut_off = |length: usize| record[..length].to_vec();
    let mut none: Vec<Vec<u8>> = (0..record.len()).map(cut_off).collect();
    none.push([&record[..], &[0]].concat());
    none.extend([vec![0; 465], vec![0xff; 464]]);
    none.push(vec![3, 0x81, 1, 0, 0x70, 0, 9]);
    none.push(vec![3, 1, 0, 0, 0x70, 0, 9]);
    let chain_in_chain = "0000010".to_string()
        + &"100000001".repeat(2)
        + &["00", "01", "10"]
            .map(|job| "000000".to_string() + job + "000000000111")
            .concat();
    let bits = chain_in_chain + "000";
    assert_eq!((bits.len() / 8, bits.len() % 8), (11, 0));
    let byte = |at: usize| u8::from_str_radix(&bits[8 * at..8 * at + 8], 2).unwrap();
    none.push((0..bits.len() / 8).map(byte).collect());
    none
}

fn no_run() -> LongestRun {
    LongestRun {
        number: 11,
        places: [0; 4],
        total: 0,
        jobs: Vec::new(),
    }
}

fn no_gangs() -> GangPlan {
    GangPlan {
        number: 11,
        places: [0; 4],
        hours: Vec::new(),
        gangs: Vec::new(),
    }
}

#[test]
fn no_run_and_no_gangs_of_what_is_no_record() {
    for bytes in no_records() {
        assert_eq!(longest_run(&bytes), no_run(), "{bytes:?}");
        assert_eq!(gangs(&bytes), no_gangs(), "{bytes:?}");
    }
}

/// Side groups as the sheets have them are read; with their two children exchanged they
/// are not.
#[test]
fn side_children_the_other_way_round() {
    for hours in EACH_HOURS {
        let leaf = |job: usize| Tree::Leaf {
            job,
            hours: hours[job],
        };
        let chain = |jobs: &[usize]| Tree::Chain(jobs.iter().map(|&job| leaf(job)).collect());
        for (count, orders, [first, second]) in [
            // Exchanged they are in the former order, by smallest job.
            (3, "1 2/", [chain(&[1, 2]), leaf(0)]),
            (3, "2 1/", [chain(&[2, 1]), leaf(0)]),
            (5, "0 1/2 3/3 4/", [chain(&[2, 3, 4]), chain(&[0, 1])]),
            (5, "2 3/3 1/4 0/", [chain(&[2, 3, 1]), chain(&[4, 0])]),
            // By the first leaf.
            (3, "2 0/", [chain(&[2, 0]), leaf(1)]),
            (4, "3 0/1 2/", [chain(&[3, 0]), chain(&[1, 2])]),
            // By neither.
            (2, "", [leaf(0), leaf(1)]),
            (4, "0 3/1 2/", [chain(&[0, 3]), chain(&[1, 2])]),
        ] {
            let right = Tree::Side(vec![first.clone(), second.clone()]);
            let wrong = Tree::Side(vec![second, first]);
            let record = analysed(&with_hours(count, &hours, orders)).record;
            assert_eq!(record, lay_out(count, &right));
            // Alone, then in a chain after a job and ahead of it.
            let after = |side: &Tree| Tree::Chain(vec![leaf(count), side.clone()]);
            let ahead = |side: &Tree| Tree::Chain(vec![side.clone(), leaf(count)]);
            one_is_read(count, &right, &wrong);
            one_is_read(count + 1, &after(&right), &after(&wrong));
            one_is_read(count + 1, &ahead(&right), &ahead(&wrong));
        }
    }
}

/// The first tree's record is read; the second's is refused by every call that takes one.
fn one_is_read(count: usize, right: &Tree, wrong: &Tree) {
    let read = read_record(&lay_out(count, right), ENOUGH.1);
    assert_eq!(read.number, 0, "{right:?}");
    let bytes = lay_out(count, wrong);
    refused(&read_record(&bytes, ENOUGH.1), 11, [0; 4]);
    assert_eq!(longest_run(&bytes), no_run(), "{wrong:?}");
    assert_eq!(gangs(&bytes), no_gangs(), "{wrong:?}");
    assert_eq!(reason(&bytes, 0, 1), no_reason(11), "{wrong:?}");
}

/// Holds the preview of an order to what is said, and to the analysis of the copy.
fn previewed(
    (count, list, hours): (u16, &[u16], &[u16]),
    order: (u16, u16),
    number: u64,
    places: [u64; 4],
) {
    let given = preview(count, list, hours, order);
    let begins = &list[..list.len().min(20)];
    let lengths = (list.len(), hours.len());
    let shown = format!("{order:?} of {count} jobs on {begins:?}, lengths {lengths:?}");
    assert_eq!((given.number, given.places), (number, places), "{shown}");
    let copy = listed(count, &[list, &[order.0, order.1]].concat(), hours);
    assert_eq!((copy.number, copy.places), (number, places), "{shown}");
}

/// Places with one named.
fn at(place: u64) -> [u64; 4] {
    [place, 0, 0, 0]
}

#[test]
fn previews() {
    for (count, list, order, number, places) in [
        // The least lists.
        (2, &[][..], (0, 1), 0, [7, 1, 1, 0]),
        (2, &[], (1, 0), 0, [7, 1, 1, 0]),
        (128, &[], (127, 0), 0, [324, 1, 2, 0]),
        // Outside, by the first, the second and both.
        (1, &[], (0, 1), 5, at(0)),
        (1, &[], (1, 0), 5, at(0)),
        (1, &[], (1, 1), 5, at(0)),
        (2, &[0, 1, 0, 1], (0, 2), 5, at(2)),
        (2, &[0, 1, 0, 1], (u16::MAX, 0), 5, at(2)),
        (128, &[0, 1], (0, 128), 5, at(1)),
        (128, &[0, 1], (256, 1), 5, at(1)),
        // A job before itself.
        (1, &[], (0, 0), 6, at(0)),
        (3, &[0, 1, 1, 2], (2, 2), 6, at(2)),
        (128, &[0, 1], (127, 127), 6, at(1)),
        // Of orders with the same fault the list's own is told.
        (2, &[0, 2], (0, 2), 5, at(0)),
        (2, &[0, 1, 1, 1], (0, 0), 6, at(1)),
        // The order's fault is tested ahead of the list's, then after it.
        (3, &[0, 1, 1, 1], (0, 3), 5, at(2)),
        (3, &[0, 1, 0, 3], (1, 1), 5, at(1)),
        (3, &[0, 1, 1, 0], (2, 2), 6, at(2)),
        (3, &[0, 1, 1, 0], (0, 3), 5, at(2)),
        (3, &[0, 1, 1, 1], (1, 0), 6, at(1)),
        (4, &[0, 2, 1, 2, 1, 3], (3, 3), 6, at(3)),
        (4, &[0, 2, 1, 2, 1, 3], (4, 3), 5, at(3)),
        (4, &[0, 2, 1, 2, 1, 3], (3, 1), 7, at(1)),
        // A circle of two, of three, one that the order does not reach into.
        (2, &[0, 1], (1, 0), 7, at(0)),
        (3, &[1, 2], (2, 1), 7, at(1)),
        (4, &[2, 3, 3, 1], (1, 2), 7, at(1)),
        (4, &[2, 3, 3, 2], (0, 1), 7, at(2)),
        (4, &[2, 3, 3, 2], (1, 0), 7, at(2)),
        (4, &[0, 1, 1, 2, 2, 3], (3, 0), 7, at(0)),
        (4, &[0, 1, 1, 2, 2, 3], (3, 1), 7, at(1)),
        // An N that the order makes, one that it leaves, one that it undoes.
        (4, &[0, 2, 1, 2], (1, 3), 8, [0, 1, 2, 3]),
        (4, &[1, 2, 1, 3], (0, 2), 8, [0, 1, 2, 3]),
        (4, &[0, 2, 1, 3], (1, 2), 8, [0, 1, 2, 3]),
        (4, &[0, 2, 1, 2, 1, 3], (0, 2), 8, [0, 1, 2, 3]),
        (4, &[0, 2, 1, 2, 1, 3], (0, 3), 0, [15, 4, 3, 0]),
        (5, &[0, 2, 1, 2, 1, 3, 0, 4], (4, 3), 8, [1, 0, 2, 4]),
        (5, &[0, 2, 1, 2, 1, 3, 0, 4, 4, 3], (1, 4), 0, [18, 5, 4, 0]),
        // An order that is there, one that follows, one that others follow from.
        (2, &[0, 1], (0, 1), 0, [7, 1, 1, 0]),
        (3, &[0, 1, 1, 2], (0, 2), 0, [10, 2, 1, 0]),
        (3, &[0, 1, 0, 2], (1, 2), 0, [10, 2, 1, 0]),
        (5, &[0, 1, 0, 2, 1, 3, 2, 3], (0, 3), 0, [17, 4, 3, 0]),
    ] {
        let hours = vec![7; count as usize];
        previewed((count, list, &hours), order, number, places);
    }
}

/// The last order of each of the papers' cases, on what is ahead of it.
#[test]
fn previews_of_the_last_order() {
    let mut last_orders = 0;
    for case in cases() {
        let (count, list, hours) = match case.input {
            Input::Sheet(bytes) => {
                let Ok(read) = second::sheet::read(&bytes) else {
                    continue;
                };
                let orders = read.orders.iter();
                (
                    read.count as u16,
                    orders.flat_map(|&(u, v)| [u as u16, v as u16]).collect(),
                    read.hours.iter().map(|&hours| hours as u16).collect(),
                )
            }
            Input::Pairs { count, list, hours } => (count, list, hours),
            Input::Record(_) => continue,
        };
        let Outcome { number, places, .. } = listed(count, &list, &hours);
        if let Some((ahead, &[first, second])) = list.split_last_chunk() {
            previewed((count, ahead, &hours), (first, second), number, places);
            last_orders += 1;
        }
    }
    assert!(last_orders > 20, "{last_orders}");
}

/// Orders good, outside, from a job to itself, one that makes a circle and one that makes
/// an N after 0 2 and 1 2.
const ORDERS: [(u16, u16); 6] = [(0, 3), (0, 4), (u16::MAX, 0), (1, 1), (2, 0), (1, 3)];

#[test]
fn previews_on_odd_lists() {
    for length in [1, 3, 5, 8189, 8191, 8193, 8195, 65_537] {
        for count in [0, 1, 4, 128, 129, u16::MAX] {
            for order in ORDERS {
                for number in [0, 1, u16::MAX] {
                    let list = vec![number; length];
                    for hours in [&[][..], &[4096], &[0; 4], &[4096; 4]] {
                        previewed((count, &list, hours), order, 2, [0; 4]);
                    }
                }
            }
        }
    }
}

/// A list of so many orders, 0 2 and 1 2 in turn.
fn of_length(orders: usize) -> Vec<u16> {
    let mut list = [0, 2, 1, 2].repeat(orders.div_ceil(2));
    list.truncate(2 * orders);
    list
}

#[test]
fn previews_on_full_lists() {
    let last = MOST_ORDERS as u64 - 1;
    let hours = [0, 4095, 1, 2];
    let room = of_length(MOST_ORDERS - 1);
    for (order, number, places) in [
        ((0, 2), 0, [15, 2, 3, 0]),
        ((3, 2), 0, [14, 3, 2, 0]),
        ((0, 4), 5, at(last)),
        ((u16::MAX, 0), 5, at(last)),
        ((1, 1), 6, at(last)),
        ((2, 0), 7, at(0)),
        ((2, 1), 7, at(1)),
        ((1, 3), 8, [0, 1, 2, 3]),
    ] {
        previewed((4, &room, &hours), order, number, places);
    }
    let mut flawed = room.clone();
    flawed[8189] = 4;
    previewed((4, &flawed, &hours), (9, 9), 5, at(last - 1));
    flawed[8189] = flawed[8188];
    previewed((4, &flawed, &hours), (0, 4), 5, at(last));
    previewed((4, &flawed, &hours), (1, 1), 6, at(last - 1));

    for orders in [MOST_ORDERS, MOST_ORDERS + 1, 8192, 32_768, 65_536] {
        for list in [of_length(orders), vec![9; 2 * orders], vec![0; 2 * orders]] {
            for order in ORDERS {
                for hours in [&hours[..], &[], &[0; 5], &[4096; 4]] {
                    previewed((4, &list, hours), order, 4, [0; 4]);
                    for count in [0, 129, u16::MAX] {
                        previewed((count, &list, hours), order, 3, [0; 4]);
                    }
                    for count in [1, 128] {
                        previewed((count, &list, hours), order, 4, [0; 4]);
                    }
                }
            }
        }
    }
}

#[test]
fn previews_and_hours() {
    for list in [&[][..], &[0, 2, 1, 2], &[9, 9], &[0, 0]] {
        for order in ORDERS {
            for length in [0, 1, 3, 5, 128, 65_540] {
                for hours in [0, 4095, 4096, u16::MAX] {
                    previewed((4, list, &vec![hours; length]), order, 12, [0; 4]);
                }
            }
            for job in 0..4 {
                for above in [4096, 8192, u16::MAX] {
                    let mut hours = [4095; 4];
                    hours[job] = above;
                    let place = at(job as u64);
                    previewed((4, list, &hours), order, 13, place);
                    hours[job..].fill(above);
                    previewed((4, list, &hours), order, 13, place);
                }
            }
            for count in [0, 129, u16::MAX] {
                for hours in [&[][..], &[4096], &[0; 129]] {
                    previewed((count, list, hours), order, 3, [0; 4]);
                }
            }
        }
    }
    previewed((4, &[0, 2, 1, 2], &[4095; 4]), (0, 3), 8, [1, 0, 2, 3]);
    previewed((4, &[0, 2, 1, 2], &[4095; 4]), (3, 2), 0, [14, 3, 2, 0]);
}

/// 128 jobs: the last order of a series, of two wide groups and of the deepest tree, and
/// orders back.
#[test]
fn previews_on_128_jobs() {
    let hours = [4095; 128];
    let series: Vec<u16> = (1..128).flat_map(|job| [job - 1, job]).collect();
    let (ahead, _) = series.split_at(252);
    previewed((128, ahead, &hours), (126, 127), 0, [322, 127, 1, 0]);
    previewed((128, ahead, &hours), (126, 126), 6, at(126));
    previewed((128, ahead, &hours), (126, 128), 5, at(126));
    previewed((128, ahead, &hours), (126, 0), 7, at(0));
    previewed((128, ahead, &hours), (126, 125), 7, at(125));
    previewed((128, ahead, &hours), (127, 126), 0, [325, 127, 3, 0]);
    let aside = [&series[..250], &[126, 60]].concat();
    previewed((128, &aside, &hours), (50, 127), 8, [126, 0, 60, 127]);
    previewed((128, &aside, &hours), (60, 127), 0, [327, 127, 5, 0]);

    let wide = (0..64).flat_map(|u| (64..128).flat_map(move |v| [u, v]));
    let wide: Vec<u16> = wide.collect();
    let (ahead, _) = wide.split_at(8190);
    previewed((128, ahead, &hours), (63, 127), 0, [325, 4096, 3, 0]);
    previewed((128, ahead, &hours), (63, 126), 8, [63, 0, 64, 127]);
    previewed((128, ahead, &hours), (127, 0), 7, at(0));
    previewed((128, ahead, &hours), (127, 62), 7, at(62));
    previewed((128, &wide, &hours), (63, 127), 4, [0; 4]);

    let nested = (0..127).step_by(2);
    let nested = nested.flat_map(|u| (u + 1..128).flat_map(move |v| [u, v]));
    let nested: Vec<u16> = nested.collect();
    let (ahead, _) = nested.split_at(8190);
    previewed((128, ahead, &hours), (126, 127), 0, [464, 127, 127, 0]);
    previewed((128, ahead, &hours), (127, 126), 0, [464, 127, 127, 0]);
    previewed((128, ahead, &hours), (0, 126), 0, [463, 127, 126, 0]);
    previewed((128, ahead, &hours), (127, 124), 7, at(124));
    previewed((128, &nested, &hours), (126, 127), 4, [0; 4]);
}

#[test]
fn joins_without_a_circle() {
    for (count, list, joined) in [
        (0, &[][..], 0),
        (0, &[0], 0),
        (1, &[], 0),
        (128, &[], 0),
        (2, &[0, 1], 1),
        (2, &[1, 0], 1),
        (128, &[127, 0], 1),
        (128, &[63, 64], 1),
        // Written twice, or ten times.
        (2, &[0, 1, 0, 1], 1),
        (2, &[0, 1].repeat(10), 1),
        (3, &[0, 1, 1, 2, 0, 1], 2),
        // An order that follows from others is joined all the same.
        (3, &[0, 1, 1, 2, 0, 2], 3),
        (3, &[0, 2, 0, 1, 1, 2], 3),
        (5, &[0, 1, 0, 2, 1, 3, 2, 3, 0, 3], 5),
        // The last number of an odd list is no order.
        (2, &[0, 1, 0], 1),
        (2, &[0, 1, 1], 1),
        (2, &[0, 1, 9], 1),
        (2, &[9], 0),
    ] {
        assert_eq!(joins(count, list), joined, "{count} {list:?}");
    }
    let series: Vec<u16> = (1..128).flat_map(|job| [job - 1, job]).collect();
    let turned: Vec<u16> = series.iter().rev().copied().collect();
    let mut every = Vec::new();
    let mut wide = Vec::new();
    for u in 0..128 {
        (u + 1..128).for_each(|v| every.extend([u, v]));
        (64..128).for_each(|v| wide.extend([u % 64, v]));
    }
    for (list, joined) in [(series, 127), (turned, 127), (every, 8128), (wide, 4096)] {
        assert_eq!(joins(128, &list), joined);
        assert_eq!(joins(128, &[&list[..], &list].concat()), joined);
        assert_eq!(joins(127, &list), 0);
        assert_eq!(joins(129, &list), 0);
    }
}

#[test]
fn joins_with_a_circle() {
    for (count, list, joined) in [
        // A job's row into itself.
        (1, &[0, 0][..], 1),
        (2, &[1, 1], 1),
        (128, &[127, 127, 127, 127], 1),
        // 0 into 1; then 1 into 0 and 1.
        (2, &[0, 1, 1, 0], 3),
        (2, &[0, 0, 0, 1, 1, 0, 1, 1], 4),
        // 0 into 2; 1 into 0 and 2; 2 into all three.
        (3, &[0, 1, 1, 2, 2, 0], 6),
        // The other way round: 0 into 1; 1 into 2; 2 into all three.
        (3, &[0, 2, 2, 1, 1, 0], 5),
        // 0 into 0; 1 into 0; the row of 2 is empty.
        (3, &[0, 0, 0, 1, 1, 2], 2),
        // A job ahead of a circle: 1 into 0 and 2; 2 into all three.
        (3, &[0, 1, 1, 2, 2, 1], 5),
        // The same with 2 ahead: 0 into 1 and 2; 1 into all three; no row has 2.
        (3, &[2, 0, 0, 1, 1, 0], 5),
        // 1 into 0; 2 into 0, 1 and 2; no row has 3, and that of 4 is empty.
        (5, &[3, 4, 0, 1, 1, 2, 2, 2], 4),
    ] {
        assert_eq!(joins(count, list), joined, "{count} {list:?}");
        assert_eq!(joins(count, &list.repeat(3)), joined, "{count} {list:?}");
    }
    let mut every = Vec::new();
    (0..128).for_each(|u| (0..128).for_each(|v| every.extend([u, v])));
    assert_eq!(joins(128, &every), 16_384);
    assert_eq!(joins(127, &every), 0);
}

#[test]
fn no_joins_are_counted() {
    for (count, list) in [
        (0, &[0, 0][..]),
        (1, &[0, 1]),
        (1, &[1, 0]),
        (2, &[0, 1, 0, 2]),
        (2, &[2, 2, 0, 1]),
        (2, &[0, 1, 1, 0, 65_535, 0]),
        (128, &[0, 1, 0, 128]),
        (129, &[0, 1]),
        (129, &[0, 128, 128, 0]),
        (256, &[0, 1]),
        (65_535, &[0, 1, 1, 0]),
    ] {
        assert_eq!(joins(count, list), 0, "{count} {list:?}");
    }
}
