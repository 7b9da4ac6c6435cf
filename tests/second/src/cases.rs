//! Document 01's cases, a sheet or record for each of its misreadings, the line
//! ends of request A.1, the hours of request A.2 and the side groups of request
//! A.8. Document 01's sheets in the line form have an hours line of 0 for each
//! job, its records hours of 0.

use crate::{analyse_pairs, printed, read_record, Outcome, LONGEST_RECORD, MOST_ORDERS};

pub enum Input {
    Sheet(Vec<u8>),
    Pairs {
        count: u16,
        list: Vec<u16>,
        hours: Vec<u16>,
    },
    Record(Vec<u8>),
}

pub struct Case {
    /// The input as `sheet` takes it, or in words where it is long.
    pub shown: String,
    pub starred: bool,
    pub input: Input,
    /// Lines of the answer; one that ends in a space is a line's beginning.
    pub says: &'static [&'static str],
    /// Whether the lines are the whole answer.
    pub whole: bool,
}

/// The sheet shown with `/` for a line feed and `<` for a carriage return.
pub fn sheet(shown: &str) -> Vec<u8> {
    shown.replace('/', "\n").replace('<', "\r").into_bytes()
}

/// The shown sheet with an hours line of 0 for each job put in after its count
/// line, ended as that one is. A text with no such line stays.
pub fn zeros(shown: &str) -> String {
    let Some((line, rest)) = shown.split_once('/') else {
        return shown.to_string();
    };
    let digits = line.trim_end_matches('<');
    let hours = format!("0{}/", &line[digits.len()..]);
    let count = digits.parse().unwrap_or(0);
    format!("{line}/{}{rest}", hours.repeat(count))
}

fn case(starred: bool, shown: &str, says: &'static [&'static str], whole: bool) -> Case {
    let input = Input::Sheet(sheet(shown));
    Case {
        shown: format!("sheet {shown}"),
        starred,
        input,
        says,
        whole,
    }
}

fn record_case(bytes: &[u8]) -> Case {
    let hex: String = bytes.iter().map(|byte| format!(" {byte:02x}")).collect();
    Case {
        shown: format!("record{hex}"),
        starred: false,
        input: Input::Record(bytes.to_vec()),
        says: &["refused 11 0 0 0 0"],
        whole: true,
    }
}

fn pairs_case(
    count: u16,
    list: &[u16],
    hours: &[u16],
    says: &'static [&'static str],
    whole: bool,
) -> Case {
    Case {
        shown: format!("count {count}, list {list:?}, hours {hours:?}"),
        starred: false,
        input: Input::Pairs {
            count,
            list: list.to_vec(),
            hours: hours.to_vec(),
        },
        says,
        whole,
    }
}

/// Jobs 0 to 63 each before 64 to 127.
pub fn widest() -> String {
    let mut shown = zeros("128/");
    for u in 0..64 {
        for v in 64..128 {
            shown += &format!("{u} {v}/");
        }
    }
    shown
}

/// The answer to the printed sheet.
const PRINTED: &[&str] = &[
    "accepted 17 4 3",
    "record 0981810000060404000080000c00010000",
    "0 1",
    "0 2",
    "1 3",
    "2 3",
    "forward 0 1 2 3 4",
    "reverse 4 0 2 1 3",
];

pub fn cases() -> Vec<Case> {
    let zero_case = |starred, shown, says, whole| case(starred, &zeros(shown), says, whole);
    let mut cases = vec![
        zero_case(false, "5/0 1/0 2/1 3/2 3/0 3/", PRINTED, true),
        case(true, "", &["refused 2 0 0 0 0"], true),
        case(true, "5", &["refused 2 1 0 0 0"], true),
        case(true, "05/", &["refused 2 1 0 0 0"], true),
        zero_case(true, "0/", &["refused 3 0 0 0 0"], true),
        zero_case(false, "129/", &["refused 3 0 0 0 0"], true),
        zero_case(false, "128/", &["accepted 322 0 1"], false),
        zero_case(true, "1/", &["accepted ", "record 00000000"], false),
        zero_case(
            true,
            "2/1 0/",
            &["accepted ", "record 03010100000000"],
            false,
        ),
        zero_case(true, "2/", &["accepted ", "record 03810000001000"], false),
        zero_case(true, "2/1 1/0 2/", &["refused 5 1 0 0 0"], true),
        zero_case(true, "3/1 2/2 1/", &["refused 7 1 0 0 0"], true),
        zero_case(true, "4/0 2/1 2/1 3/", &["refused 8 0 1 2 3"], true),
        zero_case(true, "4/0 2/1 2/1 3/0 3/", &["accepted "], false),
        zero_case(true, "5/0 2/1 2/1 3/0 4/4 3/", &["refused 8 1 0 2 4"], true),
    ];

    let mut widest_case = case(false, &widest(), &["accepted 325 4096 3"], false);
    widest_case.shown =
        format!("sheet 128/, hours of 0, 0 to 63 each before 64 to 127, {MOST_ORDERS} orders");
    cases.push(widest_case);
    let mut repeated = case(false, &(widest() + "0 64/"), &["refused 4 0 0 0 0"], true);
    repeated.shown = "the same and 0 64/ once more".to_string();
    cases.push(repeated);

    // The longest sheet, the longest with line feeds alone, and a byte more.
    for (end, more, says, whole) in [
        ("</", "", &["accepted 324 1 2"], false),
        ("</", "1", &["refused 1 0 0 0 0"], true),
        ("/", "", &["accepted 324 1 2"], false),
        ("/", "1", &["refused 2 33413 0 0 0"], true),
    ] {
        let hours = format!("4095{end}");
        let order = format!("126 127{end}");
        let shown = format!("128{end}") + &hours.repeat(128) + &order.repeat(MOST_ORDERS) + more;
        let mut long = case(false, &shown, says, whole);
        long.shown = format!(
            "sheet 128{end}, 128 times {hours}, {MOST_ORDERS} times {order} and \"{more}\", {} bytes",
            shown.len()
        );
        cases.push(long);
    }

    cases.push(record_case(&[0x03, 0x81, 0x01, 0, 0, 0, 0]));
    cases.push(record_case(&[0x03, 0x01, 0, 0, 0, 0, 0]));
    cases.push(record_case(&[0x03, 0x01, 0x01, 0, 0, 0, 0, 0]));

    // The misreadings. The last of them, a job that occurs twice, is the second
    // record above. The first sheet is the paper's own, the others are not.
    cases.push(zero_case(
        false,
        "5/0 2/1 2/1 3/0 4/4 3/1 4/",
        &["accepted "],
        false,
    ));
    // The order 0 3 has a run of three orders beside it and none of two.
    cases.push(zero_case(
        false,
        "4/0 1/1 2/2 3/0 3/",
        &[
            "accepted 12 3 1",
            "record 070300000010000200003000",
            "0 1",
            "1 2",
            "2 3",
            "forward 0 1 2 3",
            "reverse 0 1 2 3",
        ],
        true,
    ));
    // Splitting any one job off fails; two and two succeeds.
    cases.push(zero_case(
        false,
        "4/0 2/0 3/1 2/1 3/",
        &["accepted 15 4 3"],
        false,
    ));
    // Of two groups with as many jobs that which starts with leaf 3 has job 0 further
    // right.
    cases.push(zero_case(
        false,
        "4/3 0/1 2/",
        &[
            "accepted 15 2 3",
            "record 078180818000000040404000080000",
            "1 2",
            "3 0",
            "forward 3 0 1 2",
            "reverse 1 2 3 0",
        ],
        true,
    ));

    // Line ends: of the printed sheet, then a carriage return that is no part of
    // one.
    for shown in [
        "5</0</0</0</0</0</0 1</0 2</1 3</2 3</0 3</",
        "5/0</0/0/0</0</0 1</0 2/1 3</2 3/0 3</",
        "5</0/0/0</0</0/0 1/0 2/1 3</2 3</0 3/",
    ] {
        cases.push(case(false, shown, PRINTED, true));
    }
    let broken: [(&str, &[&str]); 11] = [
        ("5<", &["refused 2 2 0 0 0"]),
        ("5<</", &["refused 2 2 0 0 0"]),
        ("<", &["refused 2 0 0 0 0"]),
        ("</", &["refused 2 0 0 0 0"]),
        ("<5/", &["refused 2 0 0 0 0"]),
        ("0< ", &["refused 2 2 0 0 0"]),
        ("2/0/0<", &["refused 2 6 0 0 0"]),
        ("2/0<0/", &["refused 2 4 0 0 0"]),
        ("2/</0/", &["refused 2 2 0 0 0"]),
        ("2/0/0/0 1<", &["refused 2 10 0 0 0"]),
        ("2</0</0/0 1</0< 1</", &["refused 2 14 0 0 0"]),
    ];
    for (shown, says) in broken {
        cases.push(case(false, shown, says, true));
    }

    // Hours: of the printed sheet, too few lines and too many, numbers of a form
    // that they may not have, then refusals 12 and 13 and their order.
    cases.push(case(
        false,
        "5/8/40/4095/1/0/0 1/0 2/1 3/2 3/0 3/",
        &[
            "accepted 17 4 3",
            "record 09818100004604040a00bffc0c00410000",
            "0 1",
            "0 2",
            "1 3",
            "2 3",
            "forward 0 1 2 3 4",
            "reverse 4 0 2 1 3",
        ],
        true,
    ));
    cases.push(case(
        false,
        "2/1/4095/1 0/",
        &[
            "accepted 7 1 1",
            "record 030101fff00001",
            "1 0",
            "forward 1 0",
            "reverse 1 0",
        ],
        true,
    ));
    let hours: [(&str, &[&str]); 13] = [
        ("2/0/", &["refused 2 4 0 0 0"]),
        ("2/0/0 1/", &["refused 2 5 0 0 0"]),
        ("2/0/0/0/", &["refused 2 7 0 0 0"]),
        ("0/0/", &["refused 2 3 0 0 0"]),
        ("129/0/", &["refused 2 6 0 0 0"]),
        ("1/00/", &["refused 2 3 0 0 0"]),
        ("1/10000/", &["refused 2 6 0 0 0"]),
        ("1/0 /", &["refused 2 3 0 0 0"]),
        ("1000/", &["refused 2 3 0 0 0"]),
        ("1/0/0 1000/", &["refused 2 9 0 0 0"]),
        ("2/4095/4096/", &["refused 13 1 0 0 0"]),
        ("2/9999/4096/0 2/", &["refused 13 0 0 0 0"]),
        ("0/0 1/", &["refused 3 0 0 0 0"]),
    ];
    for (shown, says) in hours {
        cases.push(case(false, shown, says, true));
    }
    let lists: [(u16, &[u16], &[u16], &[&str]); 6] = [
        (2, &[0, 1], &[0], &["refused 12 0 0 0 0"]),
        (2, &[0, 2], &[0, 4096, 0], &["refused 12 0 0 0 0"]),
        (0, &[0, 1], &[0], &["refused 3 0 0 0 0"]),
        (2, &[0], &[0], &["refused 2 0 0 0 0"]),
        (2, &[0, 2], &[0, 4096], &["refused 13 1 0 0 0"]),
        (2, &[0, 1], &[4095, 65_535], &["refused 13 1 0 0 0"]),
    ];
    for (count, list, hours, says) in lists {
        cases.push(pairs_case(count, list, hours, says, true));
    }
    cases.push(pairs_case(
        2,
        &[1, 0],
        &[1, 4095],
        &["accepted 7 1 1"],
        true,
    ));
    cases.extend(side_cases());
    cases
}

/// Side groups: most jobs first, with hours of 0 and with others, and not the largest
/// alone.
const SIDES: [(&str, &[&str]); 3] = [
    (
        "3/0/0/0/1 2/",
        &[
            "accepted 11 1 2",
            "record 0581808080001000000000",
            "1 2",
            "forward 1 2 0",
            "reverse 0 1 2",
        ],
    ),
    (
        "3/5/6/7/1 2/",
        &[
            "accepted 11 1 2",
            "record 0581808080301003800028",
            "1 2",
            "forward 1 2 0",
            "reverse 0 1 2",
        ],
    ),
    (
        "7/0/0/0/0/0/0/0/1 2/4 5/5 6/",
        &[
            "accepted 22 3 3",
            "record 0d83810200002800030004040400008000000000c000",
            "1 2",
            "4 5",
            "5 6",
            "forward 4 5 6 1 2 0 3",
            "reverse 3 0 1 2 4 5 6",
        ],
    ),
];

/// Side groups out of order: those of the first two sheets by smallest job, the first
/// one in a chain too, equal children by the first leaf, and the largest alone first.
const OUT_OF_ORDER: [&[u8]; 5] = [
    &[0x05, 0x81, 0, 0, 0x08, 0x08, 0x08, 0, 0x01, 0, 0],
    &[0x05, 0x81, 0, 0, 0x58, 0x08, 0x08, 0x03, 0x01, 0, 0x38],
    &[
        0x07, 0x01, 0x03, 0, 0x0c, 0x08, 0, 0, 0x40, 0x40, 0x40, 0, 0x08, 0, 0,
    ],
    &[
        0x07, 0x81, 0x80, 0x80, 0x80, 0, 0x10, 0, 0x40, 0x40, 0xc0, 0, 0, 0, 0,
    ],
    &[
        0x0d, 0x83, 0x81, 0x02, 0, 0, 0x28, 0, 0x03, 0, 0, 0, 0, 0x40, 0x40, 0x40, 0, 0x08, 0, 0,
        0xc0, 0,
    ],
];

fn side_cases() -> Vec<Case> {
    let sheets = SIDES.map(|(shown, says)| case(false, shown, says, true));
    let records = OUT_OF_ORDER.map(record_case);
    sheets.into_iter().chain(records).collect()
}

fn first_line(outcome: &Outcome) -> String {
    let [first, second, third, fourth] = outcome.places;
    match outcome.number {
        0 => format!("accepted {first} {second} {third}\n"),
        number => format!("refused {number} {first} {second} {third} {fourth}\n"),
    }
}

impl Case {
    /// The answer as `ordersheet` prints it; for a pair list or a record, which
    /// it does not read, the first line alone.
    pub fn answer(&self) -> String {
        match &self.input {
            Input::Sheet(sheet) => String::from_utf8(printed(sheet)).unwrap(),
            Input::Pairs { count, list, hours } => first_line(&analyse_pairs(
                *count,
                list,
                hours,
                LONGEST_RECORD,
                2 * MOST_ORDERS,
            )),
            Input::Record(record) => first_line(&read_record(record, 2 * MOST_ORDERS)),
        }
    }

    /// Whether the answer has all that the paper says of this case.
    pub fn holds(&self) -> bool {
        let answer = self.answer();
        let lines: Vec<&str> = answer.lines().collect();
        let stands = |said: &&str| {
            lines
                .iter()
                .any(|line| line == said || (said.ends_with(' ') && line.starts_with(said)))
        };
        self.says.iter().all(|said| stands(said)) && (!self.whole || lines == self.says)
    }
}
