//! `second` reads a sheet from standard input and prints what `ordersheet`
//! would; `second --record` reads a record and prints what it gives; `second
//! --cases` prints the papers' cases with their answers, one to a line, a line
//! feed within a sheet or an answer shown as `/`, a carriage return as `<`.

use second::{cases, printed, read_record, LONGEST_SHEET, MOST_ORDERS};
use std::io::{self, Read, Write};

/// The answer's number and places, the reduced orders as written, both sequences
/// and the hours whole, each a line.
fn printed_record(record: &[u8]) -> String {
    let outcome = read_record(record, 2 * MOST_ORDERS);
    let line = |word: &str, numbers: Vec<u64>| {
        let shown: String = numbers.iter().map(|n| format!(" {n}")).collect();
        format!("{word}{shown}\n")
    };
    let wide = |bytes: &[u8]| bytes.iter().map(|&byte| byte as u64).collect();
    line(
        "answer",
        [vec![outcome.number], outcome.places.to_vec()].concat(),
    ) + &line("arcs", wide(&outcome.reduced))
        + &line("forward", wide(&outcome.forward))
        + &line("reverse", wide(&outcome.reverse))
        + &line("hours", outcome.hours.map(u64::from).to_vec())
}

fn main() -> io::Result<()> {
    let mut output = io::stdout().lock();
    if std::env::args().nth(1).as_deref() == Some("--cases") {
        for case in cases::cases() {
            let star = if case.starred { "* " } else { "" };
            let answer = case.answer().replace('\n', "/");
            writeln!(output, "{star}{}: {answer}", case.shown)?;
        }
        return Ok(());
    }
    if std::env::args().nth(1).as_deref() == Some("--record") {
        let mut record = Vec::new();
        io::stdin().lock().read_to_end(&mut record)?;
        return output.write_all(printed_record(&record).as_bytes());
    }
    // One byte over the longest sheet is enough to refuse it.
    let mut sheet = Vec::new();
    io::stdin()
        .lock()
        .take(LONGEST_SHEET as u64 + 1)
        .read_to_end(&mut sheet)?;
    output.write_all(&printed(&sheet))
}
