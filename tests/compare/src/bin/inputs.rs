//! `inputs DIR` writes some 260 sheets into the directory, one to a file:
//! the papers' cases, and orders of every kind from a fixed seed.

use compare::generate::*;
use second::{cases, LONGEST_SHEET};
use std::{env, fs, io, path::Path};

fn sheets() -> Vec<Vec<u8>> {
    let mut rng = Rng::new(1);
    let mut sheets = Vec::new();
    for case in cases::cases() {
        if let cases::Input::Sheet(sheet) = case.input {
            sheets.push(sheet);
        }
    }
    for round in 0..200 {
        let count = if round % 20 == 0 {
            rng.from(100, 128)
        } else {
            job_count(&mut rng)
        };
        let mut orders = if round % 5 == 0 {
            any_graph(&mut rng, count)
        } else {
            series_parallel(&mut rng, count)
        };
        if round % 5 == 1 {
            orders.push((rng.below(count), rng.below(count + 1)));
        }
        let mut text = sheet(count, &hours(&mut rng, count), &orders);
        if round % 2 == 1 {
            text = any_end(&mut rng, &text);
        }
        if round % 5 == 2 {
            edit(&mut rng, &mut text);
        }
        sheets.push(text);
    }
    sheets.push(
        b"3\n0\n0\n0\n"
            .iter()
            .chain(&b"0 1\n".repeat(4097))
            .copied()
            .collect(),
    );
    sheets.push(b"1".repeat(LONGEST_SHEET + 1));
    sheets
}

fn main() -> io::Result<()> {
    let directory = env::args().nth(1).expect("a directory is named");
    for (i, sheet) in sheets().iter().enumerate() {
        fs::write(Path::new(&directory).join(format!("{i:03}")), sheet)?;
    }
    Ok(())
}
