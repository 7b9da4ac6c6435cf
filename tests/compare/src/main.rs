//! `ORDERSHEET_LIB_DIR=DIR cargo run --release --offline` holds the libraries in
//! DIR, as `tools/build desk desk_tests relation_bench`
//! writes them, against `second`; with `--features mock`, `second`
//! against itself.
//! `compare` runs every family, `compare WORD...` those whose names hold one of
//! the words. The last line is `N passed, M failed`, N and M counting inputs: a
//! sheet or pair list with two area lengths, a record with one, a record for its
//! questions alone, for the longest run, the gangs and some reasons, a record with pairs
//! of job numbers for their reasons alone, a pair list with one more order for its preview
//! alone, or a pair list for its joins alone. Answers of the last are numbered 0 without a
//! circle, 7 with one, 3 and 5 where nothing is counted; those of pairs are numbered as the
//! record is read. Pairs and all previews are counted on lines of their own.

use std::process::ExitCode;
use std::time::Instant;

/// How many answers there are of each number that there is.
fn by_number(answers: &[u64]) -> String {
    let each = (0..answers.len()).filter(|&number| answers[number] > 0);
    let each: Vec<String> = each
        .map(|number| format!("{number}: {}", answers[number]))
        .collect();
    each.join(", ")
}

fn main() -> ExitCode {
    let words: Vec<String> = std::env::args().skip(1).collect();
    let mut tasks = compare::families::tasks();
    tasks.retain(|task| words.is_empty() || words.iter().any(|word| task.family.contains(word)));

    let start = Instant::now();
    let tally = compare::run(&tasks);

    println!("{:<36}{:>8}   answers by number", "family", "inputs");
    for (family, answers) in &tally.families {
        let total: u64 = answers.iter().sum();
        println!("{family:<36}{total:>8}   {}", by_number(answers));
    }
    let [accepted, refused] = tally.questions;
    println!("questions: {accepted} of records, {refused} of bytes that are none");
    let [same, before, after, free, no_job, no_record] = tally.reasons;
    println!(
        "reasons: {same} same job, {before} before, {after} after, {free} free, \
         {no_job} of no job, {no_record} in bytes that are no record"
    );
    println!("previews: {}", by_number(&tally.previews));
    let [without, with, refused] = tally.joins;
    println!("joins: {without} without a circle, {with} with one, {refused} refused");
    println!(
        "{} different inputs in {:.1} s",
        tally.distinct(),
        start.elapsed().as_secs_f64()
    );
    println!(
        "{} passed, {} failed",
        tally.inputs - tally.failed,
        tally.failed
    );
    if tally.failed == 0 && tally.inputs > 0 {
        ExitCode::SUCCESS
    } else {
        ExitCode::FAILURE
    }
}
