//! Instructions and time of the library's archive beside careful C, plain Rust, nanopb and protobuf-c.
//!
//! `bench` prints the tables as Markdown; `bench --only WORD` those lines whose group or name has
//! the word. `bench count ROW SUBJECT` and `bench grow INPUT SIZE` are the runs that callgrind
//! counts; they print the digest of all answers.

mod calls;
mod classic;
mod control;
mod digest;
mod firmware;
mod growth;
mod inputs;
mod job;
mod low_energy;
mod measure;
mod outbox;
mod replies;
mod rows;
mod rows_classic;
mod rows_control;
mod rows_firmware;
mod rows_low_energy;
mod rows_outbox;
mod rows_replies;
mod rust;
mod table;

use job::{Row, Subject};
use measure::{count_all, time_all, verify, Counted, Run};
use std::env;
use std::process::ExitCode;
use table::Measured;

fn main() -> ExitCode {
    let words: Vec<String> = env::args().skip(1).collect();
    let words: Vec<&str> = words.iter().map(String::as_str).collect();
    let done = match words[..] {
        ["count", row, subject] => count_one(row, subject),
        ["grow", input, size] => grow_one(input, size),
        [] => tables("").and_then(|()| growth_table("")),
        ["--only", word] => tables(word).and_then(|()| growth_table(word)),
        _ => Err("bench, or bench --only WORD".to_string()),
    };
    match done {
        Ok(()) => ExitCode::SUCCESS,
        Err(reason) => {
            eprintln!("bench: {reason}");
            ExitCode::FAILURE
        }
    }
}

fn count_one(row: &str, subject: &str) -> Result<(), String> {
    let rows = rows::rows();
    let row = rows
        .iter()
        .find(|one| one.key() == row)
        .ok_or("no such row")?;
    let subject = Subject::named(subject).ok_or("no such subject")?;
    let mut job = (row.make)();
    println!("{}", job.work(subject)(false));
    Ok(())
}

fn grow_one(input: &str, size: &str) -> Result<(), String> {
    let all = growth::growth();
    let growth = all
        .iter()
        .find(|one| one.name == input)
        .ok_or("no such input")?;
    let size = size.parse().map_err(|_| "no such size")?;
    let mut job = (growth.make)(size);
    println!("{}", job.work(Subject::Archive)(false));
    Ok(())
}

fn tables(word: &str) -> Result<(), String> {
    let rows: Vec<Row> = rows::rows()
        .into_iter()
        .filter(|row| row.key().contains(word))
        .collect();
    let mut runs = Vec::new();
    for row in &rows {
        let mut job = (row.make)();
        verify(&mut job).map_err(|reason| format!("{}: {reason}", row.key()))?;
        let run = |subject: Subject| Run {
            words: vec!["count".to_string(), row.key(), subject.name()],
            functions: subject.counted(),
        };
        runs.extend(job.subjects().into_iter().map(run));
    }
    let mut counts = count_all(&runs).into_iter();
    let mut lines = Vec::new();
    for row in &rows {
        lines.push(line(row, &mut counts)?);
    }
    table::print(&rows, &lines);
    Ok(())
}

/// The counts of a row, which have to go with the same answers, and its times.
fn line(row: &Row, counts: &mut impl Iterator<Item = Counted>) -> Result<Measured, String> {
    let job = (row.make)();
    let counts: Vec<_> = job.subjects().into_iter().zip(counts).collect();
    let digest = counts[0].1.digest;
    if counts.iter().any(|(_, counted)| counted.digest != digest) {
        return Err(format!(
            "{}: the answers differ in the counted run",
            row.key()
        ));
    }
    Ok(Measured {
        unit: job.unit,
        counts,
        times: time_all(&row.make),
    })
}

/// Fails if doubling an input more than doubles the count.
fn growth_table(word: &str) -> Result<(), String> {
    let mut all = growth::growth();
    all.retain(|growth| growth.name.contains(word));
    let mut runs = Vec::new();
    for growth in &all {
        let run = |size: usize| Run {
            words: vec!["grow".to_string(), growth.name.clone(), size.to_string()],
            functions: Subject::Archive.counted(),
        };
        runs.extend(growth.sizes.map(run));
    }
    let counts = count_all(&runs);
    let counts: Vec<_> = counts
        .chunks_exact(4)
        .map(|sizes| [0, 1, 2, 3].map(|at| sizes[at].instructions))
        .collect();
    let steep = table::print_growth(&all, &counts);
    match steep.is_empty() {
        true => Ok(()),
        false => Err(format!("more than linear: {steep:?}")),
    }
}
