//! The counts as Markdown.

use crate::job::{Growth, Row, Subject};
use crate::measure::Counted;
use std::time::Duration;

/// Twice, to two decimals: the end of an input can cost less than the rest of it.
const TWICE: f64 = 2.005;
/// A time is marked where it is so many times what the instructions say.
const SLOW: f64 = 1.3;

/// What one row measured.
pub struct Measured {
    pub unit: (&'static str, u64),
    pub counts: Vec<(Subject, Counted)>,
    pub times: Vec<(Subject, Duration)>,
}

impl Measured {
    fn count(&self, subject: Subject) -> Option<f64> {
        let found = self.counts.iter().find(|(one, _)| *one == subject)?;
        Some(found.1.instructions as f64)
    }

    fn time(&self, subject: Subject) -> Option<f64> {
        let found = self.times.iter().find(|(one, _)| *one == subject)?;
        Some(found.1.as_secs_f64())
    }

    /// What the archive takes by what the better of the two C takes.
    fn beside_c(&self, of: fn(&Measured, Subject) -> Option<f64>) -> f64 {
        let taken = |subject| of(self, subject).expect("a subject of every row");
        taken(Subject::Archive) / taken(Subject::Gcc).min(taken(Subject::Clang))
    }

    fn instructions(&self) -> f64 {
        self.beside_c(Measured::count)
    }

    /// The ratio of the times, with a mark where it is far above that of the instructions.
    fn marked_time(&self) -> String {
        let time = self.beside_c(Measured::time);
        let mark = if time > SLOW * self.instructions() {
            " *"
        } else {
            ""
        };
        format!("{time:.2}{mark}")
    }
}

pub fn print(rows: &[Row], measured: &[Measured]) {
    let lines: Vec<_> = rows.iter().zip(measured).collect();
    for group in lines.chunk_by(|(one, _), (next, _)| one.group == next.group) {
        let there = |subject: &Subject| group.iter().any(|(_, row)| row.count(*subject).is_some());
        let subjects: Vec<_> = Subject::ALL.into_iter().filter(there).collect();
        print_head(group[0].0.group, &subjects);
        for (row, measured) in group {
            print_line(&row.name, &subjects, measured);
        }
    }
}

fn head(subject: Subject) -> &'static str {
    match subject {
        Subject::Archive => "archive",
        Subject::Gcc => "C, gcc",
        Subject::Clang => "C, clang",
        Subject::Rust => "plain Rust",
        Subject::Nanopb => "nanopb",
        Subject::ProtobufC => "protobuf-c",
    }
}

fn print_head(group: &str, subjects: &[Subject]) {
    let heads: Vec<_> = subjects.iter().map(|subject| head(*subject)).collect();
    println!("\n### {group}\n");
    println!(
        "| input | instructions a | {} | archive / C | time, archive / C |",
        heads.join(" | ")
    );
    println!("|---|---|{}", "--:|".repeat(heads.len() + 2));
}

fn print_line(name: &str, subjects: &[Subject], measured: &Measured) {
    let (unit, count) = measured.unit;
    let each = subjects.iter().map(|&subject| {
        let number = measured.count(subject).map(|number| number / count as f64);
        number.map_or_else(String::new, figures)
    });
    println!(
        "| {name} | {unit} | {} | {:.2} | {} |",
        each.collect::<Vec<_>>().join(" | "),
        measured.instructions(),
        measured.marked_time(),
    );
}

/// Two decimals where a number is small, none where it is large.
fn figures(number: f64) -> String {
    match number {
        small if small < 100.0 => format!("{small:.2}"),
        large => format!("{large:.0}"),
    }
}

/// What the archive takes at the first size of growing inputs, and each later count by the one
/// before. Gives the names of those that more than double.
pub fn print_growth(all: &[Growth], counts: &[[u64; 4]]) -> Vec<String> {
    println!("\n### growth of the archive's counts\n");
    println!("| input | n | instructions at n | 2n / n | 4n / 2n | 8n / 4n |");
    println!("|---|---|--:|--:|--:|--:|");
    let mut steep = Vec::new();
    for (growth, counts) in all.iter().zip(counts) {
        let ratios = [1, 2, 3].map(|at| counts[at] as f64 / counts[at - 1] as f64);
        let text = ratios.map(|ratio| format!("{ratio:.3}")).join(" | ");
        println!(
            "| {} | {} {} | {} | {text} |",
            growth.name, growth.sizes[0], growth.unit, counts[0]
        );
        if ratios.iter().any(|ratio| *ratio > TWICE) {
            steep.push(growth.name.clone());
        }
    }
    steep
}
