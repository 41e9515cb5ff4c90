//! Measures each call of the library on fixed inputs: a spread of lengths, and everyday figures.
//!
//! `bench count` answers every input once with the library, and once with what it is compared with:
//! plain C where it spells, else its spelling call. Each has its own run of `bench_pass`, for
//! callgrind to count. `bench table [COUNTS]` takes the times and prints both.

// The benchmark shares these with the comparing program, which uses more of them.
#[allow(dead_code)]
#[path = "../compare/expect.rs"]
mod expect;
#[allow(dead_code)]
#[path = "../compare/kinds.rs"]
mod kinds;
#[allow(dead_code)]
#[path = "../compare/random.rs"]
mod random;
#[allow(dead_code)]
#[path = "../compare/school.rs"]
mod school;

mod inputs;
mod subjects;
mod table;
mod tally;
mod times;

use inputs::{Figures, Input};
use kinds::{Kind, Task, KINDS};
use subjects::Subject;

/// The lent buffer, longer than the longest answer. It has a page of its own: an answer that goes over
/// the edge of a page takes longer, and where the stack lies changes from run to run.
#[repr(align(4096))]
pub struct Room([u8; 4096]);

impl Room {
    pub fn new() -> Self {
        Room([0; 4096])
    }
}

/// One line of the table: a call on figures of one sort.
pub struct Case {
    pub kind: Kind,
    pub task: Task,
    pub figures: Figures,
    pub inputs: Vec<Input>,
}

fn main() {
    let arguments: Vec<String> = std::env::args().skip(1).collect();
    let arguments: Vec<&str> = arguments.iter().map(String::as_str).collect();
    match arguments.as_slice() {
        ["count"] => {
            cases().iter().for_each(count);
            tally::count();
        }
        ["table"] => print(&[]),
        ["table", counts] => {
            let counts = std::fs::read_to_string(counts).expect("the counts can be read");
            let counts: Vec<u64> = counts.lines().filter_map(|line| line.parse().ok()).collect();
            print(&counts);
        }
        _ => {
            eprintln!("usage: bench count | bench table [COUNTS]");
            std::process::exit(2);
        }
    }
}

/// The table, and those of tallies, whose counts come last.
fn print(counts: &[u64]) {
    let cases = cases();
    let (own, of_tallies) = counts.split_at(counts.len().min(table::PASSES * cases.len()));
    table::print(&cases, own);
    tally::print(of_tallies);
}

/// All cases of the calls, each checked against the Rust's phrases.
fn cases() -> Vec<Case> {
    let mut cases = Vec::new();
    for kind in KINDS {
        for task in [Task::Spelling, Task::Measuring, Task::Reading] {
            if library(kind, task).is_none() {
                continue;
            }
            for figures in inputs::figures(kind) {
                let inputs = inputs::inputs(kind, task, figures);
                let case = Case { kind, task, figures, inputs };
                check(&case);
                cases.push(case);
            }
        }
    }
    cases
}

pub fn library(kind: Kind, task: Task) -> Option<Subject> {
    match task {
        Task::Spelling => Some(subjects::spelling(kind)),
        Task::Measuring => Some(subjects::measuring(kind)),
        Task::Reading => subjects::reading(kind),
    }
}

/// The library's call, and what it is compared with: plain C's where it spells, else the library's
/// spelling call.
fn subjects_of(case: &Case) -> [(Task, Subject); 2] {
    let ours = library(case.kind, case.task).expect("a case has a call");
    let other = match case.task {
        Task::Spelling => subjects::plain(case.kind),
        _ => subjects::spelling(case.kind),
    };
    [(case.task, ours), (Task::Spelling, other)]
}

/// What is timed must be right: the library and plain C give the Rust's phrase, its text or its
/// length.
fn check(case: &Case) {
    let Room(out) = &mut Room::new();
    for (task, subject) in subjects_of(case) {
        for input in &case.inputs {
            let length = subject(input, out);
            let right = match task {
                Task::Spelling => out[..length] == input.phrase[..],
                Task::Measuring => length == input.phrase.len(),
                Task::Reading => out[..length] == input.text[..],
            };
            assert!(right, "another answer for {}", String::from_utf8_lossy(&input.text));
        }
    }
}

/// Answers every input. It is a function of its own so that callgrind counts what it does alone.
#[no_mangle]
#[inline(never)]
pub fn bench_pass(inputs: &[Input], subject: &Subject, out: &mut [u8]) -> usize {
    inputs.iter().map(|input| subject(input, out)).sum()
}

/// The passes that callgrind counts, in this order: the library, and what it is compared with.
fn count(case: &Case) {
    let Room(out) = &mut Room::new();
    for (_, subject) in subjects_of(case) {
        std::hint::black_box(bench_pass(&case.inputs, &subject, out));
    }
}
