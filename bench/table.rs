//! Prints the table.

use crate::kinds::Task;
use crate::times::{times, Times};
use crate::Case;

/// What was measured for one case, summed over its inputs.
#[derive(Clone, Copy, Default)]
struct Measured {
    phrases: f64,
    bytes: f64,
    times: Times,
    our_instructions: f64,
    /// Plain C's where a case spells, else those of the spelling call.
    other_instructions: f64,
}

/// Bytes and nanoseconds are those of a phrase.
const HEADINGS: [&str; 11] = [
    "call",
    "figures",
    "bytes",
    "ns",
    "Rust / ours",
    "ours / plain C",
    "ours / copy",
    "ours / spelling",
    "instructions per byte",
    "plain C's",
    "spelling's",
];

/// How many passes callgrind counts for a case.
pub const PASSES: usize = 2;

/// The counts are callgrind's, in the order of the passes; without them, columns stay empty.
pub fn print(cases: &[Case], counts: &[u64]) {
    let passes = PASSES * cases.len();
    assert!(counts.is_empty() || counts.len() == passes, "{} counts for {passes}", counts.len());
    println!("| {} |", HEADINGS.join(" | "));
    println!("|{}", "---|".repeat(HEADINGS.len()));
    let mut counts = counts.iter().map(|count| *count as f64);
    let mut sum = Measured::default();
    for (at, (case, times)) in cases.iter().zip(times(cases)).enumerate() {
        let measured = measured(case, times, &mut counts);
        line(case, &case.figures.label(), &measured);
        if !case.figures.in_spread() {
            continue;
        }
        sum = add(sum, measured);
        let more = |next: &&Case| next.figures.in_spread() && same_call(next, case);
        if cases.get(at + 1).filter(more).is_none() {
            line(case, "all", &sum);
            sum = Measured::default();
        }
    }
}

fn same_call(a: &Case, b: &Case) -> bool {
    (a.kind, a.task) == (b.kind, b.task)
}

fn measured(case: &Case, times: Times, counts: &mut impl Iterator<Item = f64>) -> Measured {
    let our_instructions = counts.next().unwrap_or(0.0);
    let other_instructions = counts.next().unwrap_or(0.0);
    Measured {
        phrases: case.inputs.len() as f64,
        bytes: case.inputs.iter().map(|input| input.phrase.len() as f64).sum(),
        times,
        our_instructions,
        other_instructions,
    }
}

fn add(a: Measured, b: Measured) -> Measured {
    let times = Times {
        ours: a.times.ours + b.times.ours,
        copy: a.times.copy + b.times.copy,
        plain: a.times.plain + b.times.plain,
        rust: a.times.rust + b.times.rust,
        spelling: a.times.spelling + b.times.spelling,
    };
    Measured {
        phrases: a.phrases + b.phrases,
        bytes: a.bytes + b.bytes,
        times,
        our_instructions: a.our_instructions + b.our_instructions,
        other_instructions: a.other_instructions + b.other_instructions,
    }
}

/// A quotient, or a dash where one side was not measured.
pub fn ratio(a: f64, b: f64) -> String {
    if a == 0.0 || b == 0.0 {
        "-".to_string()
    } else {
        format!("{:.2}", a / b)
    }
}

fn line(case: &Case, figures: &str, m: &Measured) {
    let times = &m.times;
    let call = case.kind.call(case.task).expect("a case has a call");
    let other = ratio(m.other_instructions, m.bytes);
    let (plain, spelling) = match case.task {
        Task::Spelling => (other, "-".to_string()),
        _ => ("-".to_string(), other),
    };
    let cells = [
        call.to_string(),
        figures.to_string(),
        format!("{:.0}", m.bytes / m.phrases),
        format!("{:.0}", times.ours / m.phrases),
        ratio(times.rust, times.ours),
        ratio(times.ours, times.plain),
        ratio(times.ours, times.copy),
        ratio(times.ours, times.spelling),
        ratio(m.our_instructions, m.bytes),
        plain,
        spelling,
    ];
    println!("| {} |", cells.join(" | "));
}
