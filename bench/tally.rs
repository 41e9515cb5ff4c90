//! Tallies: an everyday price is added to so many amounts and removed again, which speaks two
//! totals, beside the money call on the same two; and both are previewed, beside adding and removing
//! themselves. All in hryvnias, in every setting of the Rust.

use crate::expect;
use crate::inputs::{self, Figures, Input};
use crate::kinds::{Kind, Manner, Task};
use crate::subjects::{self, Subject, Tally};
use crate::table::ratio;
use crate::times::{in_turns, Timed};
use crate::{bench_pass, Room};
use std::cell::RefCell;

/// How many amounts are held before.
const HELD: [usize; 3] = [0, 10, 63];

const CODE: &str = "UAH";

/// The two tables.
#[derive(Clone, Copy)]
enum Table {
    /// Adding and removing, beside the money call.
    Changes,
    /// Their previews, beside adding and removing.
    Previews,
}

const TABLES: [Table; 2] = [Table::Changes, Table::Previews];

impl Table {
    fn calls(self) -> &'static str {
        match self {
            Table::Changes => "tally_add, tally_remove",
            Table::Previews => "tally_preview_add, tally_preview_remove",
        }
    }

    fn headings(self) -> [&'static str; 7] {
        let (ratio, other) = match self {
            Table::Changes => ("ours / spelling", "spelling's"),
            Table::Previews => ("ours / changing", "changing's"),
        };
        ["calls", "amounts held", "bytes", "ns", ratio, "instructions per byte", other]
    }
}

/// One line of each table.
struct Case {
    held: usize,
    /// What is added and removed again; the phrase is that of both totals, one after the other.
    prices: Vec<Input>,
    /// The same totals, for the money call: twice as many.
    totals: Vec<Input>,
    /// The texts of the amounts that are held.
    amounts: Vec<Vec<u8>>,
}

impl Case {
    fn new(held: usize) -> Self {
        let prices = inputs::inputs(Kind::UkMoney, Task::Spelling, Figures::Prices);
        let amounts: Vec<_> = prices.iter().take(held).map(|price| price.text.clone()).collect();
        let before = amounts.iter().map(|text| hundredths(text)).sum();
        let mut case = Case { held, prices: Vec::new(), totals: Vec::new(), amounts };
        for price in prices {
            let manner = Manner::new(Kind::UkMoney, price.manner.settings, CODE);
            let both = [before + hundredths(&price.text), before].map(|sum| total(manner, sum));
            let phrase = [&both[0].phrase[..], &both[1].phrase[..]].concat();
            case.prices.push(Input { manner, text: price.text, year: 0, phrase });
            case.totals.extend(both);
        }
        case
    }

    /// What a table times, and what stands beside it; each with what it is given.
    fn subjects(&self, table: Table) -> [(&[Input], Subject); 2] {
        match table {
            Table::Changes => {
                [(&self.prices, self.changes()), (&self.totals, subjects::spelling(Kind::UkMoney))]
            }
            Table::Previews => [(&self.prices, self.previews()), (&self.prices, self.changes())],
        }
    }

    fn changes(&self) -> Subject {
        let tally = RefCell::new(Tally::of(CODE, &self.amounts));
        Box::new(move |price, out| {
            let mut tally = tally.borrow_mut();
            let (item, added) = tally.add(price, out);
            added + tally.remove(item, price, &mut out[added..])
        })
    }

    /// The previews of the same two: of adding to what is held; and of removing from one amount
    /// more, which leaves the same total whatever the amount is.
    fn previews(&self) -> Subject {
        let tally = Tally::of(CODE, &self.amounts);
        let mut with_one = Tally::of(CODE, &self.amounts);
        let Room(out) = &mut Room::new();
        let (item, _) = with_one.add(&self.prices[0], out);
        Box::new(move |price, out| {
            let (next, added) = tally.preview_add(price, out);
            assert!(next == item, "a preview gives another item number");
            added + with_one.preview_remove(item, price, &mut out[added..])
        })
    }

    /// What is timed must be right.
    fn check(&self) {
        let Room(out) = &mut Room::new();
        for (inputs, subject) in TABLES.into_iter().flat_map(|table| self.subjects(table)) {
            for input in inputs {
                let length = subject(input, out);
                assert!(out[..length] == input.phrase[..], "another total with {} held", self.held);
            }
        }
    }
}

/// The hundredths of a text that has them.
fn hundredths(text: &[u8]) -> u64 {
    let digits: String = text.iter().filter(|byte| **byte != b'.').map(|b| *b as char).collect();
    digits.parse().expect("a price has a point and two digits")
}

/// A total with its phrase.
fn total(manner: Manner<'static>, sum: u64) -> Input {
    let text = match sum % 100 {
        0 => format!("{}", sum / 100),
        rest => format!("{}.{rest:02}", sum / 100),
    };
    let phrase = expect::phrase(&manner, text.as_bytes()).into_bytes();
    Input { manner, text: text.into_bytes(), year: 0, phrase }
}

fn cases() -> Vec<Case> {
    let cases: Vec<Case> = HELD.into_iter().map(Case::new).collect();
    cases.iter().for_each(Case::check);
    cases
}

/// The passes that callgrind counts: of each table's cases the library's, and what stands beside it.
pub fn count() {
    let Room(out) = &mut Room::new();
    let cases = cases();
    for table in TABLES {
        for (inputs, subject) in cases.iter().flat_map(|case| case.subjects(table)) {
            std::hint::black_box(bench_pass(inputs, &subject, out));
        }
    }
}

/// Prints the tables, with callgrind's counts in the order of the passes where there are any.
pub fn print(counts: &[u64]) {
    let mut counts = counts.iter().map(|count| *count as f64);
    let cases = cases();
    for table in TABLES {
        let headings = table.headings();
        println!("\n| {} |", headings.join(" | "));
        println!("|{}", "---|".repeat(headings.len()));
        for case in &cases {
            line(table, case, &mut counts);
        }
    }
}

fn line(table: Table, case: &Case, counts: &mut impl Iterator<Item = f64>) {
    let best = in_turns(case.subjects(table).map(|(inputs, s)| Timed::new(inputs, s)));
    let phrases = case.totals.len() as f64;
    let bytes: f64 = case.totals.iter().map(|total| total.phrase.len() as f64).sum();
    let cells = [
        table.calls().to_string(),
        case.held.to_string(),
        format!("{:.0}", bytes / phrases),
        format!("{:.0}", best[0] / phrases),
        ratio(best[0], best[1]),
        ratio(counts.next().unwrap_or(0.0), bytes),
        ratio(counts.next().unwrap_or(0.0), bytes),
    ];
    println!("| {} |", cells.join(" | "));
}
