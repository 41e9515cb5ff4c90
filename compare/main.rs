//! Compares every answer of the library with the published Rust's, through the C calls. Ordinals in
//! school's style, which the Rust does not have, are reckoned from its phrases.
//!
//! `compare` takes about a minute, `compare full` much longer;
//! `compare samples TABLE FOLDER` writes expected answers instead and asks no call.

mod calls;
mod check;
mod damage;
mod expect;
mod guess;
mod kinds;
mod lines;
mod ordinals;
mod random;
mod sample_lines;
mod samples;
mod school;
mod shrink;
mod spelling;
mod stems;
mod texts;

use check::{Checker, Counts, Difference};
use kinds::{Kind, Manner, KINDS};
use random::Random;
use std::thread;
use std::time::Instant;

/// How much is compared.
pub struct Size {
    pub full: bool,
    /// All texts up to here where the settings are few.
    pub few_settings: u32,
    /// All texts up to here in each of the Ukrainian settings.
    pub many_settings: u32,
    /// All texts up to here in the same and each of the 44 currencies.
    pub most_settings: u32,
    /// All amounts up to so many hundredths in the same.
    pub hundredths: u32,
    pub random_texts: usize,
    /// Of the 108 manners in which ordinals are read, every so many-th has its turn at a number below
    /// a million, at a group of an order, and at all compounds.
    pub million_step: usize,
    pub group_step: usize,
    pub compound_step: usize,
    /// Phrases of which every byte is changed.
    pub byte_phrases: usize,
    /// Phrases of which words are moved.
    pub word_phrases: usize,
    pub random_phrases: usize,
}

const QUICK: Size = Size {
    full: false,
    few_settings: 100_000,
    many_settings: 2_000,
    most_settings: 2_000,
    hundredths: 299,
    random_texts: 200_000,
    million_step: 108,
    group_step: 12,
    compound_step: 37,
    byte_phrases: 72,
    word_phrases: 1_200,
    random_phrases: 2_000,
};

const FULL: Size = Size {
    full: true,
    few_settings: 100_000,
    many_settings: 100_000,
    most_settings: 2_000,
    hundredths: 2_000,
    random_texts: 1_000_000,
    million_step: 3,
    group_step: 1,
    compound_step: 4,
    byte_phrases: 180,
    word_phrases: 6_000,
    random_phrases: 10_000,
};

fn main() {
    let arguments: Vec<String> = std::env::args().skip(1).collect();
    let arguments: Vec<&str> = arguments.iter().map(String::as_str).collect();
    match arguments.as_slice() {
        [] => compare(&QUICK),
        ["full"] => compare(&FULL),
        ["samples", table, folder] => samples::write(table.as_ref(), folder.as_ref()),
        _ => {
            eprintln!("usage: compare [full | samples TABLE FOLDER]");
            std::process::exit(2);
        }
    }
}

fn compare(size: &Size) {
    let seed = std::env::var("YOKEPEAR_SEED").ok().and_then(|s| s.parse().ok()).unwrap_or(1);
    println!("seed {seed}");
    let mut total = Counts::default();
    // The kinds share nothing, so that each has a thread; what they found is told in their order.
    thread::scope(|scope| {
        let running = KINDS.map(|kind| (kind, scope.spawn(move || timed(kind, size, seed))));
        for (kind, thread) in running {
            match thread.join().expect("a comparison that ends") {
                (Ok(counts), seconds) => {
                    println!("{}: {}, {seconds:.1} s", kind.name(), show(&counts));
                    add(&mut total, &counts);
                }
                (Err(found), _) => {
                    report(found);
                    std::process::exit(1);
                }
            }
        }
    });
    println!("all: {}", show(&total));
    println!("no difference");
}

fn timed(kind: Kind, size: &Size, seed: u64) -> (Result<Counts, Difference>, f32) {
    let start = Instant::now();
    (compare_kind(kind, size, seed), start.elapsed().as_secs_f32())
}

fn compare_kind(kind: Kind, size: &Size, seed: u64) -> Result<Counts, Difference> {
    let mut checker = Checker::new(17);
    let mut random = Random::new(seed);
    spelling::run(kind, size, &mut checker, &mut random)?;
    ordinals::run(kind, size, &mut checker)?;
    if kind.is_read() {
        damage::run(kind, size, &mut checker, &mut random)?;
    }
    Ok(checker.counts)
}

fn add(total: &mut Counts, counts: &Counts) {
    total.spelled += counts.spelled;
    total.schooled += counts.schooled;
    total.refused += counts.refused;
    total.measured += counts.measured;
    total.read_back += counts.read_back;
    total.rooms += counts.rooms;
    total.damaged += counts.damaged;
    total.still_sentences += counts.still_sentences;
}

fn show(counts: &Counts) -> String {
    let Counts { spelled, schooled, refused, measured, read_back, .. } = counts;
    let Counts { rooms, damaged, still_sentences, .. } = counts;
    let spelling = format!("{spelled} phrases as the Rust's, {schooled} as taught in school");
    let spelling = format!("{spelling}, {refused} texts refused as predicted");
    let reading = format!("{read_back} phrases read back, {damaged} damaged phrases read");
    let reading = format!("{reading} ({still_sentences} of them sentences)");
    format!("{spelling}, {measured} measured, {reading}, {rooms} small buffers")
}

/// Says what differs, with the smallest input that was found to show it.
fn report(found: Difference) {
    let first = String::from_utf8_lossy(&found.input).into_owned();
    let found = shrink::smallest(found);
    let manner = Manner { kind: found.kind, settings: found.settings, code: &found.code };
    let call = found.kind.call(found.task).expect("a call that was asked");
    println!("DIFFERENCE in yokepear_{call} ({})", manner.show());
    println!("  input: [{}] ({})", String::from_utf8_lossy(&found.input), hex(&found.input));
    println!("{}", found.what);
    println!("  first seen with [{first}]");
}

fn hex(bytes: &[u8]) -> String {
    bytes.iter().map(|b| format!("{b:02x}")).collect::<Vec<_>>().join(" ")
}
