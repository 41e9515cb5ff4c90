//! Writes expected answers: the table for the C host test, and lines for the program `phrases`.

use crate::expect;
use crate::kinds::{Kind, Manner, CODES, KINDS};
use crate::lines;
use crate::sample_lines;
use std::path::Path;

pub fn write(table: &Path, folder: &Path) {
    save(table, expected_answers().as_bytes());
    save_lines(folder, "phrases", &sample_lines::mixed(), true);
    save_lines(folder, "odd", &sample_lines::odd(), false);
}

fn save(path: &Path, bytes: &[u8]) {
    std::fs::write(path, bytes).expect("the folder can be written to");
    println!("{}: {} bytes", path.display(), bytes.len());
}

/// The lines and their answers as two files; the last line may lack its line feed.
fn save_lines(folder: &Path, name: &str, lines: &[Vec<u8>], last_feed: bool) {
    let mut input = lines.join(&b'\n');
    if last_feed {
        input.push(b'\n');
    }
    let answers: String = lines.iter().map(|line| lines::answer(line) + "\n").collect();
    save(&folder.join(format!("{name}.in")), &input);
    save(&folder.join(format!("{name}.out")), answers.as_bytes());
    println!("{name}: {} lines", lines.len());
}

const HEADER: &str = "\
# Phrases of the published Rust (Ballasi/num2words e3ede741fe, src/lang/uk.rs and src/lang/fr.rs),
# built unchanged with exact decimals. Made by `compare/run.sh samples`; not edited by hand.
# A line is a spelling call without its prefix, its three setting numbers, for money a code, the
# number text (the year's number for uk_to_year), an arrow, and the phrase to the end of the line.
";

fn expected_answers() -> String {
    let mut table = HEADER.to_string();
    for kind in KINDS {
        for (manner, text) in spread(kind) {
            let [a, b, c, ..] = manner.settings;
            let code = String::from_utf8_lossy(manner.code);
            let code = if code.is_empty() { String::new() } else { format!(" {code}") };
            let phrase = expect::phrase(&manner, text.as_bytes());
            let call = kind.spelling_call();
            table.push_str(&format!("{call} {a} {b} {c}{code} {text} -> {phrase}\n"));
        }
    }
    table
}

/// Texts of a kind in settings that take turns: each text in every case or region.
fn spread(kind: Kind) -> Vec<(Manner<'static>, String)> {
    if kind == Kind::UkMoney {
        return money_spread();
    }
    let last = kind.setting_sizes()[2];
    let all = kind.ported_settings();
    let fronts = all.len() as u32 / last;
    let mut spread = Vec::new();
    for (at, text) in spread_texts(kind).into_iter().enumerate() {
        for (turn, settings) in all.iter().enumerate() {
            if turn as u32 / last == at as u32 % fronts {
                spread.push((Manner::new(kind, *settings, ""), text.clone()));
            }
        }
    }
    spread
}

/// Every currency in every case, the texts taking turns.
fn money_spread() -> Vec<(Manner<'static>, String)> {
    let amounts = "1 2 5 0.01 0.02 0.05 1.01 2.02 5.05 0 11.11 21.21 22.22 0.10 100.99 0.99 1000 \
                   1001.30 2000000.04 12.12 999999.14 18446744073709551615.99 0.31 \
                   10000000000000000000 14989989989989989989.89";
    let amounts: Vec<&str> = amounts.split_whitespace().collect();
    let mut spread = Vec::new();
    let settings = Kind::UkMoney.ported_settings();
    for (turn, (code, case)) in CODES.iter().flat_map(|c| (0..6).map(move |k| (c, k))).enumerate() {
        let front = settings[(turn * 6) % settings.len()];
        let manner = Manner::new(Kind::UkMoney, [front[0], front[1], case, 0, 0], code);
        spread.push((manner, amounts[turn * 7 % amounts.len()].to_string()));
    }
    spread
}

fn spread_texts(kind: Kind) -> Vec<String> {
    let limit = kind.limit();
    let short = match kind {
        Kind::UkDigitOrdinal => "0 1 3 13 23 113 3000 42 103 1000000 999",
        Kind::UkYear => {
            "0 1 3 -1 -43 13 1000 1991 2000 2024 2013 -2013 988 21000 1900 3000000 -9223372036854775808"
        }
        Kind::UkCardinal | Kind::UkOrdinal => {
            "0 1 2 3 5 10 11 13 19 21 40 42 90 99 100 101 102 200 313 999 1000 1001 2000 5000 \
             11000 21000 23000 100000 121012 1000000 1001000 2000000 21000000 999999 \
             1000000000001 18000000000000000000"
        }
        Kind::FrCardinal | Kind::FrOrdinal => {
            "0 1 2 5 9 10 11 16 17 20 21 31 70 71 72 77 80 81 88 90 91 97 100 101 180 200 201 280 \
             300 999 1000 1001 1100 2000 2001 21000 71071 80000 80080 81000 200000 280000 1000000 \
             2000000 80000000 200000000 10000000000001 91000000000000000000000000000000000000000"
        }
        Kind::UkMoney => "",
    };
    let mut texts: Vec<String> = short.split_whitespace().map(str::to_string).collect();
    texts.push(limit.clone());
    if kind == Kind::UkCardinal {
        texts.extend(["-1", "-2000000", "-111"].map(str::to_string));
        texts.push(format!("-{}", "989".repeat(22)));
    }
    if kind == Kind::FrCardinal {
        texts.extend(["-1", "-21", "-80000"].map(str::to_string));
        texts.push(format!("-{}", "997".repeat(34)));
    }
    texts.push(format!("1{}", "0".repeat(limit.len() - 1)));
    texts
}
