//! Ordinals as taught in school, reckoned from the Rust's phrases by the three rules that make the
//! style; signs are the Rust's.

use reference::lang::uk::{Declension, Gender, GrammaticalNumber, Ukrainian};
use reference::{BigFloat, Language};

/// What a year below 1 ends in.
pub const EARLY: &str = " до н.е.";

/// The ordinal of a number text, from what the Rust says of it.
pub fn ordinal(published: &str, text: &[u8]) -> String {
    let last = published.rfind(' ').map_or(0, |at| at + 1);
    let (front, word) = published.split_at(last);
    format!("{front}{}", last_word(word, text))
}

/// The same of a year: its ordinal stands before the noun.
pub fn year(published: &str, text: &[u8]) -> String {
    let magnitude = text.strip_prefix(b"-").unwrap_or(text);
    let noun_at = published.strip_suffix(EARLY).unwrap_or(published).rfind(' ');
    let (said, tail) = published.split_at(noun_at.expect("a noun stands behind a year"));
    ordinal(said, magnitude) + tail
}

/// The word of the lowest group that is not 0.
fn last_word(word: &str, digits: &[u8]) -> String {
    let zeros = digits.iter().rev().take_while(|digit| **digit == b'0').count();
    let order = zeros / 3;
    let digit = |place: usize| {
        let at = digits.len().checked_sub(3 * order + place + 1);
        at.map_or(0, |at| digits[at] - b'0')
    };
    let (hundreds, tens, units) = (digit(2), digit(1), digit(0));
    match (order, hundreds, tens, units) {
        (0, 2..=9, 0, 0) => genitive(hundreds) + word,
        (0, ..) => word.to_string(),
        _ => counted(word, hundreds, tens),
    }
}

/// The genitive of a digit from 2 to 9.
fn genitive(digit: u8) -> String {
    let language =
        Ukrainian::new(Gender::Masculine, GrammaticalNumber::Singular, Declension::Genitive);
    language.to_cardinal(BigFloat::from(digit)).expect("a digit is spoken")
}

/// A scale's ordinal that counts with сто and девʼяносто undeclined.
fn counted(word: &str, hundreds: u8, tens: u8) -> String {
    let word = match hundreds {
        1 => format!("сто{}", word.strip_prefix("ста").expect("a hundred is counted")),
        _ => word.to_string(),
    };
    match tens {
        9 => word.replacen("девʼяноста", "девʼяносто", 1),
        _ => word,
    }
}
