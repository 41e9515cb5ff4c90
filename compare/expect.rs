//! What a spelling call must answer: the rules of refusal, then the published Rust's phrase.

use crate::kinds::{Kind, Manner, Settings, SIGNS};
use crate::school;
use reference::lang::fr::{French, RegionFrench};
use reference::lang::uk::{Declension, Gender, GrammaticalNumber, Ukrainian};
use reference::{BigFloat, Currency, Language};

/// A spelling call's answer, without regard to its buffer.
#[derive(Clone, PartialEq, Eq, Debug)]
pub enum Expected {
    Refused(u32),
    Said(String),
}

impl Expected {
    /// The answer to the same text in a manner that differs in later settings alone; this one's are
    /// the Rust's.
    pub fn in_manner(&self, manner: &Manner, text: &[u8]) -> Expected {
        match self {
            Expected::Refused(refusal) => Expected::Refused(*refusal),
            Expected::Said(phrase) => Expected::Said(in_manner(phrase.clone(), manner, text)),
        }
    }
}

/// The answer for any settings, code and text. The first refusal that applies is given.
pub fn spelling(manner: &Manner, text: &[u8]) -> Expected {
    let refused = refusal_of_manner(manner).or_else(|| refusal_of_text(manner.kind, text));
    match refused {
        Some(refusal) => Expected::Refused(refusal),
        None => Expected::Said(phrase(manner, text)),
    }
}

/// 1 for a setting outside its range, used or not; 2 for a code that is not one of the 44.
pub fn refusal_of_manner(manner: &Manner) -> Option<u32> {
    let sizes = manner.kind.setting_sizes();
    if manner.settings.iter().zip(sizes).any(|(setting, size)| setting >= size) {
        return Some(1);
    }
    (manner.kind == Kind::UkMoney && currency(manner.code).is_none()).then_some(2)
}

/// The same of a reading call: 1 also for the style that is not read.
pub fn refusal_of_reading(manner: &Manner) -> Option<u32> {
    refusal_of_manner(manner).or((!manner.is_read()).then_some(1))
}

/// 3 for a malformed text, 4 for a sign that the kind does not take, 5 for a size above its limit.
pub fn refusal_of_text(kind: Kind, text: &[u8]) -> Option<u32> {
    let Some(parts) = parts(kind, text) else { return Some(3) };
    if parts.negative && !kind.takes_sign() {
        return Some(4);
    }
    above(parts.whole, &largest(kind, parts.negative)).then_some(5)
}

/// A well-formed number text, taken apart.
struct Parts<'a> {
    negative: bool,
    whole: &'a [u8],
}

fn parts(kind: Kind, text: &[u8]) -> Option<Parts<'_>> {
    let negative = text.first() == Some(&b'-');
    let unsigned = &text[usize::from(negative)..];
    let point = unsigned.iter().position(|b| *b == b'.').filter(|_| kind == Kind::UkMoney);
    let (whole, hundredths) = match point {
        Some(at) => (&unsigned[..at], Some(&unsigned[at + 1..])),
        None => (unsigned, None),
    };
    let digits = |s: &[u8]| s.iter().all(u8::is_ascii_digit);
    let whole_is_good = whole == b"0" || (digits(whole) && !matches!(whole, [] | [b'0', ..]));
    let hundredths_are_good = hundredths.is_none_or(|h| h.len() == 2 && digits(h) && h != b"00");
    let minus_is_good = !(negative && unsigned == b"0");
    let good = whole_is_good && hundredths_are_good && minus_is_good;
    good.then_some(Parts { negative, whole })
}

/// The largest magnitude; only years have one more below zero.
fn largest(kind: Kind, negative: bool) -> String {
    match kind {
        Kind::UkYear if negative => i64::MIN.unsigned_abs().to_string(),
        _ => kind.limit(),
    }
}

/// Compares digits without leading zeros.
fn above(digits: &[u8], limit: &str) -> bool {
    (digits.len(), digits) > (limit.len(), limit.as_bytes())
}

/// The published Rust's phrase for an admitted text, in the manner's style, its apostrophes
/// replaced by the manner's sign.
pub fn phrase(manner: &Manner, text: &[u8]) -> String {
    in_manner(published(manner, text), manner, text)
}

fn in_manner(published: String, manner: &Manner, text: &[u8]) -> String {
    let phrase = match manner.kind {
        Kind::UkOrdinal if manner.is_school() => school::ordinal(&published, text),
        Kind::UkYear if manner.is_school() => school::year(&published, text),
        _ => published,
    };
    match manner.sign() {
        Some(sign) if sign != SIGNS[0] => phrase.replace(SIGNS[0], sign),
        _ => phrase,
    }
}

fn published(manner: &Manner, text: &[u8]) -> String {
    let text = std::str::from_utf8(text).expect("an admitted text is ASCII");
    let number = BigFloat::parse(text).expect("an admitted text is a number");
    let said = match manner.kind {
        Kind::UkCardinal => ukrainian(manner.settings).to_cardinal(number),
        Kind::UkOrdinal => ukrainian(manner.settings).to_ordinal(number),
        Kind::UkDigitOrdinal => ukrainian(manner.settings).to_ordinal_num(number),
        Kind::UkYear => ukrainian(manner.settings).to_year(number),
        Kind::UkMoney => {
            let currency = currency(manner.code).expect("a known code");
            ukrainian(manner.settings).to_currency(number, currency)
        }
        Kind::FrCardinal => french(manner.settings).to_cardinal(number),
        Kind::FrOrdinal => french(manner.settings).to_ordinal(number),
    };
    said.expect("an admitted text is spoken")
}

fn currency(code: &[u8]) -> Option<Currency> {
    std::str::from_utf8(code).ok()?.parse().ok()
}

fn ukrainian([gender, number, case, ..]: Settings) -> Ukrainian {
    let genders = [Gender::Masculine, Gender::Feminine, Gender::Neuter];
    let numbers = [GrammaticalNumber::Singular, GrammaticalNumber::Plural];
    let cases = [
        Declension::Nominative,
        Declension::Genitive,
        Declension::Dative,
        Declension::Accusative,
        Declension::Instrumental,
        Declension::Locative,
    ];
    Ukrainian::new(genders[gender as usize], numbers[number as usize], cases[case as usize])
}

fn french([feminine, reformed, region, ..]: Settings) -> French {
    let regions = [RegionFrench::FR, RegionFrench::BE, RegionFrench::CH];
    French::new(feminine == 1, reformed == 1, regions[region as usize])
}
