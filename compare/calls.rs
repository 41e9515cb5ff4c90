//! The C calls of the library.

use crate::kinds::{Kind, Manner};

/// The answer of a call that writes: refusal 0 and its length, or the number of a refusal.
#[repr(C)]
#[derive(Clone, Copy, PartialEq, Eq, Debug)]
pub struct Answer {
    pub refusal: u32,
    pub length: usize,
}

/// The answer of a measuring call: refusal 0 and what the phrase has, or the number of a refusal.
#[repr(C)]
#[derive(Clone, Copy, PartialEq, Eq, Debug)]
pub struct Measure {
    pub refusal: u32,
    pub words: u32,
    pub length: usize,
}

/// Declares Ukrainian calls; the settings, which stand at the front, are left out.
macro_rules! ukrainian {
    ($(fn $name:ident($($rest:ident: $type:ty),*) -> $answer:ty;)*) => {
        extern "C" {
            $(fn $name(a: u32, b: u32, c: u32, d: u32, e: u32, $($rest: $type),*) -> $answer;)*
        }
    };
}

/// The same of French ones.
macro_rules! french {
    ($(fn $name:ident($($rest:ident: $type:ty),*) -> $answer:ty;)*) => {
        extern "C" {
            $(fn $name(a: u32, b: u32, c: u32, $($rest: $type),*) -> $answer;)*
        }
    };
}

type Bytes = *const u8;
type Room = *mut u8;

#[rustfmt::skip]
ukrainian! {
    fn yokepear_uk_to_cardinal(s: Bytes, n: usize, out: Room, room: usize) -> Answer;
    fn yokepear_uk_to_ordinal(s: Bytes, n: usize, out: Room, room: usize) -> Answer;
    fn yokepear_uk_to_ordinal_num(s: Bytes, n: usize, out: Room, room: usize) -> Answer;
    fn yokepear_uk_to_year(year: i64, out: Room, room: usize) -> Answer;
    fn yokepear_uk_to_currency(
        code: Bytes, k: usize, s: Bytes, n: usize, out: Room, room: usize) -> Answer;
    fn yokepear_uk_from_cardinal(s: Bytes, n: usize, out: Room, room: usize) -> Answer;
    fn yokepear_uk_from_ordinal(s: Bytes, n: usize, out: Room, room: usize) -> Answer;
    fn yokepear_uk_from_year(s: Bytes, n: usize, out: Room, room: usize) -> Answer;
    fn yokepear_uk_from_currency(
        code: Bytes, k: usize, s: Bytes, n: usize, out: Room, room: usize) -> Answer;
    fn yokepear_uk_measure_cardinal(s: Bytes, n: usize) -> Measure;
    fn yokepear_uk_measure_ordinal(s: Bytes, n: usize) -> Measure;
    fn yokepear_uk_measure_ordinal_num(s: Bytes, n: usize) -> Measure;
    fn yokepear_uk_measure_year(year: i64) -> Measure;
    fn yokepear_uk_measure_currency(code: Bytes, k: usize, s: Bytes, n: usize) -> Measure;
}

#[rustfmt::skip]
french! {
    fn yokepear_fr_to_cardinal(s: Bytes, n: usize, out: Room, room: usize) -> Answer;
    fn yokepear_fr_to_ordinal(s: Bytes, n: usize, out: Room, room: usize) -> Answer;
    fn yokepear_fr_from_cardinal(s: Bytes, n: usize, out: Room, room: usize) -> Answer;
    fn yokepear_fr_from_ordinal(s: Bytes, n: usize, out: Room, room: usize) -> Answer;
    fn yokepear_fr_measure_cardinal(s: Bytes, n: usize) -> Measure;
    fn yokepear_fr_measure_ordinal(s: Bytes, n: usize) -> Measure;
}

/// Asks a Ukrainian call in a manner's settings.
macro_rules! uk {
    ($call:ident, $manner:ident, $($argument:expr),*) => {{
        let [a, b, c, d, e] = $manner.settings;
        unsafe { $call(a, b, c, d, e, $($argument),*) }
    }};
}

/// Asks a French one.
macro_rules! fr {
    ($call:ident, $manner:ident, $($argument:expr),*) => {{
        let [a, b, c, ..] = $manner.settings;
        unsafe { $call(a, b, c, $($argument),*) }
    }};
}

fn year(text: &[u8]) -> i64 {
    let year = std::str::from_utf8(text).expect("a year is ASCII");
    year.parse().expect("a year is an i64")
}

/// The spelling call's answer. A year's text must be an i64.
pub fn spell(manner: &Manner, text: &[u8], out: &mut [u8]) -> Answer {
    let (code, k, s, n) = (manner.code.as_ptr(), manner.code.len(), text.as_ptr(), text.len());
    let (out, room) = (out.as_mut_ptr(), out.len());
    match manner.kind {
        Kind::UkCardinal => uk!(yokepear_uk_to_cardinal, manner, s, n, out, room),
        Kind::UkMoney => uk!(yokepear_uk_to_currency, manner, code, k, s, n, out, room),
        Kind::UkOrdinal => uk!(yokepear_uk_to_ordinal, manner, s, n, out, room),
        Kind::UkDigitOrdinal => uk!(yokepear_uk_to_ordinal_num, manner, s, n, out, room),
        Kind::UkYear => uk!(yokepear_uk_to_year, manner, year(text), out, room),
        Kind::FrCardinal => fr!(yokepear_fr_to_cardinal, manner, s, n, out, room),
        Kind::FrOrdinal => fr!(yokepear_fr_to_ordinal, manner, s, n, out, room),
    }
}

/// The measuring call's answer. A year's text must be an i64.
pub fn measure(manner: &Manner, text: &[u8]) -> Measure {
    let (code, k, s, n) = (manner.code.as_ptr(), manner.code.len(), text.as_ptr(), text.len());
    match manner.kind {
        Kind::UkCardinal => uk!(yokepear_uk_measure_cardinal, manner, s, n),
        Kind::UkMoney => uk!(yokepear_uk_measure_currency, manner, code, k, s, n),
        Kind::UkOrdinal => uk!(yokepear_uk_measure_ordinal, manner, s, n),
        Kind::UkDigitOrdinal => uk!(yokepear_uk_measure_ordinal_num, manner, s, n),
        Kind::UkYear => uk!(yokepear_uk_measure_year, manner, year(text)),
        Kind::FrCardinal => fr!(yokepear_fr_measure_cardinal, manner, s, n),
        Kind::FrOrdinal => fr!(yokepear_fr_measure_ordinal, manner, s, n),
    }
}

/// The reading call's answer; the kind is one that is read.
pub fn read(manner: &Manner, phrase: &[u8], out: &mut [u8]) -> Answer {
    let (code, k, s, n) = (manner.code.as_ptr(), manner.code.len(), phrase.as_ptr(), phrase.len());
    let (out, room) = (out.as_mut_ptr(), out.len());
    match manner.kind {
        Kind::UkCardinal => uk!(yokepear_uk_from_cardinal, manner, s, n, out, room),
        Kind::UkMoney => uk!(yokepear_uk_from_currency, manner, code, k, s, n, out, room),
        Kind::UkOrdinal => uk!(yokepear_uk_from_ordinal, manner, s, n, out, room),
        Kind::UkYear => uk!(yokepear_uk_from_year, manner, s, n, out, room),
        Kind::FrCardinal => fr!(yokepear_fr_from_cardinal, manner, s, n, out, room),
        Kind::FrOrdinal => fr!(yokepear_fr_from_ordinal, manner, s, n, out, room),
        Kind::UkDigitOrdinal => unreachable!("no call reads digit ordinals"),
    }
}
