//! What is timed: the library's calls, the plain C spellers, the Rust, and copying the phrase.

use crate::expect;
use crate::inputs::Input;
use crate::kinds::Kind;

/// Answers one input into the buffer; the answer's length.
pub type Subject = Box<dyn Fn(&Input, &mut [u8]) -> usize>;

#[repr(C)]
struct Answer {
    refusal: u32,
    length: usize,
}

impl Answer {
    /// The length; a refusal would make the measurement worthless.
    fn length(self) -> usize {
        assert!(self.refusal == 0, "refused {}", self.refusal);
        self.length
    }
}

#[repr(C)]
struct Measure {
    refusal: u32,
    words: u32,
    length: usize,
}

impl Measure {
    /// The length; that there are words is looked at, so that their count cannot be left out.
    fn length(self) -> usize {
        assert!(self.refusal == 0 && self.words > 0, "refused {}", self.refusal);
        self.length
    }
}

/// Declares a C call and a function that makes a subject of it: its settings, its name, then the
/// arguments between the settings and the buffer.
macro_rules! c_call {
    (five, $($call:tt)*) => { c_call!((a, b, c, d, e), $($call)*); };
    (three, $($call:tt)*) => { c_call!((a, b, c), $($call)*); };
    (($($n:ident),*), $name:ident, $input:ident, ($($type:ty),*), ($($argument:expr),*)) => {
        fn $name() -> Subject {
            extern "C" {
                fn $name($($n: u32,)* $(_: $type,)* out: *mut u8, room: usize) -> Answer;
            }
            Box::new(|$input, out| {
                let [$($n,)* ..] = $input.manner.settings;
                unsafe { $name($($n,)* $($argument,)* out.as_mut_ptr(), out.len()) }.length()
            })
        }
    };
}

/// The same of a measuring call, which is lent no buffer.
macro_rules! measure_call {
    (five, $($call:tt)*) => { measure_call!((a, b, c, d, e), $($call)*); };
    (three, $($call:tt)*) => { measure_call!((a, b, c), $($call)*); };
    (($($n:ident),*), $name:ident, $input:ident, ($($type:ty),*), ($($argument:expr),*)) => {
        fn $name() -> Subject {
            extern "C" {
                fn $name($($n: u32,)* $(_: $type),*) -> Measure;
            }
            Box::new(|$input, _| {
                let [$($n,)* ..] = $input.manner.settings;
                unsafe { $name($($n,)* $($argument),*) }.length()
            })
        }
    };
}

macro_rules! on_text {
    ($settings:ident, $name:ident, $field:ident) => {
        on_text!($settings, $name, $field, c_call);
    };
    ($settings:ident, $name:ident, $field:ident, $call:ident) => {
        $call!(
            $settings,
            $name,
            input,
            (*const u8, usize),
            (input.$field.as_ptr(), input.$field.len())
        );
    };
}

macro_rules! on_money {
    ($settings:ident, $name:ident, $field:ident) => {
        on_money!($settings, $name, $field, c_call);
    };
    ($settings:ident, $name:ident, $field:ident, $call:ident) => {
        $call!(
            $settings,
            $name,
            input,
            (*const u8, usize, *const u8, usize),
            (
                input.manner.code.as_ptr(),
                input.manner.code.len(),
                input.$field.as_ptr(),
                input.$field.len()
            )
        );
    };
}

macro_rules! on_year {
    ($settings:ident, $name:ident, $call:ident) => {
        $call!($settings, $name, input, (i64), (input.year));
    };
}

on_text!(five, yokepear_uk_to_cardinal, text);
on_text!(five, yokepear_uk_from_cardinal, phrase);
on_text!(three, yokepear_fr_to_cardinal, text);
on_text!(three, yokepear_fr_from_cardinal, phrase);
on_text!(three, yokepear_fr_to_ordinal, text);
on_text!(three, yokepear_fr_from_ordinal, phrase);
on_money!(five, yokepear_uk_to_currency, text);
on_money!(five, yokepear_uk_from_currency, phrase);
on_text!(five, yokepear_uk_to_ordinal, text);
on_text!(five, yokepear_uk_from_ordinal, phrase);
on_text!(five, yokepear_uk_to_ordinal_num, text);
on_year!(five, yokepear_uk_to_year, c_call);
on_text!(five, yokepear_uk_from_year, phrase);
on_text!(five, yokepear_uk_measure_cardinal, text, measure_call);
on_money!(five, yokepear_uk_measure_currency, text, measure_call);
on_text!(five, yokepear_uk_measure_ordinal, text, measure_call);
on_text!(five, yokepear_uk_measure_ordinal_num, text, measure_call);
on_year!(five, yokepear_uk_measure_year, measure_call);
on_text!(three, yokepear_fr_measure_cardinal, text, measure_call);
on_text!(three, yokepear_fr_measure_ordinal, text, measure_call);
on_text!(three, plain_uk_to_cardinal, text);
on_text!(three, plain_uk_to_ordinal, text);
on_text!(three, plain_uk_to_ordinal_num, text);
on_money!(three, plain_uk_to_currency, text);
on_year!(three, plain_uk_to_year, c_call);
on_text!(three, plain_fr_to_cardinal, text);
on_text!(three, plain_fr_to_ordinal, text);

#[repr(C)]
struct Tallied {
    refusal: u32,
    item: u32,
    length: usize,
}

impl Tallied {
    /// The item number and the length; a refusal would make the measurement worthless.
    fn item_and_length(self) -> (u32, usize) {
        assert!(self.refusal == 0, "refused {}", self.refusal);
        (self.item, self.length)
    }
}

type Bytes = *const u8;
type Lent = *mut u8;

#[rustfmt::skip]
extern "C" {
    fn yokepear_tally_open(code: Bytes, k: usize, tally: Lent, size: usize) -> Answer;
    fn yokepear_tally_add(a: u32, b: u32, c: u32, d: u32, e: u32, tally: Lent, size: usize,
        text: Bytes, n: usize, out: Lent, room: usize) -> Tallied;
    fn yokepear_tally_remove(a: u32, b: u32, c: u32, d: u32, e: u32, item: u32, tally: Lent,
        size: usize, out: Lent, room: usize) -> Tallied;
    fn yokepear_tally_preview_add(a: u32, b: u32, c: u32, d: u32, e: u32, tally: Bytes, size: usize,
        text: Bytes, n: usize, out: Lent, room: usize) -> Tallied;
    fn yokepear_tally_preview_remove(a: u32, b: u32, c: u32, d: u32, e: u32, item: u32,
        tally: Bytes, size: usize, out: Lent, room: usize) -> Tallied;
}

const TALLY_SIZE: usize = 837;

/// A tally. Adding, removing and their previews take the settings of an input, and write into the
/// buffer.
pub struct Tally([u8; TALLY_SIZE]);

impl Tally {
    /// A tally of these amounts.
    pub fn of(code: &str, amounts: &[Vec<u8>]) -> Self {
        let mut tally = Tally([0; TALLY_SIZE]);
        let opened = unsafe {
            yokepear_tally_open(code.as_ptr(), code.len(), tally.0.as_mut_ptr(), TALLY_SIZE)
        };
        assert!(opened.length() == TALLY_SIZE, "a tally has another size");
        let mut out = [0; 1024];
        for text in amounts {
            tally.add_text([0; 5], text, &mut out);
        }
        tally
    }

    fn add_text(&mut self, [a, b, c, d, e]: [u32; 5], text: &[u8], out: &mut [u8]) -> (u32, usize) {
        let tally = self.0.as_mut_ptr();
        let (text, n) = (text.as_ptr(), text.len());
        let (out, room) = (out.as_mut_ptr(), out.len());
        unsafe { yokepear_tally_add(a, b, c, d, e, tally, TALLY_SIZE, text, n, out, room) }
            .item_and_length()
    }

    /// The item number of the input's text, and the length of the total's phrase.
    pub fn add(&mut self, input: &Input, out: &mut [u8]) -> (u32, usize) {
        self.add_text(input.manner.settings, &input.text, out)
    }

    /// The length of the total's phrase.
    pub fn remove(&mut self, item: u32, input: &Input, out: &mut [u8]) -> usize {
        let [a, b, c, d, e] = input.manner.settings;
        let tally = self.0.as_mut_ptr();
        let (out, room) = (out.as_mut_ptr(), out.len());
        unsafe { yokepear_tally_remove(a, b, c, d, e, item, tally, TALLY_SIZE, out, room) }
            .item_and_length()
            .1
    }

    /// The same two of what adding would come to.
    pub fn preview_add(&self, input: &Input, out: &mut [u8]) -> (u32, usize) {
        let [a, b, c, d, e] = input.manner.settings;
        let tally = self.0.as_ptr();
        let (text, n) = (input.text.as_ptr(), input.text.len());
        let (out, room) = (out.as_mut_ptr(), out.len());
        unsafe { yokepear_tally_preview_add(a, b, c, d, e, tally, TALLY_SIZE, text, n, out, room) }
            .item_and_length()
    }

    /// The length of the phrase of the total that removing would leave.
    pub fn preview_remove(&self, item: u32, input: &Input, out: &mut [u8]) -> usize {
        let [a, b, c, d, e] = input.manner.settings;
        let tally = self.0.as_ptr();
        let (out, room) = (out.as_mut_ptr(), out.len());
        unsafe { yokepear_tally_preview_remove(a, b, c, d, e, item, tally, TALLY_SIZE, out, room) }
            .item_and_length()
            .1
    }
}

/// The library's spelling call.
pub fn spelling(kind: Kind) -> Subject {
    match kind {
        Kind::UkCardinal => yokepear_uk_to_cardinal(),
        Kind::UkMoney => yokepear_uk_to_currency(),
        Kind::UkOrdinal => yokepear_uk_to_ordinal(),
        Kind::UkDigitOrdinal => yokepear_uk_to_ordinal_num(),
        Kind::UkYear => yokepear_uk_to_year(),
        Kind::FrCardinal => yokepear_fr_to_cardinal(),
        Kind::FrOrdinal => yokepear_fr_to_ordinal(),
    }
}

/// The library's measuring call.
pub fn measuring(kind: Kind) -> Subject {
    match kind {
        Kind::UkCardinal => yokepear_uk_measure_cardinal(),
        Kind::UkMoney => yokepear_uk_measure_currency(),
        Kind::UkOrdinal => yokepear_uk_measure_ordinal(),
        Kind::UkDigitOrdinal => yokepear_uk_measure_ordinal_num(),
        Kind::UkYear => yokepear_uk_measure_year(),
        Kind::FrCardinal => yokepear_fr_measure_cardinal(),
        Kind::FrOrdinal => yokepear_fr_measure_ordinal(),
    }
}

/// The library's reading call, where the kind is read.
pub fn reading(kind: Kind) -> Option<Subject> {
    Some(match kind {
        Kind::UkCardinal => yokepear_uk_from_cardinal(),
        Kind::UkMoney => yokepear_uk_from_currency(),
        Kind::UkOrdinal => yokepear_uk_from_ordinal(),
        Kind::UkYear => yokepear_uk_from_year(),
        Kind::FrCardinal => yokepear_fr_from_cardinal(),
        Kind::FrOrdinal => yokepear_fr_from_ordinal(),
        Kind::UkDigitOrdinal => return None,
    })
}

/// The plain C speller.
pub fn plain(kind: Kind) -> Subject {
    match kind {
        Kind::UkCardinal => plain_uk_to_cardinal(),
        Kind::UkMoney => plain_uk_to_currency(),
        Kind::UkOrdinal => plain_uk_to_ordinal(),
        Kind::UkDigitOrdinal => plain_uk_to_ordinal_num(),
        Kind::UkYear => plain_uk_to_year(),
        Kind::FrCardinal => plain_fr_to_cardinal(),
        Kind::FrOrdinal => plain_fr_to_ordinal(),
    }
}

/// The published Rust, from the text to a new String.
pub fn rust() -> Subject {
    Box::new(|input, _| {
        let phrase = expect::phrase(&input.manner, &input.text);
        std::hint::black_box(&phrase).len()
    })
}

/// Copying the phrase's bytes.
pub fn copy() -> Subject {
    Box::new(|input, out| {
        out[..input.phrase.len()].copy_from_slice(&input.phrase);
        input.phrase.len()
    })
}
