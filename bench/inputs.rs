//! The fixed inputs, every setting of the Rust and every currency in turn: the spread of 1, 2, 6
//! and the most groups, and what instruments, scales and tills say every day. Ordinals and years
//! are read in school's style, beside their spelling in the same; else all is as the Rust has it.

use crate::expect;
use crate::kinds::{Kind, Manner, Task, CODES};
use crate::random::Random;

/// Five turns of the 36 Ukrainian settings that the Rust has, fifteen of the 12 French ones.
const COUNT: usize = 180;

/// A text with its phrase.
pub struct Input {
    pub manner: Manner<'static>,
    pub text: Vec<u8>,
    pub year: i64,
    pub phrase: Vec<u8>,
}

/// What the figures of a case are.
#[derive(Clone, Copy)]
pub enum Figures {
    /// So many groups of three digits.
    Groups(usize),
    /// What is counted, with the fewest and the most digits.
    Digits(&'static str, usize, usize),
    /// Hundredths after a whole part of one to five digits.
    Prices,
    /// From 1900 to 2100.
    Years,
    /// One to 999 thousand: an ordinal of one word.
    Thousands,
}

/// All figures that a kind is measured on: the spread first.
pub fn figures(kind: Kind) -> Vec<Figures> {
    let groups = [1, 2, 6, kind.limit().len().div_ceil(3)];
    groups.map(Figures::Groups).into_iter().chain(everyday(kind).iter().copied()).collect()
}

fn everyday(kind: Kind) -> &'static [Figures] {
    match kind {
        Kind::UkCardinal | Kind::FrCardinal => &[
            Figures::Digits("counts", 1, 3),
            Figures::Digits("grams", 4, 6),
            Figures::Digits("hertz", 4, 9),
        ],
        Kind::UkMoney => &[Figures::Prices],
        Kind::UkOrdinal => &[
            Figures::Digits("ordinals", 1, 3),
            Figures::Digits("ordinals", 1, 9),
            Figures::Thousands,
        ],
        Kind::UkDigitOrdinal | Kind::FrOrdinal => &[Figures::Digits("ordinals", 1, 3)],
        Kind::UkYear => &[Figures::Years],
    }
}

impl Figures {
    pub fn label(self) -> String {
        match self {
            Figures::Groups(1) => "1 group".to_string(),
            Figures::Groups(groups) => format!("{groups} groups"),
            Figures::Digits(what, fewest, most) => format!("{what} of {fewest} to {most} digits"),
            Figures::Prices => "prices with hundredths".to_string(),
            Figures::Years => "years from 1900 to 2100".to_string(),
            Figures::Thousands => "round thousands to 999000".to_string(),
        }
    }

    /// The spread is what a call's line `all` sums up.
    pub fn in_spread(self) -> bool {
        matches!(self, Figures::Groups(_))
    }

    fn seed(self) -> u64 {
        match self {
            Figures::Groups(groups) => groups as u64,
            Figures::Digits(_, fewest, most) => (1000 + 10 * fewest + most) as u64,
            Figures::Prices => 2000,
            Figures::Years => 3000,
            Figures::Thousands => 4000,
        }
    }

    fn text(self, kind: Kind, turn: usize, random: &mut Random) -> String {
        match self {
            Figures::Groups(groups) => text_of_groups(kind, groups, turn, random),
            Figures::Digits(_, fewest, most) => figure(fewest, most, random).to_string(),
            Figures::Prices => format!("{}.{:02}", figure(1, 5, random), 1 + random.below(99)),
            Figures::Years => (1900 + random.below(201)).to_string(),
            Figures::Thousands => format!("{}000", 1 + random.below(999)),
        }
    }
}

pub fn inputs(kind: Kind, task: Task, figures: Figures) -> Vec<Input> {
    let mut random = Random::new(figures.seed());
    (0..COUNT).map(|turn| input(manner(kind, task, turn), figures, turn, &mut random)).collect()
}

fn manner(kind: Kind, task: Task, turn: usize) -> Manner<'static> {
    let all = kind.ported_settings();
    let code = if kind == Kind::UkMoney { CODES[turn % CODES.len()] } else { "" };
    let manner = Manner::new(kind, all[turn % all.len()], code);
    match task {
        Task::Reading => manner.in_school(),
        _ => manner,
    }
}

fn input(manner: Manner<'static>, figures: Figures, turn: usize, random: &mut Random) -> Input {
    let kind = manner.kind;
    let text = loop {
        let text = figures.text(kind, turn, random).into_bytes();
        // With the most groups, a random text may be above the limit.
        if expect::refusal_of_text(kind, &text).is_none() {
            break text;
        }
    };
    let year = std::str::from_utf8(&text).ok().and_then(|t| t.parse().ok()).unwrap_or(0);
    let phrase = expect::phrase(&manner, &text).into_bytes();
    Input { manner, text, year, phrase }
}

/// A quarter of them negative where a minus is taken; half of the amounts have hundredths.
fn text_of_groups(kind: Kind, groups: usize, turn: usize, random: &mut Random) -> String {
    let most_digits = kind.limit().len();
    let highest = match most_digits % 3 {
        digits @ 1.. if groups == most_digits.div_ceil(3) => 10usize.pow(digits as u32) - 1,
        _ => 999,
    };
    let mut text = String::new();
    if kind.takes_sign() && turn % 4 == 3 {
        text.push('-');
    }
    text.push_str(&(1 + random.below(highest)).to_string());
    for _ in 1..groups {
        text.push_str(&format!("{:03}", random.below(1000)));
    }
    if kind == Kind::UkMoney && turn % 2 == 1 {
        text.push_str(&format!(".{:02}", 1 + random.below(99)));
    }
    text
}

/// As many figures of each length; with four digits and more a third of them are whole thousands, as
/// a frequency is often given in kilohertz. Neither goes by turns, which would tie it to a setting.
fn figure(fewest: usize, most: usize, random: &mut Random) -> usize {
    let digits = fewest + random.below(most - fewest + 1);
    let lowest = if digits == 1 { 0 } else { 10usize.pow(digits as u32 - 1) };
    let figure = lowest + random.below(10usize.pow(digits as u32) - lowest);
    if digits > 3 && random.below(3) == 0 {
        figure / 1000 * 1000
    } else {
        figure
    }
}
