//! The texts that are spoken, compared and read back, kind by kind.

use crate::check::{Checker, Difference};
use crate::kinds::{all_manners, ported_manners, set, Kind, Manner, Settings};
use crate::random::Random;
use crate::texts;
use crate::Size;

type Outcome = Result<(), Difference>;

pub fn run(kind: Kind, size: &Size, checker: &mut Checker, random: &mut Random) -> Outcome {
    for manner in ported_manners(kind) {
        short(&manner, size, checker)?;
    }
    for manner in all_manners(kind) {
        refused(&manner, checker)?;
    }
    boundaries(kind, size, checker)?;
    random_texts(kind, size, checker, random)?;
    edited_texts(kind, size, checker, random)?;
    other_settings(kind, checker)?;
    other_codes(kind, checker)
}

fn short(manner: &Manner, size: &Size, checker: &mut Checker) -> Outcome {
    let up_to = match manner.kind {
        Kind::FrCardinal | Kind::FrOrdinal => size.few_settings,
        Kind::UkMoney => size.most_settings,
        _ => size.many_settings,
    };
    let hundredths = if manner.kind == Kind::UkMoney { size.hundredths } else { 0 };
    let mut texts = texts::short(manner.kind, up_to).chain(texts::hundredths(hundredths));
    texts.try_for_each(|text| checker.spelled_in_later_settings(manner, text.as_bytes()))
}

fn refused(manner: &Manner, checker: &mut Checker) -> Outcome {
    texts::MALFORMED.iter().try_for_each(|text| checker.spelled(manner, text.as_bytes()))
}

/// All boundaries in all settings; money takes them in every currency, with the settings in turn.
fn boundaries(kind: Kind, size: &Size, checker: &mut Checker) -> Outcome {
    let manners = ported_manners(kind);
    let step = if kind == Kind::UkMoney && !size.full { 17 } else { 1 };
    for (at, text) in texts::boundaries(kind).iter().enumerate() {
        for manner in manners.iter().skip(at % step).step_by(step) {
            checker.spelled_in_later_settings(manner, text.as_bytes())?;
        }
    }
    Ok(())
}

/// Texts of every length up to one digit too many.
fn random_texts(kind: Kind, size: &Size, checker: &mut Checker, random: &mut Random) -> Outcome {
    let manners = all_manners(kind);
    for digits in 1..=texts::most_digits(kind) + 1 {
        for _ in 0..size.random_texts / texts::most_digits(kind) {
            let text = texts::random(kind, digits, random);
            checker.spelled(random.pick(&manners), text.as_bytes())?;
        }
    }
    Ok(())
}

/// Texts with a byte wrong somewhere.
fn edited_texts(kind: Kind, size: &Size, checker: &mut Checker, random: &mut Random) -> Outcome {
    let manners = all_manners(kind);
    for _ in 0..size.random_texts / 4 {
        let digits = 1 + random.below(texts::most_digits(kind) + 1);
        let text = texts::edited(&texts::random(kind, digits, random), random);
        checker.spelled(random.pick(&manners), &text)?;
    }
    Ok(())
}

/// Each setting outside its range, with good and bad texts and codes.
fn other_settings(kind: Kind, checker: &mut Checker) -> Outcome {
    for (at, size) in kind.setting_sizes().iter().enumerate() {
        for wrong in [*size, size + 1, 255, 256, 65536, 1 << 31, u32::MAX] {
            let settings = set(Settings::default(), at, wrong);
            for code in ["UAH", "EURO"] {
                let manner = Manner::new(kind, settings, code);
                for text in ["1", "0", "007", "-1", "1.50", "-0.50", ""] {
                    checker.spelled(&manner, text.as_bytes())?;
                }
            }
        }
    }
    Ok(())
}

/// Codes that are near a known one; a code refused comes before the text.
fn other_codes(kind: Kind, checker: &mut Checker) -> Outcome {
    if kind != Kind::UkMoney {
        return Ok(());
    }
    let near = ["", "U", "UA", "UAHH", "uah", "Uah", "UAH ", " UAH", "EURO", "DINA", "DINARS"];
    let more = ["DOLLARS", "XXX", "UАH", "PESOS", "RIYALS", "980", "UAH\0", "ZZZ", "AAA", "DOLAR"];
    for code in near.into_iter().chain(more) {
        for settings in kind.all_settings() {
            let manner = Manner::new(kind, settings, code);
            for text in ["1", "007", "-1", "1.02", ""] {
                checker.spelled(&manner, text.as_bytes())?;
            }
        }
    }
    Ok(())
}
