//! Ordinals and years in school, beside what all kinds have: every ordinal below a million, every
//! group at every order, years at their limits and beyond, and compounds put together in every way.

use crate::check::{Checker, Difference};
use crate::expect;
use crate::kinds::{read_manners, Kind, Manner, SIGNS};
use crate::school;
use crate::Size;

type Outcome = Result<(), Difference>;

/// Orders of Ukrainian groups.
const ORDERS: usize = 22;

/// So many years before and behind each limit.
const YEARS: i128 = 500;

pub fn run(kind: Kind, size: &Size, checker: &mut Checker) -> Outcome {
    match kind {
        Kind::UkOrdinal => {
            below_a_million(size, checker)?;
            every_group(size, checker)?;
            every_compound(size, checker)
        }
        Kind::UkYear => {
            at_the_limits(size, checker)?;
            no_years(checker)
        }
        _ => Ok(()),
    }
}

/// The manners whose turn it is: every so many-th, beginning with another one each time.
fn in_turn(manners: &[Manner<'static>], step: usize, turn: usize) -> Vec<Manner<'static>> {
    manners.iter().skip(turn % step).step_by(step).copied().collect()
}

fn below_a_million(size: &Size, checker: &mut Checker) -> Outcome {
    let manners = read_manners(Kind::UkOrdinal);
    for number in 0..1_000_000 {
        for manner in in_turn(&manners, size.million_step, number) {
            checker.spelled(&manner, number.to_string().as_bytes())?;
        }
    }
    Ok(())
}

/// Each group alone, right below another, and far below another.
fn every_group(size: &Size, checker: &mut Checker) -> Outcome {
    let manners = read_manners(Kind::UkOrdinal);
    for (order, group) in (0..ORDERS).flat_map(|order| (1..1000).map(move |group| (order, group))) {
        let zeros = "000".repeat(order);
        let mut texts = vec![format!("{group}{zeros}")];
        if order + 1 < ORDERS {
            texts.push(format!("1{group:03}{zeros}"));
            texts.push(format!("21{}{group:03}{zeros}", "000".repeat(ORDERS - order - 2)));
        }
        for manner in in_turn(&manners, size.group_step, group) {
            texts.iter().try_for_each(|text| checker.spelled(&manner, text.as_bytes()))?;
        }
    }
    Ok(())
}

/// Years before the limits are read back; those behind them have phrases too, which are refused.
fn at_the_limits(size: &Size, checker: &mut Checker) -> Outcome {
    let manners = read_manners(Kind::UkYear);
    let limits = [i128::from(i64::MIN), i128::from(i64::MAX)];
    let near = |limit: i128| limit - YEARS..=limit + YEARS;
    for (turn, year) in limits.into_iter().flat_map(near).enumerate() {
        for manner in in_turn(&manners, size.group_step, turn) {
            any_year(&manner, &year.to_string(), checker)?;
        }
    }
    Ok(())
}

fn any_year(manner: &Manner, text: &str, checker: &mut Checker) -> Outcome {
    if expect::refusal_of_text(Kind::UkYear, text.as_bytes()).is_none() {
        return checker.spelled(manner, text.as_bytes());
    }
    checker.read(manner, expect::phrase(manner, text.as_bytes()).as_bytes())
}

/// In every manner: a bare year 0, and years far beyond the limits.
fn no_years(checker: &mut Checker) -> Outcome {
    for manner in read_manners(Kind::UkYear) {
        let zero = expect::phrase(&manner, b"0");
        let bare = zero.strip_suffix(school::EARLY).expect("year 0 has an early year's end");
        checker.read(&manner, bare.as_bytes())?;
        for magnitude in [u64::MAX.to_string(), u128::MAX.to_string(), "9".repeat(66)] {
            any_year(&manner, &magnitude, checker)?;
            any_year(&manner, &format!("-{magnitude}"), checker)?;
        }
        for zeros in 19..66 {
            any_year(&manner, &format!("1{}", "0".repeat(zeros)), checker)?;
        }
    }
    Ok(())
}

/// The parts of compounds, forms of other cases, and what stands in no compound.
fn parts() -> Vec<String> {
    let cardinal = |case: u32, number: u32| {
        let manner = Manner::new(Kind::UkCardinal, [0, 0, case, 0, 0], "");
        expect::phrase(&manner, number.to_string().as_bytes())
    };
    let numbers = (0..20).chain((20..100).step_by(10)).chain((100..1000).step_by(100));
    let mut parts: Vec<String> = numbers.map(|number| cardinal(1, number)).collect();
    parts.extend([1, 2, 5, 13, 20, 40, 90, 100, 200].map(|number| cardinal(0, number)));
    parts.extend(["", "одно", "сот", "ова", "н", " "].map(str::to_string));
    parts
}

/// Words of up to three parts, a base and an ending, alone and below another group: those that are
/// spelled so are read, and no others.
fn every_compound(size: &Size, checker: &mut Checker) -> Outcome {
    let manners = in_turn(&read_manners(Kind::UkOrdinal), size.compound_step, 0);
    let fronts = ["", "один мільйон ", "один вігінтильйон "];
    let bases = ["тисячн", "ундевігінтильйонн", "сот"];
    for (turn, manner) in manners.iter().enumerate() {
        for base in bases {
            compounds(manner, fronts[turn % fronts.len()], base, checker)?;
        }
    }
    Ok(())
}

fn compounds(manner: &Manner, front: &str, base: &str, checker: &mut Checker) -> Outcome {
    let hundredth = expect::phrase(manner, b"100");
    let ending = hundredth.strip_prefix("сот").expect("a hundredth's stem");
    let sign = manner.sign().expect("a Ukrainian sign");
    let parts: Vec<String> = parts().iter().map(|part| part.replace(SIGNS[0], sign)).collect();
    for (first, second) in parts.iter().flat_map(|a| parts.iter().map(move |b| (a, b))) {
        for third in &parts {
            let word = format!("{front}{first}{second}{third}{base}{ending}");
            checker.read(manner, word.as_bytes())?;
        }
    }
    Ok(())
}
