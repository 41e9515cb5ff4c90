//! What the program `phrases` must answer to a line, for the samples.

use crate::expect::{self, Expected};
use crate::kinds::{Kind, Manner, Settings};

/// The longest line, its line feed not counted.
pub const LONGEST: usize = 512;

/// The answer's line, without its line feed.
pub fn answer(line: &[u8]) -> String {
    let Some((manner, text)) = meaning(line) else { return "bad line".to_string() };
    match expect::spelling(&manner, text) {
        Expected::Refused(refusal) => format!("refused {refusal}"),
        Expected::Said(phrase) => phrase,
    }
}

/// The line that asks for this text in this manner.
pub fn line(manner: &Manner, text: &[u8]) -> Vec<u8> {
    let [a, b, c, ..] = manner.settings.map(|setting| setting as usize);
    let (kind, settings) = match manner.kind {
        Kind::FrCardinal => ("card", format!("fr {} {} {}", SEXES[a], SPELLINGS[b], REGIONS[c])),
        Kind::FrOrdinal => ("ord", format!("fr {} {} {}", SEXES[a], SPELLINGS[b], REGIONS[c])),
        kind => {
            let settings = format!("uk {} {} {}", SEXES[a], NUMBERS[b], CASES[c]);
            (uk_name(kind), settings)
        }
    };
    let code = if manner.kind == Kind::UkMoney { [manner.code, b" "].concat() } else { vec![] };
    [format!("({kind} ({settings}) ").as_bytes(), &code, text, b")"].concat()
}

const SEXES: [&str; 3] = ["m", "f", "n"];
const NUMBERS: [&str; 2] = ["sing", "plur"];
const CASES: [&str; 6] = ["nom", "gen", "dat", "acc", "ins", "loc"];
const SPELLINGS: [&str; 2] = ["old", "new"];
const REGIONS: [&str; 3] = ["FR", "BE", "CH"];

fn uk_name(kind: Kind) -> &'static str {
    match kind {
        Kind::UkMoney => "money",
        Kind::UkOrdinal => "ord",
        Kind::UkDigitOrdinal => "num",
        Kind::UkYear => "year",
        _ => "card",
    }
}

/// What a line asks for; None for a bad line.
fn meaning(line: &[u8]) -> Option<(Manner<'_>, &[u8])> {
    if line.len() > LONGEST {
        return None;
    }
    let inner = line.strip_prefix(b"(")?.strip_suffix(b")")?;
    let open = inner.iter().position(|b| *b == b'(')?;
    let close = inner.iter().position(|b| *b == b')')?;
    if close < open {
        return None;
    }
    let kind = inner[..open].strip_suffix(b" ")?;
    let (kind, settings) = settings(kind, &inner[open + 1..close])?;
    let rest = inner[close + 1..].strip_prefix(b" ")?;
    let (code, text) = match kind {
        Kind::UkMoney => {
            let space = rest.iter().position(|b| *b == b' ')?;
            (run(&rest[..space])?, run(&rest[space + 1..])?)
        }
        _ => (&b""[..], run(rest)?),
    };
    Some((Manner { kind, settings, code }, text))
}

/// One or more bytes other than space and bracket.
fn run(bytes: &[u8]) -> Option<&[u8]> {
    let plain = bytes.iter().all(|b| !matches!(b, b' ' | b'(' | b')'));
    (plain && !bytes.is_empty()).then_some(bytes)
}

/// A kind's word with the settings in brackets after it.
fn settings(kind: &[u8], words: &[u8]) -> Option<(Kind, Settings)> {
    let words: Vec<&[u8]> = words.split(|b| *b == b' ').collect();
    let [language, a, b, c] = words.as_slice() else { return None };
    let place = |names: &[&str], word: &[u8]| -> Option<u32> {
        names.iter().position(|name| name.as_bytes() == word).map(|at| at as u32)
    };
    let kinds = match *language {
        b"uk" => vec![
            (&b"card"[..], Kind::UkCardinal),
            (b"ord", Kind::UkOrdinal),
            (b"num", Kind::UkDigitOrdinal),
            (b"year", Kind::UkYear),
            (b"money", Kind::UkMoney),
        ],
        b"fr" => vec![(&b"card"[..], Kind::FrCardinal), (b"ord", Kind::FrOrdinal)],
        _ => return None,
    };
    let kind = kinds.iter().find(|(name, _)| *name == kind)?.1;
    let settings = if kind.is_french() {
        [place(&SEXES[..2], a)?, place(&SPELLINGS, b)?, place(&REGIONS, c)?, 0, 0]
    } else {
        [place(&SEXES, a)?, place(&NUMBERS, b)?, place(&CASES, c)?, 0, 0]
    };
    Some((kind, settings))
}
