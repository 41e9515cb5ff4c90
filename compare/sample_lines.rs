//! Lines for the program `phrases`: all kinds, settings and currencies, refusals and bad lines.

use crate::kinds::{Kind, Manner, CODES, KINDS};
use crate::lines;
use crate::random::Random;
use crate::texts;

/// Lines over all kinds, settings and currencies, with refusals and bad lines among them.
pub fn mixed() -> Vec<Vec<u8>> {
    let mut random = Random::new(7);
    let mut lines: Vec<Vec<u8>> = Vec::new();
    for kind in KINDS {
        let turns = match kind {
            Kind::FrCardinal | Kind::FrOrdinal => 24,
            Kind::UkDigitOrdinal => 6,
            _ => 10,
        };
        for settings in kind.ported_settings() {
            let codes: &[&str] = if kind == Kind::UkMoney { &CODES } else { &[""; 1] };
            for code in codes {
                let manner = Manner::new(kind, settings, code);
                for turn in 0..if kind == Kind::UkMoney { 1 } else { turns } {
                    let text = sample_text(kind, turn, &mut random);
                    lines.push(lines::line(&manner, text.as_bytes()));
                }
            }
        }
        lines.extend(refused_lines(kind));
    }
    lines.extend(bad_lines());
    // In an order that mixes them, so that a program repeating itself is soon found out.
    for at in (1..lines.len()).rev() {
        lines.swap(at, random.below(at + 1));
    }
    paper_lines().into_iter().chain(lines).collect()
}

/// Mostly short texts, some of every length, now and then one digit too many.
fn sample_text(kind: Kind, turn: usize, random: &mut Random) -> String {
    let most = texts::most_digits(kind);
    let digits = match (turn + random.below(3)) % 8 {
        0..=3 => 1 + random.below(4),
        4..=6 => 1 + random.below(10),
        _ => 1 + random.below(most + 1),
    };
    texts::random(kind, digits, random)
}

fn refused_lines(kind: Kind) -> Vec<Vec<u8>> {
    let settings = if kind.is_french() { [1, 1, 2, 0, 0] } else { [2, 1, 5, 0, 0] };
    let manner = Manner::new(kind, settings, "UAH");
    let texts = texts::MALFORMED.iter().filter(|t| !t.is_empty() && !t.contains([' ', '\n']));
    let mut lines: Vec<Vec<u8>> = texts.map(|t| lines::line(&manner, t.as_bytes())).collect();
    let limit = kind.limit();
    for text in [format!("{limit}0"), format!("-{limit}0"), format!("0{limit}"), "9".repeat(400)] {
        lines.push(lines::line(&manner, text.as_bytes()));
    }
    if kind == Kind::UkMoney {
        for code in ["EURO", "uah", "UA", "UAHH", "DOLLARS", "?", "ГРН", "1", "-"] {
            let manner = Manner::new(kind, settings, code);
            lines.push(lines::line(&manner, b"1.02"));
            lines.push(lines::line(&manner, b"007"));
        }
    }
    if kind == Kind::UkYear {
        for year in ["9223372036854775808", "-9223372036854775809", "-9223372036854775808"] {
            lines.push(lines::line(&manner, year.as_bytes()));
        }
    }
    lines
}

/// The lines of the paper's example and of its table of samples.
fn paper_lines() -> Vec<Vec<u8>> {
    let lines = "(card (uk f sing nom) 42)
(money (uk m sing nom) UAH 1.02)
(card (fr m old FR) 007)
(card (uk m sing gen) 1000)
(card (uk m sing nom) 5000)
(card (uk m sing acc) 5000)
(card (uk m sing loc) -2000000)
(ord (uk m sing nom) 21000)
(year (uk m sing gen) -43)
(money (uk m sing ins) UAH 0.11)
(card (fr m new FR) 71)
(card (fr f old CH) 81)
(card (fr m old FR) 80000)
(ord (fr m old FR) 200)
(money (uk m sing nom) UAH -0.50)
(card (uk m sing nom) -0)
(money (uk m sing nom) UAH 1.00)";
    lines.lines().map(|line| line.as_bytes().to_vec()).collect()
}

/// Lines that miss the form, most of them by one byte; a few of the edits leave a good line.
fn bad_lines() -> Vec<Vec<u8>> {
    let good = ["(card (uk f sing nom) 42)", "(money (uk m sing nom) UAH 1.02)"];
    let french = "(ord (fr m new CH) 81)";
    let mut lines = Vec::new();
    for line in good.into_iter().chain([french]) {
        for at in 0..=line.len() {
            for piece in [" ", "(", ")", "x"] {
                lines.push([&line[..at], piece, &line[at..]].concat());
            }
            if at < line.len() {
                lines.push([&line[..at], &line[at + 1..]].concat());
            }
        }
    }
    let whole = "
42
()
( )
(card)
(card 42)
(card (uk) 42)
(card (uk f sing) 42)
(card (uk f sing nom))
(card (uk f sing nom) )
(card (uk f sing nom) 42 43)
(card (uk f sing nom) UAH 42)
(card (uk sing f nom) 42)
(card (uk f pl nom) 42)
(card (uk f sing nominative) 42)
(card (uk f sing NOM) 42)
(card (en m sing nom) 42)
(card (fr n old FR) 42)
(card (fr m old US) 42)
(card (fr m 1990 FR) 42)
(card (uk m old FR) 42)
(card (fr f sing nom) 42)
(num (fr m old FR) 42)
(year (fr m old FR) 42)
(money (fr m old FR) EUR 42)
(money (uk m sing nom) 42)
(money (uk m sing nom) UAH)
(money (uk m sing nom) UAH )
(money (uk m sing nom)  UAH 42)
(money (uk m sing nom) UAH 42 1)
(ordinal (uk m sing nom) 42)
(CARD (uk m sing nom) 42)
card (uk m sing nom) 42
[card [uk m sing nom] 42]
(card (uk m sing nom) 42) (card (uk m sing nom) 42)
((card (uk m sing nom) 42))";
    lines.extend(whole.split('\n').map(str::to_string));
    let mut lines: Vec<Vec<u8>> = lines.into_iter().map(String::into_bytes).collect();
    lines.extend([padded(lines::LONGEST), padded(lines::LONGEST + 1), vec![b'('; 2000]]);
    lines
}

/// A line of this length that is well formed but for its size.
fn padded(length: usize) -> Vec<u8> {
    let front = b"(card (uk m sing nom) ".to_vec();
    let digits = vec![b'9'; length - front.len() - 1];
    [front, digits, b")".to_vec()].concat()
}

/// Lines with bytes that no text should have; the last of them lacks its line feed.
pub fn odd() -> Vec<Vec<u8>> {
    let around = |bytes: &[u8]| [b"(card (uk m sing nom) ", bytes, b")"].concat();
    let bytes = || (0..=255u8).filter(|b| *b != b'\n');
    let mut lines: Vec<Vec<u8>> = bytes().map(|b| around(&[b])).collect();
    lines.extend(bytes().map(|b| around(&[b'4', b])));
    lines.push(b"(card (uk m sing nom) 42)\r".to_vec());
    lines.push(b"\r".to_vec());
    lines.push(vec![0]);
    lines.push(b"(money (uk m sing nom) U\xc3H 1.02)".to_vec());
    lines.push(b"\xef\xbb\xbf(card (uk m sing nom) 42)".to_vec());
    lines.push(vec![b'x'; 70_000]);
    lines.push(vec![]);
    lines.push(b"(card (uk f sing nom) 42)".to_vec());
    lines
}
