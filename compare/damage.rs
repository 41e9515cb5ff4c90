//! Damaged phrases: never a text unless it is spoken by those very bytes, and then always.

use crate::check::{Checker, Difference};
use crate::expect;
use crate::kinds::{all_manners, read_manners, set, Kind, Manner, CODES, KINDS, SIGNS};
use crate::random::Random;
use crate::texts;
use crate::Size;

type Outcome = Result<(), Difference>;

/// The longest random phrase.
const LONGEST: usize = 64 * 1024;

/// A phrase as the Rust spells it.
struct Spelled {
    manner: Manner<'static>,
    phrase: Vec<u8>,
}

pub fn run(kind: Kind, size: &Size, checker: &mut Checker, random: &mut Random) -> Outcome {
    for spelled in spread(kind, size.byte_phrases, 6, checker, random) {
        every_byte(&spelled, checker)?;
    }
    if size.full {
        every_byte(&longest(kind), checker)?;
    }
    let phrases = spread(kind, size.word_phrases, usize::MAX, checker, random);
    for spelled in &phrases {
        words_moved(spelled, &phrases, checker, random)?;
        signs_exchanged(spelled, checker)?;
        other_manners(spelled, checker, random)?;
    }
    random_phrases(kind, size, &phrases, checker, random)?;
    refused_manners(kind, checker)
}

/// Phrases of texts of all lengths up to this many digits, in all manners in turn.
fn spread(
    kind: Kind,
    count: usize,
    most_digits: usize,
    checker: &mut Checker,
    random: &mut Random,
) -> Vec<Spelled> {
    let manners = read_manners(kind);
    let most = most_digits.min(texts::most_digits(kind));
    let mut phrases = Vec::new();
    while phrases.len() < count {
        let manner = manners[(phrases.len() * 29) % manners.len()];
        let digits = 1 + phrases.len() % most;
        let text = texts::random(kind, digits, random);
        if expect::refusal_of_text(kind, text.as_bytes()).is_some() {
            continue; // A random text of the most digits may be above the limit.
        }
        let phrase = expect::phrase(&manner, text.as_bytes()).into_bytes();
        checker.guess_is_right(&manner, &phrase, text.as_bytes());
        phrases.push(Spelled { manner, phrase });
    }
    phrases
}

/// A phrase that is about as long as any of its kind.
fn longest(kind: Kind) -> Spelled {
    let settings = match kind {
        Kind::FrCardinal | Kind::FrOrdinal => [0; 5],
        Kind::UkOrdinal => [0, 0, 1, 1, 0],
        Kind::UkYear => [0, 1, 4, 1, 0],
        _ => [0, 0, 4, 1, 0],
    };
    let manner = Manner::new(kind, settings, "ILS").in_school();
    let text = match kind {
        Kind::UkMoney => "14989989989989989989.89".to_string(),
        Kind::UkCardinal => format!("-{}", "989".repeat(22)),
        Kind::UkOrdinal => format!("{}4", "9".repeat(65)),
        Kind::UkYear => "-5999999999999999994".to_string(),
        _ => "997".repeat(34),
    };
    Spelled { manner, phrase: expect::phrase(&manner, text.as_bytes()).into_bytes() }
}

/// Every change, deletion and insertion of one byte.
fn every_byte(spelled: &Spelled, checker: &mut Checker) -> Outcome {
    let (manner, phrase) = (&spelled.manner, &spelled.phrase);
    let mut changed = phrase.clone();
    for at in 0..phrase.len() {
        for byte in (0..=255).filter(|b| *b != phrase[at]) {
            changed[at] = byte;
            checker.read(manner, &changed)?;
        }
        changed[at] = phrase[at];
        let mut shorter = phrase.clone();
        shorter.remove(at);
        checker.read(manner, &shorter)?;
        checker.read(manner, &phrase[at..])?;
        checker.read(manner, &phrase[..at])?;
    }
    for at in 0..=phrase.len() {
        let mut longer = [&phrase[..at], &[0], &phrase[at..]].concat();
        for byte in 0..=255 {
            longer[at] = byte;
            checker.read(manner, &longer)?;
        }
    }
    Ok(())
}

/// A phrase cut into words, each with the joiner before it (none before the first).
fn cut(phrase: &[u8]) -> Vec<(Option<u8>, &[u8])> {
    let mut words = Vec::new();
    let (mut joiner, mut start) = (None, 0);
    for (at, byte) in phrase.iter().enumerate() {
        if matches!(byte, b' ' | b'-') {
            words.push((joiner, &phrase[start..at]));
            (joiner, start) = (Some(*byte), at + 1);
        }
    }
    words.push((joiner, &phrase[start..]));
    words
}

/// Words put together with their joiners; the first one's is left out.
fn joined(words: &[(Option<u8>, &[u8])]) -> Vec<u8> {
    let mut phrase = Vec::new();
    for (at, (joiner, word)) in words.iter().enumerate() {
        if at > 0 {
            phrase.push(joiner.unwrap_or(b' '));
        }
        phrase.extend_from_slice(word);
    }
    phrase
}

/// Words dropped, doubled, swapped, exchanged for others; joiners exchanged, doubled, left out.
fn words_moved(
    spelled: &Spelled,
    others: &[Spelled],
    checker: &mut Checker,
    random: &mut Random,
) -> Outcome {
    let manner = &spelled.manner;
    let words = cut(&spelled.phrase);
    for at in 0..words.len() {
        let mut fewer = words.clone();
        let word = fewer.remove(at);
        checker.read(manner, &joined(&fewer))?;
        let mut more = words.clone();
        more.insert(at, word);
        checker.read(manner, &joined(&more))?;
        for to in 0..words.len().min(12) {
            let mut swapped = words.clone();
            (swapped[at].1, swapped[to].1) = (swapped[to].1, swapped[at].1);
            checker.read(manner, &joined(&swapped))?;
        }
        let other = cut(&random.pick(others).phrase);
        let mut changed = words.clone();
        changed[at].1 = random.pick(&other).1;
        checker.read(manner, &joined(&changed))?;
        for joiner in [b' ', b'-', b'\'', b'\t'] {
            let mut rejoined = words.clone();
            rejoined[at].0 = Some(joiner);
            checker.read(manner, &joined(&rejoined))?;
            let (before, after) = (joined(&words[..at]), joined(&words[at..]));
            checker.read(manner, &[&before, &[joiner, joiner][..], &after].concat())?;
        }
    }
    for piece in [&b" "[..], b"-", b"\0", b"\n", b"s", b"e"] {
        checker.read(manner, &[piece, &spelled.phrase].concat())?;
        checker.read(manner, &[&spelled.phrase, piece].concat())?;
    }
    Ok(())
}

/// Each sign of a phrase, alone and with all after it, exchanged for another, left out, doubled.
fn signs_exchanged(spelled: &Spelled, checker: &mut Checker) -> Outcome {
    let phrase = std::str::from_utf8(&spelled.phrase).expect("a phrase is UTF-8");
    let Some(sign) = spelled.manner.sign() else { return Ok(()) };
    let doubled = sign.repeat(2);
    for (at, _) in phrase.match_indices(sign) {
        let (before, after) = (&phrase[..at], &phrase[at + sign.len()..]);
        for other in SIGNS.into_iter().chain(["", &doubled]).filter(|other| *other != sign) {
            let alone = [before, other, after].concat();
            checker.read(&spelled.manner, alone.as_bytes())?;
            let all = [before, other, &after.replace(sign, other)].concat();
            checker.read(&spelled.manner, all.as_bytes())?;
        }
    }
    Ok(())
}

/// The phrase read in every other setting of the Rust, the later ones being taken at random, with
/// other codes, and as the other kinds.
fn other_manners(spelled: &Spelled, checker: &mut Checker, random: &mut Random) -> Outcome {
    let code = std::str::from_utf8(spelled.manner.code).unwrap_or("");
    let code = if code.is_empty() { "UAH" } else { code };
    for kind in KINDS.into_iter().filter(|kind| kind.is_read()) {
        for settings in kind.ported_settings() {
            let all: Vec<Manner> =
                Manner::new(kind, settings, code).with_later_settings().collect();
            checker.read(random.pick(&all), &spelled.phrase)?;
        }
        if kind == Kind::UkMoney {
            let settings = kind.all_settings();
            for code in CODES {
                let manner = Manner::new(kind, *random.pick(&settings), code);
                checker.read(&manner, &spelled.phrase)?;
            }
        }
    }
    Ok(())
}

/// Random bytes, random words, and phrases run together, up to 64 KiB.
fn random_phrases(
    kind: Kind,
    size: &Size,
    phrases: &[Spelled],
    checker: &mut Checker,
    random: &mut Random,
) -> Outcome {
    for turn in 0..size.random_phrases {
        let length = match turn % 8 {
            0 => random.below(LONGEST + 1),
            1 => turn % 64,
            _ => random.below(200),
        };
        let spelled = random.pick(phrases);
        let manner = &spelled.manner;
        let noise: Vec<u8> = (0..length).map(|_| random.next() as u8).collect();
        checker.read(manner, &noise)?;
        checker.read(manner, &[&spelled.phrase, &noise[..]].concat())?;
        checker.read(manner, &random_words(phrases, length, random))?;
        checker.read(manner, &[&spelled.phrase, &b" "[..]].concat().repeat(length / 16))?;
    }
    let manner = Manner { code: b"UAH", ..read_manners(kind)[0] };
    for word in [" ", "-", "один", "двохсот", "un", "mille ", "тисяча ", "сотий "]
    {
        checker.read(&manner, word.repeat(LONGEST / word.len()).as_bytes())?;
    }
    checker.read(&manner, b"")
}

/// Words of several phrases in any order, joined by spaces or hyphens, about this long.
fn random_words(phrases: &[Spelled], length: usize, random: &mut Random) -> Vec<u8> {
    let pool: Vec<Vec<(Option<u8>, &[u8])>> =
        (0..4).map(|_| cut(&random.pick(phrases).phrase)).collect();
    let mut phrase = Vec::new();
    while phrase.len() < length {
        let words = random.pick(&pool);
        let (joiner, word) = *random.pick(words);
        if !phrase.is_empty() {
            phrase.push(joiner.unwrap_or(b' '));
        }
        phrase.extend_from_slice(word);
    }
    phrase
}

/// Settings and codes outside their range come before the phrase.
fn refused_manners(kind: Kind, checker: &mut Checker) -> Outcome {
    let good = Manner { code: b"UAH", ..read_manners(kind)[0] };
    let phrase = expect::phrase(&good, b"42").into_bytes();
    for (at, size) in kind.setting_sizes().iter().enumerate() {
        for wrong in [*size, size + 1, 255, 256, 65536, 1 << 31, u32::MAX] {
            let settings = set(good.settings, at, wrong);
            for code in ["UAH", "EURO"] {
                checker.read(&Manner::new(kind, settings, code), &phrase)?;
                checker.read(&Manner::new(kind, settings, code), b"?")?;
            }
        }
    }
    for code in ["", "uah", "UA", "UAHH", "EURO", "DOLLARS"] {
        let manner = Manner::new(kind, good.settings, code);
        checker.read(&manner, &phrase)?;
        checker.read(&manner, b"?")?;
    }
    ported_style(&good, &phrase, checker)
}

/// A style that is not read comes before the phrase too, in every setting.
fn ported_style(good: &Manner, phrase: &[u8], checker: &mut Checker) -> Outcome {
    for manner in all_manners(good.kind).iter().filter(|manner| !manner.is_read()) {
        checker.read(manner, phrase)?;
        checker.read(manner, b"?")?;
    }
    Ok(())
}
