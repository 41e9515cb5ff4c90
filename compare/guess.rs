//! An independent reading: guess a text from the words, then ask the Rust how it is spoken.
//!
//! The guess is lenient (order of words, agreement, joiners and settings are not looked at), so it
//! can only be wrong by being too generous; the published Rust then decides. Word meanings are
//! taken from the Rust's own phrases.

use crate::expect;
use crate::kinds::{set, Kind, Manner, Settings, SIGNS};
use crate::school;
use crate::stems::Stems;
use std::collections::HashMap;

/// What a word adds to a number, whatever the settings.
#[derive(Clone, Copy, PartialEq, Debug)]
enum Meaning {
    Zero,
    Minus,
    And,
    Value(u32),
    /// `vingt` and `vingts`: 20, or 80 after `quatre`.
    Score,
    /// `cent` and `cents`: 100, or that many times the unit before.
    Hundred,
    Scale(usize),
}

type Dictionary = HashMap<Vec<u8>, Meaning>;

/// Orders of groups: French has the most.
const ORDERS: usize = 34;

pub struct Reader {
    ukrainian: Dictionary,
    french: Dictionary,
    /// From a last word of a French ordinal to that of its cardinal.
    cardinal_words: HashMap<Vec<u8>, Vec<u8>>,
    /// The last words of Ukrainian ordinals.
    stems: Stems,
    /// Main and fraction nouns by code and case, each form as its words.
    nouns: HashMap<(Vec<u8>, u32), [Vec<Words>; 2]>,
}

type Words = Vec<Vec<u8>>;

impl Reader {
    pub fn new() -> Self {
        let french = french_words();
        let ordinal = |word: &Vec<u8>| {
            let stem = word.strip_suffix(b"e").unwrap_or(word);
            ([stem, "ième".as_bytes()].concat(), word.clone())
        };
        let cardinal_words = french.keys().map(ordinal).collect();
        let (ukrainian, stems) = (ukrainian_words(), Stems::new());
        Reader { ukrainian, french, cardinal_words, stems, nouns: HashMap::new() }
    }

    /// The text that a reading call must give, or None where it must refuse the phrase.
    /// The manner's settings and code must be good ones, and such that there is a reading call.
    pub fn reading(&mut self, manner: &Manner, phrase: &[u8]) -> Option<String> {
        let text = match manner.kind {
            Kind::UkCardinal => number(&self.ukrainian, phrase.split(|b| *b == b' ')),
            Kind::FrCardinal => number(&self.french, phrase.split(is_joiner)),
            Kind::FrOrdinal => self.ordinal(phrase),
            Kind::UkMoney => self.money(manner, phrase),
            Kind::UkOrdinal => self.ukrainian_ordinal(manner.settings, &with_one_sign(phrase)?),
            Kind::UkYear => self.year(manner.settings, &with_one_sign(phrase)?),
            Kind::UkDigitOrdinal => None,
        }?;
        let admitted = expect::refusal_of_text(manner.kind, text.as_bytes()).is_none();
        let spoken = admitted && expect::phrase(manner, text.as_bytes()).as_bytes() == phrase;
        spoken.then_some(text)
    }

    fn ordinal(&self, phrase: &[u8]) -> Option<String> {
        if phrase == b"premier" {
            return Some("1".to_string());
        }
        let last = phrase.iter().rposition(is_joiner).map_or(0, |at| at + 1);
        let word = self.cardinal_words.get(&phrase[last..])?;
        let words = phrase[..last].split(is_joiner).filter(|w| !w.is_empty());
        number(&self.french, words.chain([word.as_slice()]))
    }

    fn ukrainian_ordinal(&self, settings: Settings, phrase: &str) -> Option<String> {
        let (front, last) = phrase.rsplit_once(' ').unwrap_or(("", phrase));
        let stem = self.stems.find(settings, last)?;
        let words = front.split(' ').filter(|word| !word.is_empty());
        let meanings = words.map(|word| self.ukrainian.get(word.as_bytes()).copied());
        let mut meanings: Vec<Meaning> = meanings.collect::<Option<_>>()?;
        if stem.group == 0 {
            return meanings.is_empty().then(|| "0".to_string());
        }
        meanings.push(Meaning::Value(stem.group));
        meanings.extend((stem.order > 0).then_some(Meaning::Scale(stem.order)));
        sum(&meanings)
    }

    /// An ordinal of masculine gender, a noun, and an early year's end.
    fn year(&self, settings: Settings, phrase: &str) -> Option<String> {
        let early = phrase.strip_suffix(school::EARLY);
        let (ordinal, _) = early.unwrap_or(phrase).rsplit_once(' ')?;
        let digits = self.ukrainian_ordinal(set(settings, 0, 0), ordinal)?;
        let minus = if early.is_some() && digits != "0" { "-" } else { "" };
        Some(format!("{minus}{digits}"))
    }

    fn money(&mut self, manner: &Manner, phrase: &[u8]) -> Option<String> {
        let words: Vec<&[u8]> = phrase.split(|b| *b == b' ').collect();
        let amount = |words: &[&[u8]]| number(&self.ukrainian, words.iter().copied());
        let key = (manner.code.to_vec(), manner.settings[2]);
        let [main, fraction] = &*self.nouns.entry(key).or_insert_with(|| nouns(manner));
        let at_noun = |at: usize| main.iter().find(|form| starts(&words[at..], form));
        let main_at = (0..words.len()).find_map(|at| Some((at, at + at_noun(at)?.len())));
        let (whole, rest) = match main_at {
            Some((noun, after)) => (amount(&words[..noun])?, &words[after..]),
            None => ("0".to_string(), &words[..]),
        };
        if rest.is_empty() {
            return Some(whole);
        }
        let form = fraction.iter().find(|form| ends(rest, form))?;
        let hundredths = amount(&rest[..rest.len() - form.len()])?;
        Some(format!("{whole}.{hundredths:0>2}"))
    }
}

/// A phrase with the Rust's sign in the place of each other; none that is not UTF-8 is spoken.
fn with_one_sign(phrase: &[u8]) -> Option<String> {
    let phrase = std::str::from_utf8(phrase).ok()?.to_string();
    Some(SIGNS[1..].iter().fold(phrase, |phrase, sign| phrase.replace(sign, SIGNS[0])))
}

fn is_joiner(byte: &u8) -> bool {
    matches!(byte, b' ' | b'-')
}

fn starts(words: &[&[u8]], form: &Words) -> bool {
    words.len() >= form.len() && words.iter().zip(form).all(|(word, noun)| word == noun)
}

fn ends(words: &[&[u8]], form: &Words) -> bool {
    words.len() >= form.len() && starts(&words[words.len() - form.len()..], form)
}

/// The text of the number that these words add up to.
fn number<'a>(words: &Dictionary, said: impl Iterator<Item = &'a [u8]>) -> Option<String> {
    let meanings: Option<Vec<Meaning>> = said.map(|word| words.get(word).copied()).collect();
    let meanings = meanings?;
    match meanings.as_slice() {
        [Meaning::Zero] => Some("0".to_string()),
        [Meaning::Minus, rest @ ..] => Some(format!("-{}", sum(rest)?)),
        all => sum(all),
    }
}

/// The digits of the groups that these words name, highest first.
fn sum(words: &[Meaning]) -> Option<String> {
    let mut groups = [0; ORDERS];
    let (mut group, mut before, mut order) = (0u32, 0, ORDERS);
    for word in words {
        match *word {
            Meaning::Value(value) => group += value,
            Meaning::Score if before == 4 => group += 80 - 4,
            Meaning::Score => group += 20,
            Meaning::Hundred => group = 100 * group.max(1),
            Meaning::And => (),
            Meaning::Scale(at) if at < order => {
                let bare_thousand = group == 0 && at == 1;
                groups[at] = if bare_thousand { 1 } else { group };
                (group, order) = (0, at);
            }
            _ => return None,
        }
        before = if let Meaning::Value(value) = *word { value } else { 0 };
        if group > 999 {
            return None;
        }
    }
    if order > 0 {
        groups[0] = group;
    }
    let digits: String = groups.iter().rev().map(|g| format!("{g:03}")).collect();
    let digits = digits.trim_start_matches('0');
    (!digits.is_empty()).then(|| digits.to_string())
}

/// One meaning for a word: two would make the guess ambiguous.
fn learn(words: &mut Dictionary, word: &str, meaning: Meaning) {
    let known = words.insert(word.as_bytes().to_vec(), meaning);
    assert!(known.is_none_or(|k| k == meaning), "{word} has two meanings");
}

fn say(kind: Kind, settings: Settings, text: &str) -> String {
    expect::phrase(&Manner::new(kind, settings, ""), text.as_bytes())
}

fn scale_text(times: u32, order: usize) -> String {
    format!("{times}{}", "000".repeat(order))
}

fn ukrainian_words() -> Dictionary {
    let mut words = Dictionary::new();
    for settings in Kind::UkCardinal.all_settings() {
        let say = |text: &str| say(Kind::UkCardinal, settings, text);
        learn(&mut words, &say("0"), Meaning::Zero);
        let minus = say("-1");
        learn(&mut words, minus.split(' ').next().unwrap_or(""), Meaning::Minus);
        for value in (1..20).chain((20..100).step_by(10)).chain((100..1000).step_by(100)) {
            learn(&mut words, &say(&value.to_string()), Meaning::Value(value));
        }
        for (order, times) in (1..22).flat_map(|order| [1, 2, 5].map(|times| (order, times))) {
            let said = say(&scale_text(times, order));
            learn(&mut words, said.rsplit(' ').next().unwrap_or(""), Meaning::Scale(order));
        }
    }
    words
}

fn french_words() -> Dictionary {
    let mut words = Dictionary::new();
    for word in ["vingt", "vingts"] {
        learn(&mut words, word, Meaning::Score);
    }
    for word in ["cent", "cents"] {
        learn(&mut words, word, Meaning::Hundred);
    }
    learn(&mut words, "et", Meaning::And);
    learn(&mut words, "moins", Meaning::Minus);
    learn(&mut words, "zéro", Meaning::Zero);
    for settings in Kind::FrCardinal.all_settings() {
        let say = |text: &str| say(Kind::FrCardinal, settings, text);
        for value in (1..17).chain((30..100).step_by(10)) {
            let said = say(&value.to_string());
            if !said.contains('-') {
                learn(&mut words, &said, Meaning::Value(value));
            }
        }
        for (order, times) in (1..34).flat_map(|order| [1, 2].map(|times| (order, times))) {
            let said = say(&scale_text(times, order));
            learn(&mut words, said.rsplit([' ', '-']).next().unwrap_or(""), Meaning::Scale(order));
        }
    }
    words
}

/// Every form of the manner's main and fraction noun: what follows the one word of 1, 2 and 5.
fn nouns(manner: &Manner) -> [Vec<Words>; 2] {
    let after_first = |text: &str| -> Words {
        let said = expect::phrase(manner, text.as_bytes());
        said.split(' ').skip(1).map(|word| word.as_bytes().to_vec()).collect()
    };
    let main = ["1", "2", "5"].map(after_first).to_vec();
    [main, ["0.01", "0.02", "0.05"].map(after_first).to_vec()]
}
