//! Asks one call and compares its refusal, its length, its words and every byte of its buffer.

use crate::calls::{self, Answer, Measure};
use crate::expect::{self, Expected};
use crate::guess;
use crate::kinds::{Kind, Manner, Settings, Task};

/// More than the longest answer.
pub const ROOM: usize = 4096;
const UNTOUCHED: [u8; ROOM] = [0xa5; ROOM];

/// How many answers of each sort were compared.
#[derive(Default, Clone, Copy)]
pub struct Counts {
    /// As the Rust spells them, but for the sign.
    pub spelled: u64,
    /// As reckoned from the Rust's phrases: ordinals and years in school.
    pub schooled: u64,
    pub refused: u64,
    pub measured: u64,
    pub read_back: u64,
    pub rooms: u64,
    pub damaged: u64,
    pub still_sentences: u64,
}

/// An answer that is not as expected, with what led to it.
pub struct Difference {
    pub kind: Kind,
    pub settings: Settings,
    pub code: Vec<u8>,
    pub task: Task,
    pub input: Vec<u8>,
    pub what: String,
}

/// What a call must answer if its buffer is large enough.
#[derive(Clone, Copy)]
enum Outcome<'a> {
    Refused(u32),
    Bytes(&'a [u8]),
}

pub struct Checker {
    pub counts: Counts,
    reader: guess::Reader,
    buffer: [u8; ROOM],
    /// One in so many answers is asked for again with small buffers (an odd number, so that
    /// spelling and reading, which alternate, both have their turn).
    every: u64,
    turn: u64,
}

impl Checker {
    pub fn new(every: u64) -> Self {
        let (counts, reader) = (Counts::default(), guess::Reader::new());
        Checker { counts, reader, buffer: UNTOUCHED, every, turn: 0 }
    }

    /// Spells a text, compares, measures it, and reads the phrase back.
    pub fn spelled(&mut self, manner: &Manner, text: &[u8]) -> Result<(), Difference> {
        if !can_be_asked(manner, text) {
            return Ok(());
        }
        self.compare_spelling(manner, text, &expect::spelling(manner, text))
    }

    /// The same in all later settings, of a manner that has the Rust's, which is asked but once.
    pub fn spelled_in_later_settings(
        &mut self,
        manner: &Manner,
        text: &[u8],
    ) -> Result<(), Difference> {
        if !can_be_asked(manner, text) {
            return Ok(());
        }
        let published = expect::spelling(manner, text);
        let mut manners = manner.with_later_settings();
        manners.try_for_each(|m| self.compare_spelling(&m, text, &published.in_manner(&m, text)))
    }

    fn compare_spelling(
        &mut self,
        manner: &Manner,
        text: &[u8],
        expected: &Expected,
    ) -> Result<(), Difference> {
        let fail = |what| difference(manner, Task::Spelling, text, what);
        let ask = |out: &mut [u8]| calls::spell(manner, text, out);
        match expected {
            Expected::Refused(refusal) => {
                self.counts.refused += 1;
                self.compare(ROOM, Outcome::Refused(*refusal), ask).map_err(fail)?;
                self.compare_measure(manner, text, expected)
            }
            Expected::Said(phrase) => {
                let schooled = u64::from(manner.is_school());
                self.counts.schooled += schooled;
                self.counts.spelled += 1 - schooled;
                let outcome = Outcome::Bytes(phrase.as_bytes());
                self.compare_rooms(outcome, phrase.len(), ask).map_err(fail)?;
                self.compare_measure(manner, text, expected)?;
                self.read_back(manner, phrase.as_bytes(), text)
            }
        }
    }

    /// Measures what is said of a text, and nothing else.
    pub fn measured(&mut self, manner: &Manner, text: &[u8]) -> Result<(), Difference> {
        if !can_be_asked(manner, text) {
            return Ok(());
        }
        self.compare_measure(manner, text, &expect::spelling(manner, text))
    }

    fn compare_measure(
        &mut self,
        manner: &Manner,
        text: &[u8],
        expected: &Expected,
    ) -> Result<(), Difference> {
        self.counts.measured += 1;
        let expected = match expected {
            Expected::Refused(refusal) => Measure { refusal: *refusal, words: 0, length: 0 },
            Expected::Said(phrase) => measure_of(phrase),
        };
        let answer = calls::measure(manner, text);
        if answer == expected {
            return Ok(());
        }
        let what = format!("  expected: {expected:?}\n  answered: {answer:?}");
        Err(difference(manner, Task::Measuring, text, what))
    }

    fn read_back(&mut self, manner: &Manner, phrase: &[u8], text: &[u8]) -> Result<(), Difference> {
        if !manner.is_read() {
            return Ok(());
        }
        self.counts.read_back += 1;
        if self.counts.read_back % self.every == 0 {
            self.guess_is_right(manner, phrase, text);
        }
        let fail = |what| difference(manner, Task::Reading, phrase, what);
        let ask = |out: &mut [u8]| calls::read(manner, phrase, out);
        self.compare_rooms(Outcome::Bytes(text), text.len(), ask).map_err(fail)
    }

    /// Reads any bytes: the text that is spoken so, or a refusal.
    pub fn read(&mut self, manner: &Manner, phrase: &[u8]) -> Result<(), Difference> {
        self.counts.damaged += 1;
        let refused = expect::refusal_of_reading(manner);
        let text = if refused.is_none() { self.reader.reading(manner, phrase) } else { None };
        let outcome = match &text {
            Some(text) => Outcome::Bytes(text.as_bytes()),
            None => Outcome::Refused(refused.unwrap_or(6)),
        };
        self.counts.still_sentences += u64::from(text.is_some());
        let needed = text.as_ref().map_or(0, String::len);
        let ask = |out: &mut [u8]| calls::read(manner, phrase, out);
        let compared = self.compare_rooms(outcome, needed, ask);
        compared.map_err(|what| difference(manner, Task::Reading, phrase, what))
    }

    /// Checks the guess itself on a phrase whose text is known, so that a 6 is never excused by it.
    pub fn guess_is_right(&mut self, manner: &Manner, phrase: &[u8], text: &[u8]) {
        let guessed = self.reader.reading(manner, phrase);
        let phrase = String::from_utf8_lossy(phrase);
        assert!(guessed.is_some_and(|t| t.as_bytes() == text), "the guess of {phrase} is wrong");
    }

    /// A large buffer and, now and then, buffers around the answer's length.
    fn compare_rooms(
        &mut self,
        outcome: Outcome,
        needed: usize,
        ask: impl Fn(&mut [u8]) -> Answer,
    ) -> Result<(), String> {
        self.compare(ROOM, outcome, &ask)?;
        self.turn += 1;
        if self.turn % self.every != 0 {
            return Ok(());
        }
        for room in [0, 1, needed.saturating_sub(1), needed, needed + 1] {
            self.counts.rooms += 1;
            self.compare(room, outcome, &ask)?;
        }
        Ok(())
    }

    /// Asks with a buffer of this length inside a larger one, and compares all of it.
    fn compare(
        &mut self,
        room: usize,
        outcome: Outcome,
        ask: impl Fn(&mut [u8]) -> Answer,
    ) -> Result<(), String> {
        let answer = ask(&mut self.buffer[..room]);
        let (expected, bytes): (Answer, &[u8]) = match outcome {
            Outcome::Refused(refusal) => (Answer { refusal, length: 0 }, &[]),
            Outcome::Bytes(b) if b.len() > room => (Answer { refusal: 7, length: b.len() }, &[]),
            Outcome::Bytes(b) => (Answer { refusal: 0, length: b.len() }, b),
        };
        let (front, rest) = self.buffer.split_at(bytes.len());
        let same = front == bytes && rest == &UNTOUCHED[bytes.len()..];
        if answer == expected && same {
            self.buffer[..bytes.len()].copy_from_slice(&UNTOUCHED[..bytes.len()]);
            return Ok(());
        }
        let shown = |bytes: &[u8]| String::from_utf8_lossy(bytes).into_owned();
        let written = self.buffer.iter().rposition(|b| *b != UNTOUCHED[0]).map_or(0, |at| at + 1);
        let buffer = shown(&self.buffer[..written]);
        self.buffer = UNTOUCHED;
        let first = format!("  expected: {expected:?} [{}]", shown(bytes));
        let second = format!("  answered: {answer:?} [{buffer}] in a buffer of {room}");
        let third = if same { "" } else { "\n  bytes of the buffer differ" };
        Err(format!("{first}\n{second}{third}"))
    }
}

/// The year's calls take an i64: there is no year to ask for of any other text.
fn can_be_asked(manner: &Manner, text: &[u8]) -> bool {
    manner.kind != Kind::UkYear || expect::refusal_of_text(manner.kind, text).is_none()
}

/// What the Rust's phrase measures. Words are counted where spaces part them, so none may be empty.
fn measure_of(phrase: &str) -> Measure {
    let words = phrase.split(' ');
    assert!(words.clone().all(|word| !word.is_empty()), "[{phrase}] has a space too many");
    Measure { refusal: 0, words: words.count() as u32, length: phrase.len() }
}

fn difference(manner: &Manner, task: Task, input: &[u8], what: String) -> Difference {
    Difference {
        kind: manner.kind,
        settings: manner.settings,
        code: manner.code.to_vec(),
        task,
        input: input.to_vec(),
        what,
    }
}
