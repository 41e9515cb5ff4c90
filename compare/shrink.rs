//! From a difference to one with a smallest input, for the report.

use crate::check::{Checker, Difference};
use crate::kinds::{Manner, Task};

/// The difference with an input that no single simplification can shorten.
pub fn smallest(mut found: Difference) -> Difference {
    let mut checker = Checker::new(1);
    'again: loop {
        for input in simpler(&found) {
            match ask(&mut checker, &found, &input) {
                Err(smaller) if smaller.task == found.task => {
                    found = smaller;
                    continue 'again;
                }
                _ => (),
            }
        }
        return found;
    }
}

/// Asks the same call, in the same manner, about another input.
fn ask(checker: &mut Checker, found: &Difference, input: &[u8]) -> Result<(), Difference> {
    let (kind, settings) = (found.kind, found.settings);
    let manner = Manner { kind, settings, code: &found.code };
    match found.task {
        Task::Spelling => checker.spelled(&manner, input),
        Task::Measuring => checker.measured(&manner, input),
        Task::Reading => checker.read(&manner, input),
    }
}

/// Shorter inputs, and inputs of the same length with smaller bytes.
fn simpler(found: &Difference) -> Vec<Vec<u8>> {
    let input = &found.input;
    let is_text = found.task != Task::Reading;
    let mut inputs = Vec::new();
    if is_text {
        let numbers = (0..2000).map(|n: u32| n.to_string().into_bytes());
        inputs.extend(numbers.filter(|n| (n.len(), n) < (input.len(), input)));
    }
    let words: Vec<&[u8]> = input.split(|b| *b == b' ').collect();
    if words.len() > 1 {
        inputs.extend((0..words.len()).map(|at| {
            let left = words.iter().enumerate().filter(|(i, _)| *i != at);
            left.map(|(_, word)| *word).collect::<Vec<_>>().join(&b' ')
        }));
    }
    for piece in [input.len() / 2, input.len() / 4, 3, 1] {
        if (1..=input.len()).contains(&piece) {
            let starts = (0..=input.len() - piece).step_by(piece);
            inputs.extend(starts.map(|at| [&input[..at], &input[at + piece..]].concat()));
        }
    }
    if is_text {
        for (at, byte) in input.iter().enumerate().filter(|(_, b)| b.is_ascii_digit()) {
            inputs.extend((b'0'..*byte).map(|b| {
                let mut other = input.clone();
                other[at] = b;
                other
            }));
        }
    }
    inputs
}
