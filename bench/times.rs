//! Takes the times: the shortest of many, as whatever else the machine does only makes one longer.

use crate::inputs::Input;
use crate::kinds::Task;
use crate::{bench_pass, library, subjects, Case, Room, Subject};
use std::time::{Duration, Instant};

/// All cases are gone over so often: what disturbs one sweep for seconds may leave another alone.
const SWEEPS: usize = 10;
/// In a sweep the subjects of a case take so many turns.
const ROUNDS: usize = 20;
/// A turn takes about as long: less than what another process gets at a time.
const TURN: Duration = Duration::from_micros(500);

/// What a pass over a case's inputs takes at best, in nanoseconds; 0 for what is not measured.
#[derive(Clone, Copy, Default)]
pub struct Times {
    pub ours: f64,
    pub copy: f64,
    pub plain: f64,
    pub rust: f64,
    /// The spelling of the figures that a case reads or measures.
    pub spelling: f64,
}

/// A subject with what it is given, and the best time so far.
pub struct Timed<'a> {
    inputs: &'a [Input],
    subject: Subject,
    passes: u32,
    best: f64,
}

impl<'a> Timed<'a> {
    pub fn new(inputs: &'a [Input], subject: Subject) -> Self {
        let once = time(inputs, &subject, 3) / 3;
        let passes = (TURN.as_nanos() / once.as_nanos().max(1)).clamp(1, 10_000) as u32;
        Timed { inputs, subject, passes, best: f64::INFINITY }
    }

    fn turn(&mut self) {
        let time = time(self.inputs, &self.subject, self.passes).as_nanos() as f64;
        self.best = self.best.min(time / f64::from(self.passes));
    }
}

/// What a pass of each takes at best where these alone take turns.
pub fn in_turns<const N: usize>(mut subjects: [Timed; N]) -> [f64; N] {
    for _ in 0..SWEEPS * ROUNDS {
        subjects.iter_mut().for_each(Timed::turn);
    }
    subjects.map(|subject| subject.best)
}

/// The times of each case.
pub fn times(cases: &[Case]) -> Vec<Times> {
    let mut timed: Vec<Vec<Timed>> = cases.iter().map(subjects_of).collect();
    for _ in 0..SWEEPS {
        for subjects in &mut timed {
            for _ in 0..ROUNDS {
                subjects.iter_mut().for_each(Timed::turn);
            }
        }
    }
    cases.iter().zip(timed).map(|(case, subjects)| named(case, &subjects)).collect()
}

/// What takes turns in a case; `named` knows the order.
fn subjects_of(case: &Case) -> Vec<Timed<'_>> {
    let ours = library(case.kind, case.task).expect("a case has a call");
    let mut all = vec![ours, subjects::copy()];
    if case.task == Task::Spelling {
        all.extend([subjects::plain(case.kind), subjects::rust()]);
    } else {
        all.push(subjects::spelling(case.kind));
    }
    all.into_iter().map(|subject| Timed::new(&case.inputs, subject)).collect()
}

fn named(case: &Case, subjects: &[Timed]) -> Times {
    let best: Vec<f64> = subjects.iter().map(|subject| subject.best).collect();
    let times = Times { ours: best[0], copy: best[1], ..Times::default() };
    if case.task == Task::Spelling {
        Times { plain: best[2], rust: best[3], ..times }
    } else {
        Times { spelling: best[2], ..times }
    }
}

fn time(inputs: &[Input], subject: &Subject, passes: u32) -> Duration {
    let Room(out) = &mut Room::new();
    let start = Instant::now();
    for _ in 0..passes {
        std::hint::black_box(bench_pass(inputs, subject, out));
    }
    start.elapsed()
}
