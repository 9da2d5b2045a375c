//! Lines for trials, with the answers of the model: a seed always gives the same ones.

mod files;
mod histories;
mod registers;
mod showings;

use std::collections::HashMap;

use crate::answer::Answer;
use crate::line::Line;
use crate::machine::Machine;
use crate::random::Random;

/// A line and its answer.
pub struct Trial {
    pub line: Line,
    pub answer: Answer,
}

/// Lines from a seed, at least that many of them calls or weighings.
pub fn trials(seed: u64, calls: usize) -> Vec<Trial> {
    let mut writer = Writer::new(seed);
    writer.history(40);
    writer.every_place();
    while writer.calls < calls {
        writer.episode();
    }
    writer.put(Line::Report);
    writer.trials
}

/// What writes the lines. It plays each on a machine of its own, so as to know what the next may be.
struct Writer {
    random: Random,
    machine: Machine,
    trials: Vec<Trial>,
    /// How many of the lines are calls or weighings.
    calls: usize,
    /// How many claims the draft is to have.
    goal: usize,
    /// How many more showings are tried for the draft.
    patience: usize,
    /// A showing for each claim of the draft, or most.
    planned: HashMap<(usize, usize), Vec<i32>>,
}

impl Writer {
    fn new(seed: u64) -> Writer {
        Writer {
            random: Random::new(seed),
            machine: Machine::default(),
            trials: Vec::new(),
            calls: 0,
            goal: 0,
            patience: 0,
            planned: HashMap::new(),
        }
    }

    /// Writes a line, and answers whether it was accepted.
    fn put(&mut self, line: Line) -> bool {
        let answer = self.machine.play(&line);
        let accepted = answer.accepted();
        if accepted && matches!(line, Line::Open(_)) {
            self.planned.clear();
        }
        self.calls += usize::from(line.is_call_or_weighing());
        self.trials.push(Trial { line, answer });
        accepted
    }

    /// One register, from its charts' files to its report.
    fn episode(&mut self) {
        if self.random.percent(60) {
            self.loose_files();
        }
        let certificate = self.make_register();
        let steps = *self.random.pick(&[0, 5, 20, 60, 150, 400]);
        self.history(steps);
        if let Some(certificate) = certificate {
            self.rest();
            self.send(&certificate);
            self.ask_all();
        }
        let n = self.machine.register().chart().told().n();
        if self.random.percent(if n <= 8 { 50 } else { 15 }) {
            self.put(Line::Report);
        }
        if self.random.percent(30) {
            self.history(20);
        }
    }
}
