//! How often each refusal and fault came up in trials.

use std::collections::{BTreeMap, BTreeSet};
use std::fmt;

use crate::answer::{NoRegister, Outcome};
use crate::fault::Fault;
use crate::file::FileRefusal;
use crate::generate::Trial;
use crate::line::Line;
use crate::register::Refusal;

/// How often a number came up, at which places, and how often within a sitting, and within a sitting of one.
#[derive(Default)]
struct Seen {
    times: usize,
    places: BTreeSet<usize>,
    within: [usize; 2],
}

impl Seen {
    fn at(&mut self, place: usize) {
        self.times += 1;
        self.places.insert(place);
    }
}

#[derive(Default)]
pub struct Tally {
    lines: usize,
    calls: usize,
    shows: usize,
    shown: usize,
    longest: usize,
    seen: BTreeMap<u32, Seen>,
}

impl Tally {
    pub fn of<'a>(trials: impl IntoIterator<Item = &'a Trial>) -> Tally {
        let mut tally = Tally::default();
        trials.into_iter().for_each(|trial| tally.count(trial));
        tally
    }

    fn count(&mut self, trial: &Trial) {
        self.lines += 1;
        self.calls += usize::from(trial.line.is_call_or_weighing());
        if let Line::Show(_, _, words) = &trial.line {
            self.shows += 1;
            self.shown += usize::from(trial.answer.accepted());
            self.longest = self.longest.max(words.len());
        }
        match &trial.answer.outcome {
            Outcome::Number(_) | Outcome::Bounds(_) | Outcome::Told(_) | Outcome::Report(_) => (),
            Outcome::FileRefused(refusal) => self.file(*refusal),
            Outcome::NoRegister(NoRegister::Top) => self.number(11).times += 1,
            Outcome::NoRegister(NoRegister::Chart { refusal, .. }) => self.file(*refusal),
            Outcome::NoRegister(NoRegister::TwoDoNotFit) => self.number(12).times += 1,
            Outcome::Refused(refusal) => {
                self.number(refusal.number()).times += 1;
                if let Refusal::ShowingFault(fault) = refusal {
                    self.fault(fault);
                }
            }
            Outcome::Fault(fault) => self.fault(fault),
        }
    }

    /// How often the number came up.
    pub fn times(&self, number: u32) -> usize {
        self.seen.get(&number).map_or(0, |seen| seen.times)
    }

    /// How many shows there are, and how many of them were accepted.
    pub fn shows(&self) -> (usize, usize) {
        (self.shows, self.shown)
    }

    fn number(&mut self, number: u32) -> &mut Seen {
        self.seen.entry(number).or_default()
    }

    fn file(&mut self, refusal: FileRefusal) {
        self.number(refusal.number()).at(refusal.place());
    }

    fn fault(&mut self, fault: &Fault) {
        let seen = self.number(fault.check.number());
        seen.at(fault.place);
        if let Some(depth) = fault.sittings.len().checked_sub(1) {
            seen.within[depth.min(1)] += 1;
        }
    }
}

impl fmt::Display for Tally {
    fn fmt(&self, f: &mut fmt::Formatter) -> fmt::Result {
        let Tally { lines, calls, shows, shown, longest, seen } = self;
        writeln!(f, "{lines} lines, {calls} calls and weighings")?;
        writeln!(f, "{shown} of {shows} shows accepted, the longest of {longest} words")?;
        for (number, Seen { times, places, within: [one, two] }) in seen {
            write!(f, "{number}: {times} times")?;
            match places.len() {
                0 => (),
                1..=12 => write!(f, ", at {}", places.iter().map(usize::to_string).collect::<Vec<_>>().join(" "))?,
                count => write!(f, ", at {count} places")?,
            }
            if one + two > 0 {
                write!(f, ", {one} within a sitting, {two} within a sitting of a sitting")?;
            }
            writeln!(f)?;
        }
        Ok(())
    }
}
