//! What is printed for a line of a trial.

use std::fmt;

use crate::fault::Fault;
use crate::file::FileRefusal;
use crate::register::{Bounds, Refusal, Register, Verdict};
use crate::told::Told;

/// Why no register is made.
#[derive(Clone, Copy, Debug, PartialEq, Eq)]
pub enum NoRegister {
    Top,
    Chart { index: usize, refusal: FileRefusal },
    TwoDoNotFit,
}

impl fmt::Display for NoRegister {
    fn fmt(&self, f: &mut fmt::Formatter) -> fmt::Result {
        match self {
            NoRegister::Top => f.write_str("11"),
            NoRegister::Chart { index, refusal } => write!(f, "{index} {refusal}"),
            NoRegister::TwoDoNotFit => f.write_str("12"),
        }
    }
}

/// How many calls were accepted and refused since a register was made.
#[derive(Clone, Copy, Debug, Default, PartialEq, Eq)]
pub struct Counts {
    pub accepted: usize,
    pub refused: usize,
}

impl Counts {
    pub fn count(&mut self, accepted: bool) {
        match accepted {
            true => self.accepted += 1,
            false => self.refused += 1,
        }
    }
}

/// A line for each pair, and a summary.
#[derive(Clone, Debug, PartialEq, Eq)]
pub struct Report {
    rows: Vec<((usize, usize), Bounds)>,
    counts: Counts,
}

impl Report {
    pub fn of(register: &Register, counts: Counts) -> Report {
        let row = |(s, t)| ((s, t), register.bounds(s, t));
        Report { rows: register.chart().told().pairs().map(row).collect(), counts }
    }

    fn with(&self, verdict: Verdict) -> usize {
        self.rows.iter().filter(|(_, bounds)| bounds.verdict == verdict).count()
    }
}

impl fmt::Display for Report {
    fn fmt(&self, f: &mut fmt::Formatter) -> fmt::Result {
        for ((s, t), bounds) in &self.rows {
            writeln!(f, "{s} {t} {bounds}")?;
        }
        writeln!(f, "calls: {} accepted, {} refused", self.counts.accepted, self.counts.refused)?;
        let (apart, settled, open) = (self.with(Verdict::Apart), self.with(Verdict::Settled), self.with(Verdict::Open));
        write!(f, "pairs: {apart} apart, {settled} settled, {open} open")
    }
}

/// What a line came to.
#[derive(Clone, Debug, PartialEq, Eq)]
pub enum Outcome {
    Number(usize),
    Bounds(Bounds),
    Told(Box<Told>),
    Report(Report),
    FileRefused(FileRefusal),
    NoRegister(NoRegister),
    Refused(Refusal),
    Fault(Fault),
}

impl<E: Into<Outcome>> From<Result<usize, E>> for Outcome {
    fn from(result: Result<usize, E>) -> Outcome {
        result.map_or_else(E::into, Outcome::Number)
    }
}

impl From<FileRefusal> for Outcome {
    fn from(refusal: FileRefusal) -> Outcome {
        Outcome::FileRefused(refusal)
    }
}

impl From<NoRegister> for Outcome {
    fn from(why: NoRegister) -> Outcome {
        Outcome::NoRegister(why)
    }
}

impl From<Refusal> for Outcome {
    fn from(refusal: Refusal) -> Outcome {
        Outcome::Refused(refusal)
    }
}

impl From<Fault> for Outcome {
    fn from(fault: Fault) -> Outcome {
        Outcome::Fault(fault)
    }
}

/// What is printed for a line: how the answer starts, and what the line came to.
#[derive(Clone, Debug, PartialEq, Eq)]
pub struct Answer {
    pub head: String,
    pub outcome: Outcome,
}

impl Answer {
    /// Whether the line was accepted, or the words of a weighing valid.
    pub fn accepted(&self) -> bool {
        match self.outcome {
            Outcome::Number(_) | Outcome::Bounds(_) | Outcome::Told(_) | Outcome::Report(_) => true,
            Outcome::FileRefused(_) | Outcome::NoRegister(_) | Outcome::Refused(_) | Outcome::Fault(_) => false,
        }
    }
}

impl fmt::Display for Answer {
    fn fmt(&self, f: &mut fmt::Formatter) -> fmt::Result {
        let head = &self.head;
        match &self.outcome {
            Outcome::Number(number) => write!(f, "{head} = {number}"),
            Outcome::Bounds(bounds) => write!(f, "{head} = {bounds}"),
            Outcome::Told(told) => {
                write!(f, "{head} = {} {} {} {} ", told.n(), told.discount().a(), told.discount().b(), told.longest())?;
                told.pairs().try_for_each(|(s, t)| write!(f, "{}", u8::from(told.apart(s, t))))
            }
            Outcome::Report(report) => write!(f, "{report}"),
            Outcome::FileRefused(refusal) => write!(f, "{head} refused {refusal}"),
            Outcome::NoRegister(why) => write!(f, "{head} refused {why}"),
            Outcome::Refused(refusal) => write!(f, "{head} refused {refusal}"),
            Outcome::Fault(fault) => write!(f, "{head} fault {fault}"),
        }
    }
}
