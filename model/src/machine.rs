//! What plays the lines of a trial: the charts in hand, and the register.

use std::mem::take;

use crate::answer::{Answer, Counts, NoRegister, Outcome, Report};
use crate::chart::Chart;
use crate::choice::Choice;
use crate::file::Kind;
use crate::line::{Bytes, Line, Shape};
use crate::register::Register;
use crate::sittings::Sittings;
use crate::table::Top;
use crate::weighted::Weighted;

pub struct Machine {
    weighted: Weighted,
    choice: Choice,
    register: Register,
    counts: Counts,
}

impl Default for Machine {
    /// Fresh charts in hand, and a register of a fresh weighted chart over top 1.
    fn default() -> Machine {
        let top = Top::new(1).expect("1 is a top");
        Machine {
            weighted: Weighted::default(),
            choice: Choice::default(),
            register: Register::new(Chart::Weighted(Weighted::default()), top),
            counts: Counts::default(),
        }
    }
}

impl Machine {
    pub fn register(&self) -> &Register {
        &self.register
    }

    /// Plays a line.
    pub fn play(&mut self, line: &Line) -> Answer {
        let outcome = self.outcome(line);
        if line.is_call() {
            self.counts.count(!matches!(outcome, Outcome::Refused(_)));
        }
        Answer { head: line.head(), outcome }
    }

    fn outcome(&mut self, line: &Line) -> Outcome {
        match line {
            Line::Read(Kind::Weighted, file) => self.weighted.read(&file.0).into(),
            Line::Read(Kind::Choice, file) => self.choice.read(&file.0).into(),
            Line::Tell(Kind::Weighted) => Outcome::Told(Box::new(self.weighted.told().clone())),
            Line::Tell(Kind::Choice) => Outcome::Told(Box::new(self.choice.told().clone())),
            Line::RegisterOfHand(top, kind) => self.register_of_hand(*top, *kind).into(),
            Line::Register(top, shape, files) => self.register_of_files(*top, shape, files).into(),
            Line::Open(side) => self.register.open(*side).into(),
            Line::Claim(s, t, value) => self.register.claim(*s, *t, *value).into(),
            Line::Close => self.register.close().into(),
            Line::Show(s, t, words) => self.register.show(*s, *t, words).into(),
            Line::Enter => self.register.enter().into(),
            Line::Abandon => self.register.abandon().into(),
            Line::Ask(s, t) => self.register.ask(*s, *t).map_or_else(Outcome::Refused, Outcome::Bounds),
            Line::Weigh(side, s, t, words) => self.register.weigh(*side, *s, *t, words).map(|claim| claim as usize).into(),
            Line::Report => Outcome::Report(Report::of(&self.register, self.counts)),
        }
    }

    fn register_of_hand(&mut self, top: u32, kind: Kind) -> Result<usize, NoRegister> {
        let top = Top::new(top).ok_or(NoRegister::Top)?;
        let chart = match kind {
            Kind::Weighted => Chart::Weighted(take(&mut self.weighted)),
            Kind::Choice => Chart::Choice(take(&mut self.choice)),
        };
        Ok(self.make(chart, top))
    }

    fn register_of_files(&mut self, top: u32, shape: &Shape, files: &[Bytes]) -> Result<usize, NoRegister> {
        let top = Top::new(top).ok_or(NoRegister::Top)?;
        let read =
            |(index, file): (usize, &Bytes)| Chart::of_file(&file.0).map_err(|refusal| NoRegister::Chart { index, refusal });
        let charts: Vec<Chart> = files.iter().enumerate().map(read).collect::<Result<_, _>>()?;
        let chart = put_together(shape, &mut charts.into_iter())?;
        Ok(self.make(chart, top))
    }

    fn make(&mut self, chart: Chart, top: Top) -> usize {
        let n = chart.told().n();
        self.register = Register::new(chart, top);
        self.counts = Counts::default();
        n
    }
}

/// The chart of that shape, of the next charts, one for each x.
pub fn put_together(shape: &Shape, charts: &mut impl Iterator<Item = Chart>) -> Result<Chart, NoRegister> {
    match shape {
        Shape::One => Ok(charts.next().expect("there is a chart for each x")),
        Shape::Two(shapes) => {
            let first = put_together(&shapes[0], charts)?;
            let second = put_together(&shapes[1], charts)?;
            let sittings = Sittings::new(first, second).map_err(|_| NoRegister::TwoDoNotFit)?;
            Ok(Chart::Sittings(Box::new(sittings)))
        }
    }
}
