//! Files that are read, and registers that are made or refused.

use super::Writer;
use super::files::{Frame, Plan, Routes};
use crate::chart::Chart;
use crate::file::Kind;
use crate::line::{Bytes, Line, Shape};
use crate::machine::put_together;
use crate::random::Random;
use crate::solver::{Certificate, certificate};
use crate::table::Top;
use crate::told::MOST_SECTIONS;

/// Charts for a register: their shape, and a plan for each.
struct Design {
    frame: Frame,
    shape: Shape,
    plans: Vec<Plan>,
}

impl Design {
    fn random(random: &mut Random) -> Design {
        let two = || Shape::two(Shape::One, Shape::One);
        let shape = match random.below(100) {
            0..50 => Shape::One,
            50..70 => two(),
            70..85 => Shape::two(two(), Shape::One),
            _ => Shape::two(Shape::One, two()),
        };
        let frame = Frame::random(random);
        let plans = (0..shape.charts()).map(|_| {
            let kind = random_kind(random);
            Plan::random(random, &frame, kind)
        });
        let plans = plans.collect();
        Design { frame, shape, plans }
    }

    fn files(&self, random: &mut Random) -> Vec<Bytes> {
        self.plans.iter().map(|plan| Bytes(plan.file(random))).collect()
    }

    /// The chart of the files.
    fn chart(&self, random: &mut Random) -> Chart {
        let mut charts = self.plans.iter().map(|plan| Chart::of_file(&plan.file(random)).expect("the plan is sound"));
        put_together(&self.shape, &mut charts).expect("the charts fit")
    }

    /// A top over which the distances may be whole numbers.
    fn fine_top(&self, random: &mut Random) -> u32 {
        let greatest = u64::from(Top::GREATEST);
        let base = self.plans.iter().flat_map(denominators).fold(1, |base, factor| {
            let multiple = lcm(base, factor);
            if multiple > greatest { base } else { multiple }
        });
        let mut top = base;
        while top * base <= greatest && base > 1 {
            top *= base;
        }
        let factor = if random.percent(50) { 1 } else { random.between(1, (greatest / top) as i64) as u64 };
        (top * factor) as u32
    }
}

/// Denominators that the distances of the chart are likely to have.
fn denominators(plan: &Plan) -> Vec<u64> {
    let (a, b) = (u64::from(plan.a), u64::from(plan.b));
    match &plan.routes {
        Routes::Choice { .. } => vec![b],
        Routes::Weighted { whole, unit, rows } => {
            let units = u64::from(whole / unit);
            let stays = (0..plan.n).map(|s| b * units - a * u64::from(rows[s][s] / unit));
            std::iter::once(b * units).chain(stays).collect()
        }
    }
}

fn lcm(a: u64, b: u64) -> u64 {
    fn gcd(a: u64, b: u64) -> u64 {
        if b == 0 { a } else { gcd(b, a % b) }
    }
    a / gcd(a, b) * b
}

fn random_kind(random: &mut Random) -> Kind {
    if random.percent(55) { Kind::Weighted } else { Kind::Choice }
}

fn random_top(random: &mut Random) -> u32 {
    match random.below(10) {
        0 => 1,
        1 => 2,
        2 | 3 => 30,
        4 => Top::GREATEST,
        5..8 => random.between(1, 1000) as u32,
        _ => random.between(1, i64::from(Top::GREATEST)) as u32,
    }
}

impl Writer {
    /// Files that are read into the charts in hand, and what these tell.
    pub(super) fn loose_files(&mut self) {
        for _ in 0..1 + self.random.below(8) {
            let mut frame = Frame::random(&mut self.random);
            let kind = random_kind(&mut self.random);
            // The files of choice charts are short even if they have many sections.
            match kind {
                Kind::Choice if self.random.percent(30) => frame.n = 32,
                Kind::Weighted if frame.n > 12 && self.random.percent(70) => frame.n = 5,
                _ => (),
            }
            let plan = Plan::random(&mut self.random, &frame, kind);
            let damaged = self.random.percent(70);
            let file = if damaged { plan.damaged_file(&mut self.random) } else { plan.file(&mut self.random) };
            self.put(Line::Read(kind, Bytes(file)));
            if self.random.percent(30) {
                self.put(Line::Tell(kind));
            }
        }
    }

    /// Files of every size that is too small, and one that is too large by just what its length field cannot tell; and files of the
    /// most sections, refused at each of them.
    pub(super) fn every_place(&mut self) {
        let mut frame = Frame::random(&mut self.random);
        frame.n = MOST_SECTIONS;
        for kind in [Kind::Weighted, Kind::Choice] {
            let plan = Plan::random(&mut self.random, &frame, kind);
            for s in 0..MOST_SECTIONS {
                let file = plan.with_spoiled_routes(&mut self.random, s).file(&mut self.random);
                self.put(Line::Read(kind, Bytes(file)));
            }
            for size in 0..16 {
                let mut file = plan.file(&mut self.random);
                file.truncate(size);
                self.put(Line::Read(kind, Bytes(file)));
            }
            let mut file = plan.file(&mut self.random);
            file.resize(file.len() + 65_536, 0);
            self.put(Line::Read(kind, Bytes(file)));
        }
    }

    /// Makes a register, often one over whose top the distances are whole; then it answers a certificate.
    pub(super) fn make_register(&mut self) -> Option<Certificate> {
        let design = Design::random(&mut self.random);
        while self.random.percent(35) {
            self.refused_register(&design);
        }
        let chart = design.chart(&mut self.random);
        let fine = design.fine_top(&mut self.random);
        let tops = [fine, random_top(&mut self.random)];
        let top = if self.random.percent(75) { tops[0] } else { tops[1] };
        self.register_over(&design, top);
        let top = Top::new(top).expect("it is a top");
        let judged = chart.told().judged_pairs().count();
        if judged > 100 && self.random.percent(60) || judged > 400 && self.random.percent(80) {
            return None;
        }
        certificate(&chart, top)
    }

    /// Makes a register of the design's charts, of files or of the chart in hand.
    fn register_over(&mut self, design: &Design, top: u32) {
        let mut files = design.files(&mut self.random);
        if design.plans.len() > 1 || self.random.percent(50) {
            self.put(Line::Register(top, design.shape.clone(), files));
            return;
        }
        let kind = design.plans[0].kind();
        self.put(Line::Read(kind, files.remove(0)));
        if self.random.percent(20) {
            let file = design.plans[0].damaged_file(&mut self.random);
            self.put(Line::Register(0, design.shape.clone(), vec![Bytes(file)]));
        }
        if self.random.percent(20) {
            let no_top = *self.random.pick(&[0, Top::GREATEST + 1]);
            self.put(Line::RegisterOfHand(no_top, kind));
        }
        self.put(Line::Tell(kind));
        self.put(Line::RegisterOfHand(top, kind));
        if self.random.percent(20) {
            self.put(Line::Tell(kind));
        }
    }

    /// Asks for a register that is likely to be refused.
    fn refused_register(&mut self, design: &Design) {
        let random = &mut self.random;
        let mut top = random_top(random);
        let mut files = design.files(random);
        match random.below(10) {
            0 | 1 => top = *random.pick(&[0, Top::GREATEST + 1, u32::MAX, 0, 2_000_000_000]),
            2..5 if files.len() > 1 => {
                let (frame, kind) = (design.frame.misfit(random), random_kind(random));
                let plan = Plan::random(random, &frame, kind);
                let i = random.below(files.len());
                files[i] = Bytes(plan.file(random));
            }
            _ => {
                let i = random.below(files.len());
                files[i] = Bytes(design.plans[i].damaged_file(random));
            }
        }
        if random.percent(10) {
            let i = random.below(files.len());
            files[i] = Bytes(design.plans[i].damaged_file(random));
        }
        self.put(Line::Register(top, design.shape.clone(), files));
    }
}
