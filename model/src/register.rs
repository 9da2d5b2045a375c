//! The register: two tables of bounds over one top, which calls change.

use std::fmt;

use crate::chart::Chart;
use crate::fault::Fault;
use crate::table::{Side, Table, Top};

/// Why a call is refused, and what the refusal carries.
#[derive(Clone, Debug, PartialEq, Eq)]
pub enum Refusal {
    DraftIsOpen,
    ClaimNotClaiming,
    ClaimSections,
    ClaimApart,
    ClaimedAlready,
    ClaimLooser,
    CloseNotClaiming,
    CloseNoClaims,
    ShowNotShowing,
    ShowSections,
    ShowNoClaim,
    ShownAlready,
    ShowingFault(Fault),
    /// The least claim that the pairing shows, or the greatest that the potentials show.
    BeyondBound(u32),
    EnterNotShowing,
    /// The first pair whose claim is not shown.
    NotShown(usize, usize),
    AbandonResting,
    AskSections,
}

impl Refusal {
    pub fn number(&self) -> u32 {
        match self {
            Refusal::DraftIsOpen => 20,
            Refusal::ClaimNotClaiming => 30,
            Refusal::ClaimSections => 31,
            Refusal::ClaimApart => 32,
            Refusal::ClaimedAlready => 33,
            Refusal::ClaimLooser => 34,
            Refusal::CloseNotClaiming => 40,
            Refusal::CloseNoClaims => 41,
            Refusal::ShowNotShowing => 50,
            Refusal::ShowSections => 51,
            Refusal::ShowNoClaim => 52,
            Refusal::ShownAlready => 53,
            Refusal::ShowingFault(_) => 54,
            Refusal::BeyondBound(_) => 55,
            Refusal::EnterNotShowing => 60,
            Refusal::NotShown(..) => 61,
            Refusal::AbandonResting => 70,
            Refusal::AskSections => 80,
        }
    }
}

impl fmt::Display for Refusal {
    fn fmt(&self, f: &mut fmt::Formatter) -> fmt::Result {
        write!(f, "{}", self.number())?;
        match self {
            Refusal::ShowingFault(fault) => write!(f, " {fault}"),
            Refusal::BeyondBound(bound) => write!(f, " {bound}"),
            Refusal::NotShown(s, t) => write!(f, " {s} {t}"),
            _ => Ok(()),
        }
    }
}

/// What a register says of a pair.
#[derive(Clone, Copy, Debug, PartialEq, Eq)]
pub enum Verdict {
    Apart,
    Settled,
    Open,
}

impl fmt::Display for Verdict {
    fn fmt(&self, f: &mut fmt::Formatter) -> fmt::Result {
        f.write_str(match self {
            Verdict::Apart => "apart",
            Verdict::Settled => "settled",
            Verdict::Open => "open",
        })
    }
}

/// The two entries of a pair, and the verdict.
#[derive(Clone, Copy, Debug, PartialEq, Eq)]
pub struct Bounds {
    pub lower: u32,
    pub upper: u32,
    pub verdict: Verdict,
}

impl fmt::Display for Bounds {
    fn fmt(&self, f: &mut fmt::Formatter) -> fmt::Result {
        write!(f, "{} {} {}", self.lower, self.upper, self.verdict)
    }
}

/// Claims of one side, at most one for each pair.
#[derive(Clone, Debug)]
pub struct Draft {
    pub side: Side,
    /// The side's table with the draft's claims laid over it.
    pub laid: Table,
    /// For each pair whether it has a claim.
    claimed: Vec<bool>,
    count: usize,
}

impl Draft {
    pub fn has_claim(&self, s: usize, t: usize) -> bool {
        self.claimed[s * self.laid.n() + t]
    }

    /// How many claims there are.
    pub fn count(&self) -> usize {
        self.count
    }
}

/// A closed draft, and which of its claims are shown.
#[derive(Clone, Debug)]
pub struct Showing {
    pub draft: Draft,
    shown: Vec<bool>,
    left: usize,
}

impl Showing {
    /// Whether the pair has a claim that is not shown.
    pub fn waits(&self, s: usize, t: usize) -> bool {
        self.draft.has_claim(s, t) && !self.shown[s * self.draft.laid.n() + t]
    }

    /// How many claims are not shown.
    pub fn left(&self) -> usize {
        self.left
    }
}

#[derive(Clone, Debug)]
pub enum Phase {
    Resting,
    Claiming(Draft),
    Showing(Showing),
}

#[derive(Clone, Debug)]
pub struct Register {
    chart: Chart,
    upper: Table,
    lower: Table,
    phase: Phase,
}

impl Register {
    pub fn new(chart: Chart, top: Top) -> Register {
        let upper = Table::starting(Side::Upper, chart.told(), top);
        let lower = Table::starting(Side::Lower, chart.told(), top);
        Register { chart, upper, lower, phase: Phase::Resting }
    }

    pub fn chart(&self) -> &Chart {
        &self.chart
    }

    pub fn top(&self) -> Top {
        self.upper.top()
    }

    pub fn phase(&self) -> &Phase {
        &self.phase
    }

    pub fn table(&self, side: Side) -> &Table {
        match side {
            Side::Upper => &self.upper,
            Side::Lower => &self.lower,
        }
    }

    pub fn open(&mut self, side: Side) -> Result<usize, Refusal> {
        let Phase::Resting = self.phase else {
            return Err(Refusal::DraftIsOpen);
        };
        let laid = self.table(side).clone();
        let claimed = vec![false; laid.n() * laid.n()];
        self.phase = Phase::Claiming(Draft { side, laid, claimed, count: 0 });
        Ok(0)
    }

    pub fn claim(&mut self, s: u32, t: u32, value: u32) -> Result<usize, Refusal> {
        let Phase::Claiming(draft) = &mut self.phase else {
            return Err(Refusal::ClaimNotClaiming);
        };
        let (s, t) = self.chart.told().pair(s, t).ok_or(Refusal::ClaimSections)?;
        if self.chart.told().apart(s, t) {
            return Err(Refusal::ClaimApart);
        }
        if draft.has_claim(s, t) {
            return Err(Refusal::ClaimedAlready);
        }
        let allowed = match draft.side {
            Side::Upper => 0..=self.upper.entry(s, t),
            Side::Lower => self.lower.entry(s, t)..=self.lower.top().get(),
        };
        if !allowed.contains(&value) {
            return Err(Refusal::ClaimLooser);
        }
        draft.laid.set(s, t, value);
        draft.claimed[s * draft.laid.n() + t] = true;
        draft.count += 1;
        Ok(draft.count)
    }

    pub fn close(&mut self) -> Result<usize, Refusal> {
        let Phase::Claiming(draft) = &self.phase else {
            return Err(Refusal::CloseNotClaiming);
        };
        if draft.count == 0 {
            return Err(Refusal::CloseNoClaims);
        }
        let draft = draft.clone();
        let left = draft.count;
        self.phase = Phase::Showing(Showing { shown: vec![false; draft.claimed.len()], draft, left });
        Ok(left)
    }

    pub fn show(&mut self, s: u32, t: u32, words: &[i32]) -> Result<usize, Refusal> {
        let Phase::Showing(showing) = &mut self.phase else {
            return Err(Refusal::ShowNotShowing);
        };
        let Some((x, y)) = self.chart.told().pair(s, t) else {
            return Err(Refusal::ShowSections);
        };
        if !showing.draft.has_claim(x, y) {
            return Err(Refusal::ShowNoClaim);
        }
        if !showing.waits(x, y) {
            return Err(Refusal::ShownAlready);
        }
        let Draft { side, laid, .. } = &showing.draft;
        let bound = self.chart.weigh(*side, laid, s, t, words).map_err(Refusal::ShowingFault)?;
        let claim = laid.entry(x, y);
        let shown = match side {
            Side::Upper => claim >= bound,
            Side::Lower => claim <= bound,
        };
        if !shown {
            return Err(Refusal::BeyondBound(bound));
        }
        showing.shown[x * laid.n() + y] = true;
        showing.left -= 1;
        Ok(showing.left)
    }

    pub fn enter(&mut self) -> Result<usize, Refusal> {
        let Phase::Showing(showing) = &self.phase else {
            return Err(Refusal::EnterNotShowing);
        };
        if let Some((s, t)) = self.chart.told().pairs().find(|&(s, t)| showing.waits(s, t)) {
            return Err(Refusal::NotShown(s, t));
        }
        let Draft { side, laid, count, .. } = showing.draft.clone();
        match side {
            Side::Upper => self.upper = laid,
            Side::Lower => self.lower = laid,
        }
        self.phase = Phase::Resting;
        Ok(count)
    }

    pub fn abandon(&mut self) -> Result<usize, Refusal> {
        let count = match &self.phase {
            Phase::Resting => return Err(Refusal::AbandonResting),
            Phase::Claiming(draft) => draft.count,
            Phase::Showing(showing) => showing.draft.count,
        };
        self.phase = Phase::Resting;
        Ok(count)
    }

    pub fn ask(&self, s: u32, t: u32) -> Result<Bounds, Refusal> {
        let (s, t) = self.chart.told().pair(s, t).ok_or(Refusal::AskSections)?;
        Ok(self.bounds(s, t))
    }

    /// What the register says of a pair of sections below n.
    pub fn bounds(&self, s: usize, t: usize) -> Bounds {
        let (lower, upper) = (self.lower.entry(s, t), self.upper.entry(s, t));
        let verdict = match self.chart.told().apart(s, t) {
            true => Verdict::Apart,
            false if lower == upper => Verdict::Settled,
            false => Verdict::Open,
        };
        Bounds { lower, upper, verdict }
    }

    /// Weighs a showing in the side's table as it is.
    pub fn weigh(&self, side: Side, s: u32, t: u32, words: &[i32]) -> Result<u32, Fault> {
        self.chart.weigh(side, self.table(side), s, t, words)
    }
}
