use crate::Sitting;
use std::error::Error;
use std::fmt;

/// Why no register is made.
#[derive(Clone, Copy, PartialEq, Eq, Debug)]
pub enum NotMade {
    /// The bytes hold no chart.
    Chart(ChartRefusal),
    /// The top is 0 or above 1,000,000,000.
    Top,
    /// The two charts are no two sittings of one test.
    Misfit,
    /// There is no memory for a register.
    NoMemory,
}

/// Why bytes hold no chart, with the numbers of `docs/CHART-FILES.md`.
#[derive(Clone, Copy, PartialEq, Eq, Debug)]
pub struct ChartRefusal {
    /// The sitting whose chart it was to be, where a test is sat twice.
    pub sitting: Option<Sitting>,
    pub number: u16,
    pub place: usize,
}

/// Why a showing is not valid, with the numbers of `docs/SHOWINGS.md`.
#[derive(Clone, Copy, PartialEq, Eq, Debug)]
pub struct Fault {
    /// The sitting that finds it, where one of two does.
    pub sitting: Option<Sitting>,
    pub number: u16,
    pub place: usize,
}

/// Why a call is refused. A refused call changes nothing.
#[derive(Clone, Copy, PartialEq, Eq, Debug)]
pub enum Refusal {
    /// Open: a draft is open already.
    NotResting,
    /// Claim: no draft takes claims.
    NotClaiming,
    /// Claim: the chart has not both sections.
    ClaimOutside,
    /// Claim: the sections are apart.
    ClaimApart,
    /// Claim: the draft has a claim for the pair already.
    ClaimedTwice,
    /// Claim: an upper value is above the entry, or a lower one is below it or above the top.
    ClaimValue,
    /// Close: no draft takes claims.
    CloseNotClaiming,
    /// Close: the draft has no claims.
    NoClaims,
    /// Show: no draft takes showings.
    NotShowing,
    /// Show: the chart has not both sections.
    ShowOutside,
    /// Show: the draft has no claim for the pair.
    NoClaim,
    /// Show: the pair's claim is shown already.
    ShownAlready,
    /// Show: the showing is not valid, for this fault.
    Fault(Fault),
    /// Show: the showing is valid, and its strongest claim is this bound, which does not reach the pair's claim.
    Bound(u32),
    /// Enter: no draft takes showings.
    EnterNotShowing,
    /// Enter: the claim of this pair, the first such by its first section and then its second, is not shown.
    Unshown(usize, usize),
    /// Abandon: no draft is open.
    Resting,
    /// Ask: the chart has not both sections.
    AskOutside,
}

impl Refusal {
    /// The number of the refusal in `docs/REGISTER.md`.
    pub fn number(&self) -> u16 {
        match self {
            Refusal::NotResting => 20,
            Refusal::NotClaiming => 30,
            Refusal::ClaimOutside => 31,
            Refusal::ClaimApart => 32,
            Refusal::ClaimedTwice => 33,
            Refusal::ClaimValue => 34,
            Refusal::CloseNotClaiming => 40,
            Refusal::NoClaims => 41,
            Refusal::NotShowing => 50,
            Refusal::ShowOutside => 51,
            Refusal::NoClaim => 52,
            Refusal::ShownAlready => 53,
            Refusal::Fault(_) => 54,
            Refusal::Bound(_) => 55,
            Refusal::EnterNotShowing => 60,
            Refusal::Unshown(_, _) => 61,
            Refusal::Resting => 70,
            Refusal::AskOutside => 80,
        }
    }
}

/// The number, and what it carries.
impl fmt::Display for Refusal {
    fn fmt(&self, f: &mut fmt::Formatter<'_>) -> fmt::Result {
        write!(f, "{}", self.number())?;
        match self {
            Refusal::Fault(fault) => write!(f, " {fault}"),
            Refusal::Bound(claim) => write!(f, " {claim}"),
            Refusal::Unshown(s, t) => write!(f, " {s} {t}"),
            _ => Ok(()),
        }
    }
}

fn write_numbers(f: &mut fmt::Formatter<'_>, sitting: Option<Sitting>, number: u16, place: usize) -> fmt::Result {
    match sitting {
        Some(Sitting::First) => write!(f, "0 ")?,
        Some(Sitting::Second) => write!(f, "1 ")?,
        None => (),
    }
    write!(f, "{number} {place}")
}

/// The sitting, if one finds it, the number and the place.
impl fmt::Display for Fault {
    fn fmt(&self, f: &mut fmt::Formatter<'_>) -> fmt::Result {
        write_numbers(f, self.sitting, self.number, self.place)
    }
}

/// The sitting, where a test is sat twice, the number and the place.
impl fmt::Display for ChartRefusal {
    fn fmt(&self, f: &mut fmt::Formatter<'_>) -> fmt::Result {
        write_numbers(f, self.sitting, self.number, self.place)
    }
}

impl fmt::Display for NotMade {
    fn fmt(&self, f: &mut fmt::Formatter<'_>) -> fmt::Result {
        match self {
            NotMade::Chart(refusal) => write!(f, "{refusal}"),
            NotMade::Top => write!(f, "11"),
            NotMade::Misfit => write!(f, "12"),
            NotMade::NoMemory => write!(f, "no memory for a register"),
        }
    }
}

impl Error for Refusal {}

impl Error for Fault {}

impl Error for NotMade {}
