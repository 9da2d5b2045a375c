//! Why a showing is not valid.

use std::fmt;

/// The checks that a showing can fail.
#[derive(Clone, Copy, Debug, PartialEq, Eq)]
pub enum Check {
    PairNotJudged = 100,
    WeightedPairingLength = 101,
    PairingSection = 102,
    PairingAmount = 103,
    FirstMargin = 104,
    SecondMargin = 105,
    WeightedPotentialsLength = 111,
    Potential = 112,
    PotentialsSum = 113,
    ChoicePairingLength = 121,
    PairingSuccessor = 122,
    FirstCovered = 123,
    SecondCovered = 124,
    ChoicePotentialsLength = 131,
    PotentialsSide = 132,
    PotentialsSuccessor = 133,
    Floor = 134,
    FloorTooHigh = 135,
    FirstSittingsWords = 141,
    SittingOfPotentials = 142,
}

impl Check {
    pub fn number(self) -> u32 {
        self as u32
    }
}

/// The first check that a showing fails, and where; within which sittings, the outermost first.
#[derive(Clone, Debug, PartialEq, Eq)]
pub struct Fault {
    pub sittings: Vec<u8>,
    pub check: Check,
    pub place: usize,
}

impl Fault {
    pub fn new(check: Check, place: usize) -> Fault {
        Fault { sittings: Vec::new(), check, place }
    }

    /// This fault as one of a sitting of two.
    pub fn within(mut self, sitting: u8) -> Fault {
        self.sittings.insert(0, sitting);
        self
    }
}

impl fmt::Display for Fault {
    fn fmt(&self, f: &mut fmt::Formatter) -> fmt::Result {
        for sitting in &self.sittings {
            write!(f, "{sitting} ")?;
        }
        write!(f, "{} {}", self.check.number(), self.place)
    }
}
