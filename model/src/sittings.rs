//! Two sittings of one test, under two charts of any kind.

use crate::chart::Chart;
use crate::fault::{Check, Fault};
use crate::table::{Side, Table};
use crate::told::Told;

#[derive(Clone, Debug, PartialEq, Eq)]
pub struct Sittings {
    told: Told,
    charts: [Chart; 2],
}

impl Sittings {
    /// The chart of two sittings. Two charts that do not fit are handed back (refusal 12).
    pub fn new(first: Chart, second: Chart) -> Result<Sittings, Box<[Chart; 2]>> {
        match Told::both(first.told(), second.told()) {
            Some(told) => Ok(Sittings { told, charts: [first, second] }),
            None => Err(Box::new([first, second])),
        }
    }

    pub fn told(&self) -> &Told {
        &self.told
    }

    pub fn charts(&self) -> &[Chart; 2] {
        &self.charts
    }

    /// The words of a pairing for each sitting, if its first word can be how many sitting 0 has.
    pub fn split(words: &[i32]) -> Option<[&[i32]; 2]> {
        let (&count, rest) = words.split_first()?;
        let (first, second) = rest.split_at_checked(usize::try_from(count).ok()?)?;
        Some([first, second])
    }

    /// The sitting of potentials, and their words in it.
    pub fn sitting(words: &[i32]) -> Option<(u8, &[i32])> {
        match words {
            [0, rest @ ..] => Some((0, rest)),
            [1, rest @ ..] => Some((1, rest)),
            _ => None,
        }
    }

    /// The least claim that a pairing shows for (s, t) in the table, or the first fault.
    pub fn weigh_pairing(&self, table: &Table, s: u32, t: u32, words: &[i32]) -> Result<u32, Fault> {
        self.told.judged(s, t)?;
        let [first, second] = Self::split(words).ok_or_else(|| Fault::new(Check::FirstSittingsWords, 0))?;
        let claim = self.weigh_within(0, Side::Upper, table, s, t, first)?;
        Ok(claim.max(self.weigh_within(1, Side::Upper, table, s, t, second)?))
    }

    /// The greatest claim that potentials show for (s, t) in the table, or the first fault.
    pub fn weigh_potentials(&self, table: &Table, s: u32, t: u32, words: &[i32]) -> Result<u32, Fault> {
        self.told.judged(s, t)?;
        let (sitting, words) = Self::sitting(words).ok_or_else(|| Fault::new(Check::SittingOfPotentials, 0))?;
        self.weigh_within(sitting, Side::Lower, table, s, t, words)
    }

    fn weigh_within(&self, sitting: u8, side: Side, table: &Table, s: u32, t: u32, words: &[i32]) -> Result<u32, Fault> {
        let chart = &self.charts[usize::from(sitting)];
        chart.weigh(side, table, s, t, words).map_err(|fault| fault.within(sitting))
    }
}
