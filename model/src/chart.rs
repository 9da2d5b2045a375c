//! Charts of any kind.

use crate::choice::Choice;
use crate::fault::Fault;
use crate::file::{FileRefusal, Kind};
use crate::sittings::Sittings;
use crate::table::{Side, Table};
use crate::told::Told;
use crate::weighted::Weighted;

#[derive(Clone, Debug, PartialEq, Eq)]
pub enum Chart {
    Weighted(Weighted),
    Choice(Choice),
    Sittings(Box<Sittings>),
}

impl Chart {
    /// The chart that a file holds, of the kind as which the file is read.
    pub fn of_file(bytes: &[u8]) -> Result<Chart, FileRefusal> {
        match Kind::of_file(bytes) {
            Kind::Weighted => {
                let mut chart = Weighted::default();
                chart.read(bytes)?;
                Ok(Chart::Weighted(chart))
            }
            Kind::Choice => {
                let mut chart = Choice::default();
                chart.read(bytes)?;
                Ok(Chart::Choice(chart))
            }
        }
    }

    pub fn told(&self) -> &Told {
        match self {
            Chart::Weighted(chart) => chart.told(),
            Chart::Choice(chart) => chart.told(),
            Chart::Sittings(chart) => chart.told(),
        }
    }

    /// Weighs a showing for (s, t) in a table with as many sections: on the upper side the least claim that a pairing shows, on
    /// the lower side the greatest that potentials show, or the first fault.
    pub fn weigh(&self, side: Side, table: &Table, s: u32, t: u32, words: &[i32]) -> Result<u32, Fault> {
        match (self, side) {
            (Chart::Weighted(chart), Side::Upper) => chart.weigh_pairing(table, s, t, words),
            (Chart::Weighted(chart), Side::Lower) => chart.weigh_potentials(table, s, t, words),
            (Chart::Choice(chart), Side::Upper) => chart.weigh_pairing(table, s, t, words),
            (Chart::Choice(chart), Side::Lower) => chart.weigh_potentials(table, s, t, words),
            (Chart::Sittings(chart), Side::Upper) => chart.weigh_pairing(table, s, t, words),
            (Chart::Sittings(chart), Side::Lower) => chart.weigh_potentials(table, s, t, words),
        }
    }
}
