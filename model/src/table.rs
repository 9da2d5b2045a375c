//! Sides, tops and tables.

use std::fmt;

use crate::told::Told;

/// Whether a table, a draft or a showing bounds distances from above or from below.
#[derive(Clone, Copy, Debug, PartialEq, Eq, Hash)]
pub enum Side {
    Upper,
    Lower,
}

impl fmt::Display for Side {
    fn fmt(&self, f: &mut fmt::Formatter) -> fmt::Result {
        f.write_str(match self {
            Side::Upper => "upper",
            Side::Lower => "lower",
        })
    }
}

/// The whole number, from 1 to 1,000,000,000, that stands for the distance 1.
#[derive(Clone, Copy, Debug, PartialEq, Eq)]
pub struct Top(u32);

impl Top {
    pub const GREATEST: u32 = 1_000_000_000;

    /// The top of that number, or none for a number that is no top (refusal 11).
    pub fn new(number: u32) -> Option<Top> {
        (1..=Top::GREATEST).contains(&number).then_some(Top(number))
    }

    pub fn get(self) -> u32 {
        self.0
    }
}

/// An entry from 0 to the top for each ordered pair of sections, row by row.
#[derive(Clone, Debug, PartialEq, Eq)]
pub struct Table {
    n: usize,
    top: Top,
    entries: Vec<u32>,
}

impl Table {
    /// The table with which a side starts: the top at each pair on the upper side; on the lower side the top at apart pairs and
    /// 0 at judged ones.
    pub fn starting(side: Side, told: &Told, top: Top) -> Table {
        let n = told.n();
        let entry = |cell: usize| match side {
            Side::Lower if !told.apart(cell / n, cell % n) => 0,
            _ => top.get(),
        };
        Table { n, top, entries: (0..n * n).map(entry).collect() }
    }

    pub fn n(&self) -> usize {
        self.n
    }

    pub fn top(&self) -> Top {
        self.top
    }

    /// The entry of a pair of sections below n.
    #[inline]
    pub fn entry(&self, s: usize, t: usize) -> u32 {
        self.entries[s * self.n + t]
    }

    /// Sets the entry of a pair of sections below n, to a number up to the top.
    pub fn set(&mut self, s: usize, t: usize, entry: u32) {
        assert!(entry <= self.top.get());
        self.entries[s * self.n + t] = entry;
    }

    /// The entries of a section with each other.
    #[inline]
    pub fn row(&self, s: usize) -> &[u32] {
        &self.entries[s * self.n..][..self.n]
    }
}
