//! Weighted charts: each section goes on to others by chance, in whole parts.

use crate::fault::{Check, Fault};
use crate::file::{Contents, FileRefusal, Kind};
use crate::table::Table;
use crate::told::{Discount, MOST_SECTIONS, Told};

/// The most words of a pairing.
pub const LONGEST_PAIRING: usize = 3072;

#[derive(Clone, Debug, PartialEq, Eq)]
pub struct Weighted {
    told: Told,
    whole: u16,
    /// The parts, row by row.
    parts: Vec<u16>,
}

impl Default for Weighted {
    /// A fresh chart: one section with a route to itself, discount 1/2, and P 1.
    fn default() -> Weighted {
        let half = Discount::new(1, 2).expect("1/2 is a discount");
        Weighted { told: Told::by_bands(&[0], half, LONGEST_PAIRING), whole: 1, parts: vec![1] }
    }
}

impl Weighted {
    /// Reads a file into the chart and answers n; if the file is refused, the chart stays as it is.
    pub fn read(&mut self, bytes: &[u8]) -> Result<usize, FileRefusal> {
        let file = Contents::read(bytes, Kind::Weighted)?;
        let parts: Vec<u16> = file.routes.chunks_exact(2).map(|part| u16::from_be_bytes([part[0], part[1]])).collect();
        let adds_up = |row: &[u16]| row.iter().map(|&part| u32::from(part)).sum::<u32>() == u32::from(file.whole);
        if let Some(section) = parts.chunks_exact(file.n).position(|row| !adds_up(row)) {
            return Err(FileRefusal::RoutesOf { section });
        }
        *self = Weighted { told: Told::by_bands(file.bands, file.discount, LONGEST_PAIRING), whole: file.whole, parts };
        Ok(file.n)
    }

    pub fn told(&self) -> &Told {
        &self.told
    }

    /// What each row adds up to: P.
    pub fn whole(&self) -> u16 {
        self.whole
    }

    /// The parts of a section that go on to each other one.
    #[inline]
    pub fn row(&self, s: usize) -> &[u16] {
        let n = self.told.n();
        &self.parts[s * n..][..n]
    }

    /// The least claim that a pairing shows for (s, t) in the table, or the first fault.
    pub fn weigh_pairing(&self, table: &Table, s: u32, t: u32, words: &[i32]) -> Result<u32, Fault> {
        let (s, t) = self.told.judged(s, t)?;
        if !words.len().is_multiple_of(3) || words.len() > LONGEST_PAIRING {
            return Err(Fault::new(Check::WeightedPairingLength, words.len()));
        }
        let mut first = [0; MOST_SECTIONS];
        let mut second = [0; MOST_SECTIONS];
        let mut sum = 0;
        for (i, triple) in words.chunks_exact(3).enumerate() {
            let (u, v, amount) = self.triple(triple).map_err(|(check, word)| Fault::new(check, 3 * i + word))?;
            first[u] += amount;
            second[v] += amount;
            sum += u64::from(amount) * u64::from(table.entry(u, v));
        }
        self.margin(&first, s).map_err(|u| Fault::new(Check::FirstMargin, u))?;
        self.margin(&second, t).map_err(|v| Fault::new(Check::SecondMargin, v))?;
        Ok(self.told.discount().at_least(sum, u32::from(self.whole)))
    }

    /// The sections and the amount of a triple, or the first check that one of its words fails, and which word.
    #[inline]
    fn triple(&self, triple: &[i32]) -> Result<(usize, usize, u32), (Check, usize)> {
        let section = |word: i32| u32::try_from(word).ok().and_then(|number| self.told.section(number));
        let u = section(triple[0]).ok_or((Check::PairingSection, 0))?;
        let v = section(triple[1]).ok_or((Check::PairingSection, 1))?;
        match u32::try_from(triple[2]) {
            Ok(amount) if 1 <= amount && amount <= u32::from(self.whole) => Ok((u, v, amount)),
            _ => Err((Check::PairingAmount, 2)),
        }
    }

    /// Whether the amounts are the row of the section; if not, at which section they first differ.
    #[inline]
    fn margin(&self, amounts: &[u32; MOST_SECTIONS], section: usize) -> Result<(), usize> {
        let row = self.row(section);
        match row.iter().zip(amounts).position(|(&part, &amount)| u32::from(part) != amount) {
            Some(other) => Err(other),
            None => Ok(()),
        }
    }

    /// The greatest claim that potentials show for (s, t) in the table, or the first fault.
    pub fn weigh_potentials(&self, table: &Table, s: u32, t: u32, words: &[i32]) -> Result<u32, Fault> {
        let (s, t) = self.told.judged(s, t)?;
        let n = self.told.n();
        if words.len() != 2 * n {
            return Err(Fault::new(Check::WeightedPotentialsLength, words.len()));
        }
        let top = table.top().get();
        if let Some(i) = words.iter().position(|word| word.unsigned_abs() > top) {
            return Err(Fault::new(Check::Potential, i));
        }
        let (alpha, beta) = words.split_at(n);
        self.sums_fit(table, s, t, alpha, beta)?;
        let sum = weighted_sum(self.row(s), alpha) + weighted_sum(self.row(t), beta);
        Ok(self.told.discount().at_most(sum, u32::from(self.whole)))
    }

    /// Whether α(u) + β(v) is at most the entry of (u, v) for all successors u of s and v of t. All words are from −K to K.
    #[inline]
    fn sums_fit(&self, table: &Table, s: usize, t: usize, alpha: &[i32], beta: &[i32]) -> Result<(), Fault> {
        // At a section that is no successor of t the least potential there is stands for β: with it no sum is above 0. So a row
        // of the table is looked at as a whole, with no branches.
        let lowest = -(table.top().get() as i32);
        let mut bounds = [lowest; MOST_SECTIONS];
        for ((bound, &part), &potential) in bounds.iter_mut().zip(self.row(t)).zip(beta) {
            *bound = if part > 0 { potential } else { lowest };
        }
        for (u, (&part, &potential)) in self.row(s).iter().zip(alpha).enumerate() {
            let above = |(&entry, &bound): (&u32, &i32)| potential + bound > entry as i32;
            if part > 0 && table.row(u).iter().zip(&bounds).fold(false, |any, cell| any | above(cell)) {
                let v = table.row(u).iter().zip(&bounds).position(above).expect("a sum is above its entry");
                return Err(Fault::new(Check::PotentialsSum, u * self.told.n() + v));
            }
        }
        Ok(())
    }
}

/// The sum of all parts of a row times their potentials.
#[inline]
fn weighted_sum(row: &[u16], potentials: &[i32]) -> i64 {
    row.iter().zip(potentials).map(|(&part, &potential)| i64::from(part) * i64::from(potential)).sum()
}
