//! Choice charts: a candidate chooses among the successors of a section.

use crate::fault::{Check, Fault};
use crate::file::{Contents, FileRefusal, Kind};
use crate::table::Table;
use crate::told::{Discount, Told};

/// The most words of a pairing.
pub const LONGEST_PAIRING: usize = 2048;

#[derive(Clone, Debug, PartialEq, Eq)]
pub struct Choice {
    told: Told,
    /// For each section the mask of its successors.
    masks: Vec<u32>,
}

impl Default for Choice {
    /// A fresh chart: one section with a route to itself, and discount 1/2.
    fn default() -> Choice {
        let half = Discount::new(1, 2).expect("1/2 is a discount");
        Choice { told: Told::by_bands(&[0], half, LONGEST_PAIRING), masks: vec![1] }
    }
}

/// The sections that a mask marks, in order.
pub fn marked(mask: u32) -> impl Iterator<Item = usize> {
    (0..32).filter(move |v| mask >> v & 1 == 1)
}

impl Choice {
    /// Reads a file into the chart and answers n; if the file is refused, the chart stays as it is.
    pub fn read(&mut self, bytes: &[u8]) -> Result<usize, FileRefusal> {
        let file = Contents::read(bytes, Kind::Choice)?;
        let mask = |bytes: &[u8]| u32::from_be_bytes([bytes[0], bytes[1], bytes[2], bytes[3]]);
        let masks: Vec<u32> = file.routes.chunks_exact(4).map(mask).collect();
        let sound = |mask: u32| mask != 0 && u64::from(mask) >> file.n == 0;
        if let Some(section) = masks.iter().position(|&mask| !sound(mask)) {
            return Err(FileRefusal::RoutesOf { section });
        }
        *self = Choice { told: Told::by_bands(file.bands, file.discount, LONGEST_PAIRING), masks };
        Ok(file.n)
    }

    pub fn told(&self) -> &Told {
        &self.told
    }

    /// The mask of the successors of a section.
    #[inline]
    pub fn mask(&self, s: usize) -> u32 {
        self.masks[s]
    }

    /// The least claim that a pairing shows for (s, t) in the table, or the first fault.
    pub fn weigh_pairing(&self, table: &Table, s: u32, t: u32, words: &[i32]) -> Result<u32, Fault> {
        let (s, t) = self.told.judged(s, t)?;
        if !words.len().is_multiple_of(2) || words.len() > LONGEST_PAIRING {
            return Err(Fault::new(Check::ChoicePairingLength, words.len()));
        }
        let (mut first, mut second) = (self.mask(s), self.mask(t));
        let mut greatest = 0;
        for (i, pair) in words.chunks_exact(2).enumerate() {
            let bad = |word: usize| Fault::new(Check::PairingSuccessor, 2 * i + word);
            let u = successor(self.mask(s), pair[0]).ok_or_else(|| bad(0))?;
            let v = successor(self.mask(t), pair[1]).ok_or_else(|| bad(1))?;
            first &= !(1 << u);
            second &= !(1 << v);
            greatest = greatest.max(table.entry(u, v));
        }
        // What is left of the masks are the successors that are in no pair.
        if first != 0 {
            return Err(Fault::new(Check::FirstCovered, first.trailing_zeros() as usize));
        }
        if second != 0 {
            return Err(Fault::new(Check::SecondCovered, second.trailing_zeros() as usize));
        }
        Ok(self.told.discount().at_least(u64::from(greatest), 1))
    }

    /// The greatest claim that potentials show for (s, t) in the table, or the first fault.
    pub fn weigh_potentials(&self, table: &Table, s: u32, t: u32, words: &[i32]) -> Result<u32, Fault> {
        let (s, t) = self.told.judged(s, t)?;
        let &[side, section, floor] = words else {
            return Err(Fault::new(Check::ChoicePotentialsLength, words.len()));
        };
        let (own, other) = match side {
            0 => (self.mask(s), self.mask(t)),
            1 => (self.mask(t), self.mask(s)),
            _ => return Err(Fault::new(Check::PotentialsSide, 0)),
        };
        let section = successor(own, section).ok_or_else(|| Fault::new(Check::PotentialsSuccessor, 1))?;
        let floor = u32::try_from(floor).ok().filter(|&floor| floor <= table.top().get());
        let floor = floor.ok_or_else(|| Fault::new(Check::Floor, 2))?;
        let entry = |successor| if side == 0 { table.entry(section, successor) } else { table.entry(successor, section) };
        if let Some(successor) = marked(other).find(|&successor| entry(successor) < floor) {
            return Err(Fault::new(Check::FloorTooHigh, successor));
        }
        Ok(self.told.discount().at_most(i64::from(floor), 1))
    }
}

/// The section that a word names, if the mask marks it.
#[inline]
fn successor(mask: u32, word: i32) -> Option<usize> {
    let section = u32::try_from(word).ok()?;
    (section < 32 && mask >> section & 1 == 1).then_some(section as usize)
}
