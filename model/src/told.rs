//! What a chart of any kind tells of itself.

use crate::fault::{Check, Fault};

/// The most sections that a chart has.
pub const MOST_SECTIONS: usize = 32;

/// A discount a / b, with 1 ≤ a < b ≤ 1,000.
#[derive(Clone, Copy, Debug, PartialEq, Eq)]
pub struct Discount {
    a: u16,
    b: u16,
}

impl Discount {
    pub fn new(a: u16, b: u16) -> Option<Discount> {
        (1 <= a && a < b && b <= 1000).then_some(Discount { a, b })
    }

    pub fn a(self) -> u16 {
        self.a
    }

    pub fn b(self) -> u16 {
        self.b
    }

    /// The least whole number that is at least a / b times `sum` / `whole`.
    #[inline]
    pub fn at_least(self, sum: u64, whole: u32) -> u32 {
        (u64::from(self.a) * sum).div_ceil(u64::from(self.b) * u64::from(whole)) as u32
    }

    /// The greatest whole number that is at most a / b times `sum` / `whole`, and 0 if that is negative.
    #[inline]
    pub fn at_most(self, sum: i64, whole: u32) -> u32 {
        let sum = u64::try_from(sum).unwrap_or(0);
        (u64::from(self.a) * sum / (u64::from(self.b) * u64::from(whole))) as u32
    }
}

/// What a chart tells: its number of sections, its discount, its longest showing, and which pairs are apart.
#[derive(Clone, Debug, PartialEq, Eq)]
pub struct Told {
    n: usize,
    discount: Discount,
    longest: usize,
    /// For each section a mask of those that are apart from it.
    apart: [u32; MOST_SECTIONS],
}

impl Told {
    /// What a chart tells whose sections have these bands.
    pub fn by_bands(bands: &[u8], discount: Discount, longest: usize) -> Told {
        let mut apart = [0; MOST_SECTIONS];
        for (s, &band) in bands.iter().enumerate() {
            for (t, &other) in bands.iter().enumerate() {
                apart[s] |= u32::from(band != other) << t;
            }
        }
        Told { n: bands.len(), discount, longest, apart }
    }

    /// What two sittings tell together, or none if the two do not fit (refusal 12).
    pub fn both(first: &Told, second: &Told) -> Option<Told> {
        let longest = first.longest + second.longest + 1;
        if (first.n, first.discount) != (second.n, second.discount) || longest > 2_000_000_000 {
            return None;
        }
        let mut apart = first.apart;
        for (mask, other) in apart.iter_mut().zip(second.apart) {
            *mask |= other;
        }
        Some(Told { n: first.n, discount: first.discount, longest, apart })
    }

    pub fn n(&self) -> usize {
        self.n
    }

    pub fn discount(&self) -> Discount {
        self.discount
    }

    pub fn longest(&self) -> usize {
        self.longest
    }

    /// Whether two sections below n are apart.
    #[inline]
    pub fn apart(&self, s: usize, t: usize) -> bool {
        self.apart[s] >> t & 1 == 1
    }

    /// The section of that number, if it is below n.
    #[inline]
    pub fn section(&self, number: u32) -> Option<usize> {
        usize::try_from(number).ok().filter(|&s| s < self.n)
    }

    /// The two sections, if both are below n.
    #[inline]
    pub fn pair(&self, s: u32, t: u32) -> Option<(usize, usize)> {
        Some((self.section(s)?, self.section(t)?))
    }

    /// The two sections, if both are below n and the pair is judged: the first check of every weighing.
    #[inline]
    pub fn judged(&self, s: u32, t: u32) -> Result<(usize, usize), Fault> {
        match self.pair(s, t) {
            Some((s, t)) if !self.apart(s, t) => Ok((s, t)),
            _ => Err(Fault::new(Check::PairNotJudged, 0)),
        }
    }

    /// All pairs, by the first section and then the second.
    pub fn pairs(&self) -> impl Iterator<Item = (usize, usize)> + use<> {
        let n = self.n;
        (0..n * n).map(move |cell| (cell / n, cell % n))
    }

    /// All judged pairs, by the first section and then the second.
    pub fn judged_pairs(&self) -> impl Iterator<Item = (usize, usize)> + '_ {
        self.pairs().filter(|&(s, t)| !self.apart(s, t))
    }
}
