//! The header of a chart file, its bands and where its routes lie, and why a file is refused.

use std::fmt;
use std::ops::Range;

use crate::told::{Discount, MOST_SECTIONS};

const HEADER: usize = 16;

/// The two kinds of chart that a file can hold.
#[derive(Clone, Copy, Debug, PartialEq, Eq, Hash)]
pub enum Kind {
    Weighted,
    Choice,
}

impl Kind {
    /// The kind as which a file is read: choice if its kind field is 2, and else weighted.
    pub fn of_file(bytes: &[u8]) -> Kind {
        match bytes {
            [0, 2, ..] => Kind::Choice,
            _ => Kind::Weighted,
        }
    }

    fn field(self) -> u16 {
        match self {
            Kind::Weighted => 1,
            Kind::Choice => 2,
        }
    }

    fn admits(self, whole: u16) -> bool {
        match self {
            Kind::Weighted => (1..=10_000).contains(&whole),
            Kind::Choice => whole == 0,
        }
    }

    fn route_bytes(self, n: usize) -> usize {
        match self {
            Kind::Weighted => 2 * n * n,
            Kind::Choice => 4 * n,
        }
    }
}

impl fmt::Display for Kind {
    fn fmt(&self, f: &mut fmt::Formatter) -> fmt::Result {
        f.write_str(match self {
            Kind::Weighted => "weighted",
            Kind::Choice => "choice",
        })
    }
}

/// Why a chart file is refused: the first check that fails.
#[derive(Clone, Copy, Debug, PartialEq, Eq)]
pub enum FileRefusal {
    TooShort { size: usize },
    Length,
    Kind,
    Sections,
    Discount,
    Whole,
    Bands,
    Routes,
    RoutesOf { section: usize },
}

impl FileRefusal {
    pub fn number(self) -> u32 {
        match self {
            FileRefusal::TooShort { .. } | FileRefusal::Length => 1,
            FileRefusal::Kind => 2,
            FileRefusal::Sections => 3,
            FileRefusal::Discount => 4,
            FileRefusal::Whole => 5,
            FileRefusal::Bands | FileRefusal::Routes => 6,
            FileRefusal::RoutesOf { .. } => 7,
        }
    }

    pub fn place(self) -> usize {
        match self {
            FileRefusal::TooShort { size } => size,
            FileRefusal::Length => 14,
            FileRefusal::Kind => 0,
            FileRefusal::Sections => 2,
            FileRefusal::Discount => 4,
            FileRefusal::Whole => 8,
            FileRefusal::Bands => 10,
            FileRefusal::Routes => 12,
            FileRefusal::RoutesOf { section } => section,
        }
    }
}

impl fmt::Display for FileRefusal {
    fn fmt(&self, f: &mut fmt::Formatter) -> fmt::Result {
        write!(f, "{} {}", self.number(), self.place())
    }
}

/// What a file holds whose checks 1 to 6 pass: its header's numbers, its bands and the bytes of its routes.
pub struct Contents<'a> {
    pub n: usize,
    pub discount: Discount,
    pub whole: u16,
    pub bands: &'a [u8],
    pub routes: &'a [u8],
}

/// The number of 16 bits, high byte first, at a byte of the file.
fn number(bytes: &[u8], at: usize) -> u16 {
    u16::from_be_bytes([bytes[at], bytes[at + 1]])
}

impl<'a> Contents<'a> {
    /// Reads a file of the kind, up to check 6.
    pub fn read(bytes: &'a [u8], kind: Kind) -> Result<Contents<'a>, FileRefusal> {
        if bytes.len() < HEADER {
            return Err(FileRefusal::TooShort { size: bytes.len() });
        }
        if usize::from(number(bytes, 14)) != bytes.len() {
            return Err(FileRefusal::Length);
        }
        if number(bytes, 0) != kind.field() {
            return Err(FileRefusal::Kind);
        }
        let n = usize::from(number(bytes, 2));
        if !(1..=MOST_SECTIONS).contains(&n) {
            return Err(FileRefusal::Sections);
        }
        let discount = Discount::new(number(bytes, 4), number(bytes, 6)).ok_or(FileRefusal::Discount)?;
        let whole = number(bytes, 8);
        if !kind.admits(whole) {
            return Err(FileRefusal::Whole);
        }
        let bands = Self::place(bytes, 10, n).ok_or(FileRefusal::Bands)?;
        let routes = Self::place(bytes, 12, kind.route_bytes(n)).ok_or(FileRefusal::Routes)?;
        if bands.start < routes.end && routes.start < bands.end {
            return Err(FileRefusal::Routes);
        }
        Ok(Contents { n, discount, whole, bands: &bytes[bands], routes: &bytes[routes] })
    }

    /// Where a table of that many bytes lies, if the offset in the header puts it wholly in the file from byte 16 on.
    fn place(bytes: &[u8], offset: usize, size: usize) -> Option<Range<usize>> {
        let start = usize::from(number(bytes, offset));
        (HEADER <= start && start + size <= bytes.len()).then_some(start..start + size)
    }
}
