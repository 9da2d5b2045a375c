//! Chart files for trials: plans of charts, the bytes that hold them, and damaged bytes.

use crate::file::Kind;
use crate::random::Random;

/// What the charts of two sittings must have in common, and how their sections go on.
#[derive(Clone, Debug)]
pub struct Frame {
    pub n: usize,
    pub a: u16,
    pub b: u16,
    style: Style,
}

#[derive(Clone, Debug)]
enum Style {
    /// Sections go on to any.
    Free,
    /// Each section goes on to one.
    Single,
    /// Sections lie in that many layers and go on to later ones; those of the last layer go on to themselves.
    Layered(usize),
}

/// How the sections of a planned chart go on.
#[derive(Clone, Debug)]
pub enum Routes {
    /// The rows are whole multiples of `unit`.
    Weighted {
        whole: u16,
        unit: u16,
        rows: Vec<Vec<u16>>,
    },
    Choice {
        masks: Vec<u32>,
    },
}

/// A chart to be written into a file.
#[derive(Clone, Debug)]
pub struct Plan {
    pub n: usize,
    pub a: u16,
    pub b: u16,
    bands: Vec<u8>,
    pub routes: Routes,
}

impl Frame {
    pub fn random(random: &mut Random) -> Frame {
        let n = match random.below(100) {
            0..6 => 1,
            6..20 => 2,
            20..78 => 3 + random.below(4),
            78..92 => 7 + random.below(6),
            92..96 => 31,
            _ => 32,
        };
        let (a, b) = match random.below(100) {
            0..35 => (1, 2),
            35..80 => *random.pick(&[(1, 3), (2, 3), (3, 4), (1, 4), (2, 4), (9, 10), (999, 1000), (1, 1000), (1, 10)]),
            _ => {
                let b = random.between(2, 1000);
                (random.between(1, b - 1) as u16, b as u16)
            }
        };
        let style = match random.below(100) {
            0..35 => Style::Free,
            35..50 => Style::Single,
            _ => Style::Layered(2 + random.below(4)),
        };
        Frame { n, a, b, style }
    }

    /// A frame that differs in its number of sections or its discount.
    pub fn misfit(&self, random: &mut Random) -> Frame {
        let mut other = self.clone();
        match random.below(4) {
            0 => other.n = if self.n == 32 { 31 } else { self.n + 1 },
            1 if self.b <= 500 => (other.a, other.b) = (2 * self.a, 2 * self.b),
            2 if self.b > 2 => other.a = if self.a == 1 { 2 } else { self.a - 1 },
            _ => other.b = if self.b == 1000 { 999 } else { self.b + 1 },
        }
        if other.a >= other.b {
            (other.a, other.b) = (1, 7);
        }
        other
    }

    /// The sections to which a section may go on.
    fn allowed(&self, s: usize) -> Vec<usize> {
        match self.style {
            Style::Free | Style::Single => (0..self.n).collect(),
            Style::Layered(layers) => {
                let layer = |s: usize| s * layers / self.n;
                let later: Vec<usize> = (0..self.n).filter(|&u| layer(u) > layer(s)).collect();
                if later.is_empty() { vec![s] } else { later }
            }
        }
    }

    /// Some sections to which a section goes on, at most that many.
    fn successors(&self, random: &mut Random, s: usize, most: usize) -> Vec<usize> {
        let mut allowed = self.allowed(s);
        random.shuffle(&mut allowed);
        let usual = if random.percent(8) { allowed.len() } else { 3 };
        let count = match self.style {
            Style::Single => 1,
            _ => 1 + random.below(usual.min(most).min(allowed.len())),
        };
        allowed.truncate(count);
        allowed
    }

    /// A row of `units` units.
    fn row(&self, random: &mut Random, s: usize, units: u16) -> Vec<u16> {
        let successors = self.successors(random, s, usize::from(units));
        let mut row = vec![0; self.n];
        successors.iter().for_each(|&u| row[u] = 1);
        let mut left = units - successors.len() as u16;
        for (i, &u) in successors.iter().enumerate() {
            let last = i + 1 == successors.len();
            let more = if last { left } else { random.between(0, i64::from(left)) as u16 };
            row[u] += more;
            left -= more;
        }
        row
    }

    fn routes(&self, random: &mut Random, kind: Kind) -> Routes {
        if kind == Kind::Choice {
            let mask = |s| self.successors(random, s, self.n).iter().fold(0, |mask, &v| mask | 1 << v);
            return Routes::Choice { masks: (0..self.n).map(mask).collect() };
        }
        let (whole, unit) = match random.below(10) {
            0..5 => {
                *random.pick(&[(1, 1), (2, 1), (3, 1), (4, 1), (10_000, 10_000), (10_000, 5_000), (1024, 512), (5_000, 1_250)])
            }
            5..8 => *random.pick(&[(10, 1), (7, 1), (1_000, 1), (1_024, 1), (10_000, 1), (10_000, 100)]),
            _ => (random.between(1, 10_000) as u16, 1),
        };
        let mut row = |s| self.row(random, s, whole / unit).iter().map(|part| part * unit).collect();
        Routes::Weighted { whole, unit, rows: (0..self.n).map(&mut row).collect() }
    }
}

impl Plan {
    pub fn random(random: &mut Random, frame: &Frame, kind: Kind) -> Plan {
        let most = if frame.n > 12 { 2 + random.below(7) } else { 1 + random.below(3) };
        let values = [0, 1, random.below(256) as u8, 255, 2, 3, 4, 5, 6];
        let bands = (0..frame.n).map(|_| values[random.below(most)]).collect();
        Plan { n: frame.n, a: frame.a, b: frame.b, bands, routes: frame.routes(random, kind) }
    }

    pub fn kind(&self) -> Kind {
        match self.routes {
            Routes::Weighted { .. } => Kind::Weighted,
            Routes::Choice { .. } => Kind::Choice,
        }
    }

    /// The bytes of the routes.
    fn route_bytes(&self) -> Vec<u8> {
        match &self.routes {
            Routes::Weighted { rows, .. } => rows.iter().flatten().flat_map(|part| part.to_be_bytes()).collect(),
            Routes::Choice { masks } => masks.iter().flat_map(|mask| mask.to_be_bytes()).collect(),
        }
    }

    /// A file that holds the chart. The bands and the routes come in either order, and other bytes may lie before, between and after
    /// them.
    pub fn file(&self, random: &mut Random) -> Vec<u8> {
        let (kind, whole) = match self.routes {
            Routes::Weighted { whole, .. } => (1, whole),
            Routes::Choice { .. } => (2, 0),
        };
        let mut bytes: Vec<u8> =
            [kind, self.n as u16, self.a, self.b, whole, 0, 0, 0].iter().flat_map(|field| field.to_be_bytes()).collect();
        let mut tables = [(10, self.bands.clone()), (12, self.route_bytes())];
        random.shuffle(&mut tables);
        for (offset, table) in tables {
            fill(random, &mut bytes);
            let start = bytes.len();
            set(&mut bytes, offset, start);
            bytes.extend(table);
        }
        fill(random, &mut bytes);
        let length = bytes.len();
        set(&mut bytes, 14, length);
        bytes
    }

    /// The chart with the routes of one section spoiled.
    pub fn with_spoiled_routes(&self, random: &mut Random, s: usize) -> Plan {
        let mut plan = self.clone();
        plan.spoil_routes(random, s);
        plan
    }

    fn spoil_routes(&mut self, random: &mut Random, s: usize) {
        let u = random.below(self.n);
        match &mut self.routes {
            Routes::Weighted { whole, rows, .. } => {
                rows[s][u] = match random.below(5) {
                    0 => rows[s][u].wrapping_sub(1),
                    1 => 65_535,
                    2 if rows[s][u] > 0 => 0,
                    3 => *whole + 1,
                    _ => rows[s][u].wrapping_add(1),
                };
            }
            Routes::Choice { masks } => {
                masks[s] = match random.below(3) {
                    0 => 0,
                    1 if self.n < 32 => masks[s] | 1 << self.n,
                    _ if self.n < 32 => masks[s] | 1 << 31,
                    _ => 0,
                };
            }
        }
    }

    /// A file like that of the chart, with something in it that is likely to be refused.
    pub fn damaged_file(&self, random: &mut Random) -> Vec<u8> {
        let mut bytes = if random.percent(25) {
            let s = random.below(self.n);
            self.with_spoiled_routes(random, s).file(random)
        } else {
            self.file(random)
        };
        let times = if random.percent(20) { 2 } else { 1 };
        for _ in 0..times {
            match random.below(10) {
                0 => bytes.truncate(random.below(17)),
                1 => change_length(random, &mut bytes),
                2..6 if bytes.len() >= 16 => self.damage_number(random, &mut bytes),
                6..8 if bytes.len() >= 16 => self.damage_offset(random, &mut bytes),
                _ => (),
            }
        }
        bytes
    }

    /// Damages the kind, the number of sections, the discount or P.
    fn damage_number(&self, random: &mut Random, bytes: &mut [u8]) {
        match random.below(4) {
            0 => set(bytes, 0, *random.pick(&[0, 1, 2, 3, 256, 257, 258, 513, 65_535])),
            1 => set(bytes, 2, *random.pick(&[0, 33, 32, 1, 256, 65_535, self.n + 1])),
            2 => {
                let (a, b) = *random.pick(&[
                    (0, 2),
                    (1, 1),
                    (2, 1),
                    (1, 0),
                    (1, 1001),
                    (1000, 1001),
                    (999, 1000),
                    (1000, 1000),
                    (5, 65_535),
                ]);
                set(bytes, 4, a);
                set(bytes, 6, b);
            }
            _ => set(bytes, 8, *random.pick(&[0, 1, 2, 10_000, 10_001, 65_535])),
        }
    }

    /// Moves the bands or the routes, perhaps out of the file, over the header or over each other.
    fn damage_offset(&self, random: &mut Random, bytes: &mut [u8]) {
        let routes = self.route_bytes().len();
        let at = |bytes: &[u8], field: usize| usize::from(bytes[field]) << 8 | usize::from(bytes[field + 1]);
        let (bands_at, routes_at) = (at(bytes, 10), at(bytes, 12));
        let (field, size) = *random.pick(&[(10, self.n), (12, routes)]);
        // The offsets at which the table shares just one byte with the other, as far as there are such.
        let (other_at, other_size) = if field == 10 { (routes_at, routes) } else { (bands_at, self.n) };
        let meeting = [other_at + other_size - 1, (other_at + 1).saturating_sub(size)];
        let end = bytes.len().saturating_sub(size);
        let offset = *random.pick(&[0, 15, 16, end, end + 1, bytes.len(), 65_535, meeting[0], meeting[1], bands_at, routes_at]);
        set(bytes, field, offset);
    }
}

/// Adds a few bytes, or none.
fn fill(random: &mut Random, bytes: &mut Vec<u8>) {
    if random.percent(30) {
        let count = random.below(5);
        bytes.extend((0..count).map(|_| random.below(256) as u8));
    }
}

/// Makes the file longer or shorter than its length field says, or the field say another length.
fn change_length(random: &mut Random, bytes: &mut Vec<u8>) {
    match random.below(10) {
        0..3 => bytes.push(random.below(256) as u8),
        3..7 => {
            bytes.pop();
        }
        _ if bytes.len() >= 16 => {
            let length = *random.pick(&[0, bytes.len() - 1, bytes.len() + 1, 65_535]);
            set(bytes, 14, length);
        }
        _ => (),
    }
}

/// Writes a number of 16 bits, high byte first.
fn set(bytes: &mut [u8], at: usize, number: usize) {
    bytes[at..at + 2].copy_from_slice(&(number as u16).to_be_bytes());
}
