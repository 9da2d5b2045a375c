//! Chart files of 32 sections, in one band but for the last.

const SECTIONS: usize = 32;

/// The parts of a row of the weighted charts.
const PARTS: u16 = 10_000;

/// A small random generator (xorshift), so that each run has the same charts.
struct Random(u64);

impl Random {
    /// A number below the limit, which is not 0.
    fn below(&mut self, limit: u64) -> u64 {
        self.0 ^= self.0 << 13;
        self.0 ^= self.0 >> 7;
        self.0 ^= self.0 << 17;
        self.0 % limit
    }
}

/// A chart file of a kind: its header, its bands and its routes.
fn file(kind: u16, parts: u16, routes: &[u8]) -> Vec<u8> {
    let at = 16 + SECTIONS;
    let length = at + routes.len();
    let fields = [kind, SECTIONS as u16, 1, 2, parts, 16, at as u16, length as u16];
    let mut bytes: Vec<u8> = fields.iter().flat_map(|field| field.to_be_bytes()).collect();
    bytes.extend([0; SECTIONS - 1]);
    bytes.push(1);
    bytes.extend(routes);
    bytes
}

fn weighted(parts: u16, rows: &[[u16; SECTIONS]; SECTIONS]) -> Vec<u8> {
    let routes: Vec<u8> = rows.iter().flatten().flat_map(|part| part.to_be_bytes()).collect();
    file(1, parts, &routes)
}

fn choice(masks: &[u32; SECTIONS]) -> Vec<u8> {
    let routes: Vec<u8> = masks.iter().flat_map(|mask| mask.to_be_bytes()).collect();
    file(2, 0, &routes)
}

/// A weighted chart in which each section has so many successors, with random parts.
pub fn random_weighted(successors: usize) -> Vec<u8> {
    let mut random = Random(0x9e37_79b9_7f4a_7c15);
    let mut rows = [[0; SECTIONS]; SECTIONS];
    for (s, row) in rows.iter_mut().enumerate() {
        let mut left = PARTS;
        for k in 0..successors {
            let after = (successors - 1 - k) as u16;
            let share = u64::from((left - after) / (after + 1));
            let part = if after == 0 { left } else { 1 + random.below((2 * share).max(1)) as u16 };
            let part = part.min(left - after);
            row[(s + k) % SECTIONS] = part;
            left -= part;
        }
    }
    weighted(PARTS, &rows)
}

/// A choice chart in which each section has so many successors.
pub fn random_choice(successors: u32) -> Vec<u8> {
    let mut random = Random(0x2545_f491_4f6c_dd1d);
    choice(&[(); SECTIONS].map(|()| {
        let mut mask = 0u32;
        while mask.count_ones() < successors {
            mask |= 1 << random.below(SECTIONS as u64);
        }
        mask
    }))
}

/// A weighted chart with 32 successors of each section but the last, in which every two sections are at a distance above 0:
/// section s goes on to the last one, which is in a band of its own, by s parts more than section 0 does.
pub fn graded_weighted() -> Vec<u8> {
    let mut rows = [[8; SECTIONS]; SECTIONS];
    for (s, row) in rows.iter_mut().enumerate().take(SECTIONS - 1) {
        row[0] += (SECTIONS - s) as u16;
        row[SECTIONS - 1] += s as u16;
    }
    rows[SECTIONS - 1] = [0; SECTIONS];
    rows[SECTIONS - 1][SECTIONS - 1] = 9 * SECTIONS as u16;
    weighted(9 * SECTIONS as u16, &rows)
}

/// A choice chart in which every two sections are at a distance above 0: sections 26 to 30 lead to the next one, 31 is in a band of its
/// own, and each other section has a set of those as its successors that no other has.
pub fn graded_choice() -> Vec<u8> {
    let mut masks = [0; SECTIONS];
    for (s, mask) in masks.iter_mut().enumerate() {
        *mask = match s {
            0..=25 => (s as u32 + 7) << 26,
            26..=30 => 1 << (s + 1),
            _ => 1 << 31,
        };
    }
    choice(&masks)
}
