//! The nine calls of document 01 as document 02 changes them, and its mending,
//! tariff and joining, once more, written from the documents alone: plain and
//! easy to check by eye, with no care for speed.

pub mod blocking;
pub mod changing;
pub mod files;
pub mod looking;
pub mod mending;
pub mod merging;
pub mod pricing;

pub const ROW: usize = 120; // places in a row of distances
pub const PLACES: usize = ROW * ROW; // distances lent
pub const TIDES: usize = 120; // setting bytes lent
pub const FAR: u32 = 1_048_575; // greatest distance
pub const KEEPERS: usize = 4; // a withdrawal count for each
pub const COUNTS: usize = 11; // where the counts begin in a record
pub const RECORD: usize = COUNTS + KEEPERS; // k, n, b0, b1..b8, the keepers' withdrawals

/// A book taken out of its lent memory.
#[derive(Clone, Debug, PartialEq)]
pub struct Study {
    pub k: usize,
    pub b0: usize,
    pub b: [usize; 8],
    pub withdrawals: [u16; KEEPERS],
    pub settings: Vec<usize>,     // 1 to k
    pub distances: Vec<Vec<u32>>, // symmetric
}

impl Study {
    /// The book that Open makes.
    pub fn empty(k: usize) -> Study {
        Study {
            k,
            b0: 1,
            b: [0; 8],
            withdrawals: [0; KEEPERS],
            settings: vec![],
            distances: vec![],
        }
    }

    pub fn n(&self) -> usize {
        self.settings.len()
    }

    /// The number of tides of a setting.
    pub fn under(&self, setting: usize) -> usize {
        self.settings.iter().filter(|x| **x == setting).count()
    }

    /// One more tide, at the row's distances from the others.
    pub fn add_tide(&mut self, setting: usize, row: &[u32]) {
        for (i, d) in row.iter().enumerate() {
            self.distances[i].push(*d);
        }
        let mut own = row.to_vec();
        own.push(0);
        self.distances.push(own);
        self.settings.push(setting);
    }
}

fn minima_fit(k: usize, b0: usize, b: &[usize; 8]) -> bool {
    let sum: usize = b.iter().sum();
    b0 >= 1 && b0 <= 120 && sum <= b0 && b[k..].iter().all(|x| *x == 0)
}

/// The three-tide rule, with sums that cannot overflow.
pub fn breaks(x: u32, y: u32, z: u32) -> bool {
    let (x, y, z) = (x as u64, y as u64, z as u64);
    x > y + z || y > x + z || z > x + y
}

/// The first pair of earlier tides that breaks the rule with a new row, from 1.
fn broken_pair(distances: &[Vec<u32>], row: &[u32]) -> Option<(u32, u32)> {
    for i in 0..row.len() {
        for j in i + 1..row.len() {
            if breaks(row[i], row[j], distances[i][j]) {
                return Some((i as u32 + 1, j as u32 + 1));
            }
        }
    }
    None
}

/// The answer for 7 with its pair.
pub const fn seven(pair: (u32, u32)) -> u32 {
    7 + 256 * pair.0 + 65_536 * pair.1
}

/// Record and memory as a call gets them.
pub struct Memory<'a> {
    pub record: &'a mut [u16],
    pub distances: &'a mut [u32],
    pub settings: &'a mut [u8],
}

impl Memory<'_> {
    fn short(&self) -> bool {
        self.record.len() < RECORD || self.distances.len() < PLACES || self.settings.len() < TIDES
    }

    /// The book that they hold, or nothing where they hold none (21).
    pub fn study(&self) -> Option<Study> {
        let k = self.record[0] as usize;
        let n = self.record[1] as usize;
        let b0 = self.record[2] as usize;
        let mut b = [0; 8];
        for j in 0..8 {
            b[j] = self.record[3 + j] as usize;
        }
        if k < 1 || k > 8 || n > TIDES || !minima_fit(k, b0, &b) {
            return None;
        }
        if !self.settings_fit(k, n) || !self.distances_fit(n) || !self.rule_holds(n) {
            return None;
        }
        let mut withdrawals = [0; KEEPERS];
        withdrawals.copy_from_slice(&self.record[COUNTS..RECORD]);
        Some(Study {
            k,
            b0,
            b,
            withdrawals,
            settings: (0..n).map(|t| self.settings[t] as usize).collect(),
            distances: (0..n).map(|i| (0..n).map(|j| self.distance(i, j)).collect()).collect(),
        })
    }

    fn distance(&self, i: usize, j: usize) -> u32 {
        self.distances[ROW * i + j]
    }

    fn settings_fit(&self, k: usize, n: usize) -> bool {
        for t in 0..TIDES {
            let s = self.settings[t] as usize;
            if t < n && (s < 1 || s > k) || t >= n && s != 0 {
                return false;
            }
        }
        true
    }

    fn distances_fit(&self, n: usize) -> bool {
        for i in 0..ROW {
            for j in 0..ROW {
                let d = self.distance(i, j);
                if i < n && j < n {
                    if d > FAR || d != self.distance(j, i) || i == j && d != 0 {
                        return false;
                    }
                } else if d != 0 {
                    return false;
                }
            }
        }
        true
    }

    fn rule_holds(&self, n: usize) -> bool {
        for i in 0..n {
            for j in 0..i {
                for m in 0..j {
                    if breaks(self.distance(i, j), self.distance(i, m), self.distance(j, m)) {
                        return false;
                    }
                }
            }
        }
        true
    }

    /// Writes a study to all of its places.
    pub fn store(&mut self, s: &Study) {
        self.record[0] = s.k as u16;
        self.record[1] = s.n() as u16;
        self.record[2] = s.b0 as u16;
        for j in 0..8 {
            self.record[3 + j] = s.b[j] as u16;
        }
        self.record[COUNTS..RECORD].copy_from_slice(&s.withdrawals);
        for i in 0..ROW {
            for j in 0..ROW {
                let held = i < s.n() && j < s.n();
                self.distances[ROW * i + j] = if held { s.distances[i][j] } else { 0 };
            }
        }
        for t in 0..TIDES {
            self.settings[t] = if t < s.n() { s.settings[t] as u8 } else { 0 };
        }
    }
}
