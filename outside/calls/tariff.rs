//! The tariff.

use crate::calls::block::{faults, Columns, ENUMERATED, GAP, REORDERED, SEVERAL};
use crate::comparing::{demand, expect, Call, Kind, Seen, Uses};
use crate::lent::{Book, Place, Rng};
use crate::plain::{pricing, Study, FAR, TIDES};
use crate::refusals::at_once;
use crate::runs::{run_of, Run};

#[rustfmt::skip]
extern "C" {
    fn tides_tariff(
        record: *const u16, record_len: usize,
        distances: *const u32, distances_len: usize,
        settings: *const u8, settings_len: usize,
        list: *mut u8, list_len: usize,
        centres: *mut u8, centres_len: usize,
        sizes: *mut u8, sizes_len: usize,
        diameters: *mut u32, diameters_len: usize,
        result: *mut u32, result_len: usize,
    ) -> u32;
}

#[derive(Clone)]
pub struct Tariff(pub Columns);

const REDUCED: &str = "with a block of more than 20 tides";
const HALVES: &str = "with half a penny";
const LEFT: &str = "with pennies left over";
const TIES: &str = "with a penny by equal remainders";

pub static KIND: Kind = Kind {
    name: "Tariff",
    reasons: &[1, 21, 24, 25],
    uses: Uses::Looks,
    counted: &[ENUMERATED, REORDERED, GAP, SEVERAL, REDUCED, HALVES, LEFT, TIES],
    often: |_, _| 16,
    propose: |rng, run| Box::new(Tariff::of(rng, run.n())),
    known: |rng| Box::new(Tariff::of(rng, 5)),
    groups: &[
        ("cases", cases),
        ("bands", bands),
        ("one block", one_block),
        ("heaps", |s, r| heaps(s, r, 600)),
    ],
    at_once: |s, r| at_once(s, r, |rng| Tariff::of(rng, 5), &faults()),
};

impl Tariff {
    pub fn of(rng: &mut Rng, n: usize) -> Tariff {
        Tariff(Columns::of(rng, n, 12))
    }
}

impl AsMut<Columns> for Tariff {
    fn as_mut(&mut self) -> &mut Columns {
        &mut self.0
    }
}

impl Call for Tariff {
    fn kind(&self) -> &'static Kind {
        &KIND
    }

    #[rustfmt::skip]
    fn ask_library(&mut self, b: &mut Book) -> u32 {
        let c = &mut self.0;
        unsafe {
            tides_tariff(
                b.record.ptr(), b.record.len, b.distances.ptr(), b.distances.len,
                b.settings.ptr(), b.settings.len, c.list.ptr(), c.list.len,
                c.centres.ptr(), c.centres.len, c.sizes.ptr(), c.sizes.len,
                c.diameters.ptr(), c.diameters.len, c.result.ptr(), c.result.len,
            )
        }
    }

    fn ask_plain(&mut self, book: &mut Book) -> u32 {
        pricing::tariff(&book.memory(), &mut self.0.plain())
    }

    fn places(&mut self) -> Vec<Place<'_>> {
        self.0.places()
    }

    fn written(&self, book: &Book) -> Vec<usize> {
        self.0.written(book, 12)
    }

    /// The shares add up with none above k; and what was met in the bill.
    fn note(&self, book: &Book, _: &Book, answer: u32, seen: &mut Seen) -> Result<(), String> {
        if answer != 0 {
            return Ok(());
        }
        self.0.note(&KIND, book, seen)?;
        let (c, n, k) = (&self.0, book.n() as u64, book.k());
        let (blocks, total) = (c.result.places[0] as usize, c.result.places[3]);
        let shares = &c.result.places[4..12];
        if shares.iter().sum::<u32>() != total || shares[k..].iter().any(|x| *x != 0) {
            return Err(format!("shares {shares:?} of {total}"));
        }
        let settings = &book.settings.places[..book.n()];
        let under = |j: usize| settings.iter().filter(|s| **s as usize == j + 1).count() as u64;
        let part: Vec<u64> = (0..k).map(|j| total as u64 * under(j)).collect();
        let up = |j: usize| shares[j] as u64 * n > part[j];
        let down = |j: usize| (shares[j] as u64 * n) < part[j];
        let tie = |i: usize, j: usize| part[i] % n == part[j] % n && up(i) && down(j);
        let reduced: Vec<usize> = (0..blocks).filter(|m| c.sizes.places[*m] > 20).collect();
        let sum = |m: &usize| c.sizes.places[*m] as u32 * rate(c.diameters.places[*m]);
        seen.count(&KIND, REDUCED, !reduced.is_empty() as usize);
        seen.count(&KIND, HALVES, reduced.iter().any(|m| sum(m) % 100 == 50) as usize);
        seen.count(&KIND, LEFT, (0..k).any(up) as usize);
        seen.count(&KIND, TIES, (0..k).any(|i| (0..k).any(|j| tie(i, j))) as usize);
        Ok(())
    }

    fn remember(&self, run: &mut Run) {
        self.0.remember(run);
    }
}

/// The last distance of each band, and its rate.
const BANDS: [(u32, u32); 12] = [
    (15, 940),
    (31, 905),
    (63, 870),
    (127, 830),
    (255, 785),
    (511, 735),
    (1_023, 680),
    (2_047, 620),
    (4_095, 555),
    (8_191, 485),
    (16_383, 410),
    (FAR, 330),
];

fn rate(diameter: u32) -> u32 {
    BANDS.iter().find(|band| diameter <= band.0).unwrap().1
}

/// The total and the shares of a book of heaps with so many tides under each setting.
/// A heap has some tides at some distance from one another; or, as it is drawn, the
/// first at that distance from the others, which are at 0 from one another.
fn bill_of(seen: &mut Seen, rng: &mut Rng, heaps: &[(usize, u32)], under: &[usize]) -> Vec<u32> {
    let of: Vec<usize> = (0..heaps.len()).flat_map(|h| vec![h; heaps[h].0]).collect();
    let star = rng.one_in(2);
    let first = |t: usize| t == 0 || of[t - 1] != of[t];
    let apart = |i: usize, j: usize| match of[i] == of[j] {
        _ if i == j => 0,
        true if star && !first(i) && !first(j) => 0,
        true => heaps[of[i]].1,
        false => FAR,
    };
    let (n, k) = (of.len(), under.len());
    let study = Study {
        b0: heaps.iter().map(|h| h.0).min().unwrap(),
        settings: (0..k).flat_map(|j| vec![j + 1; under[j]]).collect(),
        distances: (0..n).map(|i| (0..n).map(|j| apart(i, j)).collect()).collect(),
        ..Study::empty(k)
    };
    let mut run = run_of(seen, rng, &study);
    let mut call = Tariff::of(rng, n);
    expect(run.make(seen, &mut call), 0, "Tariff");
    let blocks = call.0.result.places[0] as usize;
    demand(blocks == heaps.len(), || format!("{blocks} blocks of heaps {heaps:?}"));
    call.0.result.places[3..12].to_vec()
}

/// Ends the program unless the bill has this total and these shares.
fn says(
    seen: &mut Seen,
    rng: &mut Rng,
    heaps: &[(usize, u32)],
    under: &[usize],
    total: u32,
    shares: &[u32],
) {
    let bill = bill_of(seen, rng, heaps, under);
    let mut expected = vec![total];
    expected.extend(shares);
    expected.resize(9, 0);
    demand(bill == expected, || format!("heaps {heaps:?} under {under:?}: {bill:?}"));
}

/// Document 02, 2.3: heaps, tides under each setting; total, shares.
const CASES: [(&[(usize, u32)], &[usize], u32, &[u32]); 16] = [
    (&[(20, 7)], &[20], 18_800, &[18_800]),
    (&[(21, 7)], &[21], 18_358, &[18_358]),
    // half a penny; it is rounded block by block
    (&[(25, 40)], &[25], 20_228, &[20_228]),
    (&[(30, 20)], &[15, 15], 25_250, &[12_625, 12_625]),
    (&[(25, 20_000)], &[25], 7_673, &[7_673]),
    (&[(25, 40), (25, 40)], &[50], 40_456, &[40_456]),
    (&[(21, 7), (20, 100)], &[41], 34_958, &[34_958]),
    // equal remainders
    (&[(21, 7)], &[7, 7, 7], 18_358, &[6_120, 6_119, 6_119]),
    (&[(24, 7)], &[7, 7, 10], 20_981, &[6_120, 6_119, 8_742]),
    (&[(24, 7)], &[10, 7, 7], 20_981, &[8_742, 6_120, 6_119]),
    (&[(24, 7)], &[3; 8], 20_981, &[2623, 2623, 2623, 2623, 2623, 2622, 2622, 2622]),
    (&[(21, 7)], &[1, 1, 1, 1, 1, 1, 15], 18_358, &[875, 874, 874, 874, 874, 874, 13_113]),
    // different ones, and settings without a tide
    (&[(25, 40)], &[12, 13], 20_228, &[9_709, 10_519]),
    (
        &[(36, 300)],
        &[1, 2, 3, 4, 5, 6, 7, 8],
        24_608,
        &[684, 1_367, 2_051, 2_734, 3_418, 4_101, 4_785, 5_468],
    ),
    (&[(24, 7)], &[0, 11, 0, 0, 13, 0, 0, 0], 20_981, &[0, 9_616, 0, 0, 11_365]),
    (&[(120, 300)], &[0, 0, 0, 0, 0, 0, 0, 120], 82_026, &[0, 0, 0, 0, 0, 0, 0, 82_026]),
];

fn cases(seen: &mut Seen, rng: &mut Rng) {
    for (heaps, under, total, shares) in CASES {
        says(seen, rng, heaps, under, total, shares);
    }
}

/// The first and the last distance of each band, with its rate.
fn bands(seen: &mut Seen, rng: &mut Rng) {
    let mut first = 0;
    for (last, rate) in BANDS {
        for d in [first, last] {
            says(seen, rng, &[(2, d)], &[2], 2 * rate, &[2 * rate]);
            says(seen, rng, &[(2, d)], &[1, 1], 2 * rate, &[rate, rate]);
        }
        first = last + 1;
    }
}

/// One block of each number of tides at the end of a band and next to it, of some
/// numbers at the ends of all bands; each price worked out in hundredths of a penny.
fn one_block(seen: &mut Seen, rng: &mut Rng) {
    for n in 1..=TIDES {
        let all = [1, 2, 19, 20, 21, 22, 25, 30, 35, 60, 120].contains(&n);
        for (i, (last, _)) in BANDS.into_iter().enumerate() {
            if !all && i != n % BANDS.len() {
                continue;
            }
            for d in [last, (last + 1).min(FAR)] {
                let mut under = vec![0; rng.pick(&[1, 3, 8])];
                for t in 0..n {
                    let j = if rng.one_in(3) { 0 } else { t % under.len() };
                    under[j] += 1;
                }
                let each = rate(if n == 1 { 0 } else { d }) * if n > 20 { 93 } else { 100 };
                let total = bill_of(seen, rng, &[(n, d)], &under)[0];
                let expected = (n as u32 * each + 50) / 100;
                demand(total == expected, || format!("{n} tides at {d}: {total}"));
            }
        }
    }
}

/// One to four heaps of any size, each as wide as a band ends or begins.
fn heaps(seen: &mut Seen, rng: &mut Rng, runs: usize) {
    for turn in 0..runs {
        let count = 1 + turn % 4;
        let heaps: Vec<(usize, u32)> = (0..count)
            .map(|_| (rng.within(2, TIDES / count), rng.pick(&BANDS[..11]).0 + rng.below(2) as u32))
            .collect();
        let k = rng.within(1, 8);
        let mut under = vec![0; k];
        for _ in 0..heaps.iter().map(|h| h.0).sum() {
            under[rng.below(k)] += 1;
        }
        bill_of(seen, rng, &heaps, &under);
    }
}
