//! Block, and what it shares with the tariff.

use crate::calls::judge::Judge;
use crate::calls::minima::Minima;
use crate::calls::tariff::Tariff;
use crate::comparing::{demand, expect, Call, Kind, Seen, Uses};
use crate::enumeration::enumerate;
use crate::lent::{place, Book, Lent, Place, Rng};
use crate::plain::{looking, Study};
use crate::refusals::{at_once, Fault};
use crate::runs::{run_of, Run};
use crate::samples::line;

#[rustfmt::skip]
extern "C" {
    fn tides_block(
        record: *const u16, record_len: usize,
        distances: *const u32, distances_len: usize,
        settings: *const u8, settings_len: usize,
        list: *mut u8, list_len: usize,
        centres: *mut u8, centres_len: usize,
        sizes: *mut u8, sizes_len: usize,
        diameters: *mut u32, diameters_len: usize,
        result: *mut u32, result_len: usize,
    ) -> u32;
}

/// What Block and the tariff are lent.
#[derive(Clone)]
pub struct Columns {
    pub list: Lent<u8>,
    pub centres: Lent<u8>,
    pub sizes: Lent<u8>,
    pub diameters: Lent<u32>,
    pub result: Lent<u32>,
}

impl Columns {
    /// For n tides and a result of some numbers, or a little more.
    pub fn of(rng: &mut Rng, n: usize, result: usize) -> Columns {
        Columns {
            list: Lent::room(rng, n, 3),
            centres: Lent::room(rng, n, 3),
            sizes: Lent::room(rng, n, 3),
            diameters: Lent::room(rng, n, 3),
            result: Lent::room(rng, result, 1),
        }
    }

    pub fn places(&mut self) -> Vec<Place<'_>> {
        vec![
            place("list", &mut self.list),
            place("centres", &mut self.centres),
            place("sizes", &mut self.sizes),
            place("diameters", &mut self.diameters),
            place("result", &mut self.result),
        ]
    }

    /// What was written of them and of a result of some numbers.
    pub fn written(&self, book: &Book, result: usize) -> Vec<usize> {
        let blocks = self.result.places[0] as usize;
        vec![book.n(), blocks, blocks, blocks, result]
    }

    pub fn plain(&mut self) -> looking::Columns<'_> {
        looking::Columns {
            list: self.list.part(),
            centres: self.centres.part(),
            sizes: self.sizes.part(),
            diameters: self.diameters.part(),
            result: self.result.part(),
        }
    }

    /// Tests a blocking of up to seven tides by full enumeration.
    pub fn note(&self, kind: &Kind, book: &Book, seen: &mut Seen) -> Result<(), String> {
        if book.n() <= 7 {
            let found = enumerate(&book.study().unwrap(), &self.list.places, &self.result.places)?;
            seen.count(kind, ENUMERATED, 1);
            seen.count(kind, REORDERED, found.reordered as usize);
            seen.count(kind, GAP, found.gap as usize);
            seen.count(kind, SEVERAL, (self.result.places[0] > 1) as usize);
        }
        Ok(())
    }

    pub fn remember(&self, run: &mut Run) {
        run.list = self.list.places[..run.n()].to_vec();
    }
}

pub const ENUMERATED: &str =
    "of up to 7 tides also by full enumeration, no wider than twice the least";
pub const REORDERED: &str = "of them with another list by block number alone";
pub const GAP: &str = "of them without a filling at a candidate above the reach";
pub const SEVERAL: &str = "of them with several blocks";

#[derive(Clone)]
pub struct Block(pub Columns);

pub static KIND: Kind = Kind {
    name: "Block",
    reasons: &[1, 21, 24, 25],
    uses: Uses::Looks,
    counted: &[ENUMERATED, REORDERED, GAP, SEVERAL],
    often: |_, _| 28,
    propose: |rng, run| Box::new(Block::of(rng, run.n())),
    known: |rng| Box::new(Block::of(rng, 5)),
    groups: &[("worked cases", worked), ("second choice", second_choice)],
    at_once: |s, r| at_once(s, r, |rng| Block::of(rng, 5), &faults()),
};

impl Block {
    pub fn of(rng: &mut Rng, n: usize) -> Block {
        Block(Columns::of(rng, n, 3))
    }
}

impl AsMut<Columns> for Block {
    fn as_mut(&mut self) -> &mut Columns {
        &mut self.0
    }
}

impl Call for Block {
    fn kind(&self) -> &'static Kind {
        &KIND
    }

    #[rustfmt::skip]
    fn ask_library(&mut self, b: &mut Book) -> u32 {
        let c = &mut self.0;
        unsafe {
            tides_block(
                b.record.ptr(), b.record.len, b.distances.ptr(), b.distances.len,
                b.settings.ptr(), b.settings.len, c.list.ptr(), c.list.len,
                c.centres.ptr(), c.centres.len, c.sizes.ptr(), c.sizes.len,
                c.diameters.ptr(), c.diameters.len, c.result.ptr(), c.result.len,
            )
        }
    }

    fn ask_plain(&mut self, book: &mut Book) -> u32 {
        looking::block(&book.memory(), &mut self.0.plain())
    }

    fn places(&mut self) -> Vec<Place<'_>> {
        self.0.places()
    }

    fn written(&self, book: &Book) -> Vec<usize> {
        self.0.written(book, 3)
    }

    fn note(&self, book: &Book, _: &Book, answer: u32, seen: &mut Seen) -> Result<(), String> {
        match answer {
            0 => self.0.note(&KIND, book, seen),
            _ => Ok(()),
        }
    }

    fn remember(&self, run: &mut Run) {
        self.0.remember(run);
    }
}

/// Positions, settings, k, minima; reach, list, diameters: the cases that document
/// 01 works out; and of document 02, 2.6, two lists that are others by number alone.
const CASES: [(&[u32], &[u8], usize, &[u8], u32, &[u8], &[u32]); 10] = [
    (&[2, 5, 0, 1, 3, 7], &[1; 6], 1, &[3], 2, &[1, 2, 1, 1, 2, 2], &[2, 4]),
    (&[0, 1, 10, 11], &[1, 2, 1, 2], 2, &[2, 1, 1], 1, &[1, 1, 2, 2], &[1, 1]),
    // 2.2: b0 = 1 is taken as 2
    (&[0, 1, 10, 11], &[1, 2, 1, 2], 2, &[1, 1, 1], 1, &[1, 1, 2, 2], &[1, 1]),
    (&[2, 0, 2, 4], &[1; 4], 1, &[2], 2, &[1, 1, 1, 1], &[4]),
    (&[0, 10, 5, 5, 5], &[1; 5], 1, &[2], 5, &[1, 2, 1, 1, 2], &[5, 5]),
    (&[0, 0, 0], &[1; 3], 1, &[1], 0, &[1, 1, 1], &[0]),
    (&[0, 5], &[1; 2], 1, &[1], 0, &[1, 2], &[0, 0]),
    (&[0, 5], &[1; 2], 1, &[2], 5, &[1, 1], &[5]),
    // 2.6: tide 3 is at 1 from block 2's centre and at 40 from block 1's
    (&[0, 41, 40, 40], &[1; 4], 1, &[2], 40, &[1, 2, 2, 1], &[40, 1]),
    (&[0, 41, 40, 1, 40, 40], &[1; 6], 1, &[3], 40, &[1, 2, 2, 1, 2, 1], &[40, 1]),
];

fn worked(seen: &mut Seen, rng: &mut Rng) {
    for (at, settings, k, minima, reach, list, diameters) in CASES {
        let mut run = line(seen, rng, at, settings, k);
        expect(run.make(seen, &mut Minima::of(rng, minima)), 0, "Minima");
        blocks(seen, rng, &mut run, reach, list, diameters);
    }
    // case 3: a division of widest 2 exists
    let mut run = line(seen, rng, &[2, 0, 2, 4], &[1; 4], 1);
    let mut judge = Judge::of(rng, &[1, 1, 2, 2]);
    expect(run.make(seen, &mut judge), 0, "Judge");
    demand(judge.result.places[..2] == [1, 2], || "case 3: a division of widest 2".to_string());
    // case 6, b0 = 3
    let mut run = line(seen, rng, &[0, 5], &[1, 1], 1);
    expect(run.make(seen, &mut Minima::of(rng, &[3])), 0, "Minima");
    expect(run.make(seen, &mut Block::of(rng, 2)), 25, "case 6");
    expect(run.make(seen, &mut Tariff::of(rng, 2)), 25, "case 6");
}

/// Three blocks of two tides in a plane. Tide 4 is at 30 from block 2's centre, at
/// 50 from block 3's and at 60 from block 1's. With it in block 2, as tide 3 is,
/// only tide 5 would be left for blocks 1 and 3; so it gets block 3, and tide 5 the
/// farthest of its three. By number the list would be 1 2 1 2 3 3.
fn second_choice(seen: &mut Seen, rng: &mut Rng) {
    let at = [(0u32, 20u32), (50, 0), (40, 0), (50, 30), (40, 40), (30, 60)];
    let row = |a: &(u32, u32)| at.iter().map(|b| a.0.abs_diff(b.0) + a.1.abs_diff(b.1)).collect();
    let study = Study {
        b0: 2,
        settings: vec![1; 6],
        distances: at.iter().map(row).collect(),
        ..Study::empty(1)
    };
    let mut run = run_of(seen, rng, &study);
    blocks(seen, rng, &mut run, 60, &[1, 2, 2, 3, 1, 3], &[60, 10, 50]);
}

/// What Block and the tariff are to give of a run's book.
fn blocks(
    seen: &mut Seen,
    rng: &mut Rng,
    run: &mut Run,
    reach: u32,
    list: &[u8],
    diameters: &[u32],
) {
    let n = list.len();
    let mut block = Block::of(rng, n);
    let mut tariff = Tariff::of(rng, n);
    expect(run.make(seen, &mut block), 0, "Block");
    expect(run.make(seen, &mut tariff), 0, "Tariff");
    for c in [&block.0, &tariff.0] {
        let figures = [diameters.len() as u32, reach, *diameters.iter().max().unwrap()];
        let right = &c.list.places[..n] == list
            && &c.diameters.places[..diameters.len()] == diameters
            && c.result.places[..3] == figures;
        demand(right, || format!("a worked case with list {list:?}"));
    }
}

/// The refusals of Block and the tariff.
pub fn faults<C: AsMut<Columns>>() -> [Fault<C>; 9] {
    [
        (1, |r, book, _| book.shorten(r)),
        (1, |r, _, call| call.as_mut().result.len = r.below(3)),
        (21, |r, book, _| book.no_book(r)),
        (24, |_, book, _| book.hold(0)),
        // b0 above n, or fewer of a setting than its b
        (25, |r, book, _| match r.one_in(2) {
            true => book.record.places[2] = 6,
            false => book.record.places[2..4].copy_from_slice(&[4, 3]),
        }),
        (1, |r, _, call| call.as_mut().list.len = r.below(5)),
        (1, |r, _, call| call.as_mut().centres.len = r.below(5)),
        (1, |r, _, call| call.as_mut().sizes.len = r.below(5)),
        (1, |r, _, call| call.as_mut().diameters.len = r.below(5)),
    ]
}
