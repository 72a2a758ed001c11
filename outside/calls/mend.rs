//! Mend, the one call on no book.

use crate::comparing::{demand, expect, Call, Kind, Seen, Uses};
use crate::lent::{place, Book, Lent, Place, Rng};
use crate::plain::{breaks, mending, FAR, TIDES};
use crate::random::metric;
use crate::refusals::{at_once, Fault};
use crate::samples::on_line;

extern "C" {
    fn tides_mend(
        table: *mut u32,
        table_len: usize,
        n: usize,
        result: *mut u32,
        result_len: usize,
    ) -> u32;
}

#[derive(Clone)]
pub struct Mend {
    pub table: Lent<u32>,
    pub n: usize,
    pub result: Lent<u32>,
}

const LOWERED: &str = "tables lowered";
const UNTOUCHED: &str = "tables untouched";
const LONGER: &str = "tables with a least chain of two tides or more between";

pub static KIND: Kind = Kind {
    name: "Mend",
    reasons: &[1, 10, 6, 13],
    uses: Uses::NoBook,
    counted: &[LOWERED, UNTOUCHED, LONGER],
    often: |_, _| 0,
    propose: |rng, _| Box::new(known(rng)),
    known: |rng| Box::new(known(rng)),
    groups: &[
        ("worked tables", worked),
        ("to 9 tides", |s, r| tables(s, r, 60_000, 0, 9)),
        ("to 40 tides", |s, r| tables(s, r, 600, 10, 40)),
        ("120 tides", |s, r| tables(s, r, 40, 120, 120)),
        ("120 on a line", long_line),
        ("every size", every_size),
    ],
    at_once: reasons,
};

impl Mend {
    /// A table of n rows, with places of its own past it and past the result.
    fn of(rng: &mut Rng, table: &[u32], n: usize) -> Mend {
        Mend { table: Lent::filled(rng, table, 5), n, result: Lent::room(rng, 1, 2) }
    }

    fn pairs(&self) -> u32 {
        self.result.places[0]
    }
}

/// Three tides of which one distance is too great.
fn known(rng: &mut Rng) -> Mend {
    Mend::of(rng, &table_of(&[5, 9, 2], 3), 3)
}

impl Call for Mend {
    fn kind(&self) -> &'static Kind {
        &KIND
    }

    fn ask_library(&mut self, _: &mut Book) -> u32 {
        let Mend { table, n, result } = self;
        unsafe { tides_mend(table.ptr(), table.len, *n, result.ptr(), result.len) }
    }

    fn ask_plain(&mut self, _: &mut Book) -> u32 {
        mending::mend(self.table.part(), self.n, self.result.part())
    }

    fn places(&mut self) -> Vec<Place<'_>> {
        vec![place("table", &mut self.table), place("result", &mut self.result)]
    }

    fn written(&self, _: &Book) -> Vec<usize> {
        vec![self.n * self.n, 1]
    }

    fn say(&self) -> String {
        format!("n {}", self.n)
    }

    fn note(&self, _: &Book, _: &Book, answer: u32, seen: &mut Seen) -> Result<(), String> {
        if answer == 0 {
            seen.count(&KIND, if self.pairs() > 0 { LOWERED } else { UNTOUCHED }, 1);
        }
        Ok(())
    }
}

/// The table of n tides, from the distances of each to those before it.
fn table_of(list: &[u32], n: usize) -> Vec<u32> {
    let at = |i: usize, j: usize| list[i * (i - 1) / 2 + j];
    let place = |p: usize| match (p / n, p % n) {
        (i, j) if i == j => 0,
        (i, j) => at(i.max(j), i.min(j)),
    };
    (0..n * n).map(place).collect()
}

/// The table is mended to that one, with so many pairs lowered; and that one stays.
fn mends(seen: &mut Seen, rng: &mut Rng, sent: &[u32], n: usize, pairs: u32, least: &[u32]) {
    let mut call = Mend::of(rng, sent, n);
    for pairs in [pairs, 0] {
        expect(seen.call(&mut Book::none(), &mut call), 0, "a table that can be mended");
        let right = call.pairs() == pairs && &call.table.places[..n * n] == least;
        demand(right, || {
            format!("{sent:?}, {} pairs lowered: {:?}", call.pairs(), call.table.places)
        });
    }
}

/// The distances of each tide to those before it; how many pairs are lowered; the
/// distances then.
const CASES: [(usize, &[u32], u32, &[u32]); 12] = [
    // one tide between; two, 0 2 1 3; three, 3 0 4 1 2; four, 0 to 5 in order
    (3, &[5, 9, 2], 1, &[5, 7, 2]),
    (4, &[9, 1, 1, 9, 1, 9], 3, &[2, 1, 1, 3, 1, 2]),
    (5, &[99, 99, 4, 1, 99, 99, 2, 3, 99, 99], 6, &[5, 9, 4, 1, 6, 10, 2, 3, 7, 3]),
    (
        6,
        &[1, 99, 1, 99, 99, 1, 99, 99, 99, 1, 99, 99, 99, 99, 1],
        10,
        &[1, 2, 1, 3, 2, 1, 4, 3, 2, 1, 5, 4, 3, 2, 1],
    ),
    // two pairs at 0, with one way from pair to pair
    (4, &[0, 9, 5, 50, 50, 0], 3, &[0, 5, 5, 5, 5, 0]),
    // nothing to lower: few tides, all at 0, as far apart as can be, a line, a
    // pair as far apart as two others together
    (0, &[], 0, &[]),
    (1, &[], 0, &[]),
    (2, &[FAR], 0, &[FAR]),
    (6, &[0; 15], 0, &[0; 15]),
    (6, &[FAR; 15], 0, &[FAR; 15]),
    (4, &[1, 2, 1, 3, 2, 1], 0, &[1, 2, 1, 3, 2, 1]),
    (3, &[5, 7, 2], 0, &[5, 7, 2]),
];

fn worked(seen: &mut Seen, rng: &mut Rng) {
    for (n, sent, pairs, least) in CASES {
        mends(seen, rng, &table_of(sent, n), n, pairs, &table_of(least, n));
    }
}

/// 120 tides on a line, each at 10 from the next, with 5 too much for all but the
/// neighbours: 7,021 pairs are lowered, by chains of up to 118 tides between.
fn long_line(seen: &mut Seen, rng: &mut Rng) {
    let at: Vec<u32> = (0..120).map(|i| 10 * i).collect();
    let least = on_line(&at).concat();
    let sent: Vec<u32> = least.iter().map(|d| if *d > 10 { d + 5 } else { *d }).collect();
    mends(seen, rng, &sent, 120, 7_021, &least);
}

/// A table of n rows of n that is the same both ways, with 0 from a tide to itself.
fn some_table(rng: &mut Rng, n: usize) -> Vec<u32> {
    let kind = rng.below(5);
    let most = rng.pick(&[1, 2, 3, 10, 1000, FAR]) as usize;
    let far = rng.pick(&[9 * n as u32, FAR]);
    let obeys = metric(rng, n);
    let mut order: Vec<usize> = (0..n).collect();
    rng.shuffle(&mut order);
    let mut list = vec![];
    for i in 0..n {
        for j in 0..i {
            let d = match kind {
                // it obeys the rule
                0 => obeys[i][j],
                // some gauges drifted
                1 if rng.one_in(4) => rng.pick(&[0, obeys[i][j] / 2, 2 * obeys[i][j], FAR]),
                1 => obeys[i][j],
                // anything, zeros and ties among it
                2 => rng.below(most + 1) as u32,
                // one chain by all tides, in any order
                3 if order[i].abs_diff(order[j]) == 1 => rng.below(4) as u32,
                3 => far,
                // few are near
                _ if rng.one_in(4) => rng.below(8) as u32,
                _ => far,
            };
            list.push(d.min(FAR));
        }
    }
    table_of(&list, n)
}

fn obeys(table: &[u32], n: usize) -> bool {
    let at = |i: usize, j: usize| table[n * i + j];
    (0..n).all(|i| (0..i).all(|j| (0..j).all(|m| !breaks(at(i, j), at(i, m), at(j, m)))))
}

/// The least sum over every chain from one tide to another with at most so many
/// tides between, none of them used before.
fn least_chain(table: &[u32], n: usize, from: usize, to: usize, used: u32, most: usize) -> u32 {
    let mut least = table[n * from + to];
    for t in (0..n).filter(|t| most > 0 && used >> t & 1 == 0) {
        let rest = least_chain(table, n, t, to, used | 1 << t, most - 1);
        least = least.min(table[n * from + t] + rest);
    }
    least
}

/// The table with every distance the least sum over chains of so many tides between.
fn by_chains(table: &[u32], n: usize, most: usize) -> Vec<u32> {
    let place = |p: usize| {
        let (i, j) = (p / n, p % n);
        least_chain(table, n, i, j, 1 << i | 1 << j, most)
    };
    (0..n * n).map(place).collect()
}

/// Tables of `least` to `most` tides, each mended twice; up to six tides beside
/// every chain.
fn tables(seen: &mut Seen, rng: &mut Rng, runs: usize, least: usize, most: usize) {
    for turn in 0..runs {
        let n = least + turn % (most - least + 1);
        let sent = some_table(rng, n);
        let mut call = Mend::of(rng, &sent, n);
        expect(seen.call(&mut Book::none(), &mut call), 0, "a table that can be mended");
        let mended = call.table.places.clone();
        let lowered = (0..n * n).filter(|p| mended[*p] < sent[*p]).count() as u32;
        let untouched = mended[..n * n] == sent[..];
        let right = obeys(&mended, n)
            && untouched == obeys(&sent, n)
            && call.pairs() == lowered / 2
            && (n > 6 || mended[..n * n] == by_chains(&sent, n, n));
        demand(right, || format!("{sent:?} mended to {mended:?}"));
        let longer = n <= 6 && mended[..n * n] != by_chains(&sent, n, 1);
        seen.count(&KIND, LONGER, longer as usize);
        expect(seen.call(&mut Book::none(), &mut call), 0, "a mended table");
        let stays = call.table.places == mended && call.pairs() == 0;
        demand(stays, || format!("{sent:?} mended twice is not mended once"));
    }
}

/// Each number of rows up to some above 120, with all their places and with
/// some too few; of more than 120 rows all places may hold anything.
fn every_size(seen: &mut Seen, rng: &mut Rng) {
    for n in 0..=130 {
        for missing in [0, 1, 2 * n] {
            let mut call = match n > TIDES {
                true => Mend { table: Lent::room(rng, n * n, 0), ..Mend::of(rng, &[], n) },
                false => Mend::of(rng, &vec![0; n * n], n),
            };
            call.table.len = (n * n).saturating_sub(missing);
            let expected = match n {
                121.. => 10,
                1.. if missing > 0 => 1,
                _ => 0,
            };
            expect(seen.call(&mut Book::none(), &mut call), expected, &format!("{n} rows"));
        }
    }
}

const FAULTS: &[Fault<Mend>] = &[
    (1, |_, _, call| call.result.len = 0),
    (10, |r, _, call| {
        call.n = r.pick(&[121, 255, 256, 65_536, 1 << 32, (1 << 32) + call.n, usize::MAX])
    }),
    (1, |r, _, call| call.table.len = r.pick(&[0, call.table.need - 1])),
    (6, |r, _, call| {
        let any = r.below(call.table.need);
        let p = r.pick(&[0, call.table.need - 1, any]);
        call.table.places[p] = r.pick(&[FAR + 1, 1 << 21, 1 << 31, u32::MAX]);
    }),
    (13, |r, _, call| {
        let d = &mut call.table.places[r.below(call.table.need)];
        *d = (*d + 1) % (FAR + 1);
    }),
];

/// In tables of one to eight tides, and of 120.
fn reasons(seen: &mut Seen, rng: &mut Rng) {
    let sample = |rng: &mut Rng| {
        let n = if rng.one_in(10) { 120 } else { rng.within(1, 8) };
        let table = some_table(rng, n);
        Mend::of(rng, &table, n)
    };
    for _ in 0..20 {
        at_once(seen, rng, sample, FAULTS);
    }
}
