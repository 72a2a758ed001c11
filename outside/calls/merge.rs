//! Merge: two books into a third (document 02, 2.9: joining).

use crate::calls::block::Block;
use crate::calls::enter::Enter;
use crate::calls::minima::Minima;
use crate::calls::read::Read;
use crate::calls::withdraw::Withdraw;
use crate::calls::write::Write;
use crate::calls::{block, centres, enter, judge, tariff, withdraw};
use crate::comparing::{demand, expect, Call, Kind, Seen, Uses};
use crate::damage::{spoil_book, wrong_place, CHANGES};
use crate::lent::{place, Book, Lent, Place, Rng};
use crate::plain::{merging, Study, COUNTS, FAR, KEEPERS, PLACES, RECORD, TIDES};
use crate::random::{shortest_ways, Metric};
use crate::refusals::{at_once, Fault};
use crate::runs::Run;
use crate::samples::{full_study, known_study, line_study, triangle};
use crate::sharing::{cut_from, more_for, some_merge};

#[rustfmt::skip]
extern "C" {
    fn tides_merge(
        first_record: *const u16, first_record_len: usize,
        first_distances: *const u32, first_distances_len: usize,
        first_settings: *const u8, first_settings_len: usize,
        second_record: *const u16, second_record_len: usize,
        second_distances: *const u32, second_distances_len: usize,
        second_settings: *const u8, second_settings_len: usize,
        record: *mut u16, record_len: usize,
        distances: *mut u32, distances_len: usize,
        settings: *mut u8, settings_len: usize,
        firsts: *const u8, firsts_len: usize,
        seconds: *const u8, seconds_len: usize,
    ) -> u32;
}

#[derive(Clone)]
pub struct Merge {
    pub first: Book,
    pub second: Option<Book>, // where there is none, the first is lent for both
    pub firsts: Lent<u8>,
    pub seconds: Lent<u8>,
}

const LATER: &str = "with a least sum through another than the first shared tide";
const ALL: &str = "with every tide of the second shared";
const TWIN: &str = "that make a twin of tides from both";
const FULL: &str = "that make a book of 120 tides";
const ONE_BOOK: &str = "of a book with itself";

pub static KIND: Kind = Kind {
    name: "Merge",
    reasons: &[1, 21, 17, 16, 22, 6, 26],
    uses: Uses::Replaces,
    counted: &[LATER, ALL, TWIN, FULL, ONE_BOOK],
    often: |held, target| if held < target { 6 } else { 1 },
    propose,
    known: |rng| Box::new(known(rng)),
    groups: &[
        ("worked cases", worked),
        ("limits", limits),
        ("parts of 16", parts),
        ("one book twice", one_book),
        ("old contents", old_contents),
        ("damaged sources", damaged),
        ("later calls", later),
        ("to 12 tides", |s, r| random(s, r, 40_000, 12)),
        ("to 50 tides", |s, r| random(s, r, 3_000, 50)),
        ("to 200 tides", |s, r| random(s, r, 600, 200)),
    ],
    at_once: |s, r| (0..10).for_each(|_| at_once(s, r, known, FAULTS)),
};

impl Merge {
    /// Two books, or one for both, and pairs of tides: one of each.
    pub fn of(rng: &mut Rng, first: Book, second: Option<Book>, pairs: &[(u8, u8)]) -> Merge {
        let (firsts, seconds): (Vec<u8>, Vec<u8>) = pairs.iter().copied().unzip();
        Merge {
            first,
            second,
            firsts: Lent::exact(rng, &firsts),
            seconds: Lent::exact(rng, &seconds),
        }
    }

    fn of_studies(rng: &mut Rng, first: &Study, second: &Study, pairs: &[(u8, u8)]) -> Merge {
        let (first, second) = (Book::of(rng, first), Book::of(rng, second));
        Merge::of(rng, first, Some(second), pairs)
    }

    fn second(&self) -> &Book {
        self.second.as_ref().unwrap_or(&self.first)
    }

    /// The first for 0, the second for 1.
    fn source(&mut self, which: usize) -> &mut Book {
        match &mut self.second {
            Some(second) if which == 1 => second,
            _ => &mut self.first,
        }
    }

    /// The pairs of tides, by their places from 0.
    fn shared(&self) -> Vec<(usize, usize)> {
        let at = |lent: &Lent<u8>, q: usize| lent.places[q] as usize - 1;
        (0..self.firsts.len).map(|q| (at(&self.firsts, q), at(&self.seconds, q))).collect()
    }

    /// The shortest ways between the tides of both books, where each distance that a
    /// book holds is a road.
    fn ways(&self) -> Metric {
        let (a, b, shared) = (&self.first, self.second(), self.shared());
        let mut n = a.n();
        let mut at = vec![]; // where the second's tides stand
        for j in 0..b.n() {
            let partner = shared.iter().find(|pair| pair.1 == j).map(|pair| pair.0);
            at.push(partner.unwrap_or(n));
            n += partner.is_none() as usize;
        }
        let no_road = 2 * FAR + 1;
        let mut ways = vec![vec![no_road; n]; n];
        for (i, j) in (0..a.n()).flat_map(|i| (0..a.n()).map(move |j| (i, j))) {
            ways[i][j] = a.distance(i, j);
        }
        for (i, j) in (0..b.n()).flat_map(|i| (0..b.n()).map(move |j| (i, j))) {
            ways[at[i]][at[j]] = b.distance(i, j);
        }
        shortest_ways(&mut ways);
        ways
    }

    /// Whether through the first shared tide alone something would be farther.
    fn by_a_later(&self, merged: &Book) -> bool {
        let (a, b, shared) = (&self.first, self.second(), self.shared());
        let rest = (0..b.n()).filter(|j| shared.iter().all(|pair| pair.1 != *j));
        let (p, q) = shared[0];
        rest.enumerate().any(|(r, j)| {
            (0..a.n()).any(|i| a.distance(i, p) + b.distance(q, j) > merged.distance(i, a.n() + r))
        })
    }
}

/// The known study with one of four tides at 3, 6, 1 and 8, of which it shares the
/// first two.
fn known(rng: &mut Rng) -> Merge {
    let second = Study {
        b0: 3,
        b: [0, 2, 0, 0, 0, 0, 0, 0],
        withdrawals: [1, 2, 3, 1],
        ..line_study(&[3, 6, 1, 8], &[2, 1, 1, 2], 2)
    };
    Merge::of_studies(rng, &known_study(), &second, &[(2, 1), (4, 2)])
}

/// The run's own book with one that shares some of its tides; where it has none, two
/// that are cut from a few of the run's points.
fn propose(rng: &mut Rng, run: &Run) -> Box<dyn Call> {
    match run.book.study() {
        Some(study) if study.n() > 0 => Box::new(more_for(rng, &run.book, &study)),
        _ => {
            let few = rng.within(1, run.metric.len().min(6));
            let row = |p: usize| run.metric[p][..few].to_vec();
            Box::new(cut_from(rng, (0..few).map(row).collect()))
        }
    }
}

impl Call for Merge {
    fn kind(&self) -> &'static Kind {
        &KIND
    }

    #[rustfmt::skip]
    fn ask_library(&mut self, b: &mut Book) -> u32 {
        let (x, y) = (&self.first, self.second());
        unsafe {
            tides_merge(
                x.record.places.as_ptr(), x.record.len, x.distances.places.as_ptr(), x.distances.len,
                x.settings.places.as_ptr(), x.settings.len,
                y.record.places.as_ptr(), y.record.len, y.distances.places.as_ptr(), y.distances.len,
                y.settings.places.as_ptr(), y.settings.len,
                b.record.ptr(), b.record.len, b.distances.ptr(), b.distances.len,
                b.settings.ptr(), b.settings.len,
                self.firsts.places.as_ptr(), self.firsts.len,
                self.seconds.places.as_ptr(), self.seconds.len,
            )
        }
    }

    fn ask_plain(&mut self, book: &mut Book) -> u32 {
        let mut second = self.second().clone();
        merging::merge(
            &self.first.memory(),
            &second.memory(),
            &mut book.memory(),
            self.firsts.part(),
            self.seconds.part(),
        )
    }

    fn places(&mut self) -> Vec<Place<'_>> {
        let mut places = vec![
            Place { name: "firsts", short: 16, lent: &mut self.firsts },
            Place { name: "seconds", short: 16, lent: &mut self.seconds },
            place("first's record", &mut self.first.record),
            place("first's distances", &mut self.first.distances),
            place("first's settings", &mut self.first.settings),
        ];
        if let Some(second) = &mut self.second {
            places.push(place("second's record", &mut second.record));
            places.push(place("second's distances", &mut second.distances));
            places.push(place("second's settings", &mut second.settings));
        }
        places
    }

    fn say(&self) -> String {
        let study = |book: &Book| book.has_room().then(|| book.study());
        format!("of {:?} and {:?}", study(&self.first), study(self.second()))
    }

    fn spoil(&mut self, rng: &mut Rng, _: &Book) {
        let most = self.first.n().max(self.second().n()) as u8;
        let list = if rng.one_in(2) { &mut self.firsts } else { &mut self.seconds };
        let len = list.len;
        match rng.below(10) {
            0 => list.len = rng.pick(&[0, len.saturating_sub(1), len + 1]),
            1 => (self.firsts.len, self.seconds.len) = (0, 0),
            2 if len > 0 => {
                let tide = rng.pick(&[0, 1, most, most.wrapping_add(1), 255]);
                list.places[rng.below(len)] = tide;
            }
            3 if len > 0 => list.places[rng.below(len)] = list.places[rng.below(len)],
            4 if len > 0 => list.places.swap(rng.below(len), rng.below(len)),
            5 => {
                let k = &mut self.source(rng.below(2)).record.places[0];
                *k = rng.pick(&[k.wrapping_add(1), 8]);
            }
            6 => {
                let count = rng.pick(&[65_534, 65_535]);
                self.source(rng.below(2)).record.places[COUNTS + rng.below(KEEPERS)] = count;
            }
            // another setting; and farther from all others, which keeps the three-tide rule
            7 => {
                let book = self.source(rng.below(2));
                let tide = rng.below(book.n().clamp(1, TIDES));
                book.settings.places[tide] = rng.within(1, book.k().clamp(1, 8)) as u8;
            }
            8 => {
                let book = self.source(rng.below(2));
                let n = book.n().min(TIDES);
                let (tide, more) = (rng.below(n.max(1)), rng.pick(&[1, 2, FAR / 2, FAR]));
                for e in (0..n).filter(|e| *e != tide) {
                    book.set_distance(tide, e, book.distance(tide, e).saturating_add(more));
                }
            }
            _ => {
                let book = self.source(rng.below(2));
                spoil_book(rng, book);
            }
        }
    }

    fn note(&self, _: &Book, after: &Book, answer: u32, seen: &mut Seen) -> Result<(), String> {
        if answer != 0 {
            return Ok(());
        }
        let (n, ways) = (after.n(), self.ways());
        if n != ways.len() || (0..n).any(|i| (0..n).any(|j| after.distance(i, j) != ways[i][j])) {
            return Err(format!("the shortest ways over both are {ways:?}"));
        }
        let twin = after.has_twin() && !self.first.has_twin() && !self.second().has_twin();
        seen.count(&KIND, LATER, self.by_a_later(after) as usize);
        seen.count(&KIND, ALL, (n == self.first.n()) as usize);
        seen.count(&KIND, TWIN, twin as usize);
        seen.count(&KIND, FULL, (n == TIDES) as usize);
        seen.count(&KIND, ONE_BOOK, self.second.is_none() as usize);
        Ok(())
    }

    fn remember(&self, run: &mut Run) {
        run.held.clear();
    }
}

/// The first book's tides on a line and their settings; the second's; the pairs; the
/// rows of the second's remaining tides to all before them, and their settings.
type Case<'a> =
    ((&'a [u32], &'a [u8]), (&'a [u32], &'a [u8]), &'a [(u8, u8)], (&'a [&'a [u32]], &'a [usize]));

const CASES: [Case; 9] = [
    // one shared tide: the last with the first, the first with the last
    ((&[0, 4], &[1, 1]), (&[0, 3, 10], &[1, 2, 1]), &[(2, 1)], (&[&[7, 3], &[14, 10, 7]], &[2, 1])),
    (
        (&[0, 4], &[1, 1]),
        (&[0, 3, 10], &[1, 2, 1]),
        &[(1, 3)],
        (&[&[10, 14], &[7, 11, 3]], &[1, 2]),
    ),
    ((&[5], &[2]), (&[9], &[2]), &[(1, 1)], (&[], &[])),
    // two: tide 5 is nearest to tide 1 through the first and to tide 2 through the second
    (
        (&[0, 20, 10, 12], &[1, 2, 1, 2]),
        (&[5, 7, 6, 10], &[1, 2, 1, 2]),
        &[(3, 1), (4, 2)],
        (&[&[11, 9, 1, 1], &[15, 11, 5, 3, 4]], &[1, 2]),
    ),
    // the same pairs in the other order, and only one of them
    (
        (&[0, 20, 10, 12], &[1, 2, 1, 2]),
        (&[5, 7, 6, 10], &[1, 2, 1, 2]),
        &[(4, 2), (3, 1)],
        (&[&[11, 9, 1, 1], &[15, 11, 5, 3, 4]], &[1, 2]),
    ),
    (
        (&[0, 20, 10, 12], &[1, 2, 1, 2]),
        (&[5, 7, 6, 10], &[1, 2, 1, 2]),
        &[(4, 2)],
        (&[&[14, 10, 4, 2], &[13, 9, 3, 1, 1], &[15, 11, 5, 3, 5, 4]], &[1, 1, 2]),
    ),
    // every tide of the second shared; every tide of the first; every tide of both
    ((&[0, 2, 9], &[1, 1, 2]), (&[9, 0], &[2, 1]), &[(1, 2), (3, 1)], (&[], &[])),
    ((&[9, 0], &[2, 1]), (&[0, 2, 9], &[1, 1, 2]), &[(2, 1), (1, 3)], (&[&[7, 2]], &[1])),
    ((&[0, 5], &[1, 1]), (&[0, 5], &[1, 1]), &[(1, 2), (2, 1)], (&[], &[])),
];

/// The first's minima stay, also where they are others than the second's.
fn worked(seen: &mut Seen, rng: &mut Rng) {
    for (first, second, pairs, (rows, settings)) in CASES {
        let a = Study { b0: 7, withdrawals: [5, 0, 65_535, 1], ..line_study(first.0, first.1, 3) };
        let b = Study {
            b0: 4,
            b: [1, 1, 1, 0, 0, 0, 0, 0],
            withdrawals: [6, 0, 0, 9],
            ..line_study(second.0, second.1, 3)
        };
        let mut expected = Study { withdrawals: [11, 0, 65_535, 10], ..a.clone() };
        for (row, setting) in rows.iter().zip(settings) {
            expected.add_tide(*setting, row);
        }
        let mut run = Run::new(rng, 1);
        let what = format!("tides at {:?} and {:?}, {pairs:?} shared", first.0, second.0);
        expect(run.make(seen, &mut Merge::of_studies(rng, &a, &b, pairs)), 0, &what);
        demand(run.book.study() == Some(expected), || format!("{what}: {:?}", run.book.study()));
    }
}

/// Tides of one setting on a line, the second book's after the first's but for some
/// that they share.
fn on_one_line(rng: &mut Rng, first: usize, second: usize, shared: usize) -> Merge {
    let at: Vec<u32> = (0..(first + second - shared) as u32).collect();
    let a = line_study(&at[..first], &[1; TIDES], 1);
    let b = line_study(&at[first - shared..], &[1; TIDES], 1);
    let pairs: Vec<(u8, u8)> =
        (0..shared).map(|q| ((first - shared + q + 1) as u8, q as u8 + 1)).collect();
    Merge::of_studies(rng, &a, &b, &pairs)
}

/// Exactly 120 tides and 121, a distance of exactly 1,048,575 and one more, counts of
/// exactly 65,535 and one more.
fn limits(seen: &mut Seen, rng: &mut Rng) {
    for (first, second, shared, answer) in [
        (60, 61, 1, 0),
        (61, 61, 1, 22),
        (60, 62, 1, 22),
        (120, 1, 1, 0),
        (120, 2, 1, 22),
        (1, 120, 1, 0),
        (2, 120, 1, 22),
        (60, 120, 60, 0),
        (61, 120, 60, 22),
        (120, 120, 120, 0),
        (120, 120, 119, 22),
        (120, 120, 1, 22),
    ] {
        let mut book = Book::junk(rng);
        let what = format!("{first} and {second} tides, {shared} shared");
        let mut merge = on_one_line(rng, first, second, shared);
        expect(seen.call(&mut book, &mut merge), answer, &what);
        demand(answer != 0 || book.n() == TIDES, || format!("{what}: {} tides", book.n()));
    }
    // the tides of both books on lines, and their pairs
    let cases: [(&[u32], &[u32], &[(u8, u8)], u32); 12] = [
        (&[0, FAR - 1], &[0, 1], &[(2, 1)], 0),
        (&[0, FAR], &[0, 1], &[(2, 1)], 6),
        (&[0, FAR - 1], &[0, 2], &[(2, 1)], 6),
        (&[0, 1], &[0, FAR - 1], &[(2, 1)], 0),
        (&[0, 2], &[0, FAR - 1], &[(2, 1)], 6),
        (&[0, FAR], &[0, FAR], &[(1, 1)], 6),
        (&[0, FAR], &[7], &[(1, 1)], 0),
        (&[7], &[0, FAR], &[(1, 2)], 0),
        // the sum through one shared tide is above, through the other it is not
        (&[0, 10, FAR], &[0, 10, 20], &[(1, 1), (2, 2)], 0),
        (&[0, 10, FAR], &[0, 10, 20], &[(2, 2), (1, 1)], 0),
        (&[0, 10, FAR], &[0, 10, 21], &[(1, 1), (2, 2)], 6),
        (&[0, 10, FAR], &[0, 10, 21], &[(2, 2), (1, 1)], 6),
    ];
    for (a, b, pairs, answer) in cases {
        let (first, second) = (line_study(a, &[1; 3], 1), line_study(b, &[1; 3], 1));
        let mut merge = Merge::of_studies(rng, &first, &second, pairs);
        let what = format!("tides at {a:?} and {b:?}, {pairs:?} shared");
        expect(seen.call(&mut Book::junk(rng), &mut merge), answer, &what);
    }
    let counts = [
        (0, 65_535, 0),
        (1, 65_534, 0),
        (1, 65_535, 26),
        (65_535, 1, 26),
        (32_767, 32_768, 0),
        (32_768, 32_768, 26),
        (65_535, 65_535, 26),
    ];
    for (keeper, (x, y, answer)) in (0..KEEPERS).flat_map(|u| counts.map(|case| (u, case))) {
        let mut merge = known(rng);
        for (which, others, own) in [(0, [65_535, 0, 8, 1], x), (1, [0, 65_535, 9, 2], y)] {
            let counts = &mut merge.source(which).record.places[COUNTS..RECORD];
            counts.copy_from_slice(&others);
            counts[keeper] = own;
        }
        let mut book = Book::junk(rng);
        let what = format!("keeper {} with {x} and {y}", keeper + 1);
        expect(seen.call(&mut book, &mut merge), answer, &what);
        let mut sums = [65_535, 65_535, 17, 3];
        sums[keeper] = x.wrapping_add(y);
        demand(answer != 0 || book.counts() == sums, || format!("{what}: {:?}", book.counts()));
    }
}

/// Each part of 16 by itself. Both books hold two tides of setting 1 at one place, so
/// that a tide can be named before and nothing else be wrong.
fn parts(seen: &mut Seen, rng: &mut Rng) {
    let a = line_study(&[0, 3, 6, 6], &[1, 2, 1, 1], 2);
    let b = line_study(&[3, 6, 6, 10], &[2, 1, 1, 2], 2);
    let cases: [(&[u8], &[u8], u32); 35] = [
        (&[2, 3], &[1, 2], 0),
        (&[3, 2], &[2, 1], 0),
        (&[3, 4], &[3, 2], 0),
        (&[4, 2, 3], &[2, 1, 3], 0),
        (&[], &[], 17),
        // absent: 0, above n, past the end of a list
        (&[0], &[1], 16),
        (&[2], &[0], 16),
        (&[0], &[0], 16),
        (&[5], &[2], 16),
        (&[3], &[5], 16),
        (&[255], &[1], 16),
        (&[2], &[255], 16),
        (&[2, 0], &[1, 2], 16),
        (&[2, 3], &[1, 0], 16),
        (&[0, 3], &[1, 2], 16),
        (&[2, 3], &[0, 2], 16),
        (&[2, 5], &[1, 2], 16),
        (&[2, 3], &[1, 5], 16),
        (&[2], &[1, 2], 16),
        (&[2, 3], &[1], 16),
        (&[], &[1], 16),
        (&[2], &[], 16),
        // named before, in the first, the second, both; not next to one another
        (&[3, 3], &[2, 3], 16),
        (&[3, 4], &[2, 2], 16),
        (&[3, 3], &[2, 2], 16),
        (&[3, 2, 3], &[2, 1, 3], 16),
        (&[3, 2, 4], &[2, 1, 2], 16),
        (&[3, 2, 3], &[2, 1, 2], 16),
        // of another setting than its partner
        (&[3], &[1], 16),
        (&[2], &[2], 16),
        (&[3], &[4], 16),
        // at 3 in the first and at 4 in the second; at 6 and 0, the second and the third of
        // three alone
        (&[2, 3], &[4, 2], 16),
        (&[3, 2], &[2, 4], 16),
        (&[1, 3], &[2, 3], 16),
        (&[2, 3, 1], &[1, 2, 3], 16),
    ];
    let mut run = Run::new(rng, 1);
    for (firsts, seconds, answer) in cases {
        named(seen, rng, &mut run, (&a, &b), firsts, seconds, answer);
    }
    // k alone
    for (k1, k2, answer) in [(2, 3, 16), (3, 2, 16), (3, 3, 0), (8, 2, 16), (8, 8, 0)] {
        let (a, b) = (Study { k: k1, ..a.clone() }, Study { k: k2, ..b.clone() });
        named(seen, rng, &mut run, (&a, &b), &[2, 3], &[1, 2], answer);
    }
    // every number, beside one of setting 1
    for tide in 0..=255 {
        let answer = |right: &[u8]| if right.contains(&tide) { 0 } else { 16 };
        named(seen, rng, &mut run, (&a, &b), &[tide], &[2], answer(&[1, 3, 4]));
        named(seen, rng, &mut run, (&a, &b), &[3], &[tide], answer(&[2, 3]));
    }
    // more numbers than a byte can count
    for len in [121, 255, 256, 257, 512] {
        named(seen, rng, &mut run, (&a, &b), &vec![3; len], &vec![2; len], 16);
        named(seen, rng, &mut run, (&a, &b), &vec![3; len], &[], 16);
        named(seen, rng, &mut run, (&a, &b), &[], &vec![2; len], 16);
    }
}

/// The answer of two studies with these numbers.
fn named(
    seen: &mut Seen,
    rng: &mut Rng,
    run: &mut Run,
    (a, b): (&Study, &Study),
    firsts: &[u8],
    seconds: &[u8],
    answer: u32,
) {
    let mut merge = Merge::of_studies(rng, a, b, &[]);
    merge.firsts = Lent::exact(rng, firsts);
    merge.seconds = Lent::exact(rng, seconds);
    let what = format!("{firsts:?} with {seconds:?}, k = {} and {}", a.k, b.k);
    expect(run.make(seen, &mut merge), answer, &what);
}

/// The same memory lent for both gives what two books of it give. With each tide
/// shared with itself only the counts are others.
fn one_book(seen: &mut Seen, rng: &mut Rng) {
    let small = Study { withdrawals: [9, 0, 32_767, 300], ..known_study() };
    let full = Study { withdrawals: [1, 2, 3, 4], ..full_study() };
    for study in [&small, &full] {
        let n = study.n() as u8;
        let itself: Vec<(u8, u8)> = (1..=n).map(|t| (t, t)).collect();
        let doubled = Study { withdrawals: study.withdrawals.map(|x| 2 * x), ..study.clone() };
        for shared in (1..=n as usize).filter(|s| *s < 4 || s + 4 > n as usize) {
            let book = Book::of(rng, study);
            let mut one = Merge::of(rng, book.clone(), None, &itself[..shared]);
            let mut two = Merge::of(rng, book.clone(), Some(book), &itself[..shared]);
            let mut merged = [Book::junk(rng), Book::junk(rng)];
            let fits = 2 * study.n() - shared <= TIDES;
            let expected = if !fits { 22 } else { 0 };
            let what = format!("{n} tides, of which {shared} are shared");
            expect(seen.call(&mut merged[0], &mut one), expected, &what);
            expect(seen.call(&mut merged[1], &mut two), expected, &what);
            let [one, two] = &merged.map(|book| book.study());
            demand(!fits || one.is_some() && one == two, || format!("{what}: {one:?}, {two:?}"));
            let same = one.as_ref() == Some(&doubled);
            demand(!fits || same == (shared == study.n()), || format!("{what}: {one:?}"));
        }
    }
    // two tides of one setting for one another; the parts of 16; twice 32,768 withdrawals
    let over = Study { withdrawals: [0, 0, 32_768, 0], ..known_study() };
    let cases: [(&Study, &[(u8, u8)], u32); 6] = [
        (&small, &[(1, 4), (4, 1)], 0),
        (&small, &[(1, 2)], 16),
        (&small, &[(1, 1), (2, 3)], 16),
        (&small, &[(2, 2), (2, 2)], 16),
        (&small, &[(1, 4), (4, 4)], 16),
        (&over, &[(1, 1)], 26),
    ];
    for (study, pairs, answer) in cases {
        let book = Book::of(rng, study);
        let mut merge = Merge::of(rng, book, None, pairs);
        expect(seen.call(&mut Book::junk(rng), &mut merge), answer, &format!("{pairs:?}"));
    }
}

/// Whatever the third held: junk, zeros, one of the sources, 120 tides.
fn old_contents(seen: &mut Seen, rng: &mut Rng) {
    let mut merge = known(rng);
    let mut zeros = Book::junk(rng);
    zeros.record.places.fill(0);
    zeros.distances.places.fill(0);
    zeros.settings.places.fill(0);
    let mut made = vec![];
    for old in [
        Book::junk(rng),
        zeros,
        merge.first.clone(),
        merge.second().clone(),
        Book::of(rng, &full_study()),
    ] {
        let mut book = old.clone();
        expect(seen.call(&mut book, &mut merge), 0, "Merge over old contents");
        made.push(book.study());
        let mut refused = merge.clone();
        refused.seconds.len = 1;
        expect(seen.call(&mut old.clone(), &mut refused), 16, "Merge over old contents");
    }
    demand(made.iter().all(|s| s.is_some() && *s == made[0]), || format!("old contents: {made:?}"));
}

/// Record and memory of a source that are no book: one wrong place of each kind and
/// what is right next to it, one in five places of the memory, and every number of
/// the record.
fn damaged(seen: &mut Seen, rng: &mut Rng) {
    let mut run = Run::new(rng, 1);
    for (i, (is_book, change)) in CHANGES.into_iter().enumerate() {
        for which in 0..2 {
            let mut merge = Merge::of_studies(rng, &triangle(), &triangle(), &[(1, 1)]);
            change(merge.source(which));
            let answer = run.make(seen, &mut merge);
            demand((answer != 21) == is_book, || {
                format!("Merge with change {i} of source {}: {answer}", which + 1)
            });
        }
    }
    let sound = known(rng);
    for at in (0..PLACES + TIDES).step_by(5) {
        let mut merge = sound.clone();
        wrong_place(rng, merge.source(at % 2), at);
        expect(run.make(seen, &mut merge), 21, "one place of a source changed");
    }
    let values = (0..=9).chain([119, 120, 121, 122, 255, 256, 257, 258, 32_768, 65_534, 65_535]);
    for (value, at) in values.flat_map(|value| (0..2 * RECORD).map(move |at| (value, at))) {
        let mut merge = sound.clone();
        merge.source(at % 2).record.places[at / 2] = value;
        run.make(seen, &mut merge);
    }
}

/// The fourth worked case, blocked with one of each setting: tide 1 needs tide 4, at
/// 12, which is nearer to the centre of block 2. Then a tide at the place of tide 6, a
/// withdrawal, and the file, which is read as the same book.
fn later(seen: &mut Seen, rng: &mut Rng) {
    let a = line_study(&[0, 20, 10, 12], &[1, 2, 1, 2], 2);
    let b = line_study(&[5, 7, 6, 10], &[1, 2, 1, 2], 2);
    let a = Study { b0: 2, b: [1, 1, 0, 0, 0, 0, 0, 0], withdrawals: [1, 2, 3, 4], ..a };
    let b = Study { withdrawals: [4, 3, 2, 1], ..b };
    let mut run = Run::new(rng, 1);
    let mut merge = Merge::of_studies(rng, &a, &b, &[(3, 1), (4, 2)]);
    expect(run.make(seen, &mut merge), 0, "Merge");
    let mut block = Block::of(rng, 6);
    expect(run.make(seen, &mut block), 0, "Block of a merged book");
    let (list, result) = (&block.0.list.places[..6], &block.0.result.places[..3]);
    let right = list == [1, 2, 1, 1, 2, 2] && result == [2, 12, 12];
    demand(right, || format!("Block of a merged book: {list:?}, {result:?}"));
    let row = [15, 11, 5, 3, 4, 0];
    expect(run.make(seen, &mut Enter::of(rng, 2, &row)), 15, "a twin of a merged tide");
    expect(run.make(seen, &mut Enter::of(rng, 1, &row)), 0, "Enter in a merged book");
    expect(run.make(seen, &mut Withdraw { keeper: 2, tide: 3 }), 0, "Withdraw after Merge");
    demand(run.book.counts() == [5, 6, 5, 5], || format!("counts {:?}", run.book.counts()));
    expect(run.make(seen, &mut Minima::of(rng, &[3, 1, 1])), 0, "Minima after Merge");
    for kind in [&block::KIND, &tariff::KIND, &judge::KIND, &centres::KIND] {
        let mut call = (kind.propose)(rng, &run);
        expect(run.make(seen, &mut *call), 0, kind.name);
    }
    as_a_read(seen, rng, &mut run);
    // minima that the merged book cannot meet, as its first could not
    let a = Study { b0: 120, ..a };
    let mut merge = Merge::of_studies(rng, &a, &b, &[(3, 1), (4, 2)]);
    expect(run.make(seen, &mut merge), 0, "Merge");
    expect(run.make(seen, &mut Block::of(rng, 6)), 25, "Block of too few");
}

/// Reading the file of a run's book leaves the same record and memory.
fn as_a_read(seen: &mut Seen, rng: &mut Rng, run: &mut Run) {
    let file = Write::bytes(seen, rng, run);
    let mut book = Book::junk(rng);
    expect(seen.call(&mut book, &mut Read::of(rng, &file)), 0, "the file of a merged book");
    let same = book.record.places[..RECORD] == run.book.record.places[..RECORD]
        && book.distances.places[..PLACES] == run.book.distances.places[..PLACES]
        && book.settings.places[..TIDES] == run.book.settings.places[..TIDES];
    demand(same, || format!("{:?} read as {:?}", run.book.study(), book.study()));
}

/// Books of at most so many tides together, cut from one metric, so that their shared
/// tides agree; half of them disturbed. Of what is merged, some goes on.
fn random(seen: &mut Seen, rng: &mut Rng, runs: usize, most: usize) {
    let mut run = Run::new(rng, 1);
    for turn in 0..runs {
        if turn % 50 == 0 {
            run = Run::new(rng, 10);
        }
        let mut merge = some_merge(rng, most);
        let faults = rng.pick(&[0, 0, 0, 1, 1, 2]);
        for _ in 0..faults {
            merge.spoil(rng, &run.book);
        }
        let answer = run.make(seen, &mut merge);
        let agree = faults > 0 || [0, 6, 22, 26].contains(&answer);
        demand(agree, || format!("books cut from one metric: {answer}"));
        if answer == 0 && rng.one_in(10) {
            as_a_read(seen, rng, &mut run);
            for kind in [&enter::KIND, &withdraw::KIND, &block::KIND, &KIND] {
                let mut call = (kind.propose)(rng, &run);
                run.make(seen, &mut *call);
            }
        }
    }
}

/// What makes each refusal hold of the known merge, in the documents' order. What
/// comes after 16 is of tides that are in no pair.
const FAULTS: &[Fault<Merge>] = &[
    (1, |r, book, call| match r.below(3) {
        2 => book.shorten(r),
        which => call.source(which).shorten(r),
    }),
    (21, |r, _, call| call.source(r.below(2)).no_book(r)),
    (17, |_, _, call| (call.firsts.len, call.seconds.len) = (0, 0)),
    (16, |r, _, call| call.source(r.below(2)).record.places[0] = 3),
    (16, |r, _, call| {
        let most = [call.first.n() as u8, call.second().n() as u8];
        let (firsts, seconds) = (&mut call.firsts, &mut call.seconds);
        match r.below(8) {
            0 => firsts.places[r.below(2)] = r.pick(&[0, most[0] + 1, 255]),
            1 => seconds.places[r.below(2)] = r.pick(&[0, most[1] + 1, 255]),
            2 => firsts.len = r.pick(&[0, 1]),
            3 => seconds.len = r.pick(&[0, 1]),
            4 => firsts.places[1] = firsts.places[0],
            5 => seconds.places[1] = seconds.places[0],
            // its partner's setting is 2; the other one of setting 2 is at 2 from tide 2
            6 => seconds.places[0] = 3,
            _ => seconds.places[0] = 4,
        }
    }),
    (22, |r, _, call| {
        let (first, second) = r.pick(&[(5, 118), (119, 4), (60, 63), (120, 120)]);
        call.source(0).repeat_last(first);
        call.source(1).repeat_last(second);
    }),
    // the last tide of a book is far from all others
    (6, |r, _, call| {
        let book = call.source(r.below(2));
        for t in 0..book.n() - 1 {
            book.set_distance(book.n() - 1, t, FAR);
        }
    }),
    (26, |r, _, call| call.source(r.below(2)).record.places[COUNTS..RECORD].fill(65_535)),
];
