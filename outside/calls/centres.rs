//! Centres.

use crate::comparing::{demand, expect, Call, Kind, Seen, Uses};
use crate::lent::{place, Book, Lent, Place, Rng};
use crate::plain::{blocking, looking, FAR};
use crate::random::some_study;
use crate::refusals::{at_once, Fault};
use crate::runs::{run_of, Run};
use crate::samples::line;

#[rustfmt::skip]
extern "C" {
    fn tides_centres(
        record: *const u16, record_len: usize,
        distances: *const u32, distances_len: usize,
        settings: *const u8, settings_len: usize,
        g: u32,
        list: *mut u8, list_len: usize,
        nearest: *mut u8, nearest_len: usize,
        nearest_distances: *mut u32, nearest_distances_len: usize,
        count: *mut u16, count_len: usize,
    ) -> u32;
}

#[derive(Clone)]
pub struct Centres {
    pub g: u32,
    pub list: Lent<u8>,
    pub nearest: Lent<u8>,
    pub away: Lent<u32>,
    pub count: Lent<u16>,
}

const TIES: &str = "tides with equally near centres";
const LEAST: &str = "with g = 0";
const BEYOND: &str = "with g above every distance";
const SHORT: [&str; 3] = [
    "refused 1 for the list alone",
    "refused 1 for nearest alone",
    "refused 1 for nearest_distances alone",
];

pub static KIND: Kind = Kind {
    name: "Centres",
    reasons: &[1, 21, 24],
    uses: Uses::Looks,
    counted: &[TIES, LEAST, BEYOND, SHORT[0], SHORT[1], SHORT[2]],
    often: |_, _| 12,
    propose,
    known: |rng| Box::new(Centres::of(rng, 4, 5)),
    groups: &[("nearest", nearest_centres), ("at every g", |s, r| every_distance(s, r, 600))],
    at_once: |s, r| at_once(s, r, |rng| Centres::of(rng, 4, 5), FAULTS),
};

impl Centres {
    /// At g, lent a little more than n tides need.
    pub fn of(rng: &mut Rng, g: u32, n: usize) -> Centres {
        Centres {
            g,
            list: Lent::room(rng, n, 3),
            nearest: Lent::room(rng, n, 3),
            away: Lent::room(rng, n, 3),
            count: Lent::room(rng, 1, 1),
        }
    }
}

fn propose(rng: &mut Rng, run: &Run) -> Box<dyn Call> {
    let n = run.n();
    let g = match rng.below(6) {
        0 => 0,
        1 => rng.pick(&[FAR, FAR + 1, u32::MAX]),
        _ if n > 0 => {
            let d = run.book.distance(rng.below(n), rng.below(n));
            rng.pick(&[d, d, d.saturating_sub(1), d.saturating_add(1)])
        }
        _ => rng.next() as u32,
    };
    Box::new(Centres::of(rng, g, n))
}

impl Call for Centres {
    fn kind(&self) -> &'static Kind {
        &KIND
    }

    #[rustfmt::skip]
    fn ask_library(&mut self, b: &mut Book) -> u32 {
        unsafe {
            tides_centres(
                b.record.ptr(), b.record.len, b.distances.ptr(), b.distances.len,
                b.settings.ptr(), b.settings.len, self.g, self.list.ptr(), self.list.len,
                self.nearest.ptr(), self.nearest.len, self.away.ptr(), self.away.len,
                self.count.ptr(), self.count.len,
            )
        }
    }

    fn ask_plain(&mut self, book: &mut Book) -> u32 {
        let Centres { g, list, nearest, away, count } = self;
        let (list, nearest, away) = (list.part(), nearest.part(), away.part());
        looking::centres(&book.memory(), *g, list, nearest, away, count.part())
    }

    fn places(&mut self) -> Vec<Place<'_>> {
        vec![
            place("list", &mut self.list),
            place("nearest", &mut self.nearest),
            place("nearest_distances", &mut self.away),
            place("count", &mut self.count),
        ]
    }

    fn written(&self, book: &Book) -> Vec<usize> {
        vec![self.count.places[0] as usize, book.n(), book.n(), 1]
    }

    fn say(&self) -> String {
        format!("g {}", self.g)
    }

    fn spoil(&mut self, rng: &mut Rng, _: &Book) {
        self.g = rng.next() as u32;
    }

    fn note(&self, book: &Book, _: &Book, answer: u32, seen: &mut Seen) -> Result<(), String> {
        let n = book.n();
        if answer == 0 {
            let centres = &self.list.places[..self.count.places[0] as usize];
            let as_near = |t: &usize| {
                let near = |c: &&u8| book.distance(**c as usize - 1, *t) == self.away.places[*t];
                centres.iter().filter(near).count() > 1
            };
            let far = |i: usize| (0..n).all(|j| book.distance(i, j) < self.g);
            seen.count(&KIND, TIES, (0..n).filter(as_near).count());
            seen.count(&KIND, LEAST, (self.g == 0) as usize);
            seen.count(&KIND, BEYOND, (0..n).all(far) as usize);
        }
        if answer == 1 && book.has_room() && self.count.len > 0 {
            let short = [self.list.len < n, self.nearest.len < n, self.away.len < n];
            if let [i] = (0..3).filter(|i| short[*i]).collect::<Vec<usize>>()[..] {
                seen.count(&KIND, SHORT[i], 1);
            }
        }
        Ok(())
    }
}

/// Positions, g; centres, each tide's nearest block, its distance (document 02, 2.4).
const CASES: [(&[u32], u32, &[u8], &[u8], &[u32]); 13] = [
    // equally near: the lower number, wherever its centre lies
    (&[0, 10, 5, 5, 5], 5, &[1, 2], &[1, 2, 1, 1, 1], &[0, 0, 5, 5, 5]),
    (&[10, 0, 5], 5, &[1, 2], &[1, 2, 1], &[0, 0, 5]),
    // the nearest: not the first in reach, and not the last
    (&[0, 41, 40], 40, &[1, 2], &[1, 2, 2], &[0, 0, 1]),
    (&[0, 41, 1], 40, &[1, 2], &[1, 2, 1], &[0, 0, 1]),
    (
        &[0, 20, 40, 21, 19, 30, 10],
        10,
        &[1, 2, 3],
        &[1, 2, 3, 2, 2, 2, 1],
        &[0, 0, 0, 1, 1, 10, 10],
    ),
    // every tide a centre, or as good as one
    (&[2, 5, 0], 0, &[1, 2, 3], &[1, 2, 3], &[0, 0, 0]),
    (&[5, 9, 5, 9], 0, &[1, 2], &[1, 2, 1, 2], &[0, 0, 0, 0]),
    (&[0, 10, 5, 10], 0, &[1, 2, 3], &[1, 2, 3, 2], &[0, 0, 0, 0]),
    (&[4], 0, &[1], &[1], &[0]),
    // one centre
    (&[3, 0, 7], 4, &[1], &[1, 1, 1], &[0, 3, 4]),
    (&[3, 0, 7], 8, &[1], &[1, 1, 1], &[0, 3, 4]),
    (&[0, FAR], u32::MAX, &[1], &[1, 1], &[0, FAR]),
    (&[0, FAR], FAR - 1, &[1, 2], &[1, 2], &[0, 0]),
];

/// Each case in lists of a place too few, of n and of one more, in every
/// combination of the three.
fn nearest_centres(seen: &mut Seen, rng: &mut Rng) {
    for (at, g, centres, blocks, distances) in CASES {
        let n = at.len();
        let mut run = line(seen, rng, at, &[1; 7], 1);
        for lens in 0..27 {
            let mut call = Centres::of(rng, g, n + 1);
            let missing = [lens / 9, lens / 3 % 3, lens % 3]; // of n + 1 places
            for (place, less) in call.places().into_iter().zip(missing) {
                *place.lent.len() = n + 1 - less;
            }
            let expected = if missing.contains(&2) { 1 } else { 0 };
            let what = format!("Centres at {g} of {at:?}, without {missing:?} of n + 1 places");
            expect(run.make(seen, &mut call), expected, &what);
            let right = &call.list.places[..centres.len()] == centres
                && &call.nearest.places[..n] == blocks
                && &call.away.places[..n] == distances
                && call.count.places[0] as usize == centres.len();
            demand(expected != 0 || right, || what);
        }
    }
}

/// Books of up to 12 tides, with Centres at every distance and next to it.
fn every_distance(seen: &mut Seen, rng: &mut Rng, runs: usize) {
    for turn in 0..runs {
        let n = 1 + turn % 12;
        let study = some_study(rng, n);
        let mut run = run_of(seen, rng, &study);
        for d in blocking::candidates(&study) {
            for g in [d, d + 1] {
                expect(run.make(seen, &mut Centres::of(rng, g, n)), 0, "Centres");
            }
        }
    }
}

/// What makes each refusal hold of the known study, in the documents' order.
const FAULTS: &[Fault<Centres>] = &[
    (1, |r, book, _| book.shorten(r)),
    (1, |_, _, call| call.count.len = 0),
    (21, |r, book, _| book.no_book(r)),
    (24, |_, book, _| book.hold(0)),
    (1, |r, _, call| call.list.len = r.below(5)),
    (1, |r, _, call| call.nearest.len = r.below(5)),
    (1, |r, _, call| call.away.len = r.below(5)),
];
