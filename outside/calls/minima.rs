//! Minima.

use crate::calls::{block, judge, open::Open, read::Read, tariff, write, CALLS};
use crate::comparing::{demand, expect, Call, Kind, Seen, Uses};
use crate::lent::{place, Book, Lent, Place, Rng};
use crate::plain::files::file_of;
use crate::plain::{changing, Study};
use crate::random::minima_for;
use crate::refusals::{at_once, Fault};
use crate::runs::{run_of, Run};
use crate::samples::known_study;

#[rustfmt::skip]
extern "C" {
    fn tides_minima(
        record: *mut u16, record_len: usize,
        distances: *const u32, distances_len: usize,
        settings: *const u8, settings_len: usize,
        minima: *const u8, minima_len: usize,
    ) -> u32;
}

#[derive(Clone)]
pub struct Minima {
    pub minima: Lent<u8>,
}

const RAISED: &str = "taken with b0 raised to the sum of the b's";

pub static KIND: Kind = Kind {
    name: "Minima",
    reasons: &[1, 21, 3],
    uses: Uses::Looks,
    counted: &[RAISED],
    often: |_, _| 12,
    propose,
    known: |rng| Box::new(Minima::of(rng, &[3, 1, 2])),
    groups: &[("cases", cases), ("b0 below the sum", below_the_sum)],
    at_once: |s, r| at_once(s, r, |rng| Minima::of(rng, &[3, 1, 1]), FAULTS),
};

impl Minima {
    /// b0 and the first b's; the others are 0.
    pub fn of(rng: &mut Rng, given: &[u8]) -> Minima {
        let mut nine = [0; 9];
        nine[..given.len()].copy_from_slice(given);
        Minima { minima: Lent::filled(rng, &nine, 2) }
    }
}

fn propose(rng: &mut Rng, run: &Run) -> Box<dyn Call> {
    let mut m = minima_for(rng, run.k(), &run.book.settings.places[..run.n()]);
    if m[0] > 1 && rng.one_in(6) {
        m[0] = rng.within(1, m[0] as usize - 1) as u8;
    }
    Box::new(Minima::of(rng, &m))
}

impl Call for Minima {
    fn kind(&self) -> &'static Kind {
        &KIND
    }

    #[rustfmt::skip]
    fn ask_library(&mut self, b: &mut Book) -> u32 {
        unsafe {
            tides_minima(
                b.record.ptr(), b.record.len, b.distances.ptr(), b.distances.len,
                b.settings.ptr(), b.settings.len, self.minima.ptr(), self.minima.len,
            )
        }
    }

    fn ask_plain(&mut self, book: &mut Book) -> u32 {
        changing::minima(&mut book.memory(), self.minima.part())
    }

    fn places(&mut self) -> Vec<Place<'_>> {
        vec![place("minima", &mut self.minima)]
    }

    fn spoil(&mut self, rng: &mut Rng, book: &Book) {
        let k = book.k().clamp(1, 8);
        let m = &mut self.minima.places;
        match rng.below(6) {
            0 => m[0] = rng.pick(&[0, 121, 128, 255]),
            1 => m[rng.within(1, 8)] = 1,
            2 if k < 8 => m[rng.within(k + 1, 8)] = rng.within(1, 2) as u8,
            // the sum comes round to 0 in eight bits
            3 => {
                m[1] = 128;
                m[rng.within(1, 8)] = 128;
            }
            4 => m[rng.within(1, k)] = m[0].wrapping_add(1),
            _ => m[rng.below(9)] = rng.next() as u8,
        }
    }

    fn note(&self, _: &Book, after: &Book, answer: u32, seen: &mut Seen) -> Result<(), String> {
        let raised = answer == 0 && after.b0() != self.minima.places[0] as u16;
        seen.count(&KIND, RAISED, raised as usize);
        Ok(())
    }
}

/// k, minima; the b0 held afterwards, or 0 where they are refused (document 02, 2.2).
const CASES: [(u32, &[u8], u16); 28] = [
    (3, &[2, 1, 1, 1], 3),
    (3, &[1, 1, 1, 1], 3),
    (3, &[3, 1, 1, 1], 3),
    (3, &[4, 1, 1, 1], 4),
    (3, &[1, 0, 0, 2], 2),
    (2, &[120, 7], 120),
    (2, &[5, 6], 6),
    (3, &[0], 0),
    (3, &[0, 1, 1, 1], 0),
    // above k
    (3, &[2, 1, 1, 1, 1], 0),
    (3, &[9, 1, 1, 1, 1], 0),
    (1, &[1, 0, 1], 0),
    // b0 or the sum at 120, and above
    (1, &[120], 120),
    (1, &[120, 120], 120),
    (1, &[1, 120], 120),
    (2, &[119, 60, 60], 120),
    (8, &[1, 15, 15, 15, 15, 15, 15, 15, 15], 120),
    (1, &[121], 0),
    (1, &[121, 121], 0),
    (1, &[121, 122], 0),
    (1, &[1, 121], 0),
    (1, &[120, 121], 0),
    (8, &[1, 16, 15, 15, 15, 15, 15, 15, 15], 0),
    // sums that come round to 0 in eight bits; 2,040
    (2, &[1, 128, 128], 0),
    (8, &[1, 32, 32, 32, 32, 32, 32, 32, 32], 0),
    (8, &[0, 255, 255, 255, 255, 255, 255, 255, 255], 0),
    (8, &[1, 255, 255, 255, 255, 255, 255, 255, 255], 0),
    (8, &[255, 255, 255, 255, 255, 255, 255, 255, 255], 0),
];

fn cases(seen: &mut Seen, rng: &mut Rng) {
    for (k, given, b0) in CASES {
        let mut run = Run::new(rng, 1);
        expect(run.make(seen, &mut Open { k }), 0, "Open");
        let refused = if b0 == 0 { 3 } else { 0 };
        let what = format!("Minima {given:?}, k = {k}");
        expect(run.make(seen, &mut Minima::of(rng, given)), refused, &what);
        demand(run.book.b0() == b0.max(1), || format!("{what} leaves {}", run.book.b0()));
    }
}

/// Block, Tariff, Judge and Write after a raised record, beside the same record
/// written out. A record and a file with such a b0 are refused.
fn below_the_sum(seen: &mut Seen, rng: &mut Rng) {
    let mut run = run_of(seen, rng, &known_study());
    for (short, whole) in [([1, 1, 1], [2, 1, 1]), ([2, 1, 2], [3, 1, 2]), ([1, 2, 3], [5, 2, 3])] {
        let mut runs = [run.clone(), run.clone()];
        for (one, given) in runs.iter_mut().zip([short, whole]) {
            expect(one.make(seen, &mut Minima::of(rng, &given)), 0, "Minima");
        }
        for kind in [&block::KIND, &tariff::KIND, &judge::KIND, &write::KIND] {
            let mut call = (kind.known)(rng);
            let mut other = call.copied();
            let answer = runs[0].make(seen, &mut *call);
            expect(runs[1].make(seen, &mut *other), answer, "the record written out");
            let same = call.places().iter().zip(other.places()).all(|(a, b)| a.lent.same(&*b.lent));
            demand(same, || format!("{} after Minima {short:?} and {whole:?}", kind.name));
        }
    }
    for kind in CALLS.iter().filter(|kind| kind.uses == Uses::Looks) {
        let mut book = run.book.clone();
        book.record.places[2] = 1;
        let what = format!("{} with b0 = 1", kind.name);
        expect(seen.call(&mut book, &mut *(kind.known)(rng)), 21, &what);
    }
    let below = file_of(&Study { b0: 1, ..known_study() });
    expect(run.make(seen, &mut Read::of(rng, &below)), 3, "a file with b0 = 1");
}

/// What makes each refusal hold of the known study, in the documents' order.
const FAULTS: &[Fault<Minima>] = &[
    (1, |r, book, _| book.shorten(r)),
    (1, |r, _, call| call.minima.len = r.below(9)),
    (21, |r, book, _| book.no_book(r)),
    (3, |_, _, call| call.minima.places[0] = 0),
    (3, |_, _, call| call.minima.places[1] = 121),
    (3, |_, _, call| call.minima.places[3] = 1),
];
