//! Open.

use crate::comparing::{demand, expect, Call, Kind, Seen, Uses};
use crate::lent::{Book, Rng};
use crate::plain::{changing, Study};
use crate::random::wrong_number;
use crate::refusals::{at_once, every_number, Fault};
use crate::runs::Run;

#[rustfmt::skip]
extern "C" {
    fn tides_open(
        record: *mut u16, record_len: usize,
        distances: *mut u32, distances_len: usize,
        settings: *mut u8, settings_len: usize,
        k: u32,
    ) -> u32;
}

#[derive(Clone)]
pub struct Open {
    pub k: u32,
}

pub static KIND: Kind = Kind {
    name: "Open",
    reasons: &[1, 2],
    uses: Uses::Replaces,
    counted: &[],
    often: |_, _| 1,
    propose: |rng, _| Box::new(Open { k: rng.within(1, 8) as u32 }),
    known: |_| Box::new(Open { k: 8 }),
    groups: &[
        ("every k", |s, r| every_number(s, r, 8, 2, |_, k| Open { k })),
        ("old contents", old_contents),
    ],
    at_once: |s, r| at_once(s, r, |_| Open { k: 2 }, FAULTS),
};

impl Call for Open {
    fn kind(&self) -> &'static Kind {
        &KIND
    }

    #[rustfmt::skip]
    fn ask_library(&mut self, b: &mut Book) -> u32 {
        unsafe {
            tides_open(
                b.record.ptr(), b.record.len, b.distances.ptr(), b.distances.len,
                b.settings.ptr(), b.settings.len, self.k,
            )
        }
    }

    fn ask_plain(&mut self, book: &mut Book) -> u32 {
        changing::open(&mut book.memory(), self.k)
    }

    fn say(&self) -> String {
        format!("k {}", self.k)
    }

    fn spoil(&mut self, rng: &mut Rng, _: &Book) {
        self.k = wrong_number(rng, self.k, 8);
    }

    fn remember(&self, run: &mut Run) {
        run.held.clear();
    }
}

/// Over junk, each k gives the empty book, and a wrong one leaves the junk.
fn old_contents(seen: &mut Seen, rng: &mut Rng) {
    for k in 1..=8 {
        let mut book = Book::junk(rng);
        expect(seen.call(&mut book, &mut Open { k }), 0, "Open of junk");
        demand(book.study() == Some(Study::empty(k as usize)), || format!("Open with k = {k}"));
    }
    for k in [0, 9, 255, 256, 257] {
        let mut book = Book::junk(rng);
        let junk = book.distances.places.clone();
        expect(seen.call(&mut book, &mut Open { k }), 2, "Open of junk");
        demand(book.distances.places == junk, || format!("Open with k = {k} wrote something"));
    }
}

/// What makes each refusal hold of the known study, in the documents' order.
const FAULTS: &[Fault<Open>] =
    &[(1, |r, book, _| book.shorten(r)), (2, |r, _, open| open.k = r.pick(&[0, 9, 257]))];
