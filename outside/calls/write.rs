//! Write.

use crate::comparing::{demand, expect, Call, Kind, Seen, Uses};
use crate::lent::{place, Book, Lent, Place, Rng};
use crate::plain::files::{self, byte_length, MARK};
use crate::refusals::{at_once, Fault};
use crate::runs::{run_of, Run};
use crate::samples::{full_study, line};

#[rustfmt::skip]
extern "C" {
    fn tides_write(
        record: *const u16, record_len: usize,
        distances: *const u32, distances_len: usize,
        settings: *const u8, settings_len: usize,
        file: *mut u8, file_len: usize,
        result: *mut u32, result_len: usize,
    ) -> u32;
}

#[derive(Clone)]
pub struct Write {
    pub file: Lent<u8>,
    pub result: Lent<u32>,
}

pub static KIND: Kind = Kind {
    name: "Write",
    reasons: &[1, 21],
    uses: Uses::Looks,
    counted: &[],
    often: |_, _| 8,
    propose: |rng, run| Box::new(Write::of(rng, run.k(), run.n())),
    known: |rng| Box::new(Write::of(rng, 2, 5)),
    groups: &[("the empty book", empty_book), ("room", room)],
    at_once: |s, r| at_once(s, r, |rng| Write::of(rng, 2, 5), FAULTS),
};

impl Write {
    pub fn of(rng: &mut Rng, k: usize, n: usize) -> Write {
        Write { file: Lent::room(rng, byte_length(MARK, k, n), 5), result: Lent::room(rng, 1, 1) }
    }

    /// The file of a run's book.
    pub fn bytes(seen: &mut Seen, rng: &mut Rng, run: &mut Run) -> Vec<u8> {
        let mut write = Write::of(rng, run.k(), run.n());
        expect(run.make(seen, &mut write), 0, "Write");
        write.written().to_vec()
    }

    fn written(&self) -> &[u8] {
        &self.file.places[..self.result.places[0] as usize]
    }
}

impl Call for Write {
    fn kind(&self) -> &'static Kind {
        &KIND
    }

    #[rustfmt::skip]
    fn ask_library(&mut self, b: &mut Book) -> u32 {
        unsafe {
            tides_write(
                b.record.ptr(), b.record.len, b.distances.ptr(), b.distances.len,
                b.settings.ptr(), b.settings.len, self.file.ptr(), self.file.len,
                self.result.ptr(), self.result.len,
            )
        }
    }

    fn ask_plain(&mut self, book: &mut Book) -> u32 {
        files::write(&book.memory(), self.file.part(), self.result.part())
    }

    fn places(&mut self) -> Vec<Place<'_>> {
        vec![place("file", &mut self.file), place("result", &mut self.result)]
    }

    fn written(&self, _: &Book) -> Vec<usize> {
        vec![self.result.places[0] as usize, 1]
    }

    fn remember(&self, run: &mut Run) {
        run.files.push((self.written().to_vec(), run.held.clone()));
    }
}

/// Case 8 of document 01, as document 02, 2.7 has it.
fn empty_book(seen: &mut Seen, rng: &mut Rng) {
    let mut run = line(seen, rng, &[], &[], 1);
    let bytes = Write::bytes(seen, rng, &mut run);
    let expected = [0x55, 0x00, 0x20, 0x40, 0, 0, 0, 0, 0, 0, 0, 0, 0];
    demand(bytes == expected, || format!("the empty book's file is {bytes:02x?}"));
}

/// The greatest file in a byte too few, in its own length and in more.
fn room(seen: &mut Seen, rng: &mut Rng) {
    let mut run = run_of(seen, rng, &full_study());
    for (len, expected) in [(17_913, 1), (17_914, 0), (17_916, 0)] {
        let mut write = Write { file: Lent::room(rng, len, 0), result: Lent::room(rng, 1, 0) };
        expect(run.make(seen, &mut write), expected, &format!("Write in {len} bytes"));
        let length = write.result.places[0];
        demand(expected != 0 || length == 17_914, || format!("length {length} of 120 tides"));
    }
}

/// What makes each refusal hold of the known study, in the documents' order.
const FAULTS: &[Fault<Write>] = &[
    (1, |r, book, _| book.shorten(r)),
    (1, |_, _, call| call.result.len = 0),
    (21, |r, book, _| book.no_book(r)),
    (1, |r, _, call| call.file.len = r.below(call.file.need)),
];
