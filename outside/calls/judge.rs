//! Judge.

use crate::comparing::{demand, expect, Call, Kind, Seen, Uses};
use crate::lent::{place, Book, Lent, Place, Rng};
use crate::plain::looking;
use crate::random::some_study;
use crate::refusals::{at_once, Fault};
use crate::runs::{run_of, Run};
use crate::samples::known_study;

#[rustfmt::skip]
extern "C" {
    fn tides_judge(
        record: *const u16, record_len: usize,
        distances: *const u32, distances_len: usize,
        settings: *const u8, settings_len: usize,
        list: *const u8, list_len: usize,
        result: *mut u32, result_len: usize,
    ) -> u32;
}

#[derive(Clone)]
pub struct Judge {
    pub list: Lent<u8>,
    pub result: Lent<u32>,
}

const YES: &str = "yes";
const NO: &str = "no";

pub static KIND: Kind = Kind {
    name: "Judge",
    reasons: &[1, 21, 24, 12],
    uses: Uses::Looks,
    counted: &[YES, NO],
    often: |_, _| 16,
    propose,
    known: |rng| Box::new(Judge::of(rng, &[1; 5])),
    groups: &[("cases", cases), ("every list", |s, r| every_list(s, r, 60))],
    at_once: |s, r| at_once(s, r, |rng| Judge::of(rng, &[1; 5]), FAULTS),
};

impl Judge {
    pub fn of(rng: &mut Rng, list: &[u8]) -> Judge {
        Judge { list: Lent::exact(rng, list), result: Lent::room(rng, 2, 1) }
    }
}

/// A list: Block's own, renumbered, disturbed, or any.
fn propose(rng: &mut Rng, run: &Run) -> Box<dyn Call> {
    let n = run.n();
    if run.list.len() != n || rng.one_in(5) {
        let high = rng.within(1, 3);
        let list: Vec<u8> = (0..n).map(|_| rng.within(1, high) as u8).collect();
        return Box::new(Judge::of(rng, &list));
    }
    let mut list = run.list.clone();
    if rng.one_in(3) {
        let mut names: Vec<u8> = (1..=255).collect();
        rng.shuffle(&mut names);
        list = list.iter().map(|m| names[*m as usize - 1]).collect();
    }
    if n > 0 && rng.one_in(2) {
        let (i, j) = (rng.below(n), rng.below(n));
        match rng.below(4) {
            0 => list[i] = list[j],
            1 => list.swap(i, j),
            2 => list[i] = rng.pick(&[0, 1, 255]),
            _ => list.iter_mut().for_each(|m| *m = if *m == 2 { 1 } else { *m }),
        }
    }
    Box::new(Judge::of(rng, &list))
}

impl Call for Judge {
    fn kind(&self) -> &'static Kind {
        &KIND
    }

    #[rustfmt::skip]
    fn ask_library(&mut self, b: &mut Book) -> u32 {
        unsafe {
            tides_judge(
                b.record.ptr(), b.record.len, b.distances.ptr(), b.distances.len,
                b.settings.ptr(), b.settings.len, self.list.ptr(), self.list.len,
                self.result.ptr(), self.result.len,
            )
        }
    }

    fn ask_plain(&mut self, book: &mut Book) -> u32 {
        looking::judge(&book.memory(), self.list.part(), self.result.part())
    }

    fn places(&mut self) -> Vec<Place<'_>> {
        vec![
            Place { name: "list", short: 12, lent: &mut self.list },
            place("result", &mut self.result),
        ]
    }

    fn written(&self, _: &Book) -> Vec<usize> {
        vec![0, 2]
    }

    fn spoil(&mut self, rng: &mut Rng, _: &Book) {
        let list = &mut self.list;
        match rng.below(4) {
            0 => list.len += rng.within(1, 2).min(list.places.len() - list.len),
            1 => list.len -= rng.within(0, 2.min(list.len)),
            _ if list.len > 0 => list.places[rng.below(list.len)] = rng.pick(&[0, 1, 2, 255]),
            _ => list.len = 1,
        }
    }

    fn note(&self, _: &Book, _: &Book, answer: u32, seen: &mut Seen) -> Result<(), String> {
        if answer == 0 {
            seen.count(&KIND, if self.result.places[0] == 1 { YES } else { NO }, 1);
        }
        Ok(())
    }
}

/// Lists of the known study, b0 = 2 with one of each setting; the widest, or
/// nothing where the answer is no.
const CASES: [([u8; 5], Option<u32>); 13] = [
    ([1, 1, 1, 1, 1], Some(10)),
    ([1, 1, 2, 2, 2], Some(5)),
    // gaps in the numbers, and 255
    ([7, 7, 9, 9, 9], Some(5)),
    ([255, 255, 254, 254, 254], Some(5)),
    ([255, 255, 255, 255, 255], Some(10)),
    ([2, 2, 1, 1, 1], Some(5)),
    ([1, 2, 2, 2, 1], Some(10)),
    // 0 is no block number
    ([0, 0, 1, 1, 1], None),
    ([1, 1, 1, 1, 0], None),
    ([0, 0, 0, 0, 0], None),
    // under b0; without one of the settings
    ([1, 1, 1, 1, 2], None),
    ([1, 2, 2, 1, 1], None),
    ([1, 2, 255, 1, 2], None),
];

fn cases(seen: &mut Seen, rng: &mut Rng) {
    let mut run = run_of(seen, rng, &known_study());
    for (list, widest) in CASES {
        let mut judge = Judge::of(rng, &list);
        expect(run.make(seen, &mut judge), 0, "Judge");
        let expected = [widest.is_some() as u32, widest.unwrap_or(0)];
        let said = &judge.result.places[..2];
        demand(said == expected, || format!("Judge of {list:?}: {said:?}"));
    }
}

/// Every list of the numbers 0, 1, 2 and 255 for books of up to four tides.
fn every_list(seen: &mut Seen, rng: &mut Rng, runs: usize) {
    for turn in 0..runs {
        let n = 1 + turn % 4;
        let study = some_study(rng, n);
        let mut run = run_of(seen, rng, &study);
        for p in 0..4usize.pow(n as u32) {
            let list: Vec<u8> = (0..n).map(|t| [0, 1, 2, 255][p >> (2 * t) & 3]).collect();
            expect(run.make(seen, &mut Judge::of(rng, &list)), 0, "Judge");
        }
    }
}

/// What makes each refusal hold of the known study, in the documents' order.
const FAULTS: &[Fault<Judge>] = &[
    (1, |r, book, _| book.shorten(r)),
    (1, |r, _, call| call.result.len = r.below(2)),
    (21, |r, book, _| book.no_book(r)),
    (24, |_, book, _| book.hold(0)),
    (12, |r, _, call| call.list.len = r.pick(&[0, 4, 6])),
];
