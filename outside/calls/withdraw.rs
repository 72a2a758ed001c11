//! Withdraw.

use crate::comparing::{demand, expect, Call, Kind, Seen, Uses};
use crate::lent::{Book, Rng};
use crate::plain::{changing, Study, COUNTS, KEEPERS, RECORD};
use crate::random::wrong_number;
use crate::refusals::{at_once, every_number, Fault};
use crate::runs::{run_of, Run};
use crate::samples::{known_study, triangle};

#[rustfmt::skip]
extern "C" {
    fn tides_withdraw(
        record: *mut u16, record_len: usize,
        distances: *mut u32, distances_len: usize,
        settings: *mut u8, settings_len: usize,
        keeper: u32,
        tide: u32,
    ) -> u32;
}

#[derive(Clone)]
pub struct Withdraw {
    pub keeper: u32,
    pub tide: u32,
}

const BY: [&str; KEEPERS] = ["by keeper 1", "by keeper 2", "by keeper 3", "by keeper 4"];
const STOPPED: &str = "stopped at the limit while another keeper could go on";

pub static KIND: Kind = Kind {
    name: "Withdraw",
    reasons: &[1, 14, 21, 23, 26],
    uses: Uses::Looks,
    counted: &[BY[0], BY[1], BY[2], BY[3], STOPPED],
    often: |_, _| 16,
    propose: |rng, run| Box::new(Withdraw::any(rng, run.n())),
    known: |_| Box::new(Withdraw { keeper: 4, tide: 5 }),
    groups: &[
        ("keepers", keepers),
        ("places", places),
        ("every tide", |s, r| every_number(s, r, 5, 23, |_, tide| Withdraw { keeper: 4, tide })),
        ("every keeper", |s, r| {
            every_number(s, r, 4, 14, |_, keeper| Withdraw { keeper, tide: 5 })
        }),
    ],
    at_once: |s, r| at_once(s, r, |_| Withdraw { keeper: 4, tide: 5 }, FAULTS),
};

impl Withdraw {
    /// One of n tides by any keeper.
    pub fn any(rng: &mut Rng, n: usize) -> Withdraw {
        Withdraw { keeper: rng.within(1, KEEPERS) as u32, tide: rng.within(1, n.max(1)) as u32 }
    }
}

impl Call for Withdraw {
    fn kind(&self) -> &'static Kind {
        &KIND
    }

    #[rustfmt::skip]
    fn ask_library(&mut self, b: &mut Book) -> u32 {
        unsafe {
            tides_withdraw(
                b.record.ptr(), b.record.len, b.distances.ptr(), b.distances.len,
                b.settings.ptr(), b.settings.len, self.keeper, self.tide,
            )
        }
    }

    fn ask_plain(&mut self, book: &mut Book) -> u32 {
        changing::withdraw(&mut book.memory(), self.keeper, self.tide)
    }

    fn say(&self) -> String {
        format!("keeper {}, tide {}", self.keeper, self.tide)
    }

    fn spoil(&mut self, rng: &mut Rng, book: &Book) {
        match rng.one_in(2) {
            true => self.keeper = wrong_number(rng, self.keeper, KEEPERS),
            false => self.tide = wrong_number(rng, self.tide, book.n()),
        }
    }

    fn note(&self, _: &Book, after: &Book, answer: u32, seen: &mut Seen) -> Result<(), String> {
        match answer {
            0 => seen.count(&KIND, BY[self.keeper as usize - 1], 1),
            26 => {
                let others = after.counts().iter().any(|x| *x < 65_535);
                seen.count(&KIND, STOPPED, others as usize);
            }
            _ => {}
        }
        Ok(())
    }

    fn remember(&self, run: &mut Run) {
        if self.tide as usize <= run.held.len() {
            run.held.remove(self.tide as usize - 1);
        }
    }
}

/// Document 02, 2.7: each keeper's count goes up alone; one at 65,535 is stopped
/// while the others go on; 0, 5 and 255 are no keepers.
fn keepers(seen: &mut Seen, rng: &mut Rng) {
    for counts in [
        [10, 20, 30, 40],
        [1, 65_534, 65_535, 0],
        [65_535, 0, 0, 0],
        [65_535, 65_535, 65_534, 65_535],
        [65_535; 4],
    ] {
        let run = run_of(seen, rng, &Study { withdrawals: counts, ..known_study() });
        for keeper in [1, 2, 3, 4, 0, 5, 255] {
            for tide in 0..=6 {
                let mut expected = (counts, 0);
                match expected.0.get_mut((keeper as usize).wrapping_sub(1)) {
                    None => expected.1 = 14,
                    Some(_) if !(1..=5).contains(&tide) => expected.1 = 23,
                    Some(65_535) => expected.1 = 26,
                    Some(count) => *count += 1,
                }
                let mut book = run.book.clone();
                let what = format!("tide {tide} withdrawn by {keeper} with counts {counts:?}");
                let answer = seen.call(&mut book, &mut Withdraw { keeper, tide });
                expect(answer, expected.1, &what);
                let left = book.counts();
                demand(left == expected.0, || format!("{what} leaves {left:?}"));
            }
        }
    }
}

/// Of the triangle without its first tide the other two stand in the first places,
/// and where the third was there is nothing.
fn places(seen: &mut Seen, rng: &mut Rng) {
    let run = run_of(seen, rng, &triangle());
    for (keeper, answer, first, corner, settings) in
        [(2, 0, 4, [0, 0, 0], [2, 2, 0]), (5, 14, 3, [1, 4, 0], [1, 2, 2])]
    {
        let mut book = run.book.clone();
        expect(seen.call(&mut book, &mut Withdraw { keeper, tide: 1 }), answer, "tide 1 of 3");
        let right = book.distance(0, 1) == first
            && book.distance(1, 0) == first
            && (0..3).all(|i| book.distance(i, 2) == corner[i] && book.distance(2, i) == corner[i])
            && book.settings.places[..3] == settings;
        demand(right, || format!("the places after tide 1 of 3 was withdrawn by {keeper}"));
    }
}

/// What makes each refusal hold of the known study, in the documents' order.
const FAULTS: &[Fault<Withdraw>] = &[
    (1, |r, book, _| book.shorten(r)),
    (14, |r, _, call| call.keeper = r.pick(&[0, 5, 255, 260])),
    (21, |r, book, _| book.no_book(r)),
    (23, |r, _, call| call.tide = r.pick(&[0, 6, 255, 261])),
    (26, |_, book, _| book.record.places[COUNTS..RECORD].fill(65_535)),
];
