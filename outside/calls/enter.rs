//! Enter.

use crate::calls::block::Block;
use crate::calls::minima::Minima;
use crate::calls::withdraw::Withdraw;
use crate::comparing::{demand, expect, Call, Kind, Seen, Uses};
use crate::lent::{Book, Lent, Place, Rng};
use crate::plain::{changing, seven, FAR, TIDES};
use crate::random::wrong_number;
use crate::refusals::{at_once, every_number, Fault};
use crate::runs::Run;
use crate::samples::{line, KNOWN_ROW};

#[rustfmt::skip]
extern "C" {
    fn tides_enter(
        record: *mut u16, record_len: usize,
        distances: *mut u32, distances_len: usize,
        settings: *mut u8, settings_len: usize,
        setting: u32,
        row: *const u32, row_len: usize,
    ) -> u32;
}

#[derive(Clone)]
pub struct Enter {
    pub setting: u32,
    pub row: Lent<u32>,
    pub point: usize, // of the run, that the tide stands for
}

const IN_TWINS: &str = "tides entered in a book that holds a twin";
const OTHERS: &str = "tides entered at 0 from tides of other settings alone";

pub static KIND: Kind = Kind {
    name: "Enter",
    reasons: &[1, 21, 22, 4, 5, 6, 7, 15],
    uses: Uses::Looks,
    counted: &[IN_TWINS, OTHERS],
    often: |held, target| match held {
        _ if held >= target => 0,
        _ if 2 * held < target => 96,
        _ => 40,
    },
    propose,
    known: |rng| Box::new(Enter::of(rng, 1, &KNOWN_ROW)),
    groups: &[
        ("case 7, pairs", pairs),
        ("twins", twins),
        ("case 9", case_9),
        ("every setting", |s, r| every_number(s, r, 2, 5, |rng, x| Enter::of(rng, x, &KNOWN_ROW))),
    ],
    at_once: |s, r| at_once(s, r, |rng| Enter::of(rng, 1, &KNOWN_ROW), FAULTS),
};

impl Enter {
    pub fn of(rng: &mut Rng, setting: u32, row: &[u32]) -> Enter {
        Enter { setting, row: Lent::exact(rng, row), point: 0 }
    }
}

fn propose(rng: &mut Rng, run: &Run) -> Box<dyn Call> {
    let point = rng.below(run.metric.len());
    let row = run.row(rng, point);
    let setting = if rng.one_in(3) { 1 } else { rng.within(1, run.k()) };
    Box::new(Enter { point, ..Enter::of(rng, setting as u32, &row) })
}

impl Call for Enter {
    fn kind(&self) -> &'static Kind {
        &KIND
    }

    #[rustfmt::skip]
    fn ask_library(&mut self, b: &mut Book) -> u32 {
        unsafe {
            tides_enter(
                b.record.ptr(), b.record.len, b.distances.ptr(), b.distances.len,
                b.settings.ptr(), b.settings.len, self.setting, self.row.ptr(), self.row.len,
            )
        }
    }

    fn ask_plain(&mut self, book: &mut Book) -> u32 {
        changing::enter(&mut book.memory(), self.setting, self.row.part())
    }

    fn places(&mut self) -> Vec<Place<'_>> {
        vec![Place { name: "row", short: 4, lent: &mut self.row }]
    }

    fn say(&self) -> String {
        format!("setting {}", self.setting)
    }

    fn spoil(&mut self, rng: &mut Rng, book: &Book) {
        let row = &mut self.row;
        match rng.below(8) {
            1 => row.len += rng.within(1, 2).min(row.places.len() - row.len),
            2 => row.len -= rng.within(0, 2.min(row.len)),
            3 if row.len > 0 => {
                row.places[rng.below(row.len)] = rng.pick(&[FAR, FAR + 1, 1 << 31, u32::MAX]);
            }
            4.. if row.len > 0 => {
                let d = &mut row.places[rng.below(row.len)];
                let more = 2 * (*d % (1 << 20)) + 1;
                let any = rng.within(0, 10) as u32;
                *d = rng.pick(&[0, d.wrapping_add(1), d.saturating_sub(1), more, any]);
            }
            _ => self.setting = wrong_number(rng, self.setting, book.k().clamp(1, 8)),
        }
    }

    fn note(&self, before: &Book, _: &Book, answer: u32, seen: &mut Seen) -> Result<(), String> {
        if answer == 0 {
            let others = self.row.places[..self.row.len].contains(&0);
            seen.count(&KIND, IN_TWINS, before.has_twin() as usize);
            seen.count(&KIND, OTHERS, others as usize);
        }
        Ok(())
    }

    fn remember(&self, run: &mut Run) {
        run.held.push(self.point);
    }
}

/// Case 7 of document 01, and the first of several pairs that break the rule.
fn pairs(seen: &mut Seen, rng: &mut Rng) {
    // the tides held, each at its row from those before it; the next row; the answer
    let triangle: &[&[u32]] = &[&[], &[3], &[1, 4]];
    let four: &[&[u32]] = &[&[], &[3], &[1, 4], &[10, 10, 10]];
    let cases: [(&[&[u32]], &[u32], u32); 8] = [
        (&[&[], &[3]], &[1, 2], 0),
        (&[&[], &[3]], &[1, 4], 0),
        (&[&[], &[3]], &[1, 1], seven((1, 2))),
        (&[&[], &[3]], &[1, 5], seven((1, 2))),
        // with 1 and 3, and 2 and 3
        (triangle, &[5, 2, 9], seven((1, 3))),
        // with 2 and 3 alone
        (triangle, &[3, 1, 2], seven((2, 3))),
        // with 1 and 4, and 2 and 3: in order of the first number
        (four, &[3, 1, 2, 0], seven((1, 4))),
        // with 3 and 4 alone
        (four, &[9, 9, 8, 1], seven((3, 4))),
    ];
    for (held, row, answer) in cases {
        let mut run = line(seen, rng, &[], &[], 1);
        for held in held {
            expect(run.make(seen, &mut Enter::of(rng, 1, held)), 0, "Enter");
        }
        let what = format!("Enter at {row:?}");
        expect(run.make(seen, &mut Enter::of(rng, 1, row)), answer, &what);
    }
}

/// Document 02, 2.8: cases with their numbers, each with its setting and its
/// row to tides of settings 1, 2, 1 and 3 at 0, 0, 4 and 9.
fn twins(seen: &mut Seen, rng: &mut Rng) {
    let held = |seen: &mut Seen, rng: &mut Rng| line(seen, rng, &[0, 0, 4, 9], &[1, 2, 1, 3], 4);
    for (setting, row, answer) in [
        // at 0 from two tides: of the first's setting, the second's, none's
        (1, [0, 0, 4, 9], 15),
        (2, [0, 0, 4, 9], 15),
        (3, [0, 0, 4, 9], 0),
        (4, [0, 0, 4, 9], 0),
        // at 0 from one, of its setting and of others
        (1, [4, 4, 0, 5], 15),
        (2, [4, 4, 0, 5], 0),
        (3, [9, 9, 5, 0], 15),
        (1, [9, 9, 5, 0], 0),
        // at 0 from none, and from one that breaks the rule: 7 comes first, and 6 before it
        (1, [1, 1, 3, 8], 0),
        (1, [0, 1, 4, 9], seven((1, 2))),
        (1, [0, 0, 5, 9], seven((1, 3))),
        (1, [0, 0, 4, FAR + 1], 6),
        (5, [0, 0, 4, 9], 5),
    ] {
        let mut run = held(seen, rng);
        let what = format!("Enter of setting {setting} at {row:?}");
        expect(run.make(seen, &mut Enter::of(rng, setting, &row)), answer, &what);
    }
    // once its twin is withdrawn, the same tide enters
    let mut run = held(seen, rng);
    expect(run.make(seen, &mut Withdraw { keeper: 1, tide: 1 }), 0, "Withdraw");
    for answer in [0, 15] {
        let row = &[0, 4, 9, 0][..run.n()];
        expect(run.make(seen, &mut Enter::of(rng, 1, row)), answer, "Enter after a withdrawal");
    }
}

/// Case 9 of document 01: tide 120 enters, another is refused, and enters after
/// a withdrawal. With b0 = 2 there are sixty pairs of neighbours before and after.
fn case_9(seen: &mut Seen, rng: &mut Rng) {
    let at: Vec<u32> = (0..=120).collect();
    let row = |from: usize, to: usize| -> Vec<u32> {
        at[from..to].iter().map(|x| x.abs_diff(at[to])).collect()
    };
    for (gone, keeper) in [(1, 1), (120, 4)] {
        let mut run = line(seen, rng, &at[..120], &[1; 120], 1);
        expect(run.make(seen, &mut Minima::of(rng, &[2])), 0, "Minima");
        expect(in_pairs(seen, rng, &mut run), 0, "case 9: Block of 120 tides");
        for (setting, row) in [(1, row(0, 120)), (9, vec![5])] {
            expect(run.make(seen, &mut Enter::of(rng, setting, &row)), 22, "case 9: tide 121");
        }
        expect(run.make(seen, &mut Withdraw { keeper, tide: gone }), 0, "case 9: Withdraw");
        let far = |run: &Run| (run.n(), run.book.distance(0, 118), run.book.distance(119, 0));
        demand(far(&run) == (119, 118, 0), || format!("case 9: without tide {gone}"));
        let row = if gone == 1 { row(1, 120) } else { row(0, 119) };
        expect(run.make(seen, &mut Enter::of(rng, 1, &row)), 0, "case 9: Enter again");
        demand(far(&run) == (120, 118, 119), || format!("case 9: tide {gone} again"));
        demand(run.book.counts()[keeper as usize - 1] == 1, || "case 9: its count".to_string());
        expect(in_pairs(seen, rng, &mut run), 0, "case 9: Block at the end");
    }
}

/// Block, which is to give sixty blocks with reach 1 and widest 1.
fn in_pairs(seen: &mut Seen, rng: &mut Rng, run: &mut Run) -> u32 {
    let mut block = Block::of(rng, TIDES);
    let answer = run.make(seen, &mut block);
    let result = &block.0.result.places[..3];
    demand(result == [60, 1, 1], || format!("case 9: {result:?}"));
    answer
}

/// What makes each refusal hold of the known study, in the documents' order.
const FAULTS: &[Fault<Enter>] = &[
    (1, |r, book, _| book.shorten(r)),
    (21, |r, book, _| book.no_book(r)),
    (22, |_, book, _| book.hold(TIDES)),
    (4, |r, _, call| call.row.len = r.pick(&[0, 4, 6])),
    (5, |r, _, call| call.setting = r.pick(&[0, 3, 258])),
    (6, |_, _, call| call.row.places[4] = FAR + 1),
    // tides 1 and 2 are at 3; 15 then has its tide 1 at 0
    (seven((1, 2)), |_, _, call| call.row.places[1] = 9),
    (15, |_, _, call| call.row.places[..5].copy_from_slice(&[0, 3, 5, 6, 10])),
];
