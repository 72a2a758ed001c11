//! Books of 120 tides, and nearly so.

use crate::calls::enter::Enter;
use crate::calls::withdraw::Withdraw;
use crate::calls::{
    block, centres, enter, judge, merge, minima, open, read, tariff, withdraw, write,
};
use crate::comparing::{expect, Group, Kind, Seen, Uses};
use crate::lent::{Book, Lent, Rng};
use crate::plain::files::file_of;
use crate::plain::{FAR, KEEPERS, ROW, TIDES};
use crate::random::some_study;
use crate::runs::{any_of, Run};

pub const GROUPS: &[Group] = &[("to 120 tides", |seen, rng| {
    for turn in 0..12 {
        let mut run = large_run(seen, rng, turn);
        for kind in CALLS {
            let mut call = (kind.propose)(rng, &run);
            run.make(seen, &mut *call);
        }
        for _ in 0..10 {
            run.bad_step(seen, rng, 120, [1, 0, 0]);
        }
        for _ in 0..10 {
            run.bad_step(seen, rng, 120, [1, 1, 1]);
        }
        last_tide(seen, rng, &run);
        high_pairs(seen, rng, &run);
        full_first(seen, rng, &run);
    }
})];

const CALLS: [&Kind; 19] = [
    &block::KIND,
    &tariff::KIND,
    &judge::KIND,
    &judge::KIND,
    &centres::KIND,
    &centres::KIND,
    &write::KIND,
    &enter::KIND,
    &withdraw::KIND,
    &enter::KIND,
    &minima::KIND,
    &block::KIND,
    &tariff::KIND,
    &judge::KIND,
    &merge::KIND,
    &withdraw::KIND,
    &read::KIND,
    &enter::KIND,
    &merge::KIND,
];

/// 120 tides entered one by one, or 100 to 120 by file.
fn large_run(seen: &mut Seen, rng: &mut Rng, turn: usize) -> Run {
    let mut run = Run::new(rng, 120);
    if turn == 0 {
        let mut call = (open::KIND.propose)(rng, &run);
        expect(run.make(seen, &mut *call), 0, "Open");
        for point in 0..TIDES {
            let row = run.row(rng, point);
            let setting = rng.within(1, run.k()) as u32;
            run.make(seen, &mut Enter { setting, row: Lent::exact(rng, &row), point });
        }
        return run;
    }
    let n = if turn % 3 == 2 { rng.within(100, 119) } else { 120 };
    let mut study = some_study(rng, n);
    if turn % 4 == 1 {
        study.withdrawals = [65_535; KEEPERS];
    }
    run.metric = study.distances.clone();
    run.files = vec![(file_of(&study), (0..n).collect())];
    let mut call = (read::KIND.propose)(rng, &run);
    expect(run.make(seen, &mut *call), 0, "a large file is read");
    run
}

/// The last tide's places: one side only, the diagonal, both sides, its setting.
fn last_tide(seen: &mut Seen, rng: &mut Rng, run: &Run) {
    let last = run.n() - 1;
    for turn in 0..8 {
        let mut book = run.book.clone();
        let other = rng.below(last);
        let d = book.distance(last, other);
        match turn {
            0 => book.distances.places[ROW * last + other] += 1,
            1 => book.distances.places[ROW * other + last] += 1,
            2 => book.set_distance(last, last, 1),
            3 => book.set_distance(last, other, FAR + 1),
            4 => book.set_distance(last, other, 2 * d + 1),
            5 => book.settings.places[last] = 0,
            6 => book.settings.places[last] = run.k() as u8 + 1,
            _ => book.record.places[1] = last as u16,
        }
        let kind = any_of(rng, |kind| kind.uses == Uses::Looks);
        seen.call(&mut book, &mut *(kind.propose)(rng, run));
    }
}

/// Pairs with high numbers: a row that breaks the rule at one or two places.
fn high_pairs(seen: &mut Seen, rng: &mut Rng, run: &Run) {
    let mut run = run.clone();
    if run.n() == TIDES {
        run.make(seen, &mut Withdraw::any(rng, TIDES));
    }
    for _ in 0..8 {
        let n = run.n();
        let mut row = run.row(rng, 0);
        for at in [rng.pick(&[0, n / 2, n - 2, n - 1]), rng.below(n)] {
            row[at] = rng.pick(&[0, row[at], row[at] + 1, FAR, FAR]);
        }
        seen.call(&mut run.book.clone(), &mut Enter::of(rng, 1, &row));
    }
}

/// 22 before all that is wrong with the tide.
fn full_first(seen: &mut Seen, rng: &mut Rng, run: &Run) {
    for setting in [0, 1, 9] {
        for len in [0, 1, 119, 120, 121] {
            let row = vec![rng.pick(&[0, 7, FAR, FAR + 1]); len];
            let mut book: Book = run.book.clone();
            let answer = seen.call(&mut book, &mut Enter::of(rng, setting, &row));
            if run.n() == TIDES {
                expect(answer, 22, "Enter into a full book");
            }
        }
    }
}
