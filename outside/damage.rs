//! Record and memory that are no book (21): random damage, every place in
//! turn, and each kind of wrong place.

use crate::calls::CALLS;
use crate::comparing::{demand, expect, Call, Group, Kind, Seen, Uses};
use crate::lent::{Book, Number, Rng};
use crate::plain::{Study, FAR, KEEPERS, PLACES, RECORD, ROW, TIDES};
use crate::random::some_study;
use crate::runs::{run_of, Run};
use crate::samples::{full_study, known_study, triangle};

pub const GROUPS: &[Group] = &[
    ("every place", |s, r| every_place(s, r, &known_study(), 1)),
    ("places of 120 tides", |s, r| {
        every_place(s, r, &Study { b0: 1, b: [0; 8], ..full_study() }, 29)
    }),
    ("places of any book", |s, r| {
        for n in 0..8 {
            let study = some_study(r, n);
            every_place(s, r, &study, 53);
        }
    }),
    ("kinds of wrong place", kinds),
];

/// Changes record or memory in one way; the places past the book's count too.
pub fn spoil_book(rng: &mut Rng, book: &mut Book) {
    match rng.below(18) {
        0..=8 => spoil_record(rng, book),
        9..=13 => spoil_distances(rng, book),
        14..=16 => spoil_settings(rng, book),
        _ => spoil_spare(rng, book),
    }
}

fn spoil_record(rng: &mut Rng, book: &mut Book) {
    let record = &mut book.record.places;
    let i = rng.below(RECORD);
    match rng.below(9) {
        0 => record[i] = rng.pick(&[0, 1, 2, 8, 9, 119, 120, 121, 255, 256, 257, 65_535]),
        1 => record[i] ^= 1 << rng.below(16),
        // the same low byte
        2 => record[i] = record[i].wrapping_add(256 * rng.within(1, 255) as u16),
        // k and n
        3 => record[0] = record[0].wrapping_add(rng.pick(&[1, 65_535])),
        4 => record[1] = record[1].wrapping_add(rng.pick(&[1, 65_535])),
        5 => record[2] = rng.pick(&[0, 1, 2, 120, 121]),
        // minima whose sum comes round to 0 in 16 bits, or in 8
        6 => {
            let half = rng.pick(&[32_768, 128]);
            record[3] = half;
            record[3 + rng.below(8)] = half;
        }
        7 => record[3 + rng.below(8)] = rng.within(0, 3) as u16,
        _ => record[11 + rng.below(KEEPERS)] = rng.pick(&[0, 65_534, 65_535]),
    }
}

fn spoil_distances(rng: &mut Rng, book: &mut Book) {
    let n = book.n().min(TIDES);
    let i = rng.below(TIDES);
    match rng.below(5) {
        0 => book.distances.places[rng.below(PLACES)] ^= 1 << rng.below(32),
        1 | 2 if n > 1 => {
            let (i, j) = (rng.below(n), rng.below(n));
            let old = book.distance(i, j);
            let near = rng.pick(&[0, 1, old + 1, old.saturating_sub(1), 2 * old + 1]);
            let new = rng.pick(&[near, near, FAR, FAR + 1, u32::MAX]);
            match rng.one_in(3) {
                true => book.distances.places[ROW * i + j] = new,
                false => book.set_distance(i, j, new),
            }
        }
        // just past the tides held
        3 if n < TIDES => {
            let i = rng.below(n + 1);
            match rng.one_in(2) {
                true => book.distances.places[ROW * i + n] = 1,
                false => book.set_distance(i, n, 1),
            }
        }
        // from a tide to itself
        _ => book.distances.places[(ROW + 1) * i] = rng.pick(&[1, FAR]),
    }
}

fn spoil_settings(rng: &mut Rng, book: &mut Book) {
    let (n, k) = (book.n().min(TIDES), book.k() as u8);
    let settings = &mut book.settings.places;
    let more = k.wrapping_add(1);
    match rng.below(3) {
        0 if n > 0 => settings[rng.below(n)] = rng.pick(&[0, 1, k, more, 9]),
        1 if n < TIDES => settings[rng.pick(&[n, TIDES - 1])] = 1,
        _ => settings[rng.below(TIDES)] = rng.pick(&[0, 1, k, more, 8, 9, 255]),
    }
}

/// What is past the book's places doesn't matter.
fn spoil_spare(rng: &mut Rng, book: &mut Book) {
    book.record.places[RECORD..].fill_with(|| u16::junk(rng));
    book.distances.places[PLACES..].fill_with(|| u32::junk(rng));
    book.settings.places[TIDES..].fill_with(|| u8::junk(rng));
}

/// The calls that look at a book, one after the other.
struct Turns(usize);

impl Turns {
    fn next(&mut self, rng: &mut Rng, run: &Run) -> Box<dyn Call> {
        let looks: Vec<&Kind> =
            CALLS.iter().filter(|kind| kind.uses == Uses::Looks).copied().collect();
        self.0 += 1;
        (looks[self.0 % looks.len()].propose)(rng, run)
    }
}

/// Makes place i of the memory wrong, distances first.
pub fn wrong_place(rng: &mut Rng, book: &mut Book, i: usize) {
    if i < PLACES {
        let more = rng.pick(&[1, 2, FAR, 1 << 20, 1 << 31]);
        book.distances.places[i] = book.distances.places[i].wrapping_add(more);
    } else {
        let s = &mut book.settings.places[i - PLACES];
        *s = if *s == 0 { rng.pick(&[1, 2, 255]) } else { rng.pick(&[0, 9, 16, 255]) };
    }
}

/// Every place of the memory, or one in so many, and every number of the
/// record wrong in turn; and distances changed both ways.
fn every_place(seen: &mut Seen, rng: &mut Rng, study: &Study, one_in: usize) {
    let run = run_of(seen, rng, study);
    let turns = &mut Turns(0);
    let start = rng.below(one_in);
    for i in (start..PLACES + TIDES).step_by(one_in) {
        let mut book = run.book.clone();
        wrong_place(rng, &mut book, i);
        let mut call = turns.next(rng, &run);
        expect(seen.call(&mut book, &mut *call), 21, "one place of the memory changed");
    }
    let values = (0..=300).chain([511, 512, 32_768, 65_279, 65_534, 65_535]);
    for (value, i) in values.flat_map(|value| (0..RECORD).map(move |i| (value, i))) {
        if one_in == 1 || rng.one_in(13) {
            let mut book = run.book.clone();
            book.record.places[i] = value;
            seen.call(&mut book, &mut *turns.next(rng, &run));
        }
    }
    let n = study.n();
    for p in (0..n * n).step_by(one_in) {
        for d in (0..=25).chain([FAR - 1, FAR, FAR + 1, u32::MAX]) {
            if one_in == 1 || rng.one_in(10) {
                let mut book = run.book.clone();
                book.set_distance(p / n, p % n, d);
                seen.call(&mut book, &mut *turns.next(rng, &run));
            }
        }
    }
}

/// Changes of the triangle's book, and whether it is still a book: one wrong place of
/// each kind, and next to it one that is right.
pub const CHANGES: [(bool, fn(&mut Book)); 28] = [
    (true, |_| {}),
    // k 0, below a setting held, 9, and the same low byte
    (false, |b| b.record.places[0] = 0),
    (false, |b| b.record.places[0] = 1),
    (true, |b| b.record.places[0] = 8),
    (false, |b| b.record.places[0] = 9),
    (false, |b| b.record.places[0] += 256),
    // n one less and one more, 121, and the same low byte
    (false, |b| b.record.places[1] = 2),
    (false, |b| b.record.places[1] = 4),
    (false, |b| b.record.places[1] = 121),
    (false, |b| b.record.places[1] += 256),
    // b0 0 and 121; the b's at b0 and above it; a b above k
    (false, |b| b.record.places[2] = 0),
    (false, |b| b.record.places[2] = 121),
    (true, |b| b.record.places[2..4].copy_from_slice(&[2, 2])),
    (false, |b| b.record.places[3] = 2),
    (false, |b| b.record.places[5] = 1),
    // a setting 0 and above k; beyond the tides held; past the memory
    (false, |b| b.settings.places[0] = 0),
    (false, |b| b.settings.places[2] = 3),
    (false, |b| b.settings.places[3] = 1),
    (false, |b| b.settings.places[119] = 1),
    (true, |b| b.settings.places[120] ^= 1),
    // not 0 from itself; one way only; too far; beyond the tides held; past the memory
    (false, |b| b.set_distance(0, 0, 1)),
    (false, |b| b.distances.places[1] = 4),
    (false, |b| b.set_distance(0, 1, FAR + 1)),
    (false, |b| b.set_distance(0, 3, 1)),
    (false, |b| b.set_distance(119, 119, 1)),
    (true, |b| b.distances.places[PLACES] ^= 1),
    // as far as the other two together, and farther
    (true, |b| b.set_distance(0, 1, 5)),
    (false, |b| b.set_distance(0, 1, 6)),
];

/// Each change through every call that looks at a book.
fn kinds(seen: &mut Seen, rng: &mut Rng) {
    let run = run_of(seen, rng, &triangle());
    for (i, (is_book, change)) in CHANGES.into_iter().enumerate() {
        let mut book = run.book.clone();
        change(&mut book);
        for kind in CALLS.iter().filter(|kind| kind.uses == Uses::Looks) {
            let mut call = (kind.propose)(rng, &run);
            let answer = seen.call(&mut book.clone(), &mut *call);
            demand((answer != 21) == is_book, || {
                format!("{} of a book with change {i}: {answer}", kind.name)
            });
        }
    }
}
