//! Runs of random calls on one book, sound and faulty.

use crate::calls::{open::Open, read::Read, CALLS};
use crate::comparing::{expect, Call, Group, Kind, Seen, Uses};
use crate::damage::spoil_book;
use crate::lent::{Book, Place, Rng};
use crate::plain::files::file_of;
use crate::plain::{Study, PLACES, RECORD, TIDES};
use crate::random::{metric, some_study, Metric};

/// A book with the points that its tides stand for.
#[derive(Clone)]
pub struct Run {
    pub book: Book,
    pub metric: Metric,
    pub held: Vec<usize>,
    pub files: Vec<(Vec<u8>, Vec<usize>)>, // files written so far and their points
    pub list: Vec<u8>,                     // the last list of Block
}

impl Run {
    /// Starts from junk, or now and then from zeros.
    pub fn new(rng: &mut Rng, points: usize) -> Run {
        let mut book = Book::junk(rng);
        if rng.one_in(10) {
            book.record.places[..RECORD].fill(0);
            book.distances.places[..PLACES].fill(0);
            book.settings.places[..TIDES].fill(0);
        }
        Run { book, metric: metric(rng, points), held: vec![], files: vec![], list: vec![] }
    }

    /// The number of tides, or what may pass for it in a damaged book.
    pub fn n(&self) -> usize {
        self.book.n().min(TIDES)
    }

    pub fn k(&self) -> usize {
        self.book.k().clamp(1, 8)
    }

    /// The distances from a point; of a book without known points, those of
    /// one of its tides and a little more, which keeps the three-tide rule too.
    pub fn row(&self, rng: &mut Rng, point: usize) -> Vec<u32> {
        let n = self.n();
        if self.held.len() == n {
            self.held.iter().map(|p| self.metric[*p][point]).collect()
        } else {
            let (like, more) = (rng.below(n.max(1)), rng.below(3) as u32);
            (0..n).map(|e| self.book.distance(like, e).saturating_add(more)).collect()
        }
    }

    /// Makes a call and keeps the notes of the run in step.
    pub fn make(&mut self, seen: &mut Seen, call: &mut dyn Call) -> u32 {
        let answer = seen.call(&mut self.book, call);
        if answer == 0 {
            call.remember(self);
        }
        answer
    }

    /// A call that would be accepted of a book.
    fn propose(&self, rng: &mut Rng, target: usize) -> Box<dyn Call> {
        let often = |kind: &Kind| (kind.often)(self.n(), target);
        let mut at = rng.below(CALLS.iter().map(|kind| often(kind)).sum());
        for kind in CALLS {
            if at < often(kind) {
                return (kind.propose)(rng, self);
            }
            at -= often(kind);
        }
        unreachable!()
    }

    /// One accepted or refused call of an undamaged run.
    pub fn step(&mut self, seen: &mut Seen, rng: &mut Rng, target: usize) {
        let mut call = self.propose(rng, target);
        self.make(seen, &mut *call);
    }

    /// A call with wrong arguments, memory or lengths; what was damaged is then restored.
    pub fn bad_step(&mut self, seen: &mut Seen, rng: &mut Rng, target: usize, faults: [usize; 3]) {
        let mut call = match rng.one_in(2) {
            true => self.propose(rng, target),
            false => (any_of(rng, |kind| kind.uses != Uses::NoBook).propose)(rng, self),
        };
        let before = self.clone();
        for _ in 0..faults[0] {
            call.spoil(rng, &self.book);
        }
        for _ in 0..faults[1] {
            spoil_book(rng, &mut self.book);
        }
        for _ in 0..faults[2] {
            shorten(rng, &mut self.book, &mut *call);
        }
        let answer = self.make(seen, &mut *call);
        let replaced = answer == 0 && call.kind().uses == Uses::Replaces;
        if (faults[1] > 0 || faults[2] > 0) && !replaced {
            *self = before;
        }
    }
}

/// Any kind of call of which something holds.
pub fn any_of(rng: &mut Rng, which: impl Fn(&Kind) -> bool) -> &'static Kind {
    let kinds: Vec<&Kind> = CALLS.iter().filter(|kind| which(kind)).copied().collect();
    rng.pick(&kinds)
}

/// Makes one lent length shorter.
fn shorten(rng: &mut Rng, book: &mut Book, call: &mut dyn Call) {
    let own = call.places();
    let mut places: Vec<Place> = if own.is_empty() || rng.one_in(2) { book.places() } else { own };
    let at = rng.below(places.len());
    let lent = &mut places[at].lent;
    let need = lent.need();
    let any = rng.below(need.max(1));
    *lent.len() = rng.pick(&[0, need.saturating_sub(1), any]);
}

/// A run whose book is a study, by its file.
pub fn run_of(seen: &mut Seen, rng: &mut Rng, study: &Study) -> Run {
    let mut run = Run::new(rng, 1);
    let mut read = Read::of(rng, &file_of(study));
    expect(run.make(seen, &mut read), 0, "the file of a study is read");
    run
}

/// Open; or, for a run of undamaged calls, a file of tides at any of the run's
/// points, the same point twice among them.
fn begin(seen: &mut Seen, rng: &mut Rng, run: &mut Run, target: usize) {
    if target == 0 || rng.one_in(2) {
        let k = if rng.one_in(3) { 1 } else { rng.within(1, 8) };
        run.make(seen, &mut Open { k: k as u32 });
        return;
    }
    let held: Vec<usize> =
        (0..rng.within(1, target)).map(|_| rng.below(run.metric.len())).collect();
    let far = |p: &usize| held.iter().map(|q| run.metric[*p][*q]).collect();
    let distances = held.iter().map(far).collect();
    let file = file_of(&Study { distances, ..some_study(rng, held.len()) });
    run.files = vec![(file.clone(), held)];
    let mut read = Read::of(rng, &file);
    expect(run.make(seen, &mut read), 0, "a file of any tides is read");
}

/// How many tides a run aims at; seldom none.
fn some_size(rng: &mut Rng, most: usize) -> usize {
    if rng.one_in(25) {
        0
    } else {
        rng.within(1 + most / 4, most)
    }
}

/// Undamaged runs of books up to some size.
fn sound(seen: &mut Seen, rng: &mut Rng, runs: usize, most: usize, calls: usize) {
    for _ in 0..runs {
        let target = some_size(rng, most);
        let points = rng.within(1, 2 * most);
        let mut run = Run::new(rng, points);
        if rng.one_in(8) {
            run.step(seen, rng, target); // junk memory first
        }
        begin(seen, rng, &mut run, target);
        for _ in 0..calls {
            run.step(seen, rng, target);
        }
    }
}

/// Runs in which some calls have up to so many wrong arguments, places and lengths.
fn faulty(seen: &mut Seen, rng: &mut Rng, runs: usize, faults: [usize; 3]) {
    for _ in 0..runs {
        let target = some_size(rng, 8);
        let points = rng.within(1, 16);
        let mut run = Run::new(rng, points);
        begin(seen, rng, &mut run, target);
        for _ in 0..2 * target {
            run.step(seen, rng, target);
        }
        for _ in 0..50 {
            if rng.one_in(3) {
                run.step(seen, rng, target);
            } else {
                let faults = faults.map(|most| rng.below(most + 1));
                run.bad_step(seen, rng, target, faults);
            }
        }
    }
}

/// Damaged books that stay damaged for a while.
fn lasting(seen: &mut Seen, rng: &mut Rng, runs: usize) {
    for _ in 0..runs {
        let target = some_size(rng, 8);
        let mut run = Run::new(rng, 10);
        begin(seen, rng, &mut run, target);
        for _ in 0..3 * target {
            run.step(seen, rng, target);
        }
        spoil_book(rng, &mut run.book);
        for _ in 0..6 {
            run.step(seen, rng, target);
        }
        let renew = any_of(rng, |kind| kind.uses == Uses::Replaces);
        let mut call = (renew.propose)(rng, &run);
        run.make(seen, &mut *call);
        for _ in 0..6 {
            run.step(seen, rng, target);
        }
    }
}

pub const GROUPS: &[Group] = &[
    ("to 9 tides", |s, r| sound(s, r, 2500, 9, 40)),
    ("to 14 tides", |s, r| sound(s, r, 500, 14, 60)),
    ("to 30 tides", |s, r| sound(s, r, 60, 30, 100)),
    ("wrong arguments", |s, r| faulty(s, r, 700, [2, 0, 0])),
    ("damaged memory", |s, r| faulty(s, r, 500, [0, 2, 0])),
    ("short lists", |s, r| faulty(s, r, 400, [0, 0, 2])),
    ("several at once", |s, r| faulty(s, r, 500, [2, 2, 1])),
    ("lasting damage", |s, r| lasting(s, r, 800)),
];
