//! What a call is to the test, and one call made on both sides and compared:
//! the answer and all places, bit for bit, also those past each lent length.

use crate::lent::{Book, Place, Rng};
use crate::plain::{PLACES, RECORD, TIDES};
use crate::runs::Run;
use std::collections::BTreeMap;
use std::process::exit;

/// One call with its arguments and its own lent places.
pub trait Call: Copied {
    fn kind(&self) -> &'static Kind;
    fn ask_library(&mut self, book: &mut Book) -> u32;
    fn ask_plain(&mut self, book: &mut Book) -> u32;

    /// Its own lent places.
    fn places(&mut self) -> Vec<Place<'_>> {
        vec![]
    }
    /// Once it is accepted, how many places it may have written in the front of each
    /// of its lists; where none is named, nothing. All other places stay.
    fn written(&self, _book: &Book) -> Vec<usize> {
        vec![]
    }
    /// Its single numbers, for a printed difference.
    fn say(&self) -> String {
        String::new()
    }
    /// Makes one argument wrong, or nearly so.
    fn spoil(&mut self, _rng: &mut Rng, _book: &Book) {}
    /// Counts what was met in it, and tests what only this call has.
    fn note(
        &self,
        _before: &Book,
        _after: &Book,
        _answer: u32,
        _: &mut Seen,
    ) -> Result<(), String> {
        Ok(())
    }
    /// What a run remembers of it once it was accepted.
    fn remember(&self, _run: &mut Run) {}
}

/// A copy of a call of any kind.
pub trait Copied {
    fn copied(&self) -> Box<dyn Call>;
}

impl<C: Call + Clone + 'static> Copied for C {
    fn copied(&self) -> Box<dyn Call> {
        Box::new(self.clone())
    }
}

/// What a call does with the book that it is given.
#[derive(PartialEq)]
pub enum Uses {
    /// It is refused 21 where there is none.
    Looks,
    /// It makes a new one of any record and memory.
    Replaces,
    /// It is given none.
    NoBook,
}

pub type Group = (&'static str, fn(&mut Seen, &mut Rng));

/// What all calls of one name share.
pub struct Kind {
    pub name: &'static str,
    /// Its refusals.
    pub reasons: &'static [u32],
    pub uses: Uses,
    /// What must be met at least once, under the names that `note` counts by.
    pub counted: &'static [&'static str],
    /// How often it comes in a run, of which some tides are held and some aimed at.
    pub often: fn(held: usize, target: usize) -> usize,
    /// One that a run's book would accept.
    pub propose: fn(&mut Rng, &Run) -> Box<dyn Call>,
    /// One that the book of the known study accepts.
    pub known: fn(&mut Rng) -> Box<dyn Call>,
    /// The groups of tests that are about it.
    pub groups: &'static [Group],
    /// Every set of its refusals at once.
    pub at_once: fn(&mut Seen, &mut Rng),
}

/// Counts of what was seen, and the comparison itself.
pub struct Seen {
    pub calls: u64,
    group: String,
    in_group: BTreeMap<u32, u64>,                        // answers
    answers: BTreeMap<(&'static str, u32), u64>,         // of each call
    counts: BTreeMap<(&'static str, &'static str), u64>, // of each call
}

impl Seen {
    pub fn new() -> Seen {
        Seen {
            calls: 0,
            group: String::new(),
            in_group: BTreeMap::new(),
            answers: BTreeMap::new(),
            counts: BTreeMap::new(),
        }
    }

    /// Runs one group of tests and prints its answers.
    pub fn run(&mut self, about: &str, group: &Group, rng: &mut Rng) {
        self.group = format!("{about}: {}", group.0);
        self.in_group.clear();
        group.1(self, rng);
        let calls: u64 = self.in_group.values().sum();
        let mut line = format!("{:<28} {calls:>7} calls", self.group);
        for (answer, times) in &self.in_group {
            line += &match answer {
                0 => format!(", {times} accepted"),
                _ => format!(", {answer}: {times}"),
            };
        }
        println!("{line}");
    }

    /// Counts something that a call's kind names.
    pub fn count(&mut self, kind: &Kind, what: &'static str, times: usize) {
        assert!(kind.counted.contains(&what), "{} doesn't count {what}", kind.name);
        *self.counts.entry((kind.name, what)).or_default() += times as u64;
    }

    /// Prints a call's answers and what was met in it. Says whether all of it was seen.
    pub fn total(&self, kind: &Kind) -> bool {
        let times = |answer: u32| self.answers.get(&(kind.name, answer)).copied().unwrap_or(0);
        let mut line = format!("{}: accepted {}, refused", kind.name, times(0));
        let mut whole = times(0) > 0;
        for reason in kind.reasons {
            line += &format!(" {reason}:{}", times(*reason));
            whole &= times(*reason) > 0;
        }
        println!("{line}");
        let shared = if kind.uses == Uses::Looks { &[TWIN][..] } else { &[] };
        for what in shared.iter().chain(kind.counted) {
            let times = self.counts.get(&(kind.name, *what)).copied().unwrap_or(0);
            println!("    {times} {what}");
            whole &= times > 0;
        }
        whole
    }

    /// Makes one call on both sides. Book and call are left as both left them.
    pub fn call(&mut self, book: &mut Book, call: &mut dyn Call) -> u32 {
        let (mut book_before, mut call_before) = (book.clone(), call.copied());
        let (mut other_book, mut other) = (book.clone(), call.copied());
        let answer = call.ask_library(book);
        let expected = other.ask_plain(&mut other_book);
        let mut right = Ok(());
        if answer != expected || !same(book, call, &mut other_book, &mut *other) {
            println!("answers: library {}, plain {}", number(answer), number(expected));
            say_differences(book, call, &mut other_book, &mut *other);
            right = Err(format!("a difference in call {} ({})", self.calls + 1, self.group));
        } else if answer != 0 && !same(book, call, &mut book_before, &mut *call_before) {
            right = Err("a refused call changed something".to_string());
        } else if answer == 0 && !stays(book, call, &mut book_before, &mut *call_before) {
            right = Err("a place past what the call may write was changed".to_string());
        }
        if let Err(what) = right.and_then(|_| self.note(&book_before, book, call, answer)) {
            fail(&what, &mut book_before, &mut *call_before);
        }
        answer
    }

    /// Counts a call on which both sides agree.
    fn note(
        &mut self,
        before: &Book,
        after: &Book,
        call: &dyn Call,
        answer: u32,
    ) -> Result<(), String> {
        let (kind, reason) = (call.kind(), answer % 256);
        if reason != 0 && !kind.reasons.contains(&reason) {
            return Err(format!("{} has no refusal {reason}", kind.name));
        }
        self.calls += 1;
        *self.in_group.entry(reason).or_default() += 1;
        *self.answers.entry((kind.name, reason)).or_default() += 1;
        if answer == 0 && kind.uses == Uses::Looks && before.has_twin() {
            *self.counts.entry((kind.name, TWIN)).or_default() += 1;
        }
        call.note(before, after, answer, self)
    }
}

/// Counted of every call that looks at a book.
const TWIN: &str = "accepted of a book that holds a twin";

fn same(book: &mut Book, call: &mut dyn Call, other_book: &mut Book, other: &mut dyn Call) -> bool {
    let same = |a: Vec<Place>, b: Vec<Place>| a.iter().zip(b).all(|(a, b)| a.lent.same(&*b.lent));
    same(book.places(), other_book.places()) && same(call.places(), other.places())
}

/// Whether all places past what an accepted call may write are as before.
fn stays(
    book: &mut Book,
    call: &mut dyn Call,
    before: &mut Book,
    call_before: &mut dyn Call,
) -> bool {
    let written = call.written(book).into_iter().chain(std::iter::repeat(0));
    let own = call.places().into_iter().zip(call_before.places()).zip(written);
    let needs = [RECORD, PLACES, TIDES];
    let mut all = book.places().into_iter().zip(before.places()).zip(needs).chain(own);
    all.all(|((a, b), written)| a.lent.stays(&*b.lent, written))
}

fn say_differences(
    book: &mut Book,
    call: &mut dyn Call,
    other_book: &mut Book,
    other: &mut dyn Call,
) {
    let places = book.places().into_iter().chain(call.places());
    for (a, b) in places.zip(other_book.places().into_iter().chain(other.places())) {
        if !a.lent.same(&*b.lent) {
            println!("{}: {}", a.name, a.lent.difference(&*b.lent));
        }
    }
}

/// An answer as the documents have it.
fn number(answer: u32) -> String {
    if answer % 256 == 7 {
        format!("7 with pair {}, {}", answer / 256 % 256, answer / 65_536)
    } else {
        format!("{answer}")
    }
}

/// Prints the call and the book before it, and ends the program.
fn fail(what: &str, book: &mut Book, call: &mut dyn Call) -> ! {
    println!("FAILED: {what}");
    println!("call {}, {}", call.kind().name, call.say());
    for place in call.places().iter().chain(&book.places()) {
        println!("{} {}", place.name, place.lent.say());
    }
    if call.kind().uses != Uses::NoBook {
        let n = book.n().min(TIDES);
        for i in 0..n {
            let row: Vec<u32> = (0..n).map(|j| book.distance(i, j)).collect();
            println!("tide {}: {row:?}", i + 1);
        }
    }
    exit(1);
}

/// Ends the program unless the answer is that of the documents.
pub fn expect(answer: u32, expected: u32, what: &str) {
    demand(answer == expected, || {
        format!("{what}: answer {}, the documents have {}", number(answer), number(expected))
    });
}

/// Ends the program unless it holds.
pub fn demand(holds: bool, what: impl FnOnce() -> String) {
    if !holds {
        println!("FAILED: {}", what());
        exit(1);
    }
}
