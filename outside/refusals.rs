//! Refusals of any call: each list too short, reasons that hold at once, and
//! each single number over its whole range.

use crate::calls::CALLS;
use crate::comparing::{expect, Call, Group, Seen, Uses};
use crate::lent::{Book, Place, Rng};
use crate::runs::run_of;
use crate::samples::known_study;
use std::collections::BTreeSet;

pub const GROUPS: &[Group] = &[("each list short", each_short)];

/// The book of the known study; nothing for a call on no book.
pub fn known_book(seen: &mut Seen, rng: &mut Rng, uses: &Uses) -> Book {
    match uses {
        Uses::NoBook => Book::none(),
        _ => run_of(seen, rng, &known_study()).book,
    }
}

/// Each lent list of each call with every length up to what it needs, all else
/// being right.
fn each_short(seen: &mut Seen, rng: &mut Rng) {
    fn places<'a>(book: &'a mut Book, call: &'a mut dyn Call) -> Vec<Place<'a>> {
        book.places().into_iter().chain(call.places()).collect()
    }
    for kind in CALLS {
        let mut book = known_book(seen, rng, &kind.uses);
        let mut call = (kind.known)(rng);
        let needs: Vec<usize> =
            places(&mut book, &mut *call).iter().map(|place| place.lent.need()).collect();
        for (i, need) in needs.into_iter().enumerate() {
            for len in (0..=need).filter(|len| *len <= 20 || len + 20 >= need) {
                let (mut book, mut call) = (book.clone(), call.copied());
                let mut places = places(&mut book, &mut *call);
                *places[i].lent.len() = len;
                let expected = if len == need { 0 } else { places[i].short };
                let what = format!("{} with {} of {len}", kind.name, places[i].name);
                drop(places);
                expect(seen.call(&mut book, &mut *call), expected, &what);
            }
        }
    }
}

/// A number of the documents, and what makes it hold of a call.
pub type Fault<C> = (u32, fn(&mut Rng, &mut Book, &mut C));

/// Every set of a call's faults at once. They stand in the documents' order: the
/// first of the set is to be the answer. They are made from the last to the first,
/// so that where two have the same place the first holds. Faults that draw are
/// made some hundred times.
pub fn at_once<C: Call + Clone>(
    seen: &mut Seen,
    rng: &mut Rng,
    sample: fn(&mut Rng) -> C,
    faults: &[Fault<C>],
) {
    let call = sample(rng);
    let kind = call.kind();
    let tried: BTreeSet<u32> = faults.iter().map(|fault| fault.0 % 256).collect();
    assert_eq!(tried, kind.reasons.iter().copied().collect(), "{}", kind.name);
    let book = known_book(seen, rng, &kind.uses);
    let sets = 1usize << faults.len();
    for turn in 0..sets.max(500) {
        let set = turn % sets;
        let (mut book, mut call) = (book.clone(), call.clone());
        let mut expected = 0;
        for i in (0..faults.len()).rev().filter(|i| set >> i & 1 == 1) {
            expected = faults[i].0;
            faults[i].1(rng, &mut book, &mut call);
        }
        let what = format!("{}, faults {set:b} at once", kind.name);
        expect(seen.call(&mut book, &mut call), expected, &what);
    }
}

/// Calls with a single number through 0 to 600 and around the powers of two:
/// accepted from 1 to `most`.
pub fn every_number<C: Call>(
    seen: &mut Seen,
    rng: &mut Rng,
    most: u32,
    reason: u32,
    with: impl Fn(&mut Rng, u32) -> C,
) {
    let book = known_book(seen, rng, &Uses::Looks);
    let powers = (9..32).flat_map(|bits| (0..10).map(move |more| (1u32 << bits) - 1 + more));
    for x in (0..=600).chain(powers).chain([u32::MAX - 1, u32::MAX]) {
        let mut call = with(rng, x);
        let expected = if (1..=most).contains(&x) { 0 } else { reason };
        let what = format!("{} of {x}", call.kind().name);
        expect(seen.call(&mut book.clone(), &mut call), expected, &what);
    }
}
