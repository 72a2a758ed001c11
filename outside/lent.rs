//! Random numbers, and the memory that is lent to both sides.

use crate::plain::{Memory, Study, COUNTS, PLACES, RECORD, ROW, TIDES};
use std::any::Any;
use std::fmt::Debug;

/// Numbers that follow from a fixed seed.
pub struct Rng(pub u64);

impl Rng {
    pub fn next(&mut self) -> u64 {
        self.0 ^= self.0 << 13;
        self.0 ^= self.0 >> 7;
        self.0 ^= self.0 << 17;
        self.0.wrapping_mul(0x2545_F491_4F6C_DD1D) >> 16
    }
    pub fn below(&mut self, end: usize) -> usize {
        (self.next() % end as u64) as usize
    }
    pub fn within(&mut self, low: usize, high: usize) -> usize {
        low + self.below(high - low + 1)
    }
    pub fn one_in(&mut self, n: usize) -> bool {
        self.below(n) == 0
    }
    pub fn pick<T: Copy>(&mut self, from: &[T]) -> T {
        from[self.below(from.len())]
    }
    pub fn shuffle<T>(&mut self, list: &mut [T]) {
        for i in 0..list.len() {
            list.swap(i, self.within(i, list.len() - 1));
        }
    }
}

/// The numbers that are lent: 8, 16 or 32 bits.
pub trait Number: Copy + PartialEq + Debug + 'static {
    fn junk(rng: &mut Rng) -> Self;
}

impl Number for u8 {
    fn junk(rng: &mut Rng) -> u8 {
        rng.next() as u8
    }
}
impl Number for u16 {
    fn junk(rng: &mut Rng) -> u16 {
        rng.next() as u16
    }
}
impl Number for u32 {
    fn junk(rng: &mut Rng) -> u32 {
        rng.next() as u32
    }
}

/// Places of which the first `len` are lent; the rest must stay as they are.
#[derive(Clone)]
pub struct Lent<T> {
    pub places: Vec<T>,
    pub len: usize,
    pub need: usize, // the fewest with which the call can be accepted
}

const GUARD: usize = 4; // places kept past each lent length

impl<T: Number> Lent<T> {
    /// Junk in `need` places, lent with 0 to `more` further ones.
    pub fn room(rng: &mut Rng, need: usize, more: usize) -> Lent<T> {
        let len = need + rng.below(more + 1);
        Lent { places: (0..len + GUARD).map(|_| T::junk(rng)).collect(), len, need }
    }

    /// The given values, all of them needed, lent with 0 to `more` places of junk.
    pub fn filled(rng: &mut Rng, values: &[T], more: usize) -> Lent<T> {
        let mut lent = Lent::room(rng, values.len(), more);
        lent.places[..values.len()].copy_from_slice(values);
        lent
    }

    /// The given values and no more.
    pub fn exact(rng: &mut Rng, values: &[T]) -> Lent<T> {
        Lent::filled(rng, values, 0)
    }

    pub fn none() -> Lent<T> {
        Lent { places: vec![], len: 0, need: 0 }
    }

    pub fn ptr(&mut self) -> *mut T {
        self.places.as_mut_ptr()
    }

    pub fn part(&mut self) -> &mut [T] {
        &mut self.places[..self.len]
    }
}

/// Lent places of any numbers.
pub trait Places {
    fn len(&mut self) -> &mut usize;
    fn need(&self) -> usize;
    fn any(&self) -> &dyn Any;
    fn same(&self, other: &dyn Places) -> bool;
    /// Whether the places from some place on are the same.
    fn stays(&self, before: &dyn Places, from: usize) -> bool;
    /// How many places differ, the first of them, and what stands there.
    fn difference(&self, other: &dyn Places) -> String;
    fn say(&self) -> String;
}

impl<T: Number> Places for Lent<T> {
    fn len(&mut self) -> &mut usize {
        &mut self.len
    }
    fn need(&self) -> usize {
        self.need
    }
    fn any(&self) -> &dyn Any {
        self
    }
    fn same(&self, other: &dyn Places) -> bool {
        let other: &Lent<T> = other.any().downcast_ref().unwrap();
        self.places == other.places && self.len == other.len
    }
    fn stays(&self, before: &dyn Places, from: usize) -> bool {
        let before: &Lent<T> = before.any().downcast_ref().unwrap();
        let from = from.min(self.places.len());
        self.places[from..] == before.places[from..]
    }
    fn difference(&self, other: &dyn Places) -> String {
        let other: &Lent<T> = other.any().downcast_ref().unwrap();
        let at: Vec<usize> =
            (0..self.places.len()).filter(|i| self.places[*i] != other.places[*i]).collect();
        format!(
            "{} places differ; place {} (of {} lent): library {:?}, plain {:?}",
            at.len(),
            at[0],
            self.len,
            self.places[at[0]],
            other.places[at[0]]
        )
    }
    fn say(&self) -> String {
        format!("of {}, in hexadecimal {:x?}", self.len, &self.places[..self.len.min(200)])
    }
}

/// Lent places under their name, and the refusal where they are fewer than needed.
pub struct Place<'a> {
    pub name: &'static str,
    pub short: u32,
    pub lent: &'a mut dyn Places,
}

/// Places of which too few are refused with 1.
pub fn place<'a>(name: &'static str, lent: &'a mut dyn Places) -> Place<'a> {
    Place { name, short: 1, lent }
}

/// Record and memory of a book.
#[derive(Clone)]
pub struct Book {
    pub record: Lent<u16>,
    pub distances: Lent<u32>,
    pub settings: Lent<u8>,
}

impl Book {
    pub fn junk(rng: &mut Rng) -> Book {
        Book {
            record: Lent::room(rng, RECORD, 3),
            distances: Lent::room(rng, PLACES, 20),
            settings: Lent::room(rng, TIDES, 9),
        }
    }

    /// A study's book, with junk past its places.
    pub fn of(rng: &mut Rng, study: &Study) -> Book {
        let mut book = Book::junk(rng);
        book.memory().store(study);
        book
    }

    /// Nothing, for a call on no book.
    pub fn none() -> Book {
        Book { record: Lent::none(), distances: Lent::none(), settings: Lent::none() }
    }

    pub fn places(&mut self) -> Vec<Place<'_>> {
        vec![
            place("record", &mut self.record),
            place("distances", &mut self.distances),
            place("settings", &mut self.settings),
        ]
    }

    /// Whether enough is lent for a book.
    pub fn has_room(&self) -> bool {
        self.record.len >= RECORD && self.distances.len >= PLACES && self.settings.len >= TIDES
    }

    pub fn memory(&mut self) -> Memory<'_> {
        Memory {
            record: self.record.part(),
            distances: self.distances.part(),
            settings: self.settings.part(),
        }
    }

    pub fn study(&self) -> Option<Study> {
        self.clone().memory().study()
    }

    pub fn k(&self) -> usize {
        self.record.places[0] as usize
    }

    pub fn n(&self) -> usize {
        self.record.places[1] as usize
    }

    pub fn b0(&self) -> u16 {
        self.record.places[2]
    }

    pub fn counts(&self) -> &[u16] {
        &self.record.places[COUNTS..RECORD]
    }

    pub fn distance(&self, i: usize, j: usize) -> u32 {
        self.distances.places[ROW * i + j]
    }

    /// The distance of two tides, both ways.
    pub fn set_distance(&mut self, i: usize, j: usize, d: u32) {
        self.distances.places[ROW * i + j] = d;
        self.distances.places[ROW * j + i] = d;
    }

    /// Makes record, distances or settings too short.
    pub fn shorten(&mut self, rng: &mut Rng) {
        match rng.below(3) {
            0 => self.record.len = rng.pick(&[0, COUNTS + 1, RECORD - 1]),
            1 => self.distances.len = rng.pick(&[0, ROW, PLACES - 1]),
            _ => self.settings.len = rng.pick(&[0, 5, TIDES - 1]),
        }
    }

    /// So many tides in place of those held, of setting 1 and at 1 from one another.
    pub fn hold(&mut self, n: usize) {
        self.record.places[1] = n as u16;
        for t in 0..TIDES {
            self.settings.places[t] = (t < n) as u8;
        }
        for p in 0..PLACES {
            let (i, j) = (p / ROW, p % ROW);
            self.distances.places[p] = (i < n && j < n && i != j) as u32;
        }
    }

    /// So many tides, those after the ones held being like the last of them and at 0
    /// from it.
    pub fn repeat_last(&mut self, n: usize) {
        let last = self.n() - 1;
        for t in last + 1..n {
            self.settings.places[t] = self.settings.places[last];
            for e in 0..t {
                self.set_distance(t, e, self.distance(last, e.min(last)));
            }
        }
        self.record.places[1] = n as u16;
    }

    /// Makes 21 hold.
    pub fn no_book(&mut self, rng: &mut Rng) {
        match rng.below(4) {
            0 => self.record.places[0] = 0,
            1 => self.record.places[2] = 0,
            2 => self.settings.places[119] = 9,
            _ => self.distances.places[0] = 1,
        }
    }

    /// Whether two tides of one setting lie at distance 0.
    pub fn has_twin(&self) -> bool {
        let s = &self.settings.places;
        let twin = |i: usize, j: usize| self.distance(i, j) == 0 && s[i] == s[j];
        (0..self.n()).any(|i| (0..i).any(|j| twin(i, j)))
    }
}
