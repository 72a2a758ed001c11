//! Two books that share tides, to be merged.

use crate::calls::merge::Merge;
use crate::lent::{Book, Rng};
use crate::plain::{Study, KEEPERS, TIDES};
use crate::random::{metric, minima_for, Metric};

/// Points of which books are cut, each with the setting of a tide that stands for it.
struct Points {
    k: usize,
    settings: Vec<usize>,
    metric: Metric,
}

impl Points {
    fn of(rng: &mut Rng, metric: Metric) -> Points {
        let k = rng.within(1, 8);
        let settings = metric.iter().map(|_| rng.within(1, k)).collect();
        Points { k, settings, metric }
    }

    /// A study's tides and up to two more, each near to one before it, which keeps the
    /// three-tide rule.
    fn around(rng: &mut Rng, study: &Study) -> Points {
        let mut s = study.clone();
        for _ in 0..rng.below(3) {
            let (like, more) = (rng.below(s.n()), rng.below(3) as u32);
            let row: Vec<u32> = s.distances[like].iter().map(|d| d + more).collect();
            s.add_tide(rng.within(1, s.k), &row);
        }
        Points { k: s.k, settings: s.settings, metric: s.distances }
    }

    /// The study of the tides at some of them. Some of the counts come to 65,535, or to
    /// one more, with those of another.
    fn study(&self, rng: &mut Rng, at: &[usize]) -> Study {
        let settings: Vec<u8> = at.iter().map(|p| self.settings[*p] as u8).collect();
        let m = minima_for(rng, self.k, &settings).map(|x| x as usize);
        let far = |p: &usize| at.iter().map(|q| self.metric[*p][*q]).collect();
        Study {
            k: self.k,
            b0: m[0],
            b: std::array::from_fn(|j| m[1 + j]),
            withdrawals: [0; KEEPERS].map(|_| rng.pick(&[0, 1, 7, 300, 32_767, 32_768])),
            settings: at.iter().map(|p| self.settings[*p]).collect(),
            distances: at.iter().map(far).collect(),
        }
    }
}

/// Some of the tides of one book, and some of the points that have no tide in it, in
/// any order.
fn partly(rng: &mut Rng, held: &[usize], others: &[usize]) -> Vec<usize> {
    let mut at = held.to_vec();
    rng.shuffle(&mut at);
    at.truncate(rng.within(1, held.len()));
    let most = others.len().min(TIDES - at.len());
    at.extend(&others[..rng.within(0, most)]);
    rng.shuffle(&mut at);
    at
}

/// Both books with the tides that they share, or only some of these, in any order.
fn merge_at(rng: &mut Rng, first: Book, a: &[usize], second: Book, b: &[usize]) -> Merge {
    let mut pairs = vec![];
    for (j, point) in b.iter().enumerate() {
        if let Some(i) = a.iter().position(|p| p == point) {
            pairs.push((i as u8 + 1, j as u8 + 1));
        }
    }
    rng.shuffle(&mut pairs);
    if rng.one_in(4) {
        pairs.truncate(rng.within(1, pairs.len()));
    }
    Merge::of(rng, first, Some(second), &pairs)
}

/// Two books cut from a metric.
pub fn cut_from(rng: &mut Rng, metric: Metric) -> Merge {
    let points = Points::of(rng, metric);
    let mut a: Vec<usize> = (0..points.metric.len()).collect();
    rng.shuffle(&mut a);
    let others = a.split_off(rng.within(1, a.len().min(TIDES)));
    let b = partly(rng, &a, &others);
    let first = points.study(rng, &a);
    let second = points.study(rng, &b);
    let (first, second) = (Book::of(rng, &first), Book::of(rng, &second));
    merge_at(rng, first, &a, second, &b)
}

/// Two books of at most so many tides together; now and then the first with itself.
pub fn some_merge(rng: &mut Rng, most: usize) -> Merge {
    let points = rng.within(1, most);
    let metric = metric(rng, points);
    let mut merge = cut_from(rng, metric);
    if rng.one_in(20) {
        merge.second = None;
        merge.seconds = merge.firsts.clone();
    }
    merge
}

/// A book, and another that shares some of its tides and has up to two more.
pub fn more_for(rng: &mut Rng, book: &Book, study: &Study) -> Merge {
    let points = Points::around(rng, study);
    let a: Vec<usize> = (0..study.n()).collect();
    let others: Vec<usize> = (study.n()..points.metric.len()).collect();
    let b = partly(rng, &a, &others);
    let second = points.study(rng, &b);
    let second = Book::of(rng, &second);
    merge_at(rng, book.clone(), &a, second, &b)
}
