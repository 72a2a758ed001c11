//! Random distances, minima and studies.

use crate::lent::Rng;
use crate::plain::{Study, FAR, KEEPERS};

pub type Metric = Vec<Vec<u32>>;

fn table(points: usize, d: impl Fn(usize, usize) -> u32) -> Metric {
    (0..points).map(|i| (0..points).map(|j| d(i, j)).collect()).collect()
}

/// Distances between some points under which the three-tide rule holds.
pub fn metric(rng: &mut Rng, points: usize) -> Metric {
    let small = rng.within(1, 6);
    let middle = rng.within(6, 60);
    let span = rng.pick(&[1, 2, 3, 10, 1000, 500_000]);
    match rng.below(9) {
        0 => on_a_line(rng, points, small, false),
        1 => on_a_line(rng, points, middle, false),
        2 => on_a_line(rng, points, FAR as usize, true),
        3 => in_a_plane(rng, points, small),
        4 => in_a_plane(rng, points, middle),
        5 => in_a_plane(rng, points, FAR as usize / 2),
        6 => to_twice(rng, points, span),
        7 => in_heaps(rng, points, span),
        _ => by_roads(rng, points, span),
    }
}

/// On a line; `ends`: the first and the last as far apart as can be.
fn on_a_line(rng: &mut Rng, points: usize, span: usize, ends: bool) -> Metric {
    let mut at: Vec<usize> = (0..points).map(|_| rng.below(span + 1)).collect();
    if ends && points > 1 {
        at[0] = 0;
        at[points - 1] = span;
    }
    table(points, |i, j| at[i].abs_diff(at[j]) as u32)
}

/// In a plane, by streets.
fn in_a_plane(rng: &mut Rng, points: usize, span: usize) -> Metric {
    let x: Vec<usize> = (0..points).map(|_| rng.below(span + 1)).collect();
    let y: Vec<usize> = (0..points).map(|_| rng.below(span + 1)).collect();
    table(points, |i, j| (x[i].abs_diff(x[j]) + y[i].abs_diff(y[j])) as u32)
}

/// Anything from a span to twice the span.
fn to_twice(rng: &mut Rng, points: usize, span: usize) -> Metric {
    let any = (0..points * points).map(|_| (span + rng.below(span + 1)) as u32);
    let any: Vec<u32> = any.collect();
    table(points, |i, j| if i == j { 0 } else { any[points * i.min(j) + i.max(j)] })
}

/// Heaps: near inside, far between.
fn in_heaps(rng: &mut Rng, points: usize, span: usize) -> Metric {
    let heaps = rng.within(1, 4);
    let of: Vec<usize> = (0..points).map(|_| rng.below(heaps)).collect();
    let inside = rng.below(3) as u32;
    table(points, |i, j| match i == j {
        true => 0,
        false if of[i] == of[j] => inside,
        false => inside + span as u32 + (of[i] + of[j]) as u32 % 2,
    })
}

/// Shortest ways over random roads.
fn by_roads(rng: &mut Rng, points: usize, span: usize) -> Metric {
    let mut d = vec![vec![0; points]; points];
    for i in 0..points {
        for j in 0..i {
            d[i][j] = rng.below(4 * span.min(200_000) + 1) as u32;
            d[j][i] = d[i][j];
        }
    }
    shortest_ways(&mut d);
    d
}

/// Lowers each distance to that of the shortest way.
pub fn shortest_ways(d: &mut Metric) {
    for m in 0..d.len() {
        for i in 0..d.len() {
            for j in 0..d.len() {
                d[i][j] = d[i][j].min(d[i][m] + d[m][j]);
            }
        }
    }
}

/// Minima that fit a book; often tight for some number of blocks.
pub fn minima_for(rng: &mut Rng, k: usize, settings: &[u8]) -> [u8; 9] {
    let n = settings.len();
    let mut m = [0u8; 9];
    if n > 0 && !rng.one_in(4) {
        let most = if rng.one_in(2) { n.min(3) } else { n };
        let blocks = rng.within(1, most);
        let slack = rng.below(3);
        for j in 0..k {
            let of = settings.iter().filter(|s| **s as usize == j + 1).count();
            let least = (of / blocks).saturating_sub(if rng.one_in(3) { 1 } else { 0 });
            m[1 + j] = if rng.one_in(4) { 0 } else { least as u8 };
        }
        let sum: usize = m[1..].iter().map(|x| *x as usize).sum();
        m[0] = (n / blocks).saturating_sub(slack).max(sum).max(1) as u8;
    } else {
        m[0] = if rng.one_in(6) { rng.within(1, 120) } else { rng.within(1, 4) } as u8;
        let mut left = m[0] as usize;
        for j in 0..k {
            if rng.one_in(2) {
                m[1 + j] = rng.below(left.min(2) + 1) as u8;
                left -= m[1 + j] as usize;
            }
        }
    }
    m
}

/// A study of n tides with any k, minima that fit and any counts.
pub fn some_study(rng: &mut Rng, n: usize) -> Study {
    let k = rng.within(1, 8);
    let distances = metric(rng, n);
    let settings: Vec<u8> = (0..n).map(|_| rng.within(1, k) as u8).collect();
    let m = minima_for(rng, k, &settings).map(|x| x as usize);
    Study {
        k,
        b0: m[0],
        b: std::array::from_fn(|j| m[1 + j]),
        withdrawals: [0; KEEPERS].map(|_| rng.pick(&[0, 1, 7, 300, 65_534, 65_535])),
        settings: settings.iter().map(|s| *s as usize).collect(),
        distances,
    }
}

/// A number that is wrong, or nearly so, where 1 to `most` is asked for; some
/// come round to x in their lowest 8 or 16 bits.
pub fn wrong_number(rng: &mut Rng, x: u32, most: usize) -> u32 {
    let round = x.wrapping_add(rng.pick(&[256, 65_536, 1 << 24, 1 << 31]));
    rng.pick(&[0, most as u32 + 1, 9, 121, 255, 256, 257, u32::MAX, round, round])
}
