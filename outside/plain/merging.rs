//! Merging two books into a third (document 02, 2.9: joining).

use super::{Memory, Study, FAR, KEEPERS, TIDES};

/// Number q of the one list and number q of the other name the same tide, in the
/// first book and in the second.
pub fn merge(
    first: &Memory,
    second: &Memory,
    third: &mut Memory,
    firsts: &[u8],
    seconds: &[u8],
) -> u32 {
    if first.short() || second.short() || third.short() {
        return 1;
    }
    let (Some(a), Some(b)) = (first.study(), second.study()) else {
        return 21;
    };
    if firsts.is_empty() && seconds.is_empty() {
        return 17;
    }
    let Some(shared) = shared_tides(&a, &b, firsts, seconds) else {
        return 16;
    };
    let rest: Vec<usize> = (0..b.n()).filter(|j| shared.iter().all(|(_, y)| y != j)).collect();
    if a.n() + rest.len() > TIDES {
        return 22;
    }
    let mut merged = with_rest(&a, &b, &shared, &rest);
    if merged.distances.iter().flatten().any(|d| *d > FAR) {
        return 6;
    }
    for u in 0..KEEPERS {
        let sum = a.withdrawals[u] as u32 + b.withdrawals[u] as u32;
        if sum > 65_535 {
            return 26;
        }
        merged.withdrawals[u] = sum as u16;
    }
    third.store(&merged);
    0
}

/// The shared tides, by their places from 0, unless 16 holds. Past the end of a
/// list stands no tide, so the other may not go on.
fn shared_tides(
    a: &Study,
    b: &Study,
    firsts: &[u8],
    seconds: &[u8],
) -> Option<Vec<(usize, usize)>> {
    if a.k != b.k || firsts.len() != seconds.len() {
        return None;
    }
    let mut shared: Vec<(usize, usize)> = vec![];
    for (x, y) in firsts.iter().zip(seconds) {
        let (x, y) = (*x as usize, *y as usize);
        if x < 1 || x > a.n() || y < 1 || y > b.n() {
            return None;
        }
        let (x, y) = (x - 1, y - 1);
        if a.settings[x] != b.settings[y] {
            return None;
        }
        for (p, q) in &shared {
            if *p == x || *q == y || a.distances[*p][x] != b.distances[*q][y] {
                return None;
            }
        }
        shared.push((x, y));
    }
    Some(shared)
}

/// The first book's tides, then the second's remaining ones, each at the least sum
/// through a shared tide from the first's.
fn with_rest(a: &Study, b: &Study, shared: &[(usize, usize)], rest: &[usize]) -> Study {
    let across = |i: usize, j: usize| {
        shared.iter().map(|(x, y)| a.distances[i][*x] + b.distances[*y][j]).min().unwrap()
    };
    let mut merged = a.clone();
    for (r, j) in rest.iter().enumerate() {
        let mut row: Vec<u32> = (0..a.n()).map(|i| across(i, *j)).collect();
        row.extend(rest[..r].iter().map(|e| b.distances[*e][*j]));
        merged.add_tide(b.settings[*j], &row);
    }
    merged
}
