//! Every list and every division of up to seven tides, beside what Block finds.

use crate::plain::blocking::{candidates, centres_at, diameter, meets, near};
use crate::plain::Study;

/// What enumeration finds besides the list.
pub struct Found {
    pub reordered: bool, // the list would be another by block number alone
    pub gap: bool,       // a greater candidate has no filling
}

/// Tries every list of every candidate, and every division. Of the lists at the
/// reach that meet the minima the first is the least by distance and block
/// number of each tide in turn.
pub fn enumerate(s: &Study, list: &[u8], result: &[u32]) -> Result<Found, String> {
    let n = s.n();
    let fillings = |g: u32| {
        let centres = centres_at(s, g);
        all_good(s, centres.len(), &near(s, &centres, g))
    };
    let candidates = candidates(s);
    let Some(at) = candidates.iter().position(|g| !fillings(*g).is_empty()) else {
        return Err("enumeration finds no filling".to_string());
    };
    let (g, good) = (candidates[at], fillings(candidates[at]));
    let centres = centres_at(s, g);
    let away = |t: usize, m: usize| (s.distances[centres[m]][t], m);
    let by_distance = |l: &&Vec<usize>| (0..n).map(|t| away(t, l[t])).collect::<Vec<_>>();
    let first = good.iter().min_by_key(by_distance).unwrap();
    let same = (0..n).all(|t| first[t] + 1 == list[t] as usize);
    if result[0] as usize != centres.len() || result[1] != g || !same {
        return Err(format!("enumeration finds reach {g}, blocks from 0 {first:?}"));
    }
    twice(s, result[2])?;
    Ok(Found {
        reordered: good.iter().min() != Some(first),
        gap: candidates[at..].iter().any(|g| fillings(*g).is_empty()),
    })
}

/// Every list of near blocks that meets the minima.
fn all_good(s: &Study, blocks: usize, near: &[Vec<usize>]) -> Vec<Vec<usize>> {
    let n = s.n();
    let mut good = vec![];
    let mut at = vec![0; n]; // an odometer over the blocks in reach
    loop {
        let tried: Vec<usize> = (0..n).map(|t| near[t][at[t]]).collect();
        if (0..blocks).all(|m| meets(s, &tried, m)) {
            good.push(tried);
        }
        let Some(t) = (0..n).rev().find(|t| at[*t] + 1 < near[*t].len()) else { return good };
        at[t] += 1;
        at[t + 1..].fill(0);
    }
}

/// No division that meets the minima is less than half as wide.
fn twice(s: &Study, widest: u32) -> Result<(), String> {
    fn best(s: &Study, list: &mut Vec<usize>, used: usize) -> u32 {
        if list.len() == s.n() {
            let good = (0..used).all(|m| meets(s, list, m));
            let widest = (0..used).map(|m| diameter(s, list, m)).max();
            return if good { widest.unwrap() } else { u32::MAX };
        }
        let mut least = u32::MAX;
        for m in 0..=used {
            list.push(m);
            least = least.min(best(s, list, used.max(m + 1)));
            list.pop();
        }
        least
    }
    let least = best(s, &mut vec![], 0);
    if widest as u64 > 2 * least as u64 {
        return Err(format!("widest {widest}, but a division of widest {least} exists"));
    }
    Ok(())
}
