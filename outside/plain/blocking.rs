//! Centres, fillings, reach, and the division of a study.

use super::Study;

/// What Block finds.
#[derive(Clone, Debug, PartialEq)]
pub struct Blocks {
    pub reach: u32,
    pub centres: Vec<usize>, // tides from 0, one for each block
    pub list: Vec<usize>,    // blocks from 0, one for each tide
    pub sizes: Vec<usize>,
    pub diameters: Vec<u32>,
    pub widest: u32,
}

pub fn centres_at(s: &Study, g: u32) -> Vec<usize> {
    let mut centres: Vec<usize> = vec![];
    for t in 0..s.n() {
        if centres.iter().all(|c| s.distances[*c][t] > g) {
            centres.push(t);
        }
    }
    centres
}

/// How far a tide's nearest centre lies, and that centre's block, from 0: the
/// first of all blocks in order of distance, equal ones in order of number.
pub fn nearest_to(s: &Study, centres: &[usize], tide: usize) -> (u32, usize) {
    let mut order: Vec<(u32, usize)> =
        (0..centres.len()).map(|m| (s.distances[centres[m]][tide], m)).collect();
    order.sort();
    order[0]
}

pub fn candidates(s: &Study) -> Vec<u32> {
    let mut all = vec![0];
    for row in &s.distances {
        all.extend(row);
    }
    all.sort();
    all.dedup();
    all
}

/// A slot is a place in a block that must be taken: for a tide of one setting
/// (b of each), or for any tide (the rest of b0).
struct Slot {
    block: usize,
    setting: Option<usize>,
}

/// Whether the tides can be given to their allowed blocks so that each block
/// meets the minima: exactly when every slot can have a tide of its own, as
/// every tide has at least one allowed block for what is left over.
fn can_fill(s: &Study, blocks: usize, allowed: &[Vec<usize>]) -> bool {
    if allowed.iter().any(|a| a.is_empty()) || blocks * s.b0 > s.n() {
        return false;
    }
    let mut slots = vec![];
    for block in 0..blocks {
        let mut rest = s.b0;
        for j in 0..s.k {
            for _ in 0..s.b[j] {
                slots.push(Slot { block, setting: Some(j + 1) });
            }
            rest -= s.b[j];
        }
        for _ in 0..rest {
            slots.push(Slot { block, setting: None });
        }
    }
    let mut in_block = vec![vec![false; s.n()]; blocks];
    for t in 0..s.n() {
        for m in &allowed[t] {
            in_block[*m][t] = true;
        }
    }
    let mut holder: Vec<Option<usize>> = vec![None; s.n()]; // the slot that has the tide
    for slot in 0..slots.len() {
        let mut seen = vec![false; s.n()];
        if !augment(s, &slots, &in_block, slot, &mut seen, &mut holder) {
            return false;
        }
    }
    true
}

/// Gives the slot a tide, moving other slots to other tides where needed.
fn augment(
    s: &Study,
    slots: &[Slot],
    in_block: &[Vec<bool>],
    slot: usize,
    seen: &mut Vec<bool>,
    holder: &mut Vec<Option<usize>>,
) -> bool {
    for t in 0..s.n() {
        let fits = in_block[slots[slot].block][t]
            && slots[slot].setting.map_or(true, |w| w == s.settings[t]);
        if !fits || seen[t] {
            continue;
        }
        seen[t] = true;
        let free = match holder[t] {
            None => true,
            Some(other) => augment(s, slots, in_block, other, seen, holder),
        };
        if free {
            holder[t] = Some(slot);
            return true;
        }
    }
    false
}

/// For each tide the blocks whose centre is at most g away, in the order of
/// their numbers.
pub fn near(s: &Study, centres: &[usize], g: u32) -> Vec<Vec<usize>> {
    (0..s.n())
        .map(|t| (0..centres.len()).filter(|m| s.distances[centres[*m]][t] <= g).collect())
        .collect()
}

/// The first filling: each tide in turn gets the block with the nearest centre,
/// of equal distances the lowest number, with which the rest can still be filled.
fn first_filling(s: &Study, centres: &[usize], g: u32) -> Option<Vec<usize>> {
    let mut allowed = near(s, centres, g);
    for t in 0..s.n() {
        allowed[t].sort_by_key(|m| s.distances[centres[*m]][t]); // keeps the order of equals
    }
    if !can_fill(s, centres.len(), &allowed) {
        return None;
    }
    for t in 0..s.n() {
        for m in allowed[t].clone() {
            allowed[t] = vec![m];
            if can_fill(s, centres.len(), &allowed) {
                break;
            }
        }
    }
    Some(allowed.iter().map(|a| a[0]).collect())
}

pub fn diameter(s: &Study, list: &[usize], block: usize) -> u32 {
    let mut widest = 0;
    for i in 0..s.n() {
        for j in 0..i {
            if list[i] == block && list[j] == block {
                widest = widest.max(s.distances[i][j]);
            }
        }
    }
    widest
}

/// Whether the tides under one number meet the minima.
pub fn meets(s: &Study, list: &[usize], block: usize) -> bool {
    let under: Vec<usize> = (0..s.n()).filter(|t| list[*t] == block).collect();
    let of = |setting: usize| under.iter().filter(|t| s.settings[**t] == setting).count();
    under.len() >= s.b0 && (0..s.k).all(|j| of(j + 1) >= s.b[j])
}

pub fn too_few(s: &Study) -> bool {
    s.n() < s.b0 || (0..s.k).any(|j| s.under(j + 1) < s.b[j])
}

/// The division of a study that has tides enough.
pub fn blocks_of(s: &Study) -> Blocks {
    for g in candidates(s) {
        let centres = centres_at(s, g);
        if let Some(list) = first_filling(s, &centres, g) {
            let all = 0..centres.len();
            let sizes = all.clone().map(|m| list.iter().filter(|x| **x == m).count()).collect();
            let diameters: Vec<u32> = all.map(|m| diameter(s, &list, m)).collect();
            let widest = *diameters.iter().max().unwrap();
            return Blocks { reach: g, centres, list, sizes, diameters, widest };
        }
    }
    panic!("one block of all tides is a filling at the greatest distance");
}
