//! The calls that only look at the book: Centres, Block, Judge.

use super::blocking::{blocks_of, centres_at, diameter, meets, nearest_to, too_few, Blocks};
use super::{Memory, Study};

pub fn centres(
    memory: &Memory,
    g: u32,
    list: &mut [u8],
    nearest: &mut [u8],
    away: &mut [u32],
    count: &mut [u16],
) -> u32 {
    if memory.short() || count.len() < 1 {
        return 1;
    }
    let Some(s) = memory.study() else {
        return 21;
    };
    if s.n() == 0 {
        return 24;
    }
    let places = list.len().min(nearest.len()).min(away.len());
    if places < s.n() {
        return 1;
    }
    let centres = centres_at(&s, g);
    for (m, c) in centres.iter().enumerate() {
        list[m] = *c as u8 + 1;
    }
    for t in 0..s.n() {
        let (distance, m) = nearest_to(&s, &centres, t);
        nearest[t] = m as u8 + 1;
        away[t] = distance;
    }
    count[0] = centres.len() as u16;
    0
}

/// What Block and the tariff are lent.
pub struct Columns<'a> {
    pub list: &'a mut [u8],
    pub centres: &'a mut [u8],
    pub sizes: &'a mut [u8],
    pub diameters: &'a mut [u32],
    pub result: &'a mut [u32],
}

/// What Block and the tariff share: the refusals in Block's order, then the
/// columns and the result's first three numbers, of `figures` that it needs.
pub fn divide(
    memory: &Memory,
    columns: &mut Columns,
    figures: usize,
) -> Result<(Study, Blocks), u32> {
    if memory.short() || columns.result.len() < figures {
        return Err(1);
    }
    let Some(s) = memory.study() else {
        return Err(21);
    };
    if s.n() == 0 {
        return Err(24);
    }
    if too_few(&s) {
        return Err(25);
    }
    let Columns { list, centres, sizes, diameters, result } = columns;
    let places = list.len().min(centres.len()).min(sizes.len()).min(diameters.len());
    if places < s.n() {
        return Err(1);
    }
    let found = blocks_of(&s);
    for t in 0..s.n() {
        list[t] = found.list[t] as u8 + 1;
    }
    for m in 0..found.centres.len() {
        centres[m] = found.centres[m] as u8 + 1;
        sizes[m] = found.sizes[m] as u8;
        diameters[m] = found.diameters[m];
    }
    result[0] = found.centres.len() as u32;
    result[1] = found.reach;
    result[2] = found.widest;
    Ok((s, found))
}

pub fn block(memory: &Memory, columns: &mut Columns) -> u32 {
    match divide(memory, columns, 3) {
        Err(refusal) => refusal,
        Ok(_) => 0,
    }
}

pub fn judge(memory: &Memory, list: &[u8], result: &mut [u32]) -> u32 {
    if memory.short() || result.len() < 2 {
        return 1;
    }
    let Some(s) = memory.study() else {
        return 21;
    };
    if s.n() == 0 {
        return 24;
    }
    if list.len() != s.n() {
        return 12;
    }
    let list: Vec<usize> = list.iter().map(|x| *x as usize).collect();
    let yes = list.iter().all(|m| *m >= 1 && meets(&s, &list, *m));
    result[0] = yes as u32;
    result[1] = 0;
    if yes {
        for m in 1..=255 {
            result[1] = result[1].max(diameter(&s, &list, m));
        }
    }
    0
}
