//! Open, Minima, Enter and Withdraw.

use super::{broken_pair, minima_fit, seven, Memory, Study, FAR, KEEPERS, TIDES};

pub fn open(memory: &mut Memory, k: u32) -> u32 {
    if memory.short() {
        return 1;
    }
    if k < 1 || k > 8 {
        return 2;
    }
    memory.store(&Study::empty(k as usize));
    0
}

pub fn minima(memory: &mut Memory, minima: &[u8]) -> u32 {
    if memory.short() || minima.len() < 9 {
        return 1;
    }
    let Some(s) = memory.study() else {
        return 21;
    };
    let mut b = [0; 8];
    for j in 0..8 {
        b[j] = minima[1 + j] as usize;
    }
    // unless it is 0, a b0 below the sum of the b's means that sum (document 02, 2.2)
    let b0 = match minima[0] as usize {
        0 => 0,
        b0 => b0.max(b.iter().sum()),
    };
    if !minima_fit(s.k, b0, &b) {
        return 3;
    }
    memory.record[2] = b0 as u16;
    for j in 0..8 {
        memory.record[3 + j] = b[j] as u16;
    }
    0
}

pub fn enter(memory: &mut Memory, setting: u32, row: &[u32]) -> u32 {
    if memory.short() {
        return 1;
    }
    let Some(mut s) = memory.study() else {
        return 21;
    };
    if s.n() == TIDES {
        return 22;
    }
    if row.len() != s.n() {
        return 4;
    }
    if setting < 1 || setting as usize > s.k {
        return 5;
    }
    if row.iter().any(|d| *d > FAR) {
        return 6;
    }
    if let Some(pair) = broken_pair(&s.distances, row) {
        return seven(pair);
    }
    // the same tide entered again (document 02, 2.8); a book may hold it twice
    if (0..s.n()).any(|t| row[t] == 0 && s.settings[t] == setting as usize) {
        return 15;
    }
    s.add_tide(setting as usize, row);
    memory.store(&s);
    0
}

pub fn withdraw(memory: &mut Memory, keeper: u32, tide: u32) -> u32 {
    if memory.short() {
        return 1;
    }
    if !(1..=KEEPERS as u32).contains(&keeper) {
        return 14;
    }
    let Some(mut s) = memory.study() else {
        return 21;
    };
    let tide = tide as usize;
    if tide < 1 || tide > s.n() {
        return 23;
    }
    let count = &mut s.withdrawals[keeper as usize - 1];
    if *count == 65_535 {
        return 26;
    }
    *count += 1;
    s.settings.remove(tide - 1);
    s.distances.remove(tide - 1);
    for row in s.distances.iter_mut() {
        row.remove(tide - 1);
    }
    memory.store(&s);
    0
}
