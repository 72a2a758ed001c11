//! Study files: Read and Write.

use super::{broken_pair, minima_fit, seven, Memory, Study, KEEPERS, TIDES};

/// The file's bits, most significant first.
fn put(bits: &mut Vec<bool>, value: usize, width: usize) {
    for i in (0..width).rev() {
        bits.push(value >> i & 1 == 1);
    }
}

/// The field of some width at a bit position.
fn field(file: &[u8], at: usize, width: usize) -> usize {
    let mut value = 0;
    for i in at..at + width {
        value = 2 * value + (file[i / 8] >> (7 - i % 8) & 1) as usize;
    }
    value
}

/// New files bear this mark and carry a count for each keeper.
pub const MARK: u8 = 0x55;
/// The mark of document 01, with one count, which is keeper 1's.
pub const OLD_MARK: u8 = 0x54;

/// Where the counts end in a file of this mark.
pub fn counts_end(mark: u8) -> usize {
    if mark == MARK {
        90
    } else {
        42
    }
}

pub fn bit_length(mark: u8, k: usize, n: usize) -> usize {
    counts_end(mark) + 7 * k + 3 * n + if n == 0 { 0 } else { 10 * n * (n - 1) }
}

pub fn byte_length(mark: u8, k: usize, n: usize) -> usize {
    (bit_length(mark, k, n) + 7) / 8
}

/// The bytes of a study's file.
pub fn file_of(s: &Study) -> Vec<u8> {
    marked_file(MARK, &s.withdrawals, s)
}

/// Its file as document 01 has it, with keeper 1's count alone.
pub fn old_file_of(s: &Study) -> Vec<u8> {
    marked_file(OLD_MARK, &s.withdrawals[..1], s)
}

fn marked_file(mark: u8, counts: &[u16], s: &Study) -> Vec<u8> {
    let mut bits = vec![];
    put(&mut bits, mark as usize, 8);
    put(&mut bits, s.n(), 7);
    put(&mut bits, s.k, 4);
    put(&mut bits, s.b0, 7);
    for count in counts {
        put(&mut bits, *count as usize, 16);
    }
    for j in 0..s.k {
        put(&mut bits, s.b[j], 7);
    }
    for t in 0..s.n() {
        put(&mut bits, s.settings[t] - 1, 3);
        for e in 0..t {
            put(&mut bits, s.distances[t][e] as usize, 20);
        }
    }
    assert_eq!(bits.len(), bit_length(mark, s.k, s.n()));
    while bits.len() % 8 != 0 {
        bits.push(false);
    }
    bits.chunks(8).map(|c| c.iter().fold(0, |byte, bit| 2 * byte + *bit as u8)).collect()
}

/// The study that a file gives, or the refusal.
pub fn study_of(file: &[u8]) -> Result<Study, u32> {
    let mark = mark_of(file)?;
    let n = field(file, 8, 7);
    if n > TIDES {
        return Err(10);
    }
    let k = field(file, 15, 4);
    if k < 1 || k > 8 {
        return Err(2);
    }
    if file.len() != byte_length(mark, k, n) {
        return Err(8);
    }
    let mut s = Study::empty(k);
    s.b0 = field(file, 19, 7);
    let counts = if mark == MARK { KEEPERS } else { 1 };
    for u in 0..counts {
        s.withdrawals[u] = field(file, 26 + 16 * u, 16) as u16;
    }
    for j in 0..k {
        s.b[j] = field(file, counts_end(mark) + 7 * j, 7);
    }
    if !minima_fit(k, s.b0, &s.b) {
        return Err(3);
    }
    let end = bit_length(mark, k, n);
    if field(file, end, 8 * file.len() - end) != 0 {
        return Err(11);
    }
    read_tides(file, counts_end(mark) + 7 * k, n, &mut s)?;
    Ok(s)
}

/// The mark of a file that is long enough for it.
fn mark_of(file: &[u8]) -> Result<u8, u32> {
    if file.len() < 6 {
        return Err(8);
    }
    let mark = file[0];
    if mark != MARK && mark != OLD_MARK {
        return Err(9);
    }
    if mark == MARK && file.len() < 12 {
        return Err(8);
    }
    Ok(mark)
}

/// The n tides whose fields begin at a bit position.
fn read_tides(file: &[u8], mut at: usize, n: usize, s: &mut Study) -> Result<(), u32> {
    for t in 0..n {
        let setting = field(file, at, 3) + 1;
        if setting > s.k {
            return Err(5);
        }
        let row: Vec<u32> = (0..t).map(|e| field(file, at + 3 + 20 * e, 20) as u32).collect();
        if let Some(pair) = broken_pair(&s.distances, &row) {
            return Err(seven(pair));
        }
        s.add_tide(setting, &row);
        at += 3 + 20 * t;
    }
    Ok(())
}

pub fn read(memory: &mut Memory, file: &[u8]) -> u32 {
    if memory.short() {
        return 1;
    }
    match study_of(file) {
        Err(refusal) => refusal,
        Ok(s) => {
            memory.store(&s);
            0
        }
    }
}

pub fn write(memory: &Memory, file: &mut [u8], result: &mut [u32]) -> u32 {
    if memory.short() || result.len() < 1 {
        return 1;
    }
    let Some(s) = memory.study() else {
        return 21;
    };
    let bytes = file_of(&s);
    if file.len() < bytes.len() {
        return 1;
    }
    file[..bytes.len()].copy_from_slice(&bytes);
    result[0] = bytes.len() as u32;
    0
}
