//! Study files by their bits, and random ones.

use crate::lent::Rng;
use crate::plain::files::{counts_end, file_of, old_file_of};
use crate::plain::FAR;
use crate::random::some_study;

// where a file's fields begin
const N: usize = 8;
const K: usize = 15;
const B0: usize = 19;
const FIRST_COUNT: usize = 26;

/// Sets a field of a file's bits where the file reaches that far.
pub fn set_field(file: &mut [u8], at: usize, width: usize, value: usize) {
    for i in 0..width {
        let bit = at + i;
        if bit / 8 < file.len() {
            let mask = 0x80 >> (bit % 8);
            if value >> (width - 1 - i) & 1 == 1 {
                file[bit / 8] |= mask;
            } else {
                file[bit / 8] &= !mask;
            }
        }
    }
}

/// A field of a file's bits; 0 where the file doesn't reach that far.
fn get_field(file: &[u8], at: usize, width: usize) -> usize {
    (at..at + width)
        .fold(0, |v, i| 2 * v + file.get(i / 8).map_or(0, |b| (b >> (7 - i % 8) & 1) as usize))
}

pub fn set_n(file: &mut [u8], n: usize) {
    set_field(file, N, 7, n);
}

pub fn set_k(file: &mut [u8], k: usize) {
    set_field(file, K, 4, k);
}

pub fn set_b0(file: &mut [u8], b0: usize) {
    set_field(file, B0, 7, b0);
}

fn minima_at(file: &[u8]) -> usize {
    counts_end(get_field(file, 0, 8) as u8)
}

/// Where tide t begins, from 0.
fn tide_at(file: &[u8], t: usize) -> usize {
    minima_at(file) + 7 * get_field(file, K, 4) + 3 * t + 10 * t * t.saturating_sub(1)
}

/// The setting of tide t, less one; both from 0.
pub fn set_setting(file: &mut [u8], t: usize, setting: usize) {
    set_field(file, tide_at(file, t), 3, setting);
}

/// The distance of tide t to an earlier one, both from 0.
pub fn set_distance(file: &mut [u8], t: usize, earlier: usize, d: usize) {
    set_field(file, tide_at(file, t) + 3 + 20 * earlier, 20, d);
}

/// Sets one of the filling bits, where there is any.
pub fn set_filling(rng: &mut Rng, file: &mut [u8]) {
    let end = tide_at(file, get_field(file, N, 7));
    let fill = (8 * file.len()).saturating_sub(end);
    if fill > 0 && fill < 8 {
        set_field(file, end + rng.below(fill), 1, 1);
    }
}

/// A file made without a book: a study of its own, a third of them of the old mark.
pub fn some_file(rng: &mut Rng) -> Vec<u8> {
    let n = if rng.one_in(10) { 0 } else { rng.within(1, 9) };
    let study = some_study(rng, n);
    if rng.one_in(3) {
        old_file_of(&study)
    } else {
        file_of(&study)
    }
}

/// Spoils a file in one way.
pub fn spoil_file(rng: &mut Rng, file: &mut Vec<u8>) {
    let (n, k) = (get_field(file, N, 7), get_field(file, K, 4));
    match rng.below(16) {
        0 if !file.is_empty() => {
            let i = rng.below(file.len());
            file[i] ^= 1 << rng.below(8);
        }
        1 => set_field(file, 0, 8, rng.pick(&[0x53, 0x54, 0x55, 0x56, 0, 255, 0xD4, 0xD5, 0x45])),
        2 => set_n(file, rng.pick(&[120, 121, 122, 127, n ^ 1, 0])),
        3 => set_k(file, rng.pick(&[0, 1, 8, 9, 15, k ^ 1])),
        4 => set_b0(file, rng.pick(&[0, 1, 2, 120, 121, 127])),
        5 => {
            let count = rng.below((minima_at(file) - FIRST_COUNT) / 16);
            set_field(file, FIRST_COUNT + 16 * count, 16, rng.pick(&[0, 1, 65_534, 65_535]));
        }
        6 | 7 if k > 0 => {
            let at = minima_at(file) + 7 * rng.below(k);
            set_field(file, at, 7, rng.pick(&[0, 1, 2, 64, 120, 127]));
        }
        8 => file.truncate(rng.below(file.len() + 1)),
        9 => file.truncate(file.len().saturating_sub(1)),
        10 => {
            for _ in 0..rng.within(1, 3) {
                file.push(if rng.one_in(2) { 0 } else { rng.next() as u8 });
            }
        }
        11 => set_filling(rng, file),
        12 | 13 if n > 0 => {
            set_setting(file, rng.below(n), rng.pick(&[7, k, k.saturating_sub(1), 0]));
        }
        _ if n > 1 => {
            let t = rng.within(1, n - 1);
            let e = rng.below(t);
            let old = get_field(file, tide_at(file, t) + 3 + 20 * e, 20);
            let new = rng.pick(&[0, old + 1, old.saturating_sub(1), 2 * old + 1, FAR as usize]);
            set_distance(file, t, e, new);
        }
        _ => {}
    }
}
