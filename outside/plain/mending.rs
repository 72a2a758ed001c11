//! Mending a measured table.

use super::{FAR, TIDES};

/// The table is n rows of n.
pub fn mend(table: &mut [u32], n: usize, result: &mut [u32]) -> u32 {
    if result.len() < 1 {
        return 1;
    }
    if n > TIDES {
        return 10;
    }
    if table.len() < n * n {
        return 1;
    }
    let table = &mut table[..n * n];
    if table.iter().any(|d| *d > FAR) {
        return 6;
    }
    for i in 0..n {
        for j in 0..n {
            if table[n * i + j] != table[n * j + i] || i == j && table[n * i + j] != 0 {
                return 13;
            }
        }
    }
    let sent = table.to_vec();
    while lower(table, n) {}
    let mut pairs = 0;
    for i in 0..n {
        for j in 0..i {
            if table[n * i + j] < sent[n * i + j] {
                pairs += 1;
            }
        }
    }
    result[0] = pairs;
    0
}

/// Lowers each distance that is above the sum by way of one tide, and says
/// whether there was any.
fn lower(table: &mut [u32], n: usize) -> bool {
    let mut lowered = false;
    for i in 0..n {
        for j in 0..n {
            for m in 0..n {
                let sum = table[n * i + m] + table[n * m + j];
                if table[n * i + j] > sum {
                    table[n * i + j] = sum;
                    lowered = true;
                }
            }
        }
    }
    lowered
}
