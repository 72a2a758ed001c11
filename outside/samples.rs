//! Books to try the calls on.

use crate::calls::{enter::Enter, open::Open};
use crate::comparing::{expect, Seen};
use crate::lent::Rng;
use crate::plain::Study;
use crate::random::Metric;
use crate::runs::{run_of, Run};

/// The distances of tides on a line.
pub fn on_line(at: &[u32]) -> Metric {
    at.iter().map(|x| at.iter().map(|y| x.abs_diff(*y)).collect()).collect()
}

/// Five tides on a line at 0, 3, 5, 6 and 10 with two settings. Keeper 4 may
/// withdraw once more.
pub fn known_study() -> Study {
    Study {
        k: 2,
        b0: 2,
        b: [1, 1, 0, 0, 0, 0, 0, 0],
        withdrawals: [9, 0, 300, 65_534],
        settings: vec![1, 2, 2, 1, 2],
        distances: on_line(&[0, 3, 5, 6, 10]),
    }
}

/// What a sixth tide of the known study, at 4, enters with.
pub const KNOWN_ROW: [u32; 5] = [4, 1, 1, 2, 6];

/// Three tides at 3, 1 and 4 from one another, with two settings.
pub fn triangle() -> Study {
    Study {
        settings: vec![1, 2, 2],
        distances: vec![vec![0, 3, 1], vec![3, 0, 4], vec![1, 4, 0]],
        ..Study::empty(2)
    }
}

/// 120 tides in no order on a line, with settings 1 to 8 in turn, tight minima,
/// and both ends of the range of distances and counts.
pub fn full_study() -> Study {
    let at: Vec<u32> = (0..120).map(|i| i * 400_009 % 1_048_576).collect();
    Study {
        k: 8,
        b0: 120,
        b: [15; 8],
        withdrawals: [65_535, 1, 2, 65_534],
        settings: (0..120).map(|i| i % 8 + 1).collect(),
        distances: on_line(&at),
    }
}

/// A book of tides on a line, entered one by one; one with a twin comes in by
/// file (document 02, 2.8).
pub fn line(seen: &mut Seen, rng: &mut Rng, at: &[u32], settings: &[u8], k: usize) -> Run {
    let mut run = Run::new(rng, 1);
    expect(run.make(seen, &mut Open { k: k as u32 }), 0, "Open");
    for t in 0..at.len() {
        let row: Vec<u32> = (0..t).map(|e| at[t].abs_diff(at[e])).collect();
        let mut enter = Enter::of(rng, settings[t] as u32, &row);
        if (0..t).any(|e| at[e] == at[t] && settings[e] == settings[t]) {
            expect(run.make(seen, &mut enter), 15, "Enter of a twin");
            return run_of(seen, rng, &line_study(at, settings, k));
        }
        expect(run.make(seen, &mut enter), 0, "Enter");
    }
    run
}

/// Tides on a line in a book with b0 = 1.
pub fn line_study(at: &[u32], settings: &[u8], k: usize) -> Study {
    Study {
        settings: settings[..at.len()].iter().map(|x| *x as usize).collect(),
        distances: on_line(at),
        ..Study::empty(k)
    }
}
