//! Compares the library's calls with the plain implementation in plain/, call by
//! call over worked cases and random runs: the answer and all memory, bit for
//! bit, also the places past each lent length. Stops with status 1 at the first
//! difference. Every run follows from fixed seeds.

mod bits;
mod calls;
mod comparing;
mod damage;
mod enumeration;
mod large;
mod lent;
mod plain;
mod random;
mod refusals;
mod runs;
mod samples;
mod sharing;

use calls::CALLS;
use comparing::{demand, Seen};
use lent::Rng;

fn main() {
    let mut seen = Seen::new();
    let mut rng = Rng(0x1D5_7EA5_0F_71DE);
    for kind in CALLS {
        for group in kind.groups {
            seen.run(kind.name, group, &mut rng);
        }
        seen.run(kind.name, &("reasons at once", kind.at_once), &mut rng);
    }
    for (about, groups) in [
        ("Any call", refusals::GROUPS),
        ("Any call", damage::GROUPS),
        ("Runs", runs::GROUPS),
        ("Runs", large::GROUPS),
    ] {
        for group in groups {
            seen.run(about, group, &mut rng);
        }
    }
    let whole = CALLS.iter().filter(|kind| !seen.total(kind)).count() == 0;
    demand(whole, || "something that is counted above was never seen".to_string());
    println!("every refusal seen through every call that can give it");
    println!("outside: {} calls compared, 0 differences", seen.calls);
}
