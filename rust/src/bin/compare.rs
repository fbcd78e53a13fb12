//! The large comparison: `compare [count [seed]]`.
//!
//! Runs at least so many inputs through the library, the rival and the second implementation.
//! A difference is printed with the seed of its case; `compare 1 SEED` runs that case again.

use hjerringsel::calls::{LIBRARY, RIVAL};
use hjerringsel::differ::{run_all_of_a_kind, Differ};
use std::process::ExitCode;

const COUNT: u64 = 2_000_000;
const SEED: u64 = 1;

/// From this many inputs on, every number of every call must have come up.
const ENOUGH_FOR_ALL: u64 = 100_000;

fn argument(place: usize, otherwise: u64) -> u64 {
    match std::env::args().nth(place) {
        None => otherwise,
        Some(text) => text.parse().unwrap_or_else(|_| {
            eprintln!("usage: compare [count [seed]]");
            std::process::exit(2)
        }),
    }
}

fn main() -> ExitCode {
    let (count, seed) = (argument(1, COUNT), argument(2, SEED));
    let mut differ = Differ::new(&[LIBRARY, RIVAL]);
    if count >= ENOUGH_FOR_ALL {
        run_all_of_a_kind(&mut differ);
    }
    differ.run_cases(count, seed);
    differ.print_seen();
    let mut fine = differ.differences == 0;
    if count >= ENOUGH_FOR_ALL && fine {
        for (call, number) in differ.unseen() {
            println!("no input made {call:?} answer number {number}");
            fine = false;
        }
    }
    println!("compare: {} inputs, {} differences", differ.inputs, differ.differences);
    if fine {
        ExitCode::SUCCESS
    } else {
        ExitCode::FAILURE
    }
}
