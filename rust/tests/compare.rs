//! The library against the second implementation. HJERRINGSEL_INPUTS asks for another number
//! of inputs than the usual one; the program `compare` runs still more.

use hjerringsel::calls::LIBRARY;
use hjerringsel::differ::{run_all_of_a_kind, Differ};

const INPUTS: u64 = 250_000;

fn inputs() -> u64 {
    match std::env::var("HJERRINGSEL_INPUTS") {
        Ok(text) => text.parse().expect("HJERRINGSEL_INPUTS is a whole number"),
        Err(_) => INPUTS,
    }
}

#[test]
fn every_input_of_a_kind_and_random_ones() {
    let mut differ = Differ::new(&[LIBRARY]);
    run_all_of_a_kind(&mut differ);
    differ.run_cases(inputs(), 1);
    assert_eq!(differ.differences, 0, "{} inputs", differ.inputs);
    assert_eq!(differ.unseen(), [], "some answer never came up");
}
