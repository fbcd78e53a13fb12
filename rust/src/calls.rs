//! The five calls as one table, so that every test can be run on each implementation.

use crate::refusal::Answer;
use crate::{library, rival, second};

/// One implementation of the five calls.
#[derive(Clone, Copy)]
pub struct Calls {
    pub name: &'static str,
    pub check: fn(&[u8]) -> Answer,
    pub next: fn(&[u8], &mut [u8]) -> Answer,
    pub play: fn(&[u8], &[u16], &mut [u8]) -> Answer,
    pub frame: fn(&[u8], &[u16], &mut [u8]) -> Answer,
    pub house: fn(&[u8], &mut [u16]) -> Answer,
}

pub const LIBRARY: Calls = Calls {
    name: "library",
    check: library::check,
    next: library::next,
    play: library::play,
    frame: library::frame,
    house: library::house,
};

pub const SECOND: Calls = Calls {
    name: "second",
    check: second::check,
    next: second::next,
    play: second::play,
    frame: second::frame,
    house: second::house,
};

pub const RIVAL: Calls = Calls {
    name: "rival",
    check: rival::check,
    next: rival::next,
    play: rival::play,
    frame: rival::frame,
    house: rival::house,
};
