//! The proved library behind safe calls.
//!
//! Each call hands the slices' addresses and lengths to the C interface (include/hjerringsel.h)
//! and splits the answer. Rust's borrow rules keep input and output apart, which is the one
//! thing the C interface asks of its caller. An empty slice passes a dangling pointer that is
//! not null, and the length 0.
//!
//! Places always fit the 32 bits the answer has for them, whatever the length of the input: a
//! record that is judged starts at 4,487 at the latest (a 513th link of 64 nodes), what is
//! asked for is at most 4,488, and a list is judged up to index 512 at the latest. So the
//! wrapper refuses nothing of its own, not even a sheet of more than 4 GiB.

use crate::refusal::{Answer, Refusal};

mod interface {
    extern "C" {
        pub fn hjerringsel_check(sheet: *const u8, length: usize) -> u64;
        pub fn hjerringsel_next(sheet: *const u8, length: usize, out: *mut u8, room: usize) -> u64;
        pub fn hjerringsel_play(
            sheet: *const u8,
            length: usize,
            order: *const u16,
            count: usize,
            out: *mut u8,
            room: usize,
        ) -> u64;
        pub fn hjerringsel_frame(
            sheet: *const u8,
            length: usize,
            order: *const u16,
            count: usize,
            out: *mut u8,
            room: usize,
        ) -> u64;
        pub fn hjerringsel_house(
            sheet: *const u8,
            length: usize,
            out: *mut u16,
            room: usize,
        ) -> u64;
    }
}

/// The five calls as they stand in the archive; the benchmark measures their stack with them.
pub use interface::{
    hjerringsel_check, hjerringsel_frame, hjerringsel_house, hjerringsel_next, hjerringsel_play,
};

/// Splits an answer: the number in the high half (0 is accepted), value or place in the low.
fn split(answer: u64) -> Answer {
    let value = (answer & 0xffff_ffff) as usize;
    match (answer >> 32) as u32 {
        0 => Ok(value),
        number => Err(Refusal { number, place: value }),
    }
}

/// Check: answers the sheet's number of links.
#[inline]
pub fn check(sheet: &[u8]) -> Answer {
    // SAFETY: address and length are those of a borrowed slice.
    split(unsafe { hjerringsel_check(sheet.as_ptr(), sheet.len()) })
}

/// Next: writes the sheet with its new fractions; answers the bytes written.
#[inline]
pub fn next(sheet: &[u8], out: &mut [u8]) -> Answer {
    // SAFETY: as in `check`; `out` is borrowed alone, so it does not overlap the sheet.
    split(unsafe { hjerringsel_next(sheet.as_ptr(), sheet.len(), out.as_mut_ptr(), out.len()) })
}

/// Play: delivers the messages on these links in this order; writes the same as Next.
#[inline]
pub fn play(sheet: &[u8], order: &[u16], out: &mut [u8]) -> Answer {
    // SAFETY: as in `next`.
    split(unsafe {
        hjerringsel_play(
            sheet.as_ptr(),
            sheet.len(),
            order.as_ptr(),
            order.len(),
            out.as_mut_ptr(),
            out.len(),
        )
    })
}

/// Frame: as Play, but the list may stop early; writes status, mark and delay of each node.
#[inline]
pub fn frame(sheet: &[u8], order: &[u16], out: &mut [u8]) -> Answer {
    // SAFETY: as in `next`.
    split(unsafe {
        hjerringsel_frame(
            sheet.as_ptr(),
            sheet.len(),
            order.as_ptr(),
            order.len(),
            out.as_mut_ptr(),
            out.len(),
        )
    })
}

/// House order: writes the link numbers, each time the lowest that waits; answers how many.
#[inline]
pub fn house(sheet: &[u8], out: &mut [u16]) -> Answer {
    // SAFETY: as in `next`.
    split(unsafe { hjerringsel_house(sheet.as_ptr(), sheet.len(), out.as_mut_ptr(), out.len()) })
}

#[cfg(test)]
mod tests {
    use super::*;

    #[test]
    fn halves_of_an_answer() {
        assert_eq!(split(6), Ok(6));
        assert_eq!(split((8 << 32) + 1), Err(Refusal { number: 8, place: 1 }));
    }

    #[test]
    fn empty_slices_are_no_trouble() {
        assert_eq!(check(&[]), Err(Refusal { number: 1, place: 0 }));
        assert_eq!(next(&[], &mut []), Err(Refusal { number: 1, place: 0 }));
        assert_eq!(play(&[], &[], &mut []), Err(Refusal { number: 1, place: 0 }));
        assert_eq!(frame(&[], &[], &mut []), Err(Refusal { number: 1, place: 0 }));
        assert_eq!(house(&[], &mut []), Err(Refusal { number: 1, place: 0 }));
    }
}
