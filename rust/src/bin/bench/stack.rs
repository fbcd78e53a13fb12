//! The deepest stack a call of the library uses.
//!
//! A call is made on a stack of our own, filled with a pattern beforehand: the stack pointer is
//! set to its top, the call made, and the pointer set back. The lowest byte that then differs
//! from the pattern is how deep the call went, its return address included. Each call is made
//! on two patterns, lest a byte that happens to equal the pattern hides the depth. What a frame
//! reserves at its deep end and never writes does not show. The five calls have at most six
//! arguments, all of which travel in registers, so nothing has to be copied to the new stack.

use hjerringsel::library::{
    hjerringsel_check, hjerringsel_frame, hjerringsel_house, hjerringsel_next, hjerringsel_play,
};
use hjerringsel::generate::any_sheet;
use hjerringsel::orders::any_list;
use hjerringsel::random::Random;

use crate::Case;

const STACK_BYTES: usize = 1 << 20;
const PATTERNS: [u8; 2] = [0xa5, 0x5a];

/// Random sheets, right and wrong, that are tried besides the timed ones.
const SHEETS: u64 = 200;

struct Stack {
    bytes: Vec<u8>,
}

impl Stack {
    fn new() -> Stack {
        Stack { bytes: vec![0; STACK_BYTES] }
    }

    /// Bytes of stack that one call uses.
    fn depth_of(&mut self, call: *const (), arguments: [usize; 6]) -> usize {
        PATTERNS.map(|pattern| self.depth_on(pattern, call, arguments)).into_iter().max().unwrap_or(0)
    }

    fn depth_on(&mut self, pattern: u8, call: *const (), arguments: [usize; 6]) -> usize {
        self.bytes.fill(pattern);
        // The interface wants the stack pointer to be a multiple of 16 where a call is made.
        let top = (self.bytes.as_ptr() as usize + STACK_BYTES) & !15;
        // SAFETY: the new stack is ours and large; the call keeps r12 as every call must.
        unsafe { call_on(top, call, arguments) };
        let lowest = self.bytes.iter().position(|&byte| byte != pattern).unwrap_or(STACK_BYTES);
        assert!(lowest > 0, "the stack was too small to measure");
        top.saturating_sub(self.bytes.as_ptr() as usize + lowest)
    }
}

#[cfg(target_arch = "x86_64")]
unsafe fn call_on(top: usize, call: *const (), arguments: [usize; 6]) {
    std::arch::asm!(
        "mov r12, rsp",
        "mov rsp, {top}",
        "call {call}",
        "mov rsp, r12",
        top = in(reg) top,
        call = in(reg) call,
        inout("rdi") arguments[0] => _,
        inout("rsi") arguments[1] => _,
        inout("rdx") arguments[2] => _,
        inout("rcx") arguments[3] => _,
        inout("r8") arguments[4] => _,
        inout("r9") arguments[5] => _,
        out("r12") _,
        clobber_abi("C"),
    );
}

/// Depths of the five calls on one sheet with one list.
fn depths(stack: &mut Stack, sheet: &[u8], order: &[u16]) -> [usize; 5] {
    let mut out = vec![0u8; sheet.len().max(6 * 64)];
    let mut numbers = vec![0u16; 512];
    let (address, length) = (sheet.as_ptr() as usize, sheet.len());
    let (list, count) = (order.as_ptr() as usize, order.len());
    let (to, room) = (out.as_mut_ptr() as usize, out.len());
    let (to_numbers, numbers_room) = (numbers.as_mut_ptr() as usize, numbers.len());
    [
        stack.depth_of(hjerringsel_check as *const (), [address, length, 0, 0, 0, 0]),
        stack.depth_of(hjerringsel_next as *const (), [address, length, to, room, 0, 0]),
        stack.depth_of(hjerringsel_play as *const (), [address, length, list, count, to, room]),
        stack.depth_of(hjerringsel_frame as *const (), [address, length, list, count, to, room]),
        stack.depth_of(hjerringsel_house as *const (), [address, length, to_numbers, numbers_room, 0, 0]),
    ]
}

pub fn print_deepest(cases: &[Case]) {
    let mut stack = Stack::new();
    let mut deepest = [0; 5];
    let mut deepen = |found: [usize; 5]| {
        for (most, depth) in deepest.iter_mut().zip(found) {
            *most = depth.max(*most);
        }
    };
    for case in cases {
        deepen(depths(&mut stack, &case.sheet, &case.order));
    }
    for seed in 0..SHEETS {
        let mut random = Random::new(seed);
        let sheet = any_sheet(&mut random);
        let order = any_list(8, &mut random);
        deepen(depths(&mut stack, &sheet, &order));
    }
    let [check, next, play, frame, house] = deepest;
    println!(
        "deepest stack of the library in bytes: Check {check}, Next {next}, Play {play}, Frame {frame}, House {house}; of all {}",
        deepest.into_iter().max().unwrap_or(0)
    );
}
