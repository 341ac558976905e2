//! How much of the stack a call writes to: the words below the caller's frame are filled with a value,
//! and afterwards the lowest one that holds another is sought. For x86-64, as the port's archive is.

use std::arch::asm;
use std::hint::black_box;
use std::ptr;

/// What a thread that measures must have.
pub const STACK: usize = 8 << 20;
/// The bytes that are filled.
const FILLED: usize = 4 << 20;
/// The bytes right below the stack pointer, which the filling itself may need.
const NEAR: usize = 1024;
/// What they are filled with.
const FILL: u64 = 0xa5c3_5a3c_96f0_0f69;

/// The bytes of the stack between the caller's frame and the lowest word that the call changed.
#[inline(never)]
pub fn depth(mut call: impl FnMut() -> u32) -> usize {
    let pointer: usize;
    unsafe { asm!("mov {}, rsp", out(reg) pointer, options(nomem, nostack)) };
    let top = (pointer - NEAR) & !7;
    let words = || (top - FILLED..top).step_by(8).map(|at| at as *mut u64);
    words().for_each(|word| unsafe { ptr::write_volatile(word, FILL) });
    black_box(call());
    let lowest = words().find(|&word| unsafe { ptr::read_volatile(word) } != FILL);
    lowest.map_or(NEAR, |word| pointer - word as usize)
}
