//! The functions of the archive, as `pomtvia.h` declares them. Nothing checks these lines against their source but tests/embed.
use crate::Monitor;

extern "C" {
    pub fn pomtvia_new(m: &mut Monitor);
    pub fn pomtvia_call(m: &mut Monitor, kind: u8, process: u8, a: u8, b: u8, c: u8) -> u32;
    pub fn pomtvia_on_call(m: &mut Monitor, kind: u8, process: u8, a: u8, b: u8, c: u8) -> u32;
    pub fn pomtvia_answer_in(m: &mut Monitor, bytes: *const u8, length: usize) -> u32;
    pub fn pomtvia_run_in(m: &mut Monitor, log: *const u8, length: usize, codes: *mut u32, room: usize, count: &mut u64) -> u8;
    pub fn pomtvia_items(m: &Monitor, container: u8, set: &mut u64) -> u8;
    pub fn pomtvia_holders_in(m: &Monitor, item: u8, out: *mut u16, room: usize, count: &mut u64) -> u8;
    pub fn pomtvia_next(log: *const u8, length: usize, at: usize) -> usize;
}
