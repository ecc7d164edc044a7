//! The floor, in C and without a check: `floor/floor.c`.

use kettlefrost::raw;
use second::lent::{Slot, State};

// As it checks nothing, each of these is sound for what the benchmark gives it
// and for little else.
extern "C" {
    pub fn floor_decode(at: *const u8, length: usize) -> u64;
    pub fn floor_write(op: *const raw::Operation, data: *const u8, to: *mut u8) -> usize;
    pub fn floor_submit(
        state: *mut State,
        slots: *mut Slot,
        payload: *mut u8,
        node: u32,
        buffer: *const u8,
    );
    pub fn floor_round(
        state: *mut State,
        slots: *mut Slot,
        payload: *mut u8,
        queues: *mut u8,
    ) -> u8;
    pub fn floor_collect(state: *mut State, queues: *const u8, node: u32, buffer: *mut u8)
        -> usize;
}
