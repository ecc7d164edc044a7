//! The calls, with a slice where C has a pointer and a length: all the unsafe code
//! there is.
//!
//! The library reads within the lengths that it is given, writes within those of what
//! is lent as mutable, keeps no pointer and takes any bytes as content. So a call is
//! sound where each pointer comes with the length of its slice, and no two overlap of
//! which one is mutable, which is what the borrows say.

#![allow(unsafe_code)]

use super::{Answer, Operation, Part, Reading, Register, RegisterAnswer, Slot, State, Written};
use crate::Injection;

// SAFETY: these are the functions that the library exports, with its records.
unsafe extern "C" {
    fn kf_start(
        slots: *mut Slot,
        slots_length: usize,
        payload: *const u8,
        payload_length: usize,
        queues: *const u8,
        queues_length: usize,
        count: u32,
    ) -> Answer;
    fn kf_submit(
        state: State,
        slots: *mut Slot,
        slots_length: usize,
        payload: *mut u8,
        payload_length: usize,
        queues: *mut u8,
        queues_length: usize,
        node: u32,
        buffer: *const u8,
        buffer_length: usize,
    ) -> Answer;
    fn kf_round(
        state: State,
        slots: *mut Slot,
        slots_length: usize,
        payload: *mut u8,
        payload_length: usize,
        queues: *mut u8,
        queues_length: usize,
        injected: u32,
        code: u32,
        detector: u32,
    ) -> Answer;
    fn kf_collect(
        state: State,
        slots: *const Slot,
        slots_length: usize,
        payload: *const u8,
        payload_length: usize,
        queues: *const u8,
        queues_length: usize,
        node: u32,
        buffer: *mut u8,
        buffer_length: usize,
    ) -> Answer;
    fn kf_read(buffer: *const u8, length: usize, at: usize) -> Reading;
    fn kf_data(buffer: *const u8, length: usize, operation: Operation, next: usize) -> Part;
    fn kf_write(
        operation: Operation,
        data: *const u8,
        data_length: usize,
        buffer: *mut u8,
        buffer_length: usize,
    ) -> Written;
    safe fn kf_register_new() -> Register;
    fn kf_register_enter(register: Register, buffer: *const u8, length: usize) -> RegisterAnswer;
    fn kf_register_read(register: Register, buffer: *const u8, length: usize) -> RegisterAnswer;
    safe fn kf_layout() -> u64;
}

/// Frees all slots, and gives the state of a new bus of `count` nodes.
#[inline]
pub fn start(slots: &mut [Slot], payload: &[u8], queues: &[u8], count: u32) -> Answer {
    // SAFETY: each pointer with the length of its slice.
    unsafe {
        kf_start(
            slots.as_mut_ptr(),
            slots.len(),
            payload.as_ptr(),
            payload.len(),
            queues.as_ptr(),
            queues.len(),
            count,
        )
    }
}

/// Takes a buffer of operations from a node, whole or not at all.
#[inline]
pub fn submit(
    state: State,
    slots: &mut [Slot],
    payload: &mut [u8],
    queues: &mut [u8],
    node: u32,
    buffer: &[u8],
) -> Answer {
    // SAFETY: each pointer with the length of its slice.
    unsafe {
        kf_submit(
            state,
            slots.as_mut_ptr(),
            slots.len(),
            payload.as_mut_ptr(),
            payload.len(),
            queues.as_mut_ptr(),
            queues.len(),
            node,
            buffer.as_ptr(),
            buffer.len(),
        )
    }
}

/// Carries out one round of arbitration.
#[inline]
pub fn round(
    state: State,
    slots: &mut [Slot],
    payload: &mut [u8],
    queues: &mut [u8],
    injection: Option<Injection>,
) -> Answer {
    let Injection { code, detector } = injection.unwrap_or(Injection { code: 0, detector: 0 });
    // SAFETY: each pointer with the length of its slice.
    unsafe {
        kf_round(
            state,
            slots.as_mut_ptr(),
            slots.len(),
            payload.as_mut_ptr(),
            payload.len(),
            queues.as_mut_ptr(),
            queues.len(),
            injection.is_some().into(),
            code,
            detector,
        )
    }
}

/// Empties the queue of a node to the front of a buffer.
#[inline]
pub fn collect(
    state: State,
    slots: &[Slot],
    payload: &[u8],
    queues: &[u8],
    node: u32,
    buffer: &mut [u8],
) -> Answer {
    // SAFETY: each pointer with the length of its slice.
    unsafe {
        kf_collect(
            state,
            slots.as_ptr(),
            slots.len(),
            payload.as_ptr(),
            payload.len(),
            queues.as_ptr(),
            queues.len(),
            node,
            buffer.as_mut_ptr(),
            buffer.len(),
        )
    }
}

/// Reads the operation at a position.
#[inline]
pub fn read(buffer: &[u8], at: usize) -> Reading {
    // SAFETY: the pointer with the length of its slice.
    unsafe { kf_read(buffer.as_ptr(), buffer.len(), at) }
}

/// Finds the data of an operation that was read and ends at `next`.
#[inline]
pub fn data(buffer: &[u8], operation: Operation, next: usize) -> Part {
    // SAFETY: the pointer with the length of its slice.
    unsafe { kf_data(buffer.as_ptr(), buffer.len(), operation, next) }
}

/// Writes an operation with its data to the front of a buffer.
#[inline]
pub fn write(operation: Operation, data: &[u8], buffer: &mut [u8]) -> Written {
    // SAFETY: each pointer with the length of its slice.
    unsafe { kf_write(operation, data.as_ptr(), data.len(), buffer.as_mut_ptr(), buffer.len()) }
}

/// Gives a register with nothing open.
#[inline]
pub fn register_new() -> Register {
    kf_register_new()
}

/// Enters a buffer whose submit was accepted.
#[inline]
pub fn register_enter(register: Register, buffer: &[u8]) -> RegisterAnswer {
    // SAFETY: the pointer with the length of its slice.
    unsafe { kf_register_enter(register, buffer.as_ptr(), buffer.len()) }
}

/// Reads a buffer that was collected.
#[inline]
pub fn register_read(register: Register, buffer: &[u8]) -> RegisterAnswer {
    // SAFETY: the pointer with the length of its slice.
    unsafe { kf_register_read(register, buffer.as_ptr(), buffer.len()) }
}

/// The sizes of the library's records as one number, three decimal digits a size: of
/// [`RegisterAnswer`], [`Answer`], [`Slot`], [`Reading`], [`Part`] and [`Written`], in which
/// the other records lie.
#[inline]
pub fn layout() -> u64 {
    kf_layout()
}
