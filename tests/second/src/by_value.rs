//! The calls of the bus in the library's form: the state by value, and one
//! record as the answer.

use kettlefrost::raw;

use crate::lent::{self, Injection, Round, Slot, State};

/// The answer of a call that is done, or refused with this number.
pub fn answer(number: u8, state: State) -> raw::Answer {
    raw::Answer { number: number.into(), state, ..raw::Answer::default() }
}

/// A refused start answers with a state of node count 0.
pub fn start(slots: &mut [Slot], payload: &[u8], queues: &[u8], count: u32) -> raw::Answer {
    match lent::start(slots, payload, queues, count) {
        Ok(state) => answer(0, state),
        Err(number) => answer(number, lent::new_state(0)),
    }
}

#[inline]
pub fn submit(
    state: State,
    slots: &mut [Slot],
    payload: &mut [u8],
    queues: &mut [u8],
    node: u32,
    buffer: &[u8],
) -> raw::Answer {
    let mut answer = answer(0, state);
    if let Err(number) = lent::submit(&mut answer.state, slots, payload, queues, node, buffer) {
        answer.number = number.into();
    }
    answer
}

#[inline]
pub fn round(
    state: State,
    slots: &mut [Slot],
    payload: &mut [u8],
    queues: &mut [u8],
    injection: Option<Injection>,
) -> raw::Answer {
    let mut answer = answer(0, state);
    match lent::round(&mut answer.state, slots, payload, queues, injection) {
        Ok(Round::Idle) => answer.idle = 1,
        Ok(Round::Carried { sender, id, errored, age }) => {
            answer.sender = sender;
            answer.id = id;
            answer.errored = errored.into();
            answer.age = age;
        }
        Err(number) => answer.number = number.into(),
    }
    answer
}

#[inline]
pub fn collect(
    state: State,
    slots: &[Slot],
    payload: &[u8],
    queues: &[u8],
    node: u32,
    buffer: &mut [u8],
) -> raw::Answer {
    let mut answer = answer(0, state);
    match lent::collect(&mut answer.state, slots, payload, queues, node, buffer) {
        Ok(length) => answer.length = length as u16,
        Err(number) => answer.number = number.into(),
    }
    answer
}
