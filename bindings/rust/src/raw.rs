//! The calls as they are for C: records of plain numbers, the state by value,
//! and memory that the caller lends. No call keeps anything.
//!
//! Lent memory is [`SLOTS`](crate::SLOTS) slots, [`PAYLOAD_BYTES`](crate::PAYLOAD_BYTES)
//! bytes and [`QUEUE_BYTES`](crate::QUEUE_BYTES) bytes. Node j has slots 4 j to 4 j + 3,
//! its pending frames at the front of them, oldest first; the data of slot p lie from
//! 2,048 p on, the queue of node j from 4,096 j on. The calls take any state and any
//! memory, also made-up ones, and refuse what is not valid.
//!
//! A call answers with a number: 0 when done, else that of a [`Refusal`](crate::Refusal),
//! with state or register as they were and nothing lent changed.

mod calls;

pub use calls::{
    collect, data, layout, read, register_enter, register_new, register_read, round, start, submit,
    write,
};

use crate::{MAX_NODES, MAX_OPEN};

/// Room for one pending frame.
#[repr(C)]
#[derive(Clone, Copy, Debug, Default, PartialEq, Eq)]
pub struct Slot {
    /// The round number at which the frame was accepted.
    pub accepted: u32,
    /// ID.
    pub id: u32,
    /// AF.
    pub af: u32,
    /// DL.
    pub length: u16,
    /// The code of the Transmit; 0 in a free slot.
    pub kind: u8,
    /// The number of the node that sends it.
    pub owner: u8,
    /// Ide.
    pub first: u8,
    /// Rtr, Brs or Sec.
    pub second: u8,
    /// Esi or SDT.
    pub third: u8,
    /// VCID.
    pub fourth: u8,
}

/// One node, besides its frames and the bytes of its queue.
#[repr(C)]
#[derive(Clone, Copy, Debug, Default, PartialEq, Eq)]
pub struct NodeState {
    /// The baud rates of CAN, CAN FD and CAN XL.
    pub rates: [u32; 3],
    /// The bytes in its queue.
    pub fill: u16,
    /// Its Status.
    pub status: u8,
    /// Its Arbitration Lost Behavior.
    pub behaviour: u8,
    /// How many of its frames are pending.
    pub pending: u8,
}

/// A bus, besides what lies in lent memory.
#[repr(C)]
#[derive(Clone, Copy, Debug, Default, PartialEq, Eq)]
pub struct State {
    /// How many nodes are attached. They have the numbers 0 to `count` - 1.
    pub count: u32,
    /// The round number: how many rounds were carried out.
    pub round: u32,
    /// The nodes. Nothing is asked of those that are not attached.
    pub nodes: [NodeState; MAX_NODES as usize],
}

/// What a call of the bus answers. What a call has no value for is 0.
#[repr(C)]
#[derive(Clone, Copy, Debug, Default, PartialEq, Eq)]
pub struct Answer {
    /// 0 when done, else the refusal.
    pub number: u32,
    /// The ID of the frame that a round sent.
    pub id: u32,
    /// How many rounds that frame waited.
    pub age: u32,
    /// How many bytes were collected.
    pub length: u16,
    /// The node that sent the frame.
    pub sender: u8,
    /// 1 where nothing was pending.
    pub idle: u8,
    /// 1 where an error was injected.
    pub errored: u8,
    /// The state after the call.
    pub state: State,
}

/// An operation without its data. What a kind does not have is 0 in a reading,
/// and not looked at in a writing.
#[repr(C)]
#[derive(Clone, Copy, Debug, Default, PartialEq, Eq)]
pub struct Operation {
    /// Which of the ten kinds it is.
    pub code: u32,
    /// ID.
    pub id: u32,
    /// AF, or the value of a Configuration.
    pub word: u32,
    /// DL, or the n of a Format Error.
    pub length: u16,
    /// The first of the one-byte fields, in the order of their layout.
    pub first: u8,
    /// The second of them.
    pub second: u8,
    /// The third of them.
    pub third: u8,
    /// The fourth of them.
    pub fourth: u8,
}

/// What stands at a position of a buffer.
#[repr(C)]
#[derive(Clone, Copy, Debug, Default, PartialEq, Eq)]
pub struct Reading {
    /// 1 at the end of the buffer.
    pub end: u32,
    /// 1 to 5 for bytes that are no operation.
    pub fault: u32,
    /// The position after it.
    pub next: usize,
    /// The operation, where there is one.
    pub operation: Operation,
}

/// Where in the buffer the data of an operation lie; 0 and 0 where there are none.
#[repr(C)]
#[derive(Clone, Copy, Debug, Default, PartialEq, Eq)]
pub struct Part {
    /// The position of the first byte.
    pub start: usize,
    /// How many bytes there are.
    pub length: usize,
}

/// What a writing answers.
#[repr(C)]
#[derive(Clone, Copy, Debug, Default, PartialEq, Eq)]
pub struct Written {
    /// 0 when done, else the refusal.
    pub refusal: usize,
    /// How many bytes were written.
    pub length: usize,
}

/// The frames of a node that are open.
#[repr(C)]
#[derive(Clone, Copy, Debug, PartialEq, Eq)]
pub struct Register {
    /// The IDs of the open frames, oldest first. An accepted call leaves 0 past them.
    pub ids: [u32; MAX_OPEN],
    /// How many are open.
    pub count: u32,
    /// Not 0 where the node is Bus-Off.
    pub off: u32,
}

/// What a call of the register answers.
#[repr(C)]
#[derive(Clone, Copy, Debug, PartialEq, Eq)]
pub struct RegisterAnswer {
    /// 0 when done, else the refusal.
    pub number: u32,
    /// The register after the call.
    pub register: Register,
}

/// Code of a Format Error.
pub const FORMAT_ERROR: u32 = 0x01;
/// Code of a CAN Transmit.
pub const CAN_TRANSMIT: u32 = 0x10;
/// Code of a CAN FD Transmit.
pub const CAN_FD_TRANSMIT: u32 = 0x11;
/// Code of a CAN XL Transmit.
pub const CAN_XL_TRANSMIT: u32 = 0x12;
/// Code of a Confirm.
pub const CONFIRM: u32 = 0x20;
/// Code of an Arbitration Lost.
pub const ARBITRATION_LOST: u32 = 0x30;
/// Code of a Bus Error.
pub const BUS_ERROR: u32 = 0x31;
/// Code of a Configuration.
pub const CONFIGURATION: u32 = 0x40;
/// Code of a Status.
pub const STATUS: u32 = 0x41;
/// Code of a Wakeup.
pub const WAKEUP: u32 = 0x42;

/// Holds a record against the size and the offsets that the library was built with.
macro_rules! layout {
    ($record:ident, $size:literal: $($field:ident $offset:literal),+) => {
        const _: () = {
            assert!(size_of::<$record>() == $size);
            $(assert!(std::mem::offset_of!($record, $field) == $offset);)+
        };
    };
}

layout!(Slot, 20: accepted 0, id 4, af 8, length 12, kind 14, owner 15);
layout!(Slot, 20: first 16, second 17, third 18, fourth 19);
layout!(NodeState, 20: rates 0, fill 12, status 14, behaviour 15, pending 16);
layout!(State, 168: count 0, round 4, nodes 8);
layout!(Answer, 188: number 0, id 4, age 8, length 12, sender 14, idle 15, errored 16, state 20);
layout!(Operation, 20: code 0, id 4, word 8, length 12, first 14, second 15, third 16, fourth 17);
layout!(Reading, 40: end 0, fault 4, next 8, operation 16);
layout!(Part, 16: start 0, length 8);
layout!(Written, 16: refusal 0, length 8);
layout!(Register, 1388: ids 0, count 1380, off 1384);
layout!(RegisterAnswer, 1392: number 0, register 4);
