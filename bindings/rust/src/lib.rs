//! A simulated CAN bus that is proved correct: the Rust interface of Kettlefrost.
//!
//! Two to eight controller models send and receive the operations of the FMI
//! layered standard for network communication (FMI-LS-BUS: CAN, CAN FD, CAN XL).
//! The [`Bus`] between them arbitrates, delivers, confirms and reports errors; a
//! [`Register`] tells which frames of a node are still open. Every call is a
//! function that is proved to do what the rules say, for every argument.
//!
//! ```
//! use kettlefrost::values::{ARBITRATION_LOST_BEHAVIOR, DISCARD_AND_NOTIFY};
//! use kettlefrost::{operations, Bus, Operation, Round};
//!
//! let mut bus = Bus::start(3)?;
//! let frame = Operation::CanTransmit { id: 15, ide: false, rtr: false, data: &[0xAA, 0xBB] };
//! bus.submit(0, &frame.encode()?)?;
//!
//! // A frame of node 1 that loses arbitration shall not wait for the next round.
//! let (kind, value) = (ARBITRATION_LOST_BEHAVIOR, DISCARD_AND_NOTIFY);
//! let mut buffer = Operation::Configuration { kind, value }.encode()?;
//! let other = Operation::CanTransmit { id: 16, ide: false, rtr: false, data: &[] };
//! buffer.extend(other.encode()?);
//! bus.submit(1, &buffer)?;
//!
//! // The lower ID wins. Then nothing is pending any more.
//! assert_eq!(bus.round(None)?, Round::Carried { sender: 0, id: 15, errored: false, age: 0 });
//! assert_eq!(bus.round(None)?, Round::Idle);
//!
//! let collected = bus.collect(1)?;
//! let received: Vec<_> = operations(&collected).collect();
//! assert_eq!(received, [Ok(frame), Ok(Operation::ArbitrationLost { id: 16 })]);
//! assert_eq!(bus.collect(0)?, [0x20, 0, 0, 0, 12, 0, 0, 0, 15, 0, 0, 0]); // Confirm
//! # Ok::<(), kettlefrost::Refusal>(())
//! ```
//!
//! # Use
//!
//! Name this folder as a path dependency. The crate links the static library
//! `libkettlefrost.a`: from the folder that the environment variable
//! `KETTLEFROST_LIB` names (an absolute path), else from `target/staticlib` of the
//! repository, where `make target/staticlib/libkettlefrost.a` puts it. It runs on 64-bit
//! targets.
//!
//! [`Bus`], [`Register`], [`Operation`] and [`operations`] are what a program needs.
//! Under them [`raw`] has the calls as they are for C, over a state by value and
//! lent memory, for a program that keeps state and memory itself.

#![deny(missing_docs)]
#![deny(unsafe_code)]

mod bus;
mod operation;
pub mod raw;
mod reading;
mod refusal;
mod register;
pub mod values;

pub use bus::{Bus, Injection, Round};
pub use operation::Operation;
pub use reading::{operations, Fault, Faulty, Operations};
pub use refusal::Refusal;
pub use register::Register;

/// The fewest nodes of a bus.
pub const MIN_NODES: u32 = 2;
/// The most nodes of a bus.
pub const MAX_NODES: u32 = 8;
/// The most frames of one node that are pending at a time.
pub const SLOTS_PER_NODE: usize = 4;
/// The slots for pending frames in lent memory.
pub const SLOTS: usize = 32;
/// The bytes of lent memory for the data of pending frames, 2,048 a slot.
pub const PAYLOAD_BYTES: usize = 65_536;
/// The bytes that the queue of one node holds.
pub const QUEUE_CAPACITY: usize = 4_096;
/// The bytes of lent memory for the queues of all nodes.
pub const QUEUE_BYTES: usize = 32_768;
/// The longest buffer that a node can submit.
pub const MAX_SUBMIT: usize = 4_086;
/// The most frames that a register holds open.
pub const MAX_OPEN: usize = 345;
/// The largest round number.
pub const MAX_ROUND: u32 = u32::MAX;
/// The largest ID, of 29 bits.
pub const MAX_ID: u32 = 536_870_911;
/// The largest ID of 11 bits, which a Transmit with Ide 0 has.
pub const MAX_STANDARD_ID: u32 = 2_047;
