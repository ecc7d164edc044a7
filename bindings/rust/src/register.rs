//! The register that a node keeps of its open frames.

use crate::{raw, Refusal};

/// The frames of a node that are open: accepted, and neither closed nor removed by Bus-Off.
///
/// A node enters each buffer whose submit was accepted and reads each one that it
/// collects. Then a frame is open exactly as often as it is still pending, or the
/// operation that closes it waits in the node's queue.
///
/// ```
/// use kettlefrost::{Bus, Operation, Refusal, Register};
///
/// let frame = Operation::CanTransmit { id: 15, ide: false, rtr: false, data: &[] }.encode()?;
/// let (mut bus, mut register) = (Bus::start(2)?, Register::new());
/// bus.submit(0, &frame)?;
/// register.enter(&frame)?;
/// assert_eq!(register.open(), [15]);
///
/// bus.round(None)?;
/// let confirm = bus.collect(0)?;
/// register.read(&confirm)?;
/// assert!(register.open().is_empty());
///
/// // What closes no open frame is not of this bus.
/// assert_eq!(register.read(&confirm), Err(Refusal::RegisterDiffers));
/// # Ok::<(), Refusal>(())
/// ```
#[derive(Clone, Debug, PartialEq, Eq)]
pub struct Register {
    record: raw::Register,
}

impl Register {
    /// A register with nothing open.
    pub fn new() -> Register {
        Register { record: raw::register_new() }
    }

    /// Enters a buffer that the node submitted, and that was accepted: its Transmits open
    /// frames, a Status Bus-Off closes all.
    ///
    /// # Errors
    ///
    /// [`Refusal::RegisterFull`].
    pub fn enter(&mut self, buffer: &[u8]) -> Result<(), Refusal> {
        self.keep(raw::register_enter(self.record, buffer))
    }

    /// Reads a buffer that the node collected: each Confirm, Arbitration Lost and Bus Error
    /// at the sender closes a frame.
    ///
    /// # Errors
    ///
    /// [`Refusal::RegisterDiffers`].
    pub fn read(&mut self, buffer: &[u8]) -> Result<(), Refusal> {
        self.keep(raw::register_read(self.record, buffer))
    }

    /// The IDs of the open frames, oldest first, repeats included.
    pub fn open(&self) -> &[u32] {
        &self.record.ids[..self.record.count as usize]
    }

    /// Whether the last Status that was entered is Bus-Off.
    pub fn is_bus_off(&self) -> bool {
        self.record.off != 0
    }

    /// Takes over the register after a call. A refused one gives it back as it was.
    fn keep(&mut self, answer: raw::RegisterAnswer) -> Result<(), Refusal> {
        self.record = answer.register;
        Refusal::check(answer.number)
    }
}

impl Default for Register {
    fn default() -> Register {
        Register::new()
    }
}
