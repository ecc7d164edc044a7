//! The register that a node keeps of its open frames (01: the book).

use crate::codec::{self, Operation};
use crate::refusal;

/// 4 pending frames, and 341 closings of twelve bytes in a queue.
pub const REGISTER_CAPACITY: usize = 345;

#[derive(Clone, Debug, Default, PartialEq, Eq)]
pub struct Register {
    /// IDs in the order of their entry, repeats included.
    pub open: Vec<u32>,
    pub bus_off: bool,
}

/// The ID of an operation that closes a frame of the node that gets it.
///
/// A Bus Error closes only at the sender: another node may have a frame of its
/// own open with the same ID.
pub fn closed_id(op: &Operation) -> Option<u32> {
    match *op {
        Operation::Confirm { id }
        | Operation::ArbitrationLost { id }
        | Operation::BusError { id, is_sender: 1, .. } => Some(id),
        _ => None,
    }
}

impl Register {
    pub fn new() -> Register {
        Register::default()
    }

    pub fn is_valid(&self) -> bool {
        self.open.len() <= REGISTER_CAPACITY
            && self.open.iter().all(|&id| id <= codec::LARGEST_ID)
            && (!self.bus_off || self.open.is_empty())
    }

    /// Enters a buffer that the node submitted.
    pub fn enter(&mut self, buffer: &[u8]) -> Result<(), u8> {
        self.take(buffer, Register::enter_operation)
    }

    /// Reads a buffer that the node collected.
    pub fn read(&mut self, buffer: &[u8]) -> Result<(), u8> {
        self.take(buffer, Register::read_operation)
    }

    /// Takes the operations that are no faults, all of them or none.
    fn take(
        &mut self,
        buffer: &[u8],
        step: fn(&mut Register, &Operation) -> Result<(), u8>,
    ) -> Result<(), u8> {
        if !self.is_valid() {
            return Err(refusal::INVALID_REGISTER);
        }
        let mut next = self.clone();
        for op in codec::operations(buffer).filter_map(|(op, _)| op.ok()) {
            step(&mut next, &op)?;
        }
        *self = next;
        Ok(())
    }

    fn enter_operation(&mut self, op: &Operation) -> Result<(), u8> {
        if let Operation::Status { status } = *op {
            self.set_status(status);
        }
        match op.transmit_id() {
            Some(id) if !self.bus_off => self.open_frame(id),
            _ => Ok(()),
        }
    }

    fn read_operation(&mut self, op: &Operation) -> Result<(), u8> {
        closed_id(op).map_or(Ok(()), |id| self.close_frame(id))
    }

    fn set_status(&mut self, status: u8) {
        self.bus_off = status == codec::BUS_OFF;
        if self.bus_off {
            self.open.clear();
        }
    }

    fn open_frame(&mut self, id: u32) -> Result<(), u8> {
        if self.open.len() == REGISTER_CAPACITY {
            return Err(refusal::REGISTER_FULL);
        }
        self.open.push(id);
        Ok(())
    }

    fn close_frame(&mut self, id: u32) -> Result<(), u8> {
        let first = self.open.iter().position(|&open| open == id);
        self.open.remove(first.ok_or(refusal::REGISTER_DIFFERS)?);
        Ok(())
    }
}
