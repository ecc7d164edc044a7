//! Operations as bytes, by short names.

use second::bus::{Bus, QUEUE_CAPACITY};
use second::codec::{self, Operation};

pub const W1: [u8; 18] = [0x10, 0, 0, 0, 0x12, 0, 0, 0, 0x0F, 0, 0, 0, 0, 0, 0x02, 0, 0xAA, 0xBB];
pub const W2: [u8; 12] = [0x20, 0, 0, 0, 0x0C, 0, 0, 0, 0x0F, 0, 0, 0];
pub const W3: [u8; 12] = [0x30, 0, 0, 0, 0x0C, 0, 0, 0, 0x10, 0, 0, 0];

/// A CAN Transmit without data.
pub fn can(id: u32) -> Vec<u8> {
    let ide = u8::from(id > 2_047);
    Operation::CanTransmit { id, ide, rtr: 0, length: 0 }.encode(&[])
}

pub fn can_with(id: u32, ide: u8, data: &[u8]) -> Vec<u8> {
    Operation::CanTransmit { id, ide, rtr: 0, length: data.len() as u16 }.encode(data)
}

/// A remote frame, with data or without.
pub fn remote(id: u32, data: &[u8]) -> Vec<u8> {
    Operation::CanTransmit { id, ide: 0, rtr: 1, length: data.len() as u16 }.encode(data)
}

pub fn fd(id: u32, length: u16) -> Vec<u8> {
    let op = Operation::FdTransmit { id, ide: 0, brs: 1, esi: 0, length };
    op.encode(&vec![0xFD; length.into()])
}

pub fn xl(id: u32, length: u16) -> Vec<u8> {
    let op = Operation::XlTransmit { id, ide: 1, sec: 1, sdt: 3, vcid: 4, af: 5, length };
    op.encode(&vec![0x71; length.into()])
}

pub fn confirm(id: u32) -> Vec<u8> {
    Operation::Confirm { id }.encode(&[])
}

pub fn lost(id: u32) -> Vec<u8> {
    Operation::ArbitrationLost { id }.encode(&[])
}

/// A Bus Error with code 1.
pub fn bus_error(id: u32, error_flag: u8, is_sender: u8) -> Vec<u8> {
    Operation::BusError { id, error_code: 1, error_flag, is_sender }.encode(&[])
}

pub fn format_error(data: &[u8]) -> Vec<u8> {
    Operation::FormatError { length: data.len() as u16 }.encode(data)
}

pub fn status(status: u8) -> Vec<u8> {
    Operation::Status { status }.encode(&[])
}

pub fn bus_off() -> Vec<u8> {
    status(codec::BUS_OFF)
}

pub fn active() -> Vec<u8> {
    status(codec::ERROR_ACTIVE)
}

pub fn wakeup() -> Vec<u8> {
    Operation::Wakeup.encode(&[])
}

pub fn configuration(kind: u8, value: u32) -> Vec<u8> {
    Operation::Configuration { kind, value }.encode(&[])
}

pub fn discarding() -> Vec<u8> {
    configuration(4, codec::DISCARD_AND_NOTIFY)
}

/// Bytes of the given length that are one fault.
pub fn fault(length: usize) -> Vec<u8> {
    vec![0xFF; length]
}

/// Fills the empty queue of a node until `room` bytes are left.
pub fn fill(bus: &mut Bus, node: usize, room: usize) {
    assert_eq!(bus.submit(node, &fault(QUEUE_CAPACITY - 10 - room)), Ok(()));
    assert_eq!(bus.nodes[node].room(), room);
}
