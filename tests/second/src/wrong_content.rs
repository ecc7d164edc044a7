//! Wrong content rules (01: operations as bytes), each off by one value of one
//! field, and those of remote frames (02, Wish 7). They are planted wherever
//! content rules are asked: in reading, in writing, in what is submitted, in
//! pending frames and in registers.

use crate::codec::{self, Operation, Rule, LARGEST_ID, LARGEST_STANDARD_ID};

use codec::Rule::RemoteData;
use codec::{ARBITRATION_LOST as LOST, BUS_ERROR, CONFIGURATION, CONFIRM, STATUS};
use codec::{CAN_TRANSMIT as CAN, FD_TRANSMIT as FD, XL_TRANSMIT as XL};
use Operation::{ArbitrationLost, BusError, CanTransmit, Configuration, Confirm, Status};
use Operation::{FdTransmit, XlTransmit};
use Wrong::{Instead, Passes, Refused};

type Is = fn(&Operation) -> bool;

#[derive(Clone, Copy)]
pub enum Wrong {
    /// Such an operation is taken for sound, if it breaks one rule alone.
    Passes(Is),
    /// Such an operation is not taken for sound.
    Refused(Is),
    /// In place of a rule it is asked whether the operation is such a one.
    Instead(Rule, Is),
}

/// The wrong rules by the code of their kind and by name.
#[rustfmt::skip]
const WRONG_CONTENT: &[(u32, &str, Wrong)] = &[
    // "Ide, Rtr, Brs, Esi, Sec and Is Sender are 0 or 1."
    (CAN, "Ide 2 passes", Passes(|op| matches!(op, CanTransmit { ide: 2, .. }))),
    (CAN, "Ide 1 is refused", Refused(|op| matches!(op, CanTransmit { ide: 1, .. }))),
    (CAN, "Rtr 2 passes", Passes(|op| matches!(op, CanTransmit { rtr: 2, .. }))),
    (FD, "Ide 2 passes", Passes(|op| matches!(op, FdTransmit { ide: 2, .. }))),
    (FD, "Ide 1 is refused", Refused(|op| matches!(op, FdTransmit { ide: 1, .. }))),
    (FD, "Brs 2 passes", Passes(|op| matches!(op, FdTransmit { brs: 2, .. }))),
    (FD, "Brs 1 is refused", Refused(|op| matches!(op, FdTransmit { brs: 1, .. }))),
    (FD, "Esi 2 passes", Passes(|op| matches!(op, FdTransmit { esi: 2, .. }))),
    (FD, "Esi 1 is refused", Refused(|op| matches!(op, FdTransmit { esi: 1, .. }))),
    (XL, "Ide 2 passes", Passes(|op| matches!(op, XlTransmit { ide: 2, .. }))),
    (XL, "Ide 1 is refused", Refused(|op| matches!(op, XlTransmit { ide: 1, .. }))),
    (XL, "Sec 2 passes", Passes(|op| matches!(op, XlTransmit { sec: 2, .. }))),
    (XL, "Sec 1 is refused", Refused(|op| matches!(op, XlTransmit { sec: 1, .. }))),
    (BUS_ERROR, "Is Sender 2 passes", Passes(|op| matches!(op, BusError { is_sender: 2, .. }))),
    (BUS_ERROR, "Is Sender 1 is refused", Refused(|op| matches!(op, BusError { is_sender: 1, .. }))),
    // "With Ide 0 an ID in any Transmit is at most 2,047; with Ide 1 at most 536,870,911."
    (CAN, "ID 2,048 passes with Ide 0", Passes(|op| is_transmit(op, 0, 2_048))),
    (CAN, "ID 2,047 is refused with Ide 0", Refused(|op| is_transmit(op, 0, 2_047))),
    (CAN, "ID 2,048 is refused with Ide 1", Refused(|op| is_transmit(op, 1, 2_048))),
    (CAN, "ID 536,870,912 passes with Ide 1", Passes(|op| is_transmit(op, 1, 536_870_912))),
    (CAN, "ID 536,870,911 is refused with Ide 1", Refused(|op| is_transmit(op, 1, 536_870_911))),
    (FD, "ID 2,048 passes with Ide 0", Passes(|op| is_transmit(op, 0, 2_048))),
    (FD, "ID 2,047 is refused with Ide 0", Refused(|op| is_transmit(op, 0, 2_047))),
    (FD, "ID 2,048 is refused with Ide 1", Refused(|op| is_transmit(op, 1, 2_048))),
    (FD, "ID 536,870,912 passes with Ide 1", Passes(|op| is_transmit(op, 1, 536_870_912))),
    (FD, "ID 536,870,911 is refused with Ide 1", Refused(|op| is_transmit(op, 1, 536_870_911))),
    (XL, "ID 2,048 passes with Ide 0", Passes(|op| is_transmit(op, 0, 2_048))),
    (XL, "ID 2,047 is refused with Ide 0", Refused(|op| is_transmit(op, 0, 2_047))),
    (XL, "ID 2,048 is refused with Ide 1", Refused(|op| is_transmit(op, 1, 2_048))),
    (XL, "ID 536,870,912 passes with Ide 1", Passes(|op| is_transmit(op, 1, 536_870_912))),
    (XL, "ID 536,870,911 is refused with Ide 1", Refused(|op| is_transmit(op, 1, 536_870_911))),
    // "An ID in Confirm, Arbitration Lost or Bus Error is at most 536,870,911."
    (CONFIRM, "ID 536,870,912 passes", Passes(|op| matches!(op, Confirm { id: 536_870_912 }))),
    (CONFIRM, "ID 536,870,911 is refused", Refused(|op| matches!(op, Confirm { id: LARGEST_ID }))),
    (CONFIRM, "ID 2,048 is refused", Refused(|op| matches!(op, Confirm { id: 2_048 }))),
    (LOST, "ID 536,870,912 passes", Passes(|op| matches!(op, ArbitrationLost { id: 536_870_912 }))),
    (LOST, "ID 536,870,911 is refused", Refused(|op| *op == ArbitrationLost { id: LARGEST_ID })),
    (LOST, "ID 2,048 is refused", Refused(|op| matches!(op, ArbitrationLost { id: 2_048 }))),
    (BUS_ERROR, "ID 536,870,912 passes", Passes(|op| is_bus_error(op, 536_870_912))),
    (BUS_ERROR, "ID 536,870,911 is refused", Refused(|op| is_bus_error(op, LARGEST_ID))),
    (BUS_ERROR, "ID 2,048 is refused", Refused(|op| is_bus_error(op, 2_048))),
    // "DL is 0 to 8 for CAN;"
    (CAN, "DL 9 passes", Passes(|op| op.data_length() == 9)),
    (CAN, "DL 8 is refused", Refused(|op| op.data_length() == 8)),
    (CAN, "DL 0 is refused", Refused(|op| op.data_length() == 0)),
    // "0 to 8, 12, 16, 20, 24, 32, 48 or 64 for FD;"
    (FD, "DL 0 is refused", Refused(|op| op.data_length() == 0)),
    (FD, "DL 8 is refused", Refused(|op| op.data_length() == 8)),
    (FD, "DL 9 passes", Passes(|op| op.data_length() == 9)),
    (FD, "DL 11 passes", Passes(|op| op.data_length() == 11)),
    (FD, "DL 12 is refused", Refused(|op| op.data_length() == 12)),
    (FD, "DL 13 passes", Passes(|op| op.data_length() == 13)),
    (FD, "DL 16 is refused", Refused(|op| op.data_length() == 16)),
    (FD, "DL 17 passes", Passes(|op| op.data_length() == 17)),
    (FD, "DL 20 is refused", Refused(|op| op.data_length() == 20)),
    (FD, "DL 21 passes", Passes(|op| op.data_length() == 21)),
    (FD, "DL 24 is refused", Refused(|op| op.data_length() == 24)),
    (FD, "DL 28 passes", Passes(|op| op.data_length() == 28)),
    (FD, "DL 32 is refused", Refused(|op| op.data_length() == 32)),
    (FD, "DL 40 passes", Passes(|op| op.data_length() == 40)),
    (FD, "DL 48 is refused", Refused(|op| op.data_length() == 48)),
    (FD, "DL 56 passes", Passes(|op| op.data_length() == 56)),
    (FD, "DL 64 is refused", Refused(|op| op.data_length() == 64)),
    (FD, "DL 65 passes", Passes(|op| op.data_length() == 65)),
    // "1 to 2,048 for XL."
    (XL, "DL 0 passes", Passes(|op| op.data_length() == 0)),
    (XL, "DL 1 is refused", Refused(|op| op.data_length() == 1)),
    (XL, "DL 2,048 is refused", Refused(|op| op.data_length() == 2_048)),
    (XL, "DL 2,049 passes", Passes(|op| op.data_length() == 2_049)),
    // 02: "Reading and writing now treat Rtr 1 with DL above 0 as a broken content rule"
    (CAN, "the rule of remote frames is left out", Instead(RemoteData, |_| true)),
    (CAN, "the rule of remote frames asks Rtr 0", Instead(RemoteData, |op| !is_can(op, 0, 1))),
    (CAN, "a remote frame is refused with DL 8 only", Instead(RemoteData, |op| !is_can(op, 1, 8))),
    (CAN, "a remote frame is refused from DL 2 on", Instead(RemoteData, |op| !is_can(op, 1, 2))),
    (CAN, "a remote frame is refused with DL 0 too", Instead(RemoteData, |op| !is_can(op, 1, 0))),
    (CAN, "a remote frame with data passes with Ide 0", Passes(|op| is_remote_with_data(op, 0))),
    (CAN, "a remote frame with data passes with Ide 1", Passes(|op| is_remote_with_data(op, 1))),
    (FD, "Brs 1 is refused with DL above 0", Refused(|op| has_brs(op) && op.data_length() > 0)),
    // "A baud rate is not 0."
    (CONFIGURATION, "CAN baud rate 0 passes", Passes(|op| is_configuration(op, 1, 0))),
    (CONFIGURATION, "CAN baud rate 1 is refused", Refused(|op| is_configuration(op, 1, 1))),
    (CONFIGURATION, "FD baud rate 0 passes", Passes(|op| is_configuration(op, 2, 0))),
    (CONFIGURATION, "FD baud rate 1 is refused", Refused(|op| is_configuration(op, 2, 1))),
    (CONFIGURATION, "XL baud rate 0 passes", Passes(|op| is_configuration(op, 3, 0))),
    (CONFIGURATION, "XL baud rate 1 is refused", Refused(|op| is_configuration(op, 3, 1))),
    // "Kind 4 carries 1 (BUFFER_AND_RETRANSMIT) or 2 (DISCARD_AND_NOTIFY)."
    (CONFIGURATION, "behaviour 0 passes", Passes(|op| is_configuration(op, 4, 0))),
    (CONFIGURATION, "behaviour 1 is refused", Refused(|op| is_configuration(op, 4, 1))),
    (CONFIGURATION, "behaviour 2 is refused", Refused(|op| is_configuration(op, 4, 2))),
    (CONFIGURATION, "behaviour 3 passes", Passes(|op| is_configuration(op, 4, 3))),
    // "Error Code, Error Flag and Status have a value from their table."
    (BUS_ERROR, "Error Code 0 passes", Passes(|op| matches!(op, BusError { error_code: 0, .. }))),
    (BUS_ERROR, "Error Code 1 is refused", Refused(|op| has_error_code(op, 1))),
    (BUS_ERROR, "Error Code 6 is refused", Refused(|op| has_error_code(op, 6))),
    (BUS_ERROR, "Error Code 7 passes", Passes(|op| has_error_code(op, 7))),
    (BUS_ERROR, "Error Flag 0 passes", Passes(|op| has_error_flag(op, 0))),
    (BUS_ERROR, "Error Flag 1 is refused", Refused(|op| has_error_flag(op, 1))),
    (BUS_ERROR, "Error Flag 2 is refused", Refused(|op| has_error_flag(op, 2))),
    (BUS_ERROR, "Error Flag 3 passes", Passes(|op| has_error_flag(op, 3))),
    (STATUS, "status 0 passes", Passes(|op| matches!(op, Status { status: 0 }))),
    (STATUS, "status 1 is refused", Refused(|op| matches!(op, Status { status: 1 }))),
    (STATUS, "status 2 is refused", Refused(|op| matches!(op, Status { status: 2 }))),
    (STATUS, "status 3 is refused", Refused(|op| matches!(op, Status { status: 3 }))),
    (STATUS, "status 4 passes", Passes(|op| matches!(op, Status { status: 4 }))),
    // "SDT, VCID and AF are free."
    (XL, "SDT 255 is refused", Refused(|op| matches!(op, XlTransmit { sdt: 255, .. }))),
    (XL, "VCID 255 is refused", Refused(|op| matches!(op, XlTransmit { vcid: 255, .. }))),
    (XL, "AF 4,294,967,295 is refused", Refused(|op| matches!(op, XlTransmit { af: u32::MAX, .. }))),
];

/// The wrong rules of some kinds, named for the place where they are planted.
pub fn wrong_content<'a>(
    place: &'a str,
    codes: &'a [u32],
) -> impl Iterator<Item = (String, WrongRule)> + 'a {
    let rules = WRONG_CONTENT.iter().filter(|(code, ..)| codes.contains(code));
    rules.map(move |&(code, name, wrong)| {
        let kind = codec::name(code).unwrap_or("unknown");
        (format!("{place}: {kind}: {name}"), WrongRule { code, wrong })
    })
}

/// A wrong rule of one kind.
#[derive(Clone, Copy)]
pub struct WrongRule {
    code: u32,
    wrong: Wrong,
}

impl WrongRule {
    /// Whether an operation is sound by the wrong rule.
    pub fn is_sound(&self, op: &Operation) -> bool {
        let mut broken = 0;
        op.check(|_| broken += 1);
        match self.wrong {
            _ if op.code() != self.code => broken == 0,
            Passes(is) => broken == 0 || broken == 1 && is(op),
            Refused(is) => broken == 0 && !is(op),
            Instead(rule, is) => (broken == 0 || op.breaks_only(rule)) && is(op),
        }
    }

    /// A buffer that is taken by the rules as this one is by the wrong rule, but
    /// for the value on which they differ.
    pub fn rewritten(&self, buffer: &[u8]) -> Vec<u8> {
        let mut out = Vec::with_capacity(buffer.len());
        for (op, bytes) in codec::operations(buffer) {
            let start = out.len();
            out.extend_from_slice(bytes);
            match op {
                Ok(op) if !self.is_sound(&op) => out[start + 1] = 0xFF,
                Err(5) => {
                    let op = codec::parsed(bytes).expect("faults 3 and 4 come first");
                    if self.is_sound(&op) {
                        out.truncate(start);
                        out.extend(mended_bytes(&op, bytes));
                    }
                }
                _ => {}
            }
        }
        out
    }
}

fn mended_bytes(op: &Operation, bytes: &[u8]) -> Vec<u8> {
    let mended = mended(op);
    let mut data = bytes[op.header_length()..].to_vec();
    data.resize(mended.data_length(), 0);
    mended.encode(&data)
}

/// An operation with the values nearest to its own that are sound.
pub fn mended(op: &Operation) -> Operation {
    match *op {
        CanTransmit { id, ide, rtr, length } => {
            let (id, ide) = mended_id(id, ide);
            let (rtr, length) = (rtr.min(1), length.min(8));
            let rtr = if codec::rtr_allows(rtr, length) { rtr } else { 0 };
            CanTransmit { id, ide, rtr, length }
        }
        FdTransmit { id, ide, brs, esi, length } => {
            let (id, ide) = mended_id(id, ide);
            let length = if codec::is_fd_length(length) { length } else { 8 };
            FdTransmit { id, ide, brs: brs.min(1), esi: esi.min(1), length }
        }
        XlTransmit { id, ide, sec, sdt, vcid, af, length } => {
            let (id, ide) = mended_id(id, ide);
            let length = length.clamp(1, 2_048);
            XlTransmit { id, ide, sec: sec.min(1), sdt, vcid, af, length }
        }
        Confirm { id } => Confirm { id: id.min(LARGEST_ID) },
        ArbitrationLost { id } => ArbitrationLost { id: id.min(LARGEST_ID) },
        BusError { id, error_code, error_flag, is_sender } => BusError {
            id: id.min(LARGEST_ID),
            error_code: error_code.clamp(1, 6),
            error_flag: error_flag.clamp(1, 2),
            is_sender: is_sender.min(1),
        },
        Configuration { kind: 4, value } => Configuration { kind: 4, value: value.clamp(1, 2) },
        Configuration { kind, value } => Configuration { kind, value: value.max(1) },
        Status { status } => Status { status: status.clamp(1, 3) },
        Operation::FormatError { .. } | Operation::Wakeup => *op,
    }
}

fn mended_id(id: u32, ide: u8) -> (u32, u8) {
    (id.min(if ide == 0 { LARGEST_STANDARD_ID } else { LARGEST_ID }), ide.min(1))
}

fn is_transmit(op: &Operation, wanted_ide: u8, wanted_id: u32) -> bool {
    match *op {
        CanTransmit { id, ide, .. } | FdTransmit { id, ide, .. } | XlTransmit { id, ide, .. } => {
            (ide, id) == (wanted_ide, wanted_id)
        }
        _ => false,
    }
}

/// Whether this is a CAN Transmit with this Rtr, and a DL from `least` on.
fn is_can(op: &Operation, wanted: u8, least: u16) -> bool {
    matches!(*op, CanTransmit { rtr, length, .. } if rtr == wanted && length >= least)
}

fn is_remote_with_data(op: &Operation, wanted_ide: u8) -> bool {
    is_can(op, 1, 1) && matches!(*op, CanTransmit { ide, .. } if ide == wanted_ide)
}

fn has_brs(op: &Operation) -> bool {
    matches!(op, FdTransmit { brs: 1, .. })
}

fn is_bus_error(op: &Operation, wanted: u32) -> bool {
    matches!(*op, BusError { id, .. } if id == wanted)
}

fn has_error_code(op: &Operation, wanted: u8) -> bool {
    matches!(*op, BusError { error_code, .. } if error_code == wanted)
}

fn has_error_flag(op: &Operation, wanted: u8) -> bool {
    matches!(*op, BusError { error_flag, .. } if error_flag == wanted)
}

fn is_configuration(op: &Operation, wanted_kind: u8, wanted: u32) -> bool {
    matches!(*op, Configuration { kind, value } if (kind, value) == (wanted_kind, wanted))
}
