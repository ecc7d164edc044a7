//! Operations in the record of the library's interface.

use kettlefrost::raw;

use crate::codec::{self, Operation};

impl Operation {
    /// The record of the operation, with the fields that it does not have taken
    /// from `base`.
    pub fn over(&self, base: raw::Operation) -> raw::Operation {
        let base = raw::Operation { code: self.code(), ..base };
        match *self {
            Operation::FormatError { length } => raw::Operation { length, ..base },
            Operation::CanTransmit { id, ide, rtr, length } => {
                raw::Operation { id, length, first: ide, second: rtr, ..base }
            }
            Operation::FdTransmit { id, ide, brs, esi, length } => {
                raw::Operation { id, length, first: ide, second: brs, third: esi, ..base }
            }
            Operation::XlTransmit { id, ide, sec, sdt, vcid, af, length } => {
                let bytes = raw::Operation { first: ide, second: sec, third: sdt, ..base };
                raw::Operation { id, word: af, length, fourth: vcid, ..bytes }
            }
            Operation::Confirm { id } | Operation::ArbitrationLost { id } => {
                raw::Operation { id, ..base }
            }
            Operation::BusError { id, error_code, error_flag, is_sender } => {
                let (first, second, third) = (error_code, error_flag, is_sender);
                raw::Operation { id, first, second, third, ..base }
            }
            Operation::Configuration { kind, value } => {
                raw::Operation { word: value, first: kind, ..base }
            }
            Operation::Status { status } => raw::Operation { first: status, ..base },
            Operation::Wakeup => base,
        }
    }
}

impl From<&Operation> for raw::Operation {
    fn from(op: &Operation) -> raw::Operation {
        op.over(raw::Operation::default())
    }
}

/// The code is none of the table.
#[derive(Clone, Copy, Debug, PartialEq, Eq)]
pub struct UnknownCode;

impl TryFrom<&raw::Operation> for Operation {
    type Error = UnknownCode;

    // By order, as readers and writers are: the benchmark calls it in more than one loop.
    #[inline(always)]
    fn try_from(record: &raw::Operation) -> Result<Operation, UnknownCode> {
        let raw::Operation { code, id, word, length, first, second, third, fourth } = *record;
        Ok(match code {
            codec::FORMAT_ERROR => Operation::FormatError { length },
            codec::CAN_TRANSMIT => Operation::CanTransmit { id, ide: first, rtr: second, length },
            codec::FD_TRANSMIT => {
                Operation::FdTransmit { id, ide: first, brs: second, esi: third, length }
            }
            codec::XL_TRANSMIT => {
                let (ide, sec, sdt, vcid, af) = (first, second, third, fourth, word);
                Operation::XlTransmit { id, ide, sec, sdt, vcid, af, length }
            }
            codec::CONFIRM => Operation::Confirm { id },
            codec::ARBITRATION_LOST => Operation::ArbitrationLost { id },
            codec::BUS_ERROR => {
                let (error_code, error_flag, is_sender) = (first, second, third);
                Operation::BusError { id, error_code, error_flag, is_sender }
            }
            codec::CONFIGURATION => Operation::Configuration { kind: first, value: word },
            codec::STATUS => Operation::Status { status: first },
            codec::WAKEUP => Operation::Wakeup,
            _ => return Err(UnknownCode),
        })
    }
}
