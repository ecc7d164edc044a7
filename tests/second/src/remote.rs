//! Remote frames in what was read, for counts and wrong programs.

use crate::codec::{self, Operation, Rule};

/// A CAN Transmit with Rtr 1.
#[derive(Clone, Copy, Debug, PartialEq, Eq, PartialOrd, Ord)]
pub enum Remote {
    WithoutData,
    /// Sound but for its data.
    WithData,
    /// With data by its DL, and not of their length: fault 4 comes first.
    WrongLength,
}

impl Remote {
    pub const ALL: [Remote; 3] = [Remote::WithoutData, Remote::WithData, Remote::WrongLength];

    /// Which of them an operation, or a fault, with the bytes that it takes up is.
    pub fn of(op: Result<Operation, u8>, bytes: &[u8]) -> Option<Remote> {
        match op {
            Ok(Operation::CanTransmit { rtr: 1, length: 0, .. }) => Some(Remote::WithoutData),
            Err(5) if codec::parsed(bytes)?.breaks_only(Rule::RemoteData) => Some(Remote::WithData),
            Err(4) if has_data_length(bytes) => Some(Remote::WrongLength),
            _ => None,
        }
    }

    pub fn name(self) -> &'static str {
        match self {
            Remote::WithoutData => "remote frame",
            Remote::WithData => "remote frame with data",
            Remote::WrongLength => "remote frame with data, wrong length",
        }
    }
}

/// Whether these bytes start a CAN Transmit with Rtr 1 and DL 1 to 8.
fn has_data_length(bytes: &[u8]) -> bool {
    let is_can = bytes.starts_with(&codec::CAN_TRANSMIT.to_le_bytes());
    is_can && matches!(bytes.get(13..16), Some([1, 1..=8, 0]))
}
