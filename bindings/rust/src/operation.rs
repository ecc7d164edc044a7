//! The ten operations, and their writing.

use crate::{raw, Refusal};

/// The most bytes of an operation besides its data: those of a CAN XL Transmit.
const MAX_HEADER: usize = 22;

/// One of the ten operations, with its data.
///
/// DL, or the n of a Format Error, is the length of the data.
///
/// ```
/// use kettlefrost::{operations, Operation, Refusal};
///
/// let frame = Operation::CanTransmit { id: 15, ide: false, rtr: false, data: &[0xAA, 0xBB] };
/// let bytes = frame.encode()?;
/// assert_eq!(bytes, [0x10, 0, 0, 0, 18, 0, 0, 0, 15, 0, 0, 0, 0, 0, 2, 0, 0xAA, 0xBB]);
/// assert_eq!(operations(&bytes).next(), Some(Ok(frame)));
///
/// // An ID of more than 11 bits needs Ide.
/// let frame = Operation::CanTransmit { id: 2_048, ide: false, rtr: false, data: &[] };
/// assert_eq!(frame.encode(), Err(Refusal::RuleBroken));
///
/// // A remote frame has no data field.
/// let request = Operation::CanTransmit { id: 15, ide: false, rtr: true, data: &[] };
/// assert_eq!(operations(&request.encode()?).next(), Some(Ok(request)));
/// let frame = Operation::CanTransmit { id: 15, ide: false, rtr: true, data: &[0xAA] };
/// assert_eq!(frame.encode(), Err(Refusal::RuleBroken));
/// # Ok::<(), Refusal>(())
/// ```
#[derive(Clone, Copy, Debug, PartialEq, Eq)]
pub enum Operation<'a> {
    /// The bus could not take these bytes.
    FormatError {
        /// Up to 65,535 bytes.
        data: &'a [u8],
    },
    /// A CAN frame.
    CanTransmit {
        /// Up to [`MAX_STANDARD_ID`](crate::MAX_STANDARD_ID), with Ide up to
        /// [`MAX_ID`](crate::MAX_ID).
        id: u32,
        /// Whether the ID is an extended one.
        ide: bool,
        /// Whether it is a remote frame.
        rtr: bool,
        /// Up to 8 bytes; none in a remote frame.
        data: &'a [u8],
    },
    /// A CAN FD frame.
    CanFdTransmit {
        /// As of a CAN frame.
        id: u32,
        /// Whether the ID is an extended one.
        ide: bool,
        /// Bit rate switch.
        brs: bool,
        /// Error state indicator.
        esi: bool,
        /// Up to 8 bytes, or 12, 16, 20, 24, 32, 48 or 64.
        data: &'a [u8],
    },
    /// A CAN XL frame.
    CanXlTransmit {
        /// As of a CAN frame.
        id: u32,
        /// Whether the ID is an extended one.
        ide: bool,
        /// Simple extended content.
        sec: bool,
        /// Service data unit type.
        sdt: u8,
        /// Virtual CAN network ID.
        vcid: u8,
        /// Acceptance field.
        af: u32,
        /// 1 to 2,048 bytes.
        data: &'a [u8],
    },
    /// A frame of the node was delivered.
    Confirm {
        /// Its ID.
        id: u32,
    },
    /// A frame of the node lost arbitration and was discarded.
    ArbitrationLost {
        /// Its ID.
        id: u32,
    },
    /// An error destroyed a frame.
    BusError {
        /// Its ID.
        id: u32,
        /// An Error Code of the [table](crate::values).
        error_code: u8,
        /// Whether the node detected the error first: an Error Flag of the table.
        error_flag: u8,
        /// Whether it was the node's own frame.
        is_sender: bool,
    },
    /// Sets a baud rate, or what becomes of a frame that loses arbitration.
    Configuration {
        /// Which of them: a kind of the [table](crate::values).
        kind: u8,
        /// The baud rate, not 0, or an Arbitration Lost Behavior.
        value: u32,
    },
    /// Tells the status of the node.
    Status {
        /// A Status of the [table](crate::values).
        status: u8,
    },
    /// Wakes up the other nodes.
    Wakeup,
}

impl<'a> Operation<'a> {
    /// The data; none where the kind has none.
    pub fn data(&self) -> &'a [u8] {
        match *self {
            Operation::FormatError { data }
            | Operation::CanTransmit { data, .. }
            | Operation::CanFdTransmit { data, .. }
            | Operation::CanXlTransmit { data, .. } => data,
            _ => &[],
        }
    }

    /// The operation as bytes.
    ///
    /// # Errors
    ///
    /// [`Refusal::RuleBroken`].
    pub fn encode(&self) -> Result<Vec<u8>, Refusal> {
        let mut bytes = vec![0; MAX_HEADER + self.data().len()];
        let length = self.encode_into(&mut bytes)?;
        bytes.truncate(length);
        Ok(bytes)
    }

    /// Writes the operation to the front of a buffer, and gives its length.
    ///
    /// # Errors
    ///
    /// [`Refusal::RuleBroken`]; [`Refusal::BufferTooSmall`].
    pub fn encode_into(&self, buffer: &mut [u8]) -> Result<usize, Refusal> {
        let written = raw::write(self.record(), self.data(), buffer);
        Refusal::check(written.refusal as u32)?;
        Ok(written.length)
    }

    fn record(&self) -> raw::Operation {
        // Longer data than the field can tell are refused: no length is theirs.
        let length = self.data().len().try_into().unwrap_or(u16::MAX);
        let row = |code, id, word, [first, second, third, fourth]: [u8; 4]| raw::Operation {
            code,
            id,
            word,
            length,
            first,
            second,
            third,
            fourth,
        };
        match *self {
            Operation::FormatError { .. } => row(raw::FORMAT_ERROR, 0, 0, [0; 4]),
            Operation::CanTransmit { id, ide, rtr, .. } => {
                row(raw::CAN_TRANSMIT, id, 0, [ide.into(), rtr.into(), 0, 0])
            }
            Operation::CanFdTransmit { id, ide, brs, esi, .. } => {
                row(raw::CAN_FD_TRANSMIT, id, 0, [ide.into(), brs.into(), esi.into(), 0])
            }
            Operation::CanXlTransmit { id, ide, sec, sdt, vcid, af, .. } => {
                row(raw::CAN_XL_TRANSMIT, id, af, [ide.into(), sec.into(), sdt, vcid])
            }
            Operation::Confirm { id } => row(raw::CONFIRM, id, 0, [0; 4]),
            Operation::ArbitrationLost { id } => row(raw::ARBITRATION_LOST, id, 0, [0; 4]),
            Operation::BusError { id, error_code, error_flag, is_sender } => {
                row(raw::BUS_ERROR, id, 0, [error_code, error_flag, is_sender.into(), 0])
            }
            Operation::Configuration { kind, value } => {
                row(raw::CONFIGURATION, 0, value, [kind, 0, 0, 0])
            }
            Operation::Status { status } => row(raw::STATUS, 0, 0, [status, 0, 0, 0]),
            Operation::Wakeup => row(raw::WAKEUP, 0, 0, [0; 4]),
        }
    }

    /// The operation that a reading gave; none for the code 0, which stands at the end
    /// of a buffer.
    pub(crate) fn of(record: &raw::Operation, data: &'a [u8]) -> Option<Operation<'a>> {
        let raw::Operation { id, word, first, second, third, fourth, .. } = *record;
        let [ide, is_second, is_third] = [first, second, third].map(|flag| flag != 0);
        Some(match record.code {
            raw::FORMAT_ERROR => Operation::FormatError { data },
            raw::CAN_TRANSMIT => Operation::CanTransmit { id, ide, rtr: is_second, data },
            raw::CAN_FD_TRANSMIT => {
                Operation::CanFdTransmit { id, ide, brs: is_second, esi: is_third, data }
            }
            raw::CAN_XL_TRANSMIT => {
                let (sdt, vcid, af) = (third, fourth, word);
                Operation::CanXlTransmit { id, ide, sec: is_second, sdt, vcid, af, data }
            }
            raw::CONFIRM => Operation::Confirm { id },
            raw::ARBITRATION_LOST => Operation::ArbitrationLost { id },
            raw::BUS_ERROR => {
                let (error_code, error_flag) = (first, second);
                Operation::BusError { id, error_code, error_flag, is_sender: is_third }
            }
            raw::CONFIGURATION => Operation::Configuration { kind: first, value: word },
            raw::STATUS => Operation::Status { status: first },
            raw::WAKEUP => Operation::Wakeup,
            _ => return None,
        })
    }
}
