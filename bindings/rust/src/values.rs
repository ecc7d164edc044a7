//! The values of the standard's tables, by its names.

/// Error Code: sent and received bits are not identical.
pub const BIT_ERROR: u8 = 1;
/// Error Code: six consecutive bits of equal value.
pub const BIT_STUFFING_ERROR: u8 = 2;
/// Error Code: a violation of the End-of-Frame format.
pub const FORM_ERROR: u8 = 3;
/// Error Code: data and checksum do not agree.
pub const CRC_ERROR: u8 = 4;
/// Error Code: all receiving nodes identify an invalid frame.
pub const ACK_ERROR: u8 = 5;
/// Error Code: an invalid transmission of an error frame.
pub const BROKEN_ERROR_FRAME: u8 = 6;

/// Error Flag: the node detected the error first.
pub const PRIMARY_ERROR_FLAG: u8 = 1;
/// Error Flag: the node reacts to the error.
pub const SECONDARY_ERROR_FLAG: u8 = 2;

/// Status of a node at the start.
pub const ERROR_ACTIVE: u8 = 1;
/// Status.
pub const ERROR_PASSIVE: u8 = 2;
/// Status: the node neither sends nor receives.
pub const BUS_OFF: u8 = 3;

/// Kind of a Configuration: the CAN baud rate in bit/s.
pub const CAN_BAUDRATE: u8 = 1;
/// Kind of a Configuration: the CAN FD baud rate in bit/s.
pub const CAN_FD_BAUDRATE: u8 = 2;
/// Kind of a Configuration: the CAN XL baud rate in bit/s.
pub const CAN_XL_BAUDRATE: u8 = 3;
/// Kind of a Configuration: what becomes of a frame that loses arbitration.
pub const ARBITRATION_LOST_BEHAVIOR: u8 = 4;

/// Arbitration Lost Behavior at the start: the frame waits for the next round.
pub const BUFFER_AND_RETRANSMIT: u32 = 1;
/// Arbitration Lost Behavior: the frame is discarded, and its node is told so.
pub const DISCARD_AND_NOTIFY: u32 = 2;
