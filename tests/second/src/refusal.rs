//! The numbers that refused calls answer with.
//!
//! 1 and 3 of the bus are about lent memory and a state handed in, which a
//! plain bus does not have; 7 and 11 of writing belong to the codec.

pub const WRONG_MEMORY: u8 = 1;
pub const NODE_COUNT: u8 = 2;
pub const INVALID_STATE: u8 = 3;
pub const INVALID_REGISTER: u8 = 3;
pub const NOT_ATTACHED: u8 = 4;
pub const BUFFER_TOO_LARGE: u8 = 5;
pub const INJECTION: u8 = 6;
pub const FOUR_PENDING: u8 = 8;
pub const QUEUE_FULL: u8 = 9;
pub const LAST_ROUND: u8 = 10;
pub const NO_ROOM: u8 = 11;
pub const REGISTER_FULL: u8 = 12;
pub const REGISTER_DIFFERS: u8 = 13;
