//! The numbers other than 0 that calls answer with.

use std::error::Error;
use std::fmt;

/// Why a call was refused. A refused call changes nothing.
///
/// ```
/// use kettlefrost::{Bus, Operation, Refusal};
///
/// assert_eq!(Bus::start(9).unwrap_err(), Refusal::BadNodeCount);
///
/// let mut bus = Bus::start(2)?;
/// let frame = Operation::CanTransmit { id: 1, ide: false, rtr: false, data: &[] }.encode()?;
/// let refusal = bus.submit(0, &frame.repeat(5)).unwrap_err();
/// assert_eq!(refusal, Refusal::FourPending);
/// assert_eq!(refusal.number(), 8);
/// assert_eq!(refusal.to_string(), "four frames of the node are pending already");
/// assert_eq!(bus.state().nodes[0].pending, 0);
/// # Ok::<(), Refusal>(())
/// ```
#[derive(Clone, Copy, Debug, PartialEq, Eq, Hash)]
#[repr(u32)]
#[non_exhaustive]
pub enum Refusal {
    /// Lent memory is not of its sizes. No method of `Bus` gives it.
    WrongMemory = 1,
    /// The node count is not 2 to 8.
    BadNodeCount = 2,
    /// The state or the register is none that calls give. No method of `Bus` or
    /// `Register` gives it.
    Invalid = 3,
    /// There is no node of this number.
    NotAttached = 4,
    /// The submitted buffer is longer than 4,086 bytes.
    BufferTooLong = 5,
    /// The code of an injection is not in the table, or its detector is not
    /// attached or Bus-Off.
    BadInjection = 6,
    /// The operation to write breaks a content rule.
    RuleBroken = 7,
    /// Four frames of the node are pending already.
    FourPending = 8,
    /// A queue cannot hold what it is owed.
    QueueFull = 9,
    /// The round number is at its largest.
    RoundsUsedUp = 10,
    /// The caller's buffer is too small.
    BufferTooSmall = 11,
    /// 345 frames are open already.
    RegisterFull = 12,
    /// A frame is closed that is not open in the register.
    RegisterDiffers = 13,
}

impl Refusal {
    /// All refusals in the order of their numbers.
    pub const ALL: [Refusal; 13] = [
        Refusal::WrongMemory,
        Refusal::BadNodeCount,
        Refusal::Invalid,
        Refusal::NotAttached,
        Refusal::BufferTooLong,
        Refusal::BadInjection,
        Refusal::RuleBroken,
        Refusal::FourPending,
        Refusal::QueueFull,
        Refusal::RoundsUsedUp,
        Refusal::BufferTooSmall,
        Refusal::RegisterFull,
        Refusal::RegisterDiffers,
    ];

    /// The number that the call answered with.
    pub fn number(self) -> u32 {
        self as u32
    }

    /// What the number that a call of [`raw`](crate::raw) answered with means.
    ///
    /// # Panics
    ///
    /// On a number above 13, which no call gives.
    pub fn check(number: u32) -> Result<(), Refusal> {
        match number {
            0 => Ok(()),
            _ => Err(Refusal::ALL[number as usize - 1]),
        }
    }
}

impl fmt::Display for Refusal {
    fn fmt(&self, f: &mut fmt::Formatter) -> fmt::Result {
        f.write_str(match self {
            Refusal::WrongMemory => "lent memory is not 32 slots, 65,536 and 32,768 bytes",
            Refusal::BadNodeCount => "the node count is not 2 to 8",
            Refusal::Invalid => "the state or the register is not valid",
            Refusal::NotAttached => "no node of this number is attached",
            Refusal::BufferTooLong => "the buffer is longer than 4,086 bytes",
            Refusal::BadInjection => {
                "the code is not in the table, or the detecting node is not attached or Bus-Off"
            }
            Refusal::RuleBroken => "the operation breaks a content rule",
            Refusal::FourPending => "four frames of the node are pending already",
            Refusal::QueueFull => "a queue cannot hold what it is owed",
            Refusal::RoundsUsedUp => "the round number is at its largest",
            Refusal::BufferTooSmall => "the buffer is too small",
            Refusal::RegisterFull => "345 frames are open already",
            Refusal::RegisterDiffers => "a frame is closed that is not open in the register",
        })
    }
}

impl Error for Refusal {}
