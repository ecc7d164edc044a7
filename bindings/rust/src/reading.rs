//! The reading of a buffer of operations.

use std::error::Error;
use std::fmt;
use std::iter::FusedIterator;

use crate::{raw, Operation};

/// Reads a buffer from its front to its end.
///
/// ```
/// use kettlefrost::{operations, Fault, Faulty, Operation, Refusal};
///
/// let mut buffer = Operation::Confirm { id: 15 }.encode()?;
/// buffer.extend([1, 2, 3]);
/// let faulty = Faulty { fault: Fault::TooFewBytes, bytes: &[1, 2, 3] };
/// let read: Vec<_> = operations(&buffer).collect();
/// assert_eq!(read, [Ok(Operation::Confirm { id: 15 }), Err(faulty)]);
/// # Ok::<(), Refusal>(())
/// ```
pub fn operations(buffer: &[u8]) -> Operations<'_> {
    Operations { buffer, at: 0 }
}

/// The operations of a buffer, made by [`operations`]. Their data lie in the buffer.
#[derive(Clone, Debug)]
pub struct Operations<'a> {
    buffer: &'a [u8],
    at: usize,
}

impl<'a> Iterator for Operations<'a> {
    type Item = Result<Operation<'a>, Faulty<'a>>;

    fn next(&mut self) -> Option<Self::Item> {
        let reading = raw::read(self.buffer, self.at);
        let bytes = &self.buffer[self.at..reading.next];
        self.at = reading.next;
        if reading.fault != 0 {
            return Some(Err(Faulty { fault: Fault::ALL[reading.fault as usize - 1], bytes }));
        }
        let part = raw::data(self.buffer, reading.operation, reading.next);
        let data = &self.buffer[part.start..][..part.length];
        Operation::of(&reading.operation, data).map(Ok)
    }
}

impl FusedIterator for Operations<'_> {}

/// Bytes that are no operation.
#[derive(Clone, Copy, Debug, PartialEq, Eq)]
pub struct Faulty<'a> {
    /// Why they are none.
    pub fault: Fault,
    /// All the bytes that the fault takes up.
    pub bytes: &'a [u8],
}

/// Why bytes are no operation: the first of these that holds.
#[derive(Clone, Copy, Debug, PartialEq, Eq, Hash)]
#[repr(u32)]
pub enum Fault {
    /// Only 1 to 7 bytes remain. They are taken up.
    TooFewBytes = 1,
    /// The length is below 8 or beyond what remains. All that remains is taken up.
    LengthOutOfRange = 2,
    /// The code is none of the table.
    UnknownCode = 3,
    /// The length is not that of the kind.
    LengthNotOfKind = 4,
    /// A content rule is broken.
    RuleBroken = 5,
}

impl Fault {
    /// All faults in the order of their numbers.
    pub const ALL: [Fault; 5] = [
        Fault::TooFewBytes,
        Fault::LengthOutOfRange,
        Fault::UnknownCode,
        Fault::LengthNotOfKind,
        Fault::RuleBroken,
    ];

    /// The number of the fault.
    pub fn number(self) -> u32 {
        self as u32
    }
}

impl fmt::Display for Fault {
    fn fmt(&self, f: &mut fmt::Formatter) -> fmt::Result {
        f.write_str(match self {
            Fault::TooFewBytes => "fewer than 8 bytes remain",
            Fault::LengthOutOfRange => "the length is below 8 or beyond the buffer",
            Fault::UnknownCode => "the code is unknown",
            Fault::LengthNotOfKind => "the length is not that of the kind",
            Fault::RuleBroken => "a content rule is broken",
        })
    }
}

impl fmt::Display for Faulty<'_> {
    fn fmt(&self, f: &mut fmt::Formatter) -> fmt::Result {
        write!(f, "{} bytes are no operation: {}", self.bytes.len(), self.fault)
    }
}

impl Error for Faulty<'_> {}
