//! A bus that owns its state and its memory.

use std::fmt;

use crate::{raw, Refusal, PAYLOAD_BYTES, QUEUE_BYTES, SLOTS};

/// A bus of two to eight nodes, which have the numbers from 0 on.
///
/// Two frames are submitted, and the lower ID goes first:
///
/// ```
/// use kettlefrost::{Bus, Operation, Refusal, Round};
///
/// let transmit = |id, data| Operation::CanTransmit { id, ide: false, rtr: false, data }.encode();
/// let confirm = |id| Operation::Confirm { id }.encode();
///
/// let mut bus = Bus::start(3)?;
/// bus.submit(0, &transmit(15, &[0xAA, 0xBB])?)?;
/// bus.submit(1, &transmit(16, &[])?)?;
/// assert_eq!(bus.round(None)?, Round::Carried { sender: 0, id: 15, errored: false, age: 0 });
/// assert_eq!(bus.round(None)?, Round::Carried { sender: 1, id: 16, errored: false, age: 1 });
/// assert_eq!(bus.state().round, 2);
///
/// assert_eq!(bus.collect(0)?, [confirm(15)?, transmit(16, &[])?].concat());
/// assert_eq!(bus.collect(1)?, [transmit(15, &[0xAA, 0xBB])?, confirm(16)?].concat());
/// assert_eq!(
///     bus.collect(2)?,
///     [
///         0x10, 0, 0, 0, 18, 0, 0, 0, 15, 0, 0, 0, 0, 0, 2, 0, 0xAA, 0xBB, //
///         0x10, 0, 0, 0, 16, 0, 0, 0, 16, 0, 0, 0, 0, 0, 0, 0,
///     ]
/// );
/// # Ok::<(), Refusal>(())
/// ```
#[derive(Clone)]
pub struct Bus {
    state: raw::State,
    slots: Box<[raw::Slot]>,
    payload: Box<[u8]>,
    queues: Box<[u8]>,
}

/// An error that destroys the frame of a round.
#[derive(Clone, Copy, Debug, PartialEq, Eq)]
pub struct Injection {
    /// An Error Code of the [table](crate::values).
    pub code: u32,
    /// The number of the node that detects the error.
    pub detector: u32,
}

/// What a round did.
#[derive(Clone, Copy, Debug, PartialEq, Eq)]
#[non_exhaustive]
pub enum Round {
    /// Nothing was pending, and nothing changed.
    Idle,
    /// A frame was sent.
    Carried {
        /// The number of its node.
        sender: u32,
        /// Its ID.
        id: u32,
        /// Whether an error was injected; if not, the frame was delivered.
        errored: bool,
        /// How many rounds were carried out since it was accepted.
        age: u32,
    },
}

impl Bus {
    /// A new bus: nothing is pending, and all queues are empty.
    ///
    /// # Errors
    ///
    /// [`Refusal::BadNodeCount`].
    pub fn start(count: u32) -> Result<Bus, Refusal> {
        let mut bus = Bus {
            state: raw::State::default(),
            slots: vec![raw::Slot::default(); SLOTS].into(),
            payload: vec![0; PAYLOAD_BYTES].into(),
            queues: vec![0; QUEUE_BYTES].into(),
        };
        let answer = raw::start(&mut bus.slots, &bus.payload, &bus.queues, count);
        bus.keep(answer)?;
        Ok(bus)
    }

    /// Takes a buffer of operations from a node, whole or not at all.
    ///
    /// # Errors
    ///
    /// [`Refusal::NotAttached`]; [`Refusal::BufferTooLong`]; [`Refusal::FourPending`] or
    /// [`Refusal::QueueFull`], whichever the first operation that fails finds.
    pub fn submit(&mut self, node: u32, buffer: &[u8]) -> Result<(), Refusal> {
        let Bus { state, slots, payload, queues } = self;
        let answer = raw::submit(*state, slots, payload, queues, node, buffer);
        self.keep(answer).map(drop)
    }

    /// Sends the first of the pending frames: the one of the lowest ID, then of the lowest
    /// node number, then the oldest. An injected error is reported to all in its place.
    ///
    /// # Errors
    ///
    /// [`Refusal::BadInjection`]; [`Refusal::QueueFull`]; [`Refusal::RoundsUsedUp`].
    pub fn round(&mut self, injection: Option<Injection>) -> Result<Round, Refusal> {
        let Bus { state, slots, payload, queues } = self;
        let answer = raw::round(*state, slots, payload, queues, injection);
        let raw::Answer { id, age, sender, idle, errored, .. } = self.keep(answer)?;
        if idle != 0 {
            return Ok(Round::Idle);
        }
        Ok(Round::Carried { sender: sender.into(), id, errored: errored != 0, age })
    }

    /// Empties the queue of a node.
    ///
    /// # Errors
    ///
    /// [`Refusal::NotAttached`].
    pub fn collect(&mut self, node: u32) -> Result<Vec<u8>, Refusal> {
        let fill = self.state.nodes.get(node as usize).map_or(0, |entry| entry.fill);
        let mut bytes = vec![0; fill.into()];
        self.collect_into(node, &mut bytes)?;
        Ok(bytes)
    }

    /// Empties the queue of a node to the front of a buffer, and gives the length. With
    /// room for [`QUEUE_CAPACITY`](crate::QUEUE_CAPACITY) bytes every queue fits.
    ///
    /// # Errors
    ///
    /// [`Refusal::NotAttached`]; [`Refusal::BufferTooSmall`].
    pub fn collect_into(&mut self, node: u32, buffer: &mut [u8]) -> Result<usize, Refusal> {
        let Bus { state, slots, payload, queues } = self;
        let answer = raw::collect(*state, slots, payload, queues, node, buffer);
        Ok(self.keep(answer)?.length.into())
    }

    /// How many nodes there are, the round number, and of each node status, settings, queue
    /// length and number of pending frames.
    pub fn state(&self) -> &raw::State {
        &self.state
    }

    /// Takes over the state after a call. A refused one gives it back as it was.
    fn keep(&mut self, answer: raw::Answer) -> Result<raw::Answer, Refusal> {
        self.state = answer.state;
        Refusal::check(answer.number)?;
        Ok(answer)
    }
}

impl fmt::Debug for Bus {
    fn fmt(&self, f: &mut fmt::Formatter) -> fmt::Result {
        f.debug_struct("Bus").field("state", &self.state).finish_non_exhaustive()
    }
}
