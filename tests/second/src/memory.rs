//! A state with the memory lent for it, the calls on both, and what a plain bus
//! reads from them.

use kettlefrost::raw;

use crate::bus::{self, Bus, QUEUE_CAPACITY};
use crate::by_value;
use crate::lent::{
    self, Injection, NodeState, Slot, State, PAYLOAD_BYTES, QUEUE_BYTES, SLOTS, SLOT_BYTES,
};
use crate::session;

/// The largest buffer that a queue is collected to.
pub const LARGEST_ROOM: usize = QUEUE_CAPACITY + 64;

/// A state, the lent memory and the caller's buffer. Each part is larger by one
/// than is lent, so that too much can be lent, and the end is seen to be kept.
#[derive(Clone, PartialEq, Eq)]
pub struct Memory {
    pub state: State,
    pub slots: Vec<Slot>,
    pub payload: Vec<u8>,
    pub queues: Vec<u8>,
    pub buffer: Vec<u8>,
}

/// How much of each part is lent.
#[derive(Clone, Copy, Debug, PartialEq, Eq)]
pub struct Sizes {
    pub slots: usize,
    pub payload: usize,
    pub queues: usize,
}

impl Sizes {
    pub const RIGHT: Sizes = Sizes { slots: SLOTS, payload: PAYLOAD_BYTES, queues: QUEUE_BYTES };
}

/// A call of the bus, with the numbers as wide as it takes them.
#[derive(Clone, Debug, PartialEq, Eq)]
pub enum Call {
    Start { count: u32 },
    Submit { node: u32, buffer: Vec<u8> },
    Round { injection: Option<Injection> },
    Collect { node: u32, room: usize },
}

impl Call {
    /// The call as the plain bus takes it; none for a start. A code that is
    /// wider than a byte is one that no table has.
    pub fn plain(&self) -> Option<session::Call> {
        Some(match *self {
            Call::Start { .. } => return None,
            Call::Submit { node, ref buffer } => {
                session::Call::Submit { node: node as usize, buffer: buffer.clone() }
            }
            Call::Round { injection } => session::Call::Round {
                injection: injection.map(|Injection { code, detector }| bus::Injection {
                    error_code: u8::try_from(code).unwrap_or(0),
                    detector: detector as usize,
                }),
            },
            Call::Collect { node, room } => session::Call::Collect { node: node as usize, room },
        })
    }
}

/// A bus over state and lent memory. The state of the answer is not yet that of
/// the memory.
pub trait Calls {
    fn play(&self, memory: &mut Memory, sizes: Sizes, call: &Call) -> raw::Answer;
}

/// What is lent in a call, and not a byte more.
pub struct Lent<'a> {
    pub slots: &'a mut [Slot],
    pub payload: &'a mut [u8],
    pub queues: &'a mut [u8],
    /// The caller's buffer of a submit; empty in other calls.
    pub submitted: &'a [u8],
    /// The caller's buffer of a collect; empty in other calls.
    pub room: &'a mut [u8],
}

/// A bus that sees of the memory what is lent to it.
pub trait LentCalls {
    fn answer(&self, state: State, lent: Lent, call: &Call) -> raw::Answer;
}

impl<T: LentCalls> Calls for T {
    fn play(&self, memory: &mut Memory, sizes: Sizes, call: &Call) -> raw::Answer {
        let state = memory.state;
        self.answer(state, memory.lend(sizes, call), call)
    }
}

/// The calls of a module in the library's form.
macro_rules! calls_of {
    ($side:ident, $module:ident) => {
        impl LentCalls for $side {
            fn answer(&self, state: State, lent: Lent, call: &Call) -> raw::Answer {
                let Lent { slots, payload, queues, submitted, room } = lent;
                match *call {
                    Call::Start { count } => $module::start(slots, payload, queues, count),
                    Call::Submit { node, .. } => {
                        $module::submit(state, slots, payload, queues, node, submitted)
                    }
                    Call::Round { injection } => {
                        $module::round(state, slots, payload, queues, injection)
                    }
                    Call::Collect { node, .. } => {
                        $module::collect(state, slots, payload, queues, node, room)
                    }
                }
            }
        }
    };
}

/// The bus of this package.
pub struct Second;

calls_of!(Second, by_value);

/// The proved library.
pub struct Library;

calls_of!(Library, raw);

impl Memory {
    /// Memory that nothing is in yet.
    pub fn new() -> Memory {
        Memory {
            state: lent::new_state(0),
            slots: vec![Slot::default(); SLOTS + 1],
            payload: vec![0; PAYLOAD_BYTES + 1],
            queues: vec![0; QUEUE_BYTES + 1],
            buffer: vec![0; LARGEST_ROOM],
        }
    }

    /// What is lent in this call.
    pub fn lend<'a>(&'a mut self, sizes: Sizes, call: &'a Call) -> Lent<'a> {
        let (submitted, room) = match call {
            Call::Submit { buffer, .. } => (&buffer[..], 0),
            Call::Collect { room, .. } => (&[][..], *room),
            Call::Start { .. } | Call::Round { .. } => (&[][..], 0),
        };
        Lent {
            slots: &mut self.slots[..sizes.slots],
            payload: &mut self.payload[..sizes.payload],
            queues: &mut self.queues[..sizes.queues],
            submitted,
            room: &mut self.buffer[..room],
        }
    }

    /// Takes over all of another memory, without allocating again.
    pub fn copy_from(&mut self, other: &Memory) {
        self.state = other.state;
        self.slots.copy_from_slice(&other.slots);
        self.payload.copy_from_slice(&other.payload);
        self.queues.copy_from_slice(&other.queues);
        self.buffer.copy_from_slice(&other.buffer);
    }

    /// The first part that differs, with the place in it.
    pub fn difference(&self, other: &Memory) -> Option<String> {
        if self.state != other.state {
            return Some(format!("state {:?} / {:?}", self.state, other.state));
        }
        differing("slot", &self.slots, &other.slots)
            .or_else(|| differing("payload byte", &self.payload, &other.payload))
            .or_else(|| differing("queue byte", &self.queues, &other.queues))
            .or_else(|| self.buffer_difference(other))
    }

    pub fn buffer_difference(&self, other: &Memory) -> Option<String> {
        differing("byte of the caller's buffer", &self.buffer, &other.buffer)
    }

    /// The queue of a node.
    pub fn queue(&self, number: usize) -> &[u8] {
        &self.queues[number * QUEUE_CAPACITY..][..self.state.nodes[number].fill.into()]
    }

    /// Where what is read from state and lent memory is not what a plain bus
    /// holds.
    pub fn difference_from_plain(&self, plain: &Bus) -> Option<String> {
        if self.state.count as usize != plain.nodes.len() {
            return Some(format!("node count {} / {}", self.state.count, plain.nodes.len()));
        }
        if self.state.round != plain.round_number {
            return Some(format!("round number {} / {}", self.state.round, plain.round_number));
        }
        let mut nodes = plain.nodes.iter().enumerate();
        nodes.find_map(|(number, node)| self.node_difference(number, node))
    }

    fn node_difference(&self, number: usize, plain: &bus::Node) -> Option<String> {
        let node = &self.state.nodes[number];
        let NodeState { rates, status, behaviour, .. } = *node;
        let same_entry = rates == plain.baud_rates
            && status == plain.status
            && u32::from(behaviour) == plain.behaviour;
        if !same_entry {
            return Some(format!("entry of node {number}: {node:?} / {plain:?}"));
        }
        if self.queue(number) != plain.queue {
            return Some(format!("queue of node {number}"));
        }
        let start = number * bus::PENDING_CAPACITY;
        let places = start..start + usize::from(node.pending);
        let same_frames = places.len() == plain.pending.len()
            && places.zip(&plain.pending).all(|(place, frame)| self.holds(place, frame));
        (!same_frames).then(|| format!("pending frames of node {number}"))
    }

    /// Whether a slot holds this frame.
    fn holds(&self, place: usize, frame: &bus::Frame) -> bool {
        let slot = &self.slots[place];
        let data = &self.payload[place * SLOT_BYTES..][..slot.length.into()];
        lent::operation_in(slot) == Some(frame.op)
            && slot.accepted == frame.accepted
            && frame.bytes[frame.op.header_length()..] == *data
    }
}

impl Default for Memory {
    fn default() -> Memory {
        Memory::new()
    }
}

fn differing<T: PartialEq + std::fmt::Debug>(
    what: &str,
    left: &[T],
    right: &[T],
) -> Option<String> {
    if left == right {
        return None;
    }
    let place = left.iter().zip(right).position(|(left, right)| left != right)?;
    Some(format!("{what} {place}: {:?} / {:?}", left[place], right[place]))
}
