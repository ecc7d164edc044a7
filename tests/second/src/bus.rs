//! The plain bus between 2 to 8 attached nodes: submit, round and collect.
//!
//! A call that can still be refused on its way works on a copy, which takes the
//! place of the bus at the end; so a refusal changes nothing.

use std::cmp::Ordering;
use std::mem;

use crate::codec::{self, Operation};
use crate::refusal;

pub const QUEUE_CAPACITY: usize = 4_096;
pub const PENDING_CAPACITY: usize = 4;
/// The longest buffer that can be submitted: a Format Error with all of it
/// fills a queue.
pub const LONGEST_BUFFER: usize = 4_086;

/// A Transmit that waits for a round.
#[derive(Clone, Debug, PartialEq, Eq)]
pub struct Frame {
    /// For orders that ask for more than the ID.
    pub op: Operation,
    /// The complete operation as it was submitted.
    pub bytes: Vec<u8>,
    pub id: u32,
    /// The round number when it was accepted.
    pub accepted: u32,
}

#[derive(Clone, Debug, PartialEq, Eq)]
pub struct Node {
    pub status: u8,
    /// What happens to a frame that loses arbitration.
    pub behaviour: u32,
    /// CAN, CAN FD, CAN XL.
    pub baud_rates: [u32; 3],
    /// Oldest first.
    pub pending: Vec<Frame>,
    pub queue: Vec<u8>,
}

#[derive(Clone, Debug, PartialEq, Eq)]
pub struct Bus {
    pub nodes: Vec<Node>,
    pub round_number: u32,
}

/// An error to inject into a round.
#[derive(Clone, Copy, Debug, PartialEq, Eq)]
pub struct Injection {
    pub error_code: u8,
    /// The number of the node that detects the error.
    pub detector: usize,
}

/// What a round answers.
#[derive(Clone, Copy, Debug, PartialEq, Eq)]
pub enum Round {
    Idle,
    Carried { sender: usize, id: u32, errored: bool, age: u32 },
}

/// A pending frame in arbitration.
pub struct Contender<'a> {
    pub sender: usize,
    /// The place among the sender's pending frames, oldest first.
    pub place: usize,
    pub frame: &'a Frame,
}

/// An order among pending frames; the least of them wins.
pub type Order = fn(&Contender, &Contender) -> Ordering;

/// Lower ID number, then lower node number, then earlier accepted.
pub fn by_id(left: &Contender, right: &Contender) -> Ordering {
    let key = |contender: &Contender| (contender.frame.id, contender.sender, contender.place);
    key(left).cmp(&key(right))
}

impl Bus {
    pub fn start(nodes: usize) -> Result<Bus, u8> {
        if !(2..=8).contains(&nodes) {
            return Err(refusal::NODE_COUNT);
        }
        Ok(Bus { nodes: vec![Node::new(); nodes], round_number: 0 })
    }

    /// Takes a buffer of operations from a node (01: handing in).
    pub fn submit(&mut self, node: usize, buffer: &[u8]) -> Result<(), u8> {
        if node >= self.nodes.len() {
            return Err(refusal::NOT_ATTACHED);
        }
        if buffer.len() > LONGEST_BUFFER {
            return Err(refusal::BUFFER_TOO_LARGE);
        }
        let mut next = self.clone();
        for (op, bytes) in codec::operations(buffer) {
            next.step(node, op, bytes)?;
        }
        *self = next;
        Ok(())
    }

    /// One round of arbitration in the order by ID.
    pub fn round(&mut self, injection: Option<Injection>) -> Result<Round, u8> {
        self.round_in_order(by_id, injection)
    }

    pub fn round_in_order(
        &mut self,
        order: Order,
        injection: Option<Injection>,
    ) -> Result<Round, u8> {
        if injection.is_some_and(|injection| !self.can_inject(injection)) {
            return Err(refusal::INJECTION);
        }
        let Some((sender, place)) = self.winner(order) else {
            return Ok(Round::Idle);
        };
        let mut next = self.clone();
        let frame = next.nodes[sender].pending.remove(place);
        match injection {
            None => next.deliver(sender, &frame)?,
            Some(injection) => next.report_error(sender, frame.id, injection)?,
        }
        next.discard_losers()?;
        next.round_number = self.round_number.checked_add(1).ok_or(refusal::LAST_ROUND)?;
        let age = self.round_number - frame.accepted;
        *self = next;
        Ok(Round::Carried { sender, id: frame.id, errored: injection.is_some(), age })
    }

    /// Empties the queue of a node into a buffer of `room` bytes.
    pub fn collect(&mut self, node: usize, room: usize) -> Result<Vec<u8>, u8> {
        let node = self.nodes.get_mut(node).ok_or(refusal::NOT_ATTACHED)?;
        if node.queue.len() > room {
            return Err(refusal::NO_ROOM);
        }
        Ok(mem::take(&mut node.queue))
    }

    /// Takes one operation of a submitted buffer, or a fault and its bytes.
    fn step(&mut self, sender: usize, op: Result<Operation, u8>, bytes: &[u8]) -> Result<(), u8> {
        let round_number = self.round_number;
        let node = &mut self.nodes[sender];
        match op {
            Ok(
                op @ (Operation::CanTransmit { id, .. }
                | Operation::FdTransmit { id, .. }
                | Operation::XlTransmit { id, .. }),
            ) => node.accept(Frame { op, bytes: bytes.to_vec(), id, accepted: round_number }),
            Ok(Operation::Configuration { kind, value }) => {
                node.configure(kind, value);
                Ok(())
            }
            Ok(Operation::Status { status }) => {
                node.set_status(status);
                Ok(())
            }
            Ok(Operation::Wakeup) => self.wake_up(sender),
            Ok(Operation::FormatError { .. }) => Ok(()),
            // Never answered, so that Format Errors do not go to and fro.
            Err(_) if bytes.starts_with(&codec::FORMAT_ERROR.to_le_bytes()) => Ok(()),
            Ok(
                Operation::Confirm { .. }
                | Operation::ArbitrationLost { .. }
                | Operation::BusError { .. },
            )
            | Err(_) => node.reject(bytes),
        }
    }

    fn wake_up(&mut self, sender: usize) -> Result<(), u8> {
        if self.nodes[sender].is_bus_off() {
            return Ok(());
        }
        let wakeup = Operation::Wakeup.encode(&[]);
        self.listening()
            .filter(|&(number, _)| number != sender)
            .try_for_each(|(_, node)| node.enqueue(&wakeup))
    }

    fn can_inject(&self, injection: Injection) -> bool {
        let detects = |node: &Node| !node.is_bus_off();
        codec::is_error_code(injection.error_code)
            && self.nodes.get(injection.detector).is_some_and(detects)
    }

    /// Sender and place of the first pending frame.
    fn winner(&self, order: Order) -> Option<(usize, usize)> {
        let contenders = self.nodes.iter().enumerate().flat_map(|(sender, node)| {
            let frames = node.pending.iter().enumerate();
            frames.map(move |(place, frame)| Contender { sender, place, frame })
        });
        let winner = contenders.min_by(order)?;
        Some((winner.sender, winner.place))
    }

    fn deliver(&mut self, sender: usize, frame: &Frame) -> Result<(), u8> {
        let confirm = Operation::Confirm { id: frame.id }.encode(&[]);
        self.listening().try_for_each(|(number, node)| {
            node.enqueue(if number == sender { &confirm } else { &frame.bytes })
        })
    }

    fn report_error(&mut self, sender: usize, id: u32, injection: Injection) -> Result<(), u8> {
        let Injection { error_code, detector } = injection;
        self.listening().try_for_each(|(number, node)| {
            let error_flag = if number == detector {
                codec::PRIMARY_ERROR_FLAG
            } else {
                codec::SECONDARY_ERROR_FLAG
            };
            let is_sender = u8::from(number == sender);
            let error = Operation::BusError { id, error_code, error_flag, is_sender };
            node.enqueue(&error.encode(&[]))
        })
    }

    /// Removes what is still pending of the nodes that do not retransmit.
    fn discard_losers(&mut self) -> Result<(), u8> {
        self.nodes
            .iter_mut()
            .filter(|node| node.behaviour == codec::DISCARD_AND_NOTIFY)
            .try_for_each(Node::discard_pending)
    }

    /// The nodes that are not Bus-Off, with their numbers.
    fn listening(&mut self) -> impl Iterator<Item = (usize, &mut Node)> {
        self.nodes.iter_mut().enumerate().filter(|(_, node)| !node.is_bus_off())
    }
}

impl Node {
    fn new() -> Node {
        Node {
            status: codec::ERROR_ACTIVE,
            behaviour: codec::BUFFER_AND_RETRANSMIT,
            baud_rates: [500_000, 2_000_000, 10_000_000],
            pending: Vec::new(),
            queue: Vec::new(),
        }
    }

    pub fn is_bus_off(&self) -> bool {
        self.status == codec::BUS_OFF
    }

    /// The bytes that the queue still has room for.
    pub fn room(&self) -> usize {
        QUEUE_CAPACITY - self.queue.len()
    }

    fn accept(&mut self, frame: Frame) -> Result<(), u8> {
        if self.is_bus_off() {
            return Ok(());
        }
        if self.pending.len() == PENDING_CAPACITY {
            return Err(refusal::FOUR_PENDING);
        }
        self.pending.push(frame);
        Ok(())
    }

    fn configure(&mut self, kind: u8, value: u32) {
        match kind {
            1..=3 => self.baud_rates[usize::from(kind) - 1] = value,
            _ => self.behaviour = value,
        }
    }

    fn set_status(&mut self, status: u8) {
        self.status = status;
        if self.is_bus_off() {
            self.pending.clear();
            self.queue.clear();
        }
    }

    /// Answers bytes that are not for the bus with a Format Error.
    fn reject(&mut self, bytes: &[u8]) -> Result<(), u8> {
        let length = u16::try_from(bytes.len()).expect("a submitted buffer is shorter");
        self.enqueue(&Operation::FormatError { length }.encode(bytes))
    }

    fn discard_pending(&mut self) -> Result<(), u8> {
        mem::take(&mut self.pending).into_iter().try_for_each(|frame| {
            self.enqueue(&Operation::ArbitrationLost { id: frame.id }.encode(&[]))
        })
    }

    fn enqueue(&mut self, bytes: &[u8]) -> Result<(), u8> {
        if bytes.len() > self.room() {
            return Err(refusal::QUEUE_FULL);
        }
        self.queue.extend_from_slice(bytes);
        Ok(())
    }
}
