//! The count of what sessions came to.

use std::fmt;

use crate::bus::{Bus, Injection, Round, LONGEST_BUFFER};
use crate::codec::{self, Operation};
use crate::counts::Counts;
use crate::generate::CODES;
use crate::register::closed_id;
use crate::remote::Remote;
use crate::session::{self, Answer, Call, Done};

#[derive(Clone, Copy, Debug, PartialEq, Eq, PartialOrd, Ord)]
pub enum CallKind {
    Start,
    Submit,
    Round,
    Collect,
}

/// What a step of an accepted buffer was.
#[derive(Clone, Copy, Debug, PartialEq, Eq, PartialOrd, Ord)]
pub enum Step {
    Sound(u32),
    AnsweredFault(u8),
    /// A fault with the code of a Format Error.
    SilentFault(u8),
}

/// Why a frame is pending no more.
#[derive(Clone, Copy, Debug, PartialEq, Eq, PartialOrd, Ord)]
pub enum Removal {
    Delivered,
    Errored,
    Lost {
        to_own_frame: bool,
    },
    /// Accepted by an earlier buffer.
    BusOff,
    /// Accepted earlier in the buffer.
    BusOffWithin,
}

#[derive(Clone, Copy, Debug, PartialEq, Eq, PartialOrd, Ord)]
pub enum Outcome {
    Started {
        nodes: usize,
    },
    Refused(CallKind, u8),
    Step {
        step: Step,
        bus_off: bool,
    },
    /// A step that was a remote frame, with data or without.
    Remote {
        remote: Remote,
        bus_off: bool,
    },
    /// A remote frame with data whose Format Error waits in the sender's queue.
    RemoteAnswered {
        bus_off: bool,
    },
    Removed(Removal),
    /// A frame with the largest ID of Ide 0, or the one above it.
    AcceptedId(u32),
    /// Closings in the queue of a node that went Bus-Off.
    ClosingsDropped,
    /// A Transmit behind a Bus-Off that removed frames of the same buffer:
    /// without effect, or accepted because the node is back.
    BehindBusOff {
        back: bool,
    },
    /// A buffer that would have been refused but for its Bus-Off.
    BusOffMadeRoom(u8),
    EmptyBuffer,
    /// A buffer of 4,086 bytes that was taken.
    LongestBuffer,
    Idle {
        largest_round_number: bool,
    },
    Aged,
    /// Another node, or the sender, had the winner's ID pending too.
    EqualIds {
        same_node: bool,
    },
    /// A round without the Arbitration Losts would not have been refused.
    FullByArbitrationLost,
    LargestRoundNumberReached,
    Queued(u32),
    /// A remote frame that was delivered.
    QueuedRemote,
    QueuedBusError {
        detector: bool,
        sender: bool,
    },
    QueueFilled(CallKind),
    /// Refusal 9 for want of a single byte.
    OneByteShort(CallKind),
    CollectedNothing,
    CollectedExactly,
    /// A closing that a register read.
    Closed(u32),
}

pub struct SessionTally {
    rows: Counts<Outcome>,
}

impl Default for SessionTally {
    fn default() -> SessionTally {
        SessionTally::new()
    }
}

impl SessionTally {
    pub fn new() -> SessionTally {
        SessionTally { rows: Counts::of(outcomes()) }
    }

    /// The outcomes that never came up.
    pub fn missing(&self) -> impl Iterator<Item = &Outcome> {
        self.rows.missing()
    }

    pub fn start(&mut self, nodes: usize, refusal: Option<u8>) {
        self.rows.count(match refusal {
            None => Outcome::Started { nodes },
            Some(number) => Outcome::Refused(CallKind::Start, number),
        });
    }

    /// A call that took the bus from `before` to `after`.
    pub fn call(&mut self, before: &Bus, call: &Call, answer: &Answer, after: &Bus) {
        match (call, answer) {
            (call, &Err(number)) => self.refused(before, call, number),
            (Call::Submit { node, buffer }, Ok(_)) => {
                self.submitted(before, *node, buffer, added(before, after, *node));
            }
            (Call::Round { .. }, &Ok(Done::Round(round))) => self.round(before, round, after),
            (Call::Collect { room, .. }, Ok(Done::Collected(bytes))) => {
                self.collected(bytes, *room);
            }
            (call, answer) => unreachable!("{answer:?} to {call:?}"),
        }
        for number in 0..before.nodes.len() {
            self.queued(kind(call), before, after, number);
        }
    }

    fn refused(&mut self, before: &Bus, call: &Call, number: u8) {
        self.rows.count(Outcome::Refused(kind(call), number));
        if number == 9 && fits_with_a_byte_more(before, call) {
            self.rows.count(Outcome::OneByteShort(kind(call)));
        }
        if let (&Call::Round { injection }, 9) = (call, number) {
            if fits_without_losses(before, injection) {
                self.rows.count(Outcome::FullByArbitrationLost);
            }
        }
    }

    /// A buffer that was taken, and what was added to the node's queue.
    fn submitted(&mut self, before: &Bus, node: usize, buffer: &[u8], added: &[u8]) {
        match buffer.len() {
            0 => self.rows.count(Outcome::EmptyBuffer),
            LONGEST_BUFFER => self.rows.count(Outcome::LongestBuffer),
            _ => {}
        }
        if let Some(number) = refusal_without_bus_off(before, node, buffer) {
            self.rows.count(Outcome::BusOffMadeRoom(number));
        }
        let node = &before.nodes[node];
        let mut bus_off = node.is_bus_off();
        let (mut old, mut new, mut removed) = (node.pending.len(), 0, 0);
        let mut closings = closings(&node.queue).count();
        let mut remotes = Vec::new();
        for (op, bytes) in codec::operations(buffer) {
            self.rows.count(Outcome::Step { step: step(op, bytes), bus_off });
            if let Some(remote) = Remote::of(op, bytes) {
                self.rows.count(Outcome::Remote { remote, bus_off });
                if remote == Remote::WithData {
                    remotes.push((bytes, bus_off));
                }
            }
            match op {
                Ok(Operation::BUS_OFF) => {
                    self.went_bus_off(old, new, closings);
                    remotes.clear();
                    removed += new;
                    (bus_off, old, new, closings) = (true, 0, 0, 0);
                }
                Ok(Operation::Status { .. }) => bus_off = false,
                Ok(op) if op.transmit_id().is_some() => {
                    if removed > 0 {
                        self.rows.count(Outcome::BehindBusOff { back: !bus_off });
                    }
                    new += usize::from(!bus_off);
                    if let (false, Some(id @ (2_047 | 2_048))) = (bus_off, op.transmit_id()) {
                        self.rows.count(Outcome::AcceptedId(id));
                    }
                }
                _ => {}
            }
        }
        for (bytes, bus_off) in remotes {
            if has_format_error(added, bytes) {
                self.rows.count(Outcome::RemoteAnswered { bus_off });
            }
        }
    }

    fn went_bus_off(&mut self, old: usize, new: usize, closings: usize) {
        for _ in 0..old {
            self.rows.count(Outcome::Removed(Removal::BusOff));
        }
        for _ in 0..new {
            self.rows.count(Outcome::Removed(Removal::BusOffWithin));
        }
        for _ in 0..closings {
            self.rows.count(Outcome::ClosingsDropped);
        }
    }

    fn round(&mut self, before: &Bus, round: Round, after: &Bus) {
        let Round::Carried { sender, id, errored, age } = round else {
            let largest_round_number = before.round_number == u32::MAX;
            return self.rows.count(Outcome::Idle { largest_round_number });
        };
        let removal = if errored { Removal::Errored } else { Removal::Delivered };
        self.rows.count(Outcome::Removed(removal));
        if age > 0 {
            self.rows.count(Outcome::Aged);
        }
        if after.round_number == u32::MAX {
            self.rows.count(Outcome::LargestRoundNumberReached);
        }
        for (number, (before, after)) in before.nodes.iter().zip(&after.nodes).enumerate() {
            let same_node = number == sender;
            let equal = before.pending.iter().filter(|frame| frame.id == id).count();
            if equal > usize::from(same_node) {
                self.rows.count(Outcome::EqualIds { same_node });
            }
            let removed = before.pending.len() - after.pending.len();
            for _ in usize::from(same_node)..removed {
                self.rows.count(Outcome::Removed(Removal::Lost { to_own_frame: same_node }));
            }
        }
    }

    fn collected(&mut self, bytes: &[u8], room: usize) {
        if bytes.is_empty() {
            self.rows.count(Outcome::CollectedNothing);
        } else if bytes.len() == room {
            self.rows.count(Outcome::CollectedExactly);
        }
        for closing in closings(bytes) {
            self.rows.count(Outcome::Closed(closing.code()));
        }
    }

    fn queued(&mut self, call: CallKind, before: &Bus, after: &Bus, number: usize) {
        for (op, _) in codec::operations(added(before, after, number)) {
            let op = op.expect("queues hold sound operations");
            self.rows.count(Outcome::Queued(op.code()));
            if let Operation::CanTransmit { rtr: 1, length: 0, .. } = op {
                self.rows.count(Outcome::QueuedRemote);
            }
            if let Operation::BusError { error_flag, is_sender, .. } = op {
                let detector = error_flag == codec::PRIMARY_ERROR_FLAG;
                self.rows.count(Outcome::QueuedBusError { detector, sender: is_sender == 1 });
            }
        }
        if after.nodes[number].room() == 0 && before.nodes[number].room() != 0 {
            self.rows.count(Outcome::QueueFilled(call));
        }
    }
}

impl fmt::Display for SessionTally {
    fn fmt(&self, f: &mut fmt::Formatter) -> fmt::Result {
        self.rows.fmt(f)
    }
}

impl fmt::Display for Outcome {
    fn fmt(&self, f: &mut fmt::Formatter) -> fmt::Result {
        let name = |code| codec::name(code).unwrap_or("unknown");
        match *self {
            Outcome::Started { nodes } => write!(f, "started with {nodes} nodes"),
            Outcome::Refused(call, number) => write!(f, "{call:?} refused with {number}"),
            Outcome::Step { step, bus_off } => {
                match step {
                    Step::Sound(code) => write!(f, "submitted: {}", name(code)),
                    Step::AnsweredFault(number) => write!(f, "submitted: fault {number}"),
                    Step::SilentFault(number) => {
                        write!(f, "submitted: fault {number}, code of Format Error")
                    }
                }?;
                f.write_str(while_bus_off(bus_off))
            }
            Outcome::Remote { remote, bus_off } => {
                write!(f, "submitted: {}{}", remote.name(), while_bus_off(bus_off))
            }
            Outcome::RemoteAnswered { bus_off } => {
                let bus_off = while_bus_off(bus_off);
                write!(f, "queued: Format Error, remote frame with data{bus_off}")
            }
            Outcome::Queued(code) => write!(f, "queued: {}", name(code)),
            Outcome::QueuedRemote => write!(f, "queued: remote frame"),
            Outcome::Closed(code) => write!(f, "closed in a register by {}", name(code)),
            other => write!(f, "{other:?}"),
        }
    }
}

pub fn while_bus_off(bus_off: bool) -> &'static str {
    if bus_off {
        ", while Bus-Off"
    } else {
        ""
    }
}

fn kind(call: &Call) -> CallKind {
    match call {
        Call::Submit { .. } => CallKind::Submit,
        Call::Round { .. } => CallKind::Round,
        Call::Collect { .. } => CallKind::Collect,
    }
}

fn step(op: Result<Operation, u8>, bytes: &[u8]) -> Step {
    match op {
        Ok(op) => Step::Sound(op.code()),
        Err(number) if bytes.starts_with(&[1, 0, 0, 0]) => Step::SilentFault(number),
        Err(number) => Step::AnsweredFault(number),
    }
}

fn closings(bytes: &[u8]) -> impl Iterator<Item = Operation> + '_ {
    codec::operations(bytes).filter_map(|(op, _)| op.ok()).filter(|op| closed_id(op).is_some())
}

/// What the queue of a node was given; where it was emptied first, what is in it.
fn added<'a>(before: &Bus, after: &'a Bus, number: usize) -> &'a [u8] {
    let (old, new) = (&before.nodes[number].queue, &after.nodes[number].queue);
    new.strip_prefix(&old[..]).unwrap_or(new)
}

/// Whether what was added to a queue has a Format Error with these bytes.
fn has_format_error(added: &[u8], bytes: &[u8]) -> bool {
    let wanted = Operation::FormatError { length: bytes.len() as u16 }.encode(bytes);
    codec::operations(added).any(|(_, queued)| queued == wanted)
}

fn fits_without_losses(bus: &Bus, injection: Option<Injection>) -> bool {
    let mut buffering = bus.clone();
    for node in &mut buffering.nodes {
        node.behaviour = codec::BUFFER_AND_RETRANSMIT;
    }
    buffering.round(injection) != Err(9)
}

/// Whether a call refused with 9 is not if each queue holds a byte less.
fn fits_with_a_byte_more(bus: &Bus, call: &Call) -> bool {
    let mut roomier = bus.clone();
    for node in &mut roomier.nodes {
        node.queue.pop();
    }
    session::answer(&mut roomier, call) != Err(9)
}

/// What an accepted buffer is refused with when its Bus-Offs are left out.
fn refusal_without_bus_off(bus: &Bus, node: usize, buffer: &[u8]) -> Option<u8> {
    let others: Vec<&[u8]> = codec::operations(buffer)
        .filter(|(op, _)| *op != Ok(Operation::BUS_OFF))
        .map(|(_, bytes)| bytes)
        .collect();
    let others = others.concat();
    let has_bus_off = others.len() < buffer.len();
    has_bus_off.then(|| bus.clone().submit(node, &others).err()).flatten()
}

/// Every outcome there is.
fn outcomes() -> Vec<Outcome> {
    use Outcome::*;
    let mut all = vec![ClosingsDropped, Aged, FullByArbitrationLost, LargestRoundNumberReached];
    all.push(QueuedRemote);
    all.extend([EmptyBuffer, LongestBuffer, CollectedNothing, CollectedExactly]);
    all.extend([8, 9].map(BusOffMadeRoom));
    all.extend([2_047, 2_048].map(AcceptedId));
    for call in [CallKind::Submit, CallKind::Round] {
        all.extend([QueueFilled(call), OneByteShort(call)]);
    }
    all.extend((2..=8).map(|nodes| Started { nodes }));
    all.push(Refused(CallKind::Start, 2));
    all.extend([4, 5, 8, 9].map(|number| Refused(CallKind::Submit, number)));
    all.extend([6, 9, 10].map(|number| Refused(CallKind::Round, number)));
    all.extend([4, 11].map(|number| Refused(CallKind::Collect, number)));
    all.extend([Removal::Delivered, Removal::Errored].map(Removed));
    all.extend([Removal::BusOff, Removal::BusOffWithin].map(Removed));
    for yes in [false, true] {
        all.extend(steps().map(|step| Step { step, bus_off: yes }));
        all.extend(self::Remote::ALL.map(|remote| Remote { remote, bus_off: yes }));
        all.push(RemoteAnswered { bus_off: yes });
        all.push(Removed(Removal::Lost { to_own_frame: yes }));
        all.push(Idle { largest_round_number: yes });
        all.push(EqualIds { same_node: yes });
        all.push(BehindBusOff { back: yes });
        all.extend([false, true].map(|sender| QueuedBusError { detector: yes, sender }));
    }
    // Configuration and Status are for the bus alone.
    let queued = CODES.iter().filter(|code| ![codec::CONFIGURATION, codec::STATUS].contains(code));
    all.extend(queued.map(|&code| Queued(code)));
    all.extend([codec::CONFIRM, codec::ARBITRATION_LOST, codec::BUS_ERROR].map(Closed));
    all
}

fn steps() -> impl Iterator<Item = Step> {
    let sound = CODES.into_iter().map(Step::Sound);
    // A Format Error has no content rules, and its code is known.
    let silent = [1, 2, 4].map(Step::SilentFault);
    sound.chain((1..=5).map(Step::AnsweredFault)).chain(silent)
}
