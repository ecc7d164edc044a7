//! The bus over a state and lent memory: 32 slots for pending frames, 2,048
//! bytes of data for each of them, and 4,096 bytes of queue for each node.
//!
//! Node j has slots 4 j to 4 j + 3, its pending frames at the front of them,
//! oldest first; slot p has the payload from 2,048 p on, node j the queues'
//! bytes from 4,096 j on. What holds nothing is left as it is.
//!
//! A call decides before it writes, so a refusal changes nothing. Nothing is
//! allocated, and the frames are gone through once a call: this bus is the
//! measure of another's speed.

use crate::bus::{LONGEST_BUFFER, PENDING_CAPACITY, QUEUE_CAPACITY};
use crate::codec::{self, Operation};
use crate::refusal;

// The library's records: both buses work on the same memory. A layout is no rule.
pub use kettlefrost::raw::{NodeState, Slot, State};
pub use kettlefrost::Injection;

pub const NODES: usize = 8;
pub const SLOTS: usize = NODES * PENDING_CAPACITY;
/// The most data that a frame has.
pub const SLOT_BYTES: usize = 2_048;
pub const PAYLOAD_BYTES: usize = SLOTS * SLOT_BYTES;
pub const QUEUE_BYTES: usize = NODES * QUEUE_CAPACITY;

const WAKEUP_LENGTH: usize = 8;
const FORMAT_ERROR_HEADER: usize = 10;
/// Of Confirm and of Arbitration Lost.
const CLOSING_LENGTH: usize = 12;
const BUS_ERROR_LENGTH: usize = 15;

/// What a round answers.
#[derive(Clone, Copy, Debug, PartialEq, Eq)]
pub enum Round {
    Idle,
    Carried { sender: u8, id: u32, errored: bool, age: u32 },
}

/// Frees all slots and gives the state of a new bus.
pub fn start(slots: &mut [Slot], payload: &[u8], queues: &[u8], count: u32) -> Result<State, u8> {
    let slots: &mut [Slot; SLOTS] = sized(slots)?;
    check_sizes(payload, queues)?;
    if !(2..=8).contains(&count) {
        return Err(refusal::NODE_COUNT);
    }
    *slots = [Slot::default(); SLOTS];
    Ok(new_state(count))
}

/// Takes a buffer of operations from a node (01: handing in).
#[inline]
pub fn submit(
    state: &mut State,
    slots: &mut [Slot],
    payload: &mut [u8],
    queues: &mut [u8],
    node: u32,
    buffer: &[u8],
) -> Result<(), u8> {
    let mut bus = Bus::over(state, slots, payload, queues)?;
    if !is_valid(bus.state, bus.slots, |_, _| ()) {
        return Err(refusal::INVALID_STATE);
    }
    let sender = attached_number(bus.state, node)?;
    if buffer.len() > LONGEST_BUFFER {
        return Err(refusal::BUFFER_TOO_LARGE);
    }
    decide(bus.state, sender, buffer)?;
    for step in steps(buffer) {
        bus.take(sender, step);
    }
    Ok(())
}

/// One round of arbitration.
#[inline]
pub fn round(
    state: &mut State,
    slots: &mut [Slot],
    payload: &mut [u8],
    queues: &mut [u8],
    injection: Option<Injection>,
) -> Result<Round, u8> {
    let mut bus = Bus::over(state, slots, payload, queues)?;
    // The order among frames as one number: ID, then node, then age.
    let mut first = u64::MAX;
    let arbitrate =
        |place: usize, slot: &Slot| first = first.min(u64::from(slot.id) << 32 | place as u64);
    if !is_valid(bus.state, bus.slots, arbitrate) {
        return Err(refusal::INVALID_STATE);
    }
    if injection.is_some_and(|injection| !can_inject(bus.state, injection)) {
        return Err(refusal::INJECTION);
    }
    if first == u64::MAX {
        return Ok(Round::Idle);
    }
    bus.carry_out(first as usize % SLOTS, injection)
}

/// Empties the queue of a node to the front of the caller's buffer, and gives
/// the length.
#[inline]
pub fn collect(
    state: &mut State,
    slots: &[Slot],
    payload: &[u8],
    queues: &[u8],
    node: u32,
    buffer: &mut [u8],
) -> Result<usize, u8> {
    let slots: &[Slot; SLOTS] = slots.try_into().map_err(|_| refusal::WRONG_MEMORY)?;
    check_sizes(payload, queues)?;
    if !is_valid(state, slots, |_, _| ()) {
        return Err(refusal::INVALID_STATE);
    }
    let number = attached_number(state, node)?;
    let fill = &mut state.nodes[number].fill;
    let length = usize::from(*fill);
    let front = buffer.get_mut(..length).ok_or(refusal::NO_ROOM)?;
    front.copy_from_slice(&queues[number * QUEUE_CAPACITY..][..length]);
    *fill = 0;
    Ok(length)
}

fn sized<T, const N: usize>(lent: &mut [T]) -> Result<&mut [T; N], u8> {
    lent.try_into().map_err(|_| refusal::WRONG_MEMORY)
}

fn check_sizes(payload: &[u8], queues: &[u8]) -> Result<(), u8> {
    if payload.len() == PAYLOAD_BYTES && queues.len() == QUEUE_BYTES {
        Ok(())
    } else {
        Err(refusal::WRONG_MEMORY)
    }
}

/// What one operation of a submitted buffer, or a fault, asks of the bus.
enum Step<'a> {
    Nothing,
    Transmit {
        op: Operation,
        data: &'a [u8],
    },
    Configure {
        kind: u8,
        value: u32,
    },
    Status(u8),
    Wakeup,
    /// To be answered with a Format Error of these bytes.
    Reject(&'a [u8]),
}

#[inline(always)]
fn steps(buffer: &[u8]) -> impl Iterator<Item = Step<'_>> {
    codec::operations(buffer).map(|(op, bytes)| match op {
        Ok(
            op @ (Operation::CanTransmit { .. }
            | Operation::FdTransmit { .. }
            | Operation::XlTransmit { .. }),
        ) => Step::Transmit { op, data: &bytes[op.header_length()..] },
        Ok(Operation::Configuration { kind, value }) => Step::Configure { kind, value },
        Ok(Operation::Status { status }) => Step::Status(status),
        Ok(Operation::Wakeup) => Step::Wakeup,
        Ok(Operation::FormatError { .. }) => Step::Nothing,
        Err(_) if bytes.starts_with(&codec::FORMAT_ERROR.to_le_bytes()) => Step::Nothing,
        Ok(_) | Err(_) => Step::Reject(bytes),
    })
}

/// The state with the lent memory, which has its sizes.
struct Bus<'a> {
    state: &'a mut State,
    slots: &'a mut [Slot; SLOTS],
    payload: &'a mut [u8; PAYLOAD_BYTES],
    queues: &'a mut [u8; QUEUE_BYTES],
}

impl<'a> Bus<'a> {
    #[inline]
    fn over(
        state: &'a mut State,
        slots: &'a mut [Slot],
        payload: &'a mut [u8],
        queues: &'a mut [u8],
    ) -> Result<Bus<'a>, u8> {
        Ok(Bus { state, slots: sized(slots)?, payload: sized(payload)?, queues: sized(queues)? })
    }

    /// Carries out a step that was found to fit.
    #[inline(always)]
    fn take(&mut self, sender: usize, step: Step) {
        let node = &mut self.state.nodes[sender];
        match step {
            Step::Transmit { op, data } if !is_bus_off(node) => {
                let place = sender * PENDING_CAPACITY + usize::from(node.pending);
                self.slots[place] = slot_of(&op, sender as u8, self.state.round);
                self.payload[place * SLOT_BYTES..][..data.len()].copy_from_slice(data);
                node.pending += 1;
            }
            Step::Configure { kind: kind @ 1..=3, value } => {
                node.rates[usize::from(kind) - 1] = value;
            }
            Step::Configure { value, .. } => node.behaviour = value as u8,
            Step::Status(status) => {
                node.status = status;
                if is_bus_off(node) {
                    (node.pending, node.fill) = (0, 0);
                }
            }
            Step::Wakeup if !is_bus_off(node) => self.wake_up(sender),
            Step::Reject(bytes) => {
                let op = Operation::FormatError { length: bytes.len() as u16 };
                let queue = &mut self.queues[sender * QUEUE_CAPACITY..][..QUEUE_CAPACITY];
                Queue { fill: &mut node.fill, bytes: queue }.append(&op, bytes);
            }
            Step::Transmit { .. } | Step::Wakeup | Step::Nothing => {}
        }
    }

    fn wake_up(&mut self, sender: usize) {
        for (number, mut queue) in listening(self.state, self.queues) {
            if number != sender {
                queue.append(&Operation::Wakeup, &[]);
            }
        }
    }

    /// The round that the frame in slot `place` wins.
    #[inline]
    fn carry_out(&mut self, place: usize, injection: Option<Injection>) -> Result<Round, u8> {
        let slot = self.slots[place];
        let op = operation_in(&slot).ok_or(refusal::INVALID_STATE)?;
        let sender = place / PENDING_CAPACITY;
        let before = self.state.round;
        check_room(self.state, sender, &op, injection.is_some())?;
        let after = before.checked_add(1).ok_or(refusal::LAST_ROUND)?;
        match injection {
            None => self.deliver(place, &op),
            Some(injection) => self.report_error(sender, slot.id, injection),
        }
        self.remove(place);
        self.discard_losers();
        self.state.round = after;
        let (id, errored) = (slot.id, injection.is_some());
        Ok(Round::Carried { sender: sender as u8, id, errored, age: before - slot.accepted })
    }

    #[inline]
    fn deliver(&mut self, place: usize, op: &Operation) {
        let sender = place / PENDING_CAPACITY;
        let data = &self.payload[place * SLOT_BYTES..][..op.data_length()];
        let confirm = Operation::Confirm { id: self.slots[place].id };
        for (number, mut queue) in listening(self.state, self.queues) {
            if number == sender {
                queue.append(&confirm, &[]);
            } else {
                queue.append(op, data);
            }
        }
    }

    fn report_error(&mut self, sender: usize, id: u32, injection: Injection) {
        for (number, mut queue) in listening(self.state, self.queues) {
            let error_flag = if number == injection.detector as usize {
                codec::PRIMARY_ERROR_FLAG
            } else {
                codec::SECONDARY_ERROR_FLAG
            };
            let is_sender = u8::from(number == sender);
            let error_code = injection.code as u8;
            let error = Operation::BusError { id, error_code, error_flag, is_sender };
            queue.append(&error, &[]);
        }
    }

    /// Removes the frame in slot `place`; the sender's later ones move down.
    #[inline]
    fn remove(&mut self, place: usize) {
        let sender = place / PENDING_CAPACITY;
        let pending = &mut self.state.nodes[sender].pending;
        let last = sender * PENDING_CAPACITY + usize::from(*pending) - 1;
        for to in place..last {
            let slot = self.slots[to + 1];
            let from = (to + 1) * SLOT_BYTES;
            self.payload.copy_within(from..from + usize::from(slot.length), to * SLOT_BYTES);
            self.slots[to] = slot;
        }
        *pending -= 1;
    }

    /// Removes what is still pending of the nodes that do not retransmit.
    #[inline]
    fn discard_losers(&mut self) {
        let slots = self.slots.chunks_exact(PENDING_CAPACITY);
        let queues = self.queues.chunks_exact_mut(QUEUE_CAPACITY);
        for ((node, slots), bytes) in attached_mut(self.state).iter_mut().zip(slots).zip(queues) {
            if discards(node) {
                let mut queue = Queue { fill: &mut node.fill, bytes };
                for slot in &slots[..node.pending.into()] {
                    queue.append(&Operation::ArbitrationLost { id: slot.id }, &[]);
                }
                node.pending = 0;
            }
        }
    }
}

/// The queue of a node.
struct Queue<'a> {
    fill: &'a mut u16,
    bytes: &'a mut [u8],
}

impl Queue<'_> {
    /// Adds an operation, for which there is room.
    #[inline(always)]
    fn append(&mut self, op: &Operation, data: &[u8]) {
        let length = op.header_length() + data.len();
        op.put(data, &mut self.bytes[usize::from(*self.fill)..][..length]);
        *self.fill += length as u16;
    }
}

/// The queues of the nodes that are not Bus-Off, with their numbers.
#[inline(always)]
fn listening<'a>(
    state: &'a mut State,
    queues: &'a mut [u8; QUEUE_BYTES],
) -> impl Iterator<Item = (usize, Queue<'a>)> {
    let queues = queues.chunks_exact_mut(QUEUE_CAPACITY);
    let nodes = attached_mut(state).iter_mut().zip(queues).enumerate();
    nodes
        .filter(|(_, (node, _))| !is_bus_off(node))
        .map(|(number, (node, bytes))| (number, Queue { fill: &mut node.fill, bytes }))
}

/// The slot of a Transmit.
#[inline]
pub fn slot_of(op: &Operation, owner: u8, accepted: u32) -> Slot {
    let slot = Slot { kind: op.code() as u8, owner, accepted, ..Slot::default() };
    match *op {
        Operation::CanTransmit { id, ide, rtr, length } => {
            Slot { id, first: ide, second: rtr, length, ..slot }
        }
        Operation::FdTransmit { id, ide, brs, esi, length } => {
            Slot { id, first: ide, second: brs, third: esi, length, ..slot }
        }
        Operation::XlTransmit { id, ide, sec, sdt, vcid, af, length } => {
            Slot { id, af, first: ide, second: sec, third: sdt, fourth: vcid, length, ..slot }
        }
        _ => Slot::default(),
    }
}

/// Whether a slot holds a Transmit that meets the content rules. By way of the
/// operation a full bus would take a seventh longer.
#[inline]
fn is_legal(slot: &Slot) -> bool {
    let largest = match slot.first {
        0 => codec::LARGEST_STANDARD_ID,
        1 => codec::LARGEST_ID,
        _ => return false,
    };
    // Rtr, Brs or Sec.
    if slot.id > largest || slot.second > 1 {
        return false;
    }
    match slot.kind.into() {
        codec::CAN_TRANSMIT => slot.length <= 8 && codec::rtr_allows(slot.second, slot.length),
        codec::FD_TRANSMIT => slot.third <= 1 && codec::is_fd_length(slot.length),
        codec::XL_TRANSMIT => (1..=2_048).contains(&slot.length),
        _ => false,
    }
}

/// The Transmit that a slot holds.
#[inline]
pub fn operation_in(slot: &Slot) -> Option<Operation> {
    let Slot { id, af, length, first: ide, second, third, fourth, .. } = *slot;
    Some(match slot.kind.into() {
        codec::CAN_TRANSMIT => Operation::CanTransmit { id, ide, rtr: second, length },
        codec::FD_TRANSMIT => Operation::FdTransmit { id, ide, brs: second, esi: third, length },
        codec::XL_TRANSMIT => {
            Operation::XlTransmit { id, ide, sec: second, sdt: third, vcid: fourth, af, length }
        }
        _ => return None,
    })
}

/// A node at the start.
pub const NEW_NODE: NodeState = NodeState {
    rates: [500_000, 2_000_000, 10_000_000],
    fill: 0,
    status: codec::ERROR_ACTIVE,
    behaviour: codec::BUFFER_AND_RETRANSMIT as u8,
    pending: 0,
};

pub fn is_bus_off(node: &NodeState) -> bool {
    node.status == codec::BUS_OFF
}

fn discards(node: &NodeState) -> bool {
    u32::from(node.behaviour) == codec::DISCARD_AND_NOTIFY
}

/// The bytes that the queue of a node still has room for.
fn room(node: &NodeState) -> usize {
    QUEUE_CAPACITY - usize::from(node.fill)
}

/// Whether the entry of a node, without the frames, is valid.
#[inline]
fn is_valid_entry(node: &NodeState) -> bool {
    (1..=3).contains(&node.status)
        && (1..=2).contains(&node.behaviour)
        && !node.rates.contains(&0)
        && usize::from(node.fill) <= QUEUE_CAPACITY
        && usize::from(node.pending) <= PENDING_CAPACITY
        && (!is_bus_off(node) || node.pending == 0)
}

/// The state of a new bus.
pub fn new_state(count: u32) -> State {
    State { count, round: 0, nodes: [NEW_NODE; NODES] }
}

/// Of a valid state.
fn attached(state: &State) -> &[NodeState] {
    &state.nodes[..state.count as usize]
}

fn attached_mut(state: &mut State) -> &mut [NodeState] {
    &mut state.nodes[..state.count as usize]
}

fn attached_number(state: &State, node: u32) -> Result<usize, u8> {
    if node < state.count {
        Ok(node as usize)
    } else {
        Err(refusal::NOT_ATTACHED)
    }
}

/// Whether state and slots are valid (01: sound). `each` is told of the
/// pending frames on the way. Nothing is asked of other nodes and slots.
#[inline(always)]
fn is_valid(state: &State, slots: &[Slot; SLOTS], mut each: impl FnMut(usize, &Slot)) -> bool {
    if !(2..=8).contains(&state.count) {
        return false;
    }
    let mut entries = attached(state).iter().enumerate();
    entries.all(|(number, node)| {
        if !is_valid_entry(node) {
            return false;
        }
        let start = number * PENDING_CAPACITY;
        let frames = &slots[start..start + PENDING_CAPACITY][..node.pending.into()];
        let mut earliest = 0;
        frames.iter().enumerate().all(|(place, slot)| {
            each(start + place, slot);
            let in_order = earliest <= slot.accepted && slot.accepted <= state.round;
            earliest = slot.accepted;
            in_order && usize::from(slot.owner) == number && is_legal(slot)
        })
    })
}

/// Goes through a buffer and gives the refusal of the first step that
/// fails, if one does.
#[inline(always)]
fn decide(state: &State, sender: usize, buffer: &[u8]) -> Result<(), u8> {
    let node = &state.nodes[sender];
    let (mut bus_off, mut pending) = (is_bus_off(node), node.pending);
    let mut room = room(node);
    let mut wakeups = None;
    for step in steps(buffer) {
        match step {
            Step::Transmit { .. } if !bus_off => {
                if usize::from(pending) == PENDING_CAPACITY {
                    return Err(refusal::FOUR_PENDING);
                }
                pending += 1;
            }
            Step::Status(status) => {
                bus_off = status == codec::BUS_OFF;
                if bus_off {
                    (pending, room) = (0, QUEUE_CAPACITY);
                }
            }
            Step::Wakeup if !bus_off => {
                let left: &mut usize = wakeups.get_or_insert_with(|| wakeup_room(state, sender));
                *left = left.checked_sub(1).ok_or(refusal::QUEUE_FULL)?;
            }
            Step::Reject(bytes) => {
                let length = FORMAT_ERROR_HEADER + bytes.len();
                room = room.checked_sub(length).ok_or(refusal::QUEUE_FULL)?;
            }
            _ => {}
        }
    }
    Ok(())
}

/// How many Wakeups of a node the queues of the others have room for.
fn wakeup_room(state: &State, sender: usize) -> usize {
    let others = attached(state).iter().enumerate();
    let listening = others.filter(|(number, node)| *number != sender && !is_bus_off(node));
    listening.map(|(_, node)| room(node) / WAKEUP_LENGTH).min().unwrap_or(usize::MAX)
}

fn can_inject(state: &State, injection: Injection) -> bool {
    u8::try_from(injection.code).is_ok_and(codec::is_error_code)
        && attached_number(state, injection.detector)
            .is_ok_and(|number| !is_bus_off(&state.nodes[number]))
}

/// Whether each queue can hold all that a round owes it.
#[inline]
fn check_room(state: &State, sender: usize, op: &Operation, errored: bool) -> Result<(), u8> {
    let (own, other) = if errored {
        (BUS_ERROR_LENGTH, BUS_ERROR_LENGTH)
    } else {
        (CLOSING_LENGTH, op.header_length() + op.data_length())
    };
    let fits = |(number, node): (usize, &NodeState)| {
        if is_bus_off(node) {
            return true;
        }
        let is_sender = number == sender;
        let losers = usize::from(node.pending) - usize::from(is_sender);
        let notices = if discards(node) { losers * CLOSING_LENGTH } else { 0 };
        (if is_sender { own } else { other }) + notices <= room(node)
    };
    if attached(state).iter().enumerate().all(fits) {
        Ok(())
    } else {
        Err(refusal::QUEUE_FULL)
    }
}
