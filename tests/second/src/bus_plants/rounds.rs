//! What becomes of a round.

use super::Played;
use crate::bus::{PENDING_CAPACITY, QUEUE_CAPACITY};
use crate::codec::{self, Operation};
use crate::lent::{self, Injection, NodeState, Slot, State, SLOT_BYTES};
use crate::memory::{Call, Calls, Second};

/// Length of a Confirm and of an Arbitration Lost.
const CLOSING_LENGTH: usize = 12;
const BUS_ERROR_LENGTH: usize = 15;

impl Played<'_> {
    /// The place of the first pending frame in this order.
    fn first_by<K: Ord>(&self, key: impl Fn(&Slot, usize, usize) -> K) -> Option<usize> {
        let places = (0..self.attached().len()).flat_map(|node| self.places(node));
        places.min_by_key(|&place| {
            let (node, rank) = (place / PENDING_CAPACITY, place % PENDING_CAPACITY);
            key(&self.before.slots[place], node, rank)
        })
    }

    /// The winner of a round, refused or not.
    fn first(&self) -> Option<usize> {
        self.first_by(|slot, node, rank| (slot.id, node, rank))
    }

    fn injection(&self) -> Option<Injection> {
        match *self.call {
            Call::Round { injection } => injection,
            _ => None,
        }
    }

    /// A round with an injected error that was carried out.
    pub fn injects(&self, is: impl Fn(&Injection, &State) -> bool) -> bool {
        self.sender().is_some()
            && self.injection().is_some_and(|injection| is(&injection, &self.before.state))
    }

    /// A round with a code that is not in the table.
    pub fn injects_badly(&self) -> bool {
        self.injection().is_some_and(|injection| !(1..=6).contains(&injection.code))
    }

    pub fn without_injection(&mut self) {
        if self.answer.errored == 1 {
            self.instead(&Call::Round { injection: None });
        }
    }

    /// Takes a refusal of a round back that a bus on which all nodes buffer
    /// would not give.
    pub fn buffering(&mut self, number: u32) {
        if self.is_round() && self.answer.number == number {
            self.answer.number =
                self.asked(self.call, |memory| set_all(&mut memory.state, 1)).number;
        }
    }

    /// Refuses a round that a bus on which all nodes discard would refuse.
    pub fn discarding(&mut self, number: u32) {
        let asked = |p: &Self| p.asked(p.call, |memory| set_all(&mut memory.state, 2)).number;
        if self.sender().is_some() && asked(self) == number {
            self.refuse(number);
        }
    }

    pub fn asks_sender(&mut self, needed: fn(&Operation) -> usize) {
        if let (Some(sender), Some((op, _))) = (self.sender(), self.transmit()) {
            if room(&self.before.state.nodes[sender]) < needed(&op) {
                self.refuse(9);
            }
        }
    }

    /// Whether the sender's own queue has no room for what closes the winner.
    pub fn sender_is_full(&self) -> bool {
        let errored = self.injection().is_some();
        let owed = if errored { BUS_ERROR_LENGTH } else { CLOSING_LENGTH };
        self.first()
            .is_some_and(|place| room(&self.before.state.nodes[place / PENDING_CAPACITY]) < owed)
    }

    pub fn any_full(&self) -> bool {
        self.attached().iter().any(|node| room(node) == 0)
    }

    /// Takes back that the losers of a node were discarded.
    fn spare(&mut self, node: usize) {
        let losers = self.losers(node);
        let entry = &mut self.answer.state.nodes[node];
        entry.pending = losers as u8;
        entry.fill -= (CLOSING_LENGTH * losers) as u16;
    }

    /// The discarding nodes that lose frames, and how many.
    fn losing(&self) -> Vec<(usize, usize)> {
        if self.sender().is_none() {
            return Vec::new();
        }
        let nodes = (0..self.attached().len()).filter(|&node| self.discards(node));
        nodes.map(|node| (node, self.losers(node))).filter(|&(_, losers)| losers > 0).collect()
    }

    /// The Arbitration Losts that a node got, and how many.
    fn notices(&mut self, node: usize, losers: usize) -> &mut [u8] {
        let added = self.added(node);
        &mut self.after.queues[added.end - CLOSING_LENGTH * losers..added.end]
    }
}

fn set_all(state: &mut State, behaviour: u8) {
    state.nodes.iter_mut().for_each(|node| node.behaviour = behaviour);
}

fn room(node: &NodeState) -> usize {
    QUEUE_CAPACITY - usize::from(node.fill)
}

// Which frame wins.

/// Names the frame that comes first in another order.
pub fn by_order(p: &mut Played, key: fn(&Slot, usize, usize) -> (u64, usize, usize)) {
    let Some((winner, _)) = p.winner() else { return };
    if let Some(place) = p.first_by(key).filter(|&place| place != winner) {
        let slot = p.before.slots[place];
        p.answer.sender = (place / PENDING_CAPACITY) as u8;
        (p.answer.id, p.answer.age) = (slot.id, p.before.state.round - slot.accepted);
    }
}

/// Plays the round with the contents of the first and the last equal frame
/// exchanged.
pub fn later_of_equal(p: &mut Played) {
    let Some((winner, last)) = p.winner() else { return };
    let id = p.answer.id;
    let later = (winner + 1..=last).rev().find(|&place| p.before.slots[place].id == id);
    let Some(later) = later else { return };
    p.after.copy_from(p.before);
    let slots = &mut p.after.slots;
    slots.swap(winner, later);
    (slots[winner].accepted, slots[later].accepted) =
        (slots[later].accepted, slots[winner].accepted);
    let (front, back) = p.after.payload.split_at_mut(later * SLOT_BYTES);
    front[winner * SLOT_BYTES..][..SLOT_BYTES].swap_with_slice(&mut back[..SLOT_BYTES]);
    *p.answer = Second.play(p.after, p.sizes, p.call);
    p.answer.age = p.before.state.round - p.before.slots[later].accepted;
}

// What is removed, and what moves.

/// From the second round on.
pub fn only_raise_number(p: &mut Played) {
    if p.sender().is_some() && p.before.state.round > 0 {
        p.after.copy_from(p.before);
        let round = p.answer.state.round;
        p.answer.state = State { round, ..p.before.state };
    }
}

pub fn keep_winner(p: &mut Played) {
    if let Some(sender) = p.sender() {
        p.after.slots.copy_from_slice(&p.before.slots);
        p.after.payload.copy_from_slice(&p.before.payload);
        p.answer.state.nodes[sender].pending = p.before.state.nodes[sender].pending;
    }
}

pub fn remove_equal_ids(p: &mut Played) {
    let Some(sender) = p.sender() else { return };
    let pending = &mut p.answer.state.nodes[sender].pending;
    let left = &p.after.slots[sender * PENDING_CAPACITY..][..usize::from(*pending)];
    *pending -= left.iter().rev().take_while(|slot| slot.id == p.answer.id).count() as u8;
}

pub fn accept_anew(p: &mut Played) {
    if p.sender().is_some() {
        let State { round, nodes, .. } = p.answer.state;
        for (slots, node) in p.after.slots.chunks_mut(PENDING_CAPACITY).zip(nodes) {
            for slot in slots.iter_mut().take(node.pending.into()) {
                slot.accepted = round;
            }
        }
    }
}

pub fn data_stay(p: &mut Played) {
    if p.sender().is_some() {
        p.after.payload.copy_from_slice(&p.before.payload);
    }
}

pub fn data_move_whole(p: &mut Played) {
    if let Some((winner, last)) = p.winner() {
        let moved = &p.before.payload[(winner + 1) * SLOT_BYTES..(last + 1) * SLOT_BYTES];
        p.after.payload[winner * SLOT_BYTES..last * SLOT_BYTES].copy_from_slice(moved);
    }
}

pub fn free_last(p: &mut Played) {
    if let Some((_, last)) = p.winner() {
        p.after.slots[last] = Slot::default();
    }
}

pub fn discard_without_moving(p: &mut Played) {
    if p.sender().is_some_and(|sender| p.discards(sender)) {
        p.after.slots.copy_from_slice(&p.before.slots);
        p.after.payload.copy_from_slice(&p.before.payload);
    }
}

// What is delivered.

pub fn deliver_to(p: &mut Played, also: fn(usize, usize, &NodeState) -> bool) {
    let (Some(sender), 0, Some((op, data))) = (p.sender(), p.answer.errored, p.transmit()) else {
        return;
    };
    for number in 0..p.attached().len() {
        if also(number, sender, &p.answer.state.nodes[number]) {
            p.append(number, &op, data);
        }
    }
}

pub fn nothing_for_last(p: &mut Played) {
    let last = p.attached().len().wrapping_sub(1);
    if p.sender().is_some_and(|sender| sender != last) && p.losers(last) == 0 {
        p.answer.state.nodes[last].fill = p.before.state.nodes[last].fill;
    }
}

pub fn no_confirm(p: &mut Played) {
    if let (Some(sender), 0) = (p.sender(), p.answer.errored) {
        p.answer.state.nodes[sender].fill -= CLOSING_LENGTH as u16;
    }
}

/// Alters the Confirm of a delivered frame, or the Transmits.
pub fn patch_sent(p: &mut Played, confirm: bool, alter: fn(&mut [u8])) {
    let (Some(sender), 0, Some((op, _))) = (p.sender(), p.answer.errored, p.transmit()) else {
        return;
    };
    for (number, node) in p.attached().iter().enumerate() {
        if !lent::is_bus_off(node) && (number == sender) == confirm {
            let transmit = op.header_length() + op.data_length();
            let length = if confirm { CLOSING_LENGTH } else { transmit };
            let place = number * QUEUE_CAPACITY + usize::from(node.fill);
            alter(&mut p.after.queues[place..place + length]);
        }
    }
}

// What is errored.

/// Which node gets a Bus Error.
pub struct To {
    pub sender: bool,
    pub detector: bool,
}

pub fn patch_errors(p: &mut Played, alter: fn(&mut [u8], To)) {
    let (Some(sender), Some(injection)) = (p.sender(), p.injection()) else { return };
    for (number, node) in p.attached().iter().enumerate() {
        if !lent::is_bus_off(node) {
            let place = number * QUEUE_CAPACITY + usize::from(node.fill);
            let detector = number == injection.detector as usize;
            let to = To { sender: number == sender, detector };
            alter(&mut p.after.queues[place..place + BUS_ERROR_LENGTH], to);
        }
    }
}

pub fn bus_error_for_bus_off(p: &mut Played) {
    let (Some(_), Some(injection)) = (p.sender(), p.injection()) else { return };
    let (id, error_code) = (p.answer.id, injection.code as u8);
    for (number, node) in p.attached().iter().enumerate() {
        if lent::is_bus_off(node) {
            let error = Operation::BusError { id, error_code, error_flag: 2, is_sender: 0 };
            p.append(number, &error, &[]);
        }
    }
}

// Losers.

pub fn discard_buffered(p: &mut Played) {
    if p.sender().is_some() {
        let mut memory = p.before.clone();
        set_all(&mut memory.state, 2);
        let mut answer = Second.play(&mut memory, p.sizes, p.call);
        if answer.number == 0 {
            for (node, old) in answer.state.nodes.iter_mut().zip(p.before.state.nodes) {
                node.behaviour = old.behaviour;
            }
            p.after.copy_from(&memory);
            *p.answer = answer;
        }
    }
}

pub fn spare_where(p: &mut Played, is: fn(&Played, usize) -> bool) {
    for (node, _) in p.losing() {
        if is(p, node) {
            p.spare(node);
        }
    }
}

pub fn lose_silently(p: &mut Played) {
    for (node, losers) in p.losing() {
        p.answer.state.nodes[node].fill -= (CLOSING_LENGTH * losers) as u16;
    }
}

pub fn lose_and_stay(p: &mut Played) {
    for (node, losers) in p.losing() {
        p.answer.state.nodes[node].pending = losers as u8;
    }
}

pub fn lose_first_only(p: &mut Played) {
    for (node, losers) in p.losing() {
        let entry = &mut p.answer.state.nodes[node];
        entry.pending = losers as u8 - 1;
        entry.fill -= (CLOSING_LENGTH * (losers - 1)) as u16;
    }
}

pub fn lost_first(p: &mut Played) {
    for (node, losers) in p.losing() {
        let added = p.added(node);
        p.after.queues[added].rotate_right(CLOSING_LENGTH * losers);
    }
}

pub fn lost_in_reverse(p: &mut Played) {
    for (node, losers) in p.losing() {
        let notices = p.notices(node, losers);
        let reversed: Vec<u8> = notices.rchunks(CLOSING_LENGTH).flatten().copied().collect();
        notices.copy_from_slice(&reversed);
    }
}

pub fn lost_with_winner_id(p: &mut Played) {
    let id = p.answer.id.to_le_bytes();
    for (node, losers) in p.losing() {
        for notice in p.notices(node, losers).chunks_mut(CLOSING_LENGTH) {
            notice[8..].copy_from_slice(&id);
        }
    }
}

// Refusals.

/// Takes a refusal 6 back, with the code cut to its low bits or, with none of
/// them, an error that can be injected.
pub fn inject(p: &mut Played, mask: u32, is: fn(&Injection, &State) -> bool) {
    let (6, Some(mut injection)) = (p.answer.number, p.injection()) else { return };
    if is(&injection, &p.before.state) {
        if mask == 0 {
            let detects = |node: &NodeState| !lent::is_bus_off(node);
            let detector = p.attached().iter().position(detects);
            injection = Injection { code: 1, detector: detector.unwrap_or(0) as u32 };
        } else {
            injection.code &= mask;
        }
        p.instead(&Call::Round { injection: Some(injection) });
    }
}

pub fn is_bus_off_at(state: &State, node: u32) -> bool {
    node < state.count && lent::is_bus_off(&state.nodes[node as usize])
}

pub fn is_passive(injection: &Injection, state: &State) -> bool {
    state.nodes[injection.detector as usize].status == codec::ERROR_PASSIVE
}

pub fn errored_asks_for_transmit(p: &mut Played) {
    if p.answer.errored == 1 {
        p.otherwise(&Call::Round { injection: None }, 9);
    }
}

/// The queues in front of the first that is full are written to.
pub fn written_by_refused_round(p: &mut Played) {
    let (9, true, Some(place)) = (p.answer.number, p.is_round(), p.first()) else { return };
    let slot = &p.before.slots[place];
    let op = lent::operation_in(slot).expect("the state is valid");
    let transmit = op.encode(&p.before.payload[place * SLOT_BYTES..][..op.data_length()]);
    let confirm = Operation::Confirm { id: slot.id }.encode(&[]);
    for (number, node) in p.attached().iter().enumerate() {
        let own = number == place / PENDING_CAPACITY;
        let bytes = if own { &confirm } else { &transmit };
        if !lent::is_bus_off(node) {
            if room(node) < bytes.len() {
                return;
            }
            let start = number * QUEUE_CAPACITY + usize::from(node.fill);
            p.after.queues[start..start + bytes.len()].copy_from_slice(bytes);
        }
    }
}
