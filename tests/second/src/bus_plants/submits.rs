//! What becomes of a submitted buffer.

use super::Played;
use crate::bus::{LONGEST_BUFFER, PENDING_CAPACITY, QUEUE_CAPACITY};
use crate::codec::{self, Operation};
use crate::lent::{self, NodeState, Slot, SLOT_BYTES};
use crate::memory::{Call, Calls, Second};
use crate::remote::Remote;
use crate::wrong_content::WrongRule;

/// An operation of a submitted buffer, or a fault.
pub struct Step<'a> {
    pub op: Result<Operation, u8>,
    pub bytes: &'a [u8],
    /// The status of the node when the step is taken.
    pub status: u8,
    pub bus_off: bool,
}

impl Step<'_> {
    pub fn is_transmit(&self) -> bool {
        self.op.is_ok_and(|op| op.transmit_id().is_some())
    }

    pub fn is_configuration(&self) -> bool {
        matches!(self.op, Ok(Operation::Configuration { .. }))
    }

    pub fn is_status(&self) -> bool {
        matches!(self.op, Ok(Operation::Status { .. }))
    }

    pub fn is_bus_off(&self) -> bool {
        self.op == Ok(Operation::BUS_OFF)
    }

    pub fn is_closing(&self) -> bool {
        matches!(
            self.op,
            Ok(Operation::Confirm { .. }
                | Operation::ArbitrationLost { .. }
                | Operation::BusError { .. })
        )
    }

    /// With the code of a Format Error, so that it is not answered.
    pub fn is_silent(&self) -> bool {
        self.bytes.starts_with(&codec::FORMAT_ERROR.to_le_bytes())
    }

    fn is_answered(&self) -> bool {
        self.is_closing() || self.op.is_err() && !self.is_silent()
    }
}

impl<'a> Played<'a> {
    /// The node and the steps of a submit that came to its steps.
    fn steps(&self) -> Option<(usize, Vec<Step<'a>>)> {
        let (node, buffer) = self.submitted()?;
        if ![0, 8, 9].contains(&self.answer.number) {
            return None;
        }
        let mut status = self.before.state.nodes[node].status;
        let steps = codec::operations(buffer).map(|(op, bytes)| {
            let step = Step { op, bytes, status, bus_off: status == codec::BUS_OFF };
            if let Ok(Operation::Status { status: new }) = op {
                status = new;
            }
            step
        });
        Some((node, steps.collect()))
    }

    /// The same of one that was taken.
    fn taken(&self) -> Option<(usize, Vec<Step<'a>>)> {
        self.steps().filter(|_| self.answer.number == 0)
    }

    /// Submits another buffer, if it is another.
    fn submit(&mut self, buffer: Vec<u8>) {
        let Some((node, submitted)) = self.submitted() else { return };
        if buffer != submitted {
            self.instead(&Call::Submit { node: node as u32, buffer });
        }
    }

    /// What a buffer with these steps is answered with.
    fn number_of<'s>(&self, steps: impl Iterator<Item = &'s Step<'a>>) -> u32
    where
        'a: 's,
    {
        let Some((node, _)) = self.submitted() else { return 0 };
        let buffer = steps.flat_map(|step| step.bytes).copied().collect();
        self.asked(&Call::Submit { node: node as u32, buffer }, |_| ()).number
    }

    fn rewrite(&mut self, change: impl Fn(&Step) -> Vec<u8>) {
        if let Some((_, steps)) = self.steps() {
            self.submit(steps.iter().flat_map(change).collect());
        }
    }

    /// Submits what is taken by the rules as this buffer is by a wrong one.
    pub fn rewrite_by(&mut self, rule: &WrongRule) {
        if let Some((_, buffer)) = self.submitted().filter(|_| self.steps().is_some()) {
            self.submit(rule.rewritten(buffer));
        }
    }

    /// Leaves out steps.
    pub fn skip(&mut self, is: fn(&Step) -> bool) {
        self.rewrite(|step| if is(step) { Vec::new() } else { step.bytes.to_vec() });
    }

    /// Makes steps faulty by an unknown code.
    pub fn spoil(&mut self, is: fn(&Step) -> bool) {
        self.rewrite(|step| {
            let mut bytes = step.bytes.to_vec();
            if let (true, Some(byte)) = (is(step), bytes.get_mut(1)) {
                *byte = 0xFF;
            }
            bytes
        });
    }

    /// Takes other operations in place of some.
    pub fn replace(&mut self, other: impl Fn(&Step) -> Option<Operation>) {
        self.rewrite(|step| other(step).map_or(step.bytes.to_vec(), |op| op.encode(&[])));
    }

    pub fn configures(&mut self, kind_of: fn(usize) -> u8) {
        self.replace(|step| match step.op {
            Ok(Operation::Configuration { kind, value }) => {
                Some(Operation::Configuration { kind: kind_of(kind.into()), value })
            }
            _ => None,
        });
    }

    /// Refuses where the buffer without some steps is refused with this number.
    pub fn instead_without(&mut self, is: fn(&Step) -> bool, number: u32) {
        if let Some((_, steps)) = self.taken() {
            if self.number_of(steps.iter().filter(|step| !is(step))) == number {
                self.refuse(number);
            }
        }
    }

    /// A submit that left so many frames pending, and found less.
    pub fn pends(&self, wanted: u8) -> bool {
        self.taken().is_some_and(|(node, _)| {
            self.answer.state.nodes[node].pending == wanted
                && self.before.state.nodes[node].pending < wanted
        })
    }

    /// A call that filled a queue up to here.
    pub fn fills(&self, wanted: usize) -> bool {
        let nodes = self.answer.state.nodes.iter().zip(self.attached());
        nodes.into_iter().any(|(new, old)| usize::from(new.fill) == wanted && new.fill > old.fill)
            && !self.is_start()
    }

    /// Alters slot and data of each frame that became pending.
    pub fn accepts(&mut self, alter: fn(&mut Slot, &mut [u8])) {
        let Some((node, steps)) = self.taken() else { return };
        let old = if steps.iter().any(Step::is_bus_off) { 0 } else { self.places(node).len() };
        for place in old..self.answer.state.nodes[node].pending.into() {
            let place = node * PENDING_CAPACITY + place;
            let slot = &mut self.after.slots[place];
            let data = &mut self.after.payload[place * SLOT_BYTES..][..slot.length.into()];
            alter(slot, data);
        }
    }

    pub fn submits_bytes(&self, wanted: usize) -> bool {
        self.answer.number == 0
            && self.submitted().is_some_and(|(_, buffer)| buffer.len() == wanted)
    }

    pub fn submits(&self, wanted: Operation) -> bool {
        let is_it = |step: &Step| step.op == Ok(wanted) && !step.bus_off;
        self.taken().is_some_and(|(_, steps)| steps.iter().any(is_it))
    }

    /// Asks so much room of every other node that is Bus-Off.
    pub fn asks_bus_off(&mut self, bytes: usize) {
        let sender = self.sender().or(self.node().map(|node| node as usize));
        let is_in_the_way = |(number, node): (usize, &NodeState)| {
            Some(number) != sender && lent::is_bus_off(node) && room(node) < bytes
        };
        if self.attached().iter().enumerate().any(is_in_the_way) {
            self.refuse(9);
        }
    }

    /// Takes the front of a buffer that is too large for what it would come to.
    pub fn without_end(&mut self) {
        if let Call::Submit { node, buffer } = self.call {
            let buffer = buffer[..LONGEST_BUFFER].to_vec();
            let number = self.asked(&Call::Submit { node: *node, buffer }, |_| ()).number;
            if number != 0 {
                self.refuse(number);
            }
        }
    }
}

fn room(node: &NodeState) -> usize {
    QUEUE_CAPACITY.saturating_sub(node.fill.into())
}

pub fn take_4087(p: &mut Played) {
    if let (5, Call::Submit { node, buffer }) = (p.answer.number, p.call) {
        if buffer.len() == LONGEST_BUFFER + 1 {
            let buffer = buffer[..LONGEST_BUFFER].to_vec();
            p.instead(&Call::Submit { node: *node, buffer });
        }
    }
}

pub fn take_in_reverse(p: &mut Played) {
    if let Some((_, steps)) = p.steps() {
        p.submit(steps.iter().rev().flat_map(|step| step.bytes).copied().collect());
    }
}

// Transmits.

pub fn pending_while_bus_off(p: &mut Played) {
    let Some((node, steps)) = p.taken() else { return };
    if steps.last().is_some_and(|step| step.bus_off && step.is_transmit()) {
        p.answer.state.nodes[node].pending = 1;
    }
}

pub fn newest_first(p: &mut Played) {
    let Some((node, steps)) = p.taken() else { return };
    if !steps.iter().any(Step::is_bus_off) {
        let (old, new) = (p.places(node), usize::from(p.answer.state.nodes[node].pending));
        p.after.slots[old.start..][..new].rotate_right(new - old.len());
    }
}

pub fn refuse_while_bus_off(p: &mut Played) {
    let Some((_, steps)) = p.taken() else { return };
    let frames = steps.iter().filter(|step| step.bus_off && step.is_transmit());
    if frames.count() > PENDING_CAPACITY {
        p.refuse(8);
    }
}

// Configuration and Status.

/// The node behind the sender, or the first.
fn next(p: &Played, node: usize) -> usize {
    (node + 1) % p.attached().len()
}

pub fn configure_next(p: &mut Played) {
    let Some((node, steps)) = p.taken() else { return };
    if steps.iter().any(Step::is_configuration) {
        let (next, old) = (next(p, node), p.before.state.nodes[node]);
        let NodeState { rates, behaviour, .. } = p.answer.state.nodes[node];
        let nodes = &mut p.answer.state.nodes;
        (nodes[next].rates, nodes[next].behaviour) = (rates, behaviour);
        (nodes[node].rates, nodes[node].behaviour) = (old.rates, old.behaviour);
    }
}

pub fn configure_all(p: &mut Played) {
    let Some((node, steps)) = p.taken() else { return };
    if steps.iter().any(Step::is_configuration) {
        let NodeState { rates, behaviour, .. } = p.answer.state.nodes[node];
        let attached = p.attached().len();
        for node in &mut p.answer.state.nodes[..attached] {
            (node.rates, node.behaviour) = (rates, behaviour);
        }
    }
}

pub fn exchange_behaviour(step: &Step) -> Option<Operation> {
    match step.op {
        Ok(Operation::Configuration { kind: 4, value }) => {
            Some(Operation::Configuration { kind: 4, value: 3 - value })
        }
        _ => None,
    }
}

pub fn exchange_status(step: &Step) -> Option<Operation> {
    match step.op {
        Ok(Operation::Status { status: status @ 1..=2 }) => {
            Some(Operation::Status { status: 3 - status })
        }
        _ => None,
    }
}

/// Of a buffer that is one Status Bus-Off.
pub fn after_bus_off(p: &mut Played, keep_queue: bool) {
    let Some((node, steps)) = p.taken() else { return };
    if steps.len() == 1 && steps[0].is_bus_off() {
        let (before, after) = (&p.before.state.nodes[node], &mut p.answer.state.nodes[node]);
        if keep_queue {
            after.fill = before.fill;
        } else {
            after.pending = before.pending;
        }
    }
}

/// Of a buffer that ends with a Status Bus-Off.
pub fn keep_new_frames(p: &mut Played) {
    let Some((node, steps)) = p.taken() else { return };
    if steps.last().is_some_and(Step::is_bus_off) {
        let behind = steps.iter().rev().skip(1).take_while(|step| !step.is_bus_off());
        let frames = behind.filter(|step| step.is_transmit() && !step.bus_off).count();
        p.answer.state.nodes[node].pending = frames as u8;
    }
}

pub fn passive_removes(p: &mut Played) {
    let Some((node, steps)) = p.taken() else { return };
    if steps.last().is_some_and(|step| step.op == Ok(Operation::Status { status: 2 })) {
        let entry = &mut p.answer.state.nodes[node];
        (entry.pending, entry.fill) = (0, 0);
    }
}

pub fn empty_all_queues(p: &mut Played) {
    let Some((_, steps)) = p.taken() else { return };
    if steps.last().is_some_and(Step::is_bus_off) {
        p.answer.state.nodes.iter_mut().for_each(|node| node.fill = 0);
    }
}

// Wakeups.

/// Which nodes get a Wakeup too.
type Woken = fn(number: usize, sender: usize, node: &NodeState) -> bool;

pub fn wake(p: &mut Played, woken: Woken) {
    wake_where(p, |step| !step.bus_off, woken);
}

pub fn wake_from_bus_off(p: &mut Played) {
    wake_where(
        p,
        |step| step.bus_off,
        |number, sender, node| number != sender && !lent::is_bus_off(node),
    );
}

fn wake_where(p: &mut Played, from: fn(&Step) -> bool, woken: Woken) {
    let Some((sender, steps)) = p.taken() else { return };
    let is_wakeup = |step: &&Step| step.op == Ok(Operation::Wakeup) && from(step);
    for _ in steps.iter().filter(is_wakeup) {
        for number in 0..p.attached().len() {
            if woken(number, sender, &p.answer.state.nodes[number]) {
                p.append(number, &Operation::Wakeup, &[]);
            }
        }
    }
}

pub fn wake_all_but_last(p: &mut Played) {
    let Some((sender, _)) = p.taken() else { return };
    let last = p.attached().len() - 1;
    if last != sender {
        p.answer.state.nodes[last].fill = p.before.state.nodes[last].fill;
    }
}

pub fn wakeup_asks_sender(p: &mut Played) {
    let Some((node, _)) = p.taken() else { return };
    if p.submits(Operation::Wakeup) && room(&p.answer.state.nodes[node]) < 8 {
        p.refuse(9);
    }
}

/// A first step that is a Wakeup reaches the nodes in front of the full one.
pub fn written_by_refused_wakeup(p: &mut Played) {
    let Some((sender, steps)) = p.steps() else { return };
    if p.answer.number == 9 && steps[0].op == Ok(Operation::Wakeup) && !steps[0].bus_off {
        for (number, node) in p.attached().iter().enumerate() {
            if number != sender && !lent::is_bus_off(node) {
                if room(node) < 8 {
                    return;
                }
                let place = number * QUEUE_CAPACITY + usize::from(node.fill);
                Operation::Wakeup.put(&[], &mut p.after.queues[place..place + 8]);
            }
        }
    }
}

// Format Errors.

/// Of a fault 1.
pub fn cut_format_error(p: &mut Played) {
    p.rewrite(|step| match step.bytes {
        [front @ .., _] if step.op == Err(1) && !step.is_silent() => front.to_vec(),
        bytes => bytes.to_vec(),
    });
}

pub fn format_error_to_next(p: &mut Played) {
    let Some((node, steps)) = p.taken() else { return };
    for step in steps.iter().filter(|step| step.is_answered()) {
        let op = Operation::FormatError { length: step.bytes.len() as u16 };
        p.append(next(p, node), &op, step.bytes);
    }
}

// Remote frames with data.

pub fn is_remote(step: &Step) -> bool {
    Remote::of(step.op, step.bytes) == Some(Remote::WithData)
}

pub fn is_bus_off_remote(step: &Step) -> bool {
    step.bus_off && is_remote(step)
}

/// The frame alone is taken, and its data are passed over.
pub fn strip_remote(p: &mut Played) {
    p.rewrite(|step| {
        let mut bytes = step.bytes.to_vec();
        if is_remote(step) {
            bytes.truncate(16);
            (bytes[4], bytes[14]) = (16, 0);
        }
        bytes
    });
}

/// The Format Error has the frame alone, without its data.
pub fn answer_remote_in_part(p: &mut Played) {
    p.rewrite(|step| {
        let mut bytes = step.bytes.to_vec();
        if is_remote(step) {
            bytes.truncate(16);
            bytes[4] = 16;
        }
        bytes
    });
}

/// For some steps the queue is not asked for room.
pub fn no_room_asked(p: &mut Played, is: fn(&Step) -> bool) {
    let Some((_, steps)) = p.steps() else { return };
    if p.answer.number == 9 && p.number_of(steps.iter().filter(|step| !is(step))) == 0 {
        p.answer.number = 0;
    }
}

/// A node with four frames pending has no place for it.
pub fn count_remote(p: &mut Played) {
    let Some((node, steps)) = p.taken() else { return };
    let full = usize::from(p.before.state.nodes[node].pending) == PENDING_CAPACITY;
    if full && steps.first().is_some_and(is_remote) {
        p.refuse(8);
    }
}

// Refusals.

/// Takes the steps in front of the failing one, or all that do not fail.
pub fn taken_in_part(p: &mut Played, go_on: bool) {
    if let (8 | 9, Some((_, steps))) = (p.answer.number, p.steps()) {
        let mut kept = Vec::new();
        for step in &steps {
            kept.push(step);
            if p.number_of(kept.iter().copied()) != 0 {
                kept.pop();
                if !go_on {
                    break;
                }
            }
        }
        p.submit(kept.iter().flat_map(|step| step.bytes).copied().collect());
    }
}

pub fn four_pending_first(p: &mut Played) {
    if p.answer.number == 9 && too_many_transmits(p) {
        p.answer.number = 8;
    }
}

pub fn full_first(p: &mut Played) {
    if let (8, Some((_, steps))) = (p.answer.number, p.steps()) {
        p.answer.number = match p.number_of(steps.iter().filter(|step| !step.is_transmit())) {
            9 => 9,
            _ => 8,
        };
    }
}

/// Whether a buffer has more Transmits than its node's slots have room for.
fn too_many_transmits(p: &Played) -> bool {
    let Some((node, steps)) = p.steps() else { return false };
    let transmits = steps.iter().filter(|step| step.is_transmit()).count();
    let entry = &p.before.state.nodes[node];
    !lent::is_bus_off(entry) && usize::from(entry.pending) + transmits > PENDING_CAPACITY
}

pub fn later_bus_off(p: &mut Played, number: u32) {
    let Some((_, steps)) = p.steps() else { return };
    if p.answer.number == number && steps.last().is_some_and(Step::is_bus_off) {
        p.answer.number = 0;
    }
}

pub fn count_removed(p: &mut Played) {
    if p.answer.number == 0 && too_many_transmits(p) {
        p.refuse(8);
    }
}

/// Of a buffer that starts with it.
pub fn unasked_behind_bus_off(p: &mut Played) {
    let Some((_, steps)) = p.steps() else { return };
    if steps.first().is_some_and(Step::is_bus_off) {
        p.answer.number = 0;
    }
}

/// The steps in front of the one that fails are carried out.
pub fn written_before_refusal(p: &mut Played) {
    let (8 | 9, Call::Submit { node, buffer }) = (p.answer.number, p.call) else { return };
    let mut end = 0;
    for (_, bytes) in codec::operations(buffer) {
        end += bytes.len();
        let buffer = buffer[..end].to_vec();
        Second.play(p.after, p.sizes, &Call::Submit { node: *node, buffer });
    }
}

pub fn refused_submit_sets(p: &mut Played) {
    let Some((node, steps)) = p.steps().filter(|_| p.answer.number != 0) else { return };
    if let Some(step) = steps.last() {
        p.answer.state.nodes[node].status = step.status;
    }
}
