//! What is asked of a state.

use super::Played;
use crate::bus::PENDING_CAPACITY;
use crate::codec::{self, Operation};
use crate::lent::{self, NodeState, Slot, State, NEW_NODE, SLOTS};
use crate::memory::{Calls, Second};
use crate::wrong_content::{mended, WrongRule};

/// Takes a refusal 3 back if the state, repaired, is valid.
pub fn unasked(p: &mut Played, repair: impl Fn(&mut State, &mut [Slot])) {
    if p.answer.number == 3 {
        let mut repaired = p.before.clone();
        repair(&mut repaired.state, &mut repaired.slots);
        let answer = Second.play(&mut repaired, p.sizes, p.call);
        p.answer.number = answer.number;
    }
}

pub fn each_node(p: &mut Played, repair: fn(&mut NodeState)) {
    unasked(p, |state, _| state.nodes.iter_mut().for_each(repair));
}

pub fn each_slot(p: &mut Played, repair: fn(&mut Slot)) {
    unasked(p, |_, slots| slots.iter_mut().for_each(repair));
}

/// Refuses a valid state.
pub fn unsound(p: &mut Played, is: impl Fn(&State, &[Slot]) -> bool) {
    let asked = !p.is_start() && ![1, 3].contains(&p.answer.number);
    if asked && is(&p.before.state, &p.before.slots) {
        p.refuse(3);
    }
}

pub fn unsound_node(p: &mut Played, is: fn(&NodeState) -> bool) {
    unsound(p, |state, _| attached(state).iter().any(is));
}

pub fn unsound_frame(p: &mut Played, is: impl Fn(&Slot, &State) -> bool) {
    unsound(p, |state, slots| frames(state, slots).any(|slot| is(slot, state)));
}

/// Judges the pending frames by a wrong content rule.
pub fn judge_frames(p: &mut Played, rule: &WrongRule) {
    unasked(p, |_, slots| {
        for slot in slots {
            let Some(op) = lent::operation_in(slot) else { continue };
            if rule.is_sound(&op) && !op.is_sound() {
                *slot = lent::slot_of(&mended(&op), slot.owner, slot.accepted);
            }
        }
    });
    unsound_frame(p, |slot, _| lent::operation_in(slot).is_some_and(|op| !rule.is_sound(&op)));
}

fn attached(state: &State) -> &[NodeState] {
    &state.nodes[..state.count as usize]
}

/// The pending frames of a valid state.
fn frames<'a>(state: &'a State, slots: &'a [Slot]) -> impl Iterator<Item = &'a Slot> {
    let nodes = attached(state).iter().zip(slots.chunks(PENDING_CAPACITY));
    nodes.flat_map(|(node, slots)| &slots[..node.pending.into()])
}

/// Some frame in place of what is none.
pub fn any_frame(slot: &Slot) -> Slot {
    let op = Operation::CanTransmit { id: 0, ide: 0, rtr: 0, length: 0 };
    lent::slot_of(&op, slot.owner, slot.accepted)
}

pub fn last_node_unasked(p: &mut Played) {
    unasked(p, |state, _| {
        if let Some(last) = state.nodes.get_mut((state.count as usize).wrapping_sub(1)) {
            *last = NEW_NODE;
        }
    });
}

/// The oldest frame of each node, or the newest, is not asked.
pub fn frame_unasked(p: &mut Played, newest: bool) {
    unasked(p, |state, slots| {
        for (number, node) in state.nodes.iter().enumerate() {
            let pending = usize::from(node.pending).clamp(1, PENDING_CAPACITY);
            let place = number * PENDING_CAPACITY + if newest { pending - 1 } else { 0 };
            let accepted = if newest { state.round } else { 0 };
            slots[place] = any_frame(&Slot { owner: number as u8, accepted, ..Slot::default() });
        }
    });
}

pub fn in_order(state: &mut State, slots: &mut [Slot]) {
    for slots in slots.chunks_mut(PENDING_CAPACITY) {
        if slots.iter().all(|slot| slot.accepted <= state.round) {
            slots.iter_mut().for_each(|slot| slot.accepted = 0);
        }
    }
}

pub fn not_in_future(state: &mut State, slots: &mut [Slot]) {
    for slot in slots {
        if slot.accepted.checked_sub(1) == Some(state.round) {
            slot.accepted = state.round;
        }
    }
}

pub fn own_all(_: &mut State, slots: &mut [Slot]) {
    for (place, slot) in slots.iter_mut().enumerate() {
        slot.owner = (place / PENDING_CAPACITY) as u8;
    }
}

/// Whether two frames of a node were accepted in the same round.
pub fn accepted_together(state: &State, slots: &[Slot]) -> bool {
    attached(state).iter().zip(slots.chunks(PENDING_CAPACITY)).any(|(node, slots)| {
        let frames = &slots[..node.pending.into()];
        frames.windows(2).any(|pair| pair[0].accepted == pair[1].accepted)
    })
}

pub fn ask_other_entries(p: &mut Played) {
    unsound(p, |state, _| {
        state.nodes[state.count as usize..].iter().any(|node| node.status > codec::BUS_OFF)
    });
}

pub fn ask_free_slots(p: &mut Played) {
    unsound(p, |_, slots| {
        let is_unknown = |slot: &Slot| slot.kind != 0 && lent::operation_in(slot).is_none();
        slots[..SLOTS].iter().any(is_unknown)
    });
}
