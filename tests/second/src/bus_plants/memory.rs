//! Starts, collects, the memory's sizes and the node numbers.

use kettlefrost::raw;

use super::Played;
use crate::bus::{LONGEST_BUFFER, QUEUE_CAPACITY};
use crate::lent::{NodeState, Slot};
use crate::memory::{Call, Sizes};

impl Played<'_> {
    /// A start that was done.
    pub fn is_started(&self) -> bool {
        self.is_start() && self.answer.number == 0
    }

    pub fn starts(&self, wanted: u32) -> bool {
        self.is_started() && matches!(self.call, Call::Start { count } if *count == wanted)
    }

    /// A start with a node count that is not 2 to 8.
    pub fn starts_badly(&self) -> bool {
        matches!(self.call, Call::Start { count: 0 | 1 | 9.. })
    }

    pub fn starts_with(&mut self, change: fn(&mut NodeState)) {
        if self.is_started() {
            self.answer.state.nodes.iter_mut().for_each(change);
        }
    }

    /// Answers as if parts of the memory had other sizes.
    pub fn lend(&mut self, change: fn(&mut Sizes, Sizes)) {
        if self.answer.number == 1 {
            change(&mut self.sizes, Sizes::RIGHT);
            self.instead(self.call);
        }
    }

    /// The node number of a submit or a collect is not attached.
    pub fn is_unattached(&self) -> bool {
        self.node().is_some_and(|node| node >= self.before.state.count)
    }

    pub fn is_too_large(&self) -> bool {
        self.submitted().is_some_and(|(_, buffer)| buffer.len() > LONGEST_BUFFER)
    }

    pub fn is_collect_of(&self, wanted: usize) -> bool {
        matches!(self.call, Call::Collect { room, .. } if *room == wanted)
    }

    /// A collect that was done, to a buffer of such a length.
    pub fn collects_to(&self, is: fn(usize) -> bool) -> bool {
        self.answer.number == 0 && matches!(self.call, Call::Collect { room, .. } if is(*room))
    }
}

// Starts.

pub fn start_leaves_slots(p: &mut Played) {
    if p.is_start() {
        p.after.slots.copy_from_slice(&p.before.slots);
    }
}

pub fn start_frees_attached(p: &mut Played) {
    if p.is_started() {
        let first = 4 * p.answer.state.count as usize;
        p.after.slots[first..].copy_from_slice(&p.before.slots[first..]);
    }
}

pub fn start_leaves_fills(p: &mut Played) {
    if p.is_started() {
        for (node, old) in p.answer.state.nodes.iter_mut().zip(p.before.state.nodes) {
            node.fill = old.fill;
        }
    }
}

/// Takes a node count that is one off.
pub fn start_with(p: &mut Played, wanted: u32) {
    if let (2, &Call::Start { count }) = (p.answer.number, p.call) {
        if count == wanted {
            p.instead(&Call::Start { count: count.clamp(2, 8) });
            p.answer.state.count = count;
        }
    }
}

pub fn narrow_count(p: &mut Played) {
    if let (2, &Call::Start { count }) = (p.answer.number, p.call) {
        p.instead(&Call::Start { count: count % 256 });
    }
}

// Node numbers.

pub fn narrow_node(p: &mut Played) {
    if p.answer.number == 4 {
        let mut call = p.call.clone();
        if let Call::Submit { node, .. } | Call::Collect { node, .. } = &mut call {
            *node %= 256;
        }
        p.instead(&call);
    }
}

pub fn behind_the_last(p: &mut Played) {
    if p.answer.number == 4 && p.node() == Some(p.before.state.count) {
        p.answer.number = 0;
    }
}

// Collects.

pub fn each_fill(answer: &mut raw::Answer, fill: u16) {
    answer.state.nodes.iter_mut().for_each(|node| node.fill = fill);
}

pub fn exact_room_refused(p: &mut Played) {
    if let (0, &Call::Collect { room, .. }) = (p.answer.number, p.call) {
        if usize::from(p.answer.length) == room {
            p.refuse(11);
        }
    }
}

/// Copies what fits.
pub fn one_short_taken(p: &mut Played) {
    if let (11, &Call::Collect { node, room }) = (p.answer.number, p.call) {
        let call = Call::Collect { node, room: room + 1 };
        if p.asked(&call, |_| ()).number == 0 {
            p.instead(&call);
        }
    }
}

pub fn collect_less(p: &mut Played) {
    if p.collected().is_some() && p.answer.length > 0 {
        let last = usize::from(p.answer.length) - 1;
        p.after.buffer[last] = p.before.buffer[last];
    }
}

pub fn collect_to_the_end(p: &mut Played) {
    if let (0, &Call::Collect { room, .. }) = (p.answer.number, p.call) {
        p.after.buffer[..room].rotate_right(p.answer.length.into());
    }
}

pub fn collect_more(p: &mut Played) {
    if let (0, &Call::Collect { node, room }) = (p.answer.number, p.call) {
        let more = usize::from(p.answer.length) + 1;
        if more <= room.min(QUEUE_CAPACITY) {
            let queue = &p.before.queues[node as usize * QUEUE_CAPACITY..];
            p.after.buffer[..more].copy_from_slice(&queue[..more]);
        }
    }
}

pub fn refused_collect_empties(p: &mut Played) {
    if let (11, Some(node)) = (p.answer.number, p.node()) {
        p.answer.state.nodes[node as usize].fill = 0;
    }
}

pub fn refused_collect_copies(p: &mut Played) {
    if let (11, &Call::Collect { node, room }) = (p.answer.number, p.call) {
        let queue = &p.before.queues[node as usize * QUEUE_CAPACITY..];
        p.after.buffer[..room].copy_from_slice(&queue[..room]);
    }
}

/// The places are those that a start leaves.
pub fn places_used_up(p: &mut Played) {
    let Some((node, _)) = p.submitted() else { return };
    let used = |slot: &&Slot| slot.kind != 0;
    if p.answer.number == 0
        && p.answer.state.nodes[node].pending > p.before.state.nodes[node].pending
    {
        let slots = &p.before.slots[node * 4..][..4];
        let new =
            usize::from(p.answer.state.nodes[node].pending - p.before.state.nodes[node].pending);
        if slots.iter().filter(used).count() + new > 4 {
            p.refuse(8);
        }
    }
}

impl Played<'_> {
    /// Takes what queues with more room would take.
    pub fn roomier(&mut self, bytes: u16) {
        if self.answer.number == 9 {
            let roomier = self.asked(self.call, |memory| {
                for node in &mut memory.state.nodes {
                    node.fill = node.fill.saturating_sub(bytes);
                }
            });
            self.answer.number = roomier.number;
        }
    }
}
