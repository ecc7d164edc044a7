//! What sessions on lent memory are made of, drawn with the bus in view.

use crate::bus::{Bus, PENDING_CAPACITY};
use crate::bus_tally::{Part, Size};
use crate::calls::Calls;
use crate::codec;
use crate::invalid::{Breaker, Invalid};
use crate::lent::{Injection, NodeState, Slot, SLOTS};
use crate::memory::{Call, Memory, LARGEST_ROOM};
use crate::random::Random;
use crate::session;

/// What a session is made of.
#[derive(Clone, Copy, Debug, PartialEq, Eq)]
pub enum Course {
    /// Calls on states made up too, and on memory that others wrote to.
    Crafted,
    /// Only calls that get state and lent memory as the last one left them.
    Listed,
    /// The same, of a node that leaves its queue to closings.
    Hoarding,
}

/// One thing to do in a session.
pub enum Case {
    Call,
    /// A start that is refused, in the middle of a session.
    RefusedStart {
        count: u32,
    },
    /// A call with a part of the memory not of its size.
    WrongSize {
        part: Part,
        size: Size,
        /// The state is the one that a refused start hands back.
        unstarted: bool,
    },
    /// A call on a state with one rule broken.
    Invalid(Invalid),
    /// Another valid state, of the same view but for the round number.
    Change,
}

/// The source of cases, all of them determined by a seed.
pub struct Cases {
    random: Random,
    calls: Calls,
    pub breaker: Breaker,
    rules: Vec<Invalid>,
}

impl Cases {
    pub fn new(seed: u64) -> Cases {
        let random = Random::new(seed.rotate_left(32));
        let breaker = Breaker::new(seed.rotate_left(16));
        Cases { random, calls: Calls::new(seed), breaker, rules: Invalid::all() }
    }

    /// A node count for the next session, at times one that is refused.
    pub fn count(&mut self) -> u32 {
        self.calls.start() as u32
    }

    /// What a session on this bus is made of.
    pub fn course(&mut self, bus: &Bus) -> Course {
        self.calls.draw_hoarder(bus);
        match self.random.below(32) {
            0..16 => Course::Crafted,
            16..31 => Course::Listed,
            _ => Course::Hoarding,
        }
    }

    /// A round number for the next session.
    pub fn round_number(&mut self) -> u32 {
        self.calls.round_number()
    }

    pub fn case(&mut self) -> Case {
        let random = &mut self.random;
        match random.below(1000) {
            0..4 => {
                Case::RefusedStart { count: random.pick(&[0, 1, 9, 10, 258, 65_538, u32::MAX]) }
            }
            4..24 => {
                let (part, size) = (random.pick(&Part::ALL), random.pick(&Size::ALL));
                Case::WrongSize { part, size, unstarted: random.once_in(4) }
            }
            24..104 => Case::Invalid(random.pick(&self.rules)),
            104..114 => Case::Change,
            _ => Case::Call,
        }
    }

    /// A call other than start.
    pub fn call(&mut self, bus: &Bus) -> Call {
        let call = self.calls.call(bus);
        self.widened(call, bus)
    }

    /// A call of a session in which one node hoards.
    pub fn hoarding_call(&mut self, bus: &Bus) -> Call {
        let call = self.calls.hoarding_call(bus);
        self.widened(call, bus)
    }

    /// A call with numbers as wide as the bus takes them.
    fn widened(&mut self, call: session::Call, bus: &Bus) -> Call {
        match call {
            session::Call::Submit { node, buffer } => {
                Call::Submit { node: self.node(node, bus), buffer }
            }
            session::Call::Round { injection } => {
                let injection = injection.map(|injection| Injection {
                    code: self.code(injection.error_code),
                    detector: self.node(injection.detector, bus),
                });
                Call::Round { injection }
            }
            session::Call::Collect { node, room } => {
                Call::Collect { node: self.node(node, bus), room: room.min(LARGEST_ROOM) }
            }
        }
    }

    /// Any call, a start too.
    pub fn any_call(&mut self, bus: &Bus) -> Call {
        match self.random.below(4) {
            0 => Call::Start { count: self.random.pick(&[2, 3, 8, 1, 9]) },
            _ => self.call(bus),
        }
    }

    /// A number that is not attached is made another, as wide as it can be.
    fn node(&mut self, node: usize, bus: &Bus) -> u32 {
        let attached = bus.nodes.len();
        if node < attached {
            return node as u32;
        }
        let low = self.random.below(attached) as u32;
        let count = attached as u32;
        self.random.pick(&[count, count + 1, 8, 255, 256 + low, 65_536 + low, u32::MAX])
    }

    /// A code, at times with one of its high bytes set.
    fn code(&mut self, code: u8) -> u32 {
        match self.random.below(48) {
            0 => u32::from(code) | 1 << self.random.pick(&[8, 16, 24, 31]),
            _ => code.into(),
        }
    }

    /// Fills the lent memory with what a start finds there.
    pub fn scramble(&mut self, memory: &mut Memory) {
        for place in 0..memory.slots.len() {
            memory.slots[place] = self.slot();
        }
        for part in [&mut memory.payload, &mut memory.queues, &mut memory.buffer] {
            for bytes in part.chunks_mut(4) {
                bytes.copy_from_slice(&self.random.word().to_le_bytes()[..bytes.len()]);
            }
        }
    }

    /// Puts anything where nothing is asked: in the entries of other nodes, in
    /// slots that hold no frame, in fields that a frame's kind does not have.
    pub fn change_unasked(&mut self, memory: &mut Memory) {
        let attached = memory.state.count as usize;
        for node in &mut memory.state.nodes[attached..] {
            *node = self.entry();
        }
        for place in 0..SLOTS {
            let node = place / PENDING_CAPACITY;
            let pending = usize::from(memory.state.nodes[node].pending);
            let slot = &mut memory.slots[place];
            if node >= attached || place % PENDING_CAPACITY >= pending {
                *slot = self.slot();
            } else if self.random.once_in(4) {
                self.change_unused(slot);
            }
        }
    }

    fn change_unused(&mut self, slot: &mut Slot) {
        let random = &mut self.random;
        if slot.kind != codec::XL_TRANSMIT as u8 {
            (slot.af, slot.fourth) = (random.word(), random.byte());
        }
        if slot.kind == codec::CAN_TRANSMIT as u8 {
            slot.third = random.byte();
        }
    }

    /// A later round number, where there is one.
    pub fn later(&mut self, round: u32) -> u32 {
        let by = self.random.pick(&[0, 0, 1, 2, 1_000]);
        round.checked_add(by).unwrap_or(round)
    }

    /// Any slot, mostly one that could be a frame.
    fn slot(&mut self) -> Slot {
        let random = &mut self.random;
        Slot {
            accepted: random.edge(&[0, 0, 1, u32::MAX]),
            id: random.edge(&[0, 1, 15, 2_047]),
            af: random.word(),
            length: random.pick(&[1, 8, 64, 2_048, 65_535]),
            kind: random.pick(&[0, 0x10, 0x11, 0x12, 0x12, 255]),
            owner: random.below(9) as u8,
            first: random.pick(&[0, 1, 255]),
            second: random.pick(&[0, 1, 255]),
            third: random.byte(),
            fourth: random.byte(),
        }
    }

    fn entry(&mut self) -> NodeState {
        let random = &mut self.random;
        NodeState {
            rates: [random.edge(&[0]), random.edge(&[0]), random.edge(&[0])],
            fill: random.word() as u16,
            status: random.byte(),
            behaviour: random.byte(),
            pending: random.byte(),
        }
    }
}
