//! States that break one rule of validity (01: sound) and no other.

use std::fmt;

use crate::bus::{PENDING_CAPACITY, QUEUE_CAPACITY};
use crate::codec::{self, Rule};
use crate::generate::{Generator, BREAKABLE};
use crate::lent::{self, Slot, State, NODES};
use crate::random::Random;

const TRANSMITS: [u32; 3] = [codec::CAN_TRANSMIT, codec::FD_TRANSMIT, codec::XL_TRANSMIT];

/// The rule that is broken.
#[derive(Clone, Copy, Debug, PartialEq, Eq, PartialOrd, Ord)]
pub enum Invalid {
    NodeCount(u32),
    Status,
    Behaviour,
    BaudRate(usize),
    Fill,
    FivePending,
    BusOffWithFrames,
    AcceptedInTheFuture,
    AcceptedOutOfOrder,
    Owner,
    UnknownKind,
    Content(u32, Rule),
}

impl Invalid {
    /// Every rule.
    pub fn all() -> Vec<Invalid> {
        use Invalid::*;
        let mut all = vec![Status, Behaviour, Fill, FivePending, BusOffWithFrames];
        all.extend([AcceptedInTheFuture, AcceptedOutOfOrder, Owner, UnknownKind]);
        // The last two are 2 in their low bytes.
        all.extend([0, 1, 9, u32::MAX, 258, 65_538].map(NodeCount));
        all.extend([0, 1, 2].map(BaudRate));
        let transmits = BREAKABLE.iter().filter(|(code, _)| TRANSMITS.contains(code));
        all.extend(transmits.map(|&(code, rule)| Content(code, rule)));
        all
    }
}

/// The source of invalid states.
pub struct Breaker {
    random: Random,
    generator: Generator,
}

/// A node of a valid state that is about to be spoiled.
pub struct Target {
    node: usize,
    frames: usize,
}

impl Breaker {
    pub fn new(seed: u64) -> Breaker {
        Breaker { random: Random::new(seed), generator: Generator::new(!seed) }
    }

    /// Gives a valid state what it takes to break the rule, and keeps it valid.
    pub fn prepare(&mut self, invalid: Invalid, state: &mut State, slots: &mut [Slot]) -> Target {
        let attached = state.count as usize;
        let any_number = 1 + self.random.below(PENDING_CAPACITY);
        let frames = match invalid {
            Invalid::FivePending => PENDING_CAPACITY,
            Invalid::AcceptedOutOfOrder => any_number.max(2),
            Invalid::BusOffWithFrames
            | Invalid::AcceptedInTheFuture
            | Invalid::Owner
            | Invalid::UnknownKind
            | Invalid::Content(..) => any_number,
            _ => 0,
        };
        let mut target = Target { node: self.random.below(attached), frames };
        match invalid {
            Invalid::NodeCount(_) => state.nodes[attached..].fill(lent::NEW_NODE),
            // The fifth will be in the first slot of the node behind.
            Invalid::FivePending => {
                target.node = target.node.min(NODES - 2);
                state.nodes[target.node + 1].pending = 0;
            }
            Invalid::AcceptedOutOfOrder => state.round = state.round.max(1),
            _ => {}
        }
        if frames != 0 {
            self.fill_slots(invalid, &target, state, slots);
        }
        target
    }

    /// Breaks the rule in a state that was prepared for it.
    pub fn spoil(
        &mut self,
        invalid: Invalid,
        target: &Target,
        state: &mut State,
        slots: &mut [Slot],
    ) {
        let random = &mut self.random;
        let round = state.round;
        let node = &mut state.nodes[target.node];
        let start = target.node * PENDING_CAPACITY;
        let place = start + random.below(target.frames.max(1));
        match invalid {
            Invalid::NodeCount(count) => state.count = count,
            Invalid::Status => node.status = random.pick(&[0, 4, 128, 255]),
            Invalid::Behaviour => node.behaviour = random.pick(&[0, 3, 128, 255]),
            Invalid::BaudRate(kind) => node.rates[kind] = 0,
            Invalid::Fill => {
                let above = QUEUE_CAPACITY as u16 + 1;
                node.fill = random.pick(&[above, above, 8_192, u16::MAX]);
            }
            Invalid::FivePending => {
                let next = start + PENDING_CAPACITY;
                slots[next] = slots[next - 1];
                node.pending = 5;
            }
            Invalid::BusOffWithFrames => node.status = codec::BUS_OFF,
            Invalid::AcceptedInTheFuture => {
                slots[start + target.frames - 1].accepted = round.saturating_add(1);
            }
            Invalid::AcceptedOutOfOrder => {
                let place = start + 1 + random.below(target.frames - 1);
                for slot in &mut slots[start..place] {
                    slot.accepted = round;
                }
                for slot in &mut slots[place..start + target.frames] {
                    slot.accepted = round - 1;
                }
            }
            Invalid::Owner => {
                let owners = [target.node as u8 ^ 1, target.node as u8 ^ 128, 8, 255];
                slots[place].owner = random.pick(&owners);
            }
            Invalid::UnknownKind => {
                slots[place].kind = random.pick(&[0, 1, 0x0F, 0x13, 0x20, 0x40, 0x90, 255]);
            }
            Invalid::Content(_, rule) => {
                let Slot { owner, accepted, .. } = slots[place];
                let op = lent::operation_in(&slots[place]).expect("a frame was put there");
                slots[place] = lent::slot_of(&self.generator.break_rule(op, rule), owner, accepted);
            }
        }
    }

    /// Whether the rule can be broken at this round number.
    pub fn applies(invalid: Invalid, round: u32) -> bool {
        invalid != Invalid::AcceptedInTheFuture || round != u32::MAX
    }

    /// Valid frames in the target's slots.
    fn fill_slots(
        &mut self,
        invalid: Invalid,
        target: &Target,
        state: &mut State,
        slots: &mut [Slot],
    ) {
        let node = &mut state.nodes[target.node];
        if lent::is_bus_off(node) {
            node.status = codec::ERROR_PASSIVE;
        }
        node.pending = target.frames as u8;
        let start = target.node * PENDING_CAPACITY;
        for slot in &mut slots[start..start + target.frames] {
            let code = match invalid {
                Invalid::Content(code, _) => code,
                _ => self.random.pick(&TRANSMITS),
            };
            let op = self.generator.sound_of(code);
            *slot = lent::slot_of(&op, target.node as u8, state.round);
        }
    }
}

impl fmt::Display for Invalid {
    fn fmt(&self, f: &mut fmt::Formatter) -> fmt::Result {
        match *self {
            Invalid::NodeCount(count) => write!(f, "node count {count}"),
            Invalid::Status => write!(f, "status"),
            Invalid::Behaviour => write!(f, "behaviour"),
            Invalid::BaudRate(kind) => write!(f, "baud rate {} is 0", kind + 1),
            Invalid::Fill => write!(f, "queue filled above 4,096"),
            Invalid::FivePending => write!(f, "five pending frames"),
            Invalid::BusOffWithFrames => write!(f, "Bus-Off node with frames"),
            Invalid::AcceptedInTheFuture => write!(f, "accepted in the future"),
            Invalid::AcceptedOutOfOrder => write!(f, "accepted out of order"),
            Invalid::Owner => write!(f, "frame of another node"),
            Invalid::UnknownKind => write!(f, "slot of unknown kind"),
            Invalid::Content(code, rule) => {
                write!(f, "{}: {rule}", codec::name(code).unwrap_or("unknown"))
            }
        }
    }
}
