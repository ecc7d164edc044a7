//! A list of calls played on a bus and on the registers of its nodes, with the
//! claim of demand 3 held after each call.

use std::collections::BTreeMap;

use crate::bus::{Bus, Injection, Node, Round};
use crate::codec;
use crate::register::{closed_id, Register};

/// A call of the bus other than start.
#[derive(Clone, Debug, PartialEq, Eq)]
pub enum Call {
    Submit { node: usize, buffer: Vec<u8> },
    Round { injection: Option<Injection> },
    Collect { node: usize, room: usize },
}

/// What an accepted call gives.
#[derive(Clone, Debug, PartialEq, Eq)]
pub enum Done {
    Submitted,
    Round(Round),
    Collected(Vec<u8>),
}

/// What a call gives, or its refusal.
pub type Answer = Result<Done, u8>;

/// A way in which demand 3 does not hold.
#[derive(Clone, Copy, Debug, PartialEq, Eq)]
pub enum Breach {
    /// A register refused a call.
    Register { node: usize, refusal: u8 },
    /// `open` times in the register, but `due` times pending or closed in the
    /// queue.
    Count { node: usize, id: u32, open: usize, due: usize },
}

/// A bus, and a register for each of its nodes.
#[derive(Clone, Debug, PartialEq, Eq)]
pub struct Session {
    pub bus: Bus,
    pub registers: Vec<Register>,
}

impl Session {
    pub fn start(nodes: usize) -> Result<Session, u8> {
        let bus = Bus::start(nodes)?;
        Ok(Session { bus, registers: vec![Register::new(); nodes] })
    }

    /// Plays one call on the bus, and on the register of its node where it was
    /// accepted.
    pub fn play(&mut self, call: &Call) -> Result<Answer, Breach> {
        let answer = answer(&mut self.bus, call);
        self.keep_register(call, &answer)?;
        self.check_counts()?;
        Ok(answer)
    }

    fn keep_register(&mut self, call: &Call, answer: &Answer) -> Result<(), Breach> {
        let (node, kept) = match (call, answer) {
            (Call::Submit { node, buffer }, Ok(_)) => (*node, self.registers[*node].enter(buffer)),
            (Call::Collect { node, .. }, Ok(Done::Collected(bytes))) => {
                (*node, self.registers[*node].read(bytes))
            }
            _ => return Ok(()),
        };
        kept.map_err(|refusal| Breach::Register { node, refusal })
    }

    /// Holds that each register has each ID open as often as it is due.
    fn check_counts(&self) -> Result<(), Breach> {
        let pairs = self.bus.nodes.iter().zip(&self.registers).enumerate();
        for (number, (node, register)) in pairs {
            let mut counts = BTreeMap::<u32, (usize, usize)>::new();
            for &id in &register.open {
                counts.entry(id).or_default().0 += 1;
            }
            for id in due_ids(node) {
                counts.entry(id).or_default().1 += 1;
            }
            if let Some((&id, &(open, due))) = counts.iter().find(|(_, (open, due))| open != due) {
                return Err(Breach::Count { node: number, id, open, due });
            }
        }
        Ok(())
    }
}

/// What the bus answers to a call.
pub fn answer(bus: &mut Bus, call: &Call) -> Answer {
    match *call {
        Call::Submit { node, ref buffer } => bus.submit(node, buffer).map(|()| Done::Submitted),
        Call::Round { injection } => bus.round(injection).map(Done::Round),
        Call::Collect { node, room } => bus.collect(node, room).map(Done::Collected),
    }
}

/// The IDs of a node's pending frames, and of the closings in its queue.
fn due_ids(node: &Node) -> impl Iterator<Item = u32> + '_ {
    let pending = node.pending.iter().map(|frame| frame.id);
    let closed = codec::operations(&node.queue).filter_map(|(op, _)| closed_id(&op.ok()?));
    pending.chain(closed)
}
