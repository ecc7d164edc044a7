//! Demand 3 on state and lent memory: the registers of the nodes, and what they
//! have open after each call.
//!
//! The claim is about lists of calls that begin with a start and of which each
//! gets state and lent memory as the last one left them. So only sessions in
//! which nothing else is ever written carry registers; those with states made up
//! (a round number near the largest, anything in bytes that hold nothing, rules
//! broken) carry none.

use std::fmt;

use kettlefrost::raw;

use crate::bus::PENDING_CAPACITY;
use crate::codec;
use crate::memory::{Call, Memory};
use crate::register::{closed_id, Register, REGISTER_CAPACITY};
use crate::registers::{open_ids, RegisterCall, Registers};

/// The registers of a session's nodes, and beside each the second program's own.
pub struct NodeRegisters {
    calls: Box<dyn Registers>,
    kept: Vec<raw::Register>,
    own: Vec<Register>,
    pub counts: RegisterCounts,
}

/// How often the claim was put to the test.
#[derive(Clone, Copy, Debug, Default, PartialEq, Eq)]
pub struct RegisterCounts {
    pub sessions: u64,
    /// Submitted buffers.
    pub entered: u64,
    /// Collected buffers.
    pub read: u64,
    /// ID numbers counted, of a node after a call.
    pub equations: u64,
    /// The most IDs that a register had open.
    pub most_open: usize,
}

impl NodeRegisters {
    pub fn new(calls: Box<dyn Registers>) -> NodeRegisters {
        let counts = RegisterCounts::default();
        NodeRegisters { calls, kept: Vec::new(), own: Vec::new(), counts }
    }

    /// New registers for the nodes of a bus that was started; says what is
    /// wrong, unless nothing is.
    pub fn start(&mut self, memory: &Memory) -> Option<String> {
        let nodes = memory.state.count as usize;
        self.kept = (0..nodes).map(|_| self.calls.new_register()).collect();
        self.own = vec![Register::new(); nodes];
        self.counts.sessions += 1;
        self.wrong(memory)
    }

    /// Takes a call that left this answer and this memory to the register of
    /// its node; says what is wrong then, unless nothing is.
    pub fn after(&mut self, memory: &Memory, call: &Call, answer: &raw::Answer) -> Option<String> {
        let refused = match *call {
            _ if answer.number != 0 => None,
            Call::Submit { node, ref buffer } => {
                self.counts.entered += 1;
                self.take(node as usize, RegisterCall::Enter, buffer)
            }
            Call::Collect { node, .. } => {
                self.counts.read += 1;
                let bytes = &memory.buffer[..answer.length.into()];
                self.take(node as usize, RegisterCall::Read, bytes)
            }
            Call::Start { .. } | Call::Round { .. } => None,
        };
        refused.or_else(|| self.wrong(memory))
    }

    fn take(&mut self, node: usize, call: RegisterCall, bytes: &[u8]) -> Option<String> {
        let own = match call {
            RegisterCall::Enter => self.own[node].enter(bytes),
            RegisterCall::Read => self.own[node].read(bytes),
        };
        let answer = self.calls.play(&self.kept[node], call, bytes);
        if answer.number != 0 || own.is_err() {
            let number = answer.number;
            return Some(format!("{call:?} of node {node}: answer {number}, own register {own:?}"));
        }
        self.kept[node] = answer.register;
        None
    }

    /// Where a register does not have open what it should.
    fn wrong(&mut self, memory: &Memory) -> Option<String> {
        (0..self.kept.len()).find_map(|node| {
            self.wrong_count(memory, node).or_else(|| {
                let (kept, own) = (&self.kept[node], &self.own[node]);
                let differs = *kept != raw::Register::from(own);
                differs.then(|| format!("register of node {node}: {kept:?}, own register {own:?}"))
            })
        })
    }

    /// An ID number that the register does not have open as often as it is
    /// pending, or closed by what waits in the queue. Both sides are sorted, so
    /// each number is counted by the length of its run.
    fn wrong_count(&mut self, memory: &Memory, node: usize) -> Option<String> {
        let Some(open) = open_ids(&self.kept[node]) else {
            return Some(format!("register of node {node}: count {}", self.kept[node].count));
        };
        let mut open = open.to_vec();
        let mut due = due_ids(memory, node);
        self.counts.most_open = self.counts.most_open.max(open.len());
        open.sort_unstable();
        due.sort_unstable();
        let (mut open, mut due) = (&open[..], &due[..]);
        while let Some(&id) = open.first().into_iter().chain(due.first()).min() {
            let (open_times, due_times) = (run(&mut open, id), run(&mut due, id));
            self.counts.equations += 1;
            if open_times != due_times {
                let count = format!("open {open_times} times, due {due_times} times");
                return Some(format!("register of node {node}: ID {id} {count}"));
            }
        }
        None
    }
}

/// The IDs of a node's pending frames and of the closings in its queue, as they
/// lie in the lent memory.
fn due_ids(memory: &Memory, node: usize) -> Vec<u32> {
    let pending = usize::from(memory.state.nodes[node].pending);
    let slots = &memory.slots[node * PENDING_CAPACITY..][..pending];
    let operations = codec::operations(memory.queue(node)).filter_map(|(op, _)| op.ok());
    let closed = operations.filter_map(|op| closed_id(&op));
    slots.iter().map(|slot| slot.id).chain(closed).collect()
}

/// Takes what equals `id` off the front of a sorted list, and counts it.
fn run(ids: &mut &[u32], id: u32) -> usize {
    let length = ids.iter().take_while(|&&other| other == id).count();
    *ids = &ids[length..];
    length
}

impl RegisterCounts {
    /// What never came up.
    pub fn missing(&self) -> impl Iterator<Item = &'static str> {
        let full = self.most_open == REGISTER_CAPACITY;
        let rows = [
            (self.sessions > 0, "a session with registers"),
            (self.entered > 0, "a buffer that a register enters"),
            (self.read > 0, "a buffer that a register reads"),
            (self.equations > 0, "an ID number counted"),
            (full, "a full register"),
        ];
        rows.into_iter().filter(|&(came_up, _)| !came_up).map(|(_, what)| what)
    }
}

impl fmt::Display for RegisterCounts {
    fn fmt(&self, f: &mut fmt::Formatter) -> fmt::Result {
        let RegisterCounts { sessions, entered, read, equations, most_open } = self;
        write!(f, "{entered} buffers entered, {read} read, {equations} equations, ")?;
        write!(f, "{most_open} IDs open at most, {sessions} sessions")
    }
}
