//! Calls for random sessions, drawn with the bus in view: an unseen queue would
//! seldom be filled to the byte.

use crate::bus::{Bus, Injection, Node, LONGEST_BUFFER, PENDING_CAPACITY};
use crate::codec::{self, Operation};
use crate::generate::Generator;
use crate::random::Random;
use crate::session::Call;

/// The length of a Format Error without the rejected bytes.
const FORMAT_ERROR_HEADER: usize = 10;

/// The source of calls, all of them determined by a seed.
pub struct Calls {
    random: Random,
    generator: Generator,
    /// The IDs of the session, few of them, so that frames share one.
    ids: [u32; 3],
    /// How many in a hundred calls are rounds, and how many collect.
    rounds: usize,
    collects: usize,
    /// The node that hoards, where one does.
    hoarder: usize,
}

impl Calls {
    pub fn new(seed: u64) -> Calls {
        let random = Random::new(seed);
        let generator = Generator::new(!seed);
        Calls { random, generator, ids: [0; 3], rounds: 0, collects: 0, hoarder: 0 }
    }

    /// A node count for the next session, at times one that is refused.
    pub fn start(&mut self) -> usize {
        let random = &mut self.random;
        let standard = random.below(2_048) as u32;
        let edge = random.pick(&[standard, standard, 2_047, 2_048]);
        self.ids = [edge, random.below(16) as u32, codec::LARGEST_ID];
        self.rounds = random.pick(&[15, 30, 45]);
        self.collects = random.pick(&[4, 12, 30]);
        match random.below(24) {
            0 => random.pick(&[0, 1, 9, usize::MAX]),
            _ => 2 + random.below(7),
        }
    }

    /// A round number to start from: 0, or near the largest.
    pub fn round_number(&mut self) -> u32 {
        match self.random.below(8) {
            0 => u32::MAX - self.random.below(12) as u32,
            _ => 0,
        }
    }

    /// Draws the node that hoards from now on.
    pub fn draw_hoarder(&mut self, bus: &Bus) {
        self.hoarder = self.random.below(bus.nodes.len());
    }

    /// A call of a session in which one node leaves its queue to closings, so
    /// that as many IDs are open as can be: 341 closings and four frames. The
    /// other nodes are Bus-Off, so that nothing else is queued.
    pub fn hoarding_call(&mut self, bus: &Bus) -> Call {
        if let Some(node) = (0..bus.nodes.len()).find(|&node| self.is_in_the_way(bus, node)) {
            let buffer = Operation::BUS_OFF.encode(&[]);
            return Call::Submit { node, buffer };
        }
        let node = self.hoarder;
        let seen = &bus.nodes[node];
        if seen.is_bus_off() {
            return Call::Submit { node, buffer: Operation::Status { status: 1 }.encode(&[]) };
        }
        // The winner's Confirm, and an Arbitration Lost for each of three.
        let all_fit = seen.room() >= 4 * 12;
        let value = if all_fit { codec::DISCARD_AND_NOTIFY } else { codec::BUFFER_AND_RETRANSMIT };
        let buffer = if seen.behaviour == value {
            Vec::new()
        } else {
            Operation::Configuration { kind: 4, value }.encode(&[])
        };
        let missing = PENDING_CAPACITY - seen.pending.len();
        if missing > 0 || !buffer.is_empty() {
            let frames = (0..missing).flat_map(|_| self.short_frame());
            return Call::Submit { node, buffer: buffer.into_iter().chain(frames).collect() };
        }
        if seen.room() >= 12 {
            return Call::Round { injection: None };
        }
        match self.random.below(4) {
            0 => Call::Round { injection: None },
            1 => Call::Submit { node, buffer: self.short_frame() },
            2 => Call::Collect { node, room: self.collect_room(Some(seen)) },
            _ => self.call(bus),
        }
    }

    /// Whether a node, not the one that hoards, would get what is queued.
    fn is_in_the_way(&self, bus: &Bus, node: usize) -> bool {
        node != self.hoarder && !bus.nodes[node].is_bus_off()
    }

    fn short_frame(&mut self) -> Vec<u8> {
        let id = self.random.pick(&self.ids);
        Operation::CanTransmit { id, ide: 1, rtr: 0, length: 0 }.encode(&[])
    }

    pub fn call(&mut self, bus: &Bus) -> Call {
        let drawn = self.random.below(100);
        if drawn < self.rounds {
            return Call::Round { injection: self.injection(bus) };
        }
        if drawn < self.rounds + self.collects {
            return self.collect(bus);
        }
        let node = self.node(bus);
        let seen = bus.nodes.get(node).unwrap_or(&bus.nodes[0]);
        Call::Submit { node, buffer: self.buffer(seen) }
    }

    /// Of any node, or of the fullest, which holds up the rounds.
    fn collect(&mut self, bus: &Bus) -> Call {
        let mut node = self.node(bus);
        if self.random.once_in(2) {
            let fullest = |&number: &usize| bus.nodes[number].queue.len();
            node = (0..bus.nodes.len()).max_by_key(fullest).unwrap_or(node);
        }
        Call::Collect { node, room: self.collect_room(bus.nodes.get(node)) }
    }

    /// The number of an attached node, or seldom of none.
    fn node(&mut self, bus: &Bus) -> usize {
        let attached = bus.nodes.len();
        match self.random.below(48) {
            0 => self.random.pick(&[attached, attached + 1, usize::MAX]),
            _ => self.random.below(attached),
        }
    }

    fn injection(&mut self, bus: &Bus) -> Option<Injection> {
        if !self.random.once_in(3) {
            return None;
        }
        let error_code = match self.random.below(24) {
            0 => self.random.pick(&[0, 7, 129, 255]),
            _ => self.random.below(6) as u8 + 1,
        };
        Some(Injection { error_code, detector: self.node(bus) })
    }

    /// Room for what waits, exactly or more, or too little.
    fn collect_room(&mut self, node: Option<&Node>) -> usize {
        let waiting = node.map_or(0, |node| node.queue.len());
        let short = waiting.saturating_sub(1);
        self.random.pick(&[waiting, waiting, 4_096, 4_096, usize::MAX, short, 0])
    }

    fn buffer(&mut self, node: &Node) -> Vec<u8> {
        let mut buffer = Vec::new();
        // A fifth frame behind a Bus-Off and the way back takes seven.
        let bound = if self.random.once_in(8) { 24 } else { 6 };
        for _ in 0..self.random.below(bound) {
            buffer.extend(self.operation(node));
        }
        if self.random.once_in(12) {
            buffer.extend(self.rest());
        }
        match self.random.below(128) {
            0 => buffer.resize(LONGEST_BUFFER + 1, 0),
            1 => buffer = vec![0xFF; LONGEST_BUFFER],
            _ => {}
        }
        if buffer.len() > LONGEST_BUFFER && !self.random.once_in(4) {
            buffer.truncate(LONGEST_BUFFER);
        }
        buffer
    }

    /// Bytes that are too few for an operation.
    fn rest(&mut self) -> Vec<u8> {
        let length = 1 + self.random.below(7);
        match self.random.below(2) {
            0 => vec![1, 0, 0, 0, 0, 0, 0][..length].to_vec(),
            _ => self.generator.bytes(length),
        }
    }

    /// One operation as bytes, sound or not.
    fn operation(&mut self, node: &Node) -> Vec<u8> {
        match self.random.below(100) {
            0..45 => self.transmit(node),
            45..52 => Operation::Wakeup.encode(&[]),
            52..58 => self.configuration(),
            58..66 => self.status(node),
            66..74 => self.closing(),
            74..78 => self.format_error(),
            78..85 => self.generator.encoded_broken(),
            85..87 => self.generator.encoded_remote(),
            87..96 => self.generator.mangled(),
            96 => self.fitted_remote(node),
            _ => self.fitted_fault(node),
        }
    }

    /// A Transmit with an ID of the session; less often where it cannot be
    /// taken.
    fn transmit(&mut self, node: &Node) -> Vec<u8> {
        if node.pending.len() == PENDING_CAPACITY && !self.random.once_in(6) {
            return self.configuration();
        }
        let kinds = [codec::CAN_TRANSMIT, codec::FD_TRANSMIT, codec::XL_TRANSMIT];
        let mut op = self.generator.sound_of(self.random.pick(&kinds));
        let drawn = self.random.pick(&self.ids);
        if let Operation::CanTransmit { id, ide, .. }
        | Operation::FdTransmit { id, ide, .. }
        | Operation::XlTransmit { id, ide, .. } = &mut op
        {
            *ide |= u8::from(drawn > 2_047);
            *id = drawn;
        }
        self.generator.encoded(&op)
    }

    /// Mostly the behaviour, on which more depends than on baud rates.
    fn configuration(&mut self) -> Vec<u8> {
        match self.random.below(4) {
            0 => {
                let op = self.generator.sound_of(codec::CONFIGURATION);
                self.generator.encoded(&op)
            }
            _ => {
                let value = self.random.pick(&[1, 2]);
                Operation::Configuration { kind: 4, value }.encode(&[])
            }
        }
    }

    /// Bus-Off now and then, and mostly back again.
    fn status(&mut self, node: &Node) -> Vec<u8> {
        let statuses: &[u8] = if node.is_bus_off() { &[1, 1, 2, 2, 3] } else { &[1, 2, 3] };
        let status = self.random.pick(statuses);
        Operation::Status { status }.encode(&[])
    }

    /// A closing with an ID of the session, which only the bus may send.
    fn closing(&mut self) -> Vec<u8> {
        let id = self.random.pick(&self.ids);
        let bus_error = Operation::BusError { id, error_code: 1, error_flag: 1, is_sender: 1 };
        let closings = [Operation::Confirm { id }, Operation::ArbitrationLost { id }, bus_error];
        self.random.pick(&closings).encode(&[])
    }

    /// A Format Error, at times with a length that is not its own.
    fn format_error(&mut self) -> Vec<u8> {
        let data = self.rest();
        let mut bytes = Operation::FormatError { length: data.len() as u16 }.encode(&data);
        let own = bytes[4];
        bytes[4] = self.random.pick(&[own, own, own - 1, own + 1, 200]);
        bytes
    }

    /// A fault whose Format Error leaves in the queue what some operation
    /// needs, or one byte less, or does not fit.
    fn fitted_fault(&mut self, node: &Node) -> Vec<u8> {
        let fitting = node.room().saturating_sub(FORMAT_ERROR_HEADER);
        let leave = self.random.pick(&[0, 7, 8, 11, 12, 14, 15, 16, 24, 27, 28, 40]);
        let length = match self.random.below(4) {
            0 => fitting + 1,
            _ => fitting.saturating_sub(leave),
        };
        self.fault(length)
    }

    /// A remote frame with data behind a fault that leaves its Format Error room
    /// in the queue, or one byte less.
    fn fitted_remote(&mut self, node: &Node) -> Vec<u8> {
        let remote = self.generator.encoded_remote();
        let needed = FORMAT_ERROR_HEADER + remote.len();
        let leave = self.random.pick(&[needed, needed - 1]);
        let mut bytes = self.fault(node.room().saturating_sub(FORMAT_ERROR_HEADER + leave));
        bytes.extend(remote);
        bytes
    }

    /// A fault that takes up so many bytes, or as near as it can be.
    fn fault(&mut self, length: usize) -> Vec<u8> {
        let length = length.clamp(8, LONGEST_BUFFER);
        let mut bytes = self.generator.bytes(length);
        let [l0, l1, ..] = length.to_le_bytes();
        bytes[..8].copy_from_slice(&[0xEE, 0, 0, 0, l0, l1, 0, 0]);
        bytes
    }
}
