//! The calls of the bus: full rounds, a submit, a collect.

use std::hint::black_box;

use kettlefrost::raw;
use second::bus::QUEUE_CAPACITY;
use second::by_value;
use second::codec::Operation;
use second::lent::{self, Injection, Round, Slot, State, NODES, SLOTS};
use second::memory;
use second::memory::{Calls, Memory, Second, Sizes};

use crate::floor;
use crate::loaded::{self, AFTER, BEFORE};
use crate::measure::{measure, Pass, Row};
use crate::{BUILDS, WAYS};

/// Rounds in a pass: as many as there are frames.
const ROUNDS: usize = SLOTS;

/// The second bus behind calls like the library's: the state by value, and one
/// record as the answer, under C's convention, which copies a state by value to
/// the stack. Slices go as pointer and length under both.
#[allow(improper_ctypes_definitions)]
mod by_call {
    use super::{by_value, raw, Injection, Slot, State};

    #[inline(never)]
    pub extern "C" fn submit(
        state: State,
        slots: &mut [Slot],
        payload: &mut [u8],
        queues: &mut [u8],
        node: u32,
        buffer: &[u8],
    ) -> raw::Answer {
        by_value::submit(state, slots, payload, queues, node, buffer)
    }

    #[inline(never)]
    pub extern "C" fn round(
        state: State,
        slots: &mut [Slot],
        payload: &mut [u8],
        queues: &mut [u8],
        injection: Option<Injection>,
    ) -> raw::Answer {
        by_value::round(state, slots, payload, queues, injection)
    }

    #[inline(never)]
    pub extern "C" fn collect(
        state: State,
        slots: &[Slot],
        payload: &[u8],
        queues: &[u8],
        node: u32,
        buffer: &mut [u8],
    ) -> raw::Answer {
        by_value::collect(state, slots, payload, queues, node, buffer)
    }
}

/// A way to use a bus. Refusals do not arise, and give 255 or 0.
trait Way {
    fn submit(lent: &mut Lent, node: u32, buffer: &[u8]) -> u8;
    /// The sender.
    fn round(lent: &mut Lent) -> u8;
    /// The length.
    fn collect(lent: &mut Lent, node: u32, buffer: &mut [u8]) -> usize;
}

/// A state with its lent memory.
#[derive(Clone, PartialEq)]
struct Lent {
    state: State,
    slots: Vec<Slot>,
    payload: Vec<u8>,
    queues: Vec<u8>,
}

/// The two ways by value, which differ in the module alone.
macro_rules! by_value_way {
    ($way:ident, $calls:ident) => {
        struct $way;

        impl Way for $way {
            #[inline]
            fn submit(lent: &mut Lent, node: u32, buffer: &[u8]) -> u8 {
                let Lent { state, slots, payload, queues } = lent;
                let answer = $calls::submit(*state, slots, payload, queues, node, buffer);
                *state = answer.state;
                answer.number as u8
            }

            #[inline]
            fn round(lent: &mut Lent) -> u8 {
                let Lent { state, slots, payload, queues } = lent;
                let answer = $calls::round(*state, slots, payload, queues, None);
                *state = answer.state;
                answer.sender
            }

            #[inline]
            fn collect(lent: &mut Lent, node: u32, buffer: &mut [u8]) -> usize {
                let Lent { state, slots, payload, queues } = lent;
                let answer = $calls::collect(*state, slots, payload, queues, node, buffer);
                *state = answer.state;
                answer.length.into()
            }
        }
    };
}

by_value_way!(ByLibrary, raw);
by_value_way!(ByCall, by_call);

/// The second bus as it is used in Rust: the state changed where it is.
struct InPlace;

impl Way for InPlace {
    #[inline]
    fn submit(lent: &mut Lent, node: u32, buffer: &[u8]) -> u8 {
        let Lent { state, slots, payload, queues } = lent;
        lent::submit(state, slots, payload, queues, node, buffer).err().unwrap_or(0)
    }

    #[inline]
    fn round(lent: &mut Lent) -> u8 {
        let Lent { state, slots, payload, queues } = lent;
        match lent::round(state, slots, payload, queues, None) {
            Ok(Round::Carried { sender, .. }) => sender,
            _ => 255,
        }
    }

    #[inline]
    fn collect(lent: &mut Lent, node: u32, buffer: &mut [u8]) -> usize {
        let Lent { state, slots, payload, queues } = lent;
        lent::collect(state, slots, payload, queues, node, buffer).unwrap_or(0)
    }
}

/// The floor: valid, and with room for all that comes.
struct Floor;

impl Way for Floor {
    #[inline]
    fn submit(lent: &mut Lent, node: u32, buffer: &[u8]) -> u8 {
        let Lent { state, slots, payload, .. } = lent;
        let (slots, payload) = (slots.as_mut_ptr(), payload.as_mut_ptr());
        unsafe { floor::floor_submit(state, slots, payload, node, buffer.as_ptr()) };
        0
    }

    #[inline]
    fn round(lent: &mut Lent) -> u8 {
        let Lent { state, slots, payload, queues } = lent;
        let (slots, payload, queues) =
            (slots.as_mut_ptr(), payload.as_mut_ptr(), queues.as_mut_ptr());
        unsafe { floor::floor_round(state, slots, payload, queues) }
    }

    #[inline]
    fn collect(lent: &mut Lent, node: u32, buffer: &mut [u8]) -> usize {
        let Lent { state, queues, .. } = lent;
        unsafe { floor::floor_collect(state, queues.as_ptr(), node, buffer.as_mut_ptr()) }
    }
}

/// One of two builds of the library.
struct Loaded<const BUILD: usize>;

impl<const BUILD: usize> Way for Loaded<BUILD> {
    #[inline]
    fn submit(lent: &mut Lent, node: u32, buffer: &[u8]) -> u8 {
        let answer = loaded::submit::<BUILD>(lent.state, lent.parts(), node, buffer);
        lent.state = answer.state;
        answer.number as u8
    }

    #[inline]
    fn round(lent: &mut Lent) -> u8 {
        let answer = loaded::round::<BUILD>(lent.state, lent.parts());
        lent.state = answer.state;
        answer.sender
    }

    #[inline]
    fn collect(lent: &mut Lent, node: u32, buffer: &mut [u8]) -> usize {
        let answer = loaded::collect::<BUILD>(lent.state, lent.parts(), node, buffer);
        lent.state = answer.state;
        answer.length.into()
    }
}

/// What is measured, a function each way.
struct Measured<const N: usize> {
    names: [&'static str; N],
    rounds: [fn(&mut Rounds) -> u64; N],
    round: [fn(&mut Lent) -> u64; N],
    submit: [fn(&mut Lent) -> u64; N],
    collect: [fn(&mut Lent) -> u64; N],
}

macro_rules! measured {
    ($names:expr, $($way:ty),+) => {
        Measured {
            names: $names,
            rounds: [$(rounds_pass::<$way>),+],
            round: [$(round_call::<$way>),+],
            submit: [$(submit_call::<$way>),+],
            collect: [$(collect_call::<$way>),+],
        }
    };
}

impl Lent {
    /// What is lent besides the state.
    fn parts(&mut self) -> loaded::Lent<'_> {
        let Lent { slots, payload, queues, .. } = self;
        loaded::Lent { slots, payload, queues }
    }

    /// Eight nodes, and nothing pending.
    fn new() -> Lent {
        let mut memory = Memory::new();
        let start = memory::Call::Start { count: NODES as u32 };
        let state = Second.play(&mut memory, Sizes::RIGHT, &start).state;
        let Memory { mut slots, mut payload, mut queues, .. } = memory;
        slots.truncate(Sizes::RIGHT.slots);
        payload.truncate(Sizes::RIGHT.payload);
        queues.truncate(Sizes::RIGHT.queues);
        Lent { state, slots, payload, queues }
    }

    /// Eight nodes with four frames each, in turn from node to node.
    fn full(frame: &Frame) -> Lent {
        let mut lent = Lent::new();
        for id in 0..SLOTS {
            assert_eq!(
                InPlace::submit(&mut lent, (id % NODES) as u32, &frame.with_id(id as u32)),
                0
            );
        }
        lent
    }
}

/// A Transmit with an extended ID.
struct Frame {
    name: &'static str,
    bytes: Vec<u8>,
    /// How many rounds a queue has room for.
    rounds: usize,
}

impl Frame {
    fn new(name: &'static str, op: Operation) -> Frame {
        let bytes = op.encode(&vec![0x5A; op.data_length()]);
        let rounds = (QUEUE_CAPACITY / bytes.len()).min(ROUNDS);
        Frame { name, bytes, rounds }
    }

    fn with_id(&self, id: u32) -> Vec<u8> {
        let mut bytes = self.bytes.clone();
        put_id(&mut bytes, id);
        bytes
    }
}

fn put_id(bytes: &mut [u8], id: u32) {
    bytes[8..12].copy_from_slice(&id.to_le_bytes());
}

/// A full bus and what it takes to keep it going.
struct Rounds<'a> {
    lent: Lent,
    frame: &'a Frame,
    next: Vec<u8>,
    id: u32,
    collected: Vec<u8>,
}

impl Rounds<'_> {
    fn new(frame: &Frame) -> Rounds<'_> {
        let (lent, next) = (Lent::full(frame), frame.bytes.clone());
        Rounds { lent, frame, next, id: SLOTS as u32, collected: vec![0; QUEUE_CAPACITY] }
    }

    /// Whether state, lent memory and what was collected are the same.
    fn has_same(&self, other: &Rounds) -> bool {
        self.lent == other.lent && self.collected == other.collected
    }

    /// Rounds of 32 frames each: the oldest of all wins, and its sender submits
    /// another. The queues are collected when they are full.
    fn pass<W: Way>(&mut self) -> u64 {
        let mut total = 0;
        for number in 1..=ROUNDS {
            let sender = W::round(black_box(&mut self.lent)).into();
            put_id(&mut self.next, self.id);
            self.id = (self.id + 1) % (1 << 29);
            total += u64::from(sender) + u64::from(W::submit(&mut self.lent, sender, &self.next));
            if number % self.frame.rounds == 0 || number == ROUNDS {
                for node in 0..NODES as u32 {
                    total += W::collect(&mut self.lent, node, &mut self.collected) as u64;
                }
            }
        }
        total
    }
}

fn rounds_pass<W: Way>(rounds: &mut Rounds) -> u64 {
    rounds.pass::<W>()
}

fn round_call<W: Way>(lent: &mut Lent) -> u64 {
    W::round(lent).into()
}

fn submit_call<W: Way>(lent: &mut Lent) -> u64 {
    const FRAME: [u8; 24] =
        [0x10, 0, 0, 0, 24, 0, 0, 0, 15, 0, 0, 0, 0, 0, 8, 0, 1, 2, 3, 4, 5, 6, 7, 8];
    W::submit(lent, 7, black_box(&FRAME)).into()
}

fn collect_call<W: Way>(lent: &mut Lent) -> u64 {
    let mut buffer = [0; QUEUE_CAPACITY];
    let length = W::collect(lent, 3, black_box(&mut buffer));
    length as u64
}

impl<const N: usize> Measured<N> {
    fn rounds(&self, frame: &Frame) {
        let mut buses = self.rounds.map(|pass| (pass, Rounds::new(frame)));
        buses.iter_mut().for_each(|(pass, bus)| _ = pass(bus));
        let title = &format!("full rounds with refill and collect, {}", frame.name);
        assert!(buses.iter().all(|(_, bus)| bus.has_same(&buses[0].1)), "{title}: memory differs");
        let ways = buses.each_mut().map(|(pass, bus)| Box::new(|| pass(bus)) as Pass);
        measure(&Row { title, units: "rounds", steps: ROUNDS }, &self.names, ways);
    }

    /// Measures one call, again and again from the same state. What it leaves in
    /// memory is the same each time.
    fn call(&self, title: &str, units: &str, lent: &Lent, calls: [fn(&mut Lent) -> u64; N]) {
        const CALLS: usize = 64;
        let state = lent.state;
        let mut lents = calls.map(|call| (call, lent.clone()));
        lents.iter_mut().for_each(|(call, lent)| _ = call(lent));
        assert!(lents.iter().all(|(_, lent)| *lent == lents[0].1), "{title}: the memory differs");
        let repeated = |(call, lent): &mut (fn(&mut Lent) -> u64, Lent)| {
            let mut total = 0;
            for _ in 0..CALLS {
                lent.state = state;
                total += call(black_box(lent));
            }
            total
        };
        let ways = lents.each_mut().map(|way| Box::new(|| repeated(way)) as Pass);
        measure(&Row { title, units, steps: CALLS }, &self.names, ways);
    }

    fn everything(&self) {
        let can = Operation::CanTransmit { id: 0, ide: 1, rtr: 0, length: 8 };
        let fd = Operation::FdTransmit { id: 0, ide: 1, brs: 1, esi: 0, length: 64 };
        let (sec, sdt, vcid, af) = (0, 3, 0, 0);
        let xl = Operation::XlTransmit { id: 0, ide: 1, sec, sdt, vcid, af, length: 2_048 };
        let can = Frame::new("CAN 8 bytes", can);
        for frame in [&can, &Frame::new("FD 64 bytes", fd), &Frame::new("XL 2,048 bytes", xl)] {
            self.rounds(frame);
        }

        let mut full = Lent::full(&can);
        self.call("one round, 32 frames pending", "rounds", &full, self.round);

        let submit = "submit of one CAN Transmit";
        self.call(&format!("{submit}, nothing pending"), "submits", &Lent::new(), self.submit);
        let mut one_free = full.clone();
        one_free.state.nodes[7].pending = 3;
        self.call(&format!("{submit}, 31 frames pending"), "submits", &one_free, self.submit);

        full.state.nodes[3].fill = QUEUE_CAPACITY as u16;
        let title = "collect of a full queue, 32 frames pending";
        self.call(title, "collects", &full, self.collect);
    }
}

/// Measures everything, the library against the second program and the floor.
pub fn measure_all() {
    measured!(WAYS, ByLibrary, ByCall, InPlace, Floor).everything();
}

/// Measures everything, one build against another.
pub fn measure_builds() {
    measured!(BUILDS, Loaded<AFTER>, Loaded<BEFORE>).everything();
}
