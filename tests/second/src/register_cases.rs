//! Registers and buffers for the register's calls, drawn with the register in
//! view: an unseen one would seldom be filled, or closed, to the last ID.

use kettlefrost::raw;

use crate::codec::{self, Operation};
use crate::generate::Generator;
use crate::random::Random;
use crate::register::REGISTER_CAPACITY;
use crate::registers::{open_ids, RegisterCall};

/// The rule of validity (01: sound) that a register breaks.
#[derive(Clone, Copy, Debug, PartialEq, Eq, PartialOrd, Ord)]
pub enum Invalid {
    Count,
    /// At most 345 in its low half.
    WideCount,
    FirstId,
    LastId,
    AnyId,
    BusOffWithIds,
}

impl Invalid {
    pub const ALL: [Invalid; 6] = [
        Invalid::Count,
        Invalid::WideCount,
        Invalid::FirstId,
        Invalid::LastId,
        Invalid::AnyId,
        Invalid::BusOffWithIds,
    ];
}

/// A call of the register.
pub struct Case {
    pub register: raw::Register,
    pub call: RegisterCall,
    pub buffer: Vec<u8>,
    /// The one rule that the register was made to break.
    pub invalid: Option<Invalid>,
}

const IDS: [u32; 8] = [0, 1, 15, 16, 2_047, 2_048, codec::LARGEST_ID - 1, codec::LARGEST_ID];
const TRANSMITS: [u32; 3] = [codec::CAN_TRANSMIT, codec::FD_TRANSMIT, codec::XL_TRANSMIT];
const COUNTS: [usize; 12] = [0, 0, 1, 2, 3, 5, 8, 20, 341, 344, 345, 345];
/// Values of `off` that say Bus-Off.
const OFF: [u32; 8] = [1, 1, 2, 255, 256, 65_536, 1 << 31, u32::MAX];

/// The source of cases, all of them determined by a seed.
pub struct RegisterCases {
    random: Random,
    generator: Generator,
}

impl RegisterCases {
    pub fn new(seed: u64) -> RegisterCases {
        let random = Random::new(seed.rotate_left(24));
        RegisterCases { random, generator: Generator::new(!seed) }
    }

    /// A call on the register that the last one handed back, or on another.
    pub fn case(&mut self, last: &raw::Register) -> Case {
        let (register, invalid) = match self.random.below(32) {
            0 => (self.any_register(), None),
            1..5 => self.invalid_register(),
            5..18 => (self.valid_register(), None),
            _ => (*last, None),
        };
        let (call, buffer) = self.buffer(&register);
        Case { register, call, buffer, invalid }
    }

    // Registers.

    fn any_register(&mut self) -> raw::Register {
        let ids = std::array::from_fn(|_| self.random.word());
        raw::Register { ids, count: self.random.word(), off: self.random.edge(&[0]) }
    }

    fn valid_register(&mut self) -> raw::Register {
        let count = match self.random.below(4) {
            0 => self.random.below(REGISTER_CAPACITY + 1),
            _ => self.random.pick(&COUNTS),
        };
        self.register_with(count)
    }

    /// A valid register with so many IDs open, and anything past them.
    fn register_with(&mut self, count: usize) -> raw::Register {
        let mut ids = [0; REGISTER_CAPACITY];
        if self.random.once_in(2) {
            ids = std::array::from_fn(|_| self.random.word());
        }
        ids[..count].fill_with(|| self.id());
        let bus_off = count == 0 && self.random.once_in(2);
        let off = if bus_off { self.random.pick(&OFF) } else { 0 };
        raw::Register { ids, count: count as u32, off }
    }

    /// A register that breaks one rule.
    fn invalid_register(&mut self) -> (raw::Register, Option<Invalid>) {
        let count = match self.random.below(3) {
            0 => self.random.pick(&[1, 2, 345]),
            _ => 1 + self.random.below(REGISTER_CAPACITY),
        };
        let mut register = self.register_with(count);
        let invalid = self.random.pick(&Invalid::ALL);
        let random = &mut self.random;
        let id = random.pick(&[codec::LARGEST_ID + 1, 1 << 30, 1 << 31, u32::MAX]);
        match invalid {
            Invalid::Count => {
                register.count = random.pick(&[346, 347, 512, 65_535, 1 << 31, u32::MAX]);
                // So that nothing else is wrong.
                register.ids.iter_mut().for_each(|id| *id &= codec::LARGEST_ID);
            }
            Invalid::WideCount => register.count |= 1 << random.pick(&[16, 24, 31]),
            Invalid::FirstId => register.ids[0] = id,
            Invalid::LastId => register.ids[count - 1] = id,
            Invalid::AnyId => register.ids[random.below(count)] = id,
            Invalid::BusOffWithIds => register.off = random.pick(&OFF),
        }
        (register, Some(invalid))
    }

    fn id(&mut self) -> u32 {
        match self.random.below(16) {
            0 => self.random.word() & codec::LARGEST_ID,
            _ => self.random.pick(&IDS),
        }
    }

    // Buffers.

    /// A buffer, and mostly the call for which it is of use.
    fn buffer(&mut self, register: &raw::Register) -> (RegisterCall, Vec<u8>) {
        let open = open_ids(register).unwrap_or(&register.ids);
        let calls = [RegisterCall::Enter, RegisterCall::Read];
        let any = self.random.pick(&calls);
        let other = self.random.once_in(8);
        match self.random.below(64) {
            0..3 => (any, Vec::new()),
            3..6 => {
                let length = self.random.below(64);
                (any, self.generator.bytes(length))
            }
            6..10 => (calls[usize::from(other)], self.filling(open.len())),
            10..16 => (calls[usize::from(!other)], self.closing(open)),
            _ => (any, self.mixed(open)),
        }
    }

    /// As many frames as there is room for, nearly; at times with a Bus-Off on
    /// the way.
    fn filling(&mut self, open: usize) -> Vec<u8> {
        let room = REGISTER_CAPACITY - open;
        let frames = self.random.pick(&[room.saturating_sub(1), room, room, room + 1, room + 2]);
        let mut pieces: Vec<Vec<u8>> = (0..frames).map(|_| self.short_frame()).collect();
        for _ in 0..self.random.below(3) {
            let piece = self.operation(&[]);
            self.put_in(&mut pieces, piece);
        }
        if self.random.once_in(4) {
            let piece = self.generator.encoded_remote();
            self.put_in(&mut pieces, piece);
        }
        if self.random.once_in(3) {
            let mut bus_off = Operation::BUS_OFF.encode(&[]);
            if self.random.once_in(2) {
                bus_off.extend(Operation::Status { status: 1 }.encode(&[]));
            }
            self.put_in(&mut pieces, bus_off);
        }
        pieces.concat()
    }

    /// A closing for each of the open IDs, in their order or in another; at
    /// times for some of them only, or for one too many.
    fn closing(&mut self, open: &[u32]) -> Vec<u8> {
        let mut ids = open.to_vec();
        if self.random.once_in(2) {
            ids.reverse();
        }
        ids.rotate_left(self.random.below(open.len() + 1));
        if !self.random.once_in(3) {
            ids.truncate(self.random.below(open.len() + 1));
        }
        let mut pieces: Vec<Vec<u8>> = ids.into_iter().map(|id| self.closing_of(id)).collect();
        for _ in 0..self.random.below(3) {
            let piece = self.operation(&[]);
            self.put_in(&mut pieces, piece);
        }
        if self.random.once_in(4) {
            let id = self.id();
            let piece = self.closing_of(id);
            self.put_in(&mut pieces, piece);
        }
        pieces.concat()
    }

    fn put_in(&mut self, pieces: &mut Vec<Vec<u8>>, piece: Vec<u8>) {
        pieces.insert(self.random.below(pieces.len() + 1), piece);
    }

    fn mixed(&mut self, open: &[u32]) -> Vec<u8> {
        let mut buffer = Vec::new();
        for _ in 0..self.random.below(8) {
            buffer.extend(self.operation(open));
        }
        if self.random.once_in(6) {
            let length = 1 + self.random.below(7);
            buffer.extend(self.generator.bytes(length));
        }
        buffer
    }

    /// One operation as bytes, sound or not, often with an ID that is open.
    fn operation(&mut self, open: &[u32]) -> Vec<u8> {
        let id = match open {
            [] => self.id(),
            open => self.random.pick(open),
        };
        match self.random.below(100) {
            0..25 => self.transmit(),
            25..50 => self.closing_of(id),
            50..60 => self.bus_error(id, 0),
            60..70 => Operation::Status { status: self.random.pick(&[1, 2, 3]) }.encode(&[]),
            70..78 => self.generator.encoded_broken(),
            78..81 => self.generator.encoded_remote(),
            81..92 => self.generator.mangled(),
            _ => {
                let (op, data) = self.generator.sound_with_data();
                op.encode(&data)
            }
        }
    }

    fn transmit(&mut self) -> Vec<u8> {
        let mut op = self.generator.sound_of(self.random.pick(&TRANSMITS));
        let drawn = self.id();
        if let Operation::CanTransmit { id, ide, .. }
        | Operation::FdTransmit { id, ide, .. }
        | Operation::XlTransmit { id, ide, .. } = &mut op
        {
            *ide |= u8::from(drawn > codec::LARGEST_STANDARD_ID);
            *id = drawn;
        }
        self.generator.encoded(&op)
    }

    fn short_frame(&mut self) -> Vec<u8> {
        Operation::CanTransmit { id: self.id(), ide: 1, rtr: 0, length: 0 }.encode(&[])
    }

    fn closing_of(&mut self, id: u32) -> Vec<u8> {
        match self.random.below(3) {
            0 => Operation::Confirm { id }.encode(&[]),
            1 => Operation::ArbitrationLost { id }.encode(&[]),
            _ => self.bus_error(id, 1),
        }
    }

    fn bus_error(&mut self, id: u32, is_sender: u8) -> Vec<u8> {
        let error_code = 1 + self.random.below(6) as u8;
        let error_flag = 1 + self.random.below(2) as u8;
        Operation::BusError { id, error_code, error_flag, is_sender }.encode(&[])
    }
}
