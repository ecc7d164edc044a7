//! Inputs for the comparison, all of them determined by a seed.

use kettlefrost::raw;

use crate::codec::{self, Operation, Rule};
use crate::random::Random;

/// One input.
pub enum Case {
    /// A buffer, read at a position.
    Read { buf: Vec<u8>, at: usize },
    /// A buffer, cut at every length and read at its front.
    Cuts { buf: Vec<u8> },
    /// A buffer, read to its end.
    Walk { buf: Vec<u8> },
    /// The data of an operation that was not read there.
    Data { buf: Vec<u8>, op: raw::Operation, next: usize },
    /// An operation, written over `room`.
    Write { op: raw::Operation, data: Vec<u8>, room: Vec<u8> },
}

/// The codes of the ten kinds.
pub const CODES: [u32; 10] = [
    codec::FORMAT_ERROR,
    codec::CAN_TRANSMIT,
    codec::FD_TRANSMIT,
    codec::XL_TRANSMIT,
    codec::CONFIRM,
    codec::ARBITRATION_LOST,
    codec::BUS_ERROR,
    codec::CONFIGURATION,
    codec::STATUS,
    codec::WAKEUP,
];

/// Each content rule of each kind.
pub const BREAKABLE: [(u32, Rule); 27] = [
    (codec::CAN_TRANSMIT, Rule::Ide),
    (codec::CAN_TRANSMIT, Rule::Rtr),
    (codec::CAN_TRANSMIT, Rule::StandardId),
    (codec::CAN_TRANSMIT, Rule::ExtendedId),
    (codec::CAN_TRANSMIT, Rule::DataLength),
    (codec::CAN_TRANSMIT, Rule::RemoteData),
    (codec::FD_TRANSMIT, Rule::Ide),
    (codec::FD_TRANSMIT, Rule::Brs),
    (codec::FD_TRANSMIT, Rule::Esi),
    (codec::FD_TRANSMIT, Rule::StandardId),
    (codec::FD_TRANSMIT, Rule::ExtendedId),
    (codec::FD_TRANSMIT, Rule::DataLength),
    (codec::XL_TRANSMIT, Rule::Ide),
    (codec::XL_TRANSMIT, Rule::Sec),
    (codec::XL_TRANSMIT, Rule::StandardId),
    (codec::XL_TRANSMIT, Rule::ExtendedId),
    (codec::XL_TRANSMIT, Rule::DataLength),
    (codec::CONFIRM, Rule::Id),
    (codec::ARBITRATION_LOST, Rule::Id),
    (codec::BUS_ERROR, Rule::Id),
    (codec::BUS_ERROR, Rule::ErrorCode),
    (codec::BUS_ERROR, Rule::ErrorFlag),
    (codec::BUS_ERROR, Rule::IsSender),
    (codec::CONFIGURATION, Rule::Kind),
    (codec::CONFIGURATION, Rule::BaudRate),
    (codec::CONFIGURATION, Rule::Behaviour),
    (codec::STATUS, Rule::Status),
];

/// Where the data start in a kind that has data; DL or n stands before them.
pub fn data_start(code: u32) -> Option<usize> {
    match code {
        codec::FORMAT_ERROR => Some(10),
        codec::CAN_TRANSMIT => Some(16),
        codec::FD_TRANSMIT => Some(17),
        codec::XL_TRANSMIT => Some(22),
        _ => None,
    }
}

const FD_LENGTHS: [u16; 16] = [0, 1, 2, 3, 4, 5, 6, 7, 8, 12, 16, 20, 24, 32, 48, 64];

/// The source of cases.
pub struct Generator {
    random: Random,
    /// Random bytes that data and buffers are cut from.
    pool: Vec<u8>,
}

impl Generator {
    pub fn new(seed: u64) -> Generator {
        let mut random = Random::new(seed);
        let pool = (0..1 << 18).map(|_| random.byte()).collect();
        Generator { random, pool }
    }

    /// The next case.
    pub fn case(&mut self) -> Case {
        match self.random.below(1000) {
            0..200 => Case::Walk { buf: self.buffer() },
            200..330 => self.read_mangled(),
            330..415 => self.read_broken(),
            415..430 => self.read_remote(),
            430..520 => self.read_anywhere(),
            520..560 => Case::Read { buf: self.random_bytes(), at: 0 },
            560..630 => Case::Read { buf: self.plausible_bytes(), at: 0 },
            630..640 => self.cuts(),
            640..680 => self.data_anywhere(),
            680..830 => self.write_sound(),
            830..915 => self.write_broken(),
            915..930 => self.write_remote(),
            930..980 => self.write_data_off(),
            980..998 => self.write_unknown(),
            _ => self.write_large(),
        }
    }

    /// An operation of any kind that breaks no rule, and its data.
    pub fn sound_with_data(&mut self) -> (Operation, Vec<u8>) {
        let op = self.sound();
        let data = self.bytes(op.data_length());
        (op, data)
    }

    /// Random bytes.
    pub fn bytes(&mut self, length: usize) -> Vec<u8> {
        let start = self.random.below(self.pool.len() - length + 1);
        self.pool[start..start + length].to_vec()
    }

    // Operations.

    fn sound(&mut self) -> Operation {
        let code = self.random.pick(&CODES);
        self.sound_of(code)
    }

    /// An operation of this kind that breaks no rule.
    pub fn sound_of(&mut self, code: u32) -> Operation {
        let random = &mut self.random;
        let mut flag = || random.byte() & 1;
        let (ide, flag_1, flag_2) = (flag(), flag(), flag());
        match code {
            codec::FORMAT_ERROR => Operation::FormatError { length: self.free_length() },
            codec::CAN_TRANSMIT => {
                // One in four is a remote frame.
                let rtr = flag_1 & flag_2;
                let length = if rtr == 1 { 0 } else { random.below(9) as u16 };
                Operation::CanTransmit { id: self.id(ide), ide, rtr, length }
            }
            codec::FD_TRANSMIT => {
                let length = random.pick(&FD_LENGTHS);
                let (brs, esi) = (flag_1, flag_2);
                Operation::FdTransmit { id: self.id(ide), ide, brs, esi, length }
            }
            codec::XL_TRANSMIT => {
                let (sdt, vcid) = (random.byte(), random.byte());
                let af = random.edge(&[0, 1, 255, 256, u32::MAX]);
                let (id, length) = (self.id(ide), self.xl_length());
                Operation::XlTransmit { id, ide, sec: flag_1, sdt, vcid, af, length }
            }
            codec::CONFIRM => Operation::Confirm { id: self.id(1) },
            codec::ARBITRATION_LOST => Operation::ArbitrationLost { id: self.id(1) },
            codec::BUS_ERROR => {
                let error_code = random.pick(&[1, 2, 3, 4, 5, 6]);
                let error_flag = random.pick(&[1, 2]);
                Operation::BusError { id: self.id(1), error_code, error_flag, is_sender: flag_1 }
            }
            codec::CONFIGURATION => match random.pick(&[1, 2, 3, 4]) {
                4 => Operation::Configuration { kind: 4, value: random.pick(&[1, 2]) },
                kind => {
                    let rates = [1, 2, 255, 256, 65_536, 500_000, 0x0100_0000, u32::MAX];
                    Operation::Configuration { kind, value: random.edge(&rates).max(1) }
                }
            },
            codec::STATUS => Operation::Status { status: random.pick(&[1, 2, 3]) },
            _ => Operation::Wakeup,
        }
    }

    fn id(&mut self, ide: u8) -> u32 {
        let (edges, largest): (&[u32], u32) = match ide {
            0 => (&[0, 1, 15, 16, 255, 256, 2046, 2047], 2047),
            _ => (&[0, 15, 2047, 2048, 65_536, 0x1FFF_FFFE, 0x1FFF_FFFF], 0x1FFF_FFFF),
        };
        self.random.edge(edges) & largest
    }

    fn xl_length(&mut self) -> u16 {
        match self.random.below(16) {
            0 => self.random.pick(&[2047, 2048]),
            1 => self.random.below(2048) as u16 + 1,
            2 => self.random.pick(&[255, 256, 257]),
            _ => self.random.below(64) as u16 + 1,
        }
    }

    fn free_length(&mut self) -> u16 {
        match self.random.below(2048) {
            0 => self.random.pick(&[65_535, 65_534]),
            1..8 => self.random.pick(&[4086, 4087]),
            8..64 => self.random.pick(&[255, 256, 257]),
            _ => self.random.below(32) as u16,
        }
    }

    fn broken(&mut self) -> Operation {
        let (code, rule) = self.random.pick(&BREAKABLE);
        let op = self.sound_of(code);
        self.break_rule(op, rule)
    }

    /// `op` with one rule broken, often by one.
    pub fn break_rule(&mut self, mut op: Operation, broken: Rule) -> Operation {
        let random = &mut self.random;
        match &mut op {
            Operation::CanTransmit { id, ide, rtr, length } => match broken {
                Rule::Rtr => *rtr = random.no_flag(),
                Rule::DataLength => {
                    let lengths = [9, 9, 10, 15, 16, 64, 255, 256, 257];
                    (*rtr, *length) = (0, random.pick(&lengths));
                }
                Rule::RemoteData => {
                    *rtr = 1;
                    // A longer one was broken before.
                    if *length <= 8 {
                        *length = 1 + random.below(8) as u16;
                    }
                }
                _ => break_id(random, id, ide, broken),
            },
            Operation::FdTransmit { id, ide, brs, esi, length } => match broken {
                Rule::Brs => *brs = random.no_flag(),
                Rule::Esi => *esi = random.no_flag(),
                Rule::DataLength => *length = no_fd_length(random),
                _ => break_id(random, id, ide, broken),
            },
            Operation::XlTransmit { id, ide, sec, length, .. } => match broken {
                Rule::Sec => *sec = random.no_flag(),
                Rule::DataLength => *length = random.pick(&[0, 0, 0, 0, 2049, 2050, 4096]),
                _ => break_id(random, id, ide, broken),
            },
            Operation::Confirm { id } | Operation::ArbitrationLost { id } => *id = no_id(random),
            Operation::BusError { id, error_code, error_flag, is_sender } => match broken {
                Rule::ErrorCode => *error_code = random.pick(&[0, 7, 8, 128, 255]),
                Rule::ErrorFlag => *error_flag = random.pick(&[0, 3, 4, 128, 255]),
                Rule::IsSender => *is_sender = random.no_flag(),
                _ => *id = no_id(random),
            },
            Operation::Configuration { kind, value } => match broken {
                Rule::Kind => *kind = random.pick(&[0, 5, 6, 128, 255]),
                Rule::BaudRate => (*kind, *value) = (random.pick(&[1, 2, 3]), 0),
                _ => {
                    let wide = [257, 258, 0x0001_0001, 0x0100_0002, u32::MAX];
                    let values = [0, 3, 4, 255, random.pick(&wide)];
                    (*kind, *value) = (4, random.pick(&values));
                }
            },
            Operation::Status { status } => *status = random.pick(&[0, 4, 5, 128, 255]),
            Operation::FormatError { .. } | Operation::Wakeup => {}
        }
        op
    }

    /// A remote frame with data, of DL 1 to 8.
    fn remote_with_data(&mut self) -> Operation {
        let op = self.sound_of(codec::CAN_TRANSMIT);
        self.break_rule(op, Rule::RemoteData)
    }

    // Buffers to read.

    /// An operation as bytes, sound or not, with data of its own length.
    pub fn encoded(&mut self, op: &Operation) -> Vec<u8> {
        op.encode(&self.bytes(op.data_length()))
    }

    fn encoded_sound(&mut self) -> Vec<u8> {
        let op = self.sound();
        self.encoded(&op)
    }

    /// An operation that breaks a content rule, as bytes.
    pub fn encoded_broken(&mut self) -> Vec<u8> {
        let op = self.broken();
        self.encoded(&op)
    }

    /// A remote frame with data as bytes; at times not of their length, but of one
    /// off, or of that without data.
    pub fn encoded_remote(&mut self) -> Vec<u8> {
        let op = self.remote_with_data();
        let mut buf = self.encoded(&op);
        if self.random.once_in(4) {
            let own = buf.len();
            buf.resize(self.random.pick(&[op.header_length(), own - 1, own + 1]), 0);
            put_own_length(&mut buf);
        }
        buf
    }

    /// An operation as bytes, spoiled in one place.
    pub fn mangled(&mut self) -> Vec<u8> {
        let broken = self.random.once_in(4);
        let mut buf = if broken { self.encoded_broken() } else { self.encoded_sound() };
        self.mangle(&mut buf);
        buf
    }

    /// Spoils an operation in one place.
    fn mangle(&mut self, buf: &mut Vec<u8>) {
        let random = &mut self.random;
        let length = buf.len() as u32;
        match random.below(9) {
            0 => put_length(buf, random.pick(&[length - 1, length + 1])),
            1 => {
                let edges = [0, 1, 6, 7, 8, 9, 255, 256, length + 2, length | 1 << 24, u32::MAX];
                put_length(buf, random.edge(&edges));
            }
            2 => mangle_data_length(random, buf),
            3 => mangle_code(random, buf),
            4 => self.mangle_configuration(buf),
            5 => {
                let place = random.below(buf.len());
                buf[place] = random.pick(&[0, 1, 2, 255, buf[place] ^ 1]);
            }
            // Shorter or longer, and the length field with it.
            6 => {
                buf.truncate(8 + random.below(buf.len() - 7));
                put_own_length(buf);
            }
            7 => {
                let more = random.pick(&[1, 1, 2, 3, 4, 256]);
                buf.extend(self.bytes(more));
                put_own_length(buf);
            }
            // The end cut off, and not the length field.
            _ => buf.truncate(random.below(buf.len())),
        }
    }

    /// A Configuration whose kind and length are both free.
    fn mangle_configuration(&mut self, buf: &mut Vec<u8>) {
        let length = 8 + self.random.below(8);
        *buf = self.bytes(length);
        buf[..4].copy_from_slice(&codec::CONFIGURATION.to_le_bytes());
        put_own_length(buf);
        if let Some(kind) = buf.get_mut(8) {
            *kind = self.random.pick(&[0, 1, 2, 3, 4, 5, 255]);
        }
    }

    /// Several operations, sound and spoiled, and sometimes a rest or a cut.
    fn buffer(&mut self) -> Vec<u8> {
        let mut buf = Vec::new();
        for _ in 0..self.random.below(7) {
            let piece = match self.random.below(40) {
                0..24 => self.encoded_sound(),
                24..32 => self.mangled(),
                32..39 => self.encoded_broken(),
                _ => self.encoded_remote(),
            };
            buf.extend(piece);
        }
        let rest = self.random.pick(&[0, 0, 0, 1, 2, 3, 4, 5, 6, 7, 8, 9]);
        buf.extend(self.bytes(rest));
        if self.random.once_in(4) {
            buf.truncate(self.random.below(buf.len() + 1));
        }
        buf
    }

    /// `piece` as it stands, or with something in front of it or behind it.
    fn placed(&mut self, piece: Vec<u8>) -> Case {
        let front = if self.random.once_in(3) { self.encoded_sound() } else { Vec::new() };
        let at = front.len();
        let rest = self.random.pick(&[0, 0, 1, 2, 7, 8, 40]);
        let buf = [front, piece, self.bytes(rest)].concat();
        Case::Read { buf, at }
    }

    fn read_mangled(&mut self) -> Case {
        let piece = self.mangled();
        self.placed(piece)
    }

    /// One content rule broken, or two.
    fn read_broken(&mut self) -> Case {
        let mut op = self.broken();
        if self.random.once_in(8) {
            let (code, rule) = self.random.pick(&BREAKABLE);
            if code == op.code() {
                op = self.break_rule(op, rule);
            }
        }
        let piece = self.encoded(&op);
        self.placed(piece)
    }

    fn read_remote(&mut self) -> Case {
        let piece = self.encoded_remote();
        self.placed(piece)
    }

    fn read_anywhere(&mut self) -> Case {
        let buf = self.buffer();
        let at = self.place(buf.len());
        Case::Read { buf, at }
    }

    /// A position: within, at the edges, and far past them.
    fn place(&mut self, length: usize) -> usize {
        let near = self.random.below(10);
        match self.random.below(8) {
            0..3 => self.random.below(length + 1),
            3 => length,
            4 => length + 1,
            5 => length.saturating_sub(near),
            6 => usize::MAX - near * self.random.below(2),
            _ => {
                let far = [length + near, 1 << 32, usize::MAX / 2, usize::MAX - length];
                self.random.pick(&far)
            }
        }
    }

    fn random_bytes(&mut self) -> Vec<u8> {
        let length = self.random.below(48);
        self.bytes(length)
    }

    /// Random bytes behind a known code and a length that fits, or nearly.
    fn plausible_bytes(&mut self) -> Vec<u8> {
        let length = 8 + self.random.below(40);
        let mut buf = self.bytes(length);
        buf[..4].copy_from_slice(&self.random.pick(&CODES).to_le_bytes());
        put_length(&mut buf, (length + 1 - self.random.below(3)) as u32);
        // Small fields, so that they are sound at times.
        for byte in &mut buf[8..] {
            *byte &= self.random.pick(&[0, 1, 3, 7, 255]);
        }
        buf
    }

    fn cuts(&mut self) -> Case {
        let mut buf = self.encoded_sound();
        if self.random.once_in(4) {
            self.mangle(&mut buf);
        }
        buf.truncate(300);
        Case::Cuts { buf }
    }

    /// Data at a place where the operation was not read.
    fn data_anywhere(&mut self) -> Case {
        // The data go by DL alone: no content rule is asked.
        let remote = self.random.once_in(16);
        let op = if remote { self.remote_with_data() } else { self.sound() };
        let size = self.random.below(100) + op.data_length() * self.random.below(2);
        let buf = self.bytes(size);
        let whole = op.header_length() + op.data_length();
        let places = [whole, whole - 1, op.data_length(), buf.len(), self.place(buf.len())];
        let next = self.random.pick(&places);
        let mut op = op.over(self.noise());
        if self.random.once_in(10) {
            op.code = self.unknown_code();
        }
        Case::Data { buf, op, next }
    }

    // Operations to write.

    fn write_sound(&mut self) -> Case {
        let (op, data) = self.sound_with_data();
        self.write(&op, data)
    }

    fn write_broken(&mut self) -> Case {
        let op = self.broken();
        let data = self.bytes(op.data_length());
        self.write(&op, data)
    }

    /// A remote frame with data; at times these are left out, and DL is not.
    fn write_remote(&mut self) -> Case {
        let op = self.remote_with_data();
        let length = if self.random.once_in(4) { 0 } else { op.data_length() };
        let data = self.bytes(length);
        self.write(&op, data)
    }

    /// The data's length is not DL or n.
    fn write_data_off(&mut self) -> Case {
        let op = if self.random.once_in(8) { self.broken() } else { self.sound() };
        let length = op.data_length();
        let longer = length + self.random.below(70);
        let shorter = self.random.below(length + 1);
        let lengths = [length + 1, length.saturating_sub(1), 0, longer, shorter];
        let off = self.random.pick(&lengths);
        let data = self.bytes(off);
        self.write(&op, data)
    }

    fn write_unknown(&mut self) -> Case {
        let op = raw::Operation { code: self.unknown_code(), ..self.noise() };
        let length = self.random.pick(&[0, 0, usize::from(op.length) % 100, 8]);
        let room = self.random.below(100);
        Case::Write { op, data: self.bytes(length), room: self.bytes(room) }
    }

    /// Data of 65,535 bytes and around, and more.
    fn write_large(&mut self) -> Case {
        let small = self.random.below(9);
        let length = self.random.pick(&[65_535, 65_534, 65_536, 65_536 + small, 131_072 + small]);
        let data = self.bytes(length);
        let op = match self.random.below(4) {
            0 => self.sound(),
            1 => Operation::CanTransmit { id: 1, ide: 0, rtr: 0, length: length as u16 },
            _ => Operation::FormatError { length: length as u16 },
        };
        self.write(&op, data)
    }

    /// A writing into a buffer that fits, is short, or is larger.
    fn write(&mut self, op: &Operation, data: Vec<u8>) -> Case {
        let whole = op.header_length() + data.len();
        let larger = whole + self.random.below(40);
        let shorter = self.random.below(whole);
        let lengths = [whole, whole, whole - 1, whole + 1, larger, larger, shorter, 0];
        let length = self.random.pick(&lengths);
        let base = if self.random.once_in(4) { self.noise() } else { raw::Operation::default() };
        Case::Write { op: op.over(base), data, room: self.bytes(length) }
    }

    fn unknown_code(&mut self) -> u32 {
        let edges = [0, 2, 0x0F, 0x13, 0x21, 0x32, 0x43, 0x101, 0x1_0010, 0x4100_0000, u32::MAX];
        let code = self.random.edge(&edges);
        if CODES.contains(&code) {
            0
        } else {
            code
        }
    }

    /// Random values for the fields that a kind does not have.
    fn noise(&mut self) -> raw::Operation {
        let random = &mut self.random;
        let [code, id, word, length] = [(); 4].map(|()| random.word());
        let [first, second, third, fourth] = random.word().to_le_bytes();
        raw::Operation { code, id, word, length: length as u16, first, second, third, fourth }
    }
}

fn break_id(random: &mut Random, id: &mut u32, ide: &mut u8, broken: Rule) {
    match broken {
        Rule::Ide => *ide = random.no_flag(),
        Rule::StandardId => {
            *ide = 0;
            *id = random.edge(&[2048, 2048, 2049, 4095, 65_536, u32::MAX]).max(2048);
        }
        _ => {
            *ide = 1;
            *id = no_id(random);
        }
    }
}

/// An ID above 29 bits.
fn no_id(random: &mut Random) -> u32 {
    let edges = [0x2000_0000, 0x2000_0000, 0x2000_0001, 0x4000_0000, 0x8000_0000, u32::MAX];
    random.edge(&edges).max(0x2000_0000)
}

fn no_fd_length(random: &mut Random) -> u16 {
    let edges = [9, 10, 11, 13, 15, 17, 21, 25, 28, 31, 33, 40, 47, 49, 56, 63, 65, 128, 257];
    let length = random.pick(&edges);
    let between = 9 + random.below(60) as u16;
    if FD_LENGTHS.contains(&between) {
        length
    } else {
        random.pick(&[length, between])
    }
}

fn put_length(buf: &mut [u8], length: u32) {
    buf[4..8].copy_from_slice(&length.to_le_bytes());
}

fn put_own_length(buf: &mut [u8]) {
    let length = buf.len() as u32;
    put_length(buf, length);
}

/// Changes DL or n where there is one; else the code.
fn mangle_data_length(random: &mut Random, buf: &mut [u8]) {
    let Some(start) = data_start(buf[0].into()) else {
        return mangle_code(random, buf);
    };
    let field = &mut buf[start - 2..start];
    let length = u16::from_le_bytes([field[0], field[1]]);
    let one_off = [length.wrapping_add(1), length.wrapping_sub(1)];
    let more_off = [length ^ 256, 0, u16::MAX, random.word() as u16];
    let changed = [random.pick(&one_off), random.pick(&more_off)];
    field.copy_from_slice(&random.pick(&changed).to_le_bytes());
}

fn mangle_code(random: &mut Random, buf: &mut [u8]) {
    let code = u32::from(buf[0]);
    let near = [code ^ 1, code + 1, code - 1, code << 8, code << 24];
    let high = [code | 1 << 8, code | 1 << 16, code | 1 << 24, 0, u32::MAX];
    let any = [random.pick(&near), random.pick(&high), random.pick(&CODES), random.word()];
    buf[..4].copy_from_slice(&random.pick(&any).to_le_bytes());
}
