//! Reading and writing of operations: the second program's own codec.
//!
//! Numbers are little-endian. An operation starts with its code and its whole
//! length, four bytes each; its fields follow, then its data.
//!
//! What lies on the way of one reading or one writing is inlined by order: the
//! compiler, left to itself, would pass the operation to the content rules
//! through memory, and this codec is the measure of another's speed.

/// Bytes of code and length, with which each operation starts.
const START: usize = 8;
pub const LARGEST_STANDARD_ID: u32 = 0x7FF;
pub const LARGEST_ID: u32 = 0x1FFF_FFFF;

pub const FORMAT_ERROR: u32 = 0x01;
pub const CAN_TRANSMIT: u32 = 0x10;
pub const FD_TRANSMIT: u32 = 0x11;
pub const XL_TRANSMIT: u32 = 0x12;
pub const CONFIRM: u32 = 0x20;
pub const ARBITRATION_LOST: u32 = 0x30;
pub const BUS_ERROR: u32 = 0x31;
pub const CONFIGURATION: u32 = 0x40;
pub const STATUS: u32 = 0x41;
pub const WAKEUP: u32 = 0x42;

pub const ERROR_ACTIVE: u8 = 1;
pub const ERROR_PASSIVE: u8 = 2;
pub const BUS_OFF: u8 = 3;

pub const PRIMARY_ERROR_FLAG: u8 = 1;
pub const SECONDARY_ERROR_FLAG: u8 = 2;

/// Values of a Configuration of kind 4.
pub const BUFFER_AND_RETRANSMIT: u32 = 1;
pub const DISCARD_AND_NOTIFY: u32 = 2;

/// An operation without its data bytes.
///
/// Fields take any value of their width, so that an operation that breaks a
/// content rule can be stated, and refused. The value of a Configuration is the
/// baud rate of kinds 1 to 3 and the behaviour of kind 4.
#[derive(Clone, Copy, Debug, PartialEq, Eq)]
pub enum Operation {
    FormatError { length: u16 },
    CanTransmit { id: u32, ide: u8, rtr: u8, length: u16 },
    FdTransmit { id: u32, ide: u8, brs: u8, esi: u8, length: u16 },
    XlTransmit { id: u32, ide: u8, sec: u8, sdt: u8, vcid: u8, af: u32, length: u16 },
    Confirm { id: u32 },
    ArbitrationLost { id: u32 },
    BusError { id: u32, error_code: u8, error_flag: u8, is_sender: u8 },
    Configuration { kind: u8, value: u32 },
    Status { status: u8 },
    Wakeup,
}

/// A content rule.
#[derive(Clone, Copy, Debug, PartialEq, Eq, PartialOrd, Ord)]
pub enum Rule {
    Ide,
    Rtr,
    Brs,
    Esi,
    Sec,
    StandardId,
    ExtendedId,
    /// The ID of an operation that has no Ide.
    Id,
    DataLength,
    /// A remote frame carries no data.
    RemoteData,
    Kind,
    BaudRate,
    Behaviour,
    ErrorCode,
    ErrorFlag,
    IsSender,
    Status,
}

/// What a reading gives.
#[derive(Clone, Copy, Debug, PartialEq, Eq)]
pub enum Reading {
    End,
    Fault { number: u8, next: usize },
    Found { op: Operation, next: usize },
}

/// Reads the operation that starts at `at`.
#[inline(always)]
pub fn read(buf: &[u8], at: usize) -> Reading {
    let rest = match buf.get(at..) {
        None | Some([]) => return Reading::End,
        Some(rest) => rest,
    };
    let fault = |number, next| Reading::Fault { number, next };
    let Some(&[c0, c1, c2, c3, l0, l1, l2, l3]) = rest.first_chunk() else {
        return fault(1, buf.len());
    };
    let length = u32::from_le_bytes([l0, l1, l2, l3]) as usize;
    let Some(fields) = rest.get(START..length) else {
        return fault(2, buf.len());
    };
    let next = at + length;
    match parse(u32::from_le_bytes([c0, c1, c2, c3]), fields) {
        Ok(op) if op.is_sound() => Reading::Found { op, next },
        Ok(_) => fault(5, next),
        Err(number) => fault(number, next),
    }
}

/// The operations of a buffer in their order, each with the bytes that it
/// takes up; a fault stands as its number.
pub fn operations(buf: &[u8]) -> impl Iterator<Item = (Result<Operation, u8>, &[u8])> {
    let mut at = 0;
    std::iter::from_fn(move || {
        let (op, next) = match read(buf, at) {
            Reading::End => return None,
            Reading::Fault { number, next } => (Err(number), next),
            Reading::Found { op, next } => (Ok(op), next),
        };
        let bytes = &buf[at..next];
        at = next;
        Some((op, bytes))
    })
}

/// Takes apart what follows code and length, and holds the length against the
/// table (faults 3 and 4). The content rules are not asked.
#[inline(always)]
pub fn parse(code: u32, fields: &[u8]) -> Result<Operation, u8> {
    let (op, data) = match code {
        FORMAT_ERROR => {
            let (length, data) = split(fields)?;
            (Operation::FormatError { length: u16::from_le_bytes(*length) }, data)
        }
        CAN_TRANSMIT => {
            let (&[i0, i1, i2, i3, ide, rtr, l0, l1], data) = split(fields)?;
            let id = u32::from_le_bytes([i0, i1, i2, i3]);
            let length = u16::from_le_bytes([l0, l1]);
            (Operation::CanTransmit { id, ide, rtr, length }, data)
        }
        FD_TRANSMIT => {
            let (&[i0, i1, i2, i3, ide, brs, esi, l0, l1], data) = split(fields)?;
            let id = u32::from_le_bytes([i0, i1, i2, i3]);
            let length = u16::from_le_bytes([l0, l1]);
            (Operation::FdTransmit { id, ide, brs, esi, length }, data)
        }
        XL_TRANSMIT => {
            let (&[i0, i1, i2, i3, ide, sec, sdt, vcid, a0, a1, a2, a3, l0, l1], data) =
                split(fields)?;
            let id = u32::from_le_bytes([i0, i1, i2, i3]);
            let af = u32::from_le_bytes([a0, a1, a2, a3]);
            let length = u16::from_le_bytes([l0, l1]);
            (Operation::XlTransmit { id, ide, sec, sdt, vcid, af, length }, data)
        }
        CONFIRM => {
            let (id, rest) = split(fields)?;
            (Operation::Confirm { id: u32::from_le_bytes(*id) }, rest)
        }
        ARBITRATION_LOST => {
            let (id, rest) = split(fields)?;
            (Operation::ArbitrationLost { id: u32::from_le_bytes(*id) }, rest)
        }
        BUS_ERROR => {
            let (&[i0, i1, i2, i3, error_code, error_flag, is_sender], rest) = split(fields)?;
            let id = u32::from_le_bytes([i0, i1, i2, i3]);
            (Operation::BusError { id, error_code, error_flag, is_sender }, rest)
        }
        CONFIGURATION => match split(fields)? {
            (&[kind @ 1..=3], rest) => {
                let (rate, rest) = split(rest)?;
                (Operation::Configuration { kind, value: u32::from_le_bytes(*rate) }, rest)
            }
            (&[kind @ 4], rest) => {
                let (&[behaviour], rest) = split(rest)?;
                (Operation::Configuration { kind, value: behaviour.into() }, rest)
            }
            _ => return Err(4),
        },
        STATUS => {
            let (&[status], rest) = split(fields)?;
            (Operation::Status { status }, rest)
        }
        WAKEUP => (Operation::Wakeup, fields),
        _ => return Err(3),
    };
    if data.len() == op.data_length() {
        Ok(op)
    } else {
        Err(4)
    }
}

/// The operation of these bytes, code and length included. The content rules are
/// not asked.
pub fn parsed(bytes: &[u8]) -> Option<Operation> {
    let code = u32::from_le_bytes(*bytes.first_chunk()?);
    parse(code, bytes.get(START..)?).ok()
}

/// Parts fields of a fixed size from what follows them.
fn split<const N: usize>(fields: &[u8]) -> Result<(&[u8; N], &[u8]), u8> {
    fields.split_first_chunk().ok_or(4)
}

/// The data bytes of an operation that ends at `next`; empty where the whole
/// operation does not lie in front of `next`.
pub fn data<'a>(buf: &'a [u8], op: &Operation, next: usize) -> &'a [u8] {
    match buf.get(..next) {
        Some(front) if next >= op.header_length() + op.data_length() => {
            &front[next - op.data_length()..]
        }
        _ => &[],
    }
}

/// Writes one operation to the front of `buf` and gives its length, or the
/// refusal: 7 before 11. A refusal changes nothing.
#[inline(always)]
pub fn write(op: &Operation, data: &[u8], buf: &mut [u8]) -> Result<usize, u8> {
    if !op.is_sound() || data.len() != op.data_length() {
        return Err(7);
    }
    let length = op.header_length() + data.len();
    let front = buf.get_mut(..length).ok_or(11)?;
    op.put(data, front);
    Ok(length)
}

/// The name of the kind with this code.
pub fn name(code: u32) -> Option<&'static str> {
    Some(match code {
        FORMAT_ERROR => "Format Error",
        CAN_TRANSMIT => "CAN Transmit",
        FD_TRANSMIT => "CAN FD Transmit",
        XL_TRANSMIT => "CAN XL Transmit",
        CONFIRM => "Confirm",
        ARBITRATION_LOST => "Arbitration Lost",
        BUS_ERROR => "Bus Error",
        CONFIGURATION => "Configuration",
        STATUS => "Status",
        WAKEUP => "Wakeup",
        _ => return None,
    })
}

impl Operation {
    /// Status Bus-Off.
    pub const BUS_OFF: Operation = Operation::Status { status: BUS_OFF };

    pub fn code(&self) -> u32 {
        match self {
            Operation::FormatError { .. } => FORMAT_ERROR,
            Operation::CanTransmit { .. } => CAN_TRANSMIT,
            Operation::FdTransmit { .. } => FD_TRANSMIT,
            Operation::XlTransmit { .. } => XL_TRANSMIT,
            Operation::Confirm { .. } => CONFIRM,
            Operation::ArbitrationLost { .. } => ARBITRATION_LOST,
            Operation::BusError { .. } => BUS_ERROR,
            Operation::Configuration { .. } => CONFIGURATION,
            Operation::Status { .. } => STATUS,
            Operation::Wakeup => WAKEUP,
        }
    }

    /// The length without data.
    pub fn header_length(&self) -> usize {
        match self {
            Operation::FormatError { .. } => 10,
            Operation::CanTransmit { .. } => 16,
            Operation::FdTransmit { .. } => 17,
            Operation::XlTransmit { .. } => 22,
            Operation::Confirm { .. } | Operation::ArbitrationLost { .. } => 12,
            Operation::BusError { .. } => 15,
            Operation::Configuration { kind: 4, .. } => 10,
            Operation::Configuration { .. } => 13,
            Operation::Status { .. } => 9,
            Operation::Wakeup => 8,
        }
    }

    /// DL or n; 0 for a kind that has neither.
    pub fn data_length(&self) -> usize {
        match *self {
            Operation::FormatError { length }
            | Operation::CanTransmit { length, .. }
            | Operation::FdTransmit { length, .. }
            | Operation::XlTransmit { length, .. } => length.into(),
            _ => 0,
        }
    }

    /// The ID of a Transmit of any of the three kinds.
    pub fn transmit_id(&self) -> Option<u32> {
        match *self {
            Operation::CanTransmit { id, .. }
            | Operation::FdTransmit { id, .. }
            | Operation::XlTransmit { id, .. } => Some(id),
            _ => None,
        }
    }

    /// Whether this content rule is broken, and no other.
    pub fn breaks_only(&self, rule: Rule) -> bool {
        let (mut broken, mut others) = (false, false);
        self.check(|other| if other == rule { broken = true } else { others = true });
        broken && !others
    }

    /// Whether every content rule holds.
    #[inline(always)]
    pub fn is_sound(&self) -> bool {
        let mut sound = true;
        self.check(|_| sound = false);
        sound
    }

    /// Calls `broken` for each content rule that the operation breaks.
    #[inline(always)]
    pub fn check(&self, mut broken: impl FnMut(Rule)) {
        let mut rule = |rule, holds: bool| {
            if !holds {
                broken(rule);
            }
        };
        match *self {
            Operation::CanTransmit { id, ide, rtr, length } => {
                check_id(&mut rule, id, ide);
                rule(Rule::Rtr, rtr <= 1);
                rule(Rule::DataLength, length <= 8);
                rule(Rule::RemoteData, rtr_allows(rtr, length));
            }
            Operation::FdTransmit { id, ide, brs, esi, length } => {
                check_id(&mut rule, id, ide);
                rule(Rule::Brs, brs <= 1);
                rule(Rule::Esi, esi <= 1);
                rule(Rule::DataLength, is_fd_length(length));
            }
            Operation::XlTransmit { id, ide, sec, length, .. } => {
                check_id(&mut rule, id, ide);
                rule(Rule::Sec, sec <= 1);
                rule(Rule::DataLength, (1..=2048).contains(&length));
            }
            Operation::Confirm { id } | Operation::ArbitrationLost { id } => {
                rule(Rule::Id, id <= LARGEST_ID);
            }
            Operation::BusError { id, error_code, error_flag, is_sender } => {
                rule(Rule::Id, id <= LARGEST_ID);
                rule(Rule::ErrorCode, is_error_code(error_code));
                rule(Rule::ErrorFlag, (1..=2).contains(&error_flag));
                rule(Rule::IsSender, is_sender <= 1);
            }
            Operation::Configuration { kind, value } => match kind {
                1..=3 => rule(Rule::BaudRate, value != 0),
                4 => rule(Rule::Behaviour, (1..=2).contains(&value)),
                _ => rule(Rule::Kind, false),
            },
            Operation::Status { status } => rule(Rule::Status, (1..=3).contains(&status)),
            Operation::FormatError { .. } | Operation::Wakeup => {}
        }
    }

    /// The bytes of the operation with `data`. The content rules are not asked.
    pub fn encode(&self, data: &[u8]) -> Vec<u8> {
        let mut out = vec![0; self.header_length() + data.len()];
        self.put(data, &mut out);
        out
    }

    /// Lays the operation out in `out`, whose length is that of header and
    /// data. The content rules are not asked; a Configuration of a kind
    /// outside 1 to 4 is given four bytes of value.
    #[inline(always)]
    pub fn put(&self, data: &[u8], out: &mut [u8]) {
        let code = self.code();
        match *self {
            Operation::FormatError { length } => lay_out(code, length.to_le_bytes(), data, out),
            Operation::CanTransmit { id, ide, rtr, length } => {
                let ([i0, i1, i2, i3], [l0, l1]) = (id.to_le_bytes(), length.to_le_bytes());
                lay_out(code, [i0, i1, i2, i3, ide, rtr, l0, l1], data, out);
            }
            Operation::FdTransmit { id, ide, brs, esi, length } => {
                let ([i0, i1, i2, i3], [l0, l1]) = (id.to_le_bytes(), length.to_le_bytes());
                lay_out(code, [i0, i1, i2, i3, ide, brs, esi, l0, l1], data, out);
            }
            Operation::XlTransmit { id, ide, sec, sdt, vcid, af, length } => {
                let ([i0, i1, i2, i3], [l0, l1]) = (id.to_le_bytes(), length.to_le_bytes());
                let [a0, a1, a2, a3] = af.to_le_bytes();
                let fields = [i0, i1, i2, i3, ide, sec, sdt, vcid, a0, a1, a2, a3, l0, l1];
                lay_out(code, fields, data, out);
            }
            Operation::Confirm { id } | Operation::ArbitrationLost { id } => {
                lay_out(code, id.to_le_bytes(), data, out);
            }
            Operation::BusError { id, error_code, error_flag, is_sender } => {
                let [i0, i1, i2, i3] = id.to_le_bytes();
                let fields = [i0, i1, i2, i3, error_code, error_flag, is_sender];
                lay_out(code, fields, data, out);
            }
            Operation::Configuration { kind, value } => {
                let [v0, v1, v2, v3] = value.to_le_bytes();
                match kind {
                    4 => lay_out(code, [kind, v0], data, out),
                    _ => lay_out(code, [kind, v0, v1, v2, v3], data, out),
                }
            }
            Operation::Status { status } => lay_out(code, [status], data, out),
            Operation::Wakeup => lay_out(code, [], data, out),
        }
    }
}

/// The rules of Ide, and of an ID beside it.
fn check_id(rule: &mut impl FnMut(Rule, bool), id: u32, ide: u8) {
    rule(Rule::Ide, ide <= 1);
    rule(Rule::StandardId, ide != 0 || id <= LARGEST_STANDARD_ID);
    rule(Rule::ExtendedId, ide != 1 || id <= LARGEST_ID);
}

/// Whether the table of Error Codes has this value.
pub fn is_error_code(code: u8) -> bool {
    (1..=6).contains(&code)
}

/// Whether a CAN Transmit with this Rtr can have this DL: a remote frame carries
/// no data (02, Wish 7). The rule stands here alone.
#[inline]
pub fn rtr_allows(rtr: u8, length: u16) -> bool {
    rtr != 1 || length == 0
}

/// Whether the DL of an FD Transmit can be this.
#[inline]
pub fn is_fd_length(length: u16) -> bool {
    matches!(length, 0..=8 | 12 | 16 | 20 | 24 | 32 | 48 | 64)
}

#[inline(always)]
fn lay_out<const N: usize>(code: u32, fields: [u8; N], data: &[u8], out: &mut [u8]) {
    let length = out.len() as u32;
    let (header, rest) = out.split_at_mut(START + N);
    header[..4].copy_from_slice(&code.to_le_bytes());
    header[4..START].copy_from_slice(&length.to_le_bytes());
    header[START..].copy_from_slice(&fields);
    rest.copy_from_slice(data);
}

#[cfg(test)]
mod tests {
    use super::*;

    const W1: &[u8] = &[0x10, 0, 0, 0, 0x12, 0, 0, 0, 0x0F, 0, 0, 0, 0, 0, 2, 0, 0xAA, 0xBB];
    const W1_OPERATION: Operation = Operation::CanTransmit { id: 15, ide: 0, rtr: 0, length: 2 };

    fn written(op: Operation, data: &[u8]) -> Result<Vec<u8>, u8> {
        let mut buf = vec![0x5A; 70_000];
        let length = write(&op, data, &mut buf)?;
        assert!(buf[length..].iter().all(|&byte| byte == 0x5A));
        buf.truncate(length);
        Ok(buf)
    }

    /// The bytes of an operation, sound or not.
    fn bytes(op: Operation) -> Vec<u8> {
        op.encode(&vec![0xD5; op.data_length()])
    }

    fn fault(buf: &[u8]) -> Option<(u8, usize)> {
        match read(buf, 0) {
            Reading::Fault { number, next } => Some((number, next)),
            _ => None,
        }
    }

    /// Holds that an operation is read and written exactly if `sound`.
    fn check(op: Operation, sound: bool) {
        let whole = bytes(op);
        let data = vec![0xD5; op.data_length()];
        let next = whole.len();
        if sound {
            assert_eq!(read(&whole, 0), Reading::Found { op, next });
            assert_eq!(super::data(&whole, &op, next), data);
            assert_eq!(written(op, &data), Ok(whole));
        } else {
            assert_eq!(fault(&whole), Some((5, next)), "{op:?}");
            assert_eq!(written(op, &data), Err(7), "{op:?}");
        }
    }

    fn can(id: u32, ide: u8, length: u16) -> Operation {
        Operation::CanTransmit { id, ide, rtr: 0, length }
    }

    fn fd(id: u32, ide: u8, length: u16) -> Operation {
        Operation::FdTransmit { id, ide, brs: 1, esi: 0, length }
    }

    fn xl(id: u32, ide: u8, length: u16) -> Operation {
        Operation::XlTransmit { id, ide, sec: 1, sdt: 255, vcid: 255, af: u32::MAX, length }
    }

    #[test]
    fn w1_transmit() {
        let next = W1.len();
        assert_eq!(read(W1, 0), Reading::Found { op: W1_OPERATION, next });
        assert_eq!(data(W1, &W1_OPERATION, next), [0xAA, 0xBB]);
        assert_eq!(written(W1_OPERATION, &[0xAA, 0xBB]), Ok(W1.to_vec()));
    }

    #[test]
    fn w2_confirm_and_w3_arbitration_lost() {
        let w2 = [0x20, 0, 0, 0, 0x0C, 0, 0, 0, 0x0F, 0, 0, 0];
        assert_eq!(written(Operation::Confirm { id: 15 }, &[]), Ok(w2.to_vec()));
        let w3 = [0x30, 0, 0, 0, 0x0C, 0, 0, 0, 0x10, 0, 0, 0];
        let lost = Operation::ArbitrationLost { id: 16 };
        assert_eq!(written(lost, &[]), Ok(w3.to_vec()));
    }

    #[test]
    fn w4_format_error() {
        assert_eq!(fault(&[1, 2, 3]), Some((1, 3)));
        let w4 = [1, 0, 0, 0, 0x0D, 0, 0, 0, 3, 0, 1, 2, 3];
        let op = Operation::FormatError { length: 3 };
        assert_eq!(written(op, &[1, 2, 3]), Ok(w4.to_vec()));
        assert_eq!(data(&w4, &op, 13), [1, 2, 3]);
    }

    #[test]
    fn w8_identifiers() {
        for kind in [can, fd, xl] {
            check(kind(2_047, 0, 1), true);
            check(kind(2_048, 0, 1), false);
            check(kind(2_048, 1, 1), true);
            check(kind(536_870_911, 1, 1), true);
            check(kind(536_870_912, 1, 1), false);
            check(kind(0, 2, 1), false);
        }
        for id in [536_870_911, 536_870_912] {
            check(Operation::Confirm { id }, id == 536_870_911);
            check(Operation::ArbitrationLost { id }, id == 536_870_911);
        }
    }

    /// W9 means Rtr 0 (02, Wish 7).
    #[test]
    fn w9_data_lengths() {
        for length in 0..=70 {
            check(can(1, 0, length), length <= 8);
            let listed = [0, 1, 2, 3, 4, 5, 6, 7, 8, 12, 16, 20, 24, 32, 48, 64];
            check(fd(1, 0, length), listed.contains(&length));
            check(xl(1, 0, length), length != 0);
        }
        check(xl(1, 0, 2_048), true);
        check(xl(1, 0, 2_049), false);
    }

    fn can_with_rtr(rtr: u8, length: u16) -> Operation {
        Operation::CanTransmit { id: 1, ide: 0, rtr, length }
    }

    #[test]
    fn a_remote_frame_carries_no_data() {
        for length in 0..=9 {
            check(can_with_rtr(0, length), length <= 8);
            check(can_with_rtr(1, length), length == 0);
            check(can_with_rtr(2, length), false);
        }
        assert!(can_with_rtr(1, 8).breaks_only(Rule::RemoteData));
        assert!(can_with_rtr(2, 8).breaks_only(Rule::Rtr));
        assert!(!can_with_rtr(1, 9).breaks_only(Rule::RemoteData));
        assert_eq!(written(can_with_rtr(1, 8), &[]), Err(7));
        assert_eq!(written(can_with_rtr(1, 0), &[0xD5]), Err(7));
    }

    #[test]
    fn a_remote_frame_of_another_length_is_fault_4() {
        for dl in 1..=8 {
            let whole = bytes(can_with_rtr(1, dl));
            let own = whole.len();
            for length in (16..30).filter(|&length| length != own) {
                let mut other = whole.clone();
                other.resize(length, 0xD5);
                other[4] = length as u8;
                assert_eq!(fault(&other), Some((4, length)));
            }
        }
    }

    #[test]
    fn w10_length_field() {
        for (length, number) in [(7, 2), (13, 2), (12, 0)] {
            let mut buf = bytes(Operation::Confirm { id: 15 });
            buf[4] = length;
            assert_eq!(fault(&buf).map_or(0, |fault| fault.0), number);
        }
    }

    #[test]
    fn fault_1_and_2_take_up_the_rest() {
        for length in 1..8 {
            assert_eq!(fault(&W1[..length]), Some((1, length)));
        }
        for length in [0, 7, 19, 255] {
            let mut buf = W1.to_vec();
            buf[4] = length;
            assert_eq!(fault(&buf), Some((2, 18)));
        }
        let mut buf = W1.to_vec();
        buf[4..8].fill(0xFF);
        assert_eq!(fault(&buf), Some((2, 18)));
    }

    #[test]
    fn faults_in_their_order() {
        let unknown_and_beyond = [0xEE, 0, 0, 0, 9, 0, 0, 0];
        assert_eq!(fault(&unknown_and_beyond), Some((2, 8)));
        let unknown = [0x10, 1, 0, 0, 8, 0, 0, 0, 0xFF];
        assert_eq!(fault(&unknown), Some((3, 8)));
        let mut ide_and_length = W1.to_vec();
        ide_and_length[12] = 2;
        assert_eq!(fault(&ide_and_length), Some((5, 18)));
        ide_and_length[4] = 17;
        assert_eq!(fault(&ide_and_length), Some((4, 17)));
    }

    #[test]
    fn length_out_of_range_that_matches_is_fault_5() {
        assert_eq!(fault(&bytes(can(1, 0, 9))), Some((5, 25)));
        assert_eq!(fault(&bytes(fd(1, 0, 9))), Some((5, 26)));
        assert_eq!(fault(&bytes(xl(1, 0, 0))), Some((5, 22)));
        let mut short = bytes(can(1, 0, 9));
        short[14] = 10;
        assert_eq!(fault(&short), Some((4, 25)));
    }

    #[test]
    fn operation_too_short_for_its_fields_is_fault_4() {
        for code in [0x01, 0x10, 0x11, 0x12, 0x20, 0x30, 0x31, 0x40, 0x41] {
            assert_eq!(fault(&[code, 0, 0, 0, 8, 0, 0, 0, 1]), Some((4, 8)));
        }
    }

    #[test]
    fn configuration_kind_outside_1_to_4() {
        for kind in [0, 5, 255] {
            for length in 9..=13 {
                let mut buf = vec![0x40, 0, 0, 0, length, 0, 0, 0, kind];
                buf.resize(length.into(), 1);
                assert_eq!(fault(&buf), Some((4, length.into())));
            }
            let op = Operation::Configuration { kind, value: 1 };
            assert_eq!(written(op, &[]), Err(7));
        }
    }

    #[test]
    fn configuration_values() {
        for kind in 1..=3 {
            for value in [0, 1, u32::MAX] {
                check(Operation::Configuration { kind, value }, value != 0);
            }
        }
        for value in [0, 1, 2, 3, 255] {
            let sound = value == 1 || value == 2;
            check(Operation::Configuration { kind: 4, value }, sound);
        }
        for value in [257, 258, 0x0100_0001] {
            let op = Operation::Configuration { kind: 4, value };
            assert_eq!(written(op, &[]), Err(7));
        }
    }

    #[test]
    fn tables_of_bus_error_and_status() {
        for byte in 0..=255 {
            let status = Operation::Status { status: byte };
            check(status, (1..=3).contains(&byte));
            let bus_error = |error_code, error_flag, is_sender| Operation::BusError {
                id: 1,
                error_code,
                error_flag,
                is_sender,
            };
            check(bus_error(byte, 1, 0), (1..=6).contains(&byte));
            check(bus_error(1, byte, 0), (1..=2).contains(&byte));
            check(bus_error(1, 1, byte), byte <= 1);
        }
    }

    #[test]
    fn end_at_and_past_the_length() {
        for at in [W1.len(), W1.len() + 1, usize::MAX - 7, usize::MAX] {
            assert_eq!(read(W1, at), Reading::End);
        }
        assert_eq!(read(&[], 0), Reading::End);
    }

    #[test]
    fn data_only_of_an_operation_that_fits() {
        for next in [0, 1, 2, 17, 19, usize::MAX] {
            assert!(data(W1, &W1_OPERATION, next).is_empty());
        }
        assert!(data(W1, &Operation::Wakeup, 18).is_empty());
    }

    #[test]
    fn refusal_7_before_11_and_no_byte_changed() {
        let mut buf = [0x5A; 17];
        assert_eq!(write(&W1_OPERATION, &[1, 2], &mut buf), Err(11));
        assert_eq!(write(&W1_OPERATION, &[1], &mut buf), Err(7));
        assert_eq!(write(&can(2_048, 0, 2), &[1, 2], &mut []), Err(7));
        assert_eq!(buf, [0x5A; 17]);
    }

    #[test]
    fn data_of_65_535_bytes_and_above() {
        let op = Operation::FormatError { length: u16::MAX };
        check(op, true);
        assert_eq!(written(op, &[0; 65_534]), Err(7));
        let empty = Operation::FormatError { length: 0 };
        assert_eq!(written(empty, &[0; 65_536]), Err(7));
        assert_eq!(written(Operation::Wakeup, &[0; 65_536]), Err(7));
    }
}
