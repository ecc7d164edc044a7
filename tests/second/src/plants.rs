//! Wrong codecs, to see that the comparison finds them. Each is the second
//! codec with one rule altered; its name says what is wrong, the words above it
//! are those of 01 that it breaks, or of 02 where that is said.

use std::mem::swap;

use kettlefrost::raw;

use crate::codec::{self, Operation, Rule};
use crate::comparison::{Codec, Second};
use crate::generate::{data_start, CODES};
use crate::remote::Remote;
use crate::wrong_content::{wrong_content, WrongRule};

use Alteration::{Data, Read, ReadContent, Write, WriteContent};

/// A reading that the second codec has given.
pub struct Reading<'a> {
    buf: &'a [u8],
    at: usize,
    given: &'a mut raw::Reading,
}

/// A writing that the second codec has answered.
pub struct Writing<'a> {
    op: &'a raw::Operation,
    data: &'a [u8],
    buf: &'a mut [u8],
    given: &'a mut raw::Written,
}

/// A change of an honest answer.
#[derive(Clone, Copy)]
pub enum Alteration {
    Read(fn(&mut Reading)),
    Data(fn(&raw::Operation, &mut raw::Part)),
    Write(fn(&mut Writing)),
    ReadContent(WrongRule),
    WriteContent(WrongRule),
}

impl Codec for Alteration {
    fn read(&self, buf: &[u8], at: usize) -> raw::Reading {
        let mut given = Second.read(buf, at);
        let mut reading = Reading { buf, at, given: &mut given };
        match self {
            Read(alter) => alter(&mut reading),
            ReadContent(rule) => reading.judge(|op| rule.is_sound(op)),
            Data(_) | Write(_) | WriteContent(_) => {}
        }
        given
    }

    fn data(&self, buf: &[u8], op: &raw::Operation, next: usize) -> raw::Part {
        let mut part = Second.data(buf, op, next);
        if let Data(alter) = self {
            alter(op, &mut part);
        }
        part
    }

    fn write(&self, op: &raw::Operation, data: &[u8], buf: &mut [u8]) -> raw::Written {
        let mut given = Second.write(op, data, buf);
        let mut writing = Writing { op, data, buf, given: &mut given };
        match self {
            Write(alter) => alter(&mut writing),
            WriteContent(rule) => {
                writing.judge(|op, data| rule.is_sound(op) && data.len() == op.data_length())
            }
            Data(_) | Read(_) | ReadContent(_) => {}
        }
        given
    }
}

/// The wrong codecs by name.
pub fn plants() -> impl Iterator<Item = (String, Alteration)> {
    let named = PLANTS.iter().map(|&(name, plant)| (name.to_string(), plant));
    let read = wrong_content("read", &CODES).map(|(name, rule)| (name, ReadContent(rule)));
    let written = wrong_content("write", &CODES).map(|(name, rule)| (name, WriteContent(rule)));
    named.chain(read).chain(written)
}

#[rustfmt::skip]
const PLANTS: &[(&str, Alteration)] = &[
    // "Numbers are little-endian."
    ("read: ID in the other byte order", Read(|r| r.field(|op| op.id = op.id.swap_bytes()))),
    ("read: DL in the other byte order", Read(|r| r.field(|op| op.length = op.length.swap_bytes()))),
    ("read: AF in the other byte order", Read(|r| r.field_of(0x12, |op| op.word = op.word.swap_bytes()))),
    ("read: baud rate in the other byte order", Read(|r| r.field_of(0x40, swap_rate))),
    ("write: code in the other byte order", Write(|w| w.patch(|out| out[..4].reverse()))),
    ("write: length in the other byte order", Write(|w| w.patch(|out| out[4..8].reverse()))),
    ("write: ID in the other byte order", Write(|w| w.patch_of(0x20, |out| out[8..12].reverse()))),
    ("write: DL in the other byte order", Write(|w| w.patch_of(0x10, |out| out[14..16].reverse()))),
    ("write: AF in the other byte order", Write(|w| w.patch_of(0x12, |out| out[16..20].reverse()))),
    ("write: baud rate in the other byte order", Write(|w| w.patch_of(0x40, |out| out[9..].reverse()))),
    // "Each operation starts with a code (4 bytes) and its whole length (4 bytes), both counted
    // in that length."
    ("read: code of one byte", Read(|r| r.changed(|rest| rest[1..4].fill(0)))),
    ("read: length of two bytes", Read(|r| r.changed(|rest| rest[6..8].fill(0)))),
    ("read: length without code and length", Read(|r| r.changed(|rest| add_to_length(rest, 8)))),
    ("write: length without code and length", Write(|w| w.patch(|out| out[4] = out[4].wrapping_sub(8)))),
    // The table: codes.
    ("read: Confirm and Arbitration Lost exchanged", Read(|r| r.field(exchange_closings))),
    ("write: Confirm and Arbitration Lost exchanged", Write(|w| w.patch(|out| out[0] = closing(out[0])))),
    // The table: lengths.
    ("read: Format Error one byte too long", Read(one_long::<0x01>)),
    ("read: CAN Transmit one byte too long", Read(one_long::<0x10>)),
    ("read: CAN FD Transmit one byte too long", Read(one_long::<0x11>)),
    ("read: CAN XL Transmit one byte too long", Read(one_long::<0x12>)),
    ("read: Confirm one byte too long", Read(one_long::<0x20>)),
    ("read: Arbitration Lost one byte too long", Read(one_long::<0x30>)),
    ("read: Bus Error one byte too long", Read(one_long::<0x31>)),
    ("read: Configuration one byte too long", Read(one_long::<0x40>)),
    ("read: Status one byte too long", Read(one_long::<0x41>)),
    ("read: Wakeup one byte too long", Read(one_long::<0x42>)),
    ("read: Format Error one byte too short", Read(one_short::<0x01>)),
    ("read: CAN Transmit one byte too short", Read(one_short::<0x10>)),
    ("read: CAN FD Transmit one byte too short", Read(one_short::<0x11>)),
    ("read: CAN XL Transmit one byte too short", Read(one_short::<0x12>)),
    ("read: Confirm one byte too short", Read(one_short::<0x20>)),
    ("read: Arbitration Lost one byte too short", Read(one_short::<0x30>)),
    ("read: Bus Error one byte too short", Read(one_short::<0x31>)),
    ("read: Configuration one byte too short", Read(one_short::<0x40>)),
    ("read: Status one byte too short", Read(one_short::<0x41>)),
    ("read: kind 4 in 13 bytes", Read(wide_behaviour)),
    ("read: kinds 1 to 3 in 10 bytes", Read(narrow_rate)),
    ("read: n of one byte", Read(|r| r.changed(|rest| if rest[0] == 1 { clear(rest, 9) }))),
    ("read: DL of CAN of one byte", Read(|r| r.changed(|rest| if rest[0] == 0x10 { clear(rest, 15) }))),
    // The table: fields.
    ("read: CAN: Ide and Rtr exchanged", Read(|r| r.field_of(0x10, |op| swap(&mut op.first, &mut op.second)))),
    ("read: FD: Ide and Brs exchanged", Read(|r| r.field_of(0x11, |op| swap(&mut op.first, &mut op.second)))),
    ("read: FD: Brs and Esi exchanged", Read(|r| r.field_of(0x11, |op| swap(&mut op.second, &mut op.third)))),
    ("read: XL: Ide and Sec exchanged", Read(|r| r.field_of(0x12, |op| swap(&mut op.first, &mut op.second)))),
    ("read: XL: Sec and SDT exchanged", Read(|r| r.field_of(0x12, |op| swap(&mut op.second, &mut op.third)))),
    ("read: XL: SDT and VCID exchanged", Read(|r| r.field_of(0x12, |op| swap(&mut op.third, &mut op.fourth)))),
    ("read: XL: ID and AF exchanged", Read(|r| r.field_of(0x12, |op| swap(&mut op.id, &mut op.word)))),
    ("read: Error Code and Error Flag exchanged", Read(|r| r.field_of(0x31, |op| swap(&mut op.first, &mut op.second)))),
    ("read: Error Flag and Is Sender exchanged", Read(|r| r.field_of(0x31, |op| swap(&mut op.second, &mut op.third)))),
    ("read: a field of another kind is not 0", Read(|r| r.field(|op| op.third |= op.second))),
    ("write: CAN: Ide and Rtr exchanged", Write(|w| w.patch_of(0x10, |out| out.swap(12, 13)))),
    ("write: FD: Ide and Brs exchanged", Write(|w| w.patch_of(0x11, |out| out.swap(12, 13)))),
    ("write: FD: Brs and Esi exchanged", Write(|w| w.patch_of(0x11, |out| out.swap(13, 14)))),
    ("write: XL: Ide and Sec exchanged", Write(|w| w.patch_of(0x12, |out| out.swap(12, 13)))),
    ("write: XL: Sec and SDT exchanged", Write(|w| w.patch_of(0x12, |out| out.swap(13, 14)))),
    ("write: XL: SDT and VCID exchanged", Write(|w| w.patch_of(0x12, |out| out.swap(14, 15)))),
    ("write: XL: ID and AF exchanged", Write(|w| w.patch_of(0x12, |out| swap_parts(out, 8, 16)))),
    ("write: Error Code and Error Flag exchanged", Write(|w| w.patch_of(0x31, |out| out.swap(12, 13)))),
    ("write: Error Flag and Is Sender exchanged", Write(|w| w.patch_of(0x31, |out| out.swap(13, 14)))),
    // "the data bytes are handed back as that part of the caller's buffer"
    ("data one short", Data(|_, part| part.length = part.length.saturating_sub(1))),
    ("data of a Format Error one early", Data(one_early::<0x01>)),
    ("data of CAN one early", Data(one_early::<0x10>)),
    ("data of FD one early", Data(one_early::<0x11>)),
    ("data of XL one early", Data(one_early::<0x12>)),
    ("data of a Format Error not handed back", Data(|op, part| { if op.code == 0x01 { *part = raw::Part::default() } })),
    ("data of a remote frame not handed back", Data(no_remote_data)),
    // "each reading gives the operation and the place after it, or says that the end is reached
    // (its place is at or past the buffer's length), or gives a fault"
    ("the place after an operation one early", Read(|r| r.given.next -= usize::from(r.is_found()))),
    ("the end at the length is fault 1", Read(|r| if r.at == r.buf.len() { r.fault(1, r.at) })),
    ("the end past the length is fault 1", Read(|r| if r.at > r.buf.len() { r.fault(1, r.at) })),
    ("a position past the length wraps", Read(|r| if r.at.checked_add(8).is_none() { r.fault(1, r.at) })),
    ("the end's place is the length", Read(|r| r.given.next = r.given.next.min(r.buf.len()))),
    // "1, only 1 to 7 bytes remain;"
    ("8 bytes that remain are fault 1", Read(|r| if r.rest().len() == 8 { r.fault(1, r.buf.len()) })),
    ("7 bytes that remain are fault 2", Read(|r| if r.rest().len() == 7 { r.fault(2, r.buf.len()) })),
    // "2, length below 8 or beyond what remains;"
    ("length 7 is not fault 2", Read(|r| if r.states(7) { r.fault(4, r.at + 7) })),
    ("length 8 is fault 2", Read(|r| if r.states(8) { r.fault(2, r.buf.len()) })),
    ("one beyond what remains is not fault 2", Read(|r| if r.states(r.rest().len() + 1) { r.fault(4, r.buf.len()) })),
    ("all that remains is fault 2", Read(|r| if r.states(r.rest().len()) { r.fault(2, r.buf.len()) })),
    // "3, unknown code;"
    ("fault 3 before 2", Read(unknown_code_first)),
    ("fault 4 for 3", Read(|r| r.renumber(3, 4))),
    ("code 0x13 is known", Read(|r| if r.rest().starts_with(&[0x13, 0, 0, 0]) { r.renumber(3, 4) })),
    // "4, length not that of the table for the code and its DL, n or kind (a kind outside 1 to 4, or
    // an operation too short to hold DL, n or kind, is this fault);"
    ("fault 3 for 4", Read(|r| r.renumber(4, 3))),
    ("a kind outside 1 to 4 is fault 5", Read(kind_as_content)),
    ("too short to hold n is fault 2", Read(too_short::<0x01>)),
    ("too short to hold DL of CAN is fault 2", Read(too_short::<0x10>)),
    ("too short to hold DL of FD is fault 2", Read(too_short::<0x11>)),
    ("too short to hold DL of XL is fault 2", Read(too_short::<0x12>)),
    ("too short to hold the kind is fault 2", Read(too_short::<0x40>)),
    // "5, content rule broken."
    ("fault 5 before 4", Read(content_first)),
    ("a DL out of its range is fault 4", Read(|r| content_as_length(r, Rule::DataLength))),
    // 02: "Reading and writing now treat Rtr 1 with DL above 0 as a broken content rule
    // (fault 5, refusal 7)."
    ("a remote frame with data is fault 4", Read(|r| content_as_length(r, Rule::RemoteData))),
    ("a remote frame with data is fault 5 before 4", Read(remote_first)),
    ("read: a remote frame takes 16 bytes, whatever its DL", Read(remote_of_16_bytes)),
    ("read: a remote frame's data are passed over", Read(remote_without_data)),
    ("write: a remote frame takes 16 bytes, whatever its DL", Write(write_remote_dl)),
    ("write: a remote frame's data are passed over", Write(write_remote_without_data)),
    ("write: a remote frame with data is refused with 11 before 7", Write(remote_room_first)),
    // "A fault of 1 or 2 takes up all the rest of the buffer; of 3 to 5, the stated length."
    ("fault 1 takes up one byte", Read(|r| r.takes(1, r.at + 1))),
    ("fault 2 takes up eight bytes", Read(|r| r.takes(2, r.at + 8))),
    ("fault 2 takes up the stated length", Read(|r| r.takes(2, r.at.saturating_add(r.stated())))),
    ("fault 3 takes up the rest", Read(|r| r.takes(3, r.buf.len()))),
    ("fault 4 takes up the rest", Read(|r| r.takes(4, r.buf.len()))),
    ("fault 5 takes up the rest", Read(|r| r.takes(5, r.buf.len()))),
    ("fault 4 takes up the table's length", Read(|r| r.takes(4, r.at + r.table_length()))),
    // "7: operation to write breaks a rule above,"
    ("an unknown code is written", Write(|w| if Operation::try_from(w.op).is_err() { w.answer(0, 8) })),
    ("kind 0 is written", Write(|w| if w.op.code == 0x40 && w.op.first == 0 { w.pass(13) })),
    ("kind 5 is written", Write(|w| if w.op.code == 0x40 && w.op.first == 5 { w.pass(13) })),
    ("behaviour 257 is written as 1", Write(|w| if is_behaviour(w.op, 257) { w.pass(10) })),
    // "its data's length isn't its DL or n (0 if it has neither), or is above 65,535"
    ("data one short are written", Write(|w| w.judge(|op, data| op.is_sound() && one_off(data, op)))),
    ("data one long are written", Write(|w| w.judge(|op, data| op.is_sound() && data.len() > op.data_length()))),
    ("data of a kind without DL are passed over", Write(without_data)),
    ("data of 65,535 bytes are refused", Write(|w| if w.data.len() == 65_535 { w.answer(7, 0) })),
    ("data length compared modulo 65,536", Write(narrow_data_length)),
    // "11: caller's buffer too small"
    ("refusal 11 before 7", Write(|w| if w.given.refusal == 7 && w.buf.len() < 8 { w.answer(11, 0) })),
    ("a buffer that fits exactly is too small", Write(|w| if w.given.length == w.buf.len() { w.answer(11, 0) })),
    ("a buffer too small is refused with 7", Write(|w| if w.given.refusal == 11 { w.answer(7, 0) })),
    // "Writing puts one operation at the front of the caller's buffer and gives its length."
    ("the length given is without data", Write(|w| w.given.length = w.given.length.saturating_sub(w.data.len()))),
    ("the operation is put at the end of the buffer", Write(put_at_the_end)),
    // "Collecting and writing change no byte of the caller's buffer past the length given."
    ("a byte past the length is written", Write(write_past)),
    // "Every refusal gives only its number, .. and changes nothing lent."
    ("a refused writing changes a byte", Write(change_on_refusal)),
    ("a refused writing gives a length", Write(|w| w.given.length |= usize::from(w.given.refusal != 0))),
];

impl Reading<'_> {
    /// The buffer from the position on.
    fn rest(&self) -> &[u8] {
        self.buf.get(self.at..).unwrap_or_default()
    }

    /// What the reading took up.
    fn piece(&self) -> &[u8] {
        self.buf.get(self.at..self.given.next).unwrap_or_default()
    }

    fn is_found(&self) -> bool {
        self.given.end == 0 && self.given.fault == 0
    }

    /// The length field; 0 where there is none.
    fn stated(&self) -> usize {
        let field = self.rest().get(4..8).and_then(|field| field.first_chunk());
        field.map_or(0, |&field| u32::from_le_bytes(field) as usize)
    }

    /// Whether there is a length field, with this value.
    fn states(&self, length: usize) -> bool {
        self.rest().len() >= 8 && self.stated() == length
    }

    /// The length that the table has for what was read, where that lies within
    /// the rest; else the stated one.
    fn table_length(&self) -> usize {
        let piece = self.piece();
        let length = data_start(piece.first().copied().unwrap_or(0).into()).and_then(|start| {
            let field = piece.get(start - 2..start)?;
            Some(start + usize::from(u16::from_le_bytes([field[0], field[1]])))
        });
        length.filter(|&length| length <= self.rest().len()).unwrap_or(piece.len())
    }

    fn fault(&mut self, fault: u32, next: usize) {
        *self.given = raw::Reading { fault, next, ..raw::Reading::default() };
    }

    fn find(&mut self, op: &Operation) {
        let next = self.given.next;
        *self.given = raw::Reading { next, operation: op.into(), ..raw::Reading::default() };
    }

    fn renumber(&mut self, from: u32, to: u32) {
        if self.given.fault == from {
            self.given.fault = to;
        }
    }

    fn takes(&mut self, fault: u32, next: usize) {
        if self.given.fault == fault {
            self.given.next = next;
        }
    }

    /// Alters the fields of an operation that was found.
    fn field(&mut self, alter: fn(&mut raw::Operation)) {
        if self.is_found() {
            alter(&mut self.given.operation);
        }
    }

    fn field_of(&mut self, code: u32, alter: fn(&mut raw::Operation)) {
        if self.given.operation.code == code {
            self.field(alter);
        }
    }

    /// Reads other bytes instead, if there are eight or more.
    fn changed(&mut self, change: fn(&mut [u8])) {
        if self.rest().len() >= 8 {
            let mut buf = self.buf.to_vec();
            change(&mut buf[self.at..]);
            *self.given = Second.read(&buf, self.at);
        }
    }

    /// Whether the fault is a remote frame with data.
    fn is_remote_with_data(&self) -> bool {
        self.given.fault == 5 && Remote::of(Err(5), self.piece()) == Some(Remote::WithData)
    }

    /// Whether the fault is a remote frame with data that is not of their length.
    fn is_remote_off(&self) -> bool {
        self.given.fault == 4 && Remote::of(Err(4), self.piece()) == Some(Remote::WrongLength)
    }

    /// Judges the content by other rules.
    fn judge(&mut self, is_sound: impl Fn(&Operation) -> bool) {
        if self.is_found() || self.given.fault == 5 {
            let op = codec::parsed(self.piece()).expect("faults 3 and 4 come first");
            if is_sound(&op) {
                self.find(&op);
            } else {
                self.fault(5, self.given.next);
            }
        }
    }
}

impl Writing<'_> {
    fn answer(&mut self, refusal: usize, length: usize) {
        *self.given = raw::Written { refusal, length };
    }

    /// Takes a refusal 7 of what has no data back.
    fn pass(&mut self, length: usize) {
        if self.given.refusal == 7 && self.data.is_empty() {
            self.answer(0, length);
        }
    }

    /// Alters the bytes that were written.
    fn patch(&mut self, alter: fn(&mut [u8])) {
        if self.given.refusal == 0 {
            alter(&mut self.buf[..self.given.length]);
        }
    }

    fn patch_of(&mut self, code: u32, alter: fn(&mut [u8])) {
        if self.op.code == code {
            self.patch(alter);
        }
    }

    /// Whether the operation is a remote frame with data by its DL.
    fn is_remote_with_data(&self) -> bool {
        Operation::try_from(self.op).is_ok_and(|op| op.breaks_only(Rule::RemoteData))
    }

    /// Judges operation and data by other rules.
    fn judge(&mut self, is_sound: impl Fn(&Operation, &[u8]) -> bool) {
        let Ok(op) = Operation::try_from(self.op) else { return };
        let length = op.header_length() + self.data.len();
        match self.buf.get_mut(..length) {
            _ if !is_sound(&op, self.data) => self.answer(7, 0),
            None => self.answer(11, 0),
            Some(front) => {
                op.put(self.data, front);
                self.answer(0, length);
            }
        }
    }
}

fn swap_rate(op: &mut raw::Operation) {
    if op.first != 4 {
        op.word = op.word.swap_bytes();
    }
}

fn add_to_length(rest: &mut [u8], more: u32) {
    let length = u32::from_le_bytes([rest[4], rest[5], rest[6], rest[7]]);
    rest[4..8].copy_from_slice(&length.wrapping_add(more).to_le_bytes());
}

/// The code of the other closing.
fn closing(code: u8) -> u8 {
    match code {
        0x20 => 0x30,
        0x30 => 0x20,
        other => other,
    }
}

fn exchange_closings(op: &mut raw::Operation) {
    op.code = closing(op.code as u8).into();
}

fn clear(rest: &mut [u8], place: usize) {
    if let Some(byte) = rest.get_mut(place) {
        *byte = 0;
    }
}

fn swap_parts(out: &mut [u8], left: usize, right: usize) {
    (0..4).for_each(|place| out.swap(left + place, right + place));
}

/// A fault 4 that would be an operation without its last byte.
fn one_long<const CODE: u32>(r: &mut Reading) {
    if let (4, Some((_, front))) = (r.given.fault, r.piece().split_last()) {
        find_sound(r, CODE, front.to_vec());
    }
}

/// A fault 4 that would be an operation with one byte more.
fn one_short<const CODE: u32>(r: &mut Reading) {
    if r.given.fault == 4 {
        let longer = [r.piece(), &[1]].concat();
        find_sound(r, CODE, longer);
    }
}

fn find_sound(r: &mut Reading, code: u32, bytes: Vec<u8>) {
    if let Some(op) = codec::parsed(&bytes).filter(|op| op.code() == code && op.is_sound()) {
        r.find(&op);
    }
}

fn wide_behaviour(r: &mut Reading) {
    if r.piece().len() == 13 && r.piece()[0] == 0x40 && r.piece()[8] == 4 {
        r.renumber(4, 5);
    }
}

fn narrow_rate(r: &mut Reading) {
    if let (4, &[0x40, _, _, _, 10, _, _, _, kind @ 1..=3, rate]) = (r.given.fault, r.piece()) {
        r.find(&Operation::Configuration { kind, value: rate.into() });
    }
}

fn one_early<const CODE: u32>(op: &raw::Operation, part: &mut raw::Part) {
    part.start -= usize::from(op.code == CODE && part.length != 0);
}

fn no_remote_data(op: &raw::Operation, part: &mut raw::Part) {
    if op.code == 0x10 && op.second == 1 {
        *part = raw::Part::default();
    }
}

fn unknown_code_first(r: &mut Reading) {
    if r.given.fault == 2 && r.rest().get(1..4) != Some(&[0, 0, 0]) {
        r.given.fault = 3;
    }
}

fn kind_as_content(r: &mut Reading) {
    if r.rest().first() == Some(&0x40) && matches!(r.piece().get(8), Some(0 | 5..)) {
        r.renumber(4, 5);
    }
}

fn too_short<const CODE: u32>(r: &mut Reading) {
    let needed = data_start(CODE).unwrap_or(9);
    if r.piece().len() < needed && r.rest().starts_with(&CODE.to_le_bytes()) {
        r.renumber(4, 2);
    }
}

fn content_first(r: &mut Reading) {
    if r.rest().first() == Some(&0x10) && r.piece().get(12) > Some(&1) {
        r.renumber(4, 5);
    }
}

fn content_as_length(r: &mut Reading, broken: Rule) {
    if r.given.fault == 5 {
        let op = codec::parsed(r.piece()).expect("faults 3 and 4 come first");
        op.check(|rule| {
            if rule == broken {
                r.given.fault = 4
            }
        });
    }
}

fn remote_first(r: &mut Reading) {
    if r.is_remote_off() {
        r.renumber(4, 5);
    }
}

/// As on the wire, where DL of a remote frame is that of the data asked for.
fn remote_of_16_bytes(r: &mut Reading) {
    if let (true, &[_, _, _, _, 16, _, _, _, i0, i1, i2, i3, ide, rtr, l0, l1]) =
        (r.is_remote_off(), r.piece())
    {
        let (id, length) = (u32::from_le_bytes([i0, i1, i2, i3]), u16::from_le_bytes([l0, l1]));
        r.find(&Operation::CanTransmit { id, ide, rtr, length });
    }
}

fn remote_without_data(r: &mut Reading) {
    if r.is_remote_with_data() {
        if let Some(Operation::CanTransmit { id, ide, rtr, .. }) = codec::parsed(r.piece()) {
            r.find(&Operation::CanTransmit { id, ide, rtr, length: 0 });
        }
    }
}

fn write_remote_dl(w: &mut Writing) {
    if w.is_remote_with_data() && w.data.is_empty() && w.buf.len() >= 16 {
        w.answer(0, 16);
    }
}

fn write_remote_without_data(w: &mut Writing) {
    if w.is_remote_with_data() && w.data.len() == usize::from(w.op.length) {
        *w.given = Second.write(&raw::Operation { length: 0, ..*w.op }, &[], w.buf);
    }
}

fn remote_room_first(w: &mut Writing) {
    if w.is_remote_with_data() && w.buf.len() < 16 + w.data.len() {
        w.answer(11, 0);
    }
}

fn is_behaviour(op: &raw::Operation, value: u32) -> bool {
    op.code == 0x40 && op.first == 4 && op.word == value
}

/// Whether the data have the right length, or one less.
fn one_off(data: &[u8], op: &Operation) -> bool {
    data.len() == op.data_length() || data.len() + 1 == op.data_length()
}

fn without_data(w: &mut Writing) {
    if w.given.refusal == 7 && data_start(w.op.code).is_none() {
        *w.given = Second.write(w.op, &[], w.buf);
    }
}

fn narrow_data_length(w: &mut Writing) {
    if w.op.code == 0x01 && w.data.len() > 65_535 && w.data.len() as u16 == w.op.length {
        w.answer(0, 10 + w.data.len());
    }
}

fn put_at_the_end(w: &mut Writing) {
    if w.given.refusal == 0 {
        w.buf.rotate_right(w.given.length);
    }
}

fn write_past(w: &mut Writing) {
    if let (0, Some(byte)) = (w.given.refusal, w.buf.get_mut(w.given.length)) {
        *byte = !*byte;
    }
}

fn change_on_refusal(w: &mut Writing) {
    if let (11, Some(byte)) = (w.given.refusal, w.buf.first_mut()) {
        *byte = !*byte;
    }
}
