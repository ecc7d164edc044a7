//! Wrong registers, to see that the comparison finds them. Each is the second
//! register with one rule altered; its name says what is wrong, the words above
//! it are those of 01 that it breaks, or of 02 where that is said.

use kettlefrost::raw;

use crate::codec::{self, Operation};
use crate::memory::Second;
use crate::register::{closed_id, REGISTER_CAPACITY};
use crate::registers::{open_ids, RegisterCall, Registers};
use crate::remote::Remote;
use crate::wrong_content::{wrong_content, WrongRule};

use RegisterCall::{Enter, Read};

/// A call that the second register has answered.
pub struct Played<'a> {
    before: &'a raw::Register,
    /// None for a new register.
    call: Option<RegisterCall>,
    buffer: &'a [u8],
    answer: &'a mut raw::RegisterAnswer,
}

/// A change of an honest answer.
pub type Alteration = Box<dyn Fn(&mut Played)>;

/// The second register with an alteration.
pub struct PlantedRegister(pub Alteration);

impl Registers for PlantedRegister {
    fn new_register(&self) -> raw::Register {
        let before = &Second.new_register();
        let mut answer = raw::RegisterAnswer { number: 0, register: *before };
        self.0(&mut Played { before, call: None, buffer: &[], answer: &mut answer });
        answer.register
    }

    fn play(
        &self,
        register: &raw::Register,
        call: RegisterCall,
        buffer: &[u8],
    ) -> raw::RegisterAnswer {
        let mut answer = Second.play(register, call, buffer);
        let call = Some(call);
        self.0(&mut Played { before: register, call, buffer, answer: &mut answer });
        answer
    }
}

/// The books of wrong bus 3 of 01, "one that changes nothing while books stay
/// empty".
pub fn stays_empty() -> PlantedRegister {
    PlantedRegister(Box::new(|p| {
        *p.answer = raw::RegisterAnswer { number: 0, register: Second.new_register() };
    }))
}

/// Wrong registers that show in sessions: what a bus gives makes them differ.
pub fn session_plants() -> impl Iterator<Item = (String, PlantedRegister)> {
    named(SESSION_PLANTS)
}

/// All wrong registers; most show only by themselves, as no bus brings them
/// there.
pub fn plants() -> impl Iterator<Item = (String, PlantedRegister)> {
    let entered = wrong_content("enter", &ENTERED).map(|(name, rule)| (name, Enter, rule));
    let read = wrong_content("read", &CLOSINGS).map(|(name, rule)| (name, Read, rule));
    let content = entered.chain(read).map(|(name, call, rule)| {
        (name, PlantedRegister(Box::new(move |p| p.rewrite_by(call, &rule))))
    });
    session_plants().chain(named(PLANTS)).chain(content)
}

fn named(table: &'static [Row]) -> impl Iterator<Item = (String, PlantedRegister)> {
    table.iter().map(|&(name, alter)| (name.to_string(), PlantedRegister(Box::new(alter))))
}

/// The kinds of which soundness shows when they are entered.
const ENTERED: [u32; 4] =
    [codec::CAN_TRANSMIT, codec::FD_TRANSMIT, codec::XL_TRANSMIT, codec::STATUS];
/// The kinds of which soundness shows when they are read.
const CLOSINGS: [u32; 3] = [codec::CONFIRM, codec::ARBITRATION_LOST, codec::BUS_ERROR];

/// A wrong program: its name, and the change that makes it.
type Row = (&'static str, fn(&mut Played));

#[rustfmt::skip]
const SESSION_PLANTS: &[Row] = &[
    // "Easy errors: closing an open frame on a Bus Error meant for another sender with the same ID"
    ("a Bus Error meant for another sender with the same ID closes", close_for_another),
    // "Entering a handed-in buffer adds one ID, at the end, per sound Transmit while not Bus-Off;"
    ("CAN frames are not entered", |p| p.skip(Enter, |op| matches!(op, Ok(Operation::CanTransmit { .. })))),
    ("FD frames are not entered", |p| p.skip(Enter, |op| matches!(op, Ok(Operation::FdTransmit { .. })))),
    ("XL frames are not entered", |p| p.skip(Enter, |op| matches!(op, Ok(Operation::XlTransmit { .. })))),
    ("IDs are added at the front", add_at_front),
    ("frames are entered while Bus-Off", enter_while_bus_off),
    ("entering stops at a fault", |p| stop_at_fault(p, Enter)),
    ("a closing that was submitted closes", close_submitted),
    // 02: "Hand-in answers such a frame with Format Error, and the book doesn't enter it."
    ("a remote frame with data is entered", enter_remote),
    ("a remote frame without data is not entered", |p| p.skip(Enter, is_remote)),
    // "each Status sets whether the node is Bus-Off, and Status Bus-Off empties the list."
    ("Bus-Off keeps the entries", keep_at_bus_off),
    ("Bus-Off is not noted", |p| p.skip(Enter, |op| *op == Ok(Operation::BUS_OFF))),
    ("ERROR_PASSIVE is noted as Bus-Off", |p| p.replace(Enter, |op| passive(op).then_some(Operation::BUS_OFF))),
    ("Bus-Off is not left again", |p| p.skip(Enter, |op| matches!(op, Ok(Operation::Status { status: 1 | 2 })))),
    // "Reading a collected buffer takes out the first equal ID, the rest keeping their order, per closing
    // operation: Confirm, Arbitration Lost, or Bus Error with Is Sender 1. All else changes nothing."
    ("the last equal ID is removed", remove_last),
    ("all equal IDs are removed", remove_all_equal),
    ("the oldest ID is removed, whichever closes", remove_oldest),
    ("the last ID takes the place of the one removed", swap_removed),
    ("a Confirm does not close", |p| p.skip(Read, |op| matches!(op, Ok(Operation::Confirm { .. })))),
    ("an Arbitration Lost does not close", |p| p.skip(Read, |op| matches!(op, Ok(Operation::ArbitrationLost { .. })))),
    ("a Bus Error does not close", |p| p.skip(Read, |op| matches!(op, Ok(Operation::BusError { .. })))),
    ("a received Transmit closes", |p| p.replace(Read, |op| Some(Operation::Confirm { id: op.transmit_id()? }))),
    ("a received Transmit is entered", enter_received),
];

#[rustfmt::skip]
const PLANTS: &[Row] = &[
    // "A new book is empty and not Bus-Off."
    ("a new book has an open ID", |p| if p.call.is_none() { p.answer.register.count = 1 }),
    ("a new book is Bus-Off", |p| if p.call.is_none() { p.answer.register.off = 1 }),
    // "All else changes nothing."
    ("reading stops at a fault", |p| stop_at_fault(p, Read)),
    ("a collected Status is noted", note_collected_status),
    // "12: \"full\": a 346th open ID at some step"
    ("346 are allowed", take_346),
    ("345 are too many", refuse_345),
    ("full is decided at the end of the buffer", full_at_the_end),
    ("a Bus-Off makes no room", no_room_by_bus_off),
    // "13: \"differs\": a closing with no such ID open"
    ("a closing of no open ID is passed over", pass_over_unknown),
    // "Every refusal gives only its number, hands back the state or book as it was"
    ("a refused call has taken steps", steps_before_refusal),
    ("a refused call clears what is past the open IDs", clear_rest_on_refusal),
    ("an accepted call leaves what is past the open IDs", leave_rest),
    ("Bus-Off is handed back by the number it had", keep_off),
    ("Bus-Off is 1 and nothing else", only_one_is_off),
    // "A sound book has at most 345 IDs, none above 536,870,911, and none when Bus-Off."
    ("count 346 not asked", |p| unasked(p, |register| if register.count == 346 { register.count = 345 })),
    ("count cut to two bytes", |p| unasked(p, |register| register.count %= 65_536)),
    ("a book with 345 IDs is not sound", |p| unsound(p, |register| register.count == 345)),
    ("IDs not asked", |p| unasked(p, |register| register.ids = register.ids.map(|id| id & codec::LARGEST_ID))),
    ("ID 536,870,912 not asked", |p| unasked(p, |register| register.ids = register.ids.map(one_less))),
    ("ID 536,870,911 is not sound", |p| unsound(p, |register| open_ids(register).is_some_and(|ids| ids.contains(&codec::LARGEST_ID)))),
    ("first ID not asked", |p| unasked(p, |register| register.ids[0] &= codec::LARGEST_ID)),
    ("last ID not asked", |p| unasked(p, mask_last)),
    ("IDs of a Bus-Off node not asked", |p| unasked(p, |register| register.off = 0)),
    ("a Bus-Off book is not sound", |p| unsound(p, |register| register.off != 0)),
    ("what is past the open IDs is asked", |p| unsound(p, |register| register.ids.iter().any(|&id| id > codec::LARGEST_ID))),
    // "If several apply, the lowest number is given"
    ("12 before 3", |p| if p.is(Enter, 3) && p.has(|op| op.transmit_id().is_some()) { p.answer.number = 12 }),
    ("13 before 3", |p| if p.is(Read, 3) && p.has(|op| closed_id(op).is_some()) { p.answer.number = 13 }),
];

impl Played<'_> {
    fn is(&self, call: RegisterCall, number: u32) -> bool {
        self.call == Some(call) && self.answer.number == number
    }

    /// Answers for another register and another buffer instead. A refusal still
    /// hands back the register as it was.
    fn instead(&mut self, register: &raw::Register, buffer: &[u8]) {
        let Some(call) = self.call else { return };
        *self.answer = Second.play(register, call, buffer);
        if self.answer.number != 0 {
            self.answer.register = *self.before;
        }
    }

    /// Leaves some of the operations out.
    fn skip(&mut self, call: RegisterCall, skipped: fn(&Result<Operation, u8>) -> bool) {
        if self.call == Some(call) {
            let kept = codec::operations(self.buffer).filter(|(op, _)| !skipped(op));
            let buffer = kept.flat_map(|(_, bytes)| bytes).copied().collect::<Vec<u8>>();
            self.instead(self.before, &buffer);
        }
    }

    /// Takes other operations in place of some.
    fn replace(&mut self, call: RegisterCall, other: fn(&Operation) -> Option<Operation>) {
        if self.call == Some(call) {
            let bytes_of = |(op, bytes): (Result<Operation, u8>, &[u8])| {
                let other = op.ok().and_then(|op| other(&op));
                other.map_or(bytes.to_vec(), |op| op.encode(&[]))
            };
            let buffer: Vec<u8> = codec::operations(self.buffer).flat_map(bytes_of).collect();
            self.instead(self.before, &buffer);
        }
    }

    /// Takes what is taken by the rules as this buffer is by a wrong one.
    fn rewrite_by(&mut self, call: RegisterCall, rule: &WrongRule) {
        if self.call == Some(call) {
            self.instead(self.before, &rule.rewritten(self.buffer));
        }
    }

    fn has(&self, is: fn(&Operation) -> bool) -> bool {
        codec::operations(self.buffer).any(|(op, _)| op.is_ok_and(|op| is(&op)))
    }

    /// What another buffer is answered with.
    fn number_of(&self, buffer: &[u8]) -> u32 {
        self.call.map_or(0, |call| Second.play(self.before, call, buffer).number)
    }

    /// Answers as done, with these IDs open.
    fn open(&mut self, open: &[u32]) {
        let register = &mut self.answer.register;
        register.ids = [0; REGISTER_CAPACITY];
        register.ids[..open.len()].copy_from_slice(open);
        register.count = open.len() as u32;
    }

    /// Reads the closings of an accepted buffer in another way.
    fn close(&mut self, close: fn(&mut Vec<u32>, u32)) {
        if self.is(Read, 0) {
            let mut open = open_ids(self.before).unwrap_or_default().to_vec();
            for op in codec::operations(self.buffer).filter_map(|(op, _)| op.ok()) {
                if let Some(id) = closed_id(&op) {
                    close(&mut open, id);
                }
            }
            self.open(&open);
        }
    }

    /// The longest front of the buffer, operation by operation, that is
    /// accepted, and what follows the operation that is not.
    fn accepted_front(&self) -> (&[u8], &[u8]) {
        let mut end = 0;
        for (_, bytes) in codec::operations(self.buffer) {
            let next = end + bytes.len();
            if self.number_of(&self.buffer[..next]) != 0 {
                return (&self.buffer[..end], &self.buffer[next..]);
            }
            end = next;
        }
        (self.buffer, &[])
    }
}

// Steps.

fn close_for_another(played: &mut Played) {
    if played.call == Some(Read) {
        let mut buffer = Vec::new();
        for (op, bytes) in codec::operations(played.buffer) {
            buffer.extend_from_slice(bytes);
            if let (Ok(Operation::BusError { .. }), Some(last)) = (op, buffer.last_mut()) {
                *last = 1;
            }
        }
        played.instead(played.before, &buffer);
    }
}

fn keep_at_bus_off(played: &mut Played) {
    if played.is(Enter, 0) && played.answer.register.off != 0 {
        (played.answer.register.ids, played.answer.register.count) =
            (played.before.ids, played.before.count);
    }
}

fn passive(op: &Operation) -> bool {
    matches!(op, Operation::Status { status: codec::ERROR_PASSIVE })
}

/// Of a buffer without a Bus-Off.
fn add_at_front(played: &mut Played) {
    if played.is(Enter, 0) && !played.has(|op| *op == Operation::BUS_OFF) {
        let after = &mut played.answer.register;
        let added = after.count - played.before.count;
        after.ids[..after.count as usize].rotate_right(added as usize);
    }
}

fn remove_all_equal(played: &mut Played) {
    played.close(|open, id| open.retain(|&other| other != id));
}

fn remove_oldest(played: &mut Played) {
    played.close(|open, _| {
        open.remove(0);
    });
}

fn swap_removed(played: &mut Played) {
    played.close(|open, id| {
        let first = open.iter().position(|&other| other == id);
        open.swap_remove(first.expect("the buffer was accepted"));
    });
}

fn enter_received(played: &mut Played) {
    if played.is(Read, 0) {
        let entered = Second.play(&played.answer.register, Enter, played.buffer);
        if entered.number == 0 {
            *played.answer = entered;
        }
    }
}

fn remove_last(played: &mut Played) {
    if played.is(Read, 0) {
        let mut register = *played.before;
        register.ids[..register.count as usize].reverse();
        played.instead(&register, played.buffer);
        let after = &mut played.answer.register;
        after.ids[..after.count as usize].reverse();
    }
}

fn enter_while_bus_off(played: &mut Played) {
    if played.is(Enter, 0) && played.before.off != 0 {
        played.instead(&raw::Register { off: 0, ..*played.before }, played.buffer);
    }
}

fn is_remote(op: &Result<Operation, u8>) -> bool {
    matches!(op, Ok(Operation::CanTransmit { rtr: 1, .. }))
}

fn enter_remote(played: &mut Played) {
    if played.call == Some(Enter) {
        let mut buffer = Vec::new();
        for (op, bytes) in codec::operations(played.buffer) {
            let start = buffer.len();
            buffer.extend_from_slice(bytes);
            if Remote::of(op, bytes) == Some(Remote::WithData) {
                // Rtr, which makes it an ordinary frame.
                buffer[start + 13] = 0;
            }
        }
        played.instead(played.before, &buffer);
    }
}

fn stop_at_fault(played: &mut Played, call: RegisterCall) {
    if played.call == Some(call) {
        let sound = codec::operations(played.buffer).take_while(|(op, _)| op.is_ok());
        let end = sound.map(|(_, bytes)| bytes.len()).sum();
        played.instead(played.before, &played.buffer[..end]);
    }
}

fn close_submitted(played: &mut Played) {
    if played.is(Enter, 0) {
        let closed = Second.play(&played.answer.register, Read, played.buffer);
        if closed.number == 0 {
            *played.answer = closed;
        }
    }
}

/// Drops what does not fit, once.
fn take_346(played: &mut Played) {
    if played.is(Enter, 12) {
        let (front, rest) = played.accepted_front();
        let buffer = [front, rest].concat();
        played.instead(played.before, &buffer);
    }
}

fn refuse_345(played: &mut Played) {
    if played.is(Enter, 0) && played.answer.register.count == 345 && played.before.count < 345 {
        *played.answer = raw::RegisterAnswer { number: 12, register: *played.before };
    }
}

/// Drops IDs at a Bus-Off, and what is too much only then.
fn full_at_the_end(played: &mut Played) {
    if played.is(Enter, 12) {
        let mut open = open_ids(played.before).unwrap_or_default().to_vec();
        let mut bus_off = played.before.off != 0;
        for op in codec::operations(played.buffer).filter_map(|(op, _)| op.ok()) {
            if let Operation::Status { status } = op {
                bus_off = status == codec::BUS_OFF;
                open.retain(|_| !bus_off);
            }
            open.extend(op.transmit_id().filter(|_| !bus_off));
        }
        if open.len() <= REGISTER_CAPACITY {
            (played.answer.number, played.answer.register.off) = (0, bus_off.into());
            played.open(&open);
        }
    }
}

fn no_room_by_bus_off(played: &mut Played) {
    let operations = codec::operations(played.buffer).filter_map(|(op, _)| op.ok());
    let frames = operations.filter(|op| op.transmit_id().is_some()).count();
    let open = played.before.count as usize;
    if played.is(Enter, 0) && played.before.off == 0 && open + frames > REGISTER_CAPACITY {
        *played.answer = raw::RegisterAnswer { number: 12, register: *played.before };
    }
}

fn pass_over_unknown(played: &mut Played) {
    if played.is(Read, 13) {
        let (front, rest) = played.accepted_front();
        let buffer = [front, rest].concat();
        played.instead(played.before, &buffer);
    }
}

fn note_collected_status(played: &mut Played) {
    let mut operations = codec::operations(played.buffer);
    if played.is(Read, 0) && operations.any(|(op, _)| op == Ok(Operation::BUS_OFF)) {
        played.answer.register = raw::Register { off: 1, ..Second.new_register() };
    }
}

// What is handed back.

fn steps_before_refusal(played: &mut Played) {
    if let 12 | 13 = played.answer.number {
        let (front, number) = (played.accepted_front().0, played.answer.number);
        let front = front.to_vec();
        played.instead(played.before, &front);
        played.answer.number = number;
    }
}

fn clear_rest(register: &mut raw::Register) {
    let count = register.count as usize;
    register.ids.iter_mut().skip(count).for_each(|id| *id = 0);
}

fn clear_rest_on_refusal(played: &mut Played) {
    if played.answer.number != 0 {
        clear_rest(&mut played.answer.register);
    }
}

fn leave_rest(played: &mut Played) {
    if played.answer.number == 0 {
        let count = played.answer.register.count as usize;
        played.answer.register.ids[count..].copy_from_slice(&played.before.ids[count..]);
    }
}

fn keep_off(played: &mut Played) {
    if played.answer.number == 0 && played.answer.register.off != 0 && played.before.off != 0 {
        played.answer.register.off = played.before.off;
    }
}

// Validity.

fn only_one_is_off(played: &mut Played) {
    let off = u32::from(played.before.off == 1);
    played.instead(&raw::Register { off, ..*played.before }, played.buffer);
}

/// The largest ID in place of the one above it.
fn one_less(id: u32) -> u32 {
    id - u32::from(id == codec::LARGEST_ID + 1)
}

fn mask_last(register: &mut raw::Register) {
    if let Some(last) = register.ids.iter_mut().take(register.count as usize).last() {
        *last &= codec::LARGEST_ID;
    }
}

/// A register that is not valid is taken for one that is.
fn unasked(played: &mut Played, mend: fn(&mut raw::Register)) {
    if played.answer.number == 3 {
        let mut register = *played.before;
        mend(&mut register);
        played.instead(&register, played.buffer);
    }
}

/// A register that is valid is refused.
fn unsound(played: &mut Played, is: fn(&raw::Register) -> bool) {
    if played.call.is_some() && played.answer.number != 3 && is(played.before) {
        *played.answer = raw::RegisterAnswer { number: 3, register: *played.before };
    }
}
