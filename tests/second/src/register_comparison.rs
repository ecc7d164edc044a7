//! The comparison of a register with the second one: after each call answer and
//! register, byte for byte, of a refused call too.

use std::fmt;

use kettlefrost::raw;

use crate::codec::{self, Operation};
use crate::counts::Counts;
use crate::generate::CODES;
use crate::memory::Second;
use crate::register::{closed_id, REGISTER_CAPACITY};
use crate::register_cases::{Case, Invalid, RegisterCases};
use crate::registers::{open_ids, RegisterCall, Registers};
use crate::remote::Remote;

/// A call that two registers answer in different ways.
#[derive(Debug)]
pub struct RegisterDifference {
    call: String,
    expected: raw::RegisterAnswer,
    given: raw::RegisterAnswer,
}

impl fmt::Display for RegisterDifference {
    fn fmt(&self, f: &mut fmt::Formatter) -> fmt::Result {
        writeln!(f, "call: {}", self.call)?;
        writeln!(f, "given: {:?}", self.given)?;
        write!(f, "expected: {:?}", self.expected)
    }
}

#[derive(Clone, Copy, Debug, PartialEq, Eq, PartialOrd, Ord)]
pub enum Outcome {
    Answered(RegisterCall, u32),
    Invalid(RegisterCall, Invalid),
    /// An operation in an accepted buffer.
    Taken(RegisterCall, u32),
    /// A remote frame in an accepted buffer, with data or without.
    Remote(RegisterCall, Remote),
    /// A buffer with a remote frame with data and nothing to enter, and the same
    /// IDs open before and after it.
    UnchangedByRemote {
        full: bool,
    },
    /// A fault in an accepted buffer, and something behind it.
    FaultTaken(RegisterCall, u8),
    EmptyBuffer(RegisterCall),
    /// A refused register that is not 0 past its open IDs.
    RefusedWithRest(u32),
    /// An accepted one, and one that says Bus-Off by a number other than 1.
    AcceptedWithRest,
    AcceptedWideOff,
    BusOffWithOpen,
    Filled,
    /// More frames than there is room for, and Bus-Off in time.
    BusOffMadeRoom,
    /// Bus-Off comes too late, or others come behind it.
    FullDespiteBusOff,
    /// Of an ID that is open.
    BusErrorForAnother,
    /// The first equal ID is not the last equal one.
    RepeatClosed,
    AllClosed,
}

/// A register beside the second one, and the count of what they were seen to do.
pub struct RegisterComparison {
    other: Box<dyn Registers>,
    last: raw::Register,
    rows: Counts<Outcome>,
    calls: u64,
}

impl RegisterComparison {
    pub fn new(other: Box<dyn Registers>) -> RegisterComparison {
        let last = Second.new_register();
        RegisterComparison { other, last, rows: Counts::of(outcomes()), calls: 0 }
    }

    /// Calls that were played and compared.
    pub fn calls(&self) -> u64 {
        self.calls
    }

    /// The outcomes that never came up.
    pub fn missing(&self) -> impl Iterator<Item = String> + '_ {
        self.rows.missing().map(ToString::to_string)
    }

    /// Plays drawn calls until there are so many, or something differs.
    pub fn run(&mut self, seed: u64, calls: u64) -> Result<(), Box<RegisterDifference>> {
        let (expected, given) = (Second.new_register(), self.other.new_register());
        let [expected, given] =
            [expected, given].map(|register| raw::RegisterAnswer { number: 0, register });
        agree(|| "new".to_string(), expected, given)?;
        let mut cases = RegisterCases::new(seed);
        while self.calls < calls {
            let case = cases.case(&self.last);
            self.case(&case)?;
        }
        Ok(())
    }

    fn case(&mut self, case: &Case) -> Result<(), Box<RegisterDifference>> {
        let Case { register, call, buffer, .. } = case;
        self.calls += 1;
        let expected = Second.play(register, *call, buffer);
        let given = self.other.play(register, *call, buffer);
        agree(|| format!("{call:?} {buffer:02X?} with {register:?}"), expected, given)?;
        self.count(case, &expected);
        self.last = expected.register;
        Ok(())
    }

    fn count(&mut self, case: &Case, answer: &raw::RegisterAnswer) {
        let Case { register, call, ref buffer, invalid } = *case;
        self.rows.count(Outcome::Answered(call, answer.number));
        if buffer.is_empty() {
            self.rows.count(Outcome::EmptyBuffer(call));
        }
        if let Some(invalid) = invalid {
            self.rows.count(Outcome::Invalid(call, invalid));
        }
        let Some(open) = open_ids(&register) else { return };
        let rest = register.ids[open.len()..].iter().any(|&id| id != 0);
        if answer.number != 0 {
            if rest {
                self.rows.count(Outcome::RefusedWithRest(answer.number));
            }
            let mut operations = codec::operations(buffer);
            if answer.number == 12 && operations.any(|(op, _)| op == Ok(Operation::BUS_OFF)) {
                self.rows.count(Outcome::FullDespiteBusOff);
            }
            return;
        }
        if rest {
            self.rows.count(Outcome::AcceptedWithRest);
        }
        if register.off > 1 {
            self.rows.count(Outcome::AcceptedWideOff);
        }
        self.count_operations(call, open, buffer);
        let unchanged =
            answer.register.off == register.off && open_ids(&answer.register) == Some(open);
        if call == RegisterCall::Enter && register.off == 0 && unchanged && has_only_remote(buffer)
        {
            let full = open.len() == REGISTER_CAPACITY;
            self.rows.count(Outcome::UnchangedByRemote { full });
        }
        let after = answer.register.count as usize;
        if after == REGISTER_CAPACITY && open.len() < after {
            self.rows.count(Outcome::Filled);
        }
        if call == RegisterCall::Read && after == 0 && !open.is_empty() {
            self.rows.count(Outcome::AllClosed);
        }
    }

    /// What an accepted buffer is made of.
    fn count_operations(&mut self, call: RegisterCall, open: &[u32], buffer: &[u8]) {
        let (mut end, mut frames, mut bus_off) = (0, open.len(), false);
        for (op, bytes) in codec::operations(buffer) {
            end += bytes.len();
            if let Some(remote) = Remote::of(op, bytes) {
                self.rows.count(Outcome::Remote(call, remote));
            }
            let op = match op {
                Ok(op) => op,
                // Behind 1 and 2 there is nothing.
                Err(number) => {
                    if number < 3 || end < buffer.len() {
                        self.rows.count(Outcome::FaultTaken(call, number));
                    }
                    continue;
                }
            };
            self.rows.count(Outcome::Taken(call, op.code()));
            frames += usize::from(op.transmit_id().is_some());
            if call == RegisterCall::Enter && op == Operation::BUS_OFF {
                bus_off = true;
                if !open.is_empty() {
                    self.rows.count(Outcome::BusOffWithOpen);
                }
            }
            if let (RegisterCall::Read, Operation::BusError { id, is_sender: 0, .. }) = (call, op) {
                if open.contains(&id) {
                    self.rows.count(Outcome::BusErrorForAnother);
                }
            }
            if let (RegisterCall::Read, Some(id)) = (call, closed_id(&op)) {
                let is_it = |&other: &u32| other == id;
                if open.iter().position(is_it) != open.iter().rposition(is_it) {
                    self.rows.count(Outcome::RepeatClosed);
                }
            }
        }
        if call == RegisterCall::Enter && bus_off && frames > REGISTER_CAPACITY {
            self.rows.count(Outcome::BusOffMadeRoom);
        }
    }
}

/// Whether a buffer has a remote frame with data, and neither Transmit nor Status.
fn has_only_remote(buffer: &[u8]) -> bool {
    let is_entered =
        |op: Operation| op.transmit_id().is_some() || matches!(op, Operation::Status { .. });
    let is_remote = |(op, bytes)| Remote::of(op, bytes) == Some(Remote::WithData);
    codec::operations(buffer).any(is_remote)
        && !codec::operations(buffer).any(|(op, _)| op.is_ok_and(is_entered))
}

fn agree(
    call: impl FnOnce() -> String,
    expected: raw::RegisterAnswer,
    given: raw::RegisterAnswer,
) -> Result<(), Box<RegisterDifference>> {
    if expected == given {
        Ok(())
    } else {
        Err(Box::new(RegisterDifference { call: call(), expected, given }))
    }
}

/// Every outcome there is.
fn outcomes() -> Vec<Outcome> {
    use Outcome::*;
    use RegisterCall::{Enter, Read};
    let mut all = vec![AcceptedWithRest, AcceptedWideOff, BusOffWithOpen, Filled];
    all.extend([BusOffMadeRoom, FullDespiteBusOff, BusErrorForAnother, RepeatClosed, AllClosed]);
    all.extend([0, 3, 12].map(|number| Answered(Enter, number)));
    all.extend([0, 3, 13].map(|number| Answered(Read, number)));
    all.extend([3, 12, 13].map(RefusedWithRest));
    all.extend([false, true].map(|full| UnchangedByRemote { full }));
    for call in [Enter, Read] {
        all.push(EmptyBuffer(call));
        all.extend(self::Remote::ALL.map(|remote| Remote(call, remote)));
        all.extend(self::Invalid::ALL.map(|invalid| Invalid(call, invalid)));
        all.extend(CODES.map(|code| Taken(call, code)));
        all.extend([1, 2, 3, 4, 5].map(|number| FaultTaken(call, number)));
    }
    all
}

impl fmt::Display for Outcome {
    fn fmt(&self, f: &mut fmt::Formatter) -> fmt::Result {
        match *self {
            Outcome::Answered(call, number) => write!(f, "{call:?} answered with {number}"),
            Outcome::Invalid(call, invalid) => write!(f, "{call:?}, invalid: {invalid:?}"),
            Outcome::Taken(call, code) => {
                write!(f, "{call:?}: {}", codec::name(code).unwrap_or("unknown"))
            }
            Outcome::Remote(call, remote) => write!(f, "{call:?}: {}", remote.name()),
            Outcome::UnchangedByRemote { full } => {
                let full = if full { ", with 345 open" } else { "" };
                write!(f, "Enter: unchanged by a remote frame with data{full}")
            }
            Outcome::FaultTaken(call, number) => write!(f, "{call:?}: fault {number}"),
            other => write!(f, "{other:?}"),
        }
    }
}

impl fmt::Display for RegisterComparison {
    fn fmt(&self, f: &mut fmt::Formatter) -> fmt::Result {
        self.rows.fmt(f)
    }
}
