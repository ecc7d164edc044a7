//! The count of what sessions on lent memory came to: what they came to on the
//! plain bus, and what only state and lent memory can bring.

use std::fmt;

use crate::bus::Bus;
use crate::codec::{self, Operation};
use crate::counts::Counts;
use crate::invalid::Invalid;
use crate::lent::Injection;
use crate::memory::{Call, Sizes};
use crate::remote::Remote;
use crate::session;
use crate::session_tally::{while_bus_off, CallKind, SessionTally};

/// A part of the lent memory.
#[derive(Clone, Copy, Debug, PartialEq, Eq, PartialOrd, Ord)]
pub enum Part {
    Slots,
    Payload,
    Queues,
}

#[derive(Clone, Copy, Debug, PartialEq, Eq, PartialOrd, Ord)]
pub enum Size {
    OneShort,
    OneLong,
    Empty,
}

/// Why an injection is refused.
#[derive(Clone, Copy, Debug, PartialEq, Eq, PartialOrd, Ord)]
pub enum BadInjection {
    Code,
    /// Of the table in its low byte.
    WideCode,
    NotAttached,
    BusOff,
}

/// The step of a buffer by which it is refused.
#[derive(Clone, Copy, Debug, PartialEq, Eq, PartialOrd, Ord)]
pub enum FailingStep {
    First,
    Later,
    /// A later one, and the buffer has a Bus-Off in front of it.
    BehindBusOff,
}

/// How large the caller's buffer is, of a queue that holds something.
#[derive(Clone, Copy, Debug, PartialEq, Eq, PartialOrd, Ord)]
pub enum Room {
    Exact,
    OneShort,
    Longer,
}

#[derive(Clone, Copy, Debug, PartialEq, Eq, PartialOrd, Ord)]
pub enum Outcome {
    WrongMemory(CallKind, Part, Size),
    /// Refusal 1 where 2 or 3 applies too.
    WrongMemoryFirst(u8),
    Invalid(Invalid),
    InvalidIn(CallKind),
    /// A node number that is attached in its low byte.
    WideNode(CallKind),
    Failed {
        number: u8,
        step: FailingStep,
    },
    /// Refusal 9 by the queue of another node.
    WakeupFailed,
    /// Refusal 9 by the Format Error for a remote frame with data.
    RemoteFailed {
        bus_off: bool,
    },
    BadInjection(BadInjection),
    CollectedTo(Room),
    /// The sender discards, and had later frames than the one that won.
    DiscardedBehindWinner,
    /// A frame moved down, with data.
    MovedDown,
}

pub struct BusTally {
    plain: SessionTally,
    rows: Counts<Outcome>,
    calls: u64,
}

impl Default for BusTally {
    fn default() -> BusTally {
        BusTally::new()
    }
}

impl BusTally {
    pub fn new() -> BusTally {
        BusTally { plain: SessionTally::new(), rows: Counts::of(outcomes()), calls: 0 }
    }

    /// Calls that were played and compared.
    pub fn calls(&self) -> u64 {
        self.calls
    }

    /// The outcomes that never came up.
    pub fn missing(&self) -> impl Iterator<Item = String> + '_ {
        let plain = self.plain.missing().map(ToString::to_string);
        plain.chain(self.rows.missing().map(ToString::to_string))
    }

    pub fn start(&mut self, nodes: u32, refusal: Option<u8>) {
        self.calls += 1;
        self.plain.start(nodes as usize, refusal);
    }

    pub fn wrong_memory(&mut self, call: &Call, part: Part, size: Size, also: Option<u8>) {
        self.calls += 1;
        self.rows.count(Outcome::WrongMemory(kind(call), part, size));
        if let Some(number) = also {
            self.rows.count(Outcome::WrongMemoryFirst(number));
        }
    }

    pub fn invalid(&mut self, call: &Call, invalid: Invalid) {
        self.calls += 1;
        self.rows.count(Outcome::Invalid(invalid));
        self.rows.count(Outcome::InvalidIn(kind(call)));
    }

    /// A call that shows that a state is valid.
    pub fn probe(&mut self) {
        self.calls += 1;
    }

    /// A call that took the plain bus from `before` to `after`.
    pub fn call(
        &mut self,
        before: &Bus,
        call: &Call,
        played: &session::Call,
        answer: &session::Answer,
        after: &Bus,
    ) {
        self.calls += 1;
        self.plain.call(before, played, answer, after);
        match *call {
            Call::Submit { node, .. } | Call::Collect { node, .. }
                if answer == &Err(4) && node % 256 < before.nodes.len() as u32 =>
            {
                self.rows.count(Outcome::WideNode(kind(call)));
            }
            Call::Submit { node, ref buffer } => {
                if let &Err(number @ (8 | 9)) = answer {
                    self.failed(before, node as usize, buffer, number);
                }
            }
            Call::Round { injection: Some(injection) } if answer == &Err(6) => {
                self.rows.count(Outcome::BadInjection(bad_injection(before, injection)));
            }
            Call::Round { .. } => self.round(before, answer),
            Call::Collect { node, room } if answer != &Err(4) => {
                self.collected(before.nodes[node as usize].queue.len(), room);
            }
            _ => {}
        }
    }

    /// A submit that is refused by one of its steps: the first prefix of the
    /// buffer that is refused ends with it.
    fn failed(&mut self, before: &Bus, node: usize, buffer: &[u8], number: u8) {
        let (mut end, mut step) = (0, FailingStep::First);
        let mut bus_off = before.nodes[node].is_bus_off();
        for (op, bytes) in codec::operations(buffer) {
            end += bytes.len();
            if before.clone().submit(node, &buffer[..end]).is_err() {
                self.rows.count(Outcome::Failed { number, step });
                if op == Ok(Operation::Wakeup) {
                    self.rows.count(Outcome::WakeupFailed);
                }
                if Remote::of(op, bytes) == Some(Remote::WithData) {
                    self.rows.count(Outcome::RemoteFailed { bus_off });
                }
                return;
            }
            if let Ok(Operation::Status { status }) = op {
                bus_off = status == codec::BUS_OFF;
            }
            step = match step {
                _ if op == Ok(Operation::BUS_OFF) => FailingStep::BehindBusOff,
                FailingStep::First => FailingStep::Later,
                passed => passed,
            };
        }
    }

    fn round(&mut self, before: &Bus, answer: &session::Answer) {
        let &Ok(session::Done::Round(crate::bus::Round::Carried { sender, id, .. })) = answer
        else {
            return;
        };
        let node = &before.nodes[sender];
        let behind = node.pending.iter().skip_while(|frame| frame.id != id).skip(1);
        if behind.map(|frame| frame.op.data_length()).sum::<usize>() > 0 {
            self.rows.count(if node.behaviour == codec::DISCARD_AND_NOTIFY {
                Outcome::DiscardedBehindWinner
            } else {
                Outcome::MovedDown
            });
        }
    }

    fn collected(&mut self, waiting: usize, room: usize) {
        if waiting == 0 {
            return;
        }
        if room == waiting {
            self.rows.count(Outcome::CollectedTo(Room::Exact));
        } else if room + 1 == waiting {
            self.rows.count(Outcome::CollectedTo(Room::OneShort));
        } else if room > waiting {
            self.rows.count(Outcome::CollectedTo(Room::Longer));
        }
    }
}

impl Part {
    pub const ALL: [Part; 3] = [Part::Slots, Part::Payload, Part::Queues];
}

impl Size {
    pub const ALL: [Size; 3] = [Size::OneShort, Size::OneLong, Size::Empty];

    /// The sizes with this part wrong.
    pub fn of(self, part: Part) -> Sizes {
        let mut sizes = Sizes::RIGHT;
        let wrong = match part {
            Part::Slots => &mut sizes.slots,
            Part::Payload => &mut sizes.payload,
            Part::Queues => &mut sizes.queues,
        };
        *wrong = match self {
            Size::OneShort => *wrong - 1,
            Size::OneLong => *wrong + 1,
            Size::Empty => 0,
        };
        sizes
    }
}

fn kind(call: &Call) -> CallKind {
    match call {
        Call::Start { .. } => CallKind::Start,
        Call::Submit { .. } => CallKind::Submit,
        Call::Round { .. } => CallKind::Round,
        Call::Collect { .. } => CallKind::Collect,
    }
}

fn bad_injection(bus: &Bus, injection: Injection) -> BadInjection {
    let Injection { code, detector } = injection;
    if code > 255 && codec::is_error_code(code as u8) {
        BadInjection::WideCode
    } else if code > 255 || !codec::is_error_code(code as u8) {
        BadInjection::Code
    } else if detector as usize >= bus.nodes.len() {
        BadInjection::NotAttached
    } else {
        BadInjection::BusOff
    }
}

/// Every outcome there is.
fn outcomes() -> Vec<Outcome> {
    use CallKind::{Collect, Round, Start, Submit};
    let mut all = vec![Outcome::WakeupFailed, Outcome::DiscardedBehindWinner, Outcome::MovedDown];
    for call in [Start, Submit, Round, Collect] {
        for part in Part::ALL {
            all.extend(Size::ALL.map(|size| Outcome::WrongMemory(call, part, size)));
        }
    }
    all.extend([false, true].map(|bus_off| Outcome::RemoteFailed { bus_off }));
    all.extend([2, 3].map(Outcome::WrongMemoryFirst));
    all.extend(Invalid::all().into_iter().map(Outcome::Invalid));
    all.extend([Submit, Round, Collect].map(Outcome::InvalidIn));
    all.extend([Submit, Collect].map(Outcome::WideNode));
    for number in [8, 9] {
        let steps = [FailingStep::First, FailingStep::Later, FailingStep::BehindBusOff];
        all.extend(steps.map(|step| Outcome::Failed { number, step }));
    }
    use BadInjection::{BusOff, Code, NotAttached, WideCode};
    all.extend([Code, WideCode, NotAttached, BusOff].map(Outcome::BadInjection));
    all.extend(
        [self::Room::Exact, self::Room::OneShort, self::Room::Longer].map(Outcome::CollectedTo),
    );
    all
}

impl fmt::Display for Outcome {
    fn fmt(&self, f: &mut fmt::Formatter) -> fmt::Result {
        match *self {
            Outcome::WrongMemory(call, part, size) => {
                write!(f, "{call:?} refused with 1, {part:?} {size:?}")
            }
            Outcome::WrongMemoryFirst(number) => {
                write!(f, "refused with 1 where {number} applies too")
            }
            Outcome::Invalid(invalid) => write!(f, "invalid, {invalid}"),
            Outcome::InvalidIn(call) => write!(f, "{call:?} refused with 3"),
            Outcome::WideNode(call) => write!(f, "{call:?}, node number attached in its low byte"),
            Outcome::Failed { number, step } => {
                let step = match step {
                    FailingStep::First => "its first step",
                    FailingStep::Later => "a later step",
                    FailingStep::BehindBusOff => "a step behind its Bus-Off",
                };
                write!(f, "Submit refused with {number} by {step}")
            }
            Outcome::RemoteFailed { bus_off } => {
                let bus_off = while_bus_off(bus_off);
                write!(f, "Submit refused with 9 by a remote frame with data{bus_off}")
            }
            other => write!(f, "{other:?}"),
        }
    }
}

impl fmt::Display for BusTally {
    fn fmt(&self, f: &mut fmt::Formatter) -> fmt::Result {
        write!(f, "{}{}", self.plain, self.rows)
    }
}
