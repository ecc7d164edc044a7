//! The comparison of buses over state and lent memory: after each call answer,
//! state and every lent byte, the plain bus's answer and view besides, and what
//! the registers of the nodes have open.

use std::fmt;

use kettlefrost::raw;

use crate::bus::{Bus, Round};
use crate::bus_cases::{Case, Cases, Course};
use crate::bus_tally::{BusTally, Part, Size};
use crate::by_value;
use crate::invalid::{Breaker, Invalid};
use crate::lent::{self, Slot, State};
use crate::memory::{Call, Calls, Memory, Sizes};
use crate::node_registers::NodeRegisters;
use crate::registers::Registers;
use crate::session::{self, Done};

/// Calls in a session, unless there are enough before.
const SESSION_CALLS: usize = 400;

/// A call on which two sides, or a side and the plain bus, differ.
#[derive(Debug)]
pub struct Difference {
    what: String,
    side: &'static str,
    call: String,
}

impl fmt::Display for Difference {
    fn fmt(&self, f: &mut fmt::Formatter) -> fmt::Result {
        writeln!(f, "difference of the {}: {}", self.side, self.what)?;
        write!(f, "call: {}", self.call)
    }
}

type Compared = Result<(), Box<Difference>>;

struct Side {
    name: &'static str,
    calls: Box<dyn Calls>,
    memory: Memory,
}

impl Side {
    fn play(&mut self, sizes: Sizes, call: &Call) -> raw::Answer {
        self.calls.play(&mut self.memory, sizes, call)
    }

    /// Says that something differs here, unless nothing does.
    fn agrees(&self, call: &Call, difference: Option<String>) -> Compared {
        match difference {
            None => Ok(()),
            Some(what) => {
                let call = format!("{call:02X?}");
                Err(Box::new(Difference { what, side: self.name, call }))
            }
        }
    }

    /// Holds an answer against the one expected, its state included.
    fn answers(&self, call: &Call, expected: &raw::Answer, given: &raw::Answer) -> Compared {
        let differ = given != expected;
        self.agrees(call, differ.then(|| format!("answer {given:?}, not {expected:?}")))
    }
}

/// Buses over lent memory, the plain bus, and the count of what they were seen
/// to do.
pub struct Comparison {
    sides: Vec<Side>,
    plain: Bus,
    /// The memory before a call that has to leave it alone.
    kept: Memory,
    pub registers: NodeRegisters,
    pub tally: BusTally,
}

impl Comparison {
    /// The registers go by the last side.
    pub fn new(
        sides: Vec<(&'static str, Box<dyn Calls>)>,
        registers: Box<dyn Registers>,
    ) -> Comparison {
        let side = |(name, calls)| Side { name, calls, memory: Memory::new() };
        Comparison {
            sides: sides.into_iter().map(side).collect(),
            plain: Bus::start(2).expect("2 nodes"),
            kept: Memory::new(),
            registers: NodeRegisters::new(registers),
            tally: BusTally::new(),
        }
    }

    /// Plays sessions until there are enough calls, or something differs.
    pub fn run(&mut self, seed: u64, calls: u64) -> Compared {
        let mut cases = Cases::new(seed);
        while self.tally.calls() < calls {
            self.session(&mut cases, calls - self.tally.calls())?;
        }
        Ok(())
    }

    /// Plays a session of at most `calls` calls.
    pub fn session(&mut self, cases: &mut Cases, calls: u64) -> Compared {
        self.change(|memory, _| cases.scramble(memory));
        let count = cases.count();
        if !self.start(count)? {
            return Ok(());
        }
        let course = cases.course(&self.plain);
        if course == Course::Crafted {
            let round = cases.round_number();
            self.change(|memory, plain| {
                cases.change_unasked(memory);
                (memory.state.round, plain.round_number) = (round, round);
            });
        } else {
            self.start_registers(count)?;
        }
        let end = self.tally.calls() + calls;
        for _ in 0..SESSION_CALLS {
            if self.tally.calls() >= end {
                break;
            }
            match course {
                Course::Crafted => self.case(cases)?,
                Course::Listed => self.listed(&cases.call(&self.plain))?,
                Course::Hoarding => self.listed(&cases.hoarding_call(&self.plain))?,
            }
        }
        Ok(())
    }

    fn start_registers(&mut self, count: u32) -> Compared {
        let side = self.sides.last().expect("there is a side");
        side.agrees(&Call::Start { count }, self.registers.start(&side.memory))
    }

    /// A call of a session with registers.
    fn listed(&mut self, call: &Call) -> Compared {
        let answer = self.call(call)?;
        let side = self.sides.last().expect("there is a side");
        side.agrees(call, self.registers.after(&side.memory, call, &answer))
    }

    fn case(&mut self, cases: &mut Cases) -> Compared {
        match cases.case() {
            Case::Call => {
                let call = cases.call(&self.plain);
                self.call(&call).map(drop)
            }
            Case::RefusedStart { count } => self.start(count).map(drop),
            Case::WrongSize { part, size, unstarted } => {
                let call = cases.any_call(&self.plain);
                self.wrong_size(&call, part, size, unstarted)
            }
            Case::Invalid(invalid) => self.invalid(cases, invalid),
            Case::Change => {
                self.change(|memory, plain| {
                    cases.change_unasked(memory);
                    memory.state.round = cases.later(memory.state.round);
                    plain.round_number = memory.state.round;
                });
                Ok(())
            }
        }
    }

    /// Changes the memory of all sides in the same way.
    fn change(&mut self, change: impl FnOnce(&mut Memory, &mut Bus)) {
        let (first, rest) = self.sides.split_first_mut().expect("there is a side");
        change(&mut first.memory, &mut self.plain);
        for side in rest {
            side.memory.copy_from(&first.memory);
        }
    }

    /// Starts anew; says whether it was done.
    fn start(&mut self, count: u32) -> Result<bool, Box<Difference>> {
        let call = Call::Start { count };
        match Bus::start(count as usize) {
            Err(number) => {
                self.tally.start(count, Some(number));
                self.refused(&call, Sizes::RIGHT, number, lent::new_state(0))?;
                return Ok(false);
            }
            Ok(bus) => {
                self.tally.start(count, None);
                self.plain = bus;
            }
        }
        let expected = by_value::answer(0, lent::new_state(count));
        for side in &mut self.sides {
            let answer = side.play(Sizes::RIGHT, &call);
            side.answers(&call, &expected, &answer)?;
            side.memory.state = answer.state;
        }
        self.agree(&call)?;
        Ok(true)
    }

    /// A call that every side has to refuse with `number`, handing back
    /// `state`.
    fn refused(&mut self, call: &Call, sizes: Sizes, number: u8, state: State) -> Compared {
        self.unchanged(call, sizes, &by_value::answer(number, state))
    }

    /// A call that changes nothing.
    fn unchanged(&mut self, call: &Call, sizes: Sizes, expected: &raw::Answer) -> Compared {
        self.kept.copy_from(&self.sides[0].memory);
        for side in &mut self.sides {
            let answer = side.play(sizes, call);
            side.answers(call, expected, &answer)?;
            side.agrees(call, side.memory.difference(&self.kept))?;
        }
        Ok(())
    }

    /// A call with a part of the memory not of its size. A bad node count, and
    /// a state that is not valid, come second.
    fn wrong_size(&mut self, call: &Call, part: Part, size: Size, unstarted: bool) -> Compared {
        let held = self.sides[0].memory.state;
        let lent = if unstarted { lent::new_state(0) } else { held };
        let (state, also) = match *call {
            Call::Start { count } => (lent::new_state(0), (!(2..=8).contains(&count)).then_some(2)),
            _ => (lent, unstarted.then_some(3)),
        };
        self.tally.wrong_memory(call, part, size, also);
        self.set_state(lent);
        self.refused(call, size.of(part), 1, state)?;
        self.set_state(held);
        Ok(())
    }

    /// A call on a state that breaks one rule. Before it is broken, the state
    /// is shown to be valid: the next refusal is given.
    fn invalid(&mut self, cases: &mut Cases, invalid: Invalid) -> Compared {
        let held = self.sides[0].memory.state;
        if !Breaker::applies(invalid, held.round) {
            return Ok(());
        }
        let held_slots = self.sides[0].memory.slots.clone();
        let (mut state, mut slots) = (held, held_slots.clone());
        let target = cases.breaker.prepare(invalid, &mut state, &mut slots);
        self.set(state, &slots);
        self.tally.probe();
        let probe = Call::Collect { node: state.count, room: 0 };
        self.refused(&probe, Sizes::RIGHT, 4, state)?;

        cases.breaker.spoil(invalid, &target, &mut state, &mut slots);
        self.set(state, &slots);
        let call = cases.call(&self.plain);
        self.tally.invalid(&call, invalid);
        self.refused(&call, Sizes::RIGHT, 3, state)?;
        self.set(held, &held_slots);
        Ok(())
    }

    fn set_state(&mut self, state: State) {
        for side in &mut self.sides {
            side.memory.state = state;
        }
    }

    fn set(&mut self, state: State, slots: &[Slot]) {
        for side in &mut self.sides {
            side.memory.state = state;
            side.memory.slots.copy_from_slice(slots);
        }
    }

    /// A call with everything as it should be; gives the last side's answer.
    fn call(&mut self, call: &Call) -> Result<raw::Answer, Box<Difference>> {
        let played = call.plain().expect("starts are played elsewhere");
        let before = self.plain.clone();
        let answer = session::answer(&mut self.plain, &played);
        self.tally.call(&before, call, &played, &answer, &self.plain);
        let first = &self.sides[0].memory;
        if matches!(answer, Err(_) | Ok(Done::Round(Round::Idle))) {
            let expected = expected(&answer, first.state);
            self.unchanged(call, Sizes::RIGHT, &expected)?;
            return Ok(expected);
        }
        self.kept.buffer.copy_from_slice(&first.buffer);
        if let Ok(Done::Collected(bytes)) = &answer {
            self.kept.buffer[..bytes.len()].copy_from_slice(bytes);
        }
        let mut last = None;
        for side in &mut self.sides {
            let given = side.play(Sizes::RIGHT, call);
            side.answers(call, &expected(&answer, given.state), &given)?;
            side.agrees(call, side.memory.buffer_difference(&self.kept))?;
            side.memory.state = given.state;
            last = Some(given);
        }
        self.agree(call)?;
        Ok(last.expect("there is a side"))
    }

    /// Holds that all sides have the same state and the same bytes, and the
    /// view that the plain bus has.
    fn agree(&self, call: &Call) -> Compared {
        let (first, rest) = self.sides.split_first().expect("there is a side");
        for side in rest {
            side.agrees(call, side.memory.difference(&first.memory))?;
        }
        first.agrees(call, first.memory.difference_from_plain(&self.plain))
    }
}

/// The plain bus's answer in the library's terms.
fn expected(answer: &session::Answer, state: State) -> raw::Answer {
    let done = by_value::answer(0, state);
    match *answer {
        Ok(Done::Submitted) => done,
        Ok(Done::Round(Round::Idle)) => raw::Answer { idle: 1, ..done },
        Ok(Done::Round(Round::Carried { sender, id, errored, age })) => {
            raw::Answer { sender: sender as u8, id, errored: errored.into(), age, ..done }
        }
        Ok(Done::Collected(ref bytes)) => raw::Answer { length: bytes.len() as u16, ..done },
        Err(number) => by_value::answer(number, state),
    }
}
