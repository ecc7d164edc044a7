//! Misuses of a side, to see that an access beside what is lent is noticed.

use std::slice;

use kettlefrost::raw;

use crate::apart::Apart;
use crate::block::Placement;
use crate::lent::State;
use crate::memory::{Call, Calls, Lent, LentCalls, Memory, Sizes};

/// What a side is told of in place of what it is lent.
pub type Misuse = fn(Lent) -> Lent;

/// The misuses by name.
pub const MISUSES: [(&str, Misuse); 4] = [
    ("read-past", read_past),
    ("read-before", read_before),
    ("write-past", write_past),
    ("write-const", write_const),
];

// Unsound, each of them: that is what they are for.

fn read_past(lent: Lent) -> Lent {
    let (start, length) = (lent.submitted.as_ptr(), lent.submitted.len());
    Lent { submitted: unsafe { slice::from_raw_parts(start, length + 1) }, ..lent }
}

fn read_before(lent: Lent) -> Lent {
    let (start, length) = (lent.submitted.as_ptr().wrapping_sub(1), lent.submitted.len());
    Lent { submitted: unsafe { slice::from_raw_parts(start, length) }, ..lent }
}

fn write_past(lent: Lent) -> Lent {
    let (start, length) = (lent.room.as_mut_ptr(), lent.room.len());
    Lent { room: unsafe { slice::from_raw_parts_mut(start, length + 1) }, ..lent }
}

/// The room to collect to is the payload, which a collect does not write.
fn write_const(lent: Lent) -> Lent {
    let (start, length) = (lent.payload.as_mut_ptr(), lent.payload.len());
    Lent { room: unsafe { slice::from_raw_parts_mut(start, length) }, ..lent }
}

/// A side that is told of other memory than it is lent.
struct Misled<S> {
    side: S,
    misuse: Misuse,
}

impl<S: LentCalls> LentCalls for Misled<S> {
    fn answer(&self, state: State, lent: Lent, call: &Call) -> raw::Answer {
        self.side.answer(state, (self.misuse)(lent), call)
    }
}

/// Submits 8 bytes that are answered with 18, and collects these to one byte
/// too few: the side that believes what it is told goes beside its memory in
/// one of the two calls.
pub fn play<S: LentCalls>(side: S, misuse: Misuse, placement: Placement) {
    let apart = Apart { side: Misled { side, misuse }, placement };
    let submit = Call::Submit { node: 0, buffer: vec![0xFF; 8] };
    let mut memory = Memory::new();
    for call in [Call::Start { count: 2 }, submit, Call::Collect { node: 0, room: 17 }] {
        memory.state = apart.play(&mut memory, Sizes::RIGHT, &call).state;
    }
}
