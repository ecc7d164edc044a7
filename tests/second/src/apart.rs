//! A side to which each part of what is lent comes in a block of its own.

use kettlefrost::raw;

use crate::block::{Access, Block, Placement};
use crate::comparison::Codec;
use crate::lent::State;
use crate::memory::{Call, Lent, LentCalls};
use crate::registers::{RegisterCall, Registers};

use Access::{ReadOnly, ReadWrite};

pub struct Apart<S> {
    pub side: S,
    pub placement: Placement,
}

impl<S> Apart<S> {
    fn block<T: Copy>(&self, values: &[T], access: Access) -> Block<T> {
        Block::of(values, self.placement, access)
    }
}

/// What a call may write of slots, and of payload and queues.
fn access(call: &Call) -> (Access, Access) {
    match call {
        Call::Start { .. } => (ReadWrite, ReadOnly),
        Call::Submit { .. } | Call::Round { .. } => (ReadWrite, ReadWrite),
        Call::Collect { .. } => (ReadOnly, ReadOnly),
    }
}

impl<S: LentCalls> LentCalls for Apart<S> {
    fn answer(&self, state: State, lent: Lent, call: &Call) -> raw::Answer {
        let (of_slots, of_bytes) = access(call);
        let mut slots = self.block(lent.slots, of_slots);
        let mut payload = self.block(lent.payload, of_bytes);
        let mut queues = self.block(lent.queues, of_bytes);
        let mut room = self.block(lent.room, ReadWrite);
        let apart = Lent {
            slots: &mut slots,
            payload: &mut payload,
            queues: &mut queues,
            submitted: &self.block(lent.submitted, ReadOnly),
            room: &mut room,
        };
        let answer = self.side.answer(state, apart, call);
        lent.slots.copy_from_slice(&slots);
        lent.payload.copy_from_slice(&payload);
        lent.queues.copy_from_slice(&queues);
        lent.room.copy_from_slice(&room);
        answer
    }
}

impl<S: Registers> Registers for Apart<S> {
    fn new_register(&self) -> raw::Register {
        self.side.new_register()
    }

    fn play(
        &self,
        register: &raw::Register,
        call: RegisterCall,
        buffer: &[u8],
    ) -> raw::RegisterAnswer {
        self.side.play(register, call, &self.block(buffer, ReadOnly))
    }
}

impl<S: Codec> Codec for Apart<S> {
    fn read(&self, buf: &[u8], at: usize) -> raw::Reading {
        self.side.read(&self.block(buf, ReadOnly), at)
    }

    fn data(&self, buf: &[u8], op: &raw::Operation, next: usize) -> raw::Part {
        self.side.data(&self.block(buf, ReadOnly), op, next)
    }

    fn write(&self, op: &raw::Operation, data: &[u8], buf: &mut [u8]) -> raw::Written {
        let mut block = self.block(buf, ReadWrite);
        let written = self.side.write(op, &self.block(data, ReadOnly), &mut block);
        buf.copy_from_slice(&block);
        written
    }
}
