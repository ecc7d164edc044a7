//! The calls of the register in the library's form: the register by value, and
//! one record as the answer.

use kettlefrost::raw;

use crate::memory::{Library, Second};
use crate::refusal;
use crate::register::{Register, REGISTER_CAPACITY};

/// A call that takes a buffer to a register.
#[derive(Clone, Copy, Debug, PartialEq, Eq, PartialOrd, Ord)]
pub enum RegisterCall {
    /// Of a buffer that the node submitted.
    Enter,
    /// Of a buffer that the node collected.
    Read,
}

/// A register by value.
pub trait Registers {
    fn new_register(&self) -> raw::Register;
    fn play(
        &self,
        register: &raw::Register,
        call: RegisterCall,
        buffer: &[u8],
    ) -> raw::RegisterAnswer;
}

/// The register of this package.
impl Registers for Second {
    fn new_register(&self) -> raw::Register {
        raw::Register::from(&Register::new())
    }

    fn play(
        &self,
        register: &raw::Register,
        call: RegisterCall,
        buffer: &[u8],
    ) -> raw::RegisterAnswer {
        let step = match call {
            RegisterCall::Enter => Register::enter,
            RegisterCall::Read => Register::read,
        };
        let Some(mut kept) = plain(register) else {
            return refused(refusal::INVALID_REGISTER, register);
        };
        match step(&mut kept, buffer) {
            Ok(()) => raw::RegisterAnswer { number: 0, register: raw::Register::from(&kept) },
            Err(number) => refused(number, register),
        }
    }
}

impl Registers for Library {
    fn new_register(&self) -> raw::Register {
        raw::register_new()
    }

    fn play(
        &self,
        register: &raw::Register,
        call: RegisterCall,
        buffer: &[u8],
    ) -> raw::RegisterAnswer {
        match call {
            RegisterCall::Enter => raw::register_enter(*register, buffer),
            RegisterCall::Read => raw::register_read(*register, buffer),
        }
    }
}

/// The form in which an accepted call hands a register back: 0 past the open
/// IDs.
impl From<&Register> for raw::Register {
    fn from(register: &Register) -> raw::Register {
        let mut ids = [0; REGISTER_CAPACITY];
        ids[..register.open.len()].copy_from_slice(&register.open);
        raw::Register { ids, count: register.open.len() as u32, off: register.bus_off.into() }
    }
}

/// The open IDs; none where the count is above what there is room for.
pub fn open_ids(register: &raw::Register) -> Option<&[u32]> {
    register.ids.get(..register.count as usize)
}

/// The register that a record stands for.
fn plain(register: &raw::Register) -> Option<Register> {
    Some(Register { open: open_ids(register)?.to_vec(), bus_off: register.off != 0 })
}

/// A refusal hands the register back as it was.
fn refused(number: u8, register: &raw::Register) -> raw::RegisterAnswer {
    raw::RegisterAnswer { number: number.into(), register: *register }
}
