//! The plain bus, the register and sessions on both.

mod bus;
mod operations;
mod random;
mod register;
mod session;
