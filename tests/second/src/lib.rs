//! An independent second program of the simulated CAN bus: its own codec, plain
//! bus, bus over lent memory and register, and the means to compare codec, bus
//! and register with the proved library, call by call.
//!
//! The two meet in the crate `kettlefrost`, which links the library: what is compared
//! and measured is what a user of Rust calls.
//!
//! Each comparison first has to find the wrong programs that are planted for it: one
//! or more for each rule of 01 and of 02's Wish 7, and those that 01 names (`plants`,
//! `bus_plants`, `register_plants`, `wrong_content`). It says after how many calls it
//! does.
//!
//! - `cargo test` holds codec, buses and register against W1 to W10 and the easy
//!   errors, and demand 3 against random sessions,
//! - `cargo run --release --bin compare` compares the two codecs on generated cases,
//! - `cargo run --release --bin registers` compares the two registers on drawn calls,
//! - `cargo run --release --bin sessions` compares the buses on random sessions, and
//!   holds demand 3 with the registers of their nodes,
//! - `cargo run --release --bin memory` runs the three comparisons with what is lent
//!   to the library in blocks of its own (`tests/memory.sh`),
//! - `cargo run --release --bin bench` measures both sides against each other, and
//!   against C without a check.

pub mod apart;
pub mod block;
pub mod bus;
pub mod bus_cases;
pub mod bus_comparison;
pub mod bus_plants;
pub mod bus_tally;
pub mod by_value;
pub mod calls;
pub mod codec;
pub mod comparison;
pub mod counts;
pub mod generate;
pub mod invalid;
pub mod lent;
pub mod memory;
pub mod misuse;
pub mod node_registers;
pub mod plants;
pub mod random;
pub mod records;
pub mod refusal;
pub mod register;
pub mod register_cases;
pub mod register_comparison;
pub mod register_plants;
pub mod registers;
pub mod remote;
pub mod session;
pub mod session_tally;
pub mod tally;
pub mod wrong_content;
