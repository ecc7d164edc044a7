//! The register by value: what its calls hand back, and drawn calls.

use kettlefrost::raw;

use second::codec::Operation;
use second::memory::Second;
use second::register_comparison::RegisterComparison;
use second::register_plants::plants;
use second::registers::RegisterCall::{Enter, Read};
use second::registers::Registers;

const LARGEST_ID: u32 = 536_870_911;

/// A register with these IDs open, and `rest` in every place past them.
fn register(open: &[u32], rest: u32, off: u32) -> raw::Register {
    let mut ids = [rest; 345];
    ids[..open.len()].copy_from_slice(open);
    raw::Register { ids, count: open.len() as u32, off }
}

fn can(id: u32) -> Vec<u8> {
    Operation::CanTransmit { id, ide: 1, rtr: 0, length: 0 }.encode(&[])
}

fn confirm(id: u32) -> Vec<u8> {
    Operation::Confirm { id }.encode(&[])
}

fn status(status: u8) -> Vec<u8> {
    Operation::Status { status }.encode(&[])
}

fn done(open: &[u32], off: u32) -> raw::RegisterAnswer {
    raw::RegisterAnswer { number: 0, register: register(open, 0, off) }
}

fn refused(number: u32, register: raw::Register) -> raw::RegisterAnswer {
    raw::RegisterAnswer { number, register }
}

#[test]
fn a_new_register_is_0_throughout() {
    assert_eq!(Second.new_register(), register(&[], 0, 0));
}

#[test]
fn an_accepted_call_clears_what_is_past_the_open_ids() {
    let full_of_old = register(&[5, 6, 5], u32::MAX, 0);
    assert_eq!(Second.play(&full_of_old, Enter, &[]), done(&[5, 6, 5], 0));
    assert_eq!(Second.play(&full_of_old, Enter, &can(LARGEST_ID)), done(&[5, 6, 5, LARGEST_ID], 0));
    assert_eq!(Second.play(&full_of_old, Read, &confirm(5)), done(&[6, 5], 0));
    assert_eq!(Second.play(&full_of_old, Enter, &status(3)), done(&[], 1));
}

#[test]
fn bus_off_is_any_number_but_0_and_handed_back_as_1() {
    for off in [1, 2, 256, 1 << 31] {
        let bus_off = register(&[], 7, off);
        assert_eq!(Second.play(&bus_off, Enter, &can(1)), done(&[], 1));
        assert_eq!(Second.play(&bus_off, Read, &[]), done(&[], 1));
        assert_eq!(Second.play(&bus_off, Enter, &[status(2), can(1)].concat()), done(&[1], 0));
        assert_eq!(Second.play(&bus_off, Read, &confirm(7)), refused(13, bus_off));
    }
}

#[test]
fn a_refused_call_hands_back_every_byte() {
    let full = register(&[9; 345], 0, 0);
    assert_eq!(Second.play(&full, Enter, &[can(1), status(3)].concat()), refused(12, full));
    let nearly = register(&[9; 344], u32::MAX, 0);
    assert_eq!(Second.play(&nearly, Enter, &can(1).repeat(2)), refused(12, nearly));
    let some = register(&[1, 2], u32::MAX, 0);
    assert_eq!(Second.play(&some, Read, &[confirm(1), confirm(3)].concat()), refused(13, some));
}

#[test]
fn validity_asks_the_count_the_open_ids_and_none_where_bus_off() {
    let valid = register(&[1, LARGEST_ID], LARGEST_ID + 1, 0);
    let mut invalid = vec![register(&[1, LARGEST_ID + 1], 0, 0), register(&[1], 0, 256)];
    for count in [346, 65_536, u32::MAX] {
        invalid.push(raw::Register { count, ..valid });
    }
    for invalid in invalid {
        for call in [Enter, Read] {
            assert_eq!(Second.play(&invalid, call, &[]), refused(3, invalid));
            assert_eq!(Second.play(&invalid, call, &status(3)), refused(3, invalid));
        }
    }
    assert_eq!(Second.play(&valid, Enter, &[]), done(&[1, LARGEST_ID], 0));
}

#[test]
fn drawn_calls_come_to_every_outcome() {
    let mut comparison = RegisterComparison::new(Box::new(Second));
    comparison.run(2_003, 40_000).unwrap_or_else(|difference| panic!("{difference}"));
    let missing: Vec<String> = comparison.missing().collect();
    assert!(missing.is_empty(), "never came up: {}", missing.join("; "));
}

#[test]
fn wrong_registers_are_found() {
    for (name, plant) in plants() {
        let mut comparison = RegisterComparison::new(Box::new(plant));
        assert!(comparison.run(2_003, 100_000).is_err(), "not found: {name}");
    }
}
