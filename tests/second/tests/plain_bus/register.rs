use second::register::{Register, REGISTER_CAPACITY};

use crate::operations::*;

const LARGEST_ID: u32 = 536_870_911;

fn register(open: &[u32]) -> Register {
    Register { open: open.to_vec(), bus_off: false }
}

/// Holds that a call is refused and changes nothing.
fn refused(
    register: &mut Register,
    number: u8,
    call: fn(&mut Register, &[u8]) -> Result<(), u8>,
    buffer: &[u8],
) {
    let before = register.clone();
    assert_eq!(call(register, buffer), Err(number));
    assert_eq!(*register, before);
}

/// A buffer that opens an ID so many times.
fn frames(id: u32, times: usize) -> Vec<u8> {
    can(id).repeat(times)
}

#[test]
fn new_register_is_empty_and_not_bus_off() {
    assert_eq!(Register::new(), register(&[]));
    assert!(Register::new().is_valid());
}

#[test]
fn entering_adds_each_sound_transmit_at_the_end() {
    let mut register = register(&[7]);
    let unsound = can_with(2_048, 0, &[]);
    let sound = [can(9), fd(3, 8), xl(9, 2_048), can(LARGEST_ID)].concat();
    assert_eq!(register.enter(&[&sound[..], &unsound, &wakeup(), &confirm(7)].concat()), Ok(()));
    assert_eq!(register.open, [7, 9, 3, 9, LARGEST_ID]);
}

#[test]
fn remote_frame_with_data_is_not_entered() {
    let buffer = [remote(8, &[]), remote(9, &[1]), remote(9, &[1; 8])].concat();
    let mut register = register(&[7]);
    assert_eq!(register.enter(&buffer), Ok(()));
    assert_eq!(register, self::register(&[7, 8]));
    let mut full = self::register(&[1; REGISTER_CAPACITY]);
    assert_eq!(full.enter(&remote(9, &[1])), Ok(()));
    assert_eq!(full, self::register(&[1; REGISTER_CAPACITY]));
    refused(&mut full, 12, Register::enter, &remote(9, &[]));
}

#[test]
fn entering_knows_no_limit_of_length_and_none_of_pending_frames() {
    let mut register = Register::new();
    let long = [frames(1, 5), format_error(&[0; 60_000]), can(2)].concat();
    assert_eq!(register.enter(&long), Ok(()));
    assert_eq!(register.open, [1, 1, 1, 1, 1, 2]);
}

#[test]
fn status_bus_off_empties_the_list_and_another_status_ends_it() {
    let mut register = register(&[1]);
    assert_eq!(register.enter(&[can(2), bus_off(), can(3)].concat()), Ok(()));
    assert_eq!(register, Register { open: vec![], bus_off: true });
    assert_eq!(register.enter(&[can(4), status(2), can(5)].concat()), Ok(()));
    assert_eq!(register, self::register(&[5]));
}

#[test]
fn unsound_status_counts_for_nothing() {
    let mut register = register(&[1]);
    assert_eq!(register.enter(&[status(0), status(4)].concat()), Ok(()));
    let mut long = bus_off();
    long[4] = 10;
    assert_eq!(register.enter(&[long, vec![0]].concat()), Ok(()));
    assert_eq!(register, self::register(&[1]));
}

#[test]
fn reading_takes_out_the_first_equal_id() {
    let mut register = register(&[5, 6, 5, 7, 5]);
    assert_eq!(register.read(&[lost(5), confirm(7)].concat()), Ok(()));
    assert_eq!(register.open, [6, 5, 5]);
    assert_eq!(register.read(&bus_error(5, 1, 1)), Ok(()));
    assert_eq!(register.open, [6, 5]);
}

#[test]
fn bus_error_for_another_sender_closes_nothing() {
    let mut register = register(&[5]);
    assert_eq!(register.read(&bus_error(5, 1, 0)), Ok(()));
    assert_eq!(register.read(&bus_error(6, 2, 0)), Ok(()));
    assert_eq!(register.open, [5]);
}

#[test]
fn status_and_transmit_in_a_collected_buffer_change_nothing() {
    let mut register = register(&[5]);
    let others = [bus_off(), can(5), wakeup(), discarding(), format_error(&confirm(5)), fault(9)];
    assert_eq!(register.read(&others.concat()), Ok(()));
    assert_eq!(register, self::register(&[5]));
}

#[test]
fn closing_with_no_such_id_open_differs() {
    let mut register = register(&[5, 6]);
    for closing in [confirm(7), lost(7), bus_error(7, 2, 1)] {
        refused(&mut register, 13, Register::read, &[confirm(5), closing].concat());
    }
    refused(&mut register, 13, Register::read, &[confirm(5), confirm(5)].concat());
}

#[test]
fn closing_read_while_bus_off_differs() {
    let mut register = Register { open: vec![], bus_off: true };
    assert_eq!(register.read(&[can(1), wakeup()].concat()), Ok(()));
    refused(&mut register, 13, Register::read, &confirm(1));
}

#[test]
fn the_346th_id_is_full() {
    let mut register = Register::new();
    assert_eq!(register.enter(&frames(1, REGISTER_CAPACITY)), Ok(()));
    assert!(register.is_valid());
    refused(&mut register, 12, Register::enter, &can(1));
    refused(&mut Register::new(), 12, Register::enter, &frames(1, 346));
}

#[test]
fn full_goes_step_by_step() {
    let mut register = register(&[1; REGISTER_CAPACITY]);
    refused(&mut register, 12, Register::enter, &[can(2), bus_off()].concat());
    assert_eq!(register.enter(&[bus_off(), can(2), active(), can(3)].concat()), Ok(()));
    assert_eq!(register, self::register(&[3]));
}

#[test]
fn validity_bounds_length_and_ids_and_asks_for_none_when_bus_off() {
    let long = register(&[0; 346]);
    let above = register(&[1, LARGEST_ID + 1]);
    let off = Register { open: vec![1], bus_off: true };
    for mut invalid in [long, above, off] {
        assert!(!invalid.is_valid());
        for call in [Register::enter, Register::read] {
            refused(&mut invalid, 3, call, &[]);
            refused(&mut invalid, 3, call, &bus_off());
            refused(&mut invalid, 3, call, &[can(2), confirm(9)].concat());
        }
    }
    assert!(register(&[LARGEST_ID; 345]).is_valid());
    assert!(Register { open: vec![], bus_off: true }.is_valid());
}
