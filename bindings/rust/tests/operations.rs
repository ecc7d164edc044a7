//! Every kind of operation and every fault, held against bytes written out by hand.

use kettlefrost::{operations, Fault, Faulty, Operation, Refusal, MAX_ID, MAX_STANDARD_ID};

/// Each kind with its bytes, no two fields of one kind alike where they can differ.
fn kinds() -> [(Operation<'static>, Vec<u8>); 13] {
    let can = |ide, rtr, data| Operation::CanTransmit { id: 0x123, ide, rtr, data };
    let fd = |ide, brs, esi| {
        let (id, data) = (0x0708_090A, &[5; 12]);
        Operation::CanFdTransmit { id: if ide { id } else { 10 }, ide, brs, esi, data }
    };
    let xl = Operation::CanXlTransmit {
        id: 0x0102,
        ide: false,
        sec: true,
        sdt: 3,
        vcid: 4,
        af: 0x0506_0708,
        data: &[9, 10],
    };
    let bus_error =
        |is_sender| Operation::BusError { id: 5, error_code: 6, error_flag: 2, is_sender };
    [
        (Operation::FormatError { data: &[1, 2, 3] }, bytes(1, &[3, 0, 1, 2, 3])),
        (can(false, true, &[]), bytes(0x10, &[0x23, 1, 0, 0, 0, 1, 0, 0])),
        (can(true, false, &[7]), bytes(0x10, &[0x23, 1, 0, 0, 1, 0, 1, 0, 7])),
        (fd(true, true, false), with_data(0x11, &[0x0A, 9, 8, 7, 1, 1, 0, 12, 0], &[5; 12])),
        (fd(false, false, true), with_data(0x11, &[10, 0, 0, 0, 0, 0, 1, 12, 0], &[5; 12])),
        (xl, bytes(0x12, &[2, 1, 0, 0, 0, 1, 3, 4, 8, 7, 6, 5, 2, 0, 9, 10])),
        (Operation::Confirm { id: 15 }, bytes(0x20, &[15, 0, 0, 0])),
        (Operation::ArbitrationLost { id: 16 }, bytes(0x30, &[16, 0, 0, 0])),
        (bus_error(true), bytes(0x31, &[5, 0, 0, 0, 6, 2, 1])),
        (bus_error(false), bytes(0x31, &[5, 0, 0, 0, 6, 2, 0])),
        (Operation::Configuration { kind: 2, value: 0x0403_0201 }, bytes(0x40, &[2, 1, 2, 3, 4])),
        (Operation::Status { status: 3 }, bytes(0x41, &[3])),
        (Operation::Wakeup, bytes(0x42, &[])),
    ]
}

/// Code, whole length and fields.
fn bytes(code: u8, fields: &[u8]) -> Vec<u8> {
    [&[code, 0, 0, 0, 8 + fields.len() as u8, 0, 0, 0], fields].concat()
}

fn with_data(code: u8, fields: &[u8], data: &[u8]) -> Vec<u8> {
    bytes(code, &[fields, data].concat())
}

#[test]
fn every_kind_is_written_and_read() {
    for (operation, bytes) in kinds() {
        assert_eq!(operation.encode().as_ref(), Ok(&bytes));
        assert_eq!(operations(&bytes).collect::<Vec<_>>(), [Ok(operation)]);
    }
}

#[test]
fn a_buffer_is_read_in_order_and_to_its_end() {
    let (expected, pieces): (Vec<_>, Vec<_>) = kinds().into_iter().unzip();
    let buffer = pieces.concat();
    let mut reading = operations(&buffer);
    assert!(reading.by_ref().eq(expected.into_iter().map(Ok)));
    assert_eq!(reading.next(), None);
    assert_eq!(operations(&[]).next(), None);
}

#[test]
fn every_fault_takes_up_its_bytes() {
    let wakeup = bytes(0x42, &[]);
    let rest = [&[0x20, 0, 0, 0, 13, 0, 0, 0, 1, 0, 0, 0], &wakeup[..4]].concat();
    let cases = [
        (Fault::TooFewBytes, vec![1; 7]),
        (Fault::LengthOutOfRange, [&wakeup[..4], &[7], &rest].concat()),
        (Fault::UnknownCode, bytes(0x43, &[1])),
        (Fault::LengthNotOfKind, bytes(0x20, &[15, 0, 0])),
        (Fault::RuleBroken, bytes(0x41, &[4])),
    ];
    for (number, (fault, bytes)) in (1..).zip(&cases) {
        let (fault, bytes) = (*fault, &bytes[..]);
        assert_eq!(fault.number(), number);
        assert_eq!(operations(bytes).collect::<Vec<_>>(), [Err(Faulty { fault, bytes })]);
        if number > 2 {
            let longer = [bytes, &wakeup].concat();
            let read: Vec<_> = operations(&longer).collect();
            assert_eq!(read, [Err(Faulty { fault, bytes }), Ok(Operation::Wakeup)]);
        }
    }
}

#[test]
fn a_writing_is_refused_whole() {
    let mut room = [0xEE; 12];
    let confirm = Operation::Confirm { id: 15 };
    assert_eq!(confirm.encode_into(&mut room[..11]), Err(Refusal::BufferTooSmall));
    assert_eq!(Operation::Status { status: 4 }.encode_into(&mut room), Err(Refusal::RuleBroken));
    assert_eq!(room, [0xEE; 12]);
    assert_eq!(confirm.encode_into(&mut room), Ok(12));
}

#[test]
fn data_and_ids_up_to_their_largest_are_written() {
    let data = vec![0; 65_544];
    let encode = |length| Operation::FormatError { data: &data[..length] }.encode();
    assert_eq!(encode(65_535).map(|bytes| bytes.len()), Ok(65_545));
    assert_eq!(encode(65_536), Err(Refusal::RuleBroken));
    // 65,544 is 8 in a field of two bytes.
    let can = Operation::CanTransmit { id: 0, ide: false, rtr: false, data: &data };
    assert_eq!(can.encode(), Err(Refusal::RuleBroken));

    let transmit = |id, ide| Operation::CanTransmit { id, ide, rtr: false, data: &[] }.encode();
    assert!(transmit(MAX_STANDARD_ID, false).is_ok() && transmit(MAX_ID, true).is_ok());
    assert_eq!(transmit(MAX_STANDARD_ID + 1, false), Err(Refusal::RuleBroken));
    assert_eq!(transmit(MAX_ID + 1, true), Err(Refusal::RuleBroken));
}
