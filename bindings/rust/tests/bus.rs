//! What the bus and the register answer, every refusal among it, and that the sizes that
//! the crate names are those of the library.

use kettlefrost::values::{BIT_ERROR, BUS_OFF, PRIMARY_ERROR_FLAG, SECONDARY_ERROR_FLAG};
use kettlefrost::{
    operations, raw, Bus, Injection, Operation, Refusal, Register, Round, MAX_NODES, MAX_OPEN,
    MAX_ROUND, MAX_SUBMIT, MIN_NODES, PAYLOAD_BYTES, QUEUE_BYTES, QUEUE_CAPACITY, SLOTS,
    SLOTS_PER_NODE,
};

fn frame(id: u32) -> Vec<u8> {
    Operation::CanTransmit { id, ide: false, rtr: false, data: &[] }.encode().unwrap()
}

fn status(status: u8) -> Vec<u8> {
    Operation::Status { status }.encode().unwrap()
}

#[test]
fn refusals_have_their_numbers() {
    let numbers = Refusal::ALL.map(Refusal::number);
    assert!(numbers.into_iter().eq(1..=13));
    assert_eq!(Refusal::check(0), Ok(()));
    assert!(Refusal::ALL.iter().all(|&refusal| Refusal::check(refusal.number()) == Err(refusal)));
}

#[test]
fn a_start_asks_for_the_node_count() {
    for count in MIN_NODES..=MAX_NODES {
        assert_eq!(Bus::start(count).unwrap().state().count, count);
    }
    for count in [0, MIN_NODES - 1, MAX_NODES + 1, u32::MAX] {
        assert_eq!(Bus::start(count).unwrap_err(), Refusal::BadNodeCount);
    }
}

#[test]
fn lent_memory_has_its_sizes() {
    let start = |[slots, payload, queues]: [usize; 3]| {
        let mut slots = vec![raw::Slot::default(); slots];
        raw::start(&mut slots, &vec![0; payload], &vec![0; queues], 2).number
    };
    let sizes = [SLOTS, PAYLOAD_BYTES, QUEUE_BYTES];
    assert_eq!(start(sizes), 0);
    for part in 0..sizes.len() {
        for off in [1, usize::MAX] {
            let mut wrong = sizes;
            wrong[part] = wrong[part].wrapping_add(off);
            assert_eq!(Refusal::check(start(wrong)), Err(Refusal::WrongMemory));
        }
    }
}

#[test]
fn only_attached_nodes_submit_and_collect() {
    let mut bus = Bus::start(3).unwrap();
    for node in [3, 8, u32::MAX] {
        assert_eq!(bus.submit(node, &[]), Err(Refusal::NotAttached));
        assert_eq!(bus.collect(node), Err(Refusal::NotAttached));
    }
}

#[test]
fn a_refused_submit_changes_nothing() {
    let mut bus = Bus::start(2).unwrap();
    bus.submit(1, &frame(7)).unwrap();
    let before = *bus.state();
    assert_eq!(bus.submit(0, &[0; MAX_SUBMIT + 1]), Err(Refusal::BufferTooLong));
    assert_eq!(bus.submit(0, &frame(1).repeat(SLOTS_PER_NODE + 1)), Err(Refusal::FourPending));
    assert_eq!(bus.submit(0, &[0; MAX_SUBMIT]), Ok(()));
    assert_eq!(usize::from(bus.state().nodes[0].fill), QUEUE_CAPACITY);
    assert_eq!(bus.submit(0, &[0]), Err(Refusal::QueueFull));
    assert_eq!(bus.round(None), Err(Refusal::QueueFull));
    bus.collect(0).unwrap();
    assert_eq!(*bus.state(), before);
}

#[test]
fn a_collect_asks_for_room() {
    let mut bus = Bus::start(2).unwrap();
    bus.submit(0, &[1, 2, 3]).unwrap();
    let mut room = [0xEE; 14];
    assert_eq!(bus.collect_into(0, &mut room[..12]), Err(Refusal::BufferTooSmall));
    assert_eq!(bus.collect_into(0, &mut room), Ok(13));
    assert_eq!(room, [1, 0, 0, 0, 13, 0, 0, 0, 3, 0, 1, 2, 3, 0xEE]);
    assert_eq!(bus.collect(0), Ok(vec![]));
}

#[test]
fn an_injected_error_is_reported_to_all() {
    let mut bus = Bus::start(3).unwrap();
    bus.submit(1, &frame(7)).unwrap();
    let code = BIT_ERROR.into();
    for injection in [Injection { code: 257, detector: 2 }, Injection { code, detector: 3 }] {
        assert_eq!(bus.round(Some(injection)), Err(Refusal::BadInjection));
    }
    let round = bus.round(Some(Injection { code, detector: 2 }));
    assert_eq!(round, Ok(Round::Carried { sender: 1, id: 7, errored: true, age: 0 }));
    for (node, error_flag) in
        (0..).zip([SECONDARY_ERROR_FLAG, SECONDARY_ERROR_FLAG, PRIMARY_ERROR_FLAG])
    {
        let (error_code, is_sender) = (BIT_ERROR, node == 1);
        let expected = Operation::BusError { id: 7, error_code, error_flag, is_sender };
        let collected = bus.collect(node).unwrap();
        assert_eq!(operations(&collected).collect::<Vec<_>>(), [Ok(expected)]);
    }
}

#[test]
fn the_round_number_has_an_end() {
    let (mut slots, mut payload) = (vec![raw::Slot::default(); SLOTS], vec![0; PAYLOAD_BYTES]);
    let mut queues = vec![0; QUEUE_BYTES];
    let mut state = raw::start(&mut slots, &payload, &queues, 2).state;
    state.round = MAX_ROUND;
    state = raw::submit(state, &mut slots, &mut payload, &mut queues, 0, &frame(1)).state;
    let answer = raw::round(state, &mut slots, &mut payload, &mut queues, None);
    let number = Refusal::RoundsUsedUp.number();
    assert_eq!(answer, raw::Answer { number, state, ..raw::Answer::default() });
    state.count = 9;
    let answer = raw::round(state, &mut slots, &mut payload, &mut queues, None);
    assert_eq!(Refusal::check(answer.number), Err(Refusal::Invalid));
}

#[test]
fn a_register_holds_345_frames() {
    let mut register = Register::new();
    let submitted: Vec<u8> = (0..MAX_OPEN as u32).flat_map(frame).collect();
    register.enter(&submitted).unwrap();
    assert!(register.open().iter().copied().eq(0..MAX_OPEN as u32));
    let before = register.clone();
    assert_eq!(register.enter(&frame(1)), Err(Refusal::RegisterFull));
    let confirm = Operation::Confirm { id: MAX_OPEN as u32 }.encode().unwrap();
    assert_eq!(register.read(&confirm), Err(Refusal::RegisterDiffers));
    assert_eq!(register, before);
}

#[test]
fn bus_off_closes_all_frames() {
    let mut register = Register::default();
    register.enter(&frame(1)).unwrap();
    assert!(!register.is_bus_off());
    register.enter(&status(BUS_OFF)).unwrap();
    assert!(register.is_bus_off() && register.open().is_empty());
    register.enter(&status(1)).unwrap();
    assert_eq!(register, Register::new());
}
