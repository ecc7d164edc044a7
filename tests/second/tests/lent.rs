//! The bus over state and lent memory: W5 to W7, what is left in bytes that
//! hold nothing, and random sessions beside the plain bus.

use second::bus_cases::Cases;
use second::bus_comparison::Comparison;
use second::codec::{self, Operation};
use second::lent::{self, Injection, Round, Slot, State};
use second::lent::{PAYLOAD_BYTES, QUEUE_BYTES, SLOTS, SLOT_BYTES};
use second::memory::{Calls, Second};

const W1: &str = "10 00 00 00 12 00 00 00 0F 00 00 00 00 00 02 00 AA BB ";
const W2: &str = "20 00 00 00 0C 00 00 00 0F 00 00 00 ";
const W3: &str = "30 00 00 00 0C 00 00 00 10 00 00 00 ";
const CONFIRM_16: &str = "20 00 00 00 0C 00 00 00 10 00 00 00 ";
const FRAME_16: &str = "10 00 00 00 10 00 00 00 10 00 00 00 00 00 00 00 ";

/// The byte that the lent memory is full of before a start.
const OLD: u8 = 0xA5;

struct Lent {
    state: State,
    slots: Vec<Slot>,
    payload: Vec<u8>,
    queues: Vec<u8>,
}

impl Lent {
    fn start(count: u32) -> Lent {
        let mut slots = vec![Slot { kind: 0x12, length: 9, ..Slot::default() }; SLOTS];
        let (payload, queues) = (vec![OLD; PAYLOAD_BYTES], vec![OLD; QUEUE_BYTES]);
        let state = lent::start(&mut slots, &payload, &queues, count).expect("2 to 8 nodes");
        Lent { state, slots, payload, queues }
    }

    fn submit(&mut self, node: u32, buffer: &[u8]) -> Result<(), u8> {
        let Lent { state, slots, payload, queues } = self;
        lent::submit(state, slots, payload, queues, node, buffer)
    }

    fn round(&mut self, injection: Option<Injection>) -> Result<Round, u8> {
        let Lent { state, slots, payload, queues } = self;
        lent::round(state, slots, payload, queues, injection)
    }

    fn collect(&mut self, node: u32) -> Vec<u8> {
        let Lent { state, slots, payload, queues } = self;
        let mut buffer = vec![OLD; 4_100];
        let length = lent::collect(state, slots, payload, queues, node, &mut buffer)
            .expect("there is room for a full queue");
        assert!(buffer[length..].iter().all(|&byte| byte == OLD));
        buffer.truncate(length);
        buffer
    }

    fn pending(&self) -> u8 {
        self.state.nodes.iter().map(|node| node.pending).sum()
    }

    fn data(&self, place: usize) -> &[u8] {
        &self.payload[place * SLOT_BYTES..][..SLOT_BYTES]
    }
}

/// The bytes that are printed in hexadecimal, two digits a byte.
fn bytes(text: &str) -> Vec<u8> {
    let byte = |digits| u8::from_str_radix(digits, 16).expect("two digits");
    text.split_whitespace().map(byte).collect()
}

fn can(id: u32, data: &[u8]) -> Vec<u8> {
    Operation::CanTransmit { id, ide: 0, rtr: 0, length: data.len() as u16 }.encode(data)
}

fn status(status: u8) -> Vec<u8> {
    Operation::Status { status }.encode(&[])
}

fn delivered(sender: u8, id: u32, age: u32) -> Result<Round, u8> {
    Ok(Round::Carried { sender, id, errored: false, age })
}

/// Node 0 submits W1, node 1 ID 16 without data; then one round.
fn w1_against_16(behaviour: u32) -> Lent {
    let mut bus = Lent::start(3);
    assert_eq!(bus.submit(0, &bytes(W1)), Ok(()));
    let configuration = Operation::Configuration { kind: 4, value: behaviour }.encode(&[]);
    assert_eq!(bus.submit(1, &[configuration, bytes(FRAME_16)].concat()), Ok(()));
    assert_eq!(bus.round(None), delivered(0, 15, 0));
    bus
}

#[test]
fn w5_discarding() {
    let mut bus = w1_against_16(codec::DISCARD_AND_NOTIFY);
    assert_eq!(bus.pending(), 0);
    for (node, printed) in [W2, &[W1, W3].concat(), W1].into_iter().enumerate() {
        assert_eq!(bus.collect(node as u32), bytes(printed));
    }
}

#[test]
fn w6_buffering() {
    let mut bus = w1_against_16(codec::BUFFER_AND_RETRANSMIT);
    assert_eq!(bus.state.nodes[1].fill, 18);
    assert_eq!(bus.round(None), delivered(1, 16, 1));
    let queues = [[W2, FRAME_16], [W1, CONFIRM_16], [W1, FRAME_16]];
    for (node, printed) in queues.into_iter().enumerate() {
        assert_eq!(bus.collect(node as u32), bytes(&printed.concat()));
    }
    assert_eq!(bus.round(None), Ok(Round::Idle));
}

#[test]
fn w7_five_transmits() {
    let mut bus = Lent::start(2);
    assert_eq!(bus.submit(0, &bytes(&W1.repeat(5))), Err(8));
    assert_eq!(bus.pending(), 0);
    assert!(bus.slots.iter().all(|slot| *slot == Slot::default()));
    assert!(bus.payload.iter().all(|&byte| byte == OLD));
}

#[test]
fn a_start_frees_the_slots_and_leaves_the_rest() {
    let bus = Lent::start(8);
    assert!(bus.slots.iter().all(|slot| *slot == Slot::default()));
    assert!(bus.payload.iter().chain(&bus.queues).all(|&byte| byte == OLD));
    assert_eq!(bus.state, lent::new_state(8));
}

#[test]
fn a_removed_frame_leaves_its_last_slot_and_what_its_data_did_not_cover() {
    let mut bus = Lent::start(2);
    let frames = [can(1, &[1; 8]), can(2, &[2; 3]), can(3, &[3; 5])].concat();
    assert_eq!(bus.submit(1, &frames), Ok(()));
    let before = bus.slots.clone();
    assert_eq!(bus.round(None), delivered(1, 1, 0));
    assert_eq!(bus.slots[4..6], before[5..7]);
    assert_eq!(bus.slots[6], before[6]);
    assert_eq!(bus.data(4)[..9], [2, 2, 2, 1, 1, 1, 1, 1, OLD]);
    assert_eq!(bus.data(5)[..6], [3, 3, 3, 3, 3, OLD]);
    assert_eq!(bus.data(6)[..6], [3, 3, 3, 3, 3, OLD]);
}

#[test]
fn bus_off_in_mid_buffer_leaves_the_bytes_of_the_steps_before() {
    let mut bus = Lent::start(2);
    let buffer = [can(1, &[1; 4]), can(2, &[2; 4]), status(3), status(1)].concat();
    assert_eq!(bus.submit(0, &[buffer, can(3, &[3; 2]), vec![7; 3]].concat()), Ok(()));
    assert_eq!((bus.state.nodes[0].pending, bus.state.nodes[0].fill), (1, 13));
    assert_eq!(bus.data(0)[..5], [3, 3, 1, 1, OLD]);
    assert_eq!(bus.data(1)[..5], [2, 2, 2, 2, OLD]);
    assert_eq!((bus.slots[0].id, bus.slots[1].id), (3, 2));
    assert_eq!(bus.queues[..14], bytes("01 00 00 00 0D 00 00 00 03 00 07 07 07 A5"));
}

#[test]
fn a_collected_queue_leaves_its_bytes() {
    let mut bus = w1_against_16(codec::DISCARD_AND_NOTIFY);
    let before = bus.queues.clone();
    assert_eq!(bus.collect(0), bytes(W2));
    assert_eq!(bus.state.nodes[0].fill, 0);
    assert_eq!(bus.queues, before);
    assert_eq!(bus.collect(0), []);
}

#[test]
fn refusals_come_by_number() {
    let mut bus = Lent::start(2);
    let wide = Some(Injection { code: 257, detector: 0 });
    assert_eq!(bus.round(wide), Err(6));
    assert_eq!(bus.submit(256, &[0; 5_000]), Err(4));
    assert_eq!(bus.submit(1, &[0; 4_087]), Err(5));
    bus.state.nodes[1].rates[2] = 0;
    assert_eq!(bus.round(wide), Err(3));
    bus.payload.pop();
    assert_eq!(bus.submit(256, &[]), Err(1));
    assert_eq!(lent::start(&mut bus.slots, &bus.payload, &bus.queues, 9), Err(1));
}

/// The slots are asked in another way than operations are.
#[test]
fn a_pending_frame_is_valid_exactly_if_its_operation_is_sound() {
    let mut bus = Lent::start(2);
    bus.state.nodes[1].pending = 1;
    for flags in 0..27 {
        let [ide, second, third] = [flags % 3, flags / 3 % 3, flags / 9];
        for length in (0..70).chain([2_048, 2_049]) {
            for id in [0, 2_047, 2_048, 536_870_911, 536_870_912] {
                let (brs, esi, sec, sdt) = (second, third, second, third);
                let frames = [
                    Operation::CanTransmit { id, ide, rtr: second, length },
                    Operation::FdTransmit { id, ide, brs, esi, length },
                    Operation::XlTransmit { id, ide, sec, sdt, vcid: 9, af: 9, length },
                ];
                for op in frames {
                    bus.slots[4] = lent::slot_of(&op, 1, 0);
                    let number = if op.is_sound() { 4 } else { 3 };
                    assert_eq!(bus.submit(2, &[]), Err(number), "{op:?}");
                }
            }
        }
    }
}

#[test]
fn a_state_that_holds_a_remote_frame_with_data_is_not_valid() {
    let remote = |length| Operation::CanTransmit { id: 1, ide: 0, rtr: 1, length };
    let mut bus = Lent::start(2);
    assert_eq!(bus.submit(1, &remote(0).encode(&[])), Ok(()));
    for length in 1..=8 {
        bus.slots[4] = lent::slot_of(&remote(length), 1, 0);
        assert_eq!(bus.submit(0, &[]), Err(3));
        assert_eq!(bus.round(None), Err(3));
        let Lent { state, slots, payload, queues } = &mut bus;
        assert_eq!(lent::collect(state, slots, payload, queues, 0, &mut []), Err(3));
    }
    bus.slots[4] = lent::slot_of(&remote(0), 1, 0);
    assert_eq!(bus.round(None), delivered(1, 1, 0));
}

#[test]
fn random_sessions_beside_the_plain_bus() {
    let sides: Vec<(_, Box<dyn Calls>)> = vec![("second bus", Box::new(Second))];
    let mut comparison = Comparison::new(sides, Box::new(Second));
    let mut cases = Cases::new(2_003);
    while comparison.tally.calls() < 200_000 {
        let played = comparison.session(&mut cases, 1_000);
        played.unwrap_or_else(|difference| panic!("{difference}"));
    }
    let unheld = comparison.registers.counts.missing().map(ToString::to_string);
    let missing: Vec<String> = comparison.tally.missing().chain(unheld).collect();
    assert!(missing.is_empty(), "never came up: {}", missing.join("; "));
}
