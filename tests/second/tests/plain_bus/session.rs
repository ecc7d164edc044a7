use second::bus::{Injection, Round};
use second::codec::BUFFER_AND_RETRANSMIT;
use second::session::{Answer, Breach, Call, Done, Session};

use crate::operations::*;

fn start(nodes: usize) -> Session {
    Session::start(nodes).expect("2 to 8 nodes")
}

/// Plays a call on which demand 3 has to hold.
fn play(session: &mut Session, call: Call) -> Answer {
    session.play(&call).expect("demand 3 holds")
}

fn submit(session: &mut Session, node: usize, buffer: Vec<u8>) -> Answer {
    play(session, Call::Submit { node, buffer })
}

fn round(session: &mut Session, injection: Option<Injection>) -> Answer {
    play(session, Call::Round { injection })
}

fn collect(session: &mut Session, node: usize) -> Vec<u8> {
    match play(session, Call::Collect { node, room: 4_096 }) {
        Ok(Done::Collected(bytes)) => bytes,
        answer => panic!("{answer:?}"),
    }
}

fn inject(detector: usize) -> Option<Injection> {
    Some(Injection { error_code: 1, detector })
}

fn delivered(sender: usize, id: u32, age: u32) -> Answer {
    Ok(Done::Round(Round::Carried { sender, id, errored: false, age }))
}

fn open(session: &Session, node: usize) -> &[u32] {
    &session.registers[node].open
}

/// The bytes that are printed in hexadecimal, two digits a byte.
fn bytes(text: &str) -> Vec<u8> {
    let byte = |digits| u8::from_str_radix(digits, 16).expect("two digits");
    text.split_whitespace().map(byte).collect()
}

const W1_PRINTED: &str = "10 00 00 00 12 00 00 00 0F 00 00 00 00 00 02 00 AA BB ";
const W2_PRINTED: &str = "20 00 00 00 0C 00 00 00 0F 00 00 00 ";
const W3_PRINTED: &str = "30 00 00 00 0C 00 00 00 10 00 00 00 ";
const CONFIRM_16: &str = "20 00 00 00 0C 00 00 00 10 00 00 00 ";
const FRAME_16: &str = "10 00 00 00 10 00 00 00 10 00 00 00 00 00 00 00 ";

/// Node 0 submits W1, node 1 ID 16 without data; then one round.
fn w1_against_16(behaviour: u32) -> Session {
    let mut session = start(3);
    assert_eq!(submit(&mut session, 0, bytes(W1_PRINTED)), Ok(Done::Submitted));
    let configuration = configuration(4, behaviour);
    assert_eq!(submit(&mut session, 1, configuration), Ok(Done::Submitted));
    assert_eq!(submit(&mut session, 1, bytes(FRAME_16)), Ok(Done::Submitted));
    assert_eq!(round(&mut session, None), delivered(0, 15, 0));
    session
}

/// Collects every queue, and holds that they are as printed and that no frame
/// is open any more.
fn collect_printed(session: &mut Session, printed: &[&[&str]]) {
    for (node, pieces) in printed.iter().enumerate() {
        assert_eq!(collect(session, node), bytes(&pieces.concat()));
        assert_eq!(open(session, node), []);
    }
}

#[test]
fn w5_discarding() {
    let mut session = w1_against_16(2);
    assert!(session.bus.nodes.iter().all(|node| node.pending.is_empty()));
    let queues = [&[W2_PRINTED][..], &[W1_PRINTED, W3_PRINTED], &[W1_PRINTED]];
    collect_printed(&mut session, &queues);
}

#[test]
fn w6_buffering() {
    let mut session = w1_against_16(BUFFER_AND_RETRANSMIT);
    assert_eq!(session.bus.nodes[1].queue, bytes(W1_PRINTED));
    assert_eq!(round(&mut session, None), delivered(1, 16, 1));
    let queues = [[W2_PRINTED, FRAME_16], [W1_PRINTED, CONFIRM_16], [W1_PRINTED, FRAME_16]];
    collect_printed(&mut session, &queues.each_ref().map(|pieces| &pieces[..]));
}

#[test]
fn w7_five_transmits() {
    let mut session = start(2);
    let five = bytes(&W1_PRINTED.repeat(5));
    assert_eq!(submit(&mut session, 0, five), Err(8));
    assert_eq!(session.bus, start(2).bus);
    assert_eq!(open(&session, 0), []);
}

#[test]
fn error_of_another_sender_with_the_same_id_leaves_the_frame_open() {
    let mut session = start(3);
    for node in 0..2 {
        assert!(submit(&mut session, node, can(7)).is_ok());
    }
    assert!(round(&mut session, inject(1)).is_ok());
    assert_eq!(collect(&mut session, 1), bus_error(7, 1, 0));
    assert_eq!(open(&session, 1), [7]);
    assert_eq!(collect(&mut session, 0), bus_error(7, 2, 1));
    assert_eq!(open(&session, 0), []);
}

#[test]
fn discarded_frame_is_not_delivered_after_its_newer_one() {
    let mut session = start(2);
    assert!(submit(&mut session, 1, [discarding(), can_with(9, 0, &[1])].concat()).is_ok());
    assert!(submit(&mut session, 0, can(1)).is_ok());
    assert_eq!(round(&mut session, None), delivered(0, 1, 0));
    assert!(submit(&mut session, 1, can_with(9, 0, &[2])).is_ok());
    assert_eq!(round(&mut session, None), delivered(1, 9, 0));
    assert_eq!(round(&mut session, None), Ok(Done::Round(Round::Idle)));
    assert_eq!(collect(&mut session, 0), [confirm(1), can_with(9, 0, &[2])].concat());
}

#[test]
fn bus_off_in_mid_buffer_leaves_only_what_follows_open() {
    let mut session = start(2);
    assert!(submit(&mut session, 0, [can(1), can(2)].concat()).is_ok());
    assert!(round(&mut session, None).is_ok());
    let buffer = [can(3), bus_off(), can(4), active(), can(5)].concat();
    assert!(submit(&mut session, 0, buffer).is_ok());
    assert_eq!(collect(&mut session, 0), []);
    assert_eq!(open(&session, 0), [5]);
}

#[test]
fn forged_closings_close_nothing() {
    let mut session = start(2);
    let forged = [can(1), confirm(1), lost(1), bus_error(1, 1, 1)].concat();
    assert!(submit(&mut session, 0, forged).is_ok());
    assert_eq!(collect(&mut session, 0).len(), 22 + 22 + 25);
    assert_eq!(open(&session, 0), [1]);
}

#[test]
fn remote_frame_with_data_is_answered_and_not_open() {
    for status in [active(), bus_off()] {
        let mut session = start(2);
        assert!(submit(&mut session, 0, [status, remote(1, &[1, 2])].concat()).is_ok());
        assert_eq!(open(&session, 0), []);
        assert_eq!(collect(&mut session, 0), format_error(&remote(1, &[1, 2])));
        assert_eq!(round(&mut session, None), Ok(Done::Round(Round::Idle)));
    }
}

#[test]
fn refused_submit_is_not_entered() {
    let mut session = start(2);
    assert!(submit(&mut session, 1, fault(4_086)).is_ok());
    assert_eq!(submit(&mut session, 0, [can(1), wakeup()].concat()), Err(9));
    assert_eq!(open(&session, 0), []);
}

/// 341 Confirms of twelve bytes wait in one queue, and four frames are pending.
#[test]
fn register_can_hold_345_and_is_never_full() {
    let mut session = start(2);
    for _ in 0..341 {
        assert!(submit(&mut session, 0, can(1)).is_ok());
        assert!(round(&mut session, None).is_ok());
        collect(&mut session, 1);
    }
    assert!(submit(&mut session, 0, can(1).repeat(4)).is_ok());
    assert_eq!(open(&session, 0), [1; 345]);
    assert_eq!(submit(&mut session, 0, can(1)), Err(8));
    assert_eq!(round(&mut session, None), Err(9));
    assert_eq!(collect(&mut session, 0), confirm(1).repeat(341));
    assert_eq!(open(&session, 0), [1; 4]);
}

#[test]
fn planted_differences_are_reported() {
    let breach = |plant: fn(&mut Session), call: Call| {
        let mut session = start(2);
        assert!(submit(&mut session, 0, can(7)).is_ok());
        plant(&mut session);
        session.play(&call)
    };
    let idle = Call::Collect { node: 1, room: 0 };
    let count = |open, due| Err(Breach::Count { node: 0, id: 7, open, due });
    assert_eq!(breach(|session| session.registers[0].open.clear(), idle.clone()), count(0, 1));
    assert_eq!(breach(|session| session.bus.nodes[0].pending.clear(), idle.clone()), count(1, 0));
    assert_eq!(breach(|session| session.bus.nodes[0].queue = confirm(7), idle), count(1, 2));
    let collect = Call::Collect { node: 0, room: 12 };
    let differs = Err(Breach::Register { node: 0, refusal: 13 });
    assert_eq!(breach(|session| session.bus.nodes[0].queue = confirm(8), collect), differs);
}
