use second::bus::{Bus, Contender, Injection, Round, LONGEST_BUFFER, QUEUE_CAPACITY};
use second::codec;

use crate::operations::*;

fn start(nodes: usize) -> Bus {
    Bus::start(nodes).expect("2 to 8 nodes")
}

/// A bus of as many nodes as there are buffers, each submitted by its node.
fn bus_with(buffers: &[Vec<u8>]) -> Bus {
    let mut bus = start(buffers.len());
    for (node, buffer) in buffers.iter().enumerate() {
        submit(&mut bus, node, buffer);
    }
    bus
}

fn submit(bus: &mut Bus, node: usize, buffer: &[u8]) {
    assert_eq!(bus.submit(node, buffer), Ok(()));
}

fn queue(bus: &Bus, node: usize) -> &[u8] {
    &bus.nodes[node].queue
}

fn pending(bus: &Bus, node: usize) -> Vec<u32> {
    bus.nodes[node].pending.iter().map(|frame| frame.id).collect()
}

fn delivered(sender: usize, id: u32, age: u32) -> Result<Round, u8> {
    Ok(Round::Carried { sender, id, errored: false, age })
}

fn inject(detector: usize) -> Option<Injection> {
    Some(Injection { error_code: 1, detector })
}

/// Holds that a call is refused and changes nothing.
fn refused<T: std::fmt::Debug + PartialEq>(
    bus: &mut Bus,
    number: u8,
    call: impl FnOnce(&mut Bus) -> Result<T, u8>,
) {
    let before = bus.clone();
    assert_eq!(call(bus), Err(number));
    assert_eq!(*bus, before);
}

fn refused_submit(bus: &mut Bus, number: u8, node: usize, buffer: &[u8]) {
    refused(bus, number, |bus| bus.submit(node, buffer));
}

fn refused_round(bus: &mut Bus, number: u8, injection: Option<Injection>) {
    refused(bus, number, |bus| bus.round(injection));
}

// Sessions of 01.

#[test]
fn w1_is_pending_as_it_was_submitted() {
    let bus = bus_with(&[W1.to_vec(), vec![]]);
    let [frame] = &bus.nodes[0].pending[..] else { panic!("one frame") };
    assert_eq!((frame.id, frame.accepted, &frame.bytes[..]), (15, 0, &W1[..]));
    assert_eq!(frame.bytes, can_with(15, 0, &[0xAA, 0xBB]));
}

#[test]
fn w2_confirm_and_w3_arbitration_lost() {
    assert_eq!(confirm(15), W2);
    assert_eq!(lost(16), W3);
}

#[test]
fn w4_format_error_for_three_bytes() {
    let bus = bus_with(&[vec![1, 2, 3], vec![]]);
    assert_eq!(queue(&bus, 0), [1, 0, 0, 0, 0x0D, 0, 0, 0, 3, 0, 1, 2, 3]);
    assert_eq!(queue(&bus, 1), []);
}

#[test]
fn w8_identifiers_pass_or_are_answered() {
    for (ide, largest) in [(0, 2_047), (1, 536_870_911)] {
        let bus = bus_with(&[can_with(largest, ide, &[]), vec![]]);
        assert_eq!((pending(&bus, 0), queue(&bus, 0)), (vec![largest], &[][..]));
        let above = can_with(largest + 1, ide, &[]);
        let bus = bus_with(&[above.clone(), vec![]]);
        assert_eq!((pending(&bus, 0), queue(&bus, 0)), (vec![], &format_error(&above)[..]));
    }
}

/// W9 means Rtr 0 (02, Wish 7).
#[test]
fn w9_data_lengths_pass_or_are_answered() {
    let can = |length| can_with(1, 0, &vec![0; length]);
    for sound in [can(8), fd(1, 12), fd(1, 64), xl(1, 2_048)] {
        let bus = bus_with(&[sound, vec![]]);
        assert_eq!((pending(&bus, 0), queue(&bus, 0)), (vec![1], &[][..]));
    }
    for broken in [can(9), fd(1, 9), xl(1, 0), xl(1, 2_049)] {
        let bus = bus_with(&[broken.clone(), vec![]]);
        assert_eq!((pending(&bus, 0), queue(&bus, 0)), (vec![], &format_error(&broken)[..]));
    }
}

#[test]
fn w10_length_fields_7_and_13_of_12_bytes_are_answered() {
    for length in [7, 13] {
        let mut bytes = W2;
        bytes[4] = length;
        let bus = bus_with(&[bytes.to_vec(), vec![]]);
        assert_eq!(queue(&bus, 0), format_error(&bytes));
    }
}

// Start and collect.

#[test]
fn start_takes_2_to_8_nodes() {
    for nodes in [0, 1, 9, usize::MAX] {
        assert_eq!(Bus::start(nodes), Err(2));
    }
    for nodes in 2..=8 {
        let bus = start(nodes);
        assert_eq!((bus.nodes.len(), bus.round_number), (nodes, 0));
        for node in bus.nodes {
            assert_eq!((node.status, node.behaviour), (1, 1));
            assert_eq!(node.baud_rates, [500_000, 2_000_000, 10_000_000]);
            assert!(node.pending.is_empty() && node.queue.is_empty());
        }
    }
}

#[test]
fn collect_needs_room_for_the_whole_queue() {
    let mut bus = bus_with(&[vec![1, 2, 3], vec![]]);
    refused(&mut bus, 11, |bus| bus.collect(0, 12));
    assert_eq!(bus.collect(0, 13), Ok(format_error(&[1, 2, 3])));
    assert_eq!(bus.collect(0, 0), Ok(vec![]));
    refused(&mut bus, 4, |bus| bus.collect(2, 0));
    refused(&mut bus, 4, |bus| bus.collect(usize::MAX, 4_096));
}

// Submit.

#[test]
fn submit_decides_4_before_5_and_5_before_the_steps() {
    let mut bus = start(2);
    let long = [vec![can(1); 5].concat(), fault(LONGEST_BUFFER)].concat();
    refused_submit(&mut bus, 4, 2, &long);
    refused_submit(&mut bus, 5, 0, &long);
    refused_submit(&mut bus, 5, 0, &fault(LONGEST_BUFFER + 1));
    submit(&mut bus, 0, &[]);
    assert_eq!(bus, start(2));
}

#[test]
fn first_failing_step_gives_8_or_9() {
    let mut bus = start(2);
    fill(&mut bus, 0, 10);
    let five = vec![can(1); 5].concat();
    let answered = fault(1);
    refused_submit(&mut bus, 8, 0, &[&five[..], &answered].concat());
    refused_submit(&mut bus, 9, 0, &[&confirm(1)[..], &five].concat());
}

#[test]
fn step_that_does_not_fit_is_9_though_bus_off_follows() {
    let mut bus = start(2);
    fill(&mut bus, 0, 10);
    refused_submit(&mut bus, 9, 0, &[confirm(1), bus_off()].concat());
    submit(&mut bus, 0, &[bus_off(), confirm(1)].concat());
    assert_eq!(queue(&bus, 0), format_error(&confirm(1)));
}

#[test]
fn fifth_frame_is_8_though_bus_off_follows() {
    let mut bus = bus_with(&[vec![can(1); 4].concat(), vec![]]);
    refused_submit(&mut bus, 8, 0, &[can(1), bus_off()].concat());
    submit(&mut bus, 0, &[bus_off(), active(), can(2)].concat());
    assert_eq!(pending(&bus, 0), [2]);
}

#[test]
fn refused_buffer_takes_back_its_earlier_steps() {
    let mut bus = start(3);
    fill(&mut bus, 2, 7);
    let steps = [discarding(), configuration(1, 7), can(1), status(2), confirm(1)].concat();
    refused_submit(&mut bus, 9, 0, &[&steps[..], &wakeup()].concat());
    refused_submit(&mut bus, 9, 0, &[&bus_off()[..], &active(), &steps, &wakeup()].concat());
}

#[test]
fn configuration_and_status_set_the_senders_values_only() {
    let rates = [configuration(1, 1), configuration(2, u32::MAX), configuration(3, 3)].concat();
    let bus = bus_with(&[vec![], [&rates[..], &discarding(), &status(2)].concat()]);
    let node = &bus.nodes[1];
    assert_eq!((node.baud_rates, node.behaviour, node.status), ([1, u32::MAX, 3], 2, 2));
    assert_eq!(bus.nodes[0], start(2).nodes[0]);
}

#[test]
fn bus_off_node_is_answered_and_its_queue_can_be_full() {
    let mut bus = bus_with(&[bus_off(), vec![]]);
    submit(&mut bus, 0, &[confirm(1), bus_error(1, 1, 1), lost(1)].concat());
    let answers = [confirm(1), bus_error(1, 1, 1), lost(1)].map(|op| format_error(&op)).concat();
    assert_eq!(bus.collect(0, 4_096), Ok(answers));
    fill(&mut bus, 0, 10);
    refused_submit(&mut bus, 9, 0, &fault(1));
}

#[test]
fn bus_off_node_configures_and_comes_back() {
    let mut bus = bus_with(&[[bus_off(), discarding(), configuration(2, 9)].concat(), vec![]]);
    assert_eq!((bus.nodes[0].behaviour, bus.nodes[0].baud_rates[1]), (2, 9));
    submit(&mut bus, 0, &[can(1), status(2), can(2)].concat());
    assert_eq!((bus.nodes[0].status, pending(&bus, 0)), (2, vec![2]));
}

#[test]
fn old_confirms_go_with_bus_off() {
    let mut bus = bus_with(&[[can(1), can(2)].concat(), vec![]]);
    assert_eq!(bus.round(None), delivered(0, 1, 0));
    assert_eq!(queue(&bus, 0), confirm(1));
    submit(&mut bus, 0, &bus_off());
    assert_eq!((queue(&bus, 0), pending(&bus, 0)), (&[][..], vec![]));
    assert_eq!(queue(&bus, 1), can(1));
}

#[test]
fn bus_off_again_empties_the_queue_again() {
    let mut bus = bus_with(&[[bus_off(), fault(3)].concat(), vec![]]);
    assert_eq!(queue(&bus, 0), format_error(&fault(3)));
    submit(&mut bus, 0, &bus_off());
    assert_eq!(queue(&bus, 0), []);
}

#[test]
fn transmit_of_a_bus_off_node_is_never_8() {
    let bus = bus_with(&[[bus_off(), vec![can(1); 6].concat()].concat(), vec![]]);
    assert_eq!(pending(&bus, 0), []);
}

#[test]
fn fault_of_the_format_error_code_is_not_answered() {
    let format_code = [1, 0, 0, 0];
    let remaining_4_to_7 = [1, 0, 0, 0, 0xFF, 0xFF, 0xFF];
    let beyond = [&[1, 0, 0, 0, 0xFF, 0, 0, 0][..], &can(1)].concat();
    let wrong_n = [1, 0, 0, 0, 12, 0, 0, 0, 3, 0, 0, 0];
    for length in 4..=7 {
        let bus = bus_with(&[remaining_4_to_7[..length].to_vec(), vec![]]);
        assert_eq!(bus, start(2));
    }
    for silent in [&beyond[..], &wrong_n, &format_error(&[1, 2]), &format_code] {
        assert_eq!(bus_with(&[silent.to_vec(), vec![]]), start(2));
    }
}

#[test]
fn one_to_three_bytes_are_answered_even_if_they_start_the_format_error_code() {
    for length in 1..=3 {
        let bytes = &[1, 0, 0][..length];
        assert_eq!(queue(&bus_with(&[bytes.to_vec(), vec![]]), 0), format_error(bytes));
    }
}

#[test]
fn format_error_code_is_all_four_bytes() {
    for bytes in [&[1, 0, 0, 1][..], &[1, 1, 0, 0, 8, 0, 0, 0]] {
        assert_eq!(queue(&bus_with(&[bytes.to_vec(), vec![]]), 0), format_error(bytes));
    }
}

#[test]
fn fault_1_or_2_answers_all_the_rest_at_once() {
    let mut beyond = can(1);
    beyond[4] = 200;
    let rest = [beyond, can(2), bus_off()].concat();
    let bus = bus_with(&[[can(3), rest.clone()].concat(), vec![]]);
    assert_eq!((queue(&bus, 0), pending(&bus, 0)), (&format_error(&rest)[..], vec![3]));
}

#[test]
fn faults_3_to_5_are_answered_and_reading_goes_on() {
    let unknown = [2, 0, 0, 0, 8, 0, 0, 0];
    let kind_5 = configuration(5, 1);
    let no_rate = configuration(1, 0);
    let buffer = [&unknown[..], &kind_5, &no_rate, &can(1)].concat();
    let bus = bus_with(&[buffer, vec![]]);
    let answers = [&unknown[..], &kind_5, &no_rate].map(format_error).concat();
    assert_eq!((queue(&bus, 0), pending(&bus, 0)), (&answers[..], vec![1]));
    assert_eq!(bus.nodes[0].baud_rates[0], 500_000);
}

#[test]
fn remote_frame_with_data_is_answered_and_one_without_is_pending() {
    for length in 1..=8 {
        let remote = remote(1, &vec![7; length]);
        let bus = bus_with(&[[remote.clone(), self::remote(2, &[])].concat(), vec![]]);
        assert_eq!((pending(&bus, 0), queue(&bus, 0)), (vec![2], &format_error(&remote)[..]));
        assert_eq!(queue(&bus, 1), []);
    }
}

#[test]
fn remote_frame_with_data_is_no_fifth_frame() {
    let mut bus = bus_with(&[vec![can(1); 4].concat(), vec![]]);
    submit(&mut bus, 0, &remote(2, &[1]));
    assert_eq!(queue(&bus, 0), format_error(&remote(2, &[1])));
    refused_submit(&mut bus, 8, 0, &remote(2, &[]));
}

#[test]
fn remote_frame_with_data_of_a_bus_off_node_is_answered() {
    let mut bus = bus_with(&[[bus_off(), remote(1, &[]), remote(2, &[1])].concat(), vec![]]);
    assert_eq!((pending(&bus, 0), queue(&bus, 0)), (vec![], &format_error(&remote(2, &[1]))[..]));
    submit(&mut bus, 0, &[bus_off(), can(1), can_with(1, 0, &[1]), remote(1, &[])].concat());
    assert_eq!(queue(&bus, 0), []);
}

#[test]
fn remote_frame_with_data_into_a_full_queue_is_9() {
    let data = [1, 2, 3, 4, 5, 6, 7, 8];
    for status in [active(), status(2), bus_off()] {
        let mut bus = bus_with(&[status, vec![]]);
        fill(&mut bus, 0, 33);
        refused_submit(&mut bus, 9, 0, &remote(1, &data));
        refused_submit(&mut bus, 9, 0, &[remote(1, &data), bus_off()].concat());
        submit(&mut bus, 0, &remote(1, &data[1..]));
        assert_eq!(bus.nodes[0].room(), 0);
        submit(&mut bus, 0, &remote(1, &[]));
    }
}

#[test]
fn longest_buffer_answered_fills_an_empty_queue() {
    let mut bus = bus_with(&[fault(LONGEST_BUFFER), vec![]]);
    assert_eq!(queue(&bus, 0).len(), QUEUE_CAPACITY);
    assert_eq!(queue(&bus, 0), format_error(&fault(LONGEST_BUFFER)));
    refused_submit(&mut bus, 9, 0, &fault(1));
    submit(&mut bus, 0, &can(1));
}

#[test]
fn wakeup_goes_to_every_other_node_that_is_not_bus_off() {
    let mut bus = bus_with(&[wakeup(), bus_off(), vec![]]);
    assert_eq!((queue(&bus, 0), queue(&bus, 1)), (&[][..], &[][..]));
    assert_eq!(queue(&bus, 2), wakeup());
    submit(&mut bus, 1, &wakeup());
    assert_eq!((queue(&bus, 0), queue(&bus, 2)), (&[][..], &wakeup()[..]));
}

#[test]
fn wakeup_with_all_others_bus_off_is_never_9() {
    let mut bus = bus_with(&[vec![], bus_off(), bus_off()]);
    fill(&mut bus, 0, 0);
    fill(&mut bus, 1, 0);
    let before = bus.clone();
    submit(&mut bus, 0, &wakeup());
    assert_eq!(bus, before);
}

#[test]
fn wakeup_into_a_full_queue_is_9() {
    let mut bus = start(3);
    fill(&mut bus, 2, 7);
    refused_submit(&mut bus, 9, 0, &wakeup());
    fill(&mut bus, 0, 0);
    submit(&mut bus, 2, &bus_off());
    submit(&mut bus, 0, &wakeup());
    assert_eq!(queue(&bus, 1), wakeup());
}

// Round.

#[test]
fn order_is_by_id_then_node_then_acceptance() {
    let second = [can(9), can_with(7, 0, &[1])].concat();
    let third = [can_with(7, 0, &[2]), can_with(7, 0, &[3]), can(3)].concat();
    let mut bus = bus_with(&[can(8), second, third]);
    let order = [(2, 3), (1, 7), (2, 7), (2, 7), (0, 8), (1, 9)];
    for (age, (sender, id)) in (0..).zip(order) {
        assert_eq!(bus.round(None), delivered(sender, id, age));
    }
    let sevens = [1, 2, 3].map(|byte| can_with(7, 0, &[byte])).concat();
    assert_eq!(queue(&bus, 0), [&can(3)[..], &sevens, &confirm(8), &can(9)].concat());
    assert_eq!(bus.round(None), Ok(Round::Idle));
}

#[test]
fn order_ignores_ide_rtr_and_kind() {
    let remote = remote(15, &[]);
    let frames = [xl(15, 1), can_with(15, 1, &[]), remote, can_with(15, 0, &[]), fd(15, 0)];
    let mut bus = bus_with(&frames);
    for sender in 0..5 {
        assert_eq!(bus.round(None), delivered(sender, 15, sender as u32));
    }
}

#[test]
fn order_can_be_exchanged() {
    let highest_id = |left: &Contender, right: &Contender| right.frame.id.cmp(&left.frame.id);
    let mut bus = bus_with(&[[can(1), can(3)].concat(), can(2)]);
    for (sender, id) in [(0, 3), (1, 2), (0, 1)] {
        let age = bus.round_number;
        assert_eq!(bus.round_in_order(highest_id, None), delivered(sender, id, age));
    }
}

#[test]
fn every_kind_is_delivered_byte_for_byte() {
    let data = [9, 8, 7, 6, 5, 4, 3, 2];
    let can = can_with(536_870_911, 1, &data);
    for frame in [can, remote(2_047, &[]), fd(5, 64), xl(2_048, 2_048)] {
        let mut bus = bus_with(&[vec![], frame.clone(), vec![]]);
        assert!(matches!(bus.round(None), Ok(Round::Carried { sender: 1, age: 0, .. })));
        assert_eq!((queue(&bus, 0), queue(&bus, 2)), (&frame[..], &frame[..]));
    }
}

#[test]
fn delivery_with_all_others_bus_off_is_confirmed() {
    let mut bus = bus_with(&[can(1), bus_off(), bus_off()]);
    assert_eq!(bus.round(None), delivered(0, 1, 0));
    assert_eq!(queue(&bus, 0), confirm(1));
    assert_eq!((queue(&bus, 1), queue(&bus, 2)), (&[][..], &[][..]));
}

#[test]
fn error_passive_sender_is_not_put_back() {
    let mut bus = bus_with(&[[status(2), can(1)].concat(), [can(1), can(2)].concat()]);
    assert_eq!(bus.round(None), delivered(0, 1, 0));
    assert_eq!(bus.round(None), delivered(1, 1, 1));
}

#[test]
fn injected_error_goes_to_every_node_that_is_not_bus_off() {
    let frame = can(3);
    let mut bus = bus_with(&[vec![], frame.clone(), vec![], bus_off()]);
    let errored = Round::Carried { sender: 1, id: 3, errored: true, age: 0 };
    assert_eq!(bus.round(inject(2)), Ok(errored));
    assert_eq!(queue(&bus, 0), bus_error(3, 2, 0));
    assert_eq!(queue(&bus, 1), bus_error(3, 2, 1));
    assert_eq!(queue(&bus, 2), bus_error(3, 1, 0));
    assert_eq!((queue(&bus, 3), pending(&bus, 1)), (&[][..], vec![]));
}

#[test]
fn sender_can_detect_the_error() {
    let mut bus = bus_with(&[can(3), vec![]]);
    assert!(bus.round(inject(0)).is_ok());
    assert_eq!(queue(&bus, 0), bus_error(3, 1, 1));
    assert_eq!(queue(&bus, 1), bus_error(3, 2, 0));
}

#[test]
fn frames_of_a_discarding_node_are_lost_after_the_winners_operation() {
    let discards = [discarding(), can(9), can(5), can(9)].concat();
    let mut bus = bus_with(&[can(1), discards, can(2)]);
    assert_eq!(bus.round(None), delivered(0, 1, 0));
    assert_eq!(queue(&bus, 1), [can(1), lost(9), lost(5), lost(9)].concat());
    assert_eq!((pending(&bus, 1), pending(&bus, 2)), (vec![], vec![2]));
}

#[test]
fn other_frames_of_a_discarding_sender_are_lost_too() {
    for (injection, first) in [(None, confirm(1)), (inject(0), bus_error(1, 1, 1))] {
        let mut bus = bus_with(&[[discarding(), can(2), can(1)].concat(), vec![]]);
        assert!(bus.round(injection).is_ok());
        assert_eq!(queue(&bus, 0), [first, lost(2)].concat());
        assert_eq!(bus.round(None), Ok(Round::Idle));
    }
}

#[test]
fn behaviour_at_the_round_counts() {
    let buffering = configuration(4, codec::BUFFER_AND_RETRANSMIT);
    let mut bus = bus_with(&[can(1), can(2), [discarding(), can(3)].concat()]);
    submit(&mut bus, 1, &discarding());
    submit(&mut bus, 2, &buffering);
    assert_eq!(bus.round(None), delivered(0, 1, 0));
    assert_eq!((pending(&bus, 1), pending(&bus, 2)), (vec![], vec![3]));
}

#[test]
fn refusals_of_a_round_come_as_6_idle_9_10() {
    let mut bus = start(2);
    let bad = Some(Injection { error_code: 7, detector: 0 });
    bus.round_number = u32::MAX;
    refused_round(&mut bus, 6, bad);
    let before = bus.clone();
    assert_eq!(bus.round(None), Ok(Round::Idle));
    assert_eq!(bus.round(inject(1)), Ok(Round::Idle));
    assert_eq!(bus, before);
    submit(&mut bus, 0, &can(1));
    refused_round(&mut bus, 6, bad);
    refused_round(&mut bus, 10, None);
    refused_round(&mut bus, 10, inject(1));
    fill(&mut bus, 1, 15);
    refused_round(&mut bus, 9, None);
    refused_round(&mut bus, 10, inject(1));
}

#[test]
fn last_round_number_is_reached() {
    let mut bus = start(2);
    bus.round_number = u32::MAX - 1;
    submit(&mut bus, 0, &[can(1), can(2)].concat());
    assert_eq!(bus.round(None), delivered(0, 1, 0));
    assert_eq!(bus.round_number, u32::MAX);
    refused_round(&mut bus, 10, None);
}

#[test]
fn injection_needs_a_listed_code_and_an_attached_node_that_is_not_bus_off() {
    let mut bus = bus_with(&[can(1), bus_off()]);
    let injection = |error_code, detector| Some(Injection { error_code, detector });
    for (error_code, detector) in [(0, 0), (7, 0), (255, 0), (1, 1), (1, 2), (1, usize::MAX)] {
        refused_round(&mut bus, 6, injection(error_code, detector));
    }
    for error_code in 1..=6 {
        assert!(bus.clone().round(injection(error_code, 0)).is_ok());
    }
}

#[test]
fn round_is_9_before_any_queue_is_written() {
    for full in 0..3 {
        let mut bus = bus_with(&[vec![], can(1), vec![]]);
        let owed = if full == 1 { 12 } else { 16 };
        fill(&mut bus, full, owed - 1);
        refused_round(&mut bus, 9, None);
        assert_eq!(bus.collect(full, 4_096).map(|bytes| bytes.len()), Ok(4_097 - owed));
        fill(&mut bus, full, owed);
        assert_eq!(bus.round(None), delivered(1, 1, 0));
    }
}

#[test]
fn round_is_9_for_the_sum_of_what_a_queue_is_owed() {
    let discards = [discarding(), can(2), can(3)].concat();
    for (injection, first) in [(None, 16), (inject(0), 15)] {
        let mut bus = bus_with(&[can(1), discards.clone()]);
        fill(&mut bus, 1, first + 23);
        refused_round(&mut bus, 9, injection);
        assert!(bus.collect(1, 4_096).is_ok());
        fill(&mut bus, 1, first + 24);
        assert!(bus.round(injection).is_ok());
        assert_eq!(bus.nodes[1].room(), 0);
    }
}

#[test]
fn full_queue_of_a_bus_off_node_hinders_no_round() {
    let mut bus = bus_with(&[can(1), bus_off(), vec![]]);
    fill(&mut bus, 1, 0);
    assert_eq!(bus.round(None), delivered(0, 1, 0));
}

#[test]
fn losing_does_not_set_the_acceptance_round_anew() {
    let mut bus = bus_with(&[[can(1), can(2), can(3)].concat(), can(9)]);
    for age in 0..3 {
        assert_eq!(bus.round(None), delivered(0, age + 1, age));
    }
    assert_eq!(bus.round(None), delivered(1, 9, 3));
}

#[test]
fn age_counts_carried_out_rounds_only() {
    let mut bus = start(2);
    assert_eq!(bus.round(None), Ok(Round::Idle));
    submit(&mut bus, 0, &[can(1), can(2)].concat());
    refused_round(&mut bus, 6, inject(2));
    fill(&mut bus, 1, 0);
    refused_round(&mut bus, 9, None);
    assert!(bus.collect(1, 4_096).is_ok());
    assert!(bus.round(inject(1)).is_ok());
    assert_eq!(bus.round_number, 1);
    submit(&mut bus, 1, &can(0));
    assert_eq!(bus.round(None), delivered(1, 0, 0));
    assert_eq!(bus.round(None), delivered(0, 2, 2));
}
