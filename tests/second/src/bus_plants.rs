//! Wrong buses, to see that the comparison finds them. Each is the second bus
//! with one rule altered; its name says what is wrong, the words above it are
//! those of 01 that it breaks, or of 02 where that is said.

mod memory;
mod rounds;
mod submits;
mod validity;

use kettlefrost::raw;

use crate::bus::{PENDING_CAPACITY, QUEUE_CAPACITY};
use crate::by_value;
use crate::codec::{self, Operation};
use crate::lent::{self, NodeState, Slot, State, SLOT_BYTES};
use crate::memory::{Call, Calls, Memory, Second, Sizes};
use crate::wrong_content::wrong_content;

use memory::*;
use rounds::*;
use submits::*;
use validity::*;

/// A call that the second bus has answered.
pub struct Played<'a> {
    before: &'a Memory,
    call: &'a Call,
    after: &'a mut Memory,
    answer: &'a mut raw::Answer,
    sizes: Sizes,
}

/// A change of what an honest call leaves.
pub type Alteration = Box<dyn Fn(&mut Played)>;

/// The second bus with an alteration.
pub struct Planted(pub Alteration);

impl Calls for Planted {
    fn play(&self, memory: &mut Memory, sizes: Sizes, call: &Call) -> raw::Answer {
        let before = &memory.clone();
        let mut answer = Second.play(memory, sizes, call);
        self.0(&mut Played { before, call, after: memory, answer: &mut answer, sizes });
        answer
    }
}

/// Wrong bus 3 of 01: "one that changes nothing while books stay empty". State,
/// queues and frames stay as at the start, and every call answers as done.
pub fn changes_nothing() -> Planted {
    Planted(Box::new(|played| {
        if !played.is_start() {
            played.after.copy_from(played.before);
            let idle = matches!(played.call, Call::Round { .. }).into();
            *played.answer = raw::Answer { idle, ..by_value::answer(0, played.before.state) };
        }
    }))
}

/// The wrong buses by name.
pub fn plants() -> impl Iterator<Item = (String, Planted)> {
    let named = PLANTS.iter().map(|&(name, alter)| (name.to_string(), Planted(Box::new(alter))));
    let submitted = wrong_content("submit", &SUBMITTED)
        .map(|(name, rule)| (name, Planted(Box::new(move |played| played.rewrite_by(&rule)))));
    let pending = wrong_content("pending", &TRANSMITS)
        .map(|(name, rule)| (name, Planted(Box::new(move |played| judge_frames(played, &rule)))));
    named.chain(submitted).chain(pending)
}

const TRANSMITS: [u32; 3] = [codec::CAN_TRANSMIT, codec::FD_TRANSMIT, codec::XL_TRANSMIT];

/// The kinds of which soundness shows when they are submitted: a closing is
/// answered with a Format Error either way.
const SUBMITTED: [u32; 5] = [
    codec::CAN_TRANSMIT,
    codec::FD_TRANSMIT,
    codec::XL_TRANSMIT,
    codec::CONFIGURATION,
    codec::STATUS,
];

/// A wrong program: its name, and the change that makes it.
type Row = (&'static str, fn(&mut Played));

#[rustfmt::skip]
const PLANTS: &[Row] = &[
    // "Check that these break it: a bus refusing everything or always idle .. one delivering the same frame
    // each time .. one that runs a correct first round and only raises the round number later .. one that
    // makes up the age"
    ("a bus refusing everything", |p| p.refuse(3)),
    ("a bus always idle", |p| if p.sender().is_some() { p.go_idle() }),
    ("the same frame is delivered each time (the winner is not removed)", keep_winner),
    ("a correct first round, later ones only raise the round number", only_raise_number),
    ("the age is made up", |p| p.answer.age = p.answer.age.min(1)),
    // "Easy errors: .. setting the acceptance round anew when a frame loses; writing part of the queues
    // before finding one full; keeping old Confirms queued after Bus-Off."
    ("the acceptance round is set anew when a frame loses", accept_anew),
    ("part of the queues is written before a round finds one full", written_by_refused_round),
    ("part of the queues is written before a Wakeup finds one full", written_by_refused_wakeup),
    ("old Confirms are kept queued after Bus-Off", |p| after_bus_off(p, true)),

    // "Per node: status (ERROR_ACTIVE at start), lost-arbitration behaviour (BUFFER_AND_RETRANSMIT at start),
    // three baud rates (500,000; 2,000,000; 10,000,000 at start)"
    ("a start with ERROR_PASSIVE", |p| p.starts_with(|node| node.status = codec::ERROR_PASSIVE)),
    ("a start with DISCARD_AND_NOTIFY", |p| p.starts_with(|node| node.behaviour = 2)),
    ("a start with CAN at 250,000", |p| p.starts_with(|node| node.rates[0] = 250_000)),
    ("a start with FD at 500,000", |p| p.starts_with(|node| node.rates[1] = 500_000)),
    ("a start with XL at 2,000,000", |p| p.starts_with(|node| node.rates[2] = 2_000_000)),
    // "at most 4 pending frames, and an outgoing queue of 4,096 bytes"
    ("at most 3 pending frames", |p| if p.pends(4) { p.refuse(8) }),
    ("a fifth frame is dropped", |p| if p.answer.number == 8 { p.answer.number = 0 }),
    ("a queue of 4,095 bytes", |p| if p.fills(QUEUE_CAPACITY) { p.refuse(9) }),
    ("a queue of 4,097 bytes", |p| p.roomier(1)),
    // "a round number (0 at start, at most 4,294,967,295)"
    ("a start at round 1", |p| if p.is_started() { p.answer.state.round = 1 }),
    ("a start keeps the round number", |p| if p.is_started() { p.answer.state.round = p.before.state.round }),
    ("a round number of at most 4,294,967,294", |p| if p.answer.state.round == u32::MAX && p.sender().is_some() { p.refuse(10) }),
    ("the round number wraps", |p| if p.answer.number == 10 { p.answer.number = 0; p.answer.state.round = 0 }),
    // "Places and bytes that a removed frame held serve again."
    ("places of removed frames are not used again", places_used_up),
    // "A pending frame carries the round number at which it was accepted."
    ("accepted a round early", |p| p.accepts(|slot, _| slot.accepted = slot.accepted.saturating_sub(1))),
    ("accepted a round late", |p| p.accepts(|slot, _| slot.accepted = slot.accepted.saturating_add(1))),
    ("accepted at round 0", |p| p.accepts(|slot, _| slot.accepted = 0)),

    // "node count is 2 to 8;"
    ("node count 0 not asked", |p| unasked(p, |state, _| if state.count == 0 { state.count = 2 })),
    ("node count 1 not asked", |p| unasked(p, |state, _| if state.count == 1 { state.count = 2 })),
    ("node count 9 not asked", |p| unasked(p, |state, _| if state.count == 9 { state.count = 8 })),
    ("node count cut to a byte", |p| unasked(p, |state, _| state.count %= 256)),
    ("node count 2 is not sound", |p| unsound(p, |state, _| state.count == 2)),
    ("node count 8 is not sound", |p| unsound(p, |state, _| state.count == 8)),
    // "the attached nodes' statuses, behaviours and baud rates are allowed and their queues filled to at
    // most 4,096 (nothing is asked of the other entries);"
    ("status 0 not asked", |p| each_node(p, |node| node.status = node.status.max(1))),
    ("status 4 not asked", |p| each_node(p, |node| if node.status == 4 { node.status = 2 })),
    ("status ERROR_PASSIVE is not sound", |p| unsound_node(p, |node| node.status == codec::ERROR_PASSIVE)),
    ("status Bus-Off is not sound", |p| unsound_node(p, |node| node.status == codec::BUS_OFF)),
    ("behaviour 0 not asked", |p| each_node(p, |node| node.behaviour = node.behaviour.max(1))),
    ("behaviour 3 not asked", |p| each_node(p, |node| if node.behaviour == 3 { node.behaviour = 2 })),
    ("behaviour DISCARD_AND_NOTIFY is not sound", |p| unsound_node(p, |node| node.behaviour == 2)),
    ("CAN baud rate not asked", |p| each_node(p, |node| node.rates[0] = node.rates[0].max(1))),
    ("FD baud rate not asked", |p| each_node(p, |node| node.rates[1] = node.rates[1].max(1))),
    ("XL baud rate not asked", |p| each_node(p, |node| node.rates[2] = node.rates[2].max(1))),
    ("baud rate 1 is not sound", |p| unsound_node(p, |node| node.rates.contains(&1))),
    ("a fill of 4,097 not asked", |p| each_node(p, |node| if node.fill == 4_097 { node.fill = 4_096 })),
    ("a fill of 4,096 is not sound", |p| unsound_node(p, |node| node.fill == 4_096)),
    ("the first node not asked", |p| unasked(p, |state, _| state.nodes[0] = lent::NEW_NODE)),
    ("the last node not asked", last_node_unasked),
    ("entries of other nodes are asked", ask_other_entries),
    ("slots without a frame are asked", ask_free_slots),
    // "each pending frame belongs to an attached node, meets the content rules and was accepted at a round
    // not above the present one;" (the content rules: see the wrong content rules of pending frames)
    ("owner not asked", |p| unasked(p, own_all)),
    ("unknown kind not asked", |p| each_slot(p, |slot| if lent::operation_in(slot).is_none() { *slot = any_frame(slot) })),
    ("the first frame of a node not asked", |p| frame_unasked(p, false)),
    ("the last frame of a node not asked", |p| frame_unasked(p, true)),
    ("acceptance one round in the future not asked", |p| unasked(p, not_in_future)),
    ("acceptance at the present round is not sound", |p| unsound_frame(p, |slot, state| slot.accepted == state.round)),
    // "no node has more than four; a Bus-Off node has none;"
    ("five frames not asked", |p| each_node(p, |node| node.pending = node.pending.min(4))),
    ("four frames are not sound", |p| unsound_node(p, |node| node.pending == 4)),
    ("frames of a Bus-Off node not asked", |p| each_node(p, |node| if lent::is_bus_off(node) { node.pending = 0 })),
    // "the order of acceptance among one node's frames .. agrees with their acceptance rounds"
    ("order of acceptance not asked", |p| unasked(p, in_order)),
    ("frames accepted in one round are not sound", |p| unsound(p, accepted_together)),
    // "A start frees all places, empties all queues and removes nothing else from the lent bytes."
    ("a start leaves the slots", start_leaves_slots),
    ("a start frees the places of attached nodes only", start_frees_attached),
    ("a start leaves the queues filled", start_leaves_fills),
    ("a start clears the queues' bytes", |p| if p.is_started() { p.after.queues[..32].fill(0) }),
    ("a start clears the payload", |p| if p.is_started() { p.after.payload[..32].fill(0) }),
    // "What later calls leave in bytes that hold nothing .. the promise fixes it."
    ("data are not moved down", data_stay),
    ("data are moved down whole", data_move_whole),
    ("the slot that is left is freed", free_last),
    ("nothing is moved where the sender discards", discard_without_moving),

    // "A node hands in a buffer of 0 to 4,086 bytes. Its operations are taken in order:"
    ("a buffer of 4,087 bytes is taken", take_4087),
    ("a buffer of 4,086 bytes is too large", |p| if p.submits_bytes(4_086) { p.refuse(5) }),
    ("an empty buffer is refused", |p| if p.submits_bytes(0) { p.refuse(5) }),
    ("operations are taken in reverse order", take_in_reverse),
    // "a Transmit becomes pending, unless the node is Bus-Off, when it has no effect;"
    ("CAN frames do not become pending", |p| p.skip(|s| matches!(s.op, Ok(Operation::CanTransmit { .. })))),
    ("FD frames do not become pending", |p| p.skip(|s| matches!(s.op, Ok(Operation::FdTransmit { .. })))),
    ("XL frames do not become pending", |p| p.skip(|s| matches!(s.op, Ok(Operation::XlTransmit { .. })))),
    ("a Bus-Off node's frame becomes pending", pending_while_bus_off),
    ("a Bus-Off node's frame is answered", |p| p.spoil(|s| s.bus_off && s.is_transmit())),
    ("a frame of a node with ERROR_PASSIVE has no effect", |p| p.skip(|s| s.status == codec::ERROR_PASSIVE && s.is_transmit())),
    ("a frame is kept in front of the older ones", newest_first),
    ("Rtr, Brs or Sec is not kept", |p| p.accepts(|slot, _| slot.second = 0)),
    ("Esi or SDT is not kept", |p| p.accepts(|slot, _| slot.third = 0)),
    ("VCID is not kept", |p| p.accepts(|slot, _| slot.fourth = 0)),
    ("AF is not kept", |p| p.accepts(|slot, _| slot.af = 0)),
    ("the data are not kept", |p| p.accepts(|_, data| data.fill(0))),
    ("the last data byte is not kept", |p| p.accepts(|_, data| if let Some(last) = data.last_mut() { *last ^= 1 })),
    // "Configuration sets that node's value; Status sets its status."
    ("CAN and FD baud rates exchanged", |p| p.configures(|kind| [1, 2, 1, 3, 4][kind])),
    ("FD and XL baud rates exchanged", |p| p.configures(|kind| [1, 1, 3, 2, 4][kind])),
    ("Configuration sets the next node's value", configure_next),
    ("Configuration sets the value of all nodes", configure_all),
    ("a Bus-Off node's Configuration has no effect", |p| p.skip(|s| s.bus_off && s.is_configuration())),
    ("behaviours exchanged", |p| p.replace(exchange_behaviour)),
    ("ERROR_ACTIVE and ERROR_PASSIVE exchanged", |p| p.replace(exchange_status)),
    ("a Status other than Bus-Off has no effect", |p| p.skip(|s| s.is_status() && s.op != Ok(Operation::BUS_OFF))),
    ("Bus-Off is not left again", |p| p.skip(|s| s.bus_off && s.is_status())),
    // "Status Bus-Off removes all the node's pending frames and empties its queue;"
    ("Bus-Off keeps the frames", |p| after_bus_off(p, false)),
    ("Bus-Off keeps the frames of the same buffer", keep_new_frames),
    ("Bus-Off while Bus-Off does not empty the queue", |p| p.skip(|s| s.bus_off && s.op == Ok(Operation::BUS_OFF))),
    ("ERROR_PASSIVE removes the frames and empties the queue", passive_removes),
    ("Bus-Off empties all queues", empty_all_queues),
    // "Wakeup is added to the queue of every other node that is not Bus-Off; from a Bus-Off node it has no
    // effect;"
    ("a Wakeup reaches its sender", |p| wake(p, |number, sender, node| number == sender && !lent::is_bus_off(node))),
    ("a Wakeup reaches a Bus-Off node", |p| wake(p, |number, sender, node| number != sender && lent::is_bus_off(node))),
    ("a Wakeup does not reach the last node", wake_all_but_last),
    ("a Bus-Off node's Wakeup reaches the others", wake_from_bus_off),
    ("a Wakeup has no effect", |p| p.skip(|s| s.op == Ok(Operation::Wakeup))),
    // "a Format Error, or a faulty operation of at least 4 bytes whose code is 0x01, has no effect;"
    ("a Format Error is answered", |p| p.spoil(|s| matches!(s.op, Ok(Operation::FormatError { .. })))),
    ("a faulty Format Error is answered", |p| p.spoil(|s| s.op.is_err() && s.is_silent())),
    ("4 bytes 01 00 00 00 are answered", |p| p.spoil(|s| s.bytes == [1, 0, 0, 0])),
    ("3 bytes 01 00 00 have no effect", |p| p.skip(|s| s.bytes == [1, 0, 0])),
    ("a fault that starts with 01 has no effect", |p| p.skip(|s| s.op.is_err() && s.bytes[0] == 1)),
    // "any other faulty operation, and any Confirm, Arbitration Lost or Bus Error, puts a Format Error with
    // its complete bytes into the sender's queue."
    ("fault 1 has no effect", |p| p.skip(|s| s.op == Err(1))),
    ("fault 2 has no effect", |p| p.skip(|s| s.op == Err(2))),
    ("fault 3 has no effect", |p| p.skip(|s| s.op == Err(3))),
    ("fault 4 has no effect", |p| p.skip(|s| s.op == Err(4))),
    ("fault 5 has no effect", |p| p.skip(|s| s.op == Err(5))),
    ("a Confirm has no effect", |p| p.skip(|s| matches!(s.op, Ok(Operation::Confirm { .. })))),
    ("an Arbitration Lost has no effect", |p| p.skip(|s| matches!(s.op, Ok(Operation::ArbitrationLost { .. })))),
    ("a Bus Error has no effect", |p| p.skip(|s| matches!(s.op, Ok(Operation::BusError { .. })))),
    ("a Bus-Off node's faults are not answered", |p| p.skip(|s| s.bus_off && s.op.is_err())),
    ("a Bus-Off node's closings are not answered", |p| p.skip(|s| s.bus_off && s.is_closing())),
    // 02: "Hand-in answers such a frame with Format Error"
    ("a remote frame with data has no effect", |p| p.skip(is_remote)),
    ("a Bus-Off node's remote frame with data has no effect", |p| p.skip(is_bus_off_remote)),
    ("a Bus-Off node's remote frame with data is never 9", |p| no_room_asked(p, is_bus_off_remote)),
    ("a remote frame with data is never 9", |p| no_room_asked(p, is_remote)),
    ("a remote frame with data is a fifth frame", count_remote),
    ("a remote frame becomes pending without its data", strip_remote),
    ("a Format Error of a remote frame without its data", answer_remote_in_part),
    ("a Format Error without the last byte", cut_format_error),
    ("a Format Error goes to the next node too", format_error_to_next),
    // "The buffer is taken whole or refused whole."
    ("a refused buffer is taken up to the failing step", |p| taken_in_part(p, false)),
    ("a refused buffer is taken without the failing step", |p| taken_in_part(p, true)),
    // "If the steps, done one by one, reach a Transmit that finds four of the node's frames pending (8), or a
    // step that finds a queue too full for what it adds (9), the first such step gives the refusal."
    ("8 before 9", four_pending_first),
    ("9 before 8", full_first),
    ("a later Bus-Off makes room in the queue", |p| later_bus_off(p, 9)),
    ("a later Bus-Off makes room for frames", |p| later_bus_off(p, 8)),
    ("frames in front of a Bus-Off still count", count_removed),
    ("bytes in front of a Bus-Off still count", |p| p.instead_without(|s| s.op == Ok(Operation::BUS_OFF), 9)),
    ("nothing is asked behind a Bus-Off", unasked_behind_bus_off),
    ("a Bus-Off node's fifth frame is refused", refuse_while_bus_off),
    ("a Wakeup asks room of a Bus-Off node", |p| if p.submits(Operation::Wakeup) { p.asks_bus_off(8) }),
    ("a Wakeup asks room of its sender", wakeup_asks_sender),

    // "lower ID number first, then lower node number, then earlier accepted. The first one wins."
    ("the higher ID wins", |p| by_order(p, |slot, node, place| (!u64::from(slot.id), node, place))),
    ("Ide 0 wins over Ide 1", |p| by_order(p, |slot, node, place| (u64::from(slot.first) << 32 | u64::from(slot.id), node, place))),
    ("the lower node wins over the lower ID", |p| by_order(p, |slot, node, place| (node as u64, slot.id as usize, place))),
    ("the earlier accepted wins over the lower ID", |p| by_order(p, |slot, node, place| (slot.accepted.into(), slot.id as usize, node * 4 + place))),
    ("equal IDs go to the higher node", |p| by_order(p, |slot, node, place| (slot.id.into(), 8 - node, place))),
    ("equal IDs go to the earlier accepted", |p| by_order(p, |slot, node, place| (slot.id.into(), slot.accepted as usize, node * 4 + place))),
    ("the later of a node's equal IDs wins", later_of_equal),
    ("IDs are compared in 11 bits", |p| by_order(p, |slot, node, place| ((slot.id & 2_047).into(), node, place))),
    // "With nothing pending the round is idle: nothing changes, the round number included."
    ("an idle round counts", |p| p.answer.state.round = p.answer.state.round.saturating_add(p.answer.idle.into())),
    ("an idle round is not said to be idle", |p| p.answer.idle = 0),
    ("a round is idle where one frame is pending", |p| if p.all_pending() == 1 && p.sender().is_some() { p.go_idle() }),
    // "every other node that is not Bus-Off gets the winner's Transmit, byte for byte as handed in, and the
    // sender gets Confirm."
    ("a Bus-Off node gets the Transmit", |p| deliver_to(p, |number, sender, node| number != sender && lent::is_bus_off(node))),
    ("the sender gets the Transmit too", |p| deliver_to(p, |number, sender, _| number == sender)),
    ("the last node gets nothing", nothing_for_last),
    ("the sender gets no Confirm", no_confirm),
    ("Confirm with ID 0", |p| patch_sent(p, true, |bytes| bytes[8..12].fill(0))),
    ("Arbitration Lost in place of Confirm", |p| patch_sent(p, true, |bytes| bytes[0] = 0x30)),
    ("Ide is delivered as 0", |p| patch_sent(p, false, |bytes| bytes[12] = 0)),
    ("Rtr, Brs or Sec is delivered as 0", |p| patch_sent(p, false, |bytes| bytes[13] = 0)),
    ("Esi is delivered as 1", |p| patch_sent(p, false, |bytes| if bytes[0] == 0x11 { bytes[14] = 1 })),
    ("SDT and VCID are delivered exchanged", |p| patch_sent(p, false, |bytes| if bytes[0] == 0x12 { bytes.swap(14, 15) })),
    ("AF is delivered as 0", |p| patch_sent(p, false, |bytes| if bytes[0] == 0x12 { bytes[16..20].fill(0) })),
    ("the last data byte is delivered as 0", |p| patch_sent(p, false, |bytes| if let Some(last) = bytes.last_mut() { *last = 0 })),
    // "every node that is not Bus-Off gets Bus Error with the winner's ID instead: Is Sender 1 for the sender
    // only, PRIMARY_ERROR_FLAG for the detecting node only, SECONDARY_ERROR_FLAG for the rest."
    ("a Bus-Off node gets Bus Error", bus_error_for_bus_off),
    ("Bus Error with ID 0", |p| patch_errors(p, |error, _| error[8..12].fill(0))),
    ("Bus Error with Error Code 1", |p| patch_errors(p, |error, _| error[12] = 1)),
    ("Is Sender 1 for all", |p| patch_errors(p, |error, _| error[14] = 1)),
    ("Is Sender 0 for the sender", |p| patch_errors(p, |error, _| error[14] = 0)),
    ("Is Sender 1 for the detecting node", |p| patch_errors(p, |error, to| error[14] = to.detector.into())),
    ("the sender gets the primary flag", |p| patch_errors(p, |error, to| if to.sender { error[13] = 1 })),
    ("the primary flag for all", |p| patch_errors(p, |error, _| error[13] = 1)),
    ("the secondary flag for all", |p| patch_errors(p, |error, _| error[13] = 2)),
    ("primary and secondary flag exchanged", |p| patch_errors(p, |error, _| error[13] ^= 3)),
    ("an error as delivered", |p| p.without_injection()),
    // "In either case the winner is removed."
    ("an errored winner stays pending", |p| if p.answer.errored == 1 { keep_winner(p) }),
    ("all frames with the winner's ID are removed", remove_equal_ids),
    // "Then each frame still pending of a node set to DISCARD_AND_NOTIFY is removed, and its node gets
    // Arbitration Lost, in order of acceptance."
    ("losers of a buffering node are removed", discard_buffered),
    ("the sender's other frames are not discarded", |p| spare_where(p, |p, node| p.sender() == Some(node))),
    ("losers of an errored round are kept", |p| spare_where(p, |p, _| p.answer.errored == 1)),
    ("losers are removed without Arbitration Lost", lose_silently),
    ("losers get Arbitration Lost and stay", lose_and_stay),
    ("only the first loser of a node is removed", lose_first_only),
    ("Arbitration Lost before the winner's operation", lost_first),
    ("Arbitration Lost in reverse order", lost_in_reverse),
    ("Arbitration Lost with the winner's ID", lost_with_winner_id),
    // "The round number grows by one."
    ("the round number grows by two", |p| if p.sender().is_some() { p.answer.state.round = p.answer.state.round.saturating_add(1) }),
    ("an errored round does not count", |p| if p.answer.errored == 1 { p.answer.state.round -= 1 }),
    // "The answer names sender, ID, whether delivered or errored, and the age: round number before this round
    // less that at acceptance."
    ("the sender is not named", |p| p.answer.sender = 0),
    ("the ID is named in 11 bits", |p| p.answer.id &= 2_047),
    ("an errored round is said to be delivered", |p| p.answer.errored = 0),
    ("a delivered round is said to be errored", |p| p.answer.errored = p.sender().is_some().into()),
    ("the age counts this round", |p| p.answer.age += u32::from(p.sender().is_some())),
    ("the age is one less", |p| p.answer.age = p.answer.age.saturating_sub(1)),
    ("the age is the acceptance round", |p| if let Some((winner, _)) = p.winner() { p.answer.age = p.before.slots[winner].accepted }),
    ("the age is the round number", |p| if p.sender().is_some() { p.answer.age = p.before.state.round }),
    // "Collecting copies a node's queue to the front of the caller's buffer, gives its length, and empties the
    // queue. An empty queue gives length 0."
    ("collect does not empty the queue", |p| if let Some(node) = p.collected() { p.answer.state.nodes[node] = p.before.state.nodes[node] }),
    ("collect empties all queues", |p| if p.collected().is_some() { each_fill(p.answer, 0) }),
    ("collect gives one byte less", |p| p.answer.length = p.answer.length.saturating_sub(1)),
    ("collect copies one byte less", collect_less),
    ("collect copies to the end of the buffer", collect_to_the_end),
    ("an empty queue is refused", |p| if p.collected().is_some() && p.answer.length == 0 { p.refuse(11) }),
    ("collect copies more than the queue", collect_more),

    // "1: lent memory not 32 places, 65,536 and 32,768 bytes"
    ("places may be more", |p| p.lend(|sizes, right| sizes.slots = sizes.slots.min(right.slots))),
    ("payload may be more", |p| p.lend(|sizes, right| sizes.payload = sizes.payload.min(right.payload))),
    ("queues may be more", |p| p.lend(|sizes, right| sizes.queues = sizes.queues.min(right.queues))),
    ("places may be less", |p| p.lend(|sizes, right| sizes.slots = sizes.slots.max(right.slots))),
    ("payload may be less", |p| p.lend(|sizes, right| sizes.payload = sizes.payload.max(right.payload))),
    ("queues may be less", |p| p.lend(|sizes, right| sizes.queues = sizes.queues.max(right.queues))),
    ("a start does not ask for the payload", |p| if p.is_start() { p.lend(|sizes, right| sizes.payload = right.payload) }),
    ("a collect does not ask for the places", |p| if p.is_collect() { p.lend(|sizes, right| sizes.slots = right.slots) }),
    // "2: node count not 2 to 8"
    ("one node is attached", |p| start_with(p, 1)),
    ("nine nodes are attached", |p| start_with(p, 9)),
    ("two nodes are not attached", |p| if p.starts(2) { p.refuse(2) }),
    ("eight nodes are not attached", |p| if p.starts(8) { p.refuse(2) }),
    ("node count of a start cut to a byte", narrow_count),
    // "4: node number not attached"
    ("the node behind the last is attached", behind_the_last),
    ("the last node is not attached", |p| if p.node() == Some(p.before.state.count - 1) && p.answer.number == 0 { p.refuse(4) }),
    ("node number cut to a byte", narrow_node),
    // "6: injection's code not in the table, or its node not attached or Bus-Off"
    ("injected code 0 is taken", |p| inject(p, 0, |injection, _| injection.code == 0)),
    ("injected code 7 is taken", |p| inject(p, 0, |injection, _| injection.code == 7)),
    ("injected code 1 is refused", |p| if p.injects(|injection, _| injection.code == 1) { p.refuse(6) }),
    ("injected code 6 is refused", |p| if p.injects(|injection, _| injection.code == 6) { p.refuse(6) }),
    ("injected code cut to a byte", |p| inject(p, 255, |_, _| true)),
    ("a node that is not attached detects an error", |p| inject(p, 0, |injection, state| injection.detector >= state.count)),
    ("a Bus-Off node detects an error", |p| inject(p, 0, |injection, state| is_bus_off_at(state, injection.detector))),
    ("a node with ERROR_PASSIVE detects no error", |p| if p.injects(is_passive) { p.refuse(6) }),
    ("the sender detects no error", |p| if p.injects(|injection, _| injection.detector == u32::from(p.answer.sender)) { p.refuse(6) }),
    // "9: a queue can't hold what it is owed", of a round.
    ("a round asks no room for Arbitration Lost", |p| p.buffering(9)),
    ("a round asks room for Arbitration Lost of buffering nodes", |p| p.discarding(9)),
    ("a round asks room of a Bus-Off node", |p| if p.sender().is_some() { p.asks_bus_off(16) }),
    ("a round asks room for the Transmit of the sender", |p| p.asks_sender(|op| op.header_length() + op.data_length())),
    ("an errored round asks room for the Transmit", errored_asks_for_transmit),
    ("a round without room for all is carried out", |p| if p.is_round() && p.answer.number == 9 { p.answer.number = 0 }),
    ("a round asks room of the sender alone", |p| if p.is_round() && p.answer.number == 9 && !p.sender_is_full() { p.answer.number = 0 }),
    // "11: caller's buffer too small"
    ("a buffer as long as the queue is too small", exact_room_refused),
    ("a buffer one byte short is taken", one_short_taken),
    ("a buffer of less than 4,096 bytes is too small", |p| if p.collects_to(|room| room < QUEUE_CAPACITY) { p.refuse(11) }),
    // "If several apply, the lowest number is given"
    ("2 before 1", |p| if p.answer.number == 1 && p.starts_badly() { p.answer.number = 2 }),
    ("3 before 1", |p| if p.answer.number == 1 && !p.is_start() && p.before.state.count == 0 { p.answer.number = 3 }),
    ("4 before 1", |p| if p.answer.number == 1 && p.is_unattached() { p.answer.number = 4 }),
    ("4 before 3", |p| if p.answer.number == 3 && p.is_unattached() { p.answer.number = 4 }),
    ("5 before 3", |p| if p.answer.number == 3 && p.is_too_large() { p.answer.number = 5 }),
    ("5 before 4", |p| if p.answer.number == 4 && p.is_too_large() { p.answer.number = 5 }),
    ("6 before 3", |p| if p.answer.number == 3 && p.injects_badly() { p.answer.number = 6 }),
    ("8 or 9 before 5", |p| if p.answer.number == 5 { p.without_end() }),
    ("9 before 6", |p| if p.answer.number == 6 { p.otherwise(&Call::Round { injection: None }, 9) }),
    ("10 before 6", |p| if p.answer.number == 6 { p.otherwise(&Call::Round { injection: None }, 10) }),
    ("10 before 9", |p| if p.is_round() && p.answer.number == 9 && p.before.state.round == u32::MAX { p.refuse(10) }),
    ("11 before 4", |p| if p.answer.number == 4 && p.is_collect_of(0) { p.answer.number = 11 }),
    // "Idle .. is decided after 6 and before 9."
    ("idle before 6", |p| if p.answer.number == 6 && p.all_pending() == 0 { p.go_idle() }),
    ("10 before idle", |p| if p.answer.idle == 1 && p.before.state.round == u32::MAX { p.refuse(10) }),
    ("9 before idle", |p| if p.answer.idle == 1 && p.any_full() { p.refuse(9) }),
    // "Every refusal gives only its number, hands back the state or book as it was (a refused start: one of
    // node count 0), and changes nothing lent."
    ("a refused round names the sender", |p| if p.is_round() && p.answer.number == 9 { p.answer.sender = 1 }),
    ("a refused collect gives the length", |p| if p.answer.number == 11 { p.answer.length = 1 }),
    ("a refused collect empties the queue", refused_collect_empties),
    ("a refused collect has copied what fits", refused_collect_copies),
    ("a refused round has counted", |p| if p.is_round() && p.answer.number == 9 { p.answer.state.round ^= 1 }),
    ("a refused submit has set the status", refused_submit_sets),
    ("a refused submit has written its first steps", written_before_refusal),
    ("a refused start hands back the state it found", |p| if p.is_start() && p.answer.number != 0 { p.answer.state = p.before.state }),
    ("a refused start has freed the places", |p| if p.is_start() && p.answer.number == 2 { p.after.slots.fill(Slot::default()) }),
];

impl<'a> Played<'a> {
    fn refuse(&mut self, number: u32) {
        *self.answer = raw::Answer { number, ..by_value::answer(0, self.before.state) };
    }

    fn go_idle(&mut self) {
        self.after.copy_from(self.before);
        *self.answer = raw::Answer { idle: 1, ..by_value::answer(0, self.before.state) };
    }

    fn is_start(&self) -> bool {
        matches!(self.call, Call::Start { .. })
    }

    fn is_round(&self) -> bool {
        matches!(self.call, Call::Round { .. })
    }

    fn is_collect(&self) -> bool {
        matches!(self.call, Call::Collect { .. })
    }

    /// The sender of a round that was carried out.
    fn sender(&self) -> Option<usize> {
        (self.is_round() && self.answer.number == 0 && self.answer.idle == 0)
            .then_some(self.answer.sender.into())
    }

    /// The slots of the winner and of the sender's last frame.
    fn winner(&self) -> Option<(usize, usize)> {
        let sender = self.sender()?;
        let places = self.places(sender);
        let id = self.answer.id;
        let winner = places.clone().find(|&place| self.before.slots[place].id == id)?;
        Some((winner, places.end - 1))
    }

    /// The slots of a node's pending frames before the call.
    fn places(&self, node: usize) -> std::ops::Range<usize> {
        let start = node * PENDING_CAPACITY;
        start..start + usize::from(self.before.state.nodes[node].pending)
    }

    /// The winner's Transmit.
    fn transmit(&self) -> Option<(Operation, &'a [u8])> {
        let (winner, _) = self.winner()?;
        let op = lent::operation_in(&self.before.slots[winner])?;
        Some((op, &self.before.payload[winner * SLOT_BYTES..][..op.data_length()]))
    }

    /// Node and buffer of a submit.
    fn submitted(&self) -> Option<(usize, &'a [u8])> {
        match self.call {
            Call::Submit { node, buffer } => Some((*node as usize, buffer)),
            _ => None,
        }
    }

    /// The node number of a submit or a collect.
    fn node(&self) -> Option<u32> {
        match *self.call {
            Call::Submit { node, .. } | Call::Collect { node, .. } => Some(node),
            _ => None,
        }
    }

    /// The node of a collect that was done.
    fn collected(&self) -> Option<usize> {
        self.node()
            .filter(|_| self.is_collect() && self.answer.number == 0)
            .map(|node| node as usize)
    }

    /// The attached nodes before the call.
    fn attached(&self) -> &'a [NodeState] {
        let State { count, ref nodes, .. } = self.before.state;
        nodes.get(..count as usize).unwrap_or_default()
    }

    fn all_pending(&self) -> usize {
        self.attached().iter().map(|node| usize::from(node.pending)).sum()
    }

    fn discards(&self, node: usize) -> bool {
        u32::from(self.before.state.nodes[node].behaviour) == codec::DISCARD_AND_NOTIFY
    }

    /// The losers of a node in a round that was carried out.
    fn losers(&self, node: usize) -> usize {
        self.places(node).len() - usize::from(self.sender() == Some(node))
    }

    /// Plays another call instead.
    fn instead(&mut self, call: &Call) {
        self.after.copy_from(self.before);
        *self.answer = Second.play(self.after, self.sizes, call);
    }

    /// Gives the answer to another call on another memory.
    fn asked(&self, call: &Call, change: impl FnOnce(&mut Memory)) -> raw::Answer {
        let mut memory = self.before.clone();
        change(&mut memory);
        Second.play(&mut memory, self.sizes, call)
    }

    /// Refuses with this number where another call is.
    fn otherwise(&mut self, call: &Call, number: u32) {
        if self.asked(call, |_| ()).number == number {
            self.refuse(number);
        }
    }

    /// The bytes that the call added to a node's queue.
    fn added(&self, node: usize) -> std::ops::Range<usize> {
        let start = node * QUEUE_CAPACITY;
        let (old, new) = (self.before.state.nodes[node].fill, self.answer.state.nodes[node].fill);
        start + usize::from(old)..start + usize::from(new)
    }

    /// Adds an operation to a node's queue, if there is room.
    fn append(&mut self, node: usize, op: &Operation, data: &[u8]) {
        let fill = &mut self.answer.state.nodes[node].fill;
        let bytes = op.encode(data);
        let queue = &mut self.after.queues[node * QUEUE_CAPACITY..][..QUEUE_CAPACITY];
        if let Some(free) = queue.get_mut(usize::from(*fill)..usize::from(*fill) + bytes.len()) {
            free.copy_from_slice(&bytes);
            *fill += bytes.len() as u16;
        }
    }
}
