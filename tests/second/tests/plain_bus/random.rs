//! Demand 3 on random sessions.

use second::bus::{Bus, PENDING_CAPACITY, QUEUE_CAPACITY};
use second::calls::Calls;
use second::session::{Call, Session};
use second::session_tally::SessionTally;

const SEED: u64 = 11_898;
const SESSIONS: usize = 400;
const CALLS: usize = 300;

#[test]
fn demand_3_holds_and_every_outcome_comes_up() {
    let mut calls = Calls::new(SEED);
    let mut tally = SessionTally::new();
    for number in 0..SESSIONS {
        let nodes = calls.start();
        let started = Session::start(nodes);
        tally.start(nodes, started.as_ref().err().copied());
        let Ok(mut session) = started else { continue };
        session.bus.round_number = calls.round_number();
        for _ in 0..CALLS {
            let call = calls.call(&session.bus);
            play(&mut session, &call, &mut tally)
                .unwrap_or_else(|fault| panic!("session {number}: {fault} after {call:?}"));
        }
    }
    println!("{tally}");
    let missing: Vec<String> = tally.missing().map(ToString::to_string).collect();
    assert!(missing.is_empty(), "never came up: {}", missing.join("; "));
}

fn play(session: &mut Session, call: &Call, tally: &mut SessionTally) -> Result<(), String> {
    let before = session.clone();
    let answer = session.play(call).map_err(|breach| format!("{breach:?}"))?;
    if answer.is_err() && *session != before {
        return Err("changed by a refusal".to_string());
    }
    if !is_valid(&session.bus) {
        return Err(format!("invalid: {:?}", session.bus));
    }
    tally.call(&before.bus, call, &answer, &session.bus);
    Ok(())
}

/// What holds of every reachable bus.
fn is_valid(bus: &Bus) -> bool {
    bus.nodes.iter().all(|node| {
        let accepted: Vec<u32> = node.pending.iter().map(|frame| frame.accepted).collect();
        node.queue.len() <= QUEUE_CAPACITY
            && accepted.len() <= PENDING_CAPACITY
            && (!node.is_bus_off() || accepted.is_empty())
            && accepted.is_sorted()
            && accepted.last().is_none_or(|&last| last <= bus.round_number)
            && (1..=3).contains(&node.status)
            && (1..=2).contains(&node.behaviour)
            && !node.baud_rates.contains(&0)
    })
}
