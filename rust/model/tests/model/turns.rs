//! Fair turns (M-108): who is named, what goes, and where the turn then is, by hand from the text.

use crate::flows::{eight, LOWS};
use crate::rig::*;
use model::replay::{program_memory, Replay};
use model::{gen, Chunk, Memory, Name, Outcome, Part, Refusal, State, Turn};

const NOW: u64 = 10_050;

/// A new packet of this flow goes.
pub fn new(flow: u64, psn: u32) -> Turn {
    Turn {
        flow,
        resend: false,
        psn,
    }
}

/// A marked packet of this flow goes.
pub fn again(flow: u64, psn: u32) -> Turn {
    Turn {
        flow,
        resend: true,
        psn,
    }
}

/// Flows with these backlogs, of which nothing has been sent; their PSNs start at 0.
pub fn backlogs(bytes: &[u64]) -> Rig {
    let mut rig = Rig::e_with_flows(bytes.len());
    for (flow, &bytes) in bytes.iter().enumerate() {
        rig.memory.flows[flow].backlog = bytes;
    }
    rig.settle();
    rig
}

pub fn with_turn(mut rig: Rig, turn: u64) -> Rig {
    rig.state.turn = turn;
    rig
}

pub fn with_in_flight(mut rig: Rig, bytes: i64) -> Rig {
    rig.state.in_flight = bytes;
    rig.rename();
    rig
}

/// A choice by both forms must answer this and leave this turn. Nothing else may change.
#[track_caller]
fn answers(rig: &mut Rig, expected: Option<Turn>, turn: u64) {
    let after = with_turn(rig.clone(), turn);
    let mut trusted = rig.clone();
    assert_eq!(rig.choose(), Ok(expected));
    assert_eq!(*rig, after);
    let lent = trusted.memory.lend();
    assert_eq!(trusted.state.choose_trusted(&lent), expected);
    assert_eq!(trusted, after);
}

#[track_caller]
fn names(rig: &mut Rig, expected: Turn, turn: u64) {
    answers(rig, Some(expected), turn);
}

#[track_caller]
fn nobody(rig: &mut Rig) {
    let turn = rig.state.turn;
    answers(rig, None, turn);
}

#[test]
fn set_up_starts_at_flow_0() {
    assert_eq!(State::default().turn, 0);
    for flows in 1..=8 {
        let mut rig = Rig::with_flows(e(), flows, 64);
        assert_eq!(rig.state.turn, 0);
        // The last flow has data first.
        for flow in (0..flows as u64).rev() {
            rig.accept(of(flow, new_data(5, 100)));
        }
        names(&mut rig, new(0, 0), if flows == 1 { 0 } else { 1 });
        // Set up once more.
        let (answer, state) = State::set_up(&e(), &mut rig.memory.lend());
        assert_eq!((answer, state.turn), (0, 0));
        // Refused, it leaves the state of zeros.
        let (answer, state) = State::set_up(&e().with_evs(0), &mut rig.memory.lend());
        assert_eq!((answer, state.turn), (1, 0));
    }
}

#[test]
fn a_round_of_three() {
    let mut rig = backlogs(&[1_000, 1_000, 1_000]);
    for (flow, turn) in [(0, 1), (1, 2), (2, 0), (0, 1), (1, 2), (2, 0), (0, 1)] {
        names(&mut rig, new(flow, 0), turn);
    }
}

#[test]
fn a_round_of_eight_with_sends_between() {
    let mut rig = backlogs(&[1_000; 8]);
    for psn in 0..3 {
        for (flow, turn) in [1, 2, 3, 4, 5, 6, 7, 0].into_iter().enumerate() {
            names(&mut rig, new(flow as u64, psn), turn);
            rig.accept(of(flow as u64, send(NOW, psn, 100)));
        }
    }
}

/// There is nobody else: the turn is 0 before and after.
#[test]
fn a_flow_by_itself() {
    let mut rig = backlogs(&[1_000]);
    for psn in 0..3 {
        names(&mut rig, new(0, psn), 0);
        names(&mut rig, new(0, psn), 0);
        rig.accept(send(NOW, psn, 100));
    }
    let mut marked = Rig::e().lay(9, &[(FLYING, 100, 0, 0), (MARKED, 100, 0, 0)]);
    names(&mut marked, again(0, 10), 0);
}

/// Each flow alone is ready, from every held turn; behind the last flow comes flow 0.
#[test]
fn the_round_goes_over_all_flows() {
    let after = [1, 2, 3, 4, 5, 6, 7, 0];
    for flow in 0..8 {
        for turn in 0..8 {
            let mut bytes = [0; 8];
            bytes[flow] = 500;
            let mut rig = with_turn(backlogs(&bytes), turn);
            names(&mut rig, new(flow as u64, 0), after[flow]);
            names(&mut rig, new(flow as u64, 0), after[flow]);
        }
    }
    // Flows 1, 2 and 6 of eight; 0 and 2 of three.
    for (turn, flow, then) in [
        (0, 1, 2),
        (1, 1, 2),
        (2, 2, 3),
        (3, 6, 7),
        (5, 6, 7),
        (6, 6, 7),
        (7, 1, 2),
    ] {
        let rig = backlogs(&[0, 9, 9, 0, 0, 0, 9, 0]);
        names(&mut with_turn(rig, turn), new(flow, 0), then);
    }
    for (turn, flow, then) in [(0, 0, 1), (1, 2, 0), (2, 2, 0)] {
        let rig = backlogs(&[9, 0, 9]);
        names(&mut with_turn(rig, turn), new(flow, 0), then);
    }
}

/// "Turns go round from the flow after the last one named, whether it then sent or not."
#[test]
fn a_named_flow_that_does_not_send_waits_for_the_others() {
    let mut rig = backlogs(&[1_000, 1_000, 1_000]);
    names(&mut rig, new(0, 0), 1);
    // It sends nothing, and gets more; flow 1 sends twice.
    rig.accept(new_data(NOW, 5_000));
    names(&mut rig, new(1, 0), 2);
    rig.accept(of(1, send(NOW, 0, 100)));
    rig.accept(of(1, send(NOW, 1, 100)));
    names(&mut rig, new(2, 0), 0);
    names(&mut rig, new(0, 0), 1);
    // Flow 0 sends out of turn: it counts for nothing.
    rig.accept(send(NOW, 0, 100));
    names(&mut rig, new(1, 2), 2);
    rig.accept(of(1, send(NOW, 2, 800)));
    names(&mut rig, new(2, 0), 0);
    names(&mut rig, new(0, 1), 1);
    // Flow 1 has nothing left.
    names(&mut rig, new(2, 0), 0);
    // A byte that comes for flow 1 is named after flow 0, whose turn it is.
    rig.accept(of(1, new_data(NOW, 1)));
    names(&mut rig, new(0, 1), 1);
    names(&mut rig, new(1, 3), 2);
}

#[test]
fn any_backlog_makes_ready() {
    for bytes in [1, 2, 40, 41, 4_096, 1 << 40] {
        names(&mut backlogs(&[0, bytes, 0]), new(1, 0), 2);
        // With one slot left.
        let mut rig = backlogs(&[0, bytes]).lay_in(1, 70, &[(FLYING, 41, 0, 0); 63]);
        names(&mut rig, new(1, 133), 0);
    }
    nobody(&mut backlogs(&[0, 0, 0]));
}

#[test]
fn a_full_ring_with_backlog_only_is_not_ready() {
    for low in [0, 63, 64, 4_294_967_290u32] {
        for status in [FLYING, DONE] {
            let mut slots = [(status, 41, 0, 0); 64];
            slots[0].0 = FLYING;
            let full = backlogs(&[5_000, 0]).lay(low, &slots);
            nobody(&mut full.clone());
            nobody(&mut with_turn(full, 1));
            // Another flow is named in its place, and next time too.
            let mut rig = backlogs(&[5_000, 1, 5_000]).lay(low, &slots);
            for (flow, turn) in [(1, 2), (2, 0), (1, 2), (2, 0)] {
                names(&mut rig, new(flow, 0), turn);
            }
            // With one slot free.
            let mut rig = backlogs(&[5_000, 0]).lay(low, &slots[..63]);
            names(&mut rig, new(0, low.wrapping_add(63)), 1);
        }
    }
}

/// An ACK makes room in the full ring; the send that uses it fills the ring again.
#[test]
fn a_ring_that_fills_and_empties() {
    let mut rig = backlogs(&[500, 0]).lay(4_294_967_290, &[(FLYING, 41, 9_000, 0); 64]);
    nobody(&mut rig);
    rig.accept(ack(NOW, 4_294_967_290, 0));
    names(&mut rig, new(0, 58), 1);
    rig.accept(send(NOW, 58, 41));
    nobody(&mut rig);
    rig.accept(loss(NOW, 3));
    names(&mut rig, again(0, 3), 1);
}

#[test]
fn a_marked_packet_makes_ready_with_a_full_ring() {
    for (low, i) in [
        (0, 0),
        (0, 63),
        (7, 30),
        (4_294_967_270, 0),
        (4_294_967_270, 63),
    ] {
        let mut slots = [(FLYING, 41, 0, 0); 64];
        slots[i].0 = MARKED;
        let psn = u32::wrapping_add(low, i as u32);
        for bytes in [0, 1, 5_000] {
            let mut rig = backlogs(&[0, bytes, 0]).lay_in(1, low, &slots);
            names(&mut rig, again(1, psn), 2);
            names(&mut with_turn(rig, 2), again(1, psn), 2);
        }
        let mut all = Rig::e().lay(low, &[(MARKED, 41, 0, 0); 64]);
        names(&mut all, again(0, low), 0);
    }
}

#[test]
fn a_marked_packet_goes_first() {
    let slots = [(FLYING, 100, 9_000, 0), (MARKED, 100, 9_000, 0)];
    let mut rig = backlogs(&[800, 800]).lay(40, &slots);
    names(&mut rig, again(0, 41), 1);
    // What is marked in flow 0 is no other flow's.
    names(&mut rig, new(1, 0), 0);
    rig.accept(resend(NOW, 41, 100));
    names(&mut rig, new(0, 42), 1);
    names(&mut rig, new(1, 0), 0);
    rig.accept(of(1, send(NOW, 0, 100)));
    rig.accept(of(1, send(NOW, 1, 100)));
    rig.accept(of(1, nack(NOW, 0, 2)));
    names(&mut rig, new(0, 42), 1);
    names(&mut rig, again(1, 0), 0);
}

/// The packets from `low` on, in a ring of so many slots, and the PSN that goes.
#[track_caller]
fn goes(capacity: usize, low: u32, statuses: &[u8], psn: u32) {
    let slots: Vec<Slot> = statuses.iter().map(|&status| (status, 41, 0, 0)).collect();
    for flow in [0, 2] {
        let rig = Rig::with_flows(e(), 3, capacity).lay_in(flow, low, &slots);
        let after = if flow == 0 { 1 } else { 0 };
        names(&mut with_turn(rig, 1), again(flow as u64, psn), after);
    }
}

#[test]
fn the_marked_packet_nearest_to_low() {
    goes(64, 0, &[MARKED], 0);
    goes(64, 5, &[MARKED, MARKED, MARKED], 5);
    goes(64, 5, &[FLYING, DONE, MARKED, FLYING, MARKED], 7);
    goes(64, 5, &[FLYING, DONE, DONE, DONE, MARKED], 9);
    // Around the ring's end, where the later packet has the lower slot.
    goes(64, 62, &[FLYING, MARKED, MARKED], 63);
    goes(64, 62, &[FLYING, FLYING, MARKED, FLYING, MARKED], 64);
    // Around 2^32, where it has the lower PSN: 4,294,967,294, 4,294,967,295, 0, 1, 2.
    let low = 4_294_967_294;
    goes(64, low, &[MARKED, MARKED, MARKED, MARKED], low);
    goes(64, low, &[FLYING, MARKED, MARKED], 4_294_967_295);
    goes(
        64,
        low,
        &[FLYING, MARKED, DONE, FLYING, MARKED],
        4_294_967_295,
    );
    goes(64, low, &[FLYING, FLYING, MARKED, MARKED], 0);
    goes(64, low, &[FLYING, DONE, FLYING, MARKED, MARKED], 1);
    goes(64, low, &[FLYING, DONE, FLYING, FLYING, MARKED], 2);
}

/// More than a word of the ring away, and the last of a full ring.
#[test]
fn a_marked_packet_far_from_low() {
    for (low, i, psn) in [
        (0, 64, 64),
        (0, 127, 127),
        (1, 127, 128),
        (100, 63, 163),
        (4_294_967_295, 1, 0),
        (4_294_967_200, 95, 4_294_967_295),
        (4_294_967_200, 96, 0),
        (4_294_967_200, 127, 31),
    ] {
        let mut statuses = [FLYING; 128];
        statuses[i] = MARKED;
        goes(128, low, &statuses, psn);
        // Everything behind it is marked too.
        statuses[i..].fill(MARKED);
        goes(128, low, &statuses, psn);
    }
}

/// MTU 4,096: in-flight + MTU of exactly cwnd names somebody, one byte more nobody.
#[test]
fn a_window_that_is_just_full() {
    for turn in [0, 1, 2] {
        for bytes in [1, 5_000] {
            let rig = with_turn(backlogs(&[0, bytes, 0]), turn);
            names(&mut with_in_flight(rig.clone(), 610_303), new(1, 0), 2);
            names(&mut with_in_flight(rig.clone(), 610_304), new(1, 0), 2);
            nobody(&mut with_in_flight(rig.clone(), 610_305));
            nobody(&mut with_in_flight(rig, 614_400));
        }
        // The size of the packet does not matter, nor that it is marked.
        let rig = Rig::e_with_flows(3).lay_in(1, 5, &[(MARKED, 41, 0, 0)]);
        let rig = with_turn(rig, turn);
        names(&mut with_in_flight(rig.clone(), 610_304), again(1, 5), 2);
        nobody(&mut with_in_flight(rig, 610_305));
    }
    // A window of one packet, and in-flight below zero.
    let mut rig = backlogs(&[9, 9]);
    rig.state.cwnd = 4_096;
    for bytes in [-(1 << 24), -1, 0] {
        names(&mut with_in_flight(rig.clone(), bytes), new(0, 0), 1);
    }
    nobody(&mut with_in_flight(rig, 1));
}

/// The window opens again: the turn is where it was.
#[test]
fn a_full_window_leaves_the_turn() {
    let mut rig = backlogs(&[9, 9, 9]);
    names(&mut rig, new(0, 0), 1);
    for _ in 0..3 {
        rig = with_in_flight(rig, 610_305);
        nobody(&mut rig);
        nobody(&mut rig);
    }
    rig = with_in_flight(rig, 0);
    names(&mut rig, new(1, 0), 2);
}

/// Nothing to send, whatever flies; the turn stays where it is.
#[test]
fn nobody_is_ready() {
    for turn in 0..8 {
        nobody(&mut with_turn(Rig::e_with_flows(8), turn));
        let mut rig = Rig::e_with_flows(8);
        for (flow, low) in LOWS.into_iter().enumerate() {
            let slots = [(FLYING, 100, 9_000, 2), (DONE, 100, 9_000, 0)];
            rig = rig.lay_in(flow, low, &slots);
        }
        assert_eq!(rig.state.name, Name::Pending);
        let mut rig = with_turn(rig, turn);
        nobody(&mut rig);
        // READY by a byte whose ring is full.
        let slots = [(FLYING, 41, 9_000, 0); 64];
        rig.memory.flows[3].backlog = 1;
        let mut rig = rig.lay_in(3, LOWS[3], &slots);
        assert_eq!(rig.state.name, Name::Ready);
        nobody(&mut rig);
        rig.accept(of(turn, new_data(NOW, 1)));
        let next = LOWS[turn as usize].wrapping_add(2);
        match turn {
            3 => nobody(&mut rig),
            7 => names(&mut rig, new(7, next), 0),
            _ => names(&mut rig, new(turn, next), turn + 1),
        }
    }
}

/// Every flow of `eight` has its second packet marked; its backlog is 1,000 k, so flow 0 has none.
#[test]
fn eight_flows_that_resend_and_then_send() {
    let mut rig = eight();
    let order = [5, 6, 7, 0, 1, 2, 3, 4];
    let after = [6, 7, 0, 1, 2, 3, 4, 5];
    for (flow, turn) in order.into_iter().zip(after) {
        let psn = LOWS[flow].wrapping_add(1);
        names(&mut rig, again(flow as u64, psn), turn);
        rig.accept(of(flow as u64, resend(NOW, psn, 200 + flow as u32)));
    }
    for (flow, turn) in order.into_iter().zip(after) {
        if flow != 0 {
            let next = LOWS[flow].wrapping_add(4);
            names(&mut rig, new(flow as u64, next), turn);
        }
    }
}

/// A choice has no time: at any clock, with times ahead, it only looks at flows and window.
#[test]
fn the_clock_does_not_matter() {
    for clock in [0, 10_000, (1 << 48) - 1] {
        let mut rig = backlogs(&[0, 50]);
        rig.state.clock = clock;
        rig.state.last_adjust = 0;
        rig.state.qa_end = (1 << 49) - 1;
        rig.memory.ev_times.fill((1 << 49) - 1);
        names(&mut rig, new(1, 0), 0);
        assert_eq!(rig.state.clock, clock);
    }
}

/// Of one to eight flows, with everything ready: 2 to a choice and to every event, of any flow.
#[test]
fn a_turn_that_names_no_flow() {
    for flows in 1..=8u64 {
        let mut rig = Rig::e_with_flows(flows as usize);
        rig.state.in_flight = 8_192;
        for flow in 0..flows as usize {
            rig.memory.flows[flow].backlog = 3_000;
            let slots = [(FLYING, 100, 9_950, 0), (MARKED, 100, 9_960, 1)];
            rig = rig.lay_in(flow, 100, &slots);
        }
        let last = with_turn(rig.clone(), flows - 1);
        names(&mut last.clone(), again(flows - 1, 101), 0);
        for turn in [flows, flows + 1, 8, 255, 256, 1 << 32, u64::MAX] {
            let mut spoilt = with_turn(rig.clone(), turn);
            spoilt.refuse_choice();
            for flow in [0, flows - 1, flows] {
                for event in [
                    new_data(NOW, 1),
                    send(NOW, 102, 41),
                    resend(NOW, 101, 100),
                    ack(NOW, 100, 1).into(),
                    nack(NOW, 100, 0).into(),
                    loss(NOW, 100).into(),
                    path(NOW),
                ] {
                    spoilt.refuse(2, of(flow, event));
                    if flow < flows {
                        assert_eq!(last.after(of(flow, event)).state.turn, flows - 1);
                    }
                }
            }
            let lent = spoilt.memory.lend();
            let together = Err(Refusal::NotTogether);
            assert_eq!(spoilt.state.status(&lent, 0, 100).map(|_| ()), together);
            assert_eq!(
                spoilt.state.next_marked(&lent, 0, 100).map(|_| ()),
                together
            );
        }
    }
}

/// The state of zeros, and no flow at all.
#[test]
fn nothing_to_choose_from() {
    for flows in [0, 1, 8, 9] {
        let mut rig = Rig {
            state: State::default(),
            memory: Memory::with_flows(flows, 64, 256),
        };
        rig.refuse_choice();
    }
    let mut none = Rig::e();
    none.memory = Memory::with_flows(0, 0, 256);
    none.refuse_choice();
}

/// The log has no record of a choice. Record 1 sets the turn to 0; no other record moves it, in a
/// log of one piece and in chunks.
#[test]
fn a_replay_leaves_the_turn() {
    let log = gen::flows(3, 400);
    for turn in [0, 3, 7] {
        let (first, rest) = log.split_at(57);
        let mut memory = program_memory(256);
        let mut state = State {
            turn: 5,
            ..State::default()
        };
        let mut part = Part::default();
        let mut answers = [Outcome::from(0); 400];
        let mut take = |state: &mut State, bytes| {
            let ended = false;
            let chunk = Chunk { bytes, ended };
            let taken = part.take(state, &mut memory.lend(), chunk, &mut answers);
            taken.map(|taken| taken.answered)
        };
        assert_eq!(take(&mut state, first), Ok(1));
        assert_eq!(state.turn, 0);
        state.turn = turn;
        let start = state;
        assert_eq!(take(&mut state, rest), Ok(399));
        assert_eq!(state.turn, turn);

        let mut memory = program_memory(256);
        let (answer, _) = State::set_up(&start.settings, &mut memory.lend());
        let mut replay = Replay::resume(rest, start, memory.lend());
        while let Ok(Some(_)) = replay.step() {}
        assert_eq!(replay.offset(), rest.len());
        assert_eq!((answer, replay.state), (0, state));
    }
}
