//! Fair turns (M-108): who is named, what that flow has to send, and where the turn then is.

mod common;

use common::{e, settings_record, worked_ack};
use nscc::{Context, Nack, Part, Place, Refusal, Sample, Settings, Turn, Word, FLOWS_MAX};

/// A new packet of this flow.
fn new(flow: usize, psn: u32) -> Turn {
    Turn {
        flow,
        resend: false,
        psn,
    }
}

/// A marked packet of this flow.
fn again(flow: usize, psn: u32) -> Turn {
    Turn {
        flow,
        resend: true,
        psn,
    }
}

/// Flows with these backlogs, whose PSNs start at 0.
fn backlogs(bytes: &[u64]) -> Context {
    let mut context = Context::set_up(&e(), bytes.len(), 64).expect("good settings");
    for (flow, &bytes) in bytes.iter().enumerate().filter(|(_, &bytes)| bytes > 0) {
        assert_eq!(context.new_data(0, flow, bytes), Ok(()));
    }
    context
}

/// The choice answers this and leaves this turn; nothing else changes.
#[track_caller]
fn chosen(context: &mut Context, expected: Option<Turn>, turn: u64) {
    let mut after = context.clone();
    after.words[Word::Turn as usize] = turn;
    assert_eq!(context.choose(), Ok(expected));
    assert_eq!(*context, after);
}

#[test]
fn two_flows_by_turns() {
    let mut context = backlogs(&[8192, 8192]);
    assert_eq!(context.word(Word::Turn), 0);
    chosen(&mut context, Some(new(0, 0)), 1);
    assert_eq!(context.path(1, 0), Ok(0));
    assert_eq!(context.send(1, 0, 0, 4096, false), Ok(()));
    chosen(&mut context, Some(new(1, 0)), 0);
    // It does not send: flow 0 is next all the same.
    chosen(&mut context, Some(new(0, 1)), 1);
    assert_eq!(context.send(1, 0, 1, 4096, false), Ok(()));
    // Flow 0 has nothing left to send.
    chosen(&mut context, Some(new(1, 0)), 0);
    chosen(&mut context, Some(new(1, 0)), 0);
    assert_eq!(context.send(2, 1, 0, 4096, false), Ok(()));
    // A packet out of turn does not move it.
    assert_eq!(context.send(2, 1, 1, 4096, false), Ok(()));
    assert_eq!(context.word(Word::Turn), 0);
    chosen(&mut context, None, 0);
    // What is marked is sent again before what is new.
    assert_eq!(context.new_data(3, 1, 100), Ok(()));
    assert_eq!(context.loss(3, 1, 1, 0), Ok(()));
    chosen(&mut context, Some(again(1, 1)), 0);
    assert_eq!(context.send(4, 1, 1, 4096, true), Ok(()));
    chosen(&mut context, Some(new(1, 2)), 0);
}

/// Every flow is ready, and each is named once in a round. The last one of eight comes to its turn
/// at the eighth choice.
#[test]
fn a_round_of_each_number_of_flows() {
    for flows in 1..=FLOWS_MAX {
        let mut context = backlogs(&vec![100; flows]);
        for _ in 0..2 {
            for flow in 0..flows - 1 {
                chosen(&mut context, Some(new(flow, 0)), flow as u64 + 1);
            }
            chosen(&mut context, Some(new(flows - 1, 0)), 0);
        }
    }
}

#[test]
fn flows_that_are_not_ready_are_passed_over() {
    let mut context = backlogs(&[0, 100, 0, 100, 0]);
    chosen(&mut context, Some(new(1, 0)), 2);
    chosen(&mut context, Some(new(3, 0)), 4);
    chosen(&mut context, Some(new(1, 0)), 2);
}

/// Nobody is ready: the turn stays where it is.
#[test]
fn nobody_leaves_the_turn() {
    for turn in 0..3 {
        let mut context = backlogs(&[0, 0, 0]);
        context.words[Word::Turn as usize] = turn;
        chosen(&mut context, None, turn);
        chosen(&mut context, None, turn);
    }
}

/// 64 packets of flow 1 fill its ring, and more wait.
#[test]
fn a_full_ring() {
    let mut context = backlogs(&[0, 65 * 41, 0]);
    for psn in 0..64 {
        chosen(&mut context, Some(new(1, psn)), 2);
        assert_eq!(context.send(1, 1, psn, 41, false), Ok(()));
    }
    chosen(&mut context, None, 2);
    assert_eq!(context.send(1, 1, 64, 41, false), Err(Refusal::RingFull));
    // A marked packet has its slot. That nearest to low goes, whichever was lost first.
    for psn in [63, 7, 9] {
        assert_eq!(context.loss(2, 1, psn, 0), Ok(()));
    }
    for psn in [7, 9, 63] {
        chosen(&mut context, Some(again(1, psn)), 2);
        assert_eq!(context.send(3, 1, psn, 41, true), Ok(()));
    }
    chosen(&mut context, None, 2);
    // Another flow's ring is not full.
    assert_eq!(context.new_data(3, 0, 41), Ok(()));
    chosen(&mut context, Some(new(0, 0)), 1);
}

/// A window of 8192 bytes and packets of up to 4096: 4096 in flight leave room, 4097 do not.
#[test]
fn the_window_full_and_a_byte_over() {
    let settings = Settings {
        max_wnd: 8192,
        ..e()
    };
    for (first, in_flight, named) in [(4055, 4096, true), (4056, 4097, false)] {
        let mut context = Context::set_up(&settings, 2, 64).expect("good settings");
        assert_eq!(context.new_data(0, 0, 8192), Ok(()));
        assert_eq!(context.new_data(0, 1, 8192), Ok(()));
        chosen(&mut context, Some(new(0, 0)), 1);
        assert_eq!(context.send(0, 0, 0, first, false), Ok(()));
        assert_eq!(context.send(0, 0, 1, 41, false), Ok(()));
        assert_eq!(
            (context.in_flight(), context.word(Word::Cwnd)),
            (in_flight, 8192)
        );
        let (turn, after) = if named {
            (Some(new(1, 0)), 0)
        } else {
            (None, 1)
        };
        chosen(&mut context, turn, after);
        let sent = context.send(0, 1, 0, 4096, false);
        let full = Err(Refusal::WindowFull);
        assert_eq!(sent, if named { Ok(()) } else { full });
    }
}

/// The window is closed for a marked packet as well: both sizes were sent, and one is lost.
#[test]
fn a_marked_packet_waits_for_the_window() {
    let settings = Settings {
        max_wnd: 12_288,
        ..e()
    };
    let mut context = Context::set_up(&settings, 2, 64).expect("good settings");
    assert_eq!(context.new_data(0, 1, 12_288), Ok(()));
    for (psn, bytes) in [(0, 4096), (1, 41), (2, 4096)] {
        assert_eq!(context.send(0, 1, psn, bytes, false), Ok(()));
    }
    assert_eq!(context.loss(1, 1, 1, 0), Ok(()));
    assert_eq!(context.in_flight(), 8192);
    // A loss narrows the window: 8192 + 4096 are over it.
    assert!(context.word(Word::Cwnd) < 12_288);
    chosen(&mut context, None, 0);
    assert_eq!(context.send(1, 1, 1, 41, true), Err(Refusal::WindowFull));
}

/// From 2^32 - 2 on: PSN 1 is nearer to low than PSN 2, and both are behind 2^32 - 1.
#[test]
fn marked_packets_across_the_wrap() {
    let settings = Settings {
        first_psn: u32::MAX - 1,
        ..e()
    };
    let mut context = Context::set_up(&settings, 1, 64).expect("good settings");
    assert_eq!(context.new_data(0, 0, 600), Ok(()));
    chosen(&mut context, Some(new(0, u32::MAX - 1)), 0);
    for psn in [u32::MAX - 1, u32::MAX, 0, 1, 2] {
        assert_eq!(context.send(0, 0, psn, 100, false), Ok(()));
    }
    chosen(&mut context, Some(new(0, 3)), 0);
    for (lost, nearest) in [(2, 2), (1, 1), (u32::MAX, u32::MAX)] {
        assert_eq!(context.loss(1, 0, lost, 0), Ok(()));
        chosen(&mut context, Some(again(0, nearest)), 0);
    }
}

/// 40 bytes are no packet: the flow has its turn, and cannot use it.
#[test]
fn a_backlog_of_less_than_a_packet() {
    let mut context = backlogs(&[40, 41]);
    chosen(&mut context, Some(new(0, 0)), 1);
    assert_eq!(context.send(0, 0, 0, 40, false), Err(Refusal::Size));
    assert_eq!(context.send(0, 0, 0, 41, false), Err(Refusal::Backlog));
    chosen(&mut context, Some(new(1, 0)), 0);
    assert_eq!(context.send(0, 1, 0, 41, false), Ok(()));
}

/// Only a choice moves the turn: one of each event, accepted.
#[test]
fn events_leave_the_turn() {
    let mut context = backlogs(&[8192, 8192, 0]);
    chosen(&mut context, Some(new(0, 0)), 1);
    assert_eq!(context.new_data(0, 1, 100), Ok(()));
    for (flow, psn) in [(0, 0), (0, 1), (1, 0)] {
        assert_eq!(context.send(10, flow, psn, 4096, false), Ok(()));
    }
    assert_eq!(context.ack(&worked_ack()), Ok(Sample::Taken));
    let nack = Nack {
        time: 111,
        flow: 0,
        psn: 1,
        ev: 0,
        reason: 2,
        marked: false,
        retx: false,
    };
    assert_eq!(context.nack(&nack), Ok(Sample::Taken));
    assert_eq!(context.loss(112, 1, 0, 0), Ok(()));
    assert_eq!(context.path(112, 2), Ok(1));
    assert_eq!(context.send(112, 0, 1, 4096, true), Ok(()));
    chosen(&mut context, Some(again(1, 0)), 2);
}

/// New data of flows 0 and 1 in a log: records of kind 33.
fn new_data_of_two() -> Vec<u8> {
    let new_data = |flow| [15, 0, 33, 0, 7, 0, 0, 0, 0, 0, 0, 0, flow, 100, 0, 0, 0];
    [settings_record(), new_data(0).into(), new_data(1).into()].concat()
}

/// A log has no record of a choice: choices between its parts go on from one another.
#[test]
fn a_log_leaves_the_turn() {
    let log = new_data_of_two();
    let mut context = Context::empty(2, 64);
    let mut place = Place::default();
    let mut answers = [9; 2];
    assert_eq!(context.replay(&mut place, &log, &mut answers), Ok(2));
    assert_eq!(answers, [0, 0]);
    chosen(&mut context, Some(new(0, 0)), 1);
    assert_eq!(context.replay(&mut place, &log, &mut answers), Ok(1));
    chosen(&mut context, Some(new(1, 0)), 0);

    let mut context = Context::empty(2, 64);
    let mut part = Part::default();
    let (front, back) = log.split_at(57 + 17);
    assert_eq!(context.chunk(&mut part, front, false, &mut answers), Ok(2));
    chosen(&mut context, Some(new(0, 0)), 1);
    assert_eq!(context.chunk(&mut part, back, true, &mut answers), Ok(1));
    chosen(&mut context, Some(new(1, 0)), 0);
    // A turn that names no flow is refused here too.
    context.words[Word::Turn as usize] = 2;
    let refused = context.chunk(&mut part, &[], true, &mut answers);
    assert_eq!(refused, Err(Refusal::Unsound));
}

#[test]
fn a_turn_that_names_no_flow() {
    for flows in 1..=FLOWS_MAX {
        for turn in [flows as u64, 8, 9, 256, 1 << 32, u64::MAX] {
            let mut context = backlogs(&vec![100; flows]);
            context.words[Word::Turn as usize] = turn;
            let before = context.clone();
            assert_eq!(context.choose(), Err(Refusal::Unsound));
            assert_eq!(context.path(0, 0), Err(Refusal::Unsound));
            assert_eq!(context.new_data(0, 0, 1), Err(Refusal::Unsound));
            assert_eq!(context.status(0, 0), Err(Refusal::Unsound));
            assert_eq!(context, before);
        }
    }
    // The last flow is one.
    let mut context = backlogs(&[100, 100, 100]);
    context.words[Word::Turn as usize] = 2;
    chosen(&mut context, Some(new(2, 0)), 0);
}

/// The four words as the header has them, and what a refusal leaves of them.
#[test]
fn the_words_of_a_turn() {
    let mut context = backlogs(&[0, 0, 200]);
    let mut turn = [9; 4];
    assert_eq!(context.lend().choose(&mut turn), 0);
    assert_eq!(turn, [1, 2, 0, 0]);
    for psn in 0..2 {
        assert_eq!(context.send(0, 2, psn, 100, false), Ok(()));
    }
    let mut turn = [9; 4];
    assert_eq!(context.lend().choose(&mut turn), 0);
    assert_eq!(turn, [0, 0, 0, 0]);
    assert_eq!(context.loss(0, 2, 1, 0), Ok(()));
    let mut turn = [9; 4];
    assert_eq!(context.lend().choose(&mut turn), 0);
    assert_eq!(turn, [1, 2, 1, 1]);

    context.words[Word::Turn as usize] = 1;
    let before = context.clone();
    for length in [0, 1, 3, 5, 8] {
        let mut turn = vec![9; length];
        assert_eq!(context.lend().choose(&mut turn), 2);
        assert_eq!((turn, &context), (vec![9; length], &before));
    }
    context.words[Word::Cwnd as usize] = 0;
    let mut turn = [9; 4];
    assert_eq!(context.lend().choose(&mut turn), 2);
    assert_eq!(turn, [9; 4]);
}
