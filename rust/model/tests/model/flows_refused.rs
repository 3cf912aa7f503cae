//! Refusals of several flows (M-107): 25 in its place among the others, and those that look at one
//! flow or at all of them. Setting up with any number of flows.

use crate::rig::*;
use model::{Ack, Event, Flow, Loss, Memory, Nack, State};

const NOW: u64 = 10_050;

/// Every flow has low 100 and next 104: flying, marked, done, flying; and 3,000 bytes of backlog.
fn rig(flows: usize) -> Rig {
    let mut rig = Rig::e_with_flows(flows);
    rig.state.in_flight = 8_192;
    for flow in 0..flows {
        rig.memory.flows[flow].backlog = 3_000;
        let slots = [
            (FLYING, 4_096, 9_950, 0),
            (MARKED, 1_000, 9_960, 1),
            (DONE, 4_096, 9_970, 0),
            (FLYING, 4_096, 9_980, 2),
        ];
        rig = rig.lay_in(flow, 100, &slots);
    }
    rig
}

/// One event of each kind that any flow of `rig()` accepts.
fn one_of_each(time: u64) -> Vec<Event> {
    vec![
        new_data(time, 1),
        send(time, 104, 41),
        resend(time, 101, 1_000),
        ack(time, 100, 1).into(),
        nack(time, 100, 0).into(),
        loss(time, 103).into(),
        path(time),
    ]
}

/// Numbers of no flow, where there are so many.
fn out_of_range(flows: usize) -> [u64; 7] {
    let end = flows as u64;
    [end, end + 1, 255, 256, 1 << 32, u64::MAX - 1, u64::MAX]
}

#[test]
fn number_25_at_the_number_of_flows() {
    for flows in 1..=8 {
        let before = rig(flows);
        for event in one_of_each(NOW) {
            for flow in 0..flows as u64 {
                before.after(of(flow, event));
            }
            for flow in out_of_range(flows) {
                before.clone().refuse(25, of(flow, event));
            }
        }
    }
}

#[test]
fn number_3_and_number_2_before_25() {
    for flows in [1, 2, 8] {
        for flow in out_of_range(flows) {
            for time in [9_999, 0, 1 << 48, u64::MAX] {
                for event in one_of_each(time) {
                    rig(flows).refuse(3, of(flow, event));
                }
            }
            for event in one_of_each(NOW) {
                let mut spoilt = rig(flows);
                spoilt.state.cwnd = 0;
                spoilt.refuse(2, of(flow, event));
            }
        }
    }
}

/// Events that flow 0 refuses with this number: of no flow they are 25.
#[track_caller]
fn number_25_before(number: u8, rig: &Rig, event: impl Into<Event>) {
    let event = event.into();
    rig.clone().refuse(number, event);
    for flow in out_of_range(rig.memory.flows.len()) {
        rig.clone().refuse(25, of(flow, event));
    }
}

#[test]
fn number_25_before_the_fields() {
    for flows in [1, 2, 8] {
        let rig = rig(flows);
        number_25_before(4, &rig, send(NOW, 104, 40));
        number_25_before(4, &rig, send(NOW, 104, 4_097));
        number_25_before(4, &rig, resend(NOW, 101, 40));
        number_25_before(20, &rig, new_data(NOW, 0));
        number_25_before(20, &rig, new_data(NOW, 1 << 40));
        number_25_before(21, &rig, ack(NOW, 100, 1 << 24));
        number_25_before(22, &rig, nack(NOW, 100, 3));
        let ev = 256;
        let good = ack(NOW, 100, 1);
        number_25_before(23, &rig, Ack { ev, ..good });
        let good = nack(NOW, 100, 0);
        number_25_before(23, &rig, Nack { ev, ..good });
        let good = loss(NOW, 100);
        number_25_before(23, &rig, Loss { ev, ..good });
        let good = ack(NOW, 100, 1);
        let trigger = 102;
        number_25_before(24, &rig, Ack { trigger, ..good });
    }
}

#[test]
fn number_25_before_the_ledger_and_the_window() {
    for flows in [1, 2, 8] {
        let rig = rig(flows);
        number_25_before(8, &rig, send(NOW, 105, 41));
        number_25_before(8, &rig, resend(NOW, 100, 4_096));
        number_25_before(5, &rig, send(NOW, 104, 3_001));
        number_25_before(9, &rig, ack(NOW, 104, 1));
        number_25_before(10, &rig, nack(NOW, 101, 0));
        number_25_before(10, &rig, loss(NOW, 104));
        let mut closed = rig.clone();
        closed.state.in_flight = 610_305;
        closed.rename();
        number_25_before(6, &closed, send(NOW, 104, 41));
        number_25_before(6, &closed, resend(NOW, 101, 1_000));
        let mut deep = rig.clone();
        deep.state.in_flight = -(1 << 24);
        number_25_before(11, &deep, ack(NOW, 100, 1));
        number_25_before(11, &deep, nack(NOW, 100, 0));
        number_25_before(11, &deep, loss(NOW, 100));
        let full = rig.lay(100, &[(FLYING, 41, 9_950, 0); 64]);
        number_25_before(7, &full, send(NOW, 164, 41));
    }
}

#[test]
fn a_full_ring_is_its_own_flows() {
    let mut rig = Rig::e_with_flows(2)
        .lay_in(0, 7, &[(FLYING, 41, 9_000, 0); 64])
        .lay_in(1, 300, &[(FLYING, 41, 9_000, 0); 63]);
    for flow in 0..2 {
        rig.accept(of(flow, new_data(NOW, 1_000)));
    }
    rig.refuse(7, send(NOW, 71, 41));
    rig.accept(of(1, send(NOW, 363, 41)));
    rig.refuse(7, of(1, send(NOW, 364, 41)));
    rig.refuse(7, send(NOW, 71, 41));
    // An ACK makes room in its own ring.
    rig.accept(ack(NOW, 7, 0));
    rig.refuse(7, of(1, send(NOW, 364, 41)));
    rig.accept(send(NOW, 71, 41));
    rig.refuse(7, send(NOW, 72, 41));
    rig.accept(of(1, ack(NOW, 301, 0)));
    rig.accept(of(1, send(NOW, 364, 41)));
    rig.accept(of(1, send(NOW, 365, 41)));
    rig.refuse(7, of(1, send(NOW, 366, 41)));
    assert_eq!(rig.state.flying, 128);
}

#[test]
fn backlog_is_its_own_flows() {
    let full = 1 << 40;
    let mut rig = Rig::e_with_flows(3);
    rig.accept(of(1, new_data(NOW, full)));
    rig.refuse(20, of(1, new_data(NOW, 1)));
    rig.refuse(20, new_data(NOW, full + 1));
    rig.accept(new_data(NOW, full));
    assert_eq!(rig.state.backlog, 2 * full);
    // Nothing is left for flow 2, whatever the others have.
    rig.refuse(5, of(2, send(NOW, 0, 41)));
    rig.accept(of(2, new_data(NOW, 41)));
    rig.refuse(5, of(2, send(NOW, 0, 42)));
    rig.accept(of(2, send(NOW, 0, 41)));
    assert_eq!(rig.state.backlog, 2 * full);
    rig.refuse(5, of(2, send(NOW, 1, 41)));
    // All eight may be full.
    let mut rig = Rig::e_with_flows(8);
    for flow in 0..8 {
        rig.accept(of(flow, new_data(NOW, full)));
    }
    assert_eq!(rig.state.backlog, 1 << 43);
}

/// PSNs that mean something to one flow only.
#[test]
fn packets_are_their_own_flows() {
    let mut rig =
        Rig::e_with_flows(2).lay_in(1, 100, &[(FLYING, 100, 9_000, 0), (MARKED, 100, 9_000, 0)]);
    for flow in 0..2 {
        rig.accept(of(flow, new_data(NOW, 100)));
    }
    rig.refuse(8, send(NOW, 102, 41));
    rig.refuse(8, of(1, send(NOW, 0, 41)));
    rig.refuse(8, resend(NOW, 101, 100));
    rig.refuse(9, ack(NOW, 100, 0));
    rig.refuse(10, nack(NOW, 100, 0));
    rig.refuse(10, loss(NOW, 100));
    for (flow, event) in [
        (0, send(NOW, 0, 41)),
        (1, send(NOW, 102, 41)),
        (1, resend(NOW, 101, 100)),
        (1, ack(NOW, 100, 0).into()),
        (1, nack(NOW, 100, 0).into()),
        (1, loss(NOW, 100).into()),
    ] {
        rig.after(of(flow, event));
    }
}

#[test]
fn the_window_and_the_floor_are_shared() {
    let mut rig = rig(2);
    rig.state.in_flight = 610_304;
    rig.accept(of(1, send(NOW, 104, 41)));
    rig.refuse(6, send(NOW, 104, 41));
    rig.refuse(6, resend(NOW, 101, 1_000));
    // Flow 1's packet taken out again makes room for flow 0.
    rig.accept(of(1, loss(NOW, 104)));
    rig.state.cwnd = 614_400;
    rig.rename();
    rig.accept(send(NOW, 104, 41));

    // Two units above the floor.
    let mut rig = self::rig(2);
    rig.state.in_flight = -(1 << 24) + 512;
    rig.accept(ack(NOW, 100, 1));
    rig.refuse(11, of(1, ack(NOW, 100, 2)));
    rig.accept(of(1, ack(NOW, 100, 1)));
    assert_eq!(rig.state.in_flight, -(1 << 24));
    for flow in 0..2 {
        rig.refuse(11, of(flow, ack(NOW, 100, 2)));
        rig.refuse(11, of(flow, loss(NOW, 103)));
    }
}

/// Setting up on memory of ones: the answer, the state, and what became of the memory.
fn set_up(first_psn: u32, mut memory: Memory) -> (u8, State, Memory, bool) {
    memory.flows.fill(Flow {
        low: 1,
        next: 1,
        held: 1,
        backlog: 1,
    });
    memory.outstanding.fill(1);
    memory.marked.fill(1);
    memory.sizes.fill(1);
    memory.sent.fill(1);
    memory.ev_times.fill(1);
    let before = memory.clone();
    let mut settings = e();
    settings.first_psn = first_psn;
    let (answer, state) = State::set_up(&settings, &mut memory.lend());
    let left_alone = memory == before;
    (answer, state, memory, left_alone)
}

#[test]
fn setting_up_one_to_eight_flows() {
    for flows in 1..=8 {
        for capacity in [64, 512, 4_096] {
            let memory = Memory::with_flows(flows, capacity, 256);
            let (answer, state, memory, _) = set_up(77, memory);
            assert_eq!(answer, 0);
            let fresh = Flow {
                low: 77,
                next: 77,
                held: 0,
                backlog: 0,
            };
            assert_eq!(memory.flows, vec![fresh; flows]);
            assert_eq!(memory.sizes, vec![0; flows * capacity]);
            assert_eq!(memory.sent, vec![0; flows * capacity]);
            assert_eq!(memory.outstanding, vec![0; flows * capacity / 64]);
            assert_eq!(memory.marked, vec![0; flows * capacity / 64]);
            assert_eq!(memory.ev_times, vec![0; 256]);
            let expected = State {
                settings: state.settings,
                cwnd: 614_400,
                base: 96,
                ..State::default()
            };
            assert_eq!((state, state.settings.first_psn), (expected, 77));
            assert!(Rig { state, memory }.holds());
        }
    }
}

#[track_caller]
fn refused_with_2(memory: Memory) {
    let (answer, state, _, left_alone) = set_up(77, memory);
    assert_eq!((answer, left_alone), (2, true));
    assert_eq!(state, State::default());
}

#[test]
fn setting_up_is_2_for_any_other_number_of_flows() {
    for flows in [0, 9, 10, 16, 64] {
        refused_with_2(Memory::with_flows(flows, 64, 256));
        // The buffers are those of one to eight flows.
        for lent in [1, 8] {
            let mut memory = Memory::with_flows(lent, 64, 256);
            memory.flows.resize(flows, Flow::default());
            refused_with_2(memory);
        }
    }
    refused_with_2(Memory::with_flows(0, 0, 256));
}

#[test]
fn setting_up_is_2_for_a_buffer_that_is_not_so_many_equal_parts() {
    let lent = |flows: usize, slots: usize| Memory {
        flows: vec![Flow::default(); flows],
        ..Memory::new(slots)
    };
    // No whole part, a part of no ring's capacity.
    for (flows, slots) in [
        (3, 128),
        (2, 129),
        (2, 127),
        (2, 64),
        (2, 192),
        (8, 64),
        (8, 256),
        (4, 128),
        (1, 8_192),
        (7, 512),
        (8, 448),
        (8, 65_536),
    ] {
        refused_with_2(lent(flows, slots));
    }
    for (flows, slots) in [
        (2, 128),
        (2, 8_192),
        (3, 192),
        (4, 256),
        (8, 512),
        (8, 32_768),
    ] {
        assert_eq!(set_up(77, lent(flows, slots)).0, 0, "{flows} of {slots}");
        // One of the four slices is that of another number of flows.
        let shorten: [fn(&mut Memory); 4] = [
            |memory| memory.outstanding.truncate(1),
            |memory| memory.marked.truncate(1),
            |memory| memory.sizes.truncate(64),
            |memory| memory.sent.truncate(64),
        ];
        for shorten in shorten {
            let mut memory = lent(flows, slots);
            shorten(&mut memory);
            refused_with_2(memory);
        }
    }
}

#[test]
fn setting_up_tests_1_before_the_number_of_flows() {
    for flows in [0, 9] {
        let mut memory = Memory::with_flows(flows, 64, 256);
        let before = memory.clone();
        let mut settings = e();
        settings.gamma = 1_025;
        let (answer, state) = State::set_up(&settings, &mut memory.lend());
        assert_eq!((answer, state), (1, State::default()));
        assert_eq!(memory, before);
    }
}
