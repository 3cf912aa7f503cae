//! Several flows under one window (M-107): what is a flow's own, and what is shared.

use crate::naive::{check_totals, Naive};
use crate::rig::*;
use model::{Ack, Event, Flow, Name, Refusal, Rng, Sampling, Status};

const NOW: u64 = 10_050;

/// Where the flows of `eight` begin: at a ring's start and end, around it, and around 2^32.
pub const LOWS: [u32; 8] = [
    0,
    60,
    62,
    63,
    4_294_967_293,
    2_147_483_646,
    1_000,
    4_294_967_295,
];

/// Eight flows of four packets, which differ by one byte from flow to flow: flying, marked, done,
/// flying. Flow k has a count of 10 k and 1,000 k bytes of backlog. It is flow 5's turn.
pub fn eight() -> Rig {
    let mut rig = Rig::e_with_flows(8);
    rig.state.in_flight = 20_000;
    rig.state.turn = 5;
    for (k, low) in LOWS.into_iter().enumerate() {
        let (number, size) = (k as u32, 100 + k as u32);
        rig.memory.flows[k].held = 10 * number;
        rig.memory.flows[k].backlog = 1_000 * k as u64;
        let slots = [
            (FLYING, size, 9_950, 0),
            (MARKED, size + 100, 9_960, 1),
            (DONE, size + 200, 9_970, 0),
            (FLYING, size + 300, 9_980, 2),
        ];
        rig = rig.lay_in(k, low, &slots);
    }
    rig
}

/// What a flow has of its own: its record and its part of each buffer.
fn own(rig: &Rig, flow: usize) -> impl PartialEq + std::fmt::Debug {
    let memory = &rig.memory;
    let slots = flow * rig.capacity()..(flow + 1) * rig.capacity();
    let words = slots.start / 64..slots.end / 64;
    (
        memory.flows[flow],
        memory.outstanding[words.clone()].to_vec(),
        memory.marked[words].to_vec(),
        memory.sizes[slots.clone()].to_vec(),
        memory.sent[slots].to_vec(),
    )
}

/// Every flow but this one is as it was.
#[track_caller]
fn others_alike(before: &Rig, after: &Rig, flow: usize) {
    for other in (0..before.memory.flows.len()).filter(|&other| other != flow) {
        assert_eq!(own(before, other), own(after, other), "flow {other}");
    }
}

/// In-flight, flying, waiting and backlog, as a line of 01 has them, and the name.
fn totals(rig: &Rig) -> (i64, u64, u64, u64, Name) {
    let state = &rig.state;
    (
        state.in_flight,
        state.flying,
        state.marked,
        state.backlog,
        state.name,
    )
}

fn record(low: u32, next: u32, held: u32, backlog: u64) -> Flow {
    Flow {
        low,
        next,
        held,
        backlog,
    }
}

#[test]
fn two_flows_step_by_step() {
    let mut rig = Rig::with_flows(e(), 2, 64);
    rig.accept(of(1, new_data(0, 8_192)));
    assert_eq!(totals(&rig), (0, 0, 0, 8_192, Name::Ready));
    // The backlog is another flow's.
    rig.refuse(5, send(10, 0, 4_096));
    rig.accept(of(1, send(10, 0, 4_096)));
    assert_eq!(totals(&rig), (4_096, 1, 0, 4_096, Name::Ready));
    assert_eq!(
        rig.memory.flows,
        [record(0, 0, 0, 0), record(0, 1, 0, 4_096)]
    );
    assert_eq!(rig.slot_in(1, 0), (FLYING, 4_096, 10, 0));
    // In the buffer flow 1 begins at 64, in the words of bits at 1.
    assert_eq!((rig.memory.sizes[64], rig.memory.sent[64]), (4_096, 10));
    assert_eq!(rig.memory.outstanding, [0, 1]);

    rig.accept(new_data(20, 4_096));
    rig.accept(send(20, 0, 4_096));
    assert_eq!(totals(&rig), (8_192, 2, 0, 4_096, Name::Ready));
    assert_eq!(rig.memory.outstanding, [1, 1]);

    // A round trip of 96, then one of 110: the delays 0 and 14 feed one average, 1,024 * 14 / 80.
    let outcome = rig.accept(ack(116, 0, 16));
    assert_eq!(outcome.sampling, Some(Sampling::Taken(96)));
    assert_eq!(totals(&rig), (4_096, 1, 0, 4_096, Name::Ready));
    assert_eq!(
        rig.memory.flows,
        [record(1, 1, 16, 0), record(0, 1, 0, 4_096)]
    );
    let outcome = rig.accept(of(1, ack(120, 0, 16)));
    assert_eq!(outcome.sampling, Some(Sampling::Taken(110)));
    assert_eq!(totals(&rig), (0, 0, 0, 4_096, Name::Ready));
    assert_eq!(
        rig.memory.flows,
        [record(1, 1, 16, 0), record(1, 1, 16, 4_096)]
    );
    assert_eq!((rig.state.avg, rig.state.base), (179, 96));
    assert_eq!(rig.memory.outstanding, [0, 0]);
    assert!(rig.memory.sizes.iter().all(|&number| number == 0));

    // A loss of one flow and the resend: nobody else may send that PSN again.
    rig.accept(of(1, send(130, 1, 4_096)));
    assert_eq!(totals(&rig), (4_096, 1, 0, 0, Name::Pending));
    rig.refuse(10, loss(140, 1));
    rig.accept(of(1, loss(140, 1)));
    assert_eq!(totals(&rig), (0, 0, 1, 0, Name::Ready));
    assert_eq!(rig.state.marked_bytes, 4_096);
    rig.refuse(8, resend(150, 1, 4_096));
    rig.accept(of(1, resend(150, 1, 4_096)));
    assert_eq!(totals(&rig), (4_096, 1, 0, 0, Name::Pending));
    assert_eq!(rig.slot_in(1, 1), (FLYING, 4_096, 150, 1));
    rig.accept(of(1, ack(250, 1, 32)));
    assert_eq!(totals(&rig), (0, 0, 0, 0, Name::Idle));
}

/// The totals of 01 by hand: 16 flying, 8 marked of 200 to 207 bytes, 28,000 bytes of backlog.
#[test]
fn eight_flows_under_one_window() {
    let mut rig = eight();
    assert!(rig.holds());
    let state = &rig.state;
    assert_eq!((state.flying, state.marked), (16, 8));
    assert_eq!((state.marked_bytes, state.backlog), (1_628, 28_000));
    for (k, low) in LOWS.into_iter().enumerate() {
        let mut after = eight();
        let number = k as u32;
        let event = ack(NOW, low.wrapping_add(3), 10 * number + 4);
        after.accept(of(k as u64, event));
        others_alike(&rig, &after, k);
        let next = low.wrapping_add(4);
        let expected = record(next, next, 10 * number + 4, 1_000 * k as u64);
        assert_eq!(after.memory.flows[k], expected);
        for i in 0..4 {
            assert_eq!(after.slot_in(k, low.wrapping_add(i)), (EMPTY, 0, 0, 0));
        }
        let state = &after.state;
        assert_eq!((state.flying, state.marked), (14, 7));
        assert_eq!(state.marked_bytes, 1_628 - 200 - k as u64);
        assert_eq!((state.in_flight, state.backlog), (18_976, 28_000));
    }
}

#[test]
fn no_event_touches_another_flow() {
    let before = eight();
    for (k, low) in LOWS.into_iter().enumerate() {
        let psn = |i: u32| low.wrapping_add(i);
        let size = 100 + k as u32;
        let first = Ack {
            map: 0b100,
            ..ack(NOW, psn(0), 10 * k as u32 + 1)
        };
        let marked = Ack {
            marked: true,
            ev: 9,
            ..first
        };
        let mut events: Vec<Event> = vec![
            new_data(NOW, 77),
            resend(NOW, psn(1), size + 100),
            first.into(),
            marked.into(),
            nack(NOW, psn(0), 0).into(),
            nack(NOW, psn(3), 2).into(),
            loss(NOW, psn(3)).into(),
            path(NOW),
        ];
        if k > 0 {
            // Flow 0 has no backlog.
            events.push(send(NOW, psn(4), 1_000));
        }
        for event in events {
            let after = before.after(of(k as u64, event));
            others_alike(&before, &after, k);
            if matches!(event, Event::Path(_)) {
                assert_eq!(own(&before, k), own(&after, k));
            } else {
                assert_ne!(own(&before, k), own(&after, k), "{event:?}");
            }
        }
    }
}

/// PSNs 4,294,967,294 to 1, 62 to 65 and 2^31 - 2 to 2^31 + 1, each in its own part.
#[test]
fn psns_wrap_in_different_places() {
    let slots = [10, 11, 12, 13].map(|size| (FLYING, 100 + size, 9_000, 0));
    let mut rig = Rig::e_with_flows(3)
        .lay_in(0, 4_294_967_294, &slots)
        .lay_in(1, 62, &slots)
        .lay_in(2, 2_147_483_646, &slots);
    assert_eq!(rig.memory.outstanding, [3 << 62 | 3; 3]);
    // Cum 0 of flow 0 covers three; for the others it is far behind, or too old.
    rig.accept(ack(NOW, 0, 0));
    assert_eq!(rig.memory.flows[0], record(1, 2, 0, 0));
    assert_eq!((rig.state.flying, rig.memory.outstanding[0]), (9, 2));
    rig.accept(of(1, ack(NOW, 0, 0)));
    assert_eq!(
        (rig.memory.flows[1], rig.state.flying),
        (record(62, 66, 0, 0), 9)
    );
    rig.refuse(9, of(2, ack(NOW, 0, 0)));
    // Bits 1 and 3 of cum 61: 63 and 65.
    rig.accept(of(
        1,
        Ack {
            map: 0b1010,
            ..ack(NOW, 61, 0)
        },
    ));
    let statuses = [62, 63, 64, 65].map(|psn| rig.status_in(1, psn));
    assert_eq!(statuses, [FLYING, DONE, FLYING, DONE]);
    assert_eq!((rig.memory.flows[1].low, rig.state.flying), (62, 7));
    assert_eq!(rig.memory.outstanding, [2, 1 << 62 | 1, 3 << 62 | 3]);
    rig.accept(of(2, ack(NOW, 2_147_483_649, 0)));
    assert_eq!(
        rig.memory.flows[2],
        record(2_147_483_650, 2_147_483_650, 0, 0)
    );
    assert_eq!((rig.state.flying, rig.memory.outstanding[2]), (3, 0));
}

#[test]
fn every_flow_has_its_own_count() {
    let mut rig = Rig::e_with_flows(2);
    rig.state.in_flight = 100_000;
    rig.memory.flows[0].held = 16_777_214;
    rig.memory.flows[1].held = 1_000;
    rig.accept(ack(NOW, u32::MAX, 3)); // 5 units
    assert_eq!(rig.state.in_flight, 98_720);
    rig.accept(of(1, ack(NOW, u32::MAX, 3))); // old
    assert_eq!(rig.state.in_flight, 98_720);
    rig.accept(of(1, ack(NOW, u32::MAX, 1_010))); // 10 units
    assert_eq!(rig.state.in_flight, 96_160);
    assert_eq!(
        (rig.memory.flows[0].held, rig.memory.flows[1].held),
        (3, 1_010)
    );
}

#[test]
fn clock_base_window_and_paths_are_shared() {
    let sent = [(FLYING, 100, 10_000, 0)];
    let mut rig = Rig::e_with_flows(2).lay_in(0, 7, &sent).lay_in(1, 9, &sent);
    // A round trip of 50 of flow 1: the base falls, and the window to 614,400 * 50 / 96.
    rig.accept(of(1, ack(NOW, 9, 0)));
    assert_eq!((rig.state.base, rig.state.cwnd), (50, 320_000));
    rig.refuse(3, path(NOW - 1));
    // EVs are taken by turns, whoever asks.
    for (flow, ev) in [(0, 0), (1, 1), (1, 2), (0, 3)] {
        assert_eq!(rig.accept(of(flow, path(NOW))).ev, Some(ev));
    }
    // EV 4 is avoided up to 10,100 after a marked ACK of flow 0, with the base that flow 1 left.
    let marked = Ack {
        marked: true,
        ev: 4,
        ..ack(NOW, 7, 0)
    };
    rig.accept(marked);
    assert_eq!(rig.memory.ev_times[4], 10_100);
    assert_eq!(rig.accept(of(1, path(NOW))).ev, Some(5));
}

/// A packet or a byte of any flow keeps the state from IDLE, whichever flow the event is of.
#[test]
fn the_name_is_over_all_flows() {
    let named = |rig: &Rig, name: Name| {
        for flow in 0..8 {
            assert_eq!(rig.after(of(flow, path(NOW))).state.name, name);
        }
    };
    let empty = Rig::e_with_flows(8);
    named(&empty, Name::Idle);
    for flow in 0..8 {
        let mut rig = empty.clone();
        rig.memory.flows[flow].backlog = 1;
        rig.settle();
        named(&rig, Name::Ready);
        rig.state.in_flight = 610_305;
        rig.rename();
        named(&rig, Name::Active);
        let flying = empty.clone().lay_in(flow, 5, &[(FLYING, 41, 0, 0)]);
        named(&flying, Name::Pending);
        let marked = empty.clone().lay_in(flow, 5, &[(MARKED, 41, 0, 0)]);
        named(&marked, Name::Ready);
    }
    // The last packet of flow 0 arrives, and flow 1 has a byte that was never sent.
    let mut rig = Rig::e_with_flows(2).lay(3, &[(FLYING, 100, 9_900, 0)]);
    rig.memory.flows[1].backlog = 1;
    rig.settle();
    rig.accept(ack(NOW, 3, 0));
    assert_eq!(totals(&rig), (0, 0, 0, 1, Name::Ready));
}

/// The parts of 3 flows of 128 slots begin at 0, 128 and 256; those of 8 of 4,096 at 4,096 k.
#[test]
fn parts_of_every_size() {
    for (flows, capacity) in [(1, 64), (3, 128), (5, 1_024), (7, 64), (8, 512), (8, 4_096)] {
        let mut settings = e();
        settings.first_psn = 4_294_967_295;
        let mut rig = Rig::with_flows(settings, flows, capacity);
        for flow in 0..flows as u64 {
            rig.accept(of(flow, new_data(flow, 100)));
            rig.accept(of(flow, send(flow, 4_294_967_295, 50)));
            rig.accept(of(flow, send(flow, 0, 50)));
        }
        assert_eq!(rig.state.flying, 2 * flows as u64);
        let begins: Vec<usize> = (0..flows).map(|flow| flow * capacity).collect();
        let used = |slot: usize| rig.memory.sizes[slot] == 50;
        let slots: Vec<usize> = (0..flows * capacity).filter(|&slot| used(slot)).collect();
        let expected = begins
            .iter()
            .flat_map(|begin| [*begin, begin + capacity - 1]);
        assert!(slots.iter().copied().eq(expected), "{slots:?}");
        for (flow, begin) in begins.into_iter().enumerate() {
            assert_eq!(rig.memory.sent[begin], flow as u64);
            assert!(is_set(&rig.memory.outstanding, begin));
            assert!(is_set(&rig.memory.outstanding, begin + capacity - 1));
        }
    }
}

#[test]
fn what_each_ring_shows() {
    let mut rig = eight();
    rig.memory.flows[7].backlog = 0;
    rig.settle();
    let lent = rig.memory.lend();
    for (k, low) in LOWS.into_iter().enumerate() {
        let shows = |i: u32| rig.state.status(&lent, k as u64, low.wrapping_add(i));
        let expected = [Status::Flying, Status::Marked, Status::Done, Status::Flying];
        for (i, status) in expected.into_iter().enumerate() {
            assert_eq!(shows(i as u32), Ok(Some(status)));
        }
        assert_eq!((shows(4), shows(u32::MAX)), (Ok(None), Ok(None)));
        let marked = |i: u32| rig.state.next_marked(&lent, k as u64, low.wrapping_add(i));
        let (second, next) = (low.wrapping_add(1), low.wrapping_add(4));
        assert_eq!((marked(0), marked(1)), (Ok(second), Ok(second)));
        assert_eq!((marked(2), marked(4)), (Ok(next), Ok(next)));
    }
    for flow in [8, 9, 1 << 32, u64::MAX] {
        assert_eq!(rig.state.status(&lent, flow, 0), Err(Refusal::Flow));
        assert_eq!(rig.state.next_marked(&lent, flow, 0), Err(Refusal::Flow));
    }
    rig.state.cwnd = 0;
    for flow in [0, 8] {
        let shown = rig.state.status(&lent, flow, 0);
        assert_eq!(shown, Err(Refusal::NotTogether));
        let marked = rig.state.next_marked(&lent, flow, 0);
        assert_eq!(marked, Err(Refusal::NotTogether));
    }
}

/// An event that means something to a flow.
pub fn any_event(rng: &mut Rng, rig: &Rig, flow: usize) -> Event {
    let Flow {
        low, next, held, ..
    } = rig.memory.flows[flow];
    let time = rig.state.clock + rng.below(20);
    let span = next.wrapping_sub(low);
    let psn = low.wrapping_add(rng.below(u64::from(span) + 1) as u32);
    let size = rng.between(41, 4_096) as u32;
    let back = next.wrapping_sub(psn);
    let sent = if back < 64 { (1 << back) - 1 } else { u64::MAX };
    let units = if rig.state.in_flight > 0 { 40 } else { 1 };
    match rng.below(16) {
        0 | 1 => new_data(time, rng.between(1, 20_000)),
        2..=7 => send(time, next, size),
        8 => resend(time, psn, rig.slot_in(flow, psn).1),
        9..=12 => Ack {
            map: rng.next_u64() & sent,
            ev: rng.below(256) as u16,
            marked: rng.one_in(8),
            ..ack(
                time,
                psn.wrapping_sub(1),
                (held + rng.below(units) as u32) % (1 << 24),
            )
        }
        .into(),
        13 => nack(time, psn, rng.below(3) as u8).into(),
        14 => loss(time, psn).into(),
        _ => path(time),
    }
}

/// Each flow is the single flow's ledger by plain counting, and the totals are the sums.
#[test]
fn random_events_of_eight_flows() {
    let first_psn = 4_294_967_200;
    let mut settings = e();
    settings.first_psn = first_psn;
    let mut rng = Rng::new(107);
    let mut rig = Rig::with_flows(settings, 8, 64);
    let mut naive: Vec<Naive> = (0..8).map(|_| Naive::new(first_psn)).collect();
    let (mut accepted, mut out_of_range) = ([0; 8], 0);
    for _ in 0..12_000 {
        let flow = rng.below(8) as usize;
        let number = rng.pick(&[flow, flow, flow, flow, flow, flow, flow, flow + 8]) as u64;
        let event = of(number, any_event(&mut rng, &rig, flow));
        let before = rig.clone();
        let mut trusted = rig.clone();
        let outcome = rig.take(event);
        let (state, memory) = (&mut trusted.state, &mut trusted.memory);
        assert_eq!(state.take_trusted(&mut memory.lend(), &event), outcome);
        assert_eq!(trusted, rig);
        assert!(rig.holds(), "{event:?}");
        if number >= 8 {
            assert_eq!(outcome.number, 25);
            out_of_range += 1;
        }
        if outcome.number != 0 {
            assert_eq!(rig, before);
            continue;
        }
        accepted[flow] += 1;
        naive[flow].take(&event);
        naive[flow].check(&rig, flow);
        others_alike(&before, &rig, flow);
        check_totals(&rig, &naive);
    }
    assert!(accepted.iter().all(|&times| times > 500), "{accepted:?}");
    assert!(out_of_range > 1_000);
    // Every flow has come around 2^32, and no two are at the same PSN.
    let mut nexts: Vec<u32> = rig.memory.flows.iter().map(|flow| flow.next).collect();
    assert!(nexts.iter().all(|&next| next < first_psn), "{nexts:?}");
    nexts.sort_unstable();
    nexts.dedup();
    assert!(nexts.len() > 4, "{nexts:?}");
}
