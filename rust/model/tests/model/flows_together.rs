//! Number 2 of several flows (M-107): how many there are, each with its part, and totals over all.

use crate::flows::{eight, LOWS};
use crate::rig::*;
use model::{Flow, Memory, Name, Refusal};

const NOW: u64 = 10_050;

/// It is 2 to every event, of any flow, to a choice, to plans and to what the rings show.
#[track_caller]
fn spoilt(what: &str, mut rig: Rig) {
    assert!(!rig.holds(), "{what} should be 2");
    rig.refuse_choice();
    rig.refuse_plans();
    for flow in [0, 1, 7, 8, u64::MAX] {
        for event in [
            new_data(NOW, 1),
            send(NOW, 4, 41),
            resend(NOW, 1, 200),
            ack(NOW, 0, 1).into(),
            nack(NOW, 0, 0).into(),
            loss(NOW, 0).into(),
            path(NOW),
        ] {
            rig.refuse(2, of(flow, event));
        }
        let lent = rig.memory.lend();
        let together = Err(Refusal::NotTogether);
        assert_eq!(rig.state.status(&lent, flow, 0).map(|_| ()), together);
        assert_eq!(rig.state.next_marked(&lent, flow, 0).map(|_| ()), together);
    }
}

#[test]
fn the_number_of_flows() {
    for flows in 1..=8 {
        assert!(Rig::e_with_flows(flows).holds());
    }
    for flows in [0, 9, 16] {
        // With the buffers of so many, of one and of eight.
        for parts in [flows, 1, 8] {
            let mut rig = Rig::e_with_flows(8);
            rig.memory = Memory::with_flows(parts, 64, 256);
            rig.memory.flows.resize(flows, Flow::default());
            spoilt("so many flows", rig);
        }
    }
    let mut none = Rig::e();
    none.memory = Memory::with_flows(0, 0, 256);
    spoilt("nothing at all", none);
}

/// A held turn that names no flow (M-108), by the table that is lent.
#[test]
fn the_turn_is_a_flow_of_the_table() {
    for flows in 1..=8 {
        let with_turn = |turn| {
            let mut rig = Rig::e_with_flows(flows);
            rig.state.turn = turn;
            rig
        };
        let end = flows as u64;
        for turn in 0..end {
            assert!(with_turn(turn).holds(), "flow {turn} of {flows}");
        }
        for turn in [end, end + 1, 8, 9, 64, 256, 1 << 32, 1 << 63, u64::MAX] {
            spoilt(&format!("turn {turn} of {flows} flows"), with_turn(turn));
        }
        // The same state with the memory of fewer flows.
        let mut rig = with_turn(end - 1);
        rig.memory = Memory::with_flows(flows.max(2) - 1, 64, 256);
        assert_eq!(rig.holds(), flows == 1);
    }
}

#[test]
fn buffers_that_are_not_so_many_equal_parts() {
    for (flows, slots) in [
        (3, 128),
        (2, 64),
        (2, 192),
        (8, 64),
        (8, 256),
        (1, 8_192),
        (7, 512),
        (8, 448),
        (8, 65_536),
    ] {
        let mut rig = Rig::e();
        rig.memory = Memory::new(slots);
        rig.memory.flows.resize(flows, Flow::default());
        spoilt("so many slots", rig);
    }
    type Change = fn(&mut Memory);
    let changes: [(&str, Change); 14] = [
        ("outstanding of seven", |m| m.outstanding.truncate(7)),
        ("outstanding of one", |m| m.outstanding.truncate(1)),
        ("outstanding of nine", |m| m.outstanding.push(0)),
        ("marked of seven", |m| m.marked.truncate(7)),
        ("marked of one", |m| m.marked.truncate(1)),
        ("marked of nine", |m| m.marked.push(0)),
        ("sizes of seven", |m| m.sizes.truncate(448)),
        ("sizes of one", |m| m.sizes.truncate(64)),
        ("a size less", |m| m.sizes.truncate(511)),
        ("a size more", |m| m.sizes.push(0)),
        ("sent of seven", |m| m.sent.truncate(448)),
        ("sent of one", |m| m.sent.truncate(64)),
        ("a send time more", |m| m.sent.push(0)),
        ("a flow less", |m| m.flows.truncate(7)),
    ];
    for (what, change) in changes {
        let mut rig = Rig::e_with_flows(8);
        change(&mut rig.memory);
        spoilt(what, rig);
    }
}

type Change = fn(&mut Rig, usize);

/// The slot of a packet of flow k: 0 flies, 1 is marked, 2 is done, 3 flies; 4 and -1 are empty.
fn at(rig: &Rig, flow: usize, i: i32) -> usize {
    rig.place(flow, LOWS[flow].wrapping_add_signed(i))
}

fn sizes(rig: &mut Rig, flow: usize, i: i32, number: u32) {
    let slot = at(rig, flow, i);
    rig.memory.sizes[slot] = number;
}

fn sent(rig: &mut Rig, flow: usize, i: i32, time: u64) {
    let slot = at(rig, flow, i);
    rig.memory.sent[slot] = time;
}

fn outstanding(rig: &mut Rig, flow: usize, i: i32, on: bool) {
    let slot = at(rig, flow, i);
    set(&mut rig.memory.outstanding, slot, on);
}

fn marked(rig: &mut Rig, flow: usize, i: i32, on: bool) {
    let slot = at(rig, flow, i);
    set(&mut rig.memory.marked, slot, on);
}

/// Adds to a flow's backlog and to that of all.
fn add_backlog(rig: &mut Rig, flow: usize, bytes: u64) {
    rig.memory.flows[flow].backlog += bytes;
    rig.state.backlog += bytes;
}

#[test]
fn one_flow_of_eight_at_its_bounds() {
    let changes: [(&str, Change); 7] = [
        ("nothing", |_, _| ()),
        ("held", |r, k| r.memory.flows[k].held = (1 << 24) - 1),
        ("backlog of 2^40", |r, k| {
            let left = (1 << 40) - 1_000 * k as u64;
            add_backlog(r, k, left);
        }),
        ("size 41", |r, k| sizes(r, k, 0, 41)),
        ("size MTU", |r, k| sizes(r, k, 3, 4_096)),
        ("resend count 2", |r, k| sizes(r, k, 0, 41 + 2 * 65_536)),
        ("sent now", |r, k| sent(r, k, 2, 10_000)),
    ];
    for flow in 0..8 {
        for (what, change) in changes {
            let mut rig = eight();
            change(&mut rig, flow);
            assert!(rig.holds(), "{what} in flow {flow} should be good");
        }
    }
}

#[test]
fn one_bad_flow_of_eight() {
    let changes: [(&str, Change); 30] = [
        ("low before its packets", |r, k| {
            r.memory.flows[k].low = LOWS[k].wrapping_sub(1)
        }),
        ("low behind the first packet", |r, k| {
            r.memory.flows[k].low = LOWS[k].wrapping_add(1)
        }),
        ("low and next exchanged", |r, k| {
            let flow = &mut r.memory.flows[k];
            (flow.low, flow.next) = (flow.next, flow.low);
        }),
        ("next before the last packet", |r, k| {
            r.memory.flows[k].next = LOWS[k].wrapping_add(3)
        }),
        ("next behind its packets", |r, k| {
            r.memory.flows[k].next = LOWS[k].wrapping_add(5)
        }),
        ("next - low over its capacity", |r, k| {
            r.memory.flows[k].next = LOWS[k].wrapping_add(65)
        }),
        ("next - low as all rings have slots", |r, k| {
            r.memory.flows[k].next = LOWS[k].wrapping_add(512)
        }),
        ("held", |r, k| r.memory.flows[k].held = 1 << 24),
        ("held at its widest", |r, k| {
            r.memory.flows[k].held = u32::MAX
        }),
        ("backlog over 2^40", |r, k| {
            let left = (1 << 40) + 1 - 1_000 * k as u64;
            add_backlog(r, k, left);
        }),
        ("backlog at its widest", |r, k| {
            r.memory.flows[k].backlog = u64::MAX
        }),
        ("a byte of backlog more", |r, k| {
            r.memory.flows[k].backlog += 1
        }),
        ("a byte of all backlog more", |r, _| r.state.backlog += 1),
        ("a byte of all backlog less", |r, _| r.state.backlog -= 1),
        ("size 40", |r, k| sizes(r, k, 0, 40)),
        ("size over MTU", |r, k| sizes(r, k, 3, 4_097)),
        ("size 40 of a done one", |r, k| sizes(r, k, 2, 40)),
        ("a byte of a marked one more", |r, k| {
            sizes(r, k, 1, 201 + k as u32 + 65_536)
        }),
        ("resend count 3", |r, k| sizes(r, k, 0, 41 + 3 * 65_536)),
        ("sent later", |r, k| sent(r, k, 2, 10_001)),
        ("a size at next", |r, k| sizes(r, k, 4, 1)),
        ("a size before low", |r, k| sizes(r, k, -1, 1)),
        ("sent at next", |r, k| sent(r, k, 4, 1)),
        ("sent before low", |r, k| sent(r, k, -1, 1)),
        ("outstanding at next", |r, k| {
            outstanding(r, k, 4, true);
            r.state.flying += 1;
        }),
        ("outstanding before low", |r, k| {
            outstanding(r, k, -1, true);
            r.state.flying += 1;
        }),
        ("marked and not outstanding", |r, k| {
            outstanding(r, k, 1, false);
        }),
        ("a done one marked", |r, k| marked(r, k, 2, true)),
        ("low done", |r, k| {
            outstanding(r, k, 0, false);
            r.state.flying -= 1;
        }),
        ("an empty slot among its packets", |r, k| {
            sizes(r, k, 2, 0);
            sent(r, k, 2, 0);
        }),
    ];
    for flow in 0..8 {
        for (what, change) in changes {
            let mut rig = eight();
            change(&mut rig, flow);
            spoilt(&format!("{what} in flow {flow}"), rig);
        }
    }
}

/// Flow 0 by itself has 2 flying, 1 marked of 200 bytes, and here 500 bytes of backlog; the eight
/// have 16, 8 of 1,628 bytes and 28,500.
#[test]
fn totals_are_those_of_all_flows() {
    let start = {
        let mut rig = eight();
        add_backlog(&mut rig, 0, 500);
        rig
    };
    let all = (16, 8, 1_628, 28_500);
    let state = &start.state;
    let held = (
        state.flying,
        state.marked,
        state.marked_bytes,
        state.backlog,
    );
    assert_eq!(held, all);
    let with = |(flying, marked, marked_bytes, backlog)| {
        let mut rig = start.clone();
        rig.state.flying = flying;
        rig.state.marked = marked;
        rig.state.marked_bytes = marked_bytes;
        rig.state.backlog = backlog;
        rig
    };
    assert!(with(all).holds());
    for totals in [
        (2, 1, 200, 500),
        (2, 8, 1_628, 28_500),
        (16, 1, 1_628, 28_500),
        (16, 8, 200, 28_500),
        (16, 8, 1_628, 500),
        (15, 8, 1_628, 28_500),
        (17, 8, 1_628, 28_500),
        (16, 7, 1_628, 28_500),
        (16, 9, 1_628, 28_500),
        (16, 8, 1_627, 28_500),
        (16, 8, 1_629, 28_500),
        (16, 8, 1_628, 28_499),
        (16, 8, 1_628, 28_501),
        (16, 8, 1_628, 28_000),
        (16, 8, 1_628, u64::MAX),
    ] {
        spoilt(&format!("{totals:?}"), with(totals));
    }
}

/// A sum of backlogs that a number of 64 bits does not hold.
#[test]
fn backlogs_that_add_up_to_nothing() {
    let mut rig = Rig::e_with_flows(2);
    rig.memory.flows[0].backlog = 1 << 63;
    rig.memory.flows[1].backlog = 1 << 63;
    spoilt("twice 2^63", rig);
    let mut rig = Rig::e_with_flows(8);
    for flow in &mut rig.memory.flows {
        flow.backlog = u64::MAX;
    }
    rig.state.backlog = u64::MAX;
    rig.state.name = Name::Ready;
    spoilt("eight at their widest", rig);
}

#[test]
fn a_flow_and_the_part_of_another() {
    for other in 1..8 {
        let mut rig = eight();
        rig.memory.flows.swap(0, other);
        spoilt(&format!("the records of 0 and {other} exchanged"), rig);
    }
    // Empty flows may be exchanged.
    let mut rig = Rig::e_with_flows(2);
    rig.memory.flows[0] = Flow::fresh(5);
    rig.memory.flows[1] = Flow::fresh(70);
    assert!(rig.holds());
    rig.memory.flows.swap(0, 1);
    assert!(rig.holds());
}

/// A full ring, and its neighbours empty: no slot is looked for beyond the part.
#[test]
fn full_rings_beside_empty_ones() {
    for flow in 0..3 {
        for low in [0, 1, 63, 4_294_967_270] {
            let full = Rig::e_with_flows(3).lay_in(flow, low, &[(FLYING, 41, 9_000, 0); 64]);
            assert!(full.clone().holds());
            assert_eq!(full.state.flying, 64);
            let mut over = full.clone();
            over.memory.flows[flow].next = low.wrapping_add(65);
            spoilt("one packet more", over);
        }
    }
}

#[test]
fn the_name_of_all_flows() {
    let only = |mut rig: Rig, right: Name| {
        for name in [Name::Idle, Name::Pending, Name::Ready, Name::Active] {
            rig.state.name = name;
            assert_eq!(rig.holds(), name == right, "{name} for {right}");
        }
    };
    for flow in 0..8 {
        let empty = Rig::e_with_flows(8);
        only(empty.clone(), Name::Idle);
        let slot = |status| [(status, 41, 0, 0)];
        only(empty.clone().lay_in(flow, 0, &slot(FLYING)), Name::Pending);
        only(empty.clone().lay_in(flow, 0, &slot(MARKED)), Name::Ready);
        let mut rig = empty;
        add_backlog(&mut rig, flow, 1);
        only(rig.clone(), Name::Ready);
        rig.state.in_flight = 610_305;
        only(rig, Name::Active);
    }
}
