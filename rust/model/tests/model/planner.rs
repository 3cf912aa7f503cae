//! Planned sends (M-111): what the planner plans, by hand from the text.

use crate::flows::{eight, LOWS};
use crate::plans::{accepts, again, new, two};
use crate::rig::*;
use crate::turns::{backlogs, with_in_flight, with_turn};
use model::{Planned, Refusal};

const NOW: u64 = 10_050;

/// It must plan these sends and change nothing, and they must be accepted.
#[track_caller]
fn plans_with_room(rig: &Rig, size: u32, room: usize, expected: &[Planned]) {
    let mut planning = rig.clone();
    let plan = planning.plan(NOW, size, room);
    assert_eq!(plan.as_deref(), Ok(expected));
    assert_eq!(planning, *rig);
    accepts(rig, expected);
}

#[track_caller]
fn plans(rig: &Rig, size: u32, expected: &[Planned]) {
    plans_with_room(rig, size, 64, expected);
}

#[test]
fn turns_go_round_from_the_held_one() {
    let rig = backlogs(&[800, 800]);
    let plan = [
        new(0, 0, 400),
        new(1, 0, 400),
        new(0, 1, 400),
        new(1, 1, 400),
    ];
    plans(&rig, 400, &plan);
    let plan = [
        new(1, 0, 400),
        new(0, 0, 400),
        new(1, 1, 400),
        new(0, 1, 400),
    ];
    plans(&with_turn(rig, 1), 400, &plan);
    // Three flows, of which one has nothing and one has more.
    let plan = [new(2, 0, 41), new(1, 0, 41), new(2, 1, 41), new(2, 2, 41)];
    plans(&with_turn(backlogs(&[0, 41, 123]), 2), 41, &plan);
}

#[test]
fn a_flow_by_itself() {
    plans(&backlogs(&[82]), 41, &[new(0, 0, 41), new(0, 1, 41)]);
    let mut rig = Rig::e().lay(4_294_967_293, &[(FLYING, 100, 9_000, 0)]);
    rig.accept(new_data(NOW, 500));
    let plan = [
        new(0, 4_294_967_294, 125),
        new(0, 4_294_967_295, 125),
        new(0, 0, 125),
        new(0, 1, 125),
    ];
    plans(&rig, 125, &plan);
}

/// Flow 0 of `two` has 101 and 103 marked, flow 1 its low; a marked packet keeps its size.
#[test]
fn marked_packets_go_first() {
    let mut rig = two();
    rig.memory.flows[0].backlog = 800;
    rig.memory.flows[1].backlog = 400;
    rig.settle();
    let plan = [
        again(0, 101, 1_000),
        again(1, 4_294_967_294, 300),
        again(0, 103, 500),
        new(1, 4_294_967_295, 400),
        new(0, 104, 400),
        new(0, 105, 400),
    ];
    plans(&rig, 400, &plan);
    let plan = [
        again(1, 4_294_967_294, 300),
        again(0, 101, 1_000),
        new(1, 4_294_967_295, 400),
        again(0, 103, 500),
        new(0, 104, 400),
        new(0, 105, 400),
    ];
    plans(&with_turn(rig, 1), 400, &plan);
}

/// Nearest to low is not the least PSN, nor the least slot.
#[test]
fn the_marked_packet_nearest_to_low() {
    let slots = [
        (FLYING, 100, 9_000, 0),
        (MARKED, 101, 9_000, 0),
        (MARKED, 102, 9_000, 2),
        (DONE, 103, 9_000, 0),
        (MARKED, 104, 9_000, 1),
    ];
    for (low, psns) in [
        (5, [6, 7, 9]),
        (62, [63, 64, 66]),
        (4_294_967_294, [4_294_967_295, 0, 2]),
    ] {
        let rig = Rig::e().lay(low, &slots);
        let plan = [
            again(0, psns[0], 101),
            again(0, psns[1], 102),
            again(0, psns[2], 104),
        ];
        plans(&rig, 41, &plan);
    }
}

/// It stops at the first new packet, and for good.
#[test]
fn a_bad_size() {
    for size in [0, 40, 4_097, u32::MAX] {
        let plan = [
            again(0, 101, 1_000),
            again(1, 4_294_967_294, 300),
            again(0, 103, 500),
        ];
        plans(&two(), size, &plan);
        // It is flow 1's turn again, which has nothing marked left; 103 would come after it.
        let plan = [again(1, 4_294_967_294, 300), again(0, 101, 1_000)];
        plans(&with_turn(two(), 1), size, &plan);
        plans(&backlogs(&[9_000, 9_000]), size, &[]);
        // Without a new packet it does not matter.
        let rig = Rig::e().lay(7, &[(MARKED, 900, 9_000, 0), (MARKED, 800, 9_000, 0)]);
        plans(&rig, size, &[again(0, 7, 900), again(0, 8, 800)]);
    }
    for size in [41, 4_096] {
        let rig = backlogs(&[u64::from(size)]);
        plans(&rig, size, &[new(0, 0, size)]);
    }
}

/// A flow with less backlog than the size is named and stops it, whatever the others have.
#[test]
fn too_little_backlog() {
    for bytes in [1, 40, 99] {
        let rig = backlogs(&[500, bytes, 500]);
        plans(&rig, 100, &[new(0, 0, 100)]);
        plans(&with_turn(rig.clone(), 1), 100, &[]);
        let plan = [new(2, 0, 100), new(0, 0, 100)];
        plans(&with_turn(rig, 2), 100, &plan);
    }
    let plan = [
        new(0, 0, 100),
        new(1, 0, 100),
        new(2, 0, 100),
        new(0, 1, 100),
    ];
    plans(&backlogs(&[250, 100, 100]), 100, &plan);
}

#[test]
fn nobody_is_named() {
    plans(&Rig::e(), 41, &[]);
    plans(&Rig::e_with_flows(8), 41, &[]);
    plans(&with_in_flight(two(), 610_305), 41, &[]);
    plans(&with_in_flight(two(), 614_400), 41, &[]);
}

/// MTU 4,096 and cwnd 614,400: nobody is named from an in-flight of 610,305 on.
#[test]
fn the_window_fills() {
    let plan = [
        new(0, 0, 4_096),
        new(1, 0, 4_096),
        new(0, 1, 4_096),
        new(1, 1, 4_096),
    ];
    for (in_flight, many) in [
        (610_304, 1),
        (606_209, 1),
        (606_208, 2),
        (602_113, 2),
        (602_112, 3),
        (598_016, 4),
    ] {
        let rig = with_in_flight(backlogs(&[8_192, 8_192]), in_flight);
        plans(&rig, 4_096, &plan[..many]);
    }
    // Marked packets of 1,000, 300 and 500 bytes, and no more.
    let plan = [
        again(0, 101, 1_000),
        again(1, 4_294_967_294, 300),
        again(0, 103, 500),
    ];
    for (in_flight, many) in [(609_305, 1), (609_304, 2), (609_005, 2), (609_004, 3)] {
        plans(&with_in_flight(two(), in_flight), 4_096, &plan[..many]);
    }
}

/// A flow whose ring is full is not ready: the others go on. Its marked packets go all the same.
#[test]
fn the_ring_is_full() {
    let mut rig = backlogs(&[9_000, 123]).lay(200, &[(FLYING, 41, 9_000, 0); 63]);
    let plan = [new(0, 263, 41), new(1, 0, 41), new(1, 1, 41), new(1, 2, 41)];
    plans(&rig, 41, &plan);
    rig.put_in(0, 230, (MARKED, 77, 9_000, 0));
    rig.settle();
    let plan = [
        again(0, 230, 77),
        new(1, 0, 41),
        new(0, 263, 41),
        new(1, 1, 41),
        new(1, 2, 41),
    ];
    plans(&rig, 41, &plan);
}

/// Every flow of `eight` has its second packet marked and k packets of 1,000 bytes to send.
#[test]
fn eight_flows() {
    let order = [5, 6, 7, 0, 1, 2, 3, 4];
    let mut plan = vec![];
    for k in order {
        let psn = LOWS[k as usize].wrapping_add(1);
        plan.push(again(k, psn, 200 + k as u32));
    }
    for round in 0..7 {
        for k in order.into_iter().filter(|&k| k > round) {
            let psn = LOWS[k as usize].wrapping_add(4 + round as u32);
            plan.push(new(k, psn, 1_000));
        }
    }
    assert_eq!(plan.len(), 8 + 28);
    plans(&eight(), 1_000, &plan);
}

/// Three flows with enough for more than 64, from flow 2 on: 22 packets of flow 2, then 21 each.
#[test]
fn sixty_four_sends_and_less_room() {
    let rig = with_turn(backlogs(&[9_000; 3]), 2);
    let mut plan = vec![];
    for psn in 0..22 {
        plan.extend([new(2, psn, 41), new(0, psn, 41), new(1, psn, 41)]);
    }
    for room in [64, 65, 1_000, usize::MAX] {
        plans_with_room(&rig, 41, room, &plan[..64]);
    }
    for room in [0, 1, 2, 3, 7, 63] {
        plans_with_room(&rig, 41, room, &plan[..room]);
    }
    // As many marked ones.
    let rig = Rig::with_capacity(e(), 128).lay(1_000, &[(MARKED, 50, 0, 0); 100]);
    let plan: Vec<Planned> = (1_000..1_064).map(|psn| again(0, psn, 50)).collect();
    plans(&rig, 41, &plan);
    plans_with_room(&rig, 41, 100, &plan);
}

/// 2, then 3, give no plan, also where there is no room or nothing to plan.
#[test]
fn no_plan() {
    for (size, room) in [(100, 64), (40, 64), (100, 0)] {
        for time in [0, 9_999, 1 << 48, u64::MAX] {
            for good in [two(), Rig::e()] {
                let mut rig = good.clone();
                assert_eq!(rig.plan(time, size, room), Err(Refusal::Time));
                assert_eq!(rig, good);
                rig.state.cwnd = 0;
                let spoilt = rig.clone();
                for time in [time, NOW] {
                    assert_eq!(rig.plan(time, size, room), Err(Refusal::NotTogether));
                }
                assert_eq!(rig, spoilt);
            }
        }
    }
}

#[test]
fn any_good_time() {
    let expected = two().plan(NOW, 100, 64);
    assert_eq!(expected.as_deref().map(<[_]>::len), Ok(64));
    for time in [10_000, 10_001, (1 << 48) - 1] {
        assert_eq!(two().plan(time, 100, 64), expected);
    }
}
