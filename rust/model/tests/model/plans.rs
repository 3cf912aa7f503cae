//! Planned sends (M-111): what the judge says of a plan, by hand from the text.

use crate::rig::*;
use crate::turns::with_in_flight;
use model::{Event, Memory, PlanRefusal, Planned, Refusal, State, SENDS_MAX};

const NOW: u64 = 10_050;

/// A new packet of a flow.
pub fn new(flow: u64, psn: u32, size: u32) -> Planned {
    Planned {
        flow,
        resend: false,
        psn,
        size,
    }
}

/// A marked packet of a flow.
pub fn again(flow: u64, psn: u32, size: u32) -> Planned {
    Planned {
        resend: true,
        ..new(flow, psn, size)
    }
}

/// The event of a planned send.
pub fn made(time: u64, planned: &Planned) -> Event {
    let make = if planned.resend { resend } else { send };
    of(planned.flow, make(time, planned.psn, planned.size))
}

/// The plan must be answered so, and nothing may change.
#[track_caller]
fn answers(rig: &Rig, time: u64, plan: &[Planned], answer: Result<(), PlanRefusal>) {
    let mut judged = rig.clone();
    assert_eq!(judged.judge(time, plan), answer);
    assert_eq!(judged, *rig);
}

/// The plan must be accepted, and so must its sends, made one by one. The rig after them.
#[track_caller]
pub fn accepts(rig: &Rig, plan: &[Planned]) -> Rig {
    answers(rig, NOW, plan, Ok(()));
    let mut rig = rig.clone();
    for planned in plan {
        rig.accept(made(NOW, planned));
    }
    rig
}

/// This send of the plan must be refused, and those before it accepted.
#[track_caller]
fn refuses(rig: &Rig, plan: &[Planned], number: usize, refusal: Refusal) {
    let send = Some(number);
    answers(rig, NOW, plan, Err(PlanRefusal { refusal, send }));
    let mut rig = accepts(rig, &plan[..number]);
    rig.refuse(refusal.number(), made(NOW, &plan[number]));
}

/// The plan must be refused as a whole.
#[track_caller]
fn refuses_whole(rig: &Rig, time: u64, plan: &[Planned], refusal: Refusal) {
    let send = None;
    answers(rig, time, plan, Err(PlanRefusal { refusal, send }));
}

/// Flow 0 has low 100 and next 104, flow 1 has next 4,294,967,295; each has 50,000 bytes to send.
pub fn two() -> Rig {
    let mut rig = Rig::e_with_flows(2);
    rig.state.in_flight = 8_192;
    for flow in &mut rig.memory.flows {
        flow.backlog = 50_000;
    }
    let slots = [
        (FLYING, 4_096, 9_950, 0),
        (MARKED, 1_000, 9_960, 1),
        (DONE, 4_096, 9_970, 0),
        (MARKED, 500, 9_980, 0),
    ];
    rig.lay_in(0, 100, &slots)
        .lay_in(1, 4_294_967_294, &[(MARKED, 300, 9_990, 2)])
}

/// New packets of flow 0 and flow 1 in turn, from next on, and marked ones between them.
fn good() -> Vec<Planned> {
    vec![
        new(0, 104, 4_096),
        new(1, 4_294_967_295, 41),
        again(0, 103, 500),
        new(0, 105, 41),
        new(1, 0, 4_096),
        again(1, 4_294_967_294, 300),
        again(0, 101, 1_000),
        new(1, 1, 100),
        new(1, 2, 100),
        new(0, 106, 100),
    ]
}

/// The same with this send in the place of that number.
fn good_but(number: usize, planned: Planned) -> Vec<Planned> {
    let mut plan = good();
    plan[number] = planned;
    plan
}

/// So many new packets of 41 bytes of flow 0, from this PSN on.
fn in_sequence(psn: u32, many: u32) -> Vec<Planned> {
    let psns = (0..many).map(|i| psn.wrapping_add(i));
    psns.map(|psn| new(0, psn, 41)).collect()
}

#[test]
fn the_numbers() {
    assert_eq!(SENDS_MAX, 64);
    assert_eq!(Refusal::PlanTooLong.number(), 27);
}

#[test]
fn an_empty_plan() {
    accepts(&two(), &[]);
    accepts(&Rig::e(), &[]);
    // Where every send would be refused.
    accepts(&with_in_flight(two(), 614_400), &[]);
    accepts(&Rig::e().lay(9, &[(FLYING, 41, 9_000, 0); 64]), &[]);
}

#[test]
fn two_flows_in_one_plan() {
    let after = accepts(&two(), &good());
    // 4,096 + 41 + 100, 41 + 4,096 + 100 + 100 new; 500 + 300 + 1,000 again.
    assert_eq!(after.memory.flows[0].backlog, 50_000 - 4_237);
    assert_eq!(after.memory.flows[1].backlog, 50_000 - 4_337);
    assert_eq!(after.state.in_flight, 8_192 + 8_574 + 1_800);
    // Made, it is no longer a plan.
    refuses(&after, &good(), 0, Refusal::WrongPacket);
    // What is the one flow's is not the other's.
    for (number, planned) in [
        (0, new(1, 104, 4_096)),
        (1, new(0, 4_294_967_295, 41)),
        (2, again(1, 103, 500)),
        (5, again(0, 4_294_967_294, 300)),
    ] {
        refuses(
            &two(),
            &good_but(number, planned),
            number,
            Refusal::WrongPacket,
        );
    }
}

#[test]
fn new_packets_in_sequence() {
    let plan = |psns: &[u32]| -> Vec<Planned> {
        let planned = psns.iter().map(|&psn| new(0, psn, 100));
        planned.collect()
    };
    accepts(&two(), &plan(&[104, 105, 106, 107]));
    for (psns, number) in [
        (&[105, 106, 107, 108], 0),
        (&[103, 104, 105, 106], 0),
        (&[104, 106, 107, 108], 1),
        (&[104, 104, 105, 106], 1),
        (&[104, 105, 107, 106], 2),
        (&[104, 105, 106, 108], 3),
        (&[104, 105, 106, 104], 3),
    ] {
        refuses(&two(), &plan(psns), number, Refusal::WrongPacket);
    }
}

#[test]
fn psns_around_2_to_the_32() {
    let low = 4_294_967_292;
    let mut rig = Rig::e().lay(low, &[(MARKED, 200, 9_000, 0), (MARKED, 200, 9_000, 0)]);
    rig.accept(new_data(NOW, 1_000));
    let plan = [
        new(0, 4_294_967_294, 41),
        again(0, 4_294_967_293, 200),
        new(0, 4_294_967_295, 41),
        new(0, 0, 41),
        new(0, 1, 41),
        again(0, 4_294_967_292, 200),
        new(0, 2, 41),
    ];
    assert_eq!(accepts(&rig, &plan).flow().next, 3);
    for psn in [1, 4_294_967_294, 4_294_967_295] {
        let mut plan = plan;
        plan[3].psn = psn;
        refuses(&rig, &plan, 3, Refusal::WrongPacket);
    }
}

#[test]
fn a_resend_of_what_the_plan_has_sent() {
    let wrong = Refusal::WrongPacket;
    // A new packet flies.
    refuses(&two(), &[new(0, 104, 100), again(0, 104, 100)], 1, wrong);
    let plan = [new(0, 104, 100), new(0, 105, 90), again(0, 105, 90)];
    refuses(&two(), &plan, 2, wrong);
    // A marked one flies once it is resent.
    refuses(
        &two(),
        &[again(0, 101, 1_000), again(0, 101, 1_000)],
        1,
        wrong,
    );
    let plan = [
        again(0, 103, 500),
        again(0, 101, 1_000),
        again(1, 4_294_967_294, 300),
        again(0, 103, 500),
    ];
    accepts(&two(), &plan[..3]);
    refuses(&two(), &plan, 3, wrong);
}

#[test]
fn a_resend_that_is_not_marked_or_of_another_size() {
    let wrong = Refusal::WrongPacket;
    for planned in [
        again(0, 100, 4_096), // flying
        again(0, 102, 4_096), // done
        again(0, 99, 4_096),
        again(0, 104, 4_096),
        again(0, 101, 999),
        again(0, 101, 1_001),
        again(1, 4_294_967_295, 300),
        new(0, 101, 1_000),
    ] {
        refuses(&two(), &[planned], 0, wrong);
        refuses(&two(), &[again(0, 103, 500), planned], 1, wrong);
    }
}

/// MTU 4,096 and cwnd 614,400: in-flight of 610,304 lets one more packet go.
#[test]
fn the_window_fills() {
    let plan = [
        new(0, 104, 4_096),
        new(1, 4_294_967_295, 4_096),
        again(0, 103, 500),
    ];
    accepts(&with_in_flight(two(), 602_112), &plan);
    for (in_flight, number) in [
        (602_113, 2),
        (606_208, 2),
        (606_209, 1),
        (610_304, 1),
        (610_305, 0),
        (614_400, 0),
    ] {
        let rig = with_in_flight(two(), in_flight);
        refuses(&rig, &plan, number, Refusal::Window);
    }
    // Marked packets fill it too, with their own size.
    let plan = [again(0, 101, 1_000), again(0, 103, 500), new(0, 104, 41)];
    for (in_flight, number) in [(609_305, 1), (609_304, 2), (608_805, 2)] {
        let rig = with_in_flight(two(), in_flight);
        refuses(&rig, &plan, number, Refusal::Window);
    }
    accepts(&with_in_flight(two(), 608_804), &plan);
}

#[test]
fn a_window_of_one_packet() {
    let mut rig = two();
    rig.state.cwnd = 4_096;
    for (in_flight, number) in [(1, 0), (0, 1), (-40, 1), (-41, 2), (-4_096, 2), (-4_137, 3)] {
        let plan = [
            new(0, 104, 41),
            new(0, 105, 4_096),
            new(0, 106, 41),
            new(1, 4_294_967_295, 41),
        ];
        let rig = with_in_flight(rig.clone(), in_flight);
        refuses(&rig, &plan, number, Refusal::Window);
    }
}

#[test]
fn the_backlog_is_used_up() {
    let mut rig = Rig::e_with_flows(2);
    rig.accept(new_data(NOW, 250));
    rig.accept(of(1, new_data(NOW, 41)));
    let plan = |third| {
        [
            new(0, 0, 100),
            new(0, 1, 100),
            new(0, 2, third),
            new(1, 0, 41),
            new(0, 3, 41),
        ]
    };
    accepts(&rig, &plan(50)[..4]);
    refuses(&rig, &plan(50), 4, Refusal::Backlog);
    refuses(&rig, &plan(51), 2, Refusal::Backlog);
    // There are 41 bytes, of the other flow.
    refuses(&rig, &[new(1, 0, 42)], 0, Refusal::Backlog);
    refuses(&rig, &[new(1, 0, 41), new(1, 1, 41)], 1, Refusal::Backlog);
    // A resend needs none.
    let rig = Rig::e().lay(5, &[(MARKED, 900, 9_000, 0)]);
    accepts(&rig, &[again(0, 5, 900)]);
    refuses(
        &rig,
        &[again(0, 5, 900), new(0, 6, 41)],
        1,
        Refusal::Backlog,
    );
}

/// 62 packets in a ring of 64 slots, the last of them marked; the other flow's ring is empty.
#[test]
fn the_ring_is_full() {
    let mut slots = [(FLYING, 41, 9_000, 0); 62];
    slots[61].0 = MARKED;
    let mut rig = Rig::e_with_flows(2).lay(200, &slots);
    for flow in 0..2 {
        rig.accept(of(flow, new_data(NOW, 9_000)));
    }
    let plan = [new(0, 262, 41), new(0, 263, 41), new(0, 264, 41)];
    refuses(&rig, &plan, 2, Refusal::RingFull);
    let plan = [
        new(0, 262, 41),
        new(0, 263, 41),
        again(0, 261, 41),
        new(1, 0, 41),
        new(0, 264, 41),
    ];
    accepts(&rig, &plan[..4]);
    refuses(&rig, &plan, 4, Refusal::RingFull);
}

#[test]
fn a_flow_out_of_range() {
    for flow in [2, 3, 8, 255, 256, 1 << 32, u64::MAX] {
        for number in [0, 1, 5, 9] {
            let planned = good()[number];
            let plan = good_but(number, Planned { flow, ..planned });
            refuses(&two(), &plan, number, Refusal::Flow);
        }
    }
}

#[test]
fn a_size_out_of_range() {
    for size in [0, 40, 4_097, u32::MAX] {
        for number in [0, 1, 5, 9] {
            let planned = good()[number];
            let plan = good_but(number, Planned { size, ..planned });
            refuses(&two(), &plan, number, Refusal::Size);
        }
    }
    for size in [41, 4_096] {
        accepts(&two(), &good_but(9, new(0, 106, size)));
    }
}

/// The first send leaves a full ring, a full window and 41 bytes of backlog. The second is wrong in
/// several ways at once, but for the last two.
#[test]
fn the_order_within_a_send() {
    let mut slots = [(FLYING, 41, 9_000, 0); 63];
    slots[5].0 = MARKED;
    let mut rig = Rig::e_with_flows(2).lay(200, &slots);
    rig.accept(new_data(NOW, 141));
    rig.accept(of(1, new_data(NOW, 9_000)));
    let rig = with_in_flight(rig, 610_304);
    for (planned, refusal) in [
        (new(2, 999, 40), Refusal::Flow),
        (again(2, 999, 40), Refusal::Flow),
        (new(0, 999, 40), Refusal::Size),
        (new(0, 999, 4_097), Refusal::Size),
        (again(0, 999, 40), Refusal::Size),
        (again(0, 205, 40), Refusal::Size),
        (new(0, 263, 42), Refusal::WrongPacket),
        (again(0, 263, 100), Refusal::WrongPacket),
        (again(0, 205, 42), Refusal::WrongPacket),
        (new(0, 264, 42), Refusal::Backlog),
        (new(0, 264, 41), Refusal::RingFull),
        (new(1, 0, 41), Refusal::Window),
        (again(0, 205, 41), Refusal::Window),
    ] {
        refuses(&rig, &[new(0, 263, 100), planned], 1, refusal);
    }
}

#[test]
fn the_first_send_that_fails_is_named() {
    let mut plan = good();
    plan[7].psn = 9;
    refuses(&two(), &plan, 7, Refusal::WrongPacket);
    // A refusal that comes earlier in the order does not go first for it.
    plan[8].flow = 2;
    refuses(&two(), &plan, 7, Refusal::WrongPacket);
    plan[4].size = 40;
    refuses(&two(), &plan, 4, Refusal::Size);
    plan[0].size = 40;
    refuses(&two(), &plan, 0, Refusal::Size);
}

/// Refused sends are not skipped over, and what comes behind them is not looked at.
#[test]
fn one_bad_send_anywhere() {
    for number in 0..good().len() {
        let mut plan = good();
        plan[number].psn ^= 1 << 31;
        refuses(&two(), &plan, number, Refusal::WrongPacket);
    }
}

fn wide() -> Rig {
    let mut rig = Rig::with_flows(e(), 1, 128);
    rig.accept(new_data(NOW, 50_000));
    rig
}

#[test]
fn sixty_four_sends() {
    let plan = in_sequence(0, 64);
    accepts(&wide(), &plan);
    let mut bad = plan.clone();
    bad[63].size = 40;
    refuses(&wide(), &bad, 63, Refusal::Size);
    for many in [65, 66, 128, 1_000] {
        let plan = in_sequence(0, many);
        refuses_whole(&wide(), NOW, &plan, Refusal::PlanTooLong);
    }
}

/// "More than 64 is 27 even where the first send would fail."
#[test]
fn sixty_five_bad_sends() {
    for (planned, refusal) in [
        (new(2, 104, 41), Refusal::Flow),
        (new(0, 104, 40), Refusal::Size),
        (new(0, 105, 41), Refusal::WrongPacket),
        (again(0, 100, 4_096), Refusal::WrongPacket),
    ] {
        let plan = [planned; 65];
        refuses(&two(), &plan[..64], 0, refusal);
        refuses_whole(&two(), NOW, &plan, Refusal::PlanTooLong);
    }
    let full = with_in_flight(two(), 614_400);
    refuses(&full, &in_sequence(104, 64), 0, Refusal::Window);
    refuses_whole(&full, NOW, &in_sequence(104, 65), Refusal::PlanTooLong);
}

/// The clock stands at 10,000.
#[test]
fn a_bad_time() {
    let plans = [
        vec![],
        good(),
        in_sequence(104, 65),
        vec![new(2, 0, 0)],
        vec![new(2, 0, 0); 65],
    ];
    for time in [0, 9_999, 1 << 48, u64::MAX] {
        for plan in &plans {
            refuses_whole(&two(), time, plan, Refusal::Time);
        }
    }
    for time in [10_000, 10_001, (1 << 48) - 1] {
        answers(&two(), time, &[], Ok(()));
        answers(&two(), time, &good(), Ok(()));
        refuses_whole(&two(), time, &plans[2], Refusal::PlanTooLong);
        let (refusal, send) = (Refusal::Flow, Some(0));
        answers(&two(), time, &plans[3], Err(PlanRefusal { refusal, send }));
    }
}

#[test]
fn what_does_not_hold_together() {
    let spoils: [fn(&mut Rig); 8] = [
        |rig| rig.state.cwnd = 0,
        |rig| rig.state.turn = 2,
        |rig| rig.state.backlog += 1,
        |rig| rig.state.clock = 1 << 48,
        |rig| rig.memory.flows[1].backlog = (1 << 40) + 1,
        |rig| rig.memory.ev_times.push(0),
        |rig| rig.memory = Memory::with_flows(0, 0, 256),
        |rig| rig.state = State::default(),
    ];
    for spoil in spoils {
        let mut rig = two();
        spoil(&mut rig);
        for plan in [vec![], good(), in_sequence(104, 65), vec![new(2, 0, 0)]] {
            for time in [NOW, 0, 1 << 48] {
                refuses_whole(&rig, time, &plan, Refusal::NotTogether);
            }
        }
    }
}
