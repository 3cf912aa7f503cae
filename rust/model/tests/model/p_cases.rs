//! P1 to P10 of 01, "Numbers to check by hand", each by whole events.

use crate::rig::{ack, send, Rig, DONE, EMPTY, FLYING};
use model::Ack;

const NOW: u64 = 10_050;

/// A marked ACK below the target: nothing but the adjustment can change the window.
fn idle_ack() -> Ack {
    Ack {
        marked: true,
        ..ack(NOW, u32::MAX, 0)
    }
}

#[test]
fn p1_adjustment() {
    let mut rig = Rig::e();
    rig.state.cwnd = 307_200;
    rig.state.inc_bytes = 33_554_432;
    rig.state.received = 32_768;
    assert_eq!(rig.after(idle_ack()).state.cwnd, 307_309);

    rig.state.received = 0;
    rig.state.last_adjust = NOW - 96;
    let after = rig.after(idle_ack()).state;
    assert_eq!(after.cwnd, 308_333);
    assert_eq!((after.inc_bytes, after.received), (0, 0));
    assert_eq!(after.last_adjust, NOW);

    rig.state.last_adjust = NOW - 95;
    assert_eq!(rig.after(idle_ack()).state.cwnd, 307_200);
}

#[test]
fn p2_proportional_increase() {
    let mut rig = Rig::e();
    rig.state.in_flight = 8_192;
    let rig = rig.lay(0, &[(FLYING, 4_096, NOW - 118, 0)]);
    let after = rig.after(ack(NOW, 0, 32)).state;
    assert_eq!(after.base, 96);
    assert_eq!(after.inc_bytes, 91_750_400);
}

#[test]
fn p3_multiplicative_decrease() {
    let mut rig = Rig::e();
    rig.state.avg = 144 * 1_024;
    let after = rig.after(idle_ack()).state;
    assert_eq!((after.cwnd, after.last_dec), (369_000, NOW));

    rig.state.avg = 72 * 1_024;
    let after = rig.after(idle_ack()).state;
    assert_eq!((after.cwnd, after.last_dec), (614_400, 0));
}

#[test]
fn p4_received_count_wraps() {
    let mut rig = Rig::e();
    rig.flow_mut().held = 16_777_214;
    let after = rig.after(ack(NOW, u32::MAX, 3));
    assert_eq!((after.state.in_flight, after.flow().held), (-1_280, 3));

    let half_ahead = 16_777_214 - 8_388_608;
    let after = rig.after(ack(NOW, u32::MAX, half_ahead));
    assert_eq!((after.state.in_flight, after.flow().held), (0, 16_777_214));
}

#[test]
fn p5_average() {
    let mut rig = Rig::e();
    rig.state.avg = 73_728;
    let rig = rig.lay(0, &[(FLYING, 4_096, NOW - 196, 0)]);
    assert_eq!(rig.after(ack(NOW, 0, 0)).state.avg, 73_113);
}

#[test]
fn p6_sample() {
    // With a base above 120 the sample shows as the new base.
    let mut settings = crate::rig::e();
    settings.config_base_rtt = 200;
    let with_resent = |resent, retx| {
        let mut rig = Rig::new(settings);
        rig.state.clock = 1_000;
        let rig = rig.lay(0, &[(FLYING, 4_096, 1_000, resent)]);
        let event = Ack {
            service: 30,
            retx,
            ..ack(1_150, 0, 0)
        };
        rig.after(event).state.base
    };
    assert_eq!(with_resent(0, false), 120);
    assert_eq!(with_resent(1, false), 200);
    assert_eq!(with_resent(2, true), 200);
    assert_eq!(with_resent(1, true), 120);
    assert_eq!(with_resent(0, true), 200);
    assert_eq!(with_resent(2, false), 200);
}

#[test]
fn p7_map() {
    let mut rig = Rig::e().lay(5, &[(FLYING, 100, 9_000, 0); 5]);
    let event = Ack {
        map: 0b1010,
        ..ack(NOW, 5, 0)
    };
    let after = rig.after(event);
    let statuses = [5, 6, 7, 8, 9].map(|psn| after.status(psn));
    assert_eq!(statuses, [EMPTY, FLYING, DONE, FLYING, DONE]);
    assert_eq!((after.flow().low, after.flow().next), (6, 10));
    assert_eq!(after.state.flying, 2);

    let unsent = Ack {
        map: 0b1_0000,
        ..event
    };
    rig.refuse(9, unsent);
}

#[test]
fn p8_psn_wraps() {
    let rig = Rig::e().lay(4_294_967_294, &[(FLYING, 100, 9_000, 0); 4]);
    assert_eq!(rig.flow().next, 2);
    let after = rig.after(ack(NOW, 0, 0));
    assert_eq!((after.flow().low, after.flow().next), (1, 2));
    assert_eq!(after.state.flying, 1);
    let statuses = [4_294_967_294, 4_294_967_295, 0, 1].map(|psn| after.status(psn));
    assert_eq!(statuses, [EMPTY, EMPTY, EMPTY, FLYING]);
}

#[test]
fn p9_window_on_a_send() {
    let mut rig = Rig::e();
    rig.set_backlog(4_096);
    rig.state.in_flight = 610_304;
    rig.settle();
    assert_eq!(rig.after(send(NOW, 0, 4_096)).state.in_flight, 614_400);

    rig.state.in_flight = 610_305;
    rig.settle();
    rig.refuse(6, send(NOW, 0, 4_096));
}

#[test]
fn p10_half_the_evs_avoided() {
    let mut rig = Rig::e();
    rig.memory.ev_times[..128].fill(NOW + 1);
    assert_eq!(rig.clone().accept(crate::rig::path(NOW)).ev, Some(128));

    rig.memory.ev_times[128] = NOW + 1;
    assert_eq!(rig.clone().accept(crate::rig::path(NOW)).ev, Some(0));
}
