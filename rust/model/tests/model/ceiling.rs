//! The ceiling of cwnd, max_wnd of 01 as amended by M-101, with settings E.

use crate::rig::*;
use model::{Ack, Name};

const NOW: u64 = 10_050;

/// Two packets; PSN 1 was sent so many ticks ago. Quick adapt waits.
fn returning(ticks: u64) -> Rig {
    let mut rig = Rig::e();
    rig.state.clock = NOW;
    rig.state.in_flight = 100_000;
    rig.state.qa_end = NOW + 1;
    rig.lay(0, &[(FLYING, 100, 9_000, 0), (FLYING, 100, NOW - ticks, 0)])
}

/// An ACK of PSN 1 that reports so many units.
fn ack_of_1(units: u32, marked: bool) -> Ack {
    Ack {
        marked,
        ..ack(NOW, 1, units)
    }
}

#[test]
fn a_falling_base_clamps_the_window() {
    // 614,400 / 96 is 6,400 for each tick.
    for (ticks, max_wnd) in [(97, 614_400), (96, 614_400), (95, 608_000), (1, 6_400)] {
        let by_ack = returning(ticks).after(ack_of_1(0, false)).state;
        assert_eq!(by_ack.cwnd, max_wnd, "{ticks} ticks");
        let by_other = returning(ticks).after(nack(NOW, 1, 2)).state;
        assert_eq!(by_other.cwnd, max_wnd, "{ticks} ticks");
        // The size of a trimmed packet is taken from the clamped window.
        for reason in [0, 1] {
            let by_trimmed = returning(ticks).after(nack(NOW, 1, reason)).state;
            assert_eq!(by_trimmed.cwnd, max_wnd - 100, "{ticks} ticks");
        }
        // No sample, no clamp.
        let by_loss = returning(ticks).after(loss(NOW, 1)).state;
        assert_eq!((by_loss.base, by_loss.cwnd), (96, 614_300));
    }
}

#[test]
fn a_window_below_the_new_max_wnd_stays() {
    for (cwnd, left) in [(319_999, 319_999), (320_000, 320_000), (320_001, 320_000)] {
        let mut rig = returning(50);
        rig.state.cwnd = cwnd;
        assert_eq!(rig.after(ack_of_1(0, false)).state.cwnd, left);
        assert_eq!(rig.after(nack(NOW, 1, 2)).state.cwnd, left);
    }
}

#[test]
fn a_clamp_is_rounded_down_and_leaves_an_mtu() {
    for (max_wnd, ticks, left) in [
        (614_399, 95, 607_999), // and a 96th
        (614_399, 1, 6_399),    // and 95 of them
        (8_192, 49, 4_181),
        (8_192, 47, 4_096), // 4,010 is below the MTU
    ] {
        let mut rig = returning(ticks);
        rig.state.settings.max_wnd = max_wnd;
        rig.state.cwnd = max_wnd;
        rig.state.in_flight = 0;
        assert_eq!(rig.after(ack_of_1(0, false)).state.cwnd, left);
        assert_eq!(rig.after(nack(NOW, 1, 2)).state.cwnd, left);
    }
}

#[test]
fn a_clamp_may_leave_more_in_flight() {
    let mut rig = returning(1);
    rig.state.in_flight = 614_400;
    rig.set_backlog(41);
    rig.settle();
    let mut rig = rig.after(nack(NOW, 1, 2));
    assert_eq!((rig.state.in_flight, rig.state.cwnd), (614_300, 6_400));
    assert_eq!(rig.state.name, Name::Active);
    rig.refuse(6, send(NOW, 2, 41));
    rig.state.in_flight = 2_304;
    rig.settle();
    rig.accept(send(NOW, 2, 41));
}

/// A base of 48 leaves 307,200; what was achieved is compared with that. As much as is in flight is
/// ignored, though it is more.
#[test]
fn quick_adapt_compares_with_the_clamped_window() {
    let with = |achieved| {
        let mut rig = returning(48);
        rig.state.qa_end = NOW;
        rig.state.trigger = true;
        rig.state.achieved = achieved;
        rig.state.in_flight = 614_400;
        rig
    };
    let fires = with(307_199).after(ack_of_1(0, true)).state;
    assert_eq!((fires.cwnd, fires.bytes_to_ignore), (307_199, 614_400));
    let stays = with(307_200).after(ack_of_1(0, true)).state;
    assert_eq!((stays.cwnd, stays.bytes_to_ignore), (307_200, 0));
    assert!(stays.trigger);
    for reason in [0, 1] {
        let fires = with(307_199).after(nack(NOW, 1, reason)).state;
        assert_eq!((fires.cwnd, fires.bytes_to_ignore), (307_199, 614_300));
        let stays = with(307_200).after(nack(NOW, 1, reason)).state;
        assert_eq!((stays.cwnd, stays.bytes_to_ignore), (307_100, 0));
    }
}

/// Below MaxWnd, at a base of 48: 614,400 * 48 / 96.
#[test]
fn fast_mode_and_the_adjustment_stop_at_max_wnd() {
    let at_48 = |delay: u64, cwnd| {
        let mut rig = returning(48 + delay);
        rig.state.base = 48;
        rig.state.cwnd = cwnd;
        rig
    };
    for (before, left) in [(306_687, 307_199), (306_688, 307_200), (306_689, 307_200)] {
        let mut rig = at_48(0, before);
        rig.state.fast_mode = true;
        assert_eq!(rig.after(ack_of_1(2, false)).state.cwnd, left);
    }
    // eta is 1,024.
    for (before, left) in [(306_175, 307_199), (306_176, 307_200), (306_177, 307_200)] {
        let mut rig = at_48(0, before);
        rig.state.last_adjust = NOW - 96;
        assert_eq!(rig.after(ack_of_1(0, true)).state.cwnd, left);
    }
    // 1,000 times the window was saved up.
    let mut rig = at_48(72, 306_201);
    rig.state.inc_bytes = 306_201_000;
    rig.state.received = 32_768;
    assert_eq!(rig.after(ack_of_1(0, false)).state.cwnd, 307_200);
}
