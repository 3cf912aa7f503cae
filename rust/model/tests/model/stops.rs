//! The stops of 01: each tally one step before its stop, and over it.

use crate::rig::*;
use model::{Ack, State};

const NOW: u64 = 10_050;
const STOP: u64 = 1 << 40;

/// A packet whose ACK has delay 0, and room for reports.
fn rig() -> Rig {
    let mut rig = Rig::e();
    rig.state.in_flight = 100_000;
    rig.lay(0, &[(FLYING, 100, NOW - 96, 0)])
}

fn report(rig: &Rig, units: u32, marked: bool) -> State {
    rig.after(Ack {
        marked,
        ..ack(NOW, 0, units)
    })
    .state
}

#[test]
fn ignored() {
    let mut rig = rig();
    for (before, after) in [
        (STOP - 257, STOP - 1),
        (STOP - 256, STOP),
        (STOP - 255, STOP),
    ] {
        rig.state.ignored = before;
        assert_eq!(report(&rig, 1, false).ignored, after);
    }
    for (before, after) in [(STOP - 101, STOP - 1), (STOP - 99, STOP), (STOP, STOP)] {
        rig.state.ignored = before;
        assert_eq!(rig.after(loss(NOW, 0)).state.ignored, after);
        assert_eq!(rig.after(nack(NOW, 0, 1)).state.ignored, after);
    }
}

#[test]
fn achieved() {
    let mut rig = rig();
    rig.state.settings.quick_adapt_off = true;
    for (before, after) in [(STOP - 257, STOP - 1), (STOP - 255, STOP), (STOP, STOP)] {
        rig.state.achieved = before;
        assert_eq!(report(&rig, 1, false).achieved, after);
    }
}

#[test]
fn received() {
    // Only a firing quick adapt leaves it standing.
    let mut rig = rig();
    rig.state.qa_end = 1;
    rig.state.trigger = true;
    for (before, after) in [(STOP - 257, STOP - 1), (STOP - 255, STOP), (STOP, STOP)] {
        rig.state.received = before;
        assert_eq!(report(&rig, 1, true).received, after);
    }
}

#[test]
fn fi_count() {
    let mut rig = rig();
    for (before, after) in [(STOP - 257, STOP - 1), (STOP - 255, STOP), (STOP, STOP)] {
        rig.state.fi_count = before;
        assert_eq!(report(&rig, 1, false).fi_count, after);
    }
}

#[test]
fn inc_bytes() {
    // One unit at delay 0, not above cwnd: 224 * 256 * 72 = 4,128,768.
    let mut rig = rig();
    let stop = 1u64 << 60;
    for (before, after) in [
        (stop - 4_128_769, stop - 1),
        (stop - 4_128_768, stop),
        (stop - 4_128_767, stop),
        (stop, stop),
    ] {
        rig.state.inc_bytes = before;
        assert_eq!(report(&rig, 1, false).inc_bytes, after);
    }
}

#[test]
fn the_largest_growth_of_all() {
    // alpha, target and the reported bytes at their greatest, from a full inc_bytes. The sample of 1
    // is no fall from this base.
    let mut settings = e();
    settings.max_wnd = 1 << 26;
    settings.config_base_rtt = 1;
    settings.alpha = 1 << 14;
    settings.target_qdelay = 1 << 14;
    settings.adjust_bytes = 1 << 26;
    settings.adjust_period = 1 << 20;
    let mut rig = Rig::new(settings);
    rig.state.in_flight = 1 << 26;
    rig.state.inc_bytes = 1 << 60;
    let mut rig = rig.lay(0, &[(FLYING, 100, 0, 0)]);
    let units = ((1 << 26) + (1 << 24)) / 256;
    rig.refuse(11, ack(1, 0, units + 1));
    let state = rig.after(ack(1, 0, units)).state;
    // More than adjust_bytes: 2^60 / 2^26 is added, and clamped.
    assert_eq!((state.cwnd, state.in_flight), (1 << 26, -(1 << 24)));
}

#[test]
fn average() {
    let mut rig = rig();
    rig.state.avg = 1 << 30;
    // (79 * 2^30 + 0) / 80
    assert_eq!(report(&rig, 0, true).avg, 1_060_320_051);
}

#[test]
fn resend_count() {
    let mut rig = Rig::e();
    rig.accept(new_data(10_000, 100));
    rig.accept(send(10_001, 0, 100));
    for (round, resent) in [(0, 1), (1, 2), (2, 2), (3, 2)] {
        rig.accept(loss(10_002 + 2 * round, 0));
        rig.accept(resend(10_003 + 2 * round, 0, 100));
        assert_eq!(rig.slot(0), (FLYING, 100, 10_003 + 2 * round, resent));
    }
}

#[test]
fn times_at_the_end_of_time() {
    let mut settings = e();
    settings.config_base_rtt = 1 << 14;
    settings.target_qdelay = 1 << 14;
    let mut rig = Rig::new(settings);
    let last = (1 << 48) - 1;
    rig.accept(new_data(last, 4_096));
    rig.accept(send(last, 0, 4_096));
    rig.accept(loss(last, 0));
    assert_eq!(rig.memory.ev_times[0], last + (1 << 14));
    assert_eq!(rig.state.qa_end, last + (1 << 15));
    rig.accept(resend(last, 0, 4_096));
    rig.accept(Ack {
        retx: true,
        ..ack(last, 0, 16)
    });
    rig.refuse(3, path(last + 1));
}
