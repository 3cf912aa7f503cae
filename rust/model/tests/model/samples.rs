//! When a sample exists, what it does to base and average, and which base the EV times use.

use crate::rig::*;
use model::{Ack, Nack};

const NOW: u64 = 10_050;

/// One packet, PSN 5, sent so long ago.
fn packet(status: u8, ago: u64, resent: u8) -> Rig {
    let first = (FLYING, 100, 9_000, 2);
    Rig::e().lay(4, &[first, (status, 100, NOW - ago, resent)])
}

fn ack_of_5() -> Ack {
    ack(NOW, 5, 0)
}

/// An average of 80 ticks shows whether the filter was fed.
const HELD_AVG: u64 = 80 * 1_024;

#[test]
fn a_sample_needs_the_packet_flying_or_marked() {
    for (status, base) in [(FLYING, 60), (MARKED, 60), (DONE, 96)] {
        let mut rig = packet(status, 60, 0);
        rig.state.avg = HELD_AVG;
        let after = rig.after(ack_of_5()).state;
        assert_eq!(after.base, base, "status {status}");
        assert_eq!(after.avg == HELD_AVG, base == 96);
    }
}

#[test]
fn a_trigger_that_is_gone_or_only_shares_a_slot_gives_no_sample() {
    let rig = packet(FLYING, 60, 0);
    for trigger in [5, 5u32.wrapping_sub(64), 3, 5u32.wrapping_sub(128)] {
        let event = Ack {
            trigger,
            ..ack_of_5()
        };
        let base = if trigger == 5 { 60 } else { 96 };
        assert_eq!(rig.after(event).state.base, base, "trigger {trigger}");
    }
}

#[test]
fn a_sample_is_at_least_1() {
    for (service, base) in [(0, 60), (59, 1), (60, 96), (61, 96), (u32::MAX, 96)] {
        let event = Ack {
            service,
            ..ack_of_5()
        };
        let after = packet(FLYING, 60, 0).after(event).state;
        assert_eq!(after.base, base, "service {service}");
    }
}

#[test]
fn a_sample_above_2_to_the_20_counts_as_that() {
    for (round_trip, avg) in [
        // 1,024 * (round trip - 96) / 80, up to 1,024 * (2^20 - 96) / 80.
        ((1 << 20) - 80, 13_419_520),
        (1 << 20, 13_420_544),
        ((1 << 20) + 1, 13_420_544),
        ((1 << 47), 13_420_544),
    ] {
        let rig = Rig::e().lay(0, &[(FLYING, 100, 10_000, 0)]);
        let after = rig.after(ack(10_000 + round_trip, 0, 0)).state;
        assert_eq!(after.avg, avg, "round trip {round_trip}");
    }
}

#[test]
fn delay_is_against_the_new_base() {
    let mut rig = packet(FLYING, 60, 0);
    rig.state.avg = 1_000_000;
    let after = rig.after(ack_of_5()).state;
    assert_eq!((after.base, after.avg), (60, 987_500));
}

#[test]
fn what_the_filter_is_fed() {
    // Base 96, target 72. From an average of 0 to 1,024 * x / 80.
    for (delay, marked, avg) in [
        (72, false, 921),    // x = 72
        (73, false, 307),    // x = 96 / 4
        (480, false, 307),   // x = 96 / 4
        (481, false, 6_156), // x = 481
        (73, true, 934),     // x = 73
        (480, true, 6_144),  // x = 480
        (0, false, 0),
    ] {
        let event = Ack {
            marked,
            ..ack_of_5()
        };
        let after = packet(FLYING, 96 + delay, 0).after(event).state;
        assert_eq!(after.avg, avg, "delay {delay}, marked {marked}");
    }
}

#[test]
fn a_quarter_of_the_base_rounds_down() {
    let mut rig = packet(FLYING, 195, 0);
    rig.state.base = 95;
    rig.state.cwnd = 300_000;
    // x = 23 for a delay of 100.
    assert_eq!(rig.after(ack_of_5()).state.avg, 294);
}

#[test]
fn without_a_sample_the_average_is_the_delay_and_stays() {
    // 71 ticks and 1,023 parts are read as 71, below the target.
    let mut rig = packet(DONE, 60, 0);
    rig.state.in_flight = 256;
    for (avg, inc_bytes) in [(71 * 1_024 + 1_023, 224 * 256), (72 * 1_024, 4_096 * 256)] {
        rig.state.avg = avg;
        let after = rig.after(ack(NOW, 5, 1)).state;
        assert_eq!(after.avg, avg);
        assert_eq!(after.inc_bytes, inc_bytes);
    }
}

#[test]
fn a_nack_samples_its_own_packet_for_every_reason() {
    for reason in [0, 1, 2] {
        let after = packet(FLYING, 60, 0).after(nack(NOW, 5, reason)).state;
        assert_eq!(after.base, 60);
        let once = packet(FLYING, 60, 1);
        assert_eq!(once.after(nack(NOW, 5, reason)).state.base, 96);
        let with_flag = Nack {
            retx: true,
            ..nack(NOW, 5, reason)
        };
        assert_eq!(once.after(with_flag).state.base, 60);
        let twice = packet(FLYING, 60, 2);
        assert_eq!(twice.after(with_flag).state.base, 96);
        // Sent in this very tick: no sample.
        let mut just_now = packet(FLYING, 60, 0);
        just_now.state.clock = NOW;
        just_now.put(5, (FLYING, 100, NOW, 0));
        assert_eq!(just_now.after(nack(NOW, 5, reason)).state.base, 96);
    }
}

#[test]
fn a_trimmed_nack_feeds_config_base_rtt() {
    let mut rig = packet(FLYING, 60, 0);
    rig.state.base = 80;
    rig.state.cwnd = 300_000;
    // 1,024 * 96 / 80, neither the base nor a quarter of it.
    for (reason, avg) in [(0, 1_228), (1, 1_228), (2, 0)] {
        assert_eq!(rig.after(nack(NOW, 5, reason)).state.avg, avg);
    }
}

#[test]
fn a_loss_takes_no_sample_and_feeds_nothing() {
    let after = packet(FLYING, 60, 0).after(loss(NOW, 5)).state;
    assert_eq!((after.base, after.avg), (96, 0));
}

#[test]
fn ev_times_use_the_base_held_before_the_event() {
    let rig = packet(FLYING, 60, 0);
    let marked_ack = Ack {
        ev: 200,
        marked: true,
        ..ack_of_5()
    };
    let after = rig.after(marked_ack);
    assert_eq!(after.memory.ev_times[200], NOW + 96);
    assert_eq!(after.state.base, 60);
    let trimmed = Nack {
        ev: 200,
        ..nack(NOW, 5, 0)
    };
    assert_eq!(rig.after(trimmed).memory.ev_times[200], NOW + 96);
    let lost = model::Loss {
        ev: 200,
        ..loss(NOW, 5)
    };
    assert_eq!(rig.after(lost).memory.ev_times[200], NOW + 96);
}

#[test]
fn which_events_set_an_ev_time() {
    let rig = packet(FLYING, 60, 0);
    let untouched = rig.memory.ev_times.clone();
    let ev = 255;
    let nack_of = |reason, marked| Nack {
        ev,
        marked,
        ..nack(NOW, 5, reason)
    };
    let ack_of = |marked| Ack {
        ev,
        marked,
        ..ack_of_5()
    };
    let events: [(model::Event, bool); 8] = [
        (ack_of(false).into(), false),
        (ack_of(true).into(), true),
        (nack_of(0, false).into(), true),
        (nack_of(0, true).into(), true),
        (nack_of(1, false).into(), false),
        (nack_of(1, true).into(), true),
        (nack_of(2, false).into(), false),
        (nack_of(2, true).into(), true),
    ];
    for (event, sets) in events {
        let mut expected = untouched.clone();
        if sets {
            expected[255] = NOW + 96;
        }
        assert_eq!(rig.after(event).memory.ev_times, expected, "{event:?}");
    }
}

#[test]
fn an_ev_time_is_overwritten_by_an_earlier_one() {
    let mut rig = packet(FLYING, 60, 0);
    rig.memory.ev_times[0] = 1 << 48;
    assert_eq!(rig.after(loss(NOW, 5)).memory.ev_times[0], NOW + 96);
}
