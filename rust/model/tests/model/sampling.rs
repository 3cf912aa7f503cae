//! What the sample step says (M-103), at every edge, and what ACKs and NACKs carry of it.

use crate::rig::*;
use model::Sampling::{Ambiguous, Cut, Gone, NotPositive, Taken};
use model::{Ack, Nack, Sampling};

const NOW: u64 = 1 << 30;
const MOST: u64 = 1 << 20;

/// PSNs 4 and 5, of which 5 was sent so long ago.
fn packet(status: u8, ago: u64, resent: u8) -> Rig {
    let mut rig = Rig::e();
    rig.state.clock = NOW;
    rig.lay(
        4,
        &[(FLYING, 100, 9_000, 2), (status, 100, NOW - ago, resent)],
    )
}

fn ack_of_5(service: u32, retx: bool) -> Ack {
    Ack {
        service,
        retx,
        ..ack(NOW, 5, 0)
    }
}

fn nack_of_5(reason: u8, retx: bool) -> Nack {
    Nack {
        retx,
        ..nack(NOW, 5, reason)
    }
}

/// What the event, which must be accepted, says.
#[track_caller]
fn said(rig: &Rig, event: impl Into<model::Event>) -> Sampling {
    let sampling = rig.clone().accept(event).sampling;
    sampling.expect("an ACK or a NACK")
}

#[test]
fn ticks_and_letters() {
    let all = [
        (Taken(1), Some(1), 's'),
        (Taken(MOST), Some(MOST), 's'),
        (Cut, Some(MOST), 'c'),
        (Gone, None, 'g'),
        (Ambiguous, None, 'a'),
        (NotPositive, None, 'n'),
    ];
    for (sampling, ticks, letter) in all {
        assert_eq!((sampling.ticks(), sampling.letter()), (ticks, letter));
    }
}

#[test]
fn a_sample_is_cut_above_2_to_the_20() {
    for (ago, expected) in [
        (MOST - 1, Taken(MOST - 1)),
        (MOST, Taken(MOST)),
        (MOST + 1, Cut),
        (NOW, Cut),
    ] {
        let rig = packet(FLYING, ago, 0);
        assert_eq!(said(&rig, ack_of_5(0, false)), expected, "{ago}");
        for reason in [0, 1, 2] {
            assert_eq!(said(&rig, nack_of_5(reason, false)), expected, "{ago}");
        }
        // The service is taken off before.
        let shorter = said(&rig, ack_of_5(2, false));
        assert_eq!(shorter == Cut, ago == NOW, "{ago}");
    }
}

#[test]
fn a_sample_is_cut_at_the_end_of_time() {
    let last = (1 << 48) - 1;
    let rig = Rig::e().lay(0, &[(FLYING, 100, 0, 0), (FLYING, 100, 0, 0)]);
    let slow = Ack {
        service: u32::MAX,
        ..ack(last, 0, 0)
    };
    assert_eq!(said(&rig, slow), Cut);
    assert_eq!(said(&rig, nack(last, 1, 2)), Cut);
}

#[test]
fn a_sample_is_positive() {
    let rig = packet(FLYING, 60, 0);
    for (service, expected) in [
        (0, Taken(60)),
        (59, Taken(1)),
        (60, NotPositive),
        (61, NotPositive),
        (u32::MAX, NotPositive),
    ] {
        assert_eq!(said(&rig, ack_of_5(service, false)), expected, "{service}");
    }
    for reason in [0, 1, 2] {
        let now = packet(FLYING, 0, 0);
        assert_eq!(said(&now, nack_of_5(reason, false)), NotPositive);
        let a_tick_ago = packet(FLYING, 1, 0);
        assert_eq!(said(&a_tick_ago, nack_of_5(reason, false)), Taken(1));
    }
}

#[test]
fn resend_count_and_flag_tell_the_copy() {
    for (resent, retx, expected) in [
        (0, false, Taken(60)),
        (0, true, Ambiguous),
        (1, false, Ambiguous),
        (1, true, Taken(60)),
        (2, false, Ambiguous),
        (2, true, Ambiguous),
    ] {
        for status in [FLYING, MARKED] {
            let rig = packet(status, 60, resent);
            assert_eq!(said(&rig, ack_of_5(0, retx)), expected, "{resent} {retx}");
        }
        for reason in [0, 1, 2] {
            let rig = packet(FLYING, 60, resent);
            let nack = nack_of_5(reason, retx);
            assert_eq!(said(&rig, nack), expected, "{resent} {retx}");
        }
    }
}

#[test]
fn a_packet_that_is_neither_flying_nor_marked_is_gone() {
    for (status, expected) in [(FLYING, Taken(60)), (MARKED, Taken(60)), (DONE, Gone)] {
        let rig = packet(status, 60, 0);
        assert_eq!(said(&rig, ack_of_5(0, false)), expected, "{status}");
    }
    let rig = packet(FLYING, 60, 0);
    // Below low, in an empty slot; in the slots of 4 and 5; as far back as an ACK covers.
    let furthest = 5u32.wrapping_sub(1 << 30);
    for trigger in [3, 4u32.wrapping_sub(64), 5u32.wrapping_sub(128), furthest] {
        let event = Ack {
            trigger,
            ..ack_of_5(0, false)
        };
        assert_eq!(said(&rig, event), Gone, "{trigger}");
    }
    // Nothing was ever sent.
    assert_eq!(said(&Rig::new(e()), ack(0, u32::MAX, 0)), Gone);
}

#[test]
fn the_ring_before_the_ack_counts() {
    let mut rig = packet(FLYING, 60, 0);
    let event = ack_of_5(0, false);
    assert_eq!(rig.accept(event).sampling, Some(Taken(60)));
    assert_eq!(rig.accept(event).sampling, Some(Gone));
}

#[test]
fn gone_comes_first_and_not_positive_last() {
    // Resent twice and in this very tick.
    for service in [0, 1, u32::MAX] {
        for retx in [false, true] {
            let event = ack_of_5(service, retx);
            assert_eq!(said(&packet(DONE, 0, 2), event), Gone);
            assert_eq!(said(&packet(FLYING, 0, 2), event), Ambiguous);
            assert_eq!(said(&packet(MARKED, 0, 2), event), Ambiguous);
        }
        let event = ack_of_5(service, false);
        assert_eq!(said(&packet(DONE, 0, 0), event), Gone);
        assert_eq!(said(&packet(FLYING, 0, 1), event), Ambiguous);
        assert_eq!(said(&packet(FLYING, 0, 0), event), NotPositive);
    }
    for reason in [0, 1, 2] {
        let event = nack_of_5(reason, true);
        assert_eq!(said(&packet(FLYING, 0, 0), event), Ambiguous);
        assert_eq!(said(&packet(FLYING, 0, 1), event), NotPositive);
    }
}

#[test]
fn a_long_round_trip_does_not_change_the_order() {
    let event = ack_of_5(0, false);
    assert_eq!(said(&packet(DONE, MOST + 1, 0), event), Gone);
    assert_eq!(said(&packet(FLYING, MOST + 1, 1), event), Ambiguous);
    let nack = nack_of_5(2, true);
    assert_eq!(said(&packet(FLYING, MOST + 1, 2), nack), Ambiguous);
    assert_eq!(said(&packet(FLYING, MOST + 1, 1), nack), Cut);
}

/// Window rules are unchanged: a cut sample is one of 2^20, and without one the average stands in.
#[test]
fn window_rules_do_not_ask_why() {
    let event = ack_of_5(0, false);
    let after = |rig: Rig| {
        let state = rig.after(event).state;
        (state.base, state.avg, state.cwnd, state.inc_bytes)
    };
    assert_eq!(
        after(packet(FLYING, MOST + 1, 0)),
        after(packet(FLYING, MOST, 0))
    );
    let gone = after(packet(DONE, 60, 0));
    assert_eq!(after(packet(FLYING, 60, 1)), gone);
    assert_eq!(after(packet(FLYING, 0, 0)), gone);
    assert_ne!(after(packet(FLYING, 60, 0)), gone);
}

/// `refuse` sees to it that a refused event says nothing of a sample.
#[test]
fn refused_acks_and_nacks_say_nothing() {
    let mut rig = packet(MARKED, 60, 0);
    rig.refuse(3, ack(NOW - 1, 5, 0));
    rig.refuse(21, ack(NOW, 5, 1 << 24));
    rig.refuse(9, ack(NOW, 6, 0));
    rig.refuse(22, nack(NOW, 4, 3));
    rig.refuse(10, nack(NOW, 5, 2));
    rig.state.cwnd = 0;
    rig.refuse(2, ack(NOW, 5, 0));
    rig.refuse(2, nack(NOW, 4, 2));
}
