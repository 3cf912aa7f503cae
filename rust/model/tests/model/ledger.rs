//! The ledger: what sends, ACKs and losses do to ring and totals, and the wraps.

use crate::rig::*;
use model::{Ack, Name};

const NOW: u64 = 10_050;

#[test]
fn a_new_packet() {
    let mut rig = Rig::e();
    rig.accept(new_data(NOW, 5_000));
    rig.accept(send(NOW, 0, 4_096));
    assert_eq!(rig.slot(0), (FLYING, 4_096, NOW, 0));
    let state = &rig.state;
    assert_eq!((rig.flow().low, rig.flow().next, state.flying), (0, 1, 1));
    assert_eq!((rig.flow().backlog, state.backlog), (904, 904));
    assert_eq!(state.in_flight, 4_096);
    assert_eq!(state.name, Name::Ready);
    rig.accept(send(NOW, 1, 904));
    assert_eq!((rig.state.backlog, rig.state.in_flight), (0, 5_000));
    assert_eq!(rig.state.name, Name::Pending);
}

#[test]
fn a_loss_and_a_resend() {
    let mut rig = Rig::e();
    rig.accept(new_data(NOW, 4_096));
    rig.accept(send(NOW, 0, 4_096));
    rig.accept(loss(NOW + 1, 0));
    assert_eq!(rig.slot(0), (MARKED, 4_096, NOW, 0));
    let state = &rig.state;
    assert_eq!(
        (state.flying, state.marked, state.marked_bytes),
        (0, 1, 4_096)
    );
    assert_eq!((state.in_flight, state.name), (0, Name::Ready));
    rig.accept(resend(NOW + 2, 0, 4_096));
    assert_eq!(rig.slot(0), (FLYING, 4_096, NOW + 2, 1));
    let state = &rig.state;
    assert_eq!((state.flying, state.marked, state.marked_bytes), (1, 0, 0));
    assert_eq!((state.in_flight, state.backlog), (4_096, 0));
    assert_eq!(state.name, Name::Pending);
}

#[test]
fn a_packet_leaves_the_flying_count_once() {
    let mut rig = Rig::e().lay(0, &[(FLYING, 100, 9_000, 0); 2]);
    rig.accept(nack(NOW, 1, 2));
    assert_eq!(rig.state.flying, 1);
    rig.accept(ack(NOW, 1, 0));
    let state = &rig.state;
    assert_eq!((state.flying, state.marked, state.marked_bytes), (0, 0, 0));
    assert_eq!((rig.flow().low, state.name), (2, Name::Idle));
}

#[test]
fn done_slots_stay_until_low_passes_them() {
    let slots = [10, 11, 12, 13].map(|size| (FLYING, 100 + size, 9_000, 0));
    let mut rig = Rig::e().lay(10, &slots);
    rig.accept(Ack {
        map: 0b110,
        ..ack(NOW, 9, 0)
    });
    assert_eq!(rig.flow().low, 10);
    assert_eq!(rig.slot(11), (DONE, 111, 9_000, 0));
    assert_eq!(rig.slot(12), (DONE, 112, 9_000, 0));
    rig.accept(ack(NOW, 10, 0));
    assert_eq!((rig.flow().low, rig.flow().next), (13, 14));
    for psn in [10, 11, 12] {
        assert_eq!(rig.slot(psn), (EMPTY, 0, 0, 0));
    }
    assert_eq!(rig.status(13), FLYING);
}

#[test]
fn the_map_of_an_ack_below_low_reaches_into_the_ledger() {
    // Of cum 5, bits 4 and 6 are packets 10 and 12; bit 0 is long gone.
    let mut rig = Rig::e().lay(10, &[(FLYING, 100, 9_000, 0); 4]);
    rig.accept(Ack {
        map: 0b101_0001,
        ..ack(NOW, 5, 0)
    });
    assert_eq!(rig.flow().low, 11);
    let statuses = [10, 11, 12, 13].map(|psn| rig.status(psn));
    assert_eq!(statuses, [EMPTY, FLYING, DONE, FLYING]);
}

#[test]
fn all_64_bits_of_the_map() {
    let mut rig = Rig::with_capacity(e(), 128);
    rig.state.clock = 9_000;
    let mut rig = rig.lay(4_294_967_260, &[(FLYING, 100, 9_000, 0); 100]);
    rig.accept(Ack {
        map: u64::MAX,
        ..ack(NOW, 4_294_967_261, 0)
    });
    // 2 by cum and 64 by the map: all before PSN 4,294,967,326 - 2^32 = 30.
    assert_eq!((rig.flow().low, rig.state.flying), (30, 34));
}

#[test]
fn marked_packets_that_an_ack_covers() {
    let slots = [
        (MARKED, 1_000, 9_000, 0),
        (FLYING, 100, 9_000, 0),
        (MARKED, 2_000, 9_000, 1),
        (MARKED, 300, 9_000, 1),
    ];
    let mut rig = Rig::e().lay(4_294_967_295, &slots);
    rig.accept(Ack {
        map: 0b10,
        ..ack(NOW, 4_294_967_295, 0)
    });
    let state = &rig.state;
    assert_eq!((rig.flow().low, state.flying), (0, 1));
    assert_eq!((state.marked, state.marked_bytes), (1, 300));
    assert_eq!(rig.status(1), DONE);
}

#[test]
fn the_held_count_goes_forward_only() {
    let mut rig = Rig::e();
    rig.state.in_flight = 100_000;
    rig.flow_mut().held = 1_000;
    for (count, held, in_flight) in [
        (1_010, 1_010, 97_440),
        (1_010, 1_010, 97_440),     // equal
        (1_009, 1_010, 97_440),     // old
        (0, 1_010, 97_440),         // old
        (8_389_618, 1_010, 97_440), // half way round: old
        (1_011, 1_011, 97_184),
    ] {
        rig.accept(ack(NOW, u32::MAX, count));
        assert_eq!((rig.flow().held, rig.state.in_flight), (held, in_flight));
    }
}

#[test]
fn psns_and_slots_go_round_many_times() {
    let mut settings = e();
    settings.first_psn = 4_294_967_196;
    let mut rig = Rig::new(settings);
    rig.accept(new_data(0, 1_000_000));
    for i in 0..300u32 {
        let psn = 4_294_967_196u32.wrapping_add(i);
        rig.accept(send(u64::from(i), psn, 256));
        if i >= 40 {
            // The 40 behind it are still out.
            rig.accept(ack(u64::from(i), psn.wrapping_sub(40), i - 39));
            assert_eq!(rig.state.flying, 40);
            assert_eq!(rig.state.in_flight, 40 * 256);
            assert_eq!(rig.flow().low, psn.wrapping_sub(39));
        }
    }
    assert_eq!((rig.flow().low, rig.flow().next), (160, 200));
}

#[test]
fn the_received_count_goes_round_in_a_long_log() {
    // 16 MiB for each ACK: after 256 of them the count is 0 again.
    let log = model::gen::bulk(1, 270_000);
    let text = model::replay(&log);
    let refused = text
        .lines()
        .skip(1)
        .filter(|line| line.split(' ').nth(1) != Some("0"));
    assert_eq!(refused.count(), 0);
    assert_eq!(text.lines().count(), 270_001);
    // 1 settings record, then 1,026 records for each ACK: the 257th is record 263,683. The base is
    // then 90, the shortest round trip, and the window 2^26 * 90 / 96.
    let after_wrap = text.lines().nth(1 + 1_026 * 257).unwrap();
    assert_eq!(after_wrap, "263683 0 0 62914560 0 0 0 IDLE s");
}
