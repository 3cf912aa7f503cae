//! The window rules of 01 with settings E, and the next path.

use crate::rig::*;
use model::{Ack, State};

const NOW: u64 = 10_050;

/// Two packets; PSN 1 was sent 96 + `delay` ticks ago, so that its ACK has this delay.
fn delayed(delay: u64) -> Rig {
    let mut rig = Rig::e();
    rig.state.in_flight = 100_000;
    let sent = NOW - 96 - delay;
    rig.lay(0, &[(FLYING, 100, 9_000, 0), (FLYING, 100, sent, 0)])
}

/// An ACK of PSN 1 that reports so many units.
fn ack_of_1(units: u32, marked: bool) -> Ack {
    Ack {
        marked,
        ..ack(NOW, 1, units)
    }
}

fn after(mut rig: Rig, event: Ack) -> State {
    rig.settle();
    rig.after(event).state
}

#[test]
fn near_and_off_saves_up_until_above_cwnd() {
    let with = |fi_count, units| {
        let mut rig = delayed(12);
        rig.state.cwnd = 8_192;
        rig.state.fi_count = fi_count;
        let state = after(rig, ack_of_1(units, false));
        (state.fast_mode, state.fi_count, state.cwnd, state.inc_bytes)
    };
    // Up to cwnd: growth by 224 * newly * (72 - 12).
    assert_eq!(with(7_936, 1), (false, 8_192, 8_192, 3_440_640));
    // Above: the mode is on, and the window grows at once.
    assert_eq!(with(7_937, 1), (true, 8_193, 8_448, 0));
    assert_eq!(with(8_193, 0), (true, 8_193, 8_192, 0));
    assert_eq!(with(8_192, 0), (false, 8_192, 8_192, 0));
}

#[test]
fn near_and_on_grows_up_to_max_wnd() {
    let with = |cwnd| {
        let mut rig = delayed(0);
        rig.state.cwnd = cwnd;
        rig.state.fast_mode = true;
        rig.state.fi_count = 5;
        let state = after(rig, ack_of_1(2, false));
        assert_eq!(
            (state.fast_mode, state.fi_count, state.inc_bytes),
            (true, 5, 0)
        );
        state.cwnd
    };
    assert_eq!(with(300_000), 300_512);
    assert_eq!(with(613_888), 614_400);
    assert_eq!(with(613_889), 614_400);
}

#[test]
fn not_near_leaves_the_mode() {
    let mut rig = delayed(13);
    rig.state.cwnd = 300_000;
    rig.state.fast_mode = true;
    rig.state.fi_count = 400_000;
    let state = after(rig, ack_of_1(2, false));
    assert_eq!(
        (state.fast_mode, state.fi_count, state.cwnd),
        (false, 0, 300_000)
    );
    // 224 * 512 * (72 - 13)
    assert_eq!(state.inc_bytes, 6_766_592);
}

#[test]
fn near_uses_the_whole_part_of_an_eighth_of_the_base() {
    let mut rig = delayed(13);
    rig.state.base = 95;
    rig.state.cwnd = 300_000;
    // Delay 14 against base 95, whose eighth is 11.
    rig.state.fast_mode = true;
    assert!(!after(rig.clone(), ack_of_1(0, false)).fast_mode);
    rig.put(1, (FLYING, 100, NOW - 95 - 11, 0));
    assert!(after(rig.clone(), ack_of_1(0, false)).fast_mode);
    rig.put(1, (FLYING, 100, NOW - 95 - 12, 0));
    assert!(!after(rig, ack_of_1(0, false)).fast_mode);
}

#[test]
fn fair_increase_from_the_target_on() {
    for (delay, inc_bytes) in [(71, 224 * 512), (72, 4_096 * 512), (500, 4_096 * 512)] {
        let mut rig = delayed(delay);
        rig.state.cwnd = 300_000;
        rig.state.fast_mode = true;
        rig.state.fi_count = 7;
        let state = after(rig, ack_of_1(2, false));
        assert_eq!(state.inc_bytes, inc_bytes, "delay {delay}");
        assert_eq!(
            (state.fast_mode, state.fi_count, state.cwnd),
            (false, 0, 300_000)
        );
    }
}

#[test]
fn marked_below_the_target_only_leaves_the_mode() {
    let mut rig = delayed(71);
    rig.state.cwnd = 300_000;
    rig.state.avg = 500 * 1_024;
    rig.state.fast_mode = true;
    rig.state.fi_count = 7;
    let state = after(rig, ack_of_1(2, true));
    assert_eq!((state.fast_mode, state.fi_count), (false, 0));
    assert_eq!(
        (state.cwnd, state.inc_bytes, state.last_dec),
        (300_000, 0, 0)
    );
}

/// A rig whose marked ACK of delay 144 cuts; its average is 144 and stays so.
fn cutting() -> Rig {
    let mut rig = delayed(144);
    rig.state.avg = 144 * 1_024;
    rig
}

#[test]
fn a_cut_waits_more_than_a_base() {
    for (last_dec, cwnd) in [(NOW - 96, 614_400), (NOW - 97, 369_000)] {
        let mut rig = cutting();
        rig.state.last_dec = last_dec;
        rig.state.fast_mode = true;
        rig.state.fi_count = 3;
        let state = after(rig, ack_of_1(1, true));
        assert_eq!(state.cwnd, cwnd);
        assert_eq!((state.fast_mode, state.fi_count), (false, 0));
    }
}

#[test]
fn no_cut_while_ignoring() {
    // This ACK's 256 bytes already count.
    for (ignored, cwnd) in [(743, 614_400), (744, 369_000)] {
        let mut rig = cutting();
        rig.state.bytes_to_ignore = 1_000;
        rig.state.ignored = ignored;
        let state = after(rig, ack_of_1(1, true));
        assert_eq!(state.cwnd, cwnd, "ignored {ignored}");
        assert_eq!(state.ignored, ignored + 256);
    }
}

#[test]
fn a_cut_uses_the_average_with_this_ack() {
    // 72 ticks before, (79 * 73,728 + 1,024,000) / 80 = 85,606 parts or 83 ticks after.
    let mut rig = delayed(1_000);
    rig.state.avg = 72 * 1_024;
    let state = after(rig, ack_of_1(1, true));
    assert_eq!(state.avg, 85_606);
    // cut 819 * 11 / 83 = 108, factor 916
    assert_eq!((state.cwnd, state.last_dec), (549_600, NOW));
}

#[test]
fn a_cut_has_two_floors() {
    // gamma 1,024 and average 1,024: cut 952, factor 72 or the floor of 512.
    let with = |max_md_jump, cwnd| {
        let mut rig = delayed(1_024);
        rig.state.settings.gamma = 1_024;
        rig.state.settings.max_md_jump = max_md_jump;
        rig.state.avg = 1_024 * 1_024;
        rig.state.cwnd = cwnd;
        rig.state.in_flight = 0;
        rig.settle();
        let event = Ack {
            marked: true,
            ..ack(NOW, 1, 0)
        };
        after(rig, event).cwnd
    };
    assert_eq!(with(512, 614_400), 307_200);
    assert_eq!(with(72, 614_400), 43_200);
    assert_eq!(with(71, 614_400), 43_200);
    assert_eq!(with(512, 8_191), 4_096);
    assert_eq!(with(512, 8_194), 4_097);
}

#[test]
fn adjustment_by_bytes() {
    // 512 bytes arrive; the fair increase adds 4,096 * 512 to what was saved up.
    for (received, cwnd, left) in [(32_255, 307_200, 32_767), (32_256, 307_206, 0)] {
        let mut rig = delayed(72);
        rig.state.cwnd = 307_200;
        rig.state.received = received;
        let state = after(rig, ack_of_1(2, false));
        assert_eq!((state.cwnd, state.received), (cwnd, left));
        assert_eq!(state.last_adjust, 10_000);
        assert_eq!(state.inc_bytes, if left == 0 { 0 } else { 2_097_152 });
    }
}

#[test]
fn adjustment_divides_by_the_window_after_the_case_and_clamps_last() {
    // The cut to 369,000 first, then 36,900,000 / 369,000 and eta.
    let mut rig = cutting();
    rig.state.inc_bytes = 36_900_000;
    rig.state.last_adjust = NOW - 96;
    assert_eq!(after(rig, ack_of_1(1, true)).cwnd, 369_000 + 100 + 1_024);

    let mut rig = delayed(0);
    rig.state.cwnd = 614_000;
    rig.state.last_adjust = NOW - 96;
    let state = after(rig, ack_of_1(0, true));
    assert_eq!((state.cwnd, state.last_adjust), (614_400, NOW));
}

/// A rig in which a marked ACK of PSN 1 fires quick adapt for its delay of 289.
fn firing() -> Rig {
    let mut rig = delayed(289);
    rig.state.qa_end = NOW;
    rig.state.achieved = 50_000;
    rig.state.ignored = 9;
    rig.state.received = 40_000;
    rig.state.inc_bytes = 1 << 30;
    rig.state.fast_mode = true;
    rig.state.fi_count = 11;
    rig
}

#[test]
fn quick_adapt_fires() {
    let mut rig = firing();
    rig.state.trigger = true;
    let state = after(rig, ack_of_1(10, true));
    assert_eq!(state.cwnd, 52_560);
    assert_eq!((state.in_flight, state.bytes_to_ignore), (97_440, 97_440));
    assert_eq!((state.ignored, state.achieved), (0, 0));
    assert!(!state.trigger && !state.fast_mode);
    assert_eq!(state.fi_count, 0);
    assert_eq!(state.qa_end, NOW + 96 + 72);
    // The window rules stop there: no adjustment, no cut.
    assert_eq!((state.received, state.inc_bytes), (42_560, 1 << 30));
    assert_eq!((state.last_adjust, state.last_dec), (10_000, 0));
}

#[test]
fn quick_adapt_has_a_floor_and_a_negative_in_flight_is_0() {
    let mut rig = firing();
    rig.state.achieved = 100;
    rig.state.in_flight = -1;
    let state = after(rig, ack_of_1(0, true));
    assert_eq!((state.cwnd, state.bytes_to_ignore), (4_096, 0));
}

#[test]
fn a_firing_ack_still_sets_its_ev_time_and_the_name() {
    let mut rig = firing();
    rig.set_backlog(1);
    rig.settle();
    let after = rig.after(ack_of_1(0, true));
    assert_eq!(after.memory.ev_times[0], NOW + 96);
    assert_eq!(after.state.name, model::Name::Active);
}

#[test]
fn quick_adapt_needs_each_of_its_conditions() {
    let fired = |change: fn(&mut Rig), marked| {
        let mut rig = firing();
        change(&mut rig);
        let state = after(rig, ack_of_1(0, marked));
        state.bytes_to_ignore != 0
    };
    assert!(fired(|_| {}, true));
    assert!(!fired(|_| {}, false));
    assert!(!fired(|r| r.state.settings.quick_adapt_off = true, true));
    assert!(!fired(|r| r.state.qa_end = NOW + 1, true));
    assert!(!fired(|r| r.state.qa_end = 0, true));
    assert!(!fired(|r| r.state.achieved = 614_400, true));
    assert!(fired(|r| r.state.achieved = 614_399, true));
    assert!(!fired(|r| r.state.settings.qa_threshold = 289, true));
    let by_trigger = |r: &mut Rig| {
        r.state.settings.qa_threshold = 289;
        r.state.trigger = true;
    };
    assert!(fired(by_trigger, true));
    assert!(!fired(by_trigger, false));
}

#[test]
fn quick_adapt_that_does_not_fire_starts_a_new_span() {
    let mut rig = firing();
    rig.state.trigger = true;
    let state = after(rig.clone(), ack_of_1(10, false));
    assert_eq!((state.achieved, state.qa_end), (0, NOW + 168));
    assert!(state.trigger);
    // The rest follows: 42,560 bytes received, so the adjustment takes place.
    assert_eq!(state.received, 0);

    // Before the end, or disabled, nothing at all.
    let mut early = rig.clone();
    early.state.qa_end = NOW + 1;
    let state = after(early, ack_of_1(10, true));
    assert_eq!((state.achieved, state.qa_end), (52_560, NOW + 1));
    let mut disabled = rig;
    disabled.state.settings.quick_adapt_off = true;
    let state = after(disabled, ack_of_1(10, true));
    assert_eq!((state.achieved, state.qa_end), (52_560, NOW));
}

#[test]
fn quick_adapt_ends_with_the_new_base() {
    let mut rig = firing();
    rig.put(1, (FLYING, 100, NOW - 60, 0));
    let state = after(rig, ack_of_1(0, true));
    assert_eq!((state.base, state.qa_end), (60, NOW + 60 + 72));
}

#[test]
fn a_trimmed_packet_and_a_loss_take_from_the_window() {
    let mut rig = delayed(0);
    rig.put(0, (FLYING, 4_000, 9_000, 2));
    rig.state.qa_end = NOW + 1;
    rig.state.fast_mode = true;
    rig.state.fi_count = 5;
    rig.state.ignored = 10;
    rig.settle();
    let events: [model::Event; 3] = [
        nack(NOW, 0, 0).into(),
        nack(NOW, 0, 1).into(),
        loss(NOW, 0).into(),
    ];
    for event in events {
        let mut rig = rig.clone();
        let state = rig.after(event).state;
        assert_eq!((state.cwnd, state.ignored), (610_400, 4_010));
        assert!(state.trigger && state.fast_mode);
        assert_eq!((state.fi_count, state.in_flight), (5, 96_000));
        assert_eq!((state.received, state.achieved), (0, 0));
        assert_eq!(state.last_adjust, 10_000);
        for (cwnd, left) in [(8_097, 4_097), (8_095, 4_096), (4_096, 4_096)] {
            rig.state.cwnd = cwnd;
            rig.settle();
            assert_eq!(rig.after(event).state.cwnd, left);
        }
    }
}

#[test]
fn a_nack_for_another_reason_leaves_the_window() {
    let mut rig = delayed(0);
    rig.state.qa_end = NOW;
    rig.state.achieved = 77;
    let before = rig.state;
    let state = rig.after(nack(NOW, 0, 2)).state;
    assert_eq!((state.cwnd, state.ignored, state.avg), (614_400, 0, 0));
    assert_eq!((state.achieved, state.qa_end), (77, NOW));
    assert!(!state.trigger);
    assert_eq!(state.in_flight, before.in_flight - 100);
}

#[test]
fn a_loss_can_fire_quick_adapt() {
    let mut rig = delayed(0);
    rig.state.qa_end = NOW;
    rig.state.achieved = 200_000;
    rig.state.fast_mode = true;
    let events: [model::Event; 3] = [
        nack(NOW, 0, 0).into(),
        nack(NOW, 0, 1).into(),
        loss(NOW, 0).into(),
    ];
    for event in events {
        let state = rig.after(event).state;
        // Neither reduced by the size, nor is the trigger still on.
        assert_eq!((state.cwnd, state.bytes_to_ignore), (200_000, 99_900));
        assert_eq!((state.ignored, state.achieved), (0, 0));
        assert!(!state.trigger && !state.fast_mode);
    }
    // Not in the first span.
    rig.state.qa_end = 0;
    let state = rig.after(loss(NOW, 0)).state;
    assert_eq!((state.cwnd, state.achieved), (614_300, 0));
    assert_eq!(state.qa_end, NOW + 168);
}

#[test]
fn the_path_goes_round() {
    let mut rig = Rig::e();
    rig.state.cursor = 254;
    let evs = [0; 4].map(|_| rig.accept(path(NOW)).ev);
    assert_eq!(evs, [Some(254), Some(255), Some(0), Some(1)]);
    assert_eq!(rig.state.cursor, 2);
}

#[test]
fn the_path_skips_avoided_evs() {
    let mut rig = Rig::e();
    rig.state.cursor = 254;
    rig.memory.ev_times[254] = NOW + 1;
    rig.memory.ev_times[255] = NOW + 1;
    rig.memory.ev_times[0] = 1 << 48;
    // A time of now is over.
    rig.memory.ev_times[1] = NOW;
    assert_eq!(rig.clone().accept(path(NOW)).ev, Some(1));
    assert_eq!(rig.clone().accept(path(NOW - 1)).ev, Some(2));
    assert_eq!(rig.accept(path(NOW + 1)).ev, Some(254));
}

#[test]
fn with_most_evs_avoided_the_cursor_is_taken() {
    let mut rig = Rig::e();
    rig.state.cursor = 255;
    rig.memory.ev_times[100..229].fill(NOW + 1);
    rig.memory.ev_times[255] = NOW + 1;
    assert_eq!(rig.accept(path(NOW)).ev, Some(255));
    assert_eq!(rig.state.cursor, 0);
    assert_eq!(rig.accept(path(NOW)).ev, Some(0));
}

#[test]
fn an_ev_whose_time_is_now_does_not_count_as_avoided() {
    let mut rig = Rig::e();
    rig.memory.ev_times[..128].fill(NOW + 1);
    rig.memory.ev_times[200] = NOW;
    assert_eq!(rig.accept(path(NOW)).ev, Some(128));
}

#[test]
fn with_half_the_evs_avoided_the_search_may_go_all_the_way_round() {
    let mut rig = Rig::e();
    rig.state.cursor = 128;
    rig.memory.ev_times[128..].fill(NOW + 1);
    assert_eq!(rig.accept(path(NOW)).ev, Some(0));
    assert_eq!(rig.state.cursor, 1);
}
