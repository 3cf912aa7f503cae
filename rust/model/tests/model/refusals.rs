//! Each refusal number at its edge: one step inside, one outside. And their order.

use crate::rig::*;
use model::{Ack, Flow, Loss, Memory, Nack, Outcome, Settings, State};

const NOW: u64 = 10_050;

/// Low 100, next 104: flying, marked, done, flying; 5,000 bytes of backlog.
fn rig() -> Rig {
    let mut rig = Rig::e();
    rig.set_backlog(5_000);
    rig.state.in_flight = 8_192;
    rig.lay(
        100,
        &[
            (FLYING, 4_096, 9_950, 0),
            (MARKED, 1_000, 9_960, 1),
            (DONE, 4_096, 9_970, 0),
            (FLYING, 4_096, 9_980, 2),
        ],
    )
}

/// One event of each kind that `rig()` accepts.
fn one_of_each(time: u64) -> Vec<model::Event> {
    vec![
        new_data(time, 1),
        send(time, 104, 41),
        resend(time, 101, 1_000),
        ack(time, 100, 1).into(),
        nack(time, 100, 0).into(),
        loss(time, 103).into(),
        path(time),
    ]
}

/// Setting up on memory of ones: the answer, the state, and whether the memory was left alone.
fn set_up(settings: &Settings, mut memory: Memory) -> (u8, State, bool) {
    memory.flows.fill(Flow::fresh(1));
    memory.outstanding.fill(1);
    memory.marked.fill(1);
    memory.sizes.fill(1);
    memory.sent.fill(1);
    memory.ev_times.fill(1);
    let before = memory.clone();
    let (answer, state) = State::set_up(settings, &mut memory.lend());
    (answer, state, memory == before)
}

#[test]
fn number_1_at_each_range() {
    let ranges: [(u64, u64); 12] = [
        (1_024, 16_384),
        (4_096, 67_108_864),
        (1, 16_384),
        (1, 16_384),
        (0, 1_048_576),
        (0, 1_048_576),
        (0, 16_384),
        (0, 1_024),
        (0, 1_024),
        (1, 1_048_576),
        (1, 67_108_864),
        (0, 1_048_576),
    ];
    for (i, (least, most)) in ranges.into_iter().enumerate() {
        let with = |number| {
            let mut numbers = e().numbers();
            numbers[i] = number;
            let settings = Settings::from_numbers(numbers, 7, false);
            set_up(&settings, Memory::new(64))
        };
        for inside in [least, most] {
            let (answer, state, _) = with(inside);
            assert_eq!(answer, 0, "number {i} at {inside}");
            assert_eq!(state.settings.numbers()[i], inside);
        }
        let outside = [least.checked_sub(1), Some(most + 1), Some(u64::MAX)];
        for outside in outside.into_iter().flatten() {
            let (answer, state, left_alone) = with(outside);
            assert_eq!(answer, 1, "number {i} at {outside}");
            assert_eq!(state, State::default());
            assert!(left_alone);
        }
    }
}

#[test]
fn number_1_max_wnd_starts_at_the_given_mtu() {
    let mut settings = e();
    settings.mtu = 16_384;
    settings.max_wnd = 16_383;
    assert_eq!(set_up(&settings, Memory::new(64)).0, 1);
    settings.max_wnd = 16_384;
    assert_eq!(set_up(&settings, Memory::new(64)).0, 0);
}

#[test]
fn number_2_on_setting_up_is_of_lengths_only() {
    for capacity in [64, 128, 1_024, 4_096] {
        let (answer, state, left_alone) = set_up(&e(), Memory::new(capacity));
        assert_eq!((answer, left_alone), (0, false));
        assert_eq!(state.cwnd, 614_400);
    }
    for capacity in [0, 1, 32, 63, 65, 96, 4_095, 4_097, 8_192] {
        let (answer, state, left_alone) = set_up(&e(), Memory::new(capacity));
        assert_eq!(answer, 2, "{capacity}");
        assert_eq!(state, State::default());
        assert!(left_alone);
    }
    let one_short: [fn(&mut Memory); 5] = [
        |memory| memory.outstanding.truncate(1),
        |memory| memory.marked.truncate(1),
        |memory| memory.sizes.truncate(127),
        |memory| memory.sent.truncate(127),
        |memory| memory.ev_times.truncate(255),
    ];
    for shorten in one_short {
        let mut memory = Memory::new(128);
        shorten(&mut memory);
        let (answer, _, left_alone) = set_up(&e(), memory);
        assert_eq!((answer, left_alone), (2, true));
    }
}

#[test]
fn number_1_comes_before_2() {
    let mut settings = e();
    settings.mtu = 0;
    assert_eq!(set_up(&settings, Memory::new(63)).0, 1);
}

#[test]
fn a_fresh_state() {
    let mut memory = Memory::new(64);
    memory.flows[0].backlog = 5;
    memory.outstanding.fill(3);
    memory.ev_times.fill(9);
    let mut settings = e();
    settings.first_psn = 77;
    settings.quick_adapt_off = true;
    let (answer, state) = State::set_up(&settings, &mut memory.lend());
    let expected = State {
        settings,
        cwnd: 614_400,
        base: 96,
        ..State::default()
    };
    assert_eq!((answer, state), (0, expected));
    assert_eq!(state.name.word(), "IDLE");
    let mut fresh = Memory::new(64);
    fresh.flows[0] = Flow {
        low: 77,
        next: 77,
        held: 0,
        backlog: 0,
    };
    assert_eq!(memory, fresh);
}

#[test]
fn number_3_before_the_clock() {
    for event in one_of_each(10_000) {
        rig().accept(event);
    }
    for event in one_of_each(9_999) {
        rig().refuse(3, event);
    }
}

#[test]
fn number_3_at_2_to_the_48() {
    for event in one_of_each((1 << 48) - 1) {
        rig().accept(event);
    }
    for time in [1 << 48, u64::MAX] {
        for event in one_of_each(time) {
            rig().refuse(3, event);
        }
    }
}

#[test]
fn number_4_size_of_a_new_packet() {
    rig().refuse(4, send(NOW, 104, 40));
    rig().accept(send(NOW, 104, 41));
    rig().accept(send(NOW, 104, 4_096));
    rig().refuse(4, send(NOW, 104, 4_097));
    rig().refuse(4, send(NOW, 104, 0));
    rig().refuse(4, send(NOW, 104, u32::MAX));
}

#[test]
fn number_4_size_of_a_resend() {
    for size in [41, 4_096] {
        let mut rig = rig();
        rig.put(101, (MARKED, size, 9_960, 1));
        rig.settle();
        rig.accept(resend(NOW, 101, size));
    }
    rig().refuse(4, resend(NOW, 101, 40));
    rig().refuse(4, resend(NOW, 101, 4_097));
}

#[test]
fn number_20_new_data() {
    let full = 1 << 40;
    rig().refuse(20, new_data(NOW, 0));
    rig().accept(new_data(NOW, 1));
    rig().accept(new_data(NOW, full - 5_000));
    rig().refuse(20, new_data(NOW, full - 4_999));
    rig().refuse(20, new_data(NOW, u64::MAX));
    let after = rig().after(new_data(NOW, full - 5_000));
    assert_eq!(after.state.backlog, full);
    after.clone().refuse(20, new_data(NOW, 1));
}

#[test]
fn number_21_count() {
    rig().accept(ack(NOW, 100, (1 << 24) - 1));
    rig().refuse(21, ack(NOW, 100, 1 << 24));
    rig().refuse(21, ack(NOW, 100, u32::MAX));
}

#[test]
fn number_22_nack_reason() {
    for reason in [0, 1, 2] {
        rig().accept(nack(NOW, 100, reason));
    }
    rig().refuse(22, nack(NOW, 100, 3));
    rig().refuse(22, nack(NOW, 100, 255));
}

#[test]
fn number_23_ev() {
    let with_ev = |ev: u16| -> [model::Event; 3] {
        let ack = ack(NOW, 100, 0);
        let nack = nack(NOW, 100, 2);
        let loss = loss(NOW, 100);
        [
            Ack { ev, ..ack }.into(),
            Nack { ev, ..nack }.into(),
            Loss { ev, ..loss }.into(),
        ]
    };
    for event in with_ev(255) {
        rig().accept(event);
    }
    for event in with_ev(256).into_iter().chain(with_ev(u16::MAX)) {
        rig().refuse(23, event);
    }
}

#[test]
fn number_24_trigger() {
    let with_trigger = |cum: u32, map: u64, trigger: u32| Ack {
        map,
        trigger,
        ..ack(NOW, cum, 0)
    };
    // Up to 2^30 below cum.
    rig().accept(with_trigger(100, 0, 100));
    rig().accept(with_trigger(100, 0, 99));
    rig().accept(with_trigger(100, 0, 100u32.wrapping_sub(1 << 30)));
    rig().refuse(24, with_trigger(100, 0, 99u32.wrapping_sub(1 << 30)));
    // By a bit of the map.
    rig().accept(with_trigger(100, 0b100, 103));
    rig().refuse(24, with_trigger(100, 0b100, 102));
    rig().refuse(24, with_trigger(100, 0b100, 101));
    rig().refuse(24, with_trigger(100, 0, 101));
    // Bit 63, and the PSN behind it.
    let top = 1 << 63;
    rig().accept(with_trigger(38, top, 102));
    rig().refuse(24, with_trigger(38, top, 103));
    rig().refuse(24, with_trigger(38, u64::MAX, 103));
}

#[test]
fn number_5_backlog() {
    let mut rig = rig();
    rig.set_backlog(1_000);
    rig.settle();
    rig.refuse(5, send(NOW, 104, 1_001));
    assert_eq!(rig.after(send(NOW, 104, 1_000)).state.backlog, 0);
    // A resend needs no backlog.
    rig.set_backlog(0);
    rig.settle();
    rig.accept(resend(NOW, 101, 1_000));
}

#[test]
fn number_6_window() {
    let at = |in_flight| {
        let mut rig = rig();
        rig.state.in_flight = in_flight;
        rig.settle();
        rig
    };
    // The MTU counts, not the size.
    for event in [send(NOW, 104, 41), resend(NOW, 101, 1_000)] {
        at(610_304).accept(event);
        at(610_305).refuse(6, event);
        at(-16_777_216).accept(event);
    }
}

#[test]
fn number_7_full_ring() {
    let filled = |packets: usize| {
        let mut rig = Rig::e();
        rig.set_backlog(5_000);
        rig.lay(4_294_967_290, &vec![(FLYING, 41, 9_000, 0); packets])
    };
    let mut almost = filled(63);
    almost.accept(send(NOW, 57, 41));
    almost.refuse(7, send(NOW, 58, 41));
    filled(64).refuse(7, send(NOW, 58, 41));
}

#[test]
fn number_7_a_done_slot_is_not_used_again_before_low_has_passed_it() {
    let mut slots = [(DONE, 41, 9_000, 0); 64];
    slots[0] = (FLYING, 41, 9_000, 0);
    let mut rig = Rig::e();
    rig.set_backlog(5_000);
    let mut rig = rig.lay(0, &slots);
    rig.refuse(7, send(NOW, 64, 41));
    rig.accept(ack(NOW, 0, 0));
    rig.accept(send(NOW, 64, 41));
}

#[test]
fn number_8_new_packet() {
    rig().refuse(8, send(NOW, 103, 41));
    rig().accept(send(NOW, 104, 41));
    rig().refuse(8, send(NOW, 105, 41));
    rig().refuse(8, send(NOW, 101, 1_000));
}

#[test]
fn number_8_resend() {
    rig().refuse(8, resend(NOW, 101, 999));
    rig().accept(resend(NOW, 101, 1_000));
    rig().refuse(8, resend(NOW, 101, 1_001));
    rig().refuse(8, resend(NOW, 100, 4_096)); // flying
    rig().refuse(8, resend(NOW, 102, 4_096)); // done
    rig().refuse(8, resend(NOW, 99, 1_000)); // before low
    rig().refuse(8, resend(NOW, 104, 1_000)); // next
    rig().refuse(8, resend(NOW, 101 + 64, 1_000)); // shares the slot
}

#[test]
fn number_9_unsent() {
    rig().accept(ack(NOW, 103, 0));
    rig().refuse(9, ack(NOW, 104, 0));
    let with_map = |cum: u32, map: u64| Ack {
        map,
        ..ack(NOW, cum, 0)
    };
    // Of cum 100, bit 2 is packet 103, the last that was sent.
    rig().accept(with_map(100, 0b111));
    rig().refuse(9, with_map(100, 0b1000));
    rig().refuse(9, with_map(100, 0b1001));
    rig().refuse(9, with_map(103, 1));
    // Bit 63 of cum 39 is packet 103.
    rig().accept(with_map(39, 1 << 63));
    rig().refuse(9, with_map(40, 1 << 63));
}

#[test]
fn number_9_too_old() {
    let last = 103u32;
    rig().accept(ack(NOW, last.wrapping_sub(1 << 30), 0));
    rig().refuse(9, ack(NOW, last.wrapping_sub((1 << 30) + 1), 0));
}

#[test]
fn an_ack_of_an_empty_ledger_and_one_below_low_are_accepted() {
    let mut rig = Rig::e();
    rig.accept(ack(NOW, u32::MAX, 0));
    rig.refuse(9, ack(NOW, 0, 0));
    let rig = self::rig();
    let after = rig.after(ack(NOW, 50, 0));
    assert_eq!(after.memory.outstanding, rig.memory.outstanding);
    assert_eq!(after.memory.marked, rig.memory.marked);
    assert_eq!((after.flow().low, after.state.flying), (100, 2));
}

#[test]
fn number_10_not_flying() {
    for psn in [100, 103] {
        rig().accept(nack(NOW, psn, 0));
        rig().accept(loss(NOW, psn));
    }
    // Marked, done, before low, next, sharing a slot with 100.
    for psn in [101, 102, 99, 104, 164] {
        rig().refuse(10, nack(NOW, psn, 0));
        rig().refuse(10, loss(NOW, psn));
    }
}

#[test]
fn number_11_by_a_count() {
    let mut rig = rig();
    rig.state.in_flight = 0;
    rig.settle();
    let after = rig.after(ack(NOW, 100, 65_536));
    assert_eq!(after.state.in_flight, -16_777_216);
    rig.refuse(11, ack(NOW, 100, 65_537));
    rig.refuse(11, ack(NOW, 100, 8_388_607));
    // An old count takes nothing.
    rig.accept(ack(NOW, 100, 8_388_608));
    rig.state.in_flight = -16_777_216;
    rig.settle();
    rig.accept(ack(NOW, 100, 0));
    rig.accept(ack(NOW, 100, 16_777_215));
    rig.refuse(11, ack(NOW, 100, 1));
}

#[test]
fn number_11_by_a_loss() {
    let at = |in_flight| {
        let mut rig = rig();
        rig.state.in_flight = in_flight;
        rig.settle();
        rig
    };
    let lowest = -16_777_216;
    for event in [model::Event::from(nack(NOW, 100, 2)), loss(NOW, 100).into()] {
        let after = at(lowest + 4_096).after(event);
        assert_eq!(after.state.in_flight, lowest);
        at(lowest + 4_095).refuse(11, event);
    }
}

#[test]
fn order_2_3_then_a_field() {
    let mut spoilt = rig();
    spoilt.state.cursor = 256;
    spoilt.refuse(2, send(0, 104, 0));
    rig().refuse(3, send(0, 104, 0));
    rig().refuse(3, new_data(0, 0));
    rig().refuse(3, ack(0, 100, u32::MAX));
    rig().refuse(3, nack(0, 100, 3));
    rig().refuse(
        3,
        Loss {
            ev: 256,
            ..loss(0, 100)
        },
    );
}

#[test]
fn order_of_a_send_4_8_5_7_6() {
    // All of them apply: backlog 0, ring full, window closed.
    let mut rig = Rig::e();
    rig.state.in_flight = 614_400;
    let mut rig = rig.lay(0, &[(FLYING, 4_096, 9_000, 0); 64]);
    rig.refuse(4, send(NOW, 1, 40));
    rig.refuse(8, send(NOW, 1, 41));
    rig.refuse(5, send(NOW, 64, 41));
    rig.set_backlog(100);
    rig.settle();
    rig.refuse(7, send(NOW, 64, 41));
    let mut rig = rig.after(ack(NOW, 0, 0));
    rig.refuse(6, send(NOW, 64, 41));
    // A resend: 4, 8, 6.
    rig.refuse(4, resend(NOW, 1, 40));
    rig.refuse(8, resend(NOW, 1, 4_096));
    rig.put(1, (MARKED, 4_096, 9_000, 0));
    rig.settle();
    rig.refuse(6, resend(NOW, 1, 4_096));
}

/// The fields of an ACK: its count, EV and trigger.
#[test]
fn order_of_an_ack_21_23_24() {
    let good = ack(NOW, 100, 0);
    let (count, ev, trigger) = (1 << 24, 256, 101);
    let all = Ack {
        count,
        ev,
        trigger,
        ..good
    };
    rig().refuse(21, all);
    rig().refuse(21, Ack { count, ev, ..good });
    rig().refuse(
        21,
        Ack {
            count,
            trigger,
            ..good
        },
    );
    rig().refuse(
        23,
        Ack {
            ev,
            trigger,
            ..good
        },
    );
}

#[test]
fn order_of_an_ack_fields_9_11() {
    let mut rig = rig();
    let all = ack(NOW, 105, 8_388_607);
    rig.refuse(
        21,
        Ack {
            count: (1 << 24) + 8_388_607,
            ..all
        },
    );
    rig.refuse(23, Ack { ev: 256, ..all });
    rig.refuse(
        24,
        Ack {
            trigger: 110,
            ..all
        },
    );
    rig.refuse(9, all);
    rig.refuse(
        11,
        Ack {
            cum: 103,
            trigger: 103,
            ..all
        },
    );
}

#[test]
fn order_of_a_nack_and_a_loss_22_23_10_11() {
    let mut rig = rig();
    rig.state.in_flight = -16_777_216;
    rig.settle();
    let ev = 256;
    // Beside 10, then beside 11.
    for psn in [101, 100] {
        rig.refuse(
            22,
            Nack {
                ev,
                ..nack(NOW, psn, 3)
            },
        );
        rig.refuse(22, nack(NOW, psn, 3));
        rig.refuse(
            23,
            Nack {
                ev,
                ..nack(NOW, psn, 2)
            },
        );
        rig.refuse(
            23,
            Loss {
                ev,
                ..loss(NOW, psn)
            },
        );
    }
    rig.refuse(10, nack(NOW, 101, 2));
    rig.refuse(11, nack(NOW, 100, 2));
    rig.refuse(10, loss(NOW, 101));
    rig.refuse(11, loss(NOW, 100));
}

#[test]
fn the_trusted_forms_refuse_alike() {
    let mut rig = rig();
    let before = rig.clone();
    let mut lent = rig.memory.lend();
    let state = &mut rig.state;
    for event in one_of_each(9_999) {
        assert_eq!(state.take_trusted(&mut lent, &event).number, 3);
    }
    let (early, late) = (ack(NOW, 104, 0), ack(NOW, 100, 70_000));
    assert_eq!(state.ack_trusted(&mut lent, &early), Outcome::from(9));
    assert_eq!(state.ack_trusted(&mut lent, &late), Outcome::from(11));
    let marked = nack(NOW, 102, 0);
    assert_eq!(state.nack_trusted(&mut lent, &marked), Outcome::from(10));
    assert_eq!(state.loss_trusted(&mut lent, &loss(NOW, 102)), 10);
    assert_eq!(rig, before);
}
