//! Each refusal number that a log can meet: the last value allowed and the first one refused.
//! Numbers 7 and 20 at the full backlog need many records and stand with the long logs, number 12
//! with the malformed ones.

use super::build::*;
use super::Vector;
use crate::bounds::{COUNT_END, COUNT_OLD, PSN_REACH, TIME_END};
use crate::settings::Settings;

pub(super) fn logs() -> Vec<Vector> {
    let mut logs = vec![settings_low(), settings_high()];
    logs.extend(settings_refused());
    logs.extend([
        time(),
        send_size(),
        ack_fields(),
        nack_fields(),
        backlog(),
        closed(),
        wrong_packet(),
        wrong_ack(),
        not_flying(),
        in_flight(),
        order(),
        order_ack(),
        order_nack(),
    ]);
    logs
}

/// Each setting at the lowest value allowed.
fn settings_low() -> Vector {
    let numbers = [1_024, 1_024, 1, 1, 0, 0, 0, 0, 0, 1, 1, 0];
    let lowest = |settings: &mut Settings| *settings = Settings::from_numbers(numbers, 0, false);
    named("settings-low", [e_but(lowest)])
}

/// Each setting at the highest value allowed.
fn settings_high() -> Vector {
    let numbers = [
        16_384,
        1 << 26,
        1 << 14,
        1 << 14,
        1 << 20,
        1 << 20,
        1 << 14,
        1_024,
        1_024,
        1 << 20,
        1 << 26,
        1 << 20,
    ];
    let highest =
        |settings: &mut Settings| *settings = Settings::from_numbers(numbers, u32::MAX, true);
    named("settings-high", [e_but(highest)])
}

/// 1: each setting at one past its highest value, and at one under its lowest where that is not 0.
fn settings_refused() -> Vec<Vector> {
    let edges = [
        ("mtu", Some(1_023), 16_385),
        ("max-wnd", Some(4_095), (1 << 26) + 1),
        ("config-base-rtt", Some(0), (1 << 14) + 1),
        ("target-qdelay", Some(0), (1 << 14) + 1),
        ("fi", None, (1 << 20) + 1),
        ("eta", None, (1 << 20) + 1),
        ("alpha", None, (1 << 14) + 1),
        ("gamma", None, 1_025),
        ("max-md-jump", None, 1_025),
        ("adjust-period", Some(0), (1 << 20) + 1),
        ("adjust-bytes", Some(0), (1 << 26) + 1),
        ("qa-threshold", None, (1 << 20) + 1),
    ];
    let mut logs = Vec::new();
    for (i, (name, under, over)) in edges.into_iter().enumerate() {
        if let Some(under) = under {
            logs.push(one_setting(&format!("{name}-under"), i, under));
        }
        logs.push(one_setting(&format!("{name}-over"), i, over));
    }
    logs
}

fn one_setting(name: &str, i: usize, number: u64) -> Vector {
    let change = |settings: &mut Settings| {
        let mut numbers = settings.numbers();
        numbers[i] = number;
        *settings = Settings::from_numbers(numbers, 0, false);
    };
    // Replay stops at the settings: the path is not looked at.
    named(name, [e_but(change), path(0)])
}

/// 3: time before the clock, and at 2^48, for each kind; a refused path has no EV at its end.
fn time() -> Vector {
    named(
        "time",
        [
            e(),
            data(100, 12_288),
            data(99, 1),
            data(TIME_END, 1),
            send(99, 0, 4096),
            send(TIME_END, 0, 4096),
            send(200, 0, 4097), // refused for its size: the clock stays
            send(100, 0, 4096),
            send(100, 1, 4096),
            send(100, 2, 4096),
            ack(99, 0, 16),
            ack(TIME_END, 0, 16),
            ack(100, 0, 16),
            nack(99, 1, 2),
            nack(TIME_END, 1, 2),
            nack(100, 1, 2),
            loss(99, 2),
            loss(TIME_END, 2),
            loss(100, 2),
            path(99),
            path(u64::MAX),
            path(100),
            path(TIME_END - 1),
            path(TIME_END),
            path(TIME_END - 2),
            path(TIME_END - 1),
        ],
    )
}

/// 4: size outside 41..MTU, of a new packet and of a resend.
fn send_size() -> Vector {
    named(
        "send-size",
        [
            e(),
            data(0, 20_000),
            send(0, 0, 0),
            send(0, 0, 40),
            send(0, 0, 41),
            send(0, 1, u32::MAX),
            send(0, 1, 4097),
            send(0, 1, 4096),
            nack(0, 0, 2),
            nack(0, 1, 2),
            resend(0, 0, 40),
            resend(0, 0, 41),
            resend(0, 1, 4097),
            resend(0, 1, 4096),
        ],
    )
}

/// 21, 23 and 24: the count, EV and trigger of an ACK.
fn ack_fields() -> Vector {
    let far = 0u32.wrapping_sub(PSN_REACH);
    named(
        "ack-fields",
        [
            e(),
            data(0, 400),
            send(0, 0, 100),
            send(0, 1, 100),
            send(0, 2, 100),
            ack(10, NONE, COUNT_END),
            ack(10, NONE, COUNT_END - 1),
            ack(10, NONE, 0).ev(256),
            ack(10, NONE, 0).ev(u16::MAX),
            ack(10, NONE, 0).ev(255),
            ack(10, 0, 0).trigger(1),
            ack(10, 0, 0).map(0b10).trigger(1),
            ack(10, 0, 0).trigger(far.wrapping_sub(1)),
            ack(10, 0, 0).trigger(far),
            ack(10, 0, 0).map(0b10).trigger(2),
        ],
    )
}

/// 22 and 23: the reason and EV of a NACK, the EV of a loss.
fn nack_fields() -> Vector {
    named(
        "nack-fields",
        [
            e(),
            data(0, 400),
            send(0, 0, 100),
            send(0, 1, 100),
            send(0, 2, 100),
            nack(0, 0, 3),
            nack(0, 0, u8::MAX),
            nack(0, 0, 2),
            nack(0, 1, 0).ev(256),
            nack(0, 1, 0).ev(255),
            loss(0, 2).ev(256),
            loss(0, 2).ev(255),
        ],
    )
}

/// 5: a new packet as large as the backlog, and larger. 20: new data of 0 bytes.
fn backlog() -> Vector {
    named(
        "backlog",
        [
            e(),
            data(0, 0),
            data(0, 100),
            send(0, 0, 101),
            send(0, 0, 100),
            send(0, 1, 41),
            data(0, 1),
            send(0, 1, 41),
            data(0, u32::MAX),
            send(0, 1, 41),
        ],
    )
}

/// 6: in-flight + MTU at cwnd, and one past it, for a new packet and for a resend.
fn closed() -> Vector {
    named(
        "closed",
        [
            e_but(|settings| settings.max_wnd = 12_288),
            data(0, 20_000),
            send(0, 0, 4096),
            send(0, 1, 4055),
            send(0, 2, 42), // in-flight is then 8,193
            send(0, 3, 41),
            nack(0, 2, 2),
            send(0, 3, 41), // and now 8,192
            resend(0, 2, 42),
            nack(0, 3, 2),
            resend(0, 3, 41), // at 8,193
        ],
    )
}

/// 8: a new packet that is not next; a resend not marked, or of another size.
fn wrong_packet() -> Vector {
    named(
        "wrong-packet",
        [
            e(),
            data(0, 400),
            send(0, 1, 100),
            send(0, NONE, 100),
            send(0, 0, 100),
            send(0, 1, 100),
            send(0, 1, 100),
            send(0, 2, 100),
            resend(0, 1, 100),
            resend(0, 3, 100),
            ack(10, 0, 0).map(0b10), // 0 is gone, 2 is done
            resend(10, 0, 100),
            resend(10, 2, 100),
            nack(10, 1, 2),
            resend(10, 1025, 100), // the slot of 1
            resend(10, 1, 99),
            resend(10, 1, 101),
            resend(10, 1, 100),
            resend(10, 1, 100),
        ],
    )
}

/// 9: an ACK of an unsent packet, one too old, and the highest bit of a map at back.
fn wrong_ack() -> Vector {
    let oldest = 2u32.wrapping_sub(PSN_REACH);
    named(
        "wrong-ack",
        [
            e(),
            ack(0, 0, 0),
            ack(0, NONE, 0), // up to the newest of an empty ledger
            data(0, 400),
            send(0, 0, 100),
            send(0, 1, 100),
            send(0, 2, 100),
            ack(10, 3, 0),
            ack(10, oldest.wrapping_sub(1), 0),
            ack(10, oldest, 0),
            ack(10, 0, 0).map(0b100),
            ack(10, 0, 0).map(1 << 63),
            ack(10, 0, 0).map(0b10),
            ack(10, 2, 0).map(1),
            ack(10, 2, 0),
        ],
    )
}

/// 10: NACK and loss of a packet that is gone, done, unsent or marked.
fn not_flying() -> Vector {
    named(
        "not-flying",
        [
            e(),
            data(0, 400),
            send(0, 0, 100),
            send(0, 1, 100),
            send(0, 2, 100),
            ack(0, 0, 0).map(0b10), // 0 is gone, 2 is done
            nack(0, 0, 2),
            loss(0, 0),
            nack(0, 2, 2),
            loss(0, 2),
            nack(0, 3, 2),
            loss(0, 3),
            nack(0, 1025, 2), // the slot of 1
            nack(0, 1, 2),
            nack(0, 1, 2),
            loss(0, 1),
            resend(0, 1, 100),
            loss(0, 1),
        ],
    )
}

/// 11: in-flight at -2^24 and one below, by a count, a loss and a NACK.
fn in_flight() -> Vector {
    named(
        "in-flight",
        [
            e(),
            data(0, 400),
            send(0, 0, 42),
            send(0, 1, 214),
            ack(0, NONE, 65_538),
            ack(0, NONE, 65_537), // 256 sent, 256 more than 2^24 reported
            ack(0, NONE, 65_538),
            loss(0, 0),
            send(0, 2, 41),
            loss(0, 0), // 41 above the bound, and its size is 42
            nack(0, 0, 2),
            loss(0, 2),
            resend(0, 2, 41),
            nack(0, 2, 2),
        ],
    )
}

/// Of several that apply, the first in order: 3, 4, 8, 5, 6; 3, 24, 9, 11; 3, 22, 10; 3, 23, 10;
/// 3, 20.
fn order() -> Vector {
    let most = COUNT_OLD - 1;
    named(
        "order",
        [
            e_but(|settings| settings.max_wnd = 4096),
            data(100, 200),
            send(100, 0, 100),
            send(99, 5, 0),
            send(100, 5, 40),
            send(100, 5, 101),
            send(100, 1, 101),
            send(100, 1, 100),
            resend(100, 0, 100),
            ack(99, 9, COUNT_END),
            ack(100, 9, most).trigger(10),
            ack(100, 9, most),
            ack(100, 0, most),
            nack(99, 9, 3),
            nack(100, 9, 3),
            nack(100, 9, 2),
            loss(99, 9).ev(256),
            loss(100, 9).ev(256),
            data(99, 0),
            data(100, 0),
        ],
    )
}

/// Every choice of 21, 23 and 24: after 3, alone, and before 9, 11 and both.
fn order_ack() -> Vector {
    let most = COUNT_OLD - 1; // 11
    let fields = |time: u64, cum: u32, count: u32| {
        let good = ack(time, cum, count);
        let over = ack(time, cum, COUNT_END + count);
        [
            over.ev(256).trigger(cum + 1),
            over.ev(256),
            over.trigger(cum + 1),
            good.ev(256).trigger(cum + 1),
            over,
            good.ev(256),
            good.trigger(cum + 1),
        ]
    };
    let mut log = vec![e(), data(100, 100), send(100, 0, 100)];
    log.extend(fields(99, 9, most));
    for (cum, count) in [(0, 0), (9, 0), (0, most), (9, most)] {
        log.extend(fields(100, cum, count));
    }
    log.extend([ack(100, 9, most), ack(100, 0, most), ack(100, 0, 0)]);
    named("order-ack", log)
}

/// 22 and 23, of a NACK and of a loss: after 3, alone, and before 10 and 11.
fn order_nack() -> Vector {
    let fields = |time: u64, psn: u32| {
        [
            nack(time, psn, 3).ev(256),
            nack(time, psn, 3),
            nack(time, psn, 2).ev(256),
            loss(time, psn).ev(256),
        ]
    };
    let mut log = vec![e(), data(100, 297), send(100, 0, 100), send(100, 1, 156)];
    log.extend(fields(99, 9));
    log.extend(fields(100, 0));
    log.extend(fields(100, 9));
    log.push(ack(100, NONE, 65_537)); // in-flight is then -2^24
    log.extend(fields(100, 0));
    log.extend([nack(100, 9, 2), loss(100, 9)]);
    log.extend([nack(100, 0, 2), loss(100, 0)]);
    log.extend([send(100, 2, 41), nack(100, 2, 2)]);
    named("order-nack", log)
}
