//! Samples, the delay average and the EV times.

use super::build::*;
use super::Vector;
use crate::settings::Settings;

pub(super) fn logs() -> Vec<Vector> {
    vec![resends(), samples(), delays(), nack_samples(), ev_times()]
}

/// No quick adapt, and an adjustment by every ACK of new bytes: how much cwnd grows shows the delay
/// that the ACK was taken to have.
fn telling(settings: &mut Settings) {
    settings.quick_adapt_off = true;
    settings.adjust_bytes = 1;
    settings.adjust_period = 1 << 20;
}

/// Sent once, resent once, twice and three times; the retx flag clear, then set.
fn resends() -> Vector {
    let mut log = vec![e_but(telling), data(0, 32_768)];
    log.extend(sends(0, 0..8, 4096));
    for (psn, times) in [(2, 1), (3, 1), (4, 2), (5, 2), (6, 3), (7, 3)] {
        for _ in 0..times {
            log.extend([loss(0, psn), resend(0, psn, 4096)]);
        }
    }
    // Each would give a delay of 36: a sample exists for PSN 0 and PSN 3 only.
    for pair in [0, 2, 4, 6] {
        log.push(ack(132, pair, 16 * (pair + 1)));
        log.push(ack(132, pair + 1, 16 * (pair + 2)).retx());
    }
    named("resends", log)
}

/// A sample of 0 or less, and a trigger that is done or gone, give none; a marked trigger does.
fn samples() -> Vector {
    let mut log = vec![e_but(telling), data(0, 32_768)];
    log.extend(sends(0, 0..8, 4096));
    log.extend([
        loss(0, 6),
        ack(50, 0, 16).service(50),
        ack(50, 1, 32).service(u32::MAX),
        ack(132, 2, 48).map(0b10), // delay 36, so the base is still 96; 4 is done
        ack(132, 2, 64).map(0b10).trigger(4), // done
        ack(132, 2, 80).trigger(1), // gone
        ack(132, 3, 96).trigger(6u32.wrapping_sub(1024)), // the slot of 6
        ack(132, 3, 112).map(0b100).trigger(6), // marked: delay 36
        ack(132, 5, 128).service(131), // a sample of 1: the ceiling is then 6,400
        ack(132, 7, 144),          // delay 131, and no room to grow
    ]);
    named("samples", log)
}

/// P5's average of 73,728, then fed 100 by a marked ACK, 72, 73 (as 24), 480 (as 24) and 481, each
/// read by the ACK after it, which has no sample; P2's delay of 22; a marked ACK at the end: a cut.
fn delays() -> Vector {
    let mut log = vec![e_but(telling), data(0, 32_768)];
    log.extend(sends(0, 0..8, 4096));
    log.push(loss(10, 7));
    log.push(delayed(10_000, 0, 5_760, 16).marked()); // 72 on average: no cut
    log.push(delayed(10_000, 1, 100, 32).marked());
    log.push(ack(10_000, 1, 48));
    for (i, delay) in (2..).zip([72, 73, 480, 481]) {
        log.push(delayed(10_000, i, delay, 32 * i));
        log.push(ack(10_000, i, 32 * i + 16));
    }
    log.push(delayed(10_000, 6, 22, 208));
    log.push(ack(10_000, 6, 208).marked());
    named("delays", log)
}

/// NACKs lower the base, a trimmed one feeds config_base_rtt; a loss does neither.
fn nack_samples() -> Vector {
    let slow = |settings: &mut Settings| {
        telling(settings);
        settings.config_base_rtt = 8_000;
        settings.max_wnd = 1 << 26; // so that a low base leaves room to grow
    };
    let mut log = vec![e_but(slow), data(0, 16_384)];
    log.extend(sends(0, 0..4, 4096));
    log.extend([
        loss(50, 0).ev(0),             // EV 0 until 8,050
        nack(60, 1, 2).ev(1).marked(), // EV 1 until 8,060; the base is then 60
        nack(70, 2, 0).ev(2),          // EV 2 until 130; the average is then 100
        ack(130, NONE, 16),
        path(130),
        resend(130, 1, 4096),
        nack(150, 1, 2),    // resent, the flag clear: no sample
        loss(150, 3).ev(3), // EV 3 until 210
        path(209),
        resend(209, 3, 4096),
        nack(239, 3, 2).retx(), // the base is then 30
        resend(239, 3, 4096),
        loss(239, 3).ev(5), // EV 5 until 269
        path(269),
    ]);
    named("nack-samples", log)
}

/// An EV time is now + the base held before, also where that is earlier; at that time it is free.
fn ev_times() -> Vector {
    let mut log = vec![e(), data(0, 24_576)];
    log.extend(sends(0, 0..5, 4096));
    log.extend([
        loss(10, 4).ev(0),             // until 106
        ack(50, 0, 16).ev(1).marked(), // until 146; the base is then 50
        loss(52, 3).ev(0),             // until 102
        loss(95, 2).ev(2),             // until 145
        loss(96, 1).ev(3),             // until 146
        path(102),
        path(145),
        path(145),
    ]);
    named("ev-times", log)
}
