//! Logs for the class, one for each of the mistakes that are corrected there.

use super::build::*;
use super::Vector;
use crate::bounds::{COUNT_END, COUNT_OLD, PSN_REACH, TIME_END};
use crate::log::Record;

pub(super) fn logs() -> Vec<Vector> {
    vec![insane(), resent(), all_acks(), lost_acks()]
}

/// Numbers that no card should hand in, each refused, with a good record after them.
fn insane() -> Vector {
    let too_old = 1u32.wrapping_sub(PSN_REACH + 1);
    named(
        "insane",
        [
            e(),
            data(0, 20_000),
            send(10, 0, 4096),
            send(20, 1, 4096),
            send(19, 2, 4096), // time goes back
            path(TIME_END),
            data(30, 0),
            send(30, 2, 0),
            send(30, 2, u32::MAX),
            send(30, 3, 4096),   // not the next packet
            resend(30, 1, 4096), // not lost
            ack(120, 0, COUNT_END),
            ack(120, 0, 16).ev(256).marked(),
            ack(120, 0, 16).trigger(1), // not covered
            nack(120, 1, 3),
            loss(120, 1).ev(999),
            ack(120, 7, 16),           // unsent
            ack(120, 0, 16).map(0b10), // unsent, by its map
            ack(120, too_old, 16),
            nack(120, 7, 0),
            loss(120, 7),
            ack(120, 0, COUNT_OLD - 1), // 2 GiB more than was sent
            ack(120, 0, 16),
            path(120),
        ],
    )
}

/// Packets sent twice and more: which ACKs measure a round trip, and what a wrong one would spoil.
fn resent() -> Vector {
    named(
        "resent",
        [
            e_but(|settings| settings.quick_adapt_off = true),
            data(0, 24_576),
            send(0, 0, 4096),
            loss(200, 0).ev(9),
            resend(210, 0, 4096),
            ack(215, 0, 16), // for the first copy: no sample
            send(300, 1, 4096),
            send(300, 2, 4096),
            ack(400, 1, 32), // delay 4
            loss(500, 2).ev(9),
            resend(510, 2, 4096),
            ack(600, 2, 48).retx(), // for the second copy: 90, the new base, and the window falls
            send(610, 3, 4096),
            ack(710, 3, 64), // delay 10
            send(800, 4, 4096),
            loss(1_000, 4).ev(9),
            resend(1_010, 4, 4096),
            loss(1_200, 4).ev(9),
            resend(1_210, 4, 4096),
            ack(1_215, 4, 80).retx(), // for the second copy or the third: no sample
            send(1_300, 5, 4096),
            ack(1_390, 5, 96).marked(), // EV 0 is avoided for a base
            path(1_400),
        ],
    )
}

/// The first PSN of the burst: it wraps after three packets.
const FIRST: u32 = u32::MAX - 2;

/// The ACKs of eight packets, the sixth of which is not received, in the order of their sending.
fn burst_acks(time: u64) -> [Record; 7] {
    [
        ack(time, FIRST, 16),
        ack(time, FIRST + 1, 32),
        ack(time, FIRST + 2, 48),
        ack(time, 0, 64),
        ack(time, 1, 80),
        ack(time, 1, 96).map(0b010).trigger(3),
        ack(time, 1, 112).map(0b110).trigger(4),
    ]
}

/// The eight packets and then these of the ACKs, from time 100 on.
fn burst(name: &str, arriving: &[usize]) -> Vector {
    let settings = e_but(|settings| settings.first_psn = FIRST);
    let mut log = vec![settings, data(0, 36_864)];
    log.extend(sends(0, (0..8).map(|i| FIRST.wrapping_add(i)), 4096));
    for (time, &i) in (100..).zip(arriving) {
        log.push(burst_acks(time)[i]);
    }
    named(name, log)
}

/// A burst of which every ACK arrives, in order.
fn all_acks() -> Vector {
    burst("all-acks", &[0, 1, 2, 3, 4, 5, 6])
}

/// The same burst: four are lost, the others come in another order, two of them twice.
fn lost_acks() -> Vector {
    burst("lost-acks", &[4, 3, 6, 3, 6])
}
