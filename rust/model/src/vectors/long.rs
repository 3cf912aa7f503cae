//! Logs that 01's bounds make long: they need hundreds of records.

use super::build::*;
use super::Vector;
use crate::replay::CAPACITY;

pub(super) fn logs() -> Vec<Vector> {
    vec![backlog_full(), paths(), ring_full()]
}

/// 20: a backlog of 2^40, and new data past it.
fn backlog_full() -> Vector {
    let mut log = vec![e()];
    log.extend([data(0, u32::MAX); 256]); // 256 bytes are left
    log.extend([data(0, 257), data(0, 256), data(0, 1)]);
    named("backlog-full", log)
}

/// P10 of 01: 128 EVs avoided are skipped, at 129 the cursor is taken; then around the end.
fn paths() -> Vector {
    let avoid = |time: u64, ev: u16| ack(time, NONE, 0).ev(ev).marked();
    let mut log = vec![e()];
    log.extend((0..128).map(|ev| avoid(0, ev)));
    log.push(path(95)); // 128
    log.extend([avoid(95, 129), path(95)]); // 129, though it is avoided
    log.extend([path(96); 125]); // all but one are free again: 130..254
    log.extend([avoid(96, 255), avoid(96, 0), path(96), path(96)]);
    named("paths", log)
}

/// 7: a full ring, also by a done slot that low has not passed; 8 and 5 come before, 6 after.
/// Another flow has a ring of its own. No ACK gives a sample, so the window stays wide enough.
fn ring_full() -> Vector {
    let slots = CAPACITY as u32;
    let sent = 41 * slots;
    // The window is closed when the ring is full.
    let settings = e_but(|settings| settings.max_wnd = u64::from(sent) + 4095);
    let mut log = vec![settings, data(0, sent + 100)];
    log.extend(sends(0, 0..slots, 41));
    log.extend([
        send(0, slots + 1, 41),
        send(0, slots, 101),
        send(0, slots, 41),
        nack(0, slots, 2), // not the flying packet of its slot
        nack(0, 64, 2),
        send(0, slots, 41),
        resend(0, 64, 41), // no new packet
        ack(9, NONE, 1).map(!1).trigger(64),
        ack(9, NONE, 1).map(!1).trigger(65),
        ack(9, NONE, 1).map(!1).trigger(63).service(9), // 1..63 are done
        send(9, slots, 41),
        data(9, 82).of(4),
        send(9, 0, 41).of(4),
        send(9, slots, 41),
        ack(9, 0, 1).service(9), // low passes 64 packets
        send(9, slots, 41),
        send(9, slots + 1, 41),
    ]);
    named("ring-full", log)
}
