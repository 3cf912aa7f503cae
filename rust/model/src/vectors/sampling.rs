//! What the sample step says, and the letter for it (M-103).

use super::build::*;
use super::window::quiet;
use super::Vector;
use crate::bounds::{COUNT_END, PSN_REACH, SAMPLE_MAX, TIME_END};
use crate::replay::CAPACITY;

pub(super) fn logs() -> Vec<Vector> {
    vec![
        by_acks(),
        by_nacks(),
        edges(),
        gone(),
        nack_resends(),
        order(),
        letters(),
    ]
}

/// The longest round trip that is not cut.
const MOST: u32 = SAMPLE_MAX as u32;

/// All five by ACKs.
fn by_acks() -> Vector {
    let mut log = vec![e(), data(0, 600)];
    log.extend(sends(0, 0..6, 100));
    log.extend([
        loss(10, 3),
        resend(10, 3, 100),
        ack(100, 0, 0),                          // s
        ack(100, 1, 0).service(100),             // n
        ack(100, 1, 0),                          // g: low has passed it
        ack(100, 2, 0).retx(),                   // a: it was sent once
        ack(100, 3, 0).retx(),                   // s: the second copy
        ack(SAMPLE_MAX + 1, 4, 0),               // c
        ack(SAMPLE_MAX + 1, 4, 0),               // g
        ack(SAMPLE_MAX + 1, 5, 0).service(MOST), // s: one tick
    ]);
    named("sample-ack", log)
}

/// The four that a NACK can have, by every reason. Its packet flies, so it is not gone.
fn by_nacks() -> Vector {
    let late = 150 + SAMPLE_MAX + 1;
    let mut log = vec![e_but(quiet), data(0, 400)];
    log.extend(sends(0, 0..4, 100));
    log.extend([
        nack(0, 0, 2),          // n: in the tick of its sending
        nack(100, 1, 1),        // s
        nack(100, 2, 0).retx(), // a: it was sent once
        resend(100, 0, 100),
        nack(150, 0, 1), // a: the flag is clear
        resend(150, 1, 100),
        nack(late, 1, 0).retx(), // c
        nack(late, 3, 2),        // c
        resend(late, 2, 100),
        nack(late, 2, 1).retx(), // n
        resend(late, 0, 100),
        nack(late + 1, 0, 0).retx(), // a: it was sent three times
    ]);
    named("sample-nack", log)
}

/// A round trip of -1, 0 and 1 ticks, of 2^20 and its neighbours, and the longest of all.
fn edges() -> Vector {
    let most = 10 + SAMPLE_MAX;
    let mut log = vec![e_but(quiet), data(0, 1_400)];
    log.extend(sends(10, 0..14, 100));
    log.extend([
        nack(10, 0, 2),                             // n
        nack(11, 1, 2),                             // s
        nack(most - 1, 2, 2),                       // s
        ack(most - 1, 3, 0),                        // s
        nack(most, 4, 2),                           // s
        ack(most, 5, 0),                            // s
        nack(most + 1, 6, 2),                       // c
        ack(most + 1, 7, 0),                        // c
        ack(most + 1, 8, 0).service(1),             // s: 2^20 again
        ack(most + 1, 9, 0).service(MOST),          // s: 1
        ack(most + 1, 10, 0).service(MOST + 1),     // n: 0
        ack(most + 1, 11, 0).service(MOST + 2),     // n: -1
        ack(most + 1, 12, 0).service(u32::MAX),     // n
        ack(TIME_END - 1, 13, 0).service(u32::MAX), // c
    ]);
    named("sample-edges", log)
}

/// Gone: not sent, done, passed by low, or of a slot that another packet has.
fn gone() -> Vector {
    let shares = 2u32.wrapping_sub(CAPACITY as u32);
    let furthest = 3u32.wrapping_sub(PSN_REACH);
    let mut log = vec![e_but(quiet), data(0, 600), ack(5, NONE, 0)]; // g: nothing was sent
    log.extend(sends(10, 0..5, 100));
    log.extend([
        ack(100, NONE, 0),                       // g: before the first
        ack(100, NONE, 0).trigger(shares),       // g: 2 flies in its slot
        ack(100, NONE, 0).map(0b100).trigger(2), // s
        ack(100, NONE, 0).map(0b100).trigger(2), // g: done
        ack(100, 0, 0),                          // s
        ack(100, 0, 0),                          // g: low has passed it
        ack(100, 2, 0).trigger(0),               // g, though it covers 1
        ack(100, 3, 0).trigger(furthest),        // g
        ack(100, 4, 0),                          // s
        ack(100, 4, 0),                          // g: the ring is empty
        send(100, 5, 100),
        ack(200, 4, 0), // g
        ack(200, 5, 0), // s
    ]);
    named("sample-gone", log)
}

/// By NACKs: sent once, resent once, twice and three times; the retx flag clear, then set.
fn nack_resends() -> Vector {
    let mut log = vec![e_but(quiet), data(0, 800)];
    log.extend(sends(0, 0..8, 100));
    for (psn, times) in [(2, 1), (3, 1), (4, 2), (5, 2), (6, 3), (7, 3)] {
        for _ in 0..times {
            log.extend([loss(0, psn), resend(0, psn, 100)]);
        }
    }
    // A sample exists for PSN 0 and PSN 3 only.
    for pair in [0, 2, 4, 6] {
        log.push(nack(132, pair, 2));
        log.push(nack(132, pair + 1, 2).retx());
    }
    named("nack-resends", log)
}

/// Where several apply: gone before ambiguous before not positive; a cut is no matter then.
fn order() -> Vector {
    let late = SAMPLE_MAX + 1;
    let mut log = vec![e_but(quiet), data(0, 600)];
    log.extend(sends(0, 0..6, 100));
    for psn in [1, 1, 2, 4] {
        log.extend([loss(0, psn), resend(0, psn, 100)]);
    }
    let twice = ack(10, NONE, 0).map(0b10).trigger(1);
    log.extend([
        twice.service(10),                // a, not positive
        twice.service(10),                // g, and both others
        twice,                            // g, ambiguous
        ack(10, 0, 0).service(10).retx(), // a, not positive
        ack(10, 0, 0).service(10),        // g, not positive
        loss(10, 3),
        resend(10, 3, 100),
        nack(10, 3, 2), // a, not positive
        resend(10, 3, 100),
        nack(10, 3, 2).retx(),             // a, not positive
        ack(late, 2, 0),                   // a, and would be cut
        ack(late, 2, 0),                   // g, and would be cut
        ack(late, 4, 0).retx(),            // c
        ack(late, 5, 0).service(MOST + 1), // n
    ]);
    named("sample-order", log)
}

/// The letter is the last word of an accepted ACK or NACK, and of no other line.
fn letters() -> Vector {
    let mut log = vec![e_but(quiet), data(0, 400), path(0)];
    log.extend(sends(0, 0..4, 100));
    log.extend([
        ack(99, 4, 0),
        ack(99, 0, COUNT_END),
        ack(99, 0, 0), // s
        nack(99, 0, 2),
        nack(99, 1, 3),
        nack(99, 1, 2), // s
        nack(99, 1, 2),
        loss(99, 2),
        ack(98, 1, 0),
        path(99),
        resend(99, 1, 100),
        ack(99, 1, 0).retx(),  // n
        ack(99, 2, 0),         // s: it is marked
        ack(99, 2, 0),         // g
        nack(99, 3, 2).retx(), // a
        path(99),
    ]);
    named("sample-letters", log)
}
