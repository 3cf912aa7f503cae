//! The ledger: maps, the wrap of PSNs, counts and bursts.

use super::build::*;
use super::Vector;
use crate::bounds::{COUNT_END, COUNT_OLD};

pub(super) fn logs() -> Vec<Vector> {
    vec![map(), psn_wrap(), counts(), burst()]
}

/// P7 of 01: low 5, next 10; then low passes what was done before.
fn map() -> Vector {
    named(
        "map",
        [
            e_but(|settings| settings.first_psn = 5),
            data(0, 500),
            send(0, 5, 100),
            send(0, 6, 100),
            send(0, 7, 100),
            send(0, 8, 100),
            send(0, 9, 100),
            ack(10, 5, 2).map(0b1_1010), // bit 4 is PSN 10, unsent
            ack(10, 5, 2).map(0b1010),
            nack(10, 6, 2),
            ack(20, 6, 2), // a marked packet is delivered; low passes 7
            nack(20, 7, 2),
            ack(20, 5, 2).map(0b100), // 8, from below low; low passes 9
            ack(20, 10, 2),
        ],
    )
}

/// P8 of 01: low 4,294,967,294, next 2, cum 0; a NACK, a resend and a map across the wrap.
fn psn_wrap() -> Vector {
    let low = u32::MAX - 1;
    named(
        "psn-wrap",
        [
            e_but(|settings| settings.first_psn = low),
            data(0, 500),
            send(0, low, 100),
            send(0, low + 1, 100),
            send(0, 0, 100),
            send(0, 1, 100),
            ack(10, 2, 0),
            ack(10, low - 1, 0).map(0b1_0000), // PSN 2
            nack(10, low + 1, 2),
            resend(10, low + 1, 100),
            ack(20, 0, 0),
            nack(20, low + 1, 2),
            ack(20, low, 0),
            ack(20, low + 1, 0).map(0b10), // PSN 1
            send(20, 2, 100),
            ack(30, 2, 2),
        ],
    )
}

/// Counts that are equal, old, and old by 2^23; one less than that is ahead, and here 11.
fn counts() -> Vector {
    named(
        "counts",
        [
            e(),
            data(0, 8192),
            send(0, 0, 4096),
            send(0, 1, 4096),
            ack(10, 0, 20),
            ack(10, 0, 20),
            ack(10, 0, 19),
            ack(10, 0, 0),
            ack(10, 0, COUNT_END - 1),
            ack(10, 0, 20 + COUNT_OLD),
            ack(10, 0, 20 + COUNT_OLD - 1),
            ack(10, 1, 36),
            ack(10, 1, 32),
        ],
    )
}

/// A burst whose newest ACK comes first: the old ones, and the newest doubled, change nothing.
fn burst() -> Vector {
    named(
        "burst",
        [
            e(),
            data(0, 30_000),
            send(0, 0, 4096),
            send(0, 1, 4096),
            send(0, 2, 4096),
            send(0, 3, 4096),
            send(0, 4, 4096),
            send(0, 5, 4096),
            ack(100, 3, 80).map(0b10), // the newest: all but PSN 4
            ack(101, 1, 48).map(0b10),
            ack(101, 0, 16),
            ack(102, 3, 64),
            ack(103, 3, 80).map(0b10),
            ack(104, 5, 96),
            ack(104, 3, 80).map(0b10),
        ],
    )
}
