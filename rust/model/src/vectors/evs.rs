//! More path values (M-110): the longer settings record, and EVs at the edge of the chosen number.

use super::build::*;
use super::Vector;
use crate::bounds::EVS_USUAL;
use crate::log::Record;

pub(super) fn logs() -> Vec<Vector> {
    vec![
        by_acks(),
        by_losses(),
        not_allowed("evs-768", 768),
        not_allowed("evs-8192", 8_192),
        told_usual(),
    ]
}

/// Settings E with so many EVs.
fn e_with(evs: u32) -> Record {
    e_but(|settings| settings.ev_count = evs)
}

/// 512 EVs: 512 is refused, 511 is the last; EV 0 is avoided for a base.
fn by_acks() -> Vector {
    let avoid = |ev: u16| ack(0, NONE, 0).ev(ev).marked();
    named(
        "evs-512",
        [
            e_with(512),
            avoid(512),
            avoid(511),
            avoid(256),
            avoid(0),
            path(0),
            path(96),
        ],
    )
}

/// The most EVs: 4,096 is refused, 4,095 is the last.
fn by_losses() -> Vector {
    named(
        "evs-4096",
        [
            e_with(4_096),
            data(0, 300),
            send(0, 0, 100),
            send(0, 1, 100),
            nack(0, 0, 0).ev(4_096),
            nack(0, 0, 0).ev(4_095),
            loss(0, 1).ev(4_096),
            loss(0, 1).ev(4_095),
            path(0),
        ],
    )
}

/// 1: a number between the powers of two, and a power beyond.
fn not_allowed(name: &str, evs: u32) -> Vector {
    named(name, [e_with(evs), path(0)])
}

/// 12: a longer record that says what the shorter one means.
fn told_usual() -> Vector {
    let mut settings = bytes_of(e_with(512));
    let end = settings.len() - 4;
    settings[end..].copy_from_slice(&EVS_USUAL.to_le_bytes());
    raw("evs-256", [settings, bytes_of(path(0))])
}
