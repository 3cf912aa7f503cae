//! The worked example, the empty log and a record of each kind.

use super::build::*;
use super::Vector;

pub(super) fn logs() -> Vec<Vector> {
    vec![worked(), empty(), kinds()]
}

/// The worked example of 01.
pub(super) fn worked() -> Vector {
    named(
        "worked",
        [
            e(),
            data(0, 8192),
            send(10, 0, 4096),
            send(20, 2, 4096),
            ack(110, 0, 16).service(4),
        ],
    )
}

/// An empty log prints the header only.
fn empty() -> Vector {
    named("empty", [])
}

/// A record of each kind, and a resend, accepted.
fn kinds() -> Vector {
    named(
        "kinds",
        [
            e(),
            data(0, 12_288),
            path(5),
            send(10, 0, 4096),
            send(10, 1, 4096),
            ack(110, 0, 16),
            nack(115, 1, 2),
            resend(120, 1, 4096),
            loss(130, 1),
            path(131),
        ],
    )
}
