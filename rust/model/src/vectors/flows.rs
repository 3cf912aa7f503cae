//! Several flows (M-107): records that name their flow, 25, and what each flow has of its own.

use super::build::*;
use super::Vector;
use crate::bounds::COUNT_END;
use crate::log::Record;

pub(super) fn logs() -> Vec<Vector> {
    vec![kinds(), zero(), refused(), own()]
}

/// One record of each kind, all accepted.
fn each() -> [Record; 8] {
    [
        data(0, 300),
        send(10, 0, 100),
        ack(106, 0, 0),
        send(107, 1, 100),
        nack(110, 1, 2), // a base of 3
        resend(111, 1, 100),
        loss(120, 1), // EV 0 until 123
        path(121),
    ]
}

/// Kinds 33 to 38, of flow 3.
fn kinds() -> Vector {
    let records = each().map(|record| record.of(3));
    named("flow-kinds", [e()].into_iter().chain(records))
}

/// The same of flow 0, by old kinds and new ones in turn: the same is printed.
fn zero() -> Vector {
    let records = each().into_iter().enumerate();
    let in_turn = records.map(|(i, record)| if i % 2 == 0 { record.of(0) } else { record });
    named("flow-zero", [e()].into_iter().chain(in_turn))
}

/// 25: the first flow past the table and the last that a record can name; after 3, before fields.
fn refused() -> Vector {
    let bad_ack = ack(100, 0, COUNT_END).ev(256).trigger(9);
    let mut log = vec![
        e(),
        data(100, 300),
        data(100, 1).of(8),
        data(100, 1).of(255),
        data(99, 1).of(8),
    ];
    for bad in [
        data(100, 0),
        send(100, 0, 40),
        bad_ack,
        nack(100, 0, 3),
        loss(100, 0).ev(256),
    ] {
        log.extend([bad.of(8), bad.of(7)]);
    }
    log.extend([
        path(99).of(8),
        path(100).of(8),
        path(100).of(255),
        path(100).of(7),
    ]);
    named("flow-refused", log)
}

/// 5, 8, 9 and 10 look at the flow alone, 6 and the name at all flows; each has its own count.
fn own() -> Vector {
    named(
        "flow-own",
        [
            e_but(|settings| settings.max_wnd = 8_192),
            data(0, 4_096).of(1),
            send(0, 0, 4_096).of(2), // 5
            send(0, 0, 4_096).of(1),
            data(0, 8_192).of(2),
            send(0, 1, 4_096).of(2), // 8: it is next of flow 1
            send(0, 0, 4_096).of(2),
            send(0, 1, 4_096).of(2), // 6
            loss(0, 1).of(1),        // 10
            loss(0, 0),              // 10: flow 0 has sent nothing
            ack(0, 1, 0).of(1),      // 9
            ack(96, 0, 16).of(1),
            send(97, 1, 4_096).of(2),
            ack(97, 0, 16).of(2),
            ack(98, 1, 32).of(2),
        ],
    )
}
