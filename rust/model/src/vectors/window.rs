//! The window: every branch of 01's "The window, in order". Most packets are sent at 0 and the
//! service time of an ACK gives its sample the delay wanted over the base of 96.

use super::build::*;
use super::Vector;
use crate::bounds::SAMPLE_MAX;
use crate::log::Record;
use crate::settings::Settings;

pub(super) fn logs() -> Vec<Vector> {
    vec![
        fast_mode(),
        adjustment(),
        cut(),
        floors(),
        quick_adapt(),
        quick_adapt_loss(),
        quick_adapt_off(),
        ignoring(),
        sample_stop(),
        lost(),
    ]
}

/// No adjustment: a log comes to neither the bytes nor the period.
pub(super) fn unadjusted(settings: &mut Settings) {
    settings.adjust_bytes = 1 << 26;
    settings.adjust_period = 1 << 20;
}

/// No quick adapt and no adjustment: cwnd shows fast mode, cuts and clamps alone.
pub(super) fn quiet(settings: &mut Settings) {
    unadjusted(settings);
    settings.quick_adapt_off = true;
}

/// Fast mode: on once fi_count is above cwnd; off by a delay not near, by M and by the target.
fn fast_mode() -> Vector {
    let mut log = vec![e_but(quiet), data(0, 32_768)];
    log.extend(sends(0, 0..8, 4096));
    log.extend([
        loss(10, 7),
        ack(10, NONE, 2_384),       // fi_count is cwnd
        ack(10, NONE, 2_385),       // and above it: on
        delayed(200, 0, 12, 2_386), // near: grows
        delayed(200, 1, 13, 2_387), // not near: off
        ack(200, 1, 2_389),         // no growth
        ack(200, 1, 4_774),         // on, up to the ceiling
        loss(200, 6),
        ack(200, 1, 4_775).marked(), // off
        ack(200, 1, 4_776),
        ack(200, 1, 7_200), // on
        loss(200, 5),
        delayed(200, 2, 72, 7_201), // the target: off
        ack(200, 2, 7_202),
        ack(200, 2, 9_600), // on
        loss(200, 4),
        delayed(200, 3, 72, 9_601).marked(), // off
        ack(200, 3, 9_602),
    ]);
    named("fast-mode", log)
}

/// The adjustment: by bytes, by the period, by both, and up to the ceiling.
fn adjustment() -> Vector {
    named(
        "adjustment",
        [
            e_but(|settings| settings.quick_adapt_off = true),
            data(0, 8192),
            send(0, 0, 4096),
            send(0, 1, 4096),
            loss(0, 0),
            loss(0, 1),
            ack(95, NONE, 127), // 32,512 bytes, 95 ticks: neither
            ack(95, NONE, 128), // 32,768 bytes
            ack(95, NONE, 255), // 32,512 bytes again
            ack(96, NONE, 255), // the period
            ack(191, NONE, 256),
            ack(192, NONE, 384),   // both
            ack(288, NONE, 1_600), // up to the ceiling
        ],
    )
}

/// P3 of 01, an average of 72 and then 144; a base later no cut, one tick on a cut; half at most.
fn cut() -> Vector {
    let mut log = vec![e_but(quiet), data(0, 16_384)];
    log.extend(sends(0, 0..4, 4096));
    log.extend([
        delayed(20_000, 0, 5_760, 0).marked(), // 72
        delayed(20_000, 1, 5_832, 0).marked(), // 144
        ack(20_096, 1, 0).marked(),
        ack(20_097, 1, 0).marked(),
        delayed(20_300, 2, 71, 0).marked(), // below the target: no cut
        ack(20_300, 2, 0),                  // unmarked: no cut
        delayed(20_300, 3, 20_000, 0).marked(),
    ]);
    named("cut", log)
}

/// The smallest cut, at an average of 73; a cut and a loss leave cwnd at the MTU at least.
fn floors() -> Vector {
    let narrow = |settings: &mut Settings| {
        quiet(settings);
        settings.max_wnd = 6_000;
        settings.adjust_period = 20_000;
    };
    named(
        "floors",
        [
            e_but(narrow),
            data(0, 4_296),
            send(0, 0, 100),
            send(0, 1, 100),
            send(0, 2, 4_096),
            delayed(12_000, 0, 5_840, 0).marked(),
            delayed(12_100, 1, 11_520, 0).marked(), // 2,967 would be left
            ack(20_000, 1, 0),                      // eta
            loss(20_000, 2),                        // 1,024 would be left
        ],
    )
}

/// Quick adapt: each condition fails in turn; it fires by the trigger, then by the delay.
fn quick_adapt() -> Vector {
    let mut log = vec![e(), data(0, 1_000)];
    log.extend(sends(0, 0..7, 100));
    log.extend([
        send(0, 7, 256),
        delayed(1_000, 0, 289, 0).marked(), // its end is 0
        delayed(1_168, 1, 289, 0),          // M clear
        delayed(1_335, 2, 289, 0).marked(), // before its end
        delayed(1_336, 3, 288, 0).marked(), // the threshold
        loss(1_503, 7),
        delayed(1_504, 4, 289, 2_399).marked(), // achieved is cwnd
        ack(1_672, 5, 3_648).service(1_622).marked(), // fires; the base is then 50
        ack(1_794, 6, 3_648).service(1_455).marked(), // fires: delay 289
        path(1_794),
    ]);
    named("quick-adapt", log)
}

/// Quick adapt by the trigger of a loss before, by a trimmed packet and by a loss.
fn quick_adapt_loss() -> Vector {
    named("quick-adapt-loss", losses(false))
}

/// The same events with quick adapt disabled.
fn quick_adapt_off() -> Vector {
    named("quick-adapt-off", losses(true))
}

fn losses(quick_adapt_off: bool) -> Vec<Record> {
    let settings = e_but(|settings| {
        settings.adjust_bytes = 1 << 26;
        settings.adjust_period = 300;
        settings.quick_adapt_off = quick_adapt_off;
    });
    let mut log = vec![settings, data(0, 400)];
    log.extend(sends(0, 0..4, 100));
    log.extend([
        loss(10, 3),                        // its end is 0
        ack(50, NONE, 16),                  // saves up inc_bytes
        ack(50, NONE, 2_416),               // fast mode on
        ack(178, NONE, 2_416),              // M clear
        delayed(346, 0, 0, 2_464).marked(), // fires by the trigger; fast mode off
        ack(350, 0, 2_480),                 // what was saved up before counts
        ack(514, 0, 2_480).marked(),        // the trigger is off
        nack(682, 2, 0),                    // fires
        ack(800, 0, 2_512),
        loss(850, 1), // fires
    ]);
    log
}

/// After quick adapt has fired, no cut until as much as was in flight is reported or lost.
fn ignoring() -> Vector {
    named(
        "ignoring",
        [
            e_but(|settings| settings.eta = 0),
            data(0, 12_288),
            send(0, 0, 4_096),
            send(0, 1, 4_096),
            send(0, 2, 3_840),
            send(0, 3, 256),
            ack(20_000, NONE, 0),
            delayed(20_168, 0, 11_520, 32).marked(), // fires: 4,096 to ignore
            ack(20_169, 0, 47).marked(),             // 3,840
            loss(20_169, 3),                         // 4,096
            ack(20_169, 0, 47).marked(),             // a cut
        ],
    )
}

/// A sample of 2^20 + 1 counts as 2^20: its delay is above this threshold once the base is 95.
fn sample_stop() -> Vector {
    named(
        "sample-stop",
        [
            e_but(|settings| settings.qa_threshold = (1 << 20) - 96),
            data(0, 400),
            send(0, 0, 100),
            send(0, 1, 100),
            send(0, 2, 100),
            send(0, 3, 100),
            ack(96, 0, 0),
            ack(SAMPLE_MAX + 1, 1, 0).marked(),
            ack(1 << 21, 2, 0).service((1 << 21) - 95),
            ack(1 << 22, 3, 0).marked(), // fires
        ],
    )
}

/// Trimmed, trimmed at the last hop, other, loss, ACK: what each does to cwnd and to its EV.
fn lost() -> Vector {
    let mut log = vec![e(), data(0, 24_576)];
    log.extend(sends(0, 0..6, 4096));
    let events = [
        nack(0, 0, 0).ev(0),
        nack(0, 1, 1).ev(2),
        nack(0, 2, 2).ev(3),
        loss(0, 3).ev(4),
        nack(0, 4, 1).ev(6).marked(),
        nack(0, 5, 2).ev(8).marked(),
        ack(0, NONE, 0).ev(10),
        ack(0, NONE, 0).ev(11).marked(),
    ];
    for event in events {
        log.extend([event, path(0)]);
    }
    named("lost", log)
}
