//! The window's ceiling, max_wnd of 01 as amended by M-101: cwnd falls with it, and stops at it.

use super::build::*;
use super::window::{quiet, unadjusted};
use super::Vector;
use crate::log::Record;
use crate::settings::Settings;

pub(super) fn logs() -> Vec<Vector> {
    vec![
        by_acks(),
        by_nacks(),
        closed(),
        mtu(),
        rounds(),
        largest(),
        fast_mode(),
        adjustment(),
        quick_adapt(),
        trimmed(),
        ignoring(),
    ]
}

/// An ACK that gives this sample, of a packet sent at 0.
fn trip(time: u32, cum: u32, sample: u32, count: u32) -> Record {
    ack(time.into(), cum, count).service(time - sample)
}

/// By ACKs: a window below the ceiling stays, in-flight may stand above it.
fn by_acks() -> Vector {
    let mut log = vec![e_but(quiet), data(0, 32_768)];
    log.extend(sends(0, 0..8, 4096));
    log.extend([
        trip(200, 0, 97, 0),
        trip(200, 1, 95, 0), // 608,000
        trip(200, 2, 96, 0), // the base does not rise
        loss(200, 7),
        loss(200, 6),
        trip(200, 3, 94, 0), // 601,600, and the window is below
        trip(200, 4, 48, 0), // 307,200
        trip(200, 5, 1, 0),  // 6,400
        resend(200, 6, 4096),
        ack(200, 5, 88),
        resend(200, 6, 4096),
    ]);
    named("ceiling-ack", log)
}

/// By NACKs of every reason; a loss, and a resent packet without its flag, give no sample.
fn by_nacks() -> Vector {
    named(
        "ceiling-nack",
        [
            e_but(quiet),
            data(0, 16_384),
            send(0, 0, 4096),
            send(20, 1, 4096),
            send(50, 2, 4096),
            send(60, 3, 4096),
            nack(95, 0, 2), // 608,000
            nack(96, 1, 1), // 486,400, and the size is taken from that
            nack(98, 2, 0), // 307,200, and likewise
            loss(99, 3),
            resend(100, 0, 4096),
            nack(124, 0, 2),
            resend(124, 1, 4096),
            nack(148, 1, 2).retx(), // 153,600
        ],
    )
}

/// A NACK for another reason closes the window, though its packet is no longer in flight.
fn closed() -> Vector {
    let narrow = |settings: &mut Settings| {
        quiet(settings);
        settings.max_wnd = 32_768;
    };
    let mut log = vec![e_but(narrow), data(0, 28_672)];
    log.extend(sends(0, 0..6, 4096));
    log.extend([
        nack(48, 0, 2), // 16,384
        send(48, 6, 4096),
        resend(48, 0, 4096),
        ack(48, NONE, 32), // in-flight is then 12,288
        resend(48, 0, 4096),
        send(48, 6, 4096),
    ]);
    named("ceiling-closed", log)
}

/// The ceiling is the MTU from a base of 48 on.
fn mtu() -> Vector {
    let narrow = |settings: &mut Settings| {
        quiet(settings);
        settings.max_wnd = 8_192;
    };
    let mut log = vec![e_but(narrow), data(0, 500)];
    log.extend(sends(0, 0..5, 100));
    log.extend([
        trip(100, 0, 49, 0), // 4,181
        trip(100, 1, 48, 0), // 4,096
        trip(100, 2, 47, 0), // 4,010 would be left
        trip(100, 3, 1, 0),  // 85 would be left
        nack(100, 4, 0),
        resend(100, 4, 100),
        ack(100, 3, 2),
        resend(100, 4, 100),
    ]);
    named("ceiling-mtu", log)
}

/// Rounded down, and only after the product: by a 96th, by 46 of them and by 95.
fn rounds() -> Vector {
    let odd = |settings: &mut Settings| {
        quiet(settings);
        settings.max_wnd = 614_399;
    };
    let mut log = vec![e_but(odd), data(0, 2_500)];
    log.extend(sends(0, 0..3, 100));
    log.extend([
        trip(100, 0, 95, 0), // 607,999
        trip(100, 1, 50, 0), // 319,999
        trip(100, 2, 1, 0),  // 6,399
        send(100, 3, 2_003),
        send(100, 4, 41), // in-flight + MTU is the ceiling
        send(100, 5, 41),
    ]);
    named("ceiling-rounds", log)
}

/// Products of up to 2^40.
fn largest() -> Vector {
    let large = |settings: &mut Settings| {
        quiet(settings);
        settings.mtu = 1_024;
        settings.max_wnd = (1 << 26) - 1;
        settings.config_base_rtt = 1 << 14;
    };
    let mut log = vec![e_but(large), data(0, 400)];
    log.extend(sends(0, 0..4, 100));
    log.extend([
        trip(20_000, 0, 16_384, 0),
        trip(20_000, 1, 16_383, 0), // 67,104,767
        trip(20_000, 2, 8_192, 0),  // 33,554,431
        trip(20_000, 3, 1, 0),      // 4,095
    ]);
    named("ceiling-largest", log)
}

/// Fast mode stops at the ceiling, also when the base falls while it is on.
fn fast_mode() -> Vector {
    let mut log = vec![e_but(quiet), data(0, 16_384)];
    log.extend(sends(0, 0..4, 4096));
    log.extend([
        trip(96, 0, 48, 0), // 307,200
        loss(96, 3),
        ack(96, 0, 1_184), // fi_count is cwnd
        ack(96, 0, 1_185), // on
        ack(96, 0, 1_199),
        ack(96, 0, 1_200), // at the ceiling
        ack(96, 0, 1_201),
        trip(96, 1, 24, 1_202), // 153,600
        loss(96, 2),
        ack(96, 1, 1_300),
    ]);
    named("ceiling-fast-mode", log)
}

/// The adjustment stops at the ceiling: by what was saved up, by eta, and where the base falls.
fn adjustment() -> Vector {
    let mut log = vec![
        e_but(|settings| settings.quick_adapt_off = true),
        data(0, 16_384),
    ];
    log.extend(sends(0, 0..4, 4096));
    log.extend([
        trip(95, 0, 48, 0), // 307,200
        loss(95, 2),
        loss(95, 1),
        ack(95, 0, 128), // 32,768 bytes
        ack(96, 0, 128), // the period
        ack(192, 0, 640),
        ack(288, 0, 640),
        trip(384, 3, 24, 656), // 153,600
    ]);
    named("ceiling-adjustment", log)
}

/// Quick adapt compares with the window that this ACK has clamped: below it, then as much.
fn quick_adapt() -> Vector {
    let mut log = vec![e_but(unadjusted), data(0, 600)];
    log.extend(sends(0, 0..6, 100));
    log.extend([
        ack(1_000, NONE, 0), // its end is 0
        loss(1_100, 5),
        trip(1_168, 0, 48, 1_199).marked(), // 306,944 of 307,200: fires
        loss(1_200, 4),
        trip(1_288, 1, 24, 1_799).marked(), // all of 153,600
        ack(1_384, 1, 1_799).marked(),      // fires: the trigger is still on
    ]);
    named("ceiling-quick-adapt", log)
}

/// The same by trimmed packets: as much as the clamped window, then below it.
fn trimmed() -> Vector {
    named(
        "ceiling-trimmed",
        [
            e_but(unadjusted),
            data(0, 200),
            ack(1_000, NONE, 0), // its end is 0
            ack(1_100, NONE, 1_200).marked(),
            send(1_120, 0, 100),
            nack(1_168, 0, 0), // all of 307,200
            ack(1_200, NONE, 1_799).marked(),
            send(1_264, 1, 100),
            nack(1_288, 1, 0), // 153,344 of 153,600: fires
        ],
    )
}

/// What is to be ignored is not clamped: 20,480 bytes under a ceiling of 10,240.
fn ignoring() -> Vector {
    let narrow = |settings: &mut Settings| {
        unadjusted(settings);
        settings.max_wnd = 40_960;
    };
    let mut log = vec![e_but(narrow), data(0, 32_768)];
    log.extend(sends(0, 0..8, 4096));
    log.extend([
        delayed(20_000, 0, 11_520, 0).marked(), // a cut: 144 on average
        loss(20_000, 7),
        trip(20_168, 1, 24, 32).marked(), // fires
        ack(20_200, 1, 72).marked(),      // 10,240
        ack(20_200, 1, 112).marked(),     // 20,480: a cut
    ]);
    named("ceiling-ignoring", log)
}
