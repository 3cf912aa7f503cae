//! Each clause of number 2, spoilt one at a time, and the last good value before it.

use crate::rig::*;
use model::{Name, Refusal};

const NOW: u64 = 10_050;

/// A state in which every number that may be other than 0 is.
fn rig() -> Rig {
    let mut rig = Rig::e();
    rig.set_backlog(5_000);
    rig.flow_mut().held = 77;
    let state = &mut rig.state;
    state.in_flight = 9_000;
    state.cwnd = 300_000;
    state.base = 90;
    state.avg = 50_000;
    state.inc_bytes = 1_000;
    state.received = 2_000;
    state.achieved = 3_000;
    state.ignored = 4_000;
    state.bytes_to_ignore = 5_000;
    state.fi_count = 6_000;
    state.fast_mode = true;
    state.trigger = true;
    state.qa_end = 10_500;
    state.last_adjust = 9_990;
    state.last_dec = 9_991;
    state.cursor = 17;
    rig.memory.ev_times[9] = 10_400;
    rig.lay(
        4_294_967_294,
        &[
            (FLYING, 4_096, 9_950, 0),
            (MARKED, 1_000, 9_960, 1),
            (DONE, 4_096, 9_970, 0),
            (FLYING, 4_096, 9_980, 2),
        ],
    )
}

/// Slots of the ring above: PSN 4,294,967,294 lives at 62 of 64.
const LOW: usize = 62;
const SECOND: usize = 63;
const THIRD: usize = 0;
const BEFORE_LOW: usize = 61;
const NEXT: usize = 2;

/// One resend in a slot's number.
const RESEND: u32 = 65_536;

fn every_event() -> Vec<model::Event> {
    vec![
        new_data(NOW, 1),
        send(NOW, 2, 41),
        resend(NOW, 4_294_967_295, 1_000),
        ack(NOW, 4_294_967_294, 78).into(),
        nack(NOW, 4_294_967_294, 0).into(),
        loss(NOW, 1).into(),
        path(NOW),
    ]
}

type Change = fn(&mut Rig);

#[track_caller]
fn all_good(changes: &[(&str, Change)]) {
    for (what, change) in changes {
        let mut rig = rig();
        change(&mut rig);
        assert!(rig.holds(), "{what} should be good");
    }
}

#[track_caller]
fn all_spoilt(changes: &[(&str, Change)]) {
    for (what, change) in changes {
        let mut rig = rig();
        change(&mut rig);
        assert!(!rig.holds(), "{what} should be 2");
        for event in every_event() {
            rig.refuse(2, event);
        }
        rig.refuse_choice();
        rig.refuse_plans();
        let lent = rig.memory.lend();
        assert_eq!(rig.state.status(&lent, 0, 0), Err(Refusal::NotTogether));
        assert_eq!(
            rig.state.next_marked(&lent, 0, 0),
            Err(Refusal::NotTogether)
        );
    }
}

#[test]
fn the_unspoilt_state_is_good_and_takes_every_event() {
    for event in every_event() {
        rig().accept(event);
    }
}

#[test]
fn lengths() {
    all_spoilt(&[
        ("all empty", |r| r.memory = model::Memory::new(0)),
        ("ring of 63", |r| r.memory = model::Memory::new(63)),
        ("outstanding longer", |r| r.memory.outstanding.push(0)),
        ("marked longer", |r| r.memory.marked.push(0)),
        ("sizes shorter", |r| r.memory.sizes.truncate(63)),
        ("sent shorter", |r| r.memory.sent.truncate(63)),
        ("EV times shorter", |r| r.memory.ev_times.truncate(255)),
        ("sizes longer", |r| r.memory.sizes.push(0)),
        ("sent longer", |r| r.memory.sent.push(0)),
        ("sizes of 128", |r| r.memory.sizes.resize(128, 0)),
        ("sizes and sent of 128", |r| {
            r.memory.sizes.resize(128, 0);
            r.memory.sent.resize(128, 0);
        }),
        ("bits of 128", |r| {
            r.memory.outstanding.push(0);
            r.memory.marked.push(0);
        }),
        ("EV times longer", |r| r.memory.ev_times.push(0)),
        ("outstanding empty", |r| r.memory.outstanding.clear()),
        ("marked empty", |r| r.memory.marked.clear()),
        ("sizes empty", |r| r.memory.sizes.clear()),
        ("sent empty", |r| r.memory.sent.clear()),
        ("EV times empty", |r| r.memory.ev_times.clear()),
    ]);
    for capacity in [32, 96, 192, 4_160, 8_192] {
        let mut rig = Rig::e();
        rig.memory = model::Memory::new(capacity);
        assert!(!rig.holds());
        rig.refuse(2, path(NOW));
    }
    for capacity in [64, 4_096] {
        let mut rig = Rig::with_capacity(e(), capacity);
        assert!(rig.holds());
    }
}

#[test]
fn settings() {
    all_spoilt(&[
        ("MTU", |r| r.state.settings.mtu = 16_385),
        ("MTU of 0", |r| r.state.settings.mtu = 0),
        ("MaxWnd", |r| r.state.settings.max_wnd = (1 << 26) + 1),
        ("MaxWnd at its widest", |r| {
            r.state.settings.max_wnd = u64::MAX
        }),
        ("base rtt", |r| r.state.settings.config_base_rtt = 16_385),
        ("target of 0", |r| r.state.settings.target_qdelay = 0),
        ("target", |r| r.state.settings.target_qdelay = 16_385),
        ("fi", |r| r.state.settings.fi = (1 << 20) + 1),
        ("eta", |r| r.state.settings.eta = (1 << 20) + 1),
        ("alpha", |r| r.state.settings.alpha = (1 << 14) + 1),
        ("gamma", |r| r.state.settings.gamma = 1_025),
        ("max_md_jump", |r| r.state.settings.max_md_jump = 1_025),
        ("period of 0", |r| r.state.settings.adjust_period = 0),
        ("period", |r| r.state.settings.adjust_period = (1 << 20) + 1),
        ("bytes of 0", |r| r.state.settings.adjust_bytes = 0),
        ("bytes", |r| r.state.settings.adjust_bytes = (1 << 26) + 1),
        ("threshold", |r| {
            r.state.settings.qa_threshold = (1 << 20) + 1
        }),
    ]);
    all_good(&[
        ("another first PSN", |r| r.state.settings.first_psn = 12_345),
        ("quick adapt off", |r| {
            r.state.settings.quick_adapt_off = true
        }),
    ]);
}

#[test]
fn window_numbers() {
    all_good(&[
        ("cwnd of MTU", |r| {
            r.state.cwnd = 4_096;
            r.state.name = Name::Active;
        }),
        ("cwnd of max_wnd", |r| r.state.cwnd = 576_000),
        ("cwnd of MaxWnd", |r| {
            r.state.base = 96;
            r.state.cwnd = 614_400;
        }),
        ("base of 1", |r| {
            r.state.base = 1;
            r.state.cwnd = 6_400;
            r.state.name = Name::Active;
        }),
        ("base of config_base_rtt", |r| r.state.base = 96),
        ("the lowest base for this cwnd", |r| r.state.base = 47),
        ("average of 2^30", |r| r.state.avg = 1 << 30),
        ("inc_bytes at its stop", |r| r.state.inc_bytes = 1 << 60),
        ("received at its stop", |r| r.state.received = 1 << 40),
        ("achieved at its stop", |r| r.state.achieved = 1 << 40),
        ("ignored at its stop", |r| r.state.ignored = 1 << 40),
        ("fi_count at its stop", |r| r.state.fi_count = 1 << 40),
        ("bytes_to_ignore of MaxWnd", |r| {
            r.state.bytes_to_ignore = 614_400
        }),
        ("modes off", |r| {
            r.state.fast_mode = false;
            r.state.trigger = false;
        }),
    ]);
    all_spoilt(&[
        ("cwnd below MTU", |r| {
            r.state.cwnd = 4_095;
            r.state.name = Name::Active;
        }),
        ("cwnd over max_wnd", |r| r.state.cwnd = 576_001),
        ("cwnd over MaxWnd", |r| {
            r.state.base = 96;
            r.state.cwnd = 614_401;
        }),
        ("cwnd over max_wnd at a base of 1", |r| {
            r.state.base = 1;
            r.state.cwnd = 6_401;
            r.state.name = Name::Active;
        }),
        ("cwnd at its widest", |r| r.state.cwnd = u64::MAX),
        ("base of 0", |r| r.state.base = 0),
        ("base too low for this cwnd", |r| r.state.base = 46),
        ("base at its widest", |r| r.state.base = u64::MAX),
        ("base over config_base_rtt", |r| r.state.base = 97),
        ("average over 2^30", |r| r.state.avg = (1 << 30) + 1),
        ("inc_bytes over its stop", |r| {
            r.state.inc_bytes = (1 << 60) + 1
        }),
        ("received over its stop", |r| {
            r.state.received = (1 << 40) + 1
        }),
        ("achieved over its stop", |r| {
            r.state.achieved = (1 << 40) + 1
        }),
        ("ignored over its stop", |r| r.state.ignored = (1 << 40) + 1),
        ("fi_count over its stop", |r| {
            r.state.fi_count = (1 << 40) + 1
        }),
        ("bytes_to_ignore", |r| r.state.bytes_to_ignore = 614_401),
    ]);
}

#[test]
fn cwnd_up_to_a_max_wnd_that_is_rounded_down_or_the_mtu() {
    for (max_wnd, base, most) in [
        (614_399, 95, 607_999), // and a 96th
        (614_399, 1, 6_399),    // and 95 of them
        (8_192, 49, 4_181),
        (8_192, 48, 4_096),
        (8_192, 47, 4_096), // 4,010 is below the MTU
        (4_096, 96, 4_096),
    ] {
        let mut rig = Rig::e();
        rig.state.settings.max_wnd = max_wnd;
        rig.state.base = base;
        rig.state.cwnd = most;
        assert!(rig.holds(), "{most} of {max_wnd} at {base}");
        rig.state.cwnd = most + 1;
        assert!(!rig.holds(), "over {most} of {max_wnd} at {base}");
        rig.refuse(2, path(NOW));
    }
}

#[test]
fn ledger_numbers() {
    all_good(&[
        ("backlog of 2^40", |r| r.set_backlog(1 << 40)),
        ("held", |r| r.flow_mut().held = (1 << 24) - 1),
        ("in-flight of -2^24", |r| r.state.in_flight = -(1 << 24)),
        ("in-flight of MaxWnd", |r| {
            r.state.in_flight = 614_400;
            r.state.name = Name::Active;
        }),
        ("cursor of 255", |r| r.state.cursor = 255),
    ]);
    all_spoilt(&[
        ("backlog", |r| r.set_backlog((1 << 40) + 1)),
        ("held", |r| r.flow_mut().held = 1 << 24),
        ("in-flight below", |r| r.state.in_flight = -(1 << 24) - 1),
        ("in-flight at its lowest", |r| r.state.in_flight = i64::MIN),
        ("in-flight above", |r| {
            r.state.in_flight = 614_401;
            r.state.name = Name::Active;
        }),
        ("in-flight at its highest", |r| r.state.in_flight = i64::MAX),
        ("cursor of 256", |r| r.state.cursor = 256),
        ("turn of 1 among one flow", |r| r.state.turn = 1),
        ("turn at its widest", |r| r.state.turn = u64::MAX),
    ]);
}

#[test]
fn times() {
    all_good(&[
        ("quick-adapt end", |r| r.state.qa_end = (1 << 49) - 1),
        ("an EV time", |r| r.memory.ev_times[255] = (1 << 49) - 1),
        ("last adjust", |r| r.state.last_adjust = 10_000),
        ("last decrease", |r| r.state.last_dec = 10_000),
        ("send time", |r| r.memory.sent[SECOND] = 10_000),
        ("clock", |r| r.state.clock = (1 << 48) - 1),
    ]);
    all_spoilt(&[
        ("quick-adapt end", |r| r.state.qa_end = 1 << 49),
        ("first EV time", |r| r.memory.ev_times[0] = 1 << 49),
        ("last EV time", |r| r.memory.ev_times[255] = u64::MAX),
        ("last adjust", |r| r.state.last_adjust = 10_001),
        ("last decrease", |r| r.state.last_dec = 10_001),
        ("send time of a marked one", |r| {
            r.memory.sent[SECOND] = 10_001
        }),
        ("send time of a done one", |r| r.memory.sent[THIRD] = 10_001),
        ("clock", |r| r.state.clock = 1 << 48),
        ("clock before the send times", |r| r.state.clock = 9_979),
    ]);
}

#[test]
fn slots_of_packets() {
    all_good(&[
        ("size 41", |r| r.memory.sizes[LOW] = 41),
        ("size MTU", |r| r.memory.sizes[LOW] = 4_096),
        ("resend count 2", |r| r.memory.sizes[LOW] = 41 + 2 * RESEND),
        ("done as a flying one", |r| {
            r.mark(THIRD, FLYING);
            r.state.flying = 3;
        }),
    ]);
    all_spoilt(&[
        ("an empty slot", |r| {
            r.put(4_294_967_294, (EMPTY, 0, 0, 0));
            r.state.flying = 1;
        }),
        ("an empty slot in the middle", |r| {
            r.put(0, (EMPTY, 0, 0, 0))
        }),
        ("size 0", |r| r.memory.sizes[LOW] = 0),
        ("size 40", |r| r.memory.sizes[LOW] = 40),
        ("size over MTU", |r| r.memory.sizes[LOW] = 4_097),
        ("size at its widest", |r| r.memory.sizes[LOW] = 65_535),
        ("size 40 of a done one", |r| r.memory.sizes[THIRD] = 40),
        ("resend count 3", |r| r.memory.sizes[LOW] = 41 + 3 * RESEND),
        ("resend count at its widest", |r| {
            r.memory.sizes[LOW] = 41 + 65_535 * RESEND
        }),
        ("resend count alone", |r| r.memory.sizes[LOW] = RESEND),
        ("resend count 3 of a done one", |r| {
            r.memory.sizes[THIRD] = 41 + 3 * RESEND
        }),
    ]);
}

/// Each bit, with totals as they were and with such as the bits would have.
#[test]
fn bits() {
    all_spoilt(&[
        ("low marked, not outstanding", |r| {
            set(&mut r.memory.outstanding, LOW, false);
            set(&mut r.memory.marked, LOW, true);
        }),
        ("marked, no longer outstanding", |r| {
            set(&mut r.memory.outstanding, SECOND, false)
        }),
        ("the same, with totals without it", |r| {
            set(&mut r.memory.outstanding, SECOND, false);
            r.state.marked = 0;
            r.state.marked_bytes = 0;
        }),
        ("a done one marked", |r| {
            set(&mut r.memory.marked, THIRD, true)
        }),
        ("the same, with totals that have it", |r| {
            set(&mut r.memory.marked, THIRD, true);
            r.state.marked = 2;
            r.state.marked_bytes = 5_096;
        }),
        ("outstanding at next", |r| {
            set(&mut r.memory.outstanding, NEXT, true)
        }),
        ("outstanding at next, with a total that has it", |r| {
            set(&mut r.memory.outstanding, NEXT, true);
            r.state.flying = 3;
        }),
        ("outstanding before low", |r| {
            set(&mut r.memory.outstanding, BEFORE_LOW, true);
            r.state.flying = 3;
        }),
        ("marked at next", |r| set(&mut r.memory.marked, NEXT, true)),
        ("marked and outstanding at next", |r| {
            r.mark(NEXT, MARKED);
            r.state.marked = 2;
        }),
        ("marked before low", |r| {
            r.mark(BEFORE_LOW, MARKED);
            r.state.marked = 2;
        }),
    ]);
}

#[test]
fn other_slots() {
    all_spoilt(&[
        ("a packet at next", |r| r.put(2, (DONE, 100, 9_000, 0))),
        ("size at next", |r| r.memory.sizes[NEXT] = 1),
        ("sent at next", |r| r.memory.sent[NEXT] = 1),
        ("resend count at next", |r| r.memory.sizes[NEXT] = RESEND),
        ("a packet before low", |r| {
            r.put(4_294_967_293, (DONE, 100, 9_000, 0))
        }),
        ("size before low", |r| r.memory.sizes[BEFORE_LOW] = 1),
        ("sent before low", |r| r.memory.sent[BEFORE_LOW] = 1),
        ("resend count before low", |r| {
            r.memory.sizes[BEFORE_LOW] = RESEND
        }),
    ]);
}

#[test]
fn distance_of_low_and_next() {
    let full = Rig::e().lay(7, &[(FLYING, 41, 9_000, 0); 64]);
    assert!(full.clone().holds());
    let mut over = full.clone();
    over.flow_mut().next = 7 + 65;
    assert!(!over.holds());
    over.refuse(2, path(NOW));
    let mut behind = full;
    behind.flow_mut().next = 6;
    assert!(!behind.holds());
    behind.refuse(2, path(NOW));
}

#[test]
fn low_done() {
    all_spoilt(&[("low done", |r| {
        r.mark(LOW, DONE);
        r.state.flying = 1;
    })]);
    // An empty ledger has no low packet.
    assert!(Rig::e().holds());
    // Low done, with a ring full of done packets.
    let mut full = Rig::e().lay(0, &[(DONE, 41, 9_000, 0); 64]);
    assert!(!full.holds());
}

#[test]
fn totals() {
    all_spoilt(&[
        ("a flying too many", |r| r.state.flying = 3),
        ("a flying too few", |r| r.state.flying = 1),
        ("a marked too many", |r| r.state.marked = 2),
        ("none marked", |r| r.state.marked = 0),
        ("a marked byte too many", |r| r.state.marked_bytes = 1_001),
        ("a marked byte too few", |r| r.state.marked_bytes = 999),
        ("flying at its widest", |r| r.state.flying = u64::MAX),
        ("marked at its widest", |r| r.state.marked = u64::MAX),
    ]);
}

#[test]
fn state_name() {
    all_spoilt(&[
        ("IDLE", |r| r.state.name = Name::Idle),
        ("PENDING", |r| r.state.name = Name::Pending),
        ("ACTIVE", |r| r.state.name = Name::Active),
    ]);
    let names = [Name::Idle, Name::Pending, Name::Ready, Name::Active];
    let only = |mut rig: Rig, right: Name| {
        for name in names {
            rig.state.name = name;
            assert_eq!(rig.holds(), name == right, "{name} for {right}");
        }
    };
    only(Rig::e(), Name::Idle);
    only(Rig::e().lay(0, &[(FLYING, 41, 0, 0)]), Name::Pending);
    only(Rig::e().lay(0, &[(MARKED, 41, 0, 0)]), Name::Ready);
    let mut rig = Rig::e();
    rig.set_backlog(1);
    rig.state.in_flight = 610_304;
    only(rig.clone(), Name::Ready);
    rig.state.in_flight = 610_305;
    only(rig, Name::Active);
}
