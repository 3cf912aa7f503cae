//! More path values (M-110): each allowed number of EVs at its edges, in every event.

use crate::rig::*;
use model::{Ack, Loss, Memory, Nack, Rng, State};

/// Every number that is allowed.
pub const ALLOWED: [u32; 5] = [256, 512, 1_024, 2_048, 4_096];

/// Some that are not.
pub const ODD: [u32; 14] = [
    0,
    1,
    2,
    128,
    255,
    257,
    511,
    768,
    4_095,
    4_097,
    8_192,
    65_536,
    1 << 31,
    u32::MAX,
];

const NOW: u64 = 10_050;

/// Settings E with so many EVs at clock 10,000, and three packets flying.
fn rig(evs: u32) -> Rig {
    let mut rig = Rig::new(e().with_evs(evs));
    rig.state.clock = 10_000;
    rig.state.last_adjust = 10_000;
    rig.lay(5, &[(FLYING, 1_000, 9_900, 0); 3])
}

fn ack_of(ev: u16) -> Ack {
    Ack {
        ev,
        marked: true,
        ..ack(NOW, 5, 4)
    }
}

fn nack_of(ev: u16) -> Nack {
    Nack {
        ev,
        ..nack(NOW, 6, 0)
    }
}

fn loss_of(ev: u16) -> Loss {
    Loss { ev, ..loss(NOW, 7) }
}

#[test]
fn number_1_is_any_other_number() {
    let all = (0..=10_000).chain(ODD).chain((13..32).map(|bit| 1 << bit));
    let mut accepted = Vec::new();
    for evs in all {
        let mut memory = Memory::with_evs(64, evs.min(10_000) as usize);
        memory.ev_times.fill(7);
        memory.sent.fill(7);
        let before = memory.clone();
        let (answer, state) = State::set_up(&e().with_evs(evs), &mut memory.lend());
        if answer == 0 {
            accepted.push(evs);
            assert_eq!(state.settings.ev_count, evs);
            assert_eq!(memory, Memory::with_evs(64, evs as usize));
        } else {
            assert_eq!((answer, state), (1, State::default()), "{evs}");
            assert_eq!(memory, before);
        }
    }
    assert_eq!(accepted, ALLOWED);
}

#[test]
fn number_2_on_setting_up_is_another_length() {
    for evs in ALLOWED {
        let length = evs as usize;
        let others = [0, 1, 255, 256, 512, 4_096, length - 1, length + 1];
        for lent in others.into_iter().filter(|&lent| lent != length) {
            let mut memory = Memory::with_evs(64, lent);
            memory.ev_times.fill(7);
            let before = memory.clone();
            let answer = State::set_up(&e().with_evs(evs), &mut memory.lend());
            assert_eq!(answer, (2, State::default()), "{lent} times of {evs} EVs");
            assert_eq!(memory, before);
        }
    }
}

#[test]
fn number_1_comes_before_the_2_of_lengths() {
    for evs in ODD {
        for lent in [0, 255, 256, 512] {
            let mut memory = Memory::with_evs(63, lent);
            let (answer, _) = State::set_up(&e().with_evs(evs), &mut memory.lend());
            assert_eq!(answer, 1, "{lent} times of {evs} EVs");
        }
    }
}

#[test]
fn a_refused_setting_up_has_no_evs() {
    assert_eq!(State::default().settings.ev_count, 0);
}

/// The last EV is that of the chosen number: its time is written, and no other.
#[test]
fn number_23_starts_at_the_number() {
    for evs in ALLOWED {
        let last = evs as u16 - 1;
        for ev in [0, 255, last] {
            let events: [model::Event; 3] =
                [ack_of(ev).into(), nack_of(ev).into(), loss_of(ev).into()];
            for event in events {
                let mut expected = vec![0; evs as usize];
                expected[usize::from(ev)] = NOW + 96;
                assert_eq!(rig(evs).after(event).memory.ev_times, expected);
            }
        }
        for ev in [evs as u16, evs as u16 + 1, 4_096, 8_192, u16::MAX] {
            rig(evs).refuse(23, ack_of(ev));
            rig(evs).refuse(23, nack_of(ev));
            rig(evs).refuse(23, loss_of(ev));
        }
    }
}

#[test]
fn an_ev_of_256_is_one_of_512() {
    rig(256).refuse(23, loss_of(256));
    let after = rig(512).after(loss_of(256));
    assert_eq!(after.memory.ev_times[256], NOW + 96);
}

/// 23 keeps its place: after 21 and 22, before 24, 9 and 10.
#[test]
fn the_order_of_23() {
    for evs in ALLOWED {
        let ev = evs as u16;
        let ack = Ack {
            trigger: 6,
            ..ack_of(ev)
        };
        rig(evs).refuse(23, ack);
        rig(evs).refuse(24, Ack { ev: ev - 1, ..ack });
        let count = 1 << 24;
        rig(evs).refuse(21, Ack { count, ..ack });
        let unsent = Nack {
            psn: 8,
            ..nack_of(ev)
        };
        rig(evs).refuse(23, unsent);
        rig(evs).refuse(
            10,
            Nack {
                ev: ev - 1,
                ..unsent
            },
        );
        rig(evs).refuse(
            22,
            Nack {
                reason: 3,
                ..unsent
            },
        );
    }
}

fn every_event() -> [model::Event; 5] {
    [
        new_data(NOW, 1),
        ack_of(0).into(),
        nack_of(0).into(),
        loss_of(0).into(),
        path(NOW),
    ]
}

#[track_caller]
fn spoilt(evs: u32, change: impl Fn(&mut Rig)) {
    let mut rig = rig(evs);
    change(&mut rig);
    assert!(!rig.holds());
    for event in every_event() {
        rig.refuse(2, event);
    }
}

#[test]
fn number_2_by_the_number() {
    for evs in ALLOWED {
        let length = evs as usize;
        for event in every_event() {
            rig(evs).accept(event);
        }
        let mut last = rig(evs);
        last.state.cursor = u64::from(evs) - 1;
        last.memory.ev_times[length - 1] = (1 << 49) - 1;
        assert!(last.holds());
        spoilt(evs, |rig| rig.state.cursor = evs.into());
        spoilt(evs, |rig| rig.state.cursor = u64::MAX);
        spoilt(evs, |rig| rig.memory.ev_times[length - 1] = 1 << 49);
        for other in [0, 1, length - 1, length + 1, length / 2, 2 * length] {
            spoilt(evs, |rig| rig.memory.ev_times.resize(other, 0));
        }
        for other in ALLOWED.into_iter().filter(|&other| other != evs) {
            spoilt(evs, |rig| rig.state.settings.ev_count = other);
        }
    }
}

/// A number that is not allowed is 2 in a state, also where as many times are lent.
#[test]
fn number_2_of_a_number_that_is_not_allowed() {
    for odd in ODD {
        let lent = odd.min(10_000) as usize;
        spoilt(256, |rig| rig.state.settings.ev_count = odd);
        spoilt(256, |rig| {
            rig.state.settings.ev_count = odd;
            rig.memory.ev_times.resize(lent, 0);
        });
    }
}

#[test]
fn a_state_whose_number_and_times_both_change_is_good() {
    for evs in ALLOWED {
        let mut rig = rig(512);
        rig.state.settings.ev_count = evs;
        rig.memory.ev_times.resize(evs as usize, 0);
        assert!(rig.holds());
    }
}

/// Every EV in turn, and after the last the first.
#[test]
fn the_cursor_wraps_at_the_number() {
    for evs in ALLOWED {
        let mut rig = Rig::new(e().with_evs(evs));
        for ev in (0..evs).chain([0, 1]) {
            assert_eq!(rig.state.cursor, ev.into());
            let outcome = rig.take(path(9));
            assert_eq!((outcome.number, outcome.ev), (0, Some(ev as u16)));
        }
        assert_eq!(rig.state.cursor, 2);
    }
}

#[test]
fn the_search_goes_around_the_end() {
    for evs in ALLOWED {
        let last = evs as usize - 1;
        let mut rig = rig(evs);
        rig.state.cursor = last as u64;
        for ev in [last, 0, 1] {
            rig.memory.ev_times[ev] = NOW + 1;
        }
        let after = rig.after(path(NOW));
        assert_eq!((rig.accept(path(NOW)).ev, after.state.cursor), (Some(2), 3));
        rig.state.cursor = 1;
        assert_eq!(rig.accept(path(NOW)).ev, Some(2));
        // To the last one, and the cursor is 0 behind it.
        rig.memory.ev_times[last] = NOW;
        rig.memory.ev_times[last - 1] = NOW + 1;
        rig.state.cursor = last as u64 - 1;
        assert_eq!(rig.accept(path(NOW)).ev, Some(last as u16));
        assert_eq!(rig.state.cursor, 0);
    }
}

/// P10 for each number: half of the EVs avoided are skipped; one more, and the cursor is taken.
#[test]
fn half_avoided() {
    for evs in ALLOWED {
        let half = evs as usize / 2;
        let mut rig = rig(evs);
        rig.memory.ev_times[..half].fill(NOW + 1);
        assert_eq!(rig.clone().accept(path(NOW)).ev, Some(half as u16));
        rig.memory.ev_times[evs as usize - 1] = NOW + 1;
        assert_eq!(rig.clone().accept(path(NOW)).ev, Some(0));
        rig.memory.ev_times.fill(NOW + 1);
        rig.state.cursor = u64::from(evs) - 1;
        let after = rig.after(path(NOW));
        assert_eq!(rig.accept(path(NOW)).ev, Some(evs as u16 - 1));
        assert_eq!(after.state.cursor, 0);
    }
}

/// 129 are over half of 256 and far from half of 512.
#[test]
fn half_is_of_the_chosen_number() {
    let evs = [256, 512, 4_096].map(|evs| {
        let mut rig = rig(evs);
        rig.memory.ev_times[..129].fill(NOW + 1);
        rig.accept(path(NOW)).ev
    });
    assert_eq!(evs, [Some(0), Some(129), Some(129)]);
}

/// By going around from the cursor one by one.
fn naive_path(times: &[u64], cursor: usize, now: u64) -> usize {
    let around = (0..times.len()).map(|i| (cursor + i) % times.len());
    let free: Vec<usize> = around.filter(|&ev| times[ev] <= now).collect();
    if free.len() * 2 < times.len() {
        cursor
    } else {
        free[0]
    }
}

#[test]
fn any_times() {
    let mut rng = Rng::new(3);
    let (mut skipped, mut taken) = (0, 0);
    for _ in 0..4_000 {
        let evs = rng.pick(&ALLOWED);
        let length = u64::from(evs);
        let mut rig = rig(evs);
        let avoided = rng.pick(&[1, length / 2 - 1, length / 2, length / 2 + 1, length]);
        let (turn, many) = (rng.below(length), rng.pick(&[1, 77]));
        for i in 0..avoided {
            let ev = (i * many + turn) % length;
            rig.memory.ev_times[ev as usize] = NOW + 1 + rng.below(9);
        }
        let near = [turn, turn + length - 1, turn + length / 2];
        rig.state.cursor = rng.pick(&near) % length;
        let cursor = rig.state.cursor as usize;
        let expected = naive_path(&rig.memory.ev_times, cursor, NOW);
        assert_eq!(rig.accept(path(NOW)).ev, Some(expected as u16));
        assert_eq!(rig.state.cursor, (expected as u64 + 1) % length);
        let free = rig.memory.ev_times[cursor] <= NOW;
        skipped += u32::from(expected != cursor);
        taken += u32::from(expected == cursor && !free);
    }
    assert!(skipped > 400 && taken > 400, "{skipped} {taken}");
}
