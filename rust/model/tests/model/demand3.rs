//! Demand 3: a burst of ACKs leaves the ledger that its newest alone leaves, in whatever order and
//! with whatever losses and doublings the others arrive. The burst is of one flow; the ledger is that
//! of all of them.

use crate::rig::*;
use model::{Ack, Rng};

/// A ring somewhere, often across the wrap, with packets of every status, among other flows.
struct Start {
    rig: Rig,
    /// The flow of the burst.
    flow: usize,
    /// PSN of low, not wrapped.
    low: i64,
    packets: i64,
}

fn start(rng: &mut Rng) -> Start {
    let packets = rng.between(0, 64) as i64;
    let low = rng.pick(&[
        1 << 32,
        (1 << 32) + 7,
        (2 << 32) - 30,
        (1 << 32) + (1 << 31),
    ]);
    let mut slots: Vec<Slot> = (0..packets)
        .map(|_| {
            let status = rng.pick(&[FLYING, FLYING, MARKED, DONE]);
            (
                status,
                rng.between(41, 4_096) as u32,
                rng.below(10_000),
                rng.below(3) as u8,
            )
        })
        .collect();
    if let Some(first) = slots.first_mut() {
        first.0 = rng.pick(&[FLYING, MARKED]);
    }
    let flows = rng.pick(&[1, 2, 8]);
    let flow = rng.below(flows) as usize;
    let mut rig = Rig::e_with_flows(flows as usize);
    for other in (0..flows as usize).filter(|&other| other != flow) {
        // The same PSNs as those of the burst.
        let slots = [(FLYING, 100, 9_000, 0), (MARKED, 100, 9_000, 1)];
        rig = rig.lay_in(other, low as u32, &slots[..rng.below(3) as usize]);
        rig.memory.flows[other].held = rng.below(1 << 24) as u32;
    }
    let record = &mut rig.memory.flows[flow];
    record.held = rng.pick(&[0, 1, 5_000, (1 << 23) - 1, 1 << 23, (1 << 24) - 1]);
    rig.state.in_flight = rng.between(0, 600_000) as i64 - 10_000;
    rig.memory.flows[flow].backlog = rng.below(2) * 1_000;
    rig.state.qa_end = rng.below(20_000);
    rig.state.avg = rng.below(200 * 1_024);
    let rig = rig.lay_in(flow, low as u32, &slots);
    Start {
        rig,
        flow,
        low,
        packets,
    }
}

/// An ACK with its cum as a number that does not wrap.
#[derive(Clone, Copy)]
struct Wide {
    cum: i64,
    ack: Ack,
}

impl Wide {
    fn covers(&self, psn: i64) -> bool {
        let bit = psn - self.cum - 1;
        psn <= self.cum || (bit < 64 && self.ack.map >> bit & 1 == 1)
    }
}

/// An ACK around the ledger, mostly of sent packets, with this count.
fn any_ack(rng: &mut Rng, start: &Start, count: i64) -> Wide {
    let last = start.low + start.packets - 1;
    let cum = start.low - 4 + rng.below(start.packets as u64 + 4) as i64;
    let back = (last - cum).max(0) as u64;
    let mut map = rng.next_u64() & rng.next_u64();
    if back < 64 && !rng.one_in(20) {
        map &= (1 << back) - 1;
    }
    let trigger = cum - rng.below(3) as i64;
    let ack = Ack {
        time: 0,
        flow: start.flow as u64,
        cum: cum as u32,
        map,
        trigger: trigger as u32,
        count: count.rem_euclid(1 << 24) as u32,
        service: rng.below(50) as u32,
        ev: rng.below(256) as u16,
        marked: rng.one_in(2),
        retx: rng.one_in(2),
    };
    Wide { cum, ack }
}

/// The newest and the others, as demand 3 wants them.
fn burst(rng: &mut Rng, start: &Start) -> Option<(Wide, Vec<Wide>)> {
    let held = i64::from(start.rig.memory.flows[start.flow].held);
    let count = held + rng.pick(&[0, 1, 30, 2_000]);
    let newest = any_ack(rng, start, count);
    let mut alone = start.rig.clone();
    let accepted = alone
        .take(Ack {
            time: 10_000,
            ..newest.ack
        })
        .number
        == 0;
    if !accepted {
        return None;
    }
    let outstanding = start.low..start.low + start.packets;
    let others = (0..rng.below(6))
        .map(|_| {
            let behind = rng.pick(&[0, 1, 2, 29, 31, 1_000, (1 << 23) - 1]);
            let other = any_ack(rng, start, count - behind);
            within(rng, other, &newest)
        })
        .filter(|other| {
            outstanding
                .clone()
                .all(|psn| newest.covers(psn) || !other.covers(psn))
        })
        .collect();
    Some((newest, others))
}

/// The ACK, mostly without what the newest does not cover.
fn within(rng: &mut Rng, mut other: Wide, newest: &Wide) -> Wide {
    if rng.one_in(4) {
        return other;
    }
    other.cum = other.cum.min(newest.cum);
    other.ack.cum = other.cum as u32;
    other.ack.trigger = other.ack.cum;
    for bit in 0..64 {
        if !newest.covers(other.cum + 1 + bit) {
            other.ack.map &= !(1 << bit);
        }
    }
    other
}

/// The others, each none to two times, and the newest among them at least once.
fn deliveries(rng: &mut Rng, newest: Wide, others: &[Wide]) -> Vec<(bool, Wide)> {
    let mut all = vec![(true, newest)];
    if rng.one_in(3) {
        all.push((true, newest));
    }
    for &other in others {
        for _ in 0..rng.below(3) {
            all.push((false, other));
        }
    }
    for i in (1..all.len()).rev() {
        all.swap(i, rng.below(i as u64 + 1) as usize);
    }
    all
}

/// The ledger of 01: the ring, low, next, the totals, backlog, in-flight and the held count.
fn ledger(rig: &Rig) -> impl PartialEq + std::fmt::Debug {
    let state = &rig.state;
    let memory = &rig.memory;
    (
        memory.flows.clone(),
        (memory.outstanding.clone(), memory.marked.clone()),
        (memory.sizes.clone(), memory.sent.clone()),
        (state.flying, state.marked, state.marked_bytes),
        (state.backlog, state.in_flight),
    )
}

/// Passed by low, or done in the ring.
fn delivered(rig: &Rig, start: &Start, psn: i64) -> bool {
    let passed = rig.memory.flows[start.flow]
        .low
        .wrapping_sub(start.low as u32);
    psn - start.low < i64::from(passed) || rig.status_in(start.flow, psn as u32) == DONE
}

#[test]
fn bursts_leave_what_the_newest_alone_leaves() {
    let mut rng = Rng::new(33);
    let (mut bursts, mut with_others, mut before_newest) = (0, 0, 0);
    while bursts < 20_000 {
        let start = start(&mut rng);
        let Some((newest, others)) = burst(&mut rng, &start) else {
            continue;
        };
        bursts += 1;
        let mut alone = start.rig.clone();
        alone.accept(Ack {
            time: 10_000,
            ..newest.ack
        });

        let mut rig = start.rig.clone();
        let mut time = 10_000;
        let mut taken: Vec<Wide> = Vec::new();
        let mut newest_came = false;
        for (is_newest, wide) in deliveries(&mut rng, newest, &others) {
            time += rng.pick(&[0, 0, 1, 60, 200]);
            let number = rig.take(Ack { time, ..wide.ack }).number;
            assert!(
                number == 0 || !is_newest,
                "the newest was refused: {number}"
            );
            if number == 0 {
                taken.push(wide);
            }
            newest_came |= is_newest;
            with_others += u32::from(number == 0 && !is_newest);
            if newest_came {
                continue;
            }
            before_newest += 1;
            for psn in start.low..start.low + start.packets {
                let at_start = start.rig.status_in(start.flow, psn as u32) == DONE;
                let covered = taken.iter().any(|wide| wide.covers(psn));
                assert_eq!(delivered(&rig, &start, psn), at_start || covered);
            }
        }
        assert_eq!(ledger(&rig), ledger(&alone));
    }
    assert!(with_others > 5_000 && before_newest > 5_000);
}
