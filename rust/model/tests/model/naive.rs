//! A naive ledger of one flow, which knows no wrap and no ring.

use crate::rig::*;
use model::Event;
use std::collections::BTreeMap;

/// A ledger by plain counting: PSNs and counts as numbers that never wrap.
pub struct Naive {
    first: i64,
    /// Status and size of every packet ever sent.
    packets: BTreeMap<i64, (u8, i64)>,
    sent: i64,
    lost: i64,
    units: i64,
    added: i64,
    taken: i64,
}

impl Naive {
    pub fn new(first_psn: u32) -> Naive {
        Naive {
            first: i64::from(first_psn),
            packets: BTreeMap::new(),
            sent: 0,
            lost: 0,
            units: 0,
            added: 0,
            taken: 0,
        }
    }

    fn next(&self) -> i64 {
        self.first + self.packets.len() as i64
    }

    /// The number nearest to the last PSN that wraps to `psn`.
    fn unwrap(&self, psn: u32) -> i64 {
        let around = 1 << 32;
        let near = self.next() - 1;
        let ahead = (i64::from(psn) - near).rem_euclid(around);
        near + if ahead < around / 2 {
            ahead
        } else {
            ahead - around
        }
    }

    /// Takes in an accepted event.
    pub fn take(&mut self, event: &Event) {
        match *event {
            Event::NewData(event) => self.added += event.bytes as i64,
            Event::Send(event) => {
                let psn = self.unwrap(event.psn);
                let size = i64::from(event.size);
                assert_eq!(event.resend, self.packets.contains_key(&psn));
                self.packets.insert(psn, (FLYING, size));
                self.sent += size;
                self.taken += if event.resend { 0 } else { size };
            }
            Event::Ack(event) => {
                let cum = self.unwrap(event.cum);
                let by_map = (0..64).filter(|i| event.map >> i & 1 == 1);
                let covered: Vec<i64> = by_map.map(|i| cum + 1 + i).collect();
                let last = covered.iter().copied().max().unwrap_or(cum).max(cum);
                assert!(
                    last < self.next(),
                    "an ACK of an unsent packet was accepted"
                );
                for (psn, packet) in self.packets.iter_mut().rev() {
                    // Far below, all is done for good.
                    if *psn < cum - 5_000 {
                        break;
                    }
                    if *psn <= cum || covered.contains(psn) {
                        packet.0 = DONE;
                    }
                }
                let ahead = (i64::from(event.count) - self.units).rem_euclid(1 << 24);
                if ahead < 1 << 23 {
                    self.units += ahead;
                }
            }
            Event::Nack(event) => self.lose(event.psn),
            Event::Loss(event) => self.lose(event.psn),
            Event::Path(_) => {}
        }
    }

    fn lose(&mut self, psn: u32) {
        let psn = self.unwrap(psn);
        let packet = self
            .packets
            .get_mut(&psn)
            .expect("a loss of an unsent packet");
        assert_eq!(packet.0, FLYING);
        packet.0 = MARKED;
        self.lost += packet.1;
    }

    /// What a flow has of its own.
    pub fn check(&self, rig: &Rig, flow: usize) {
        let record = &rig.memory.flows[flow];
        assert_eq!(record.backlog as i64, self.backlog());
        assert_eq!(i64::from(record.held), self.units % (1 << 24));
        assert_eq!(record.next, self.next() as u32);
        let low = self.recent().find(|(_, packet)| packet.0 != DONE);
        let low = low.map_or(self.next(), |(&psn, _)| psn);
        assert_eq!(record.low, low as u32);
        for psn in low..self.next() {
            let (status, size, _, _) = rig.slot_in(flow, psn as u32);
            assert_eq!((status, i64::from(size)), self.packets[&psn]);
        }
    }

    fn backlog(&self) -> i64 {
        self.added - self.taken
    }

    fn in_flight(&self) -> i64 {
        self.sent - 256 * self.units - self.lost
    }

    fn recent(&self) -> impl Iterator<Item = (&i64, &(u8, i64))> {
        self.packets.range(self.next() - 5_000..)
    }

    /// The sizes of the recent packets with this status.
    fn sizes(&self, status: u8) -> impl Iterator<Item = i64> + '_ {
        let with = self.recent().filter(move |(_, packet)| packet.0 == status);
        with.map(|(_, packet)| packet.1)
    }
}

/// What is held once, over all flows.
pub fn check_totals(rig: &Rig, flows: &[Naive]) {
    let state = &rig.state;
    let sum = |of: &dyn Fn(&Naive) -> i64| -> i64 { flows.iter().map(of).sum() };
    let count = |status| sum(&|flow| flow.sizes(status).count() as i64);
    assert_eq!(state.in_flight, sum(&Naive::in_flight));
    assert_eq!(state.backlog as i64, sum(&Naive::backlog));
    assert_eq!(state.flying as i64, count(FLYING));
    assert_eq!(state.marked as i64, count(MARKED));
    let bytes = sum(&|flow| flow.sizes(MARKED).sum());
    assert_eq!(state.marked_bytes as i64, bytes);
}
