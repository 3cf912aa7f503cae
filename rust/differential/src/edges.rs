//! Calls with fields at and beyond their edges, as wide as the C functions take them.

use crate::call::Call;
use crate::numbers::{edge, least_base};
use crate::source::{Source, View};
use model::bounds::{BACKLOG_MAX, COUNT_END, IN_FLIGHT_MIN, PSN_REACH, TIME_END, UNIT};
use model::ring::size_of;
use nscc::{Ack, Nack};

impl Source {
    pub(crate) fn edge_call(&mut self, view: &View) -> Call {
        let (time, flow) = (self.edge_time(view), view.at);
        match self.rng.below(12) {
            0 => Call::NewData {
                time,
                flow,
                bytes: self.edge_bytes(view),
            },
            1..=3 => self.edge_send(view, time),
            4..=6 => Call::Ack(self.edge_ack(view, time)),
            7 => Call::Ack(self.spoilt_ack(view, time)),
            8 | 9 => Call::Nack(Nack {
                time,
                flow,
                psn: self.edge_psn(view),
                ev: self.edge_ev(view),
                reason: self.rng.pick(&[0, 1, 2, 2, 3, 256, 1 << 16, u32::MAX]),
                marked: self.rng.one_in(2),
                retx: self.rng.one_in(2),
            }),
            10 => Call::Loss {
                time,
                flow,
                psn: self.edge_psn(view),
                ev: self.edge_ev(view),
            },
            _ => Call::Path { time, flow },
        }
    }

    /// Now and then the call is for another flow than the one that its fields were chosen by.
    pub(crate) fn astray(&mut self, view: &View, call: Call) -> Call {
        if self.rng.one_in(8) {
            call.for_flow(self.edge_flow(view))
        } else {
            call
        }
    }

    /// Another flow, one past the table or far past it; also such that a narrower number would take
    /// for one of the table.
    fn edge_flow(&mut self, view: &View) -> usize {
        let (flows, at) = (view.flows as u64, view.at as u64);
        let wider = 1 << self.rng.pick(&[8, 16, 32, 48, 63]);
        let far = self.rng.pick(&[8, 9, 255, 256, 1 << 32, u64::MAX]);
        let any = edge(&mut self.rng);
        let other = self.rng.below(flows);
        let choices = [other, flows, flows, flows + 1, far, at + wider, any];
        self.rng.pick(&choices) as usize
    }

    pub(crate) fn edge_time(&mut self, view: &View) -> u64 {
        let clock = view.state.clock;
        let any = edge(&mut self.rng);
        match self.rng.below(24) {
            0 => clock.wrapping_sub(1),
            1 => TIME_END,
            2 => self
                .rng
                .pick(&[0, u64::MAX, clock + (1 << 32), any | TIME_END]),
            3 => (clock + self.rng.pick(&[1 << 20, (1 << 20) + 1])).min(TIME_END - 1),
            4 if self.rng.one_in(50) => TIME_END - 1,
            _ => (clock + self.rng.below(50)).min(TIME_END - 1),
        }
    }

    fn edge_bytes(&mut self, view: &View) -> u64 {
        let left = BACKLOG_MAX - view.flow.backlog;
        let any = edge(&mut self.rng);
        let rare = self.rng.one_in(8);
        // Around what a record's field holds: beyond it a call is no longer a log of one record.
        let field = self.rng.pick(&[(1 << 32) - 1, 1 << 32, (1 << 32) + 1]);
        let most = if rare { left } else { 1 << 20 };
        let bytes = [0, 1, 41, left + 1, any, most, field];
        self.rng.pick(&bytes)
    }

    pub(crate) fn edge_psn(&mut self, view: &View) -> u32 {
        let (low, next) = (view.flow.low, view.flow.next);
        let inside = low.wrapping_add(self.rng.below(u64::from(view.span()) + 1) as u32);
        self.rng.pick(&[
            low.wrapping_sub(1),
            low,
            next.wrapping_sub(1),
            next,
            next.wrapping_add(1),
            low.wrapping_add(view.capacity() as u32),
            low.wrapping_sub(view.capacity() as u32),
            next.wrapping_sub(1 + PSN_REACH),
            next.wrapping_sub(2 + PSN_REACH),
            next ^ 1 << 31,
            inside,
            inside,
            inside,
        ])
    }

    fn edge_ev(&mut self, view: &View) -> u32 {
        let evs = view.evs();
        let any = self.ev(view);
        let wide = self
            .rng
            .pick(&[(1 << 16) - 1, 1 << 16, evs << 16, u32::MAX]);
        let edges = [0, 255, 256, evs - 1, evs - 1, evs, evs + 1, wide];
        let edge = self.rng.pick(&edges);
        self.rng.pick(&[edge, any])
    }

    pub(crate) fn edge_send(&mut self, view: &View, time: u64) -> Call {
        let mtu = view.state.settings.mtu as u32;
        let any = self.rng.between(41, u64::from(mtu)) as u32;
        let over_backlog = (view.flow.backlog as u32).saturating_add(1).min(mtu);
        let psn = self.edge_psn(view);
        let next = view.flow.next;
        let psn = self.rng.pick(&[psn, psn, next, next]);
        let number = view.memory.sizes[view.slot(psn)];
        let held = size_of(number);
        let sizes = [
            0,
            40,
            41,
            mtu,
            mtu + 1,
            any,
            over_backlog,
            held,
            held,
            held + 1,
            number,
            held + (1 << 16),
            u32::MAX,
        ];
        Call::Send {
            time,
            flow: view.at,
            psn,
            bytes: self.rng.pick(&sizes),
            resend: self.rng.one_in(2),
        }
    }

    fn edge_ack(&mut self, view: &View, time: u64) -> Ack {
        // From below low the map still reaches into the ledger.
        let below = view.flow.low.wrapping_sub(self.rng.below(70) as u32);
        let edge = self.edge_psn(view);
        let cum = self.rng.pick(&[edge, edge, below]);
        let map = self.edge_map(view.flow.next.wrapping_sub(1).wrapping_sub(cum));
        let any = self.edge_psn(view);
        let trigger = self.rng.pick(&[
            cum,
            cum,
            cum.wrapping_add(1),
            cum.wrapping_add(1 + map.trailing_zeros()),
            cum.wrapping_sub(PSN_REACH),
            cum.wrapping_sub(PSN_REACH + 1),
            any,
        ]);
        Ack {
            time,
            flow: view.at,
            cum,
            map,
            trigger,
            count: self.edge_count(view),
            service: self.edge_service(view, time, trigger),
            ev: self.edge_ev(view),
            marked: self.rng.one_in(2),
            retx: self.rng.one_in(2),
        }
    }

    /// A good ACK but for one field.
    fn spoilt_ack(&mut self, view: &View, time: u64) -> Ack {
        let good = self.ack(view, view.state.clock);
        let strange = self.edge_ack(view, time);
        match self.rng.below(6) {
            0 => Ack { time, ..good },
            1 => Ack {
                map: strange.map,
                ..good
            },
            2 => Ack {
                trigger: strange.trigger,
                ..good
            },
            3 => Ack {
                ev: strange.ev,
                ..good
            },
            4 => Ack {
                service: strange.service,
                ..good
            },
            _ => Ack {
                count: strange.count,
                ..good
            },
        }
    }

    fn edge_map(&mut self, back: u32) -> u64 {
        let thin = self.rng.next_u64() & self.rng.next_u64();
        let sent = if back < 64 { (1 << back) - 1 } else { u64::MAX };
        let furthest = sent ^ (sent >> 1);
        let beyond = 1u64.checked_shl(back).unwrap_or(0);
        let maps = [0, 1, sent, thin & sent, thin & sent, furthest, beyond, thin];
        self.rng.pick(&maps)
    }

    /// In-flight falls to its bound or under it, or the count is at the edge of being old.
    fn edge_count(&mut self, view: &View) -> u32 {
        let to_bound = (view.state.in_flight - IN_FLIGHT_MIN) as u64 / UNIT;
        let step = self.rng.below(64);
        // From the bound it takes a stream long to come back.
        let deep = if self.rng.one_in(16) { to_bound } else { step };
        let end = u64::from(COUNT_END);
        let half = end / 2;
        let old = self.rng.pick(&[end - 1, half - 1, half, half + 1]);
        let ahead = self.rng.pick(&[0, 1, step, step, old, deep, to_bound + 1]);
        match self.rng.below(8) {
            0 => self
                .rng
                .pick(&[COUNT_END - 1, COUNT_END, 1 << 25, u32::MAX]),
            _ => ((u64::from(view.flow.held) + ahead) % end) as u32,
        }
    }

    /// So that the sample is -1, 0 or 1, the least base that leaves cwnd as it is or one less, or
    /// anything.
    fn edge_service(&mut self, view: &View, time: u64, trigger: u32) -> u32 {
        let sent = view.memory.sent[view.slot(trigger)];
        let trip: u32 = time.saturating_sub(sent).try_into().unwrap_or(u32::MAX);
        let least = least_base(&view.state) as u32;
        let [short, leaves, clamps] =
            [1, least, least - 1].map(|sample| trip.saturating_sub(sample));
        let long = trip.saturating_add(1);
        let services = [0, 0, short, trip, long, leaves, clamps, 50, u32::MAX];
        self.rng.pick(&services)
    }
}
