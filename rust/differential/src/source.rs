//! Calls that mean something to the present state.

use crate::call::Call;
use crate::numbers::{beside, least_base};
use crate::profile::Profile;
use crate::sides::Model;
use crate::turns::choice;
use model::bounds::{COUNT_END, SIZE_MIN, TIME_END, UNIT};
use model::ring::{bit, resends_of, size_of, WORD};
use model::{Flow, Memory, Name, Rng, State, Status};
use nscc::{Ack, Nack, FLOW_WORDS};

/// A sound state, one of its flows and that flow's ring, to choose fields by.
pub struct View<'a> {
    pub state: State,
    /// How many flows there are, and which of them this is.
    pub flows: usize,
    pub at: usize,
    pub flow: Flow,
    pub memory: &'a Memory,
}

impl View<'_> {
    /// `None` for a flow that there is not.
    pub fn of(model: &Model, at: usize) -> Option<View<'_>> {
        let flows = model.flows().unwrap_or_default();
        Some(View {
            state: model.state().unwrap_or_default(),
            flows: flows.len(),
            at,
            flow: *flows.get(at)?,
            memory: &model.memory,
        })
    }

    /// Slots of the flow's ring.
    pub fn capacity(&self) -> usize {
        self.memory.sizes.len() / self.flows
    }

    /// How many PSNs low..next-1 has.
    pub fn span(&self) -> u32 {
        self.flow.span()
    }

    pub fn evs(&self) -> u32 {
        self.state.settings.ev_count
    }

    /// The slot of the ring buffer where a PSN of the flow lives.
    pub fn slot(&self, psn: u32) -> usize {
        self.at * self.capacity() + psn as usize % self.capacity()
    }

    /// The status of a PSN of low..next-1.
    fn status(&self, psn: u32) -> Status {
        let slot = self.slot(psn);
        let Memory {
            outstanding,
            marked,
            ..
        } = self.memory;
        Status::of(bit(outstanding, slot), bit(marked, slot))
    }

    /// The size that the ring has of a PSN.
    pub fn size(&self, psn: u32) -> u32 {
        size_of(self.memory.sizes[self.slot(psn)])
    }

    fn resends(&self, psn: u32) -> u32 {
        resends_of(self.memory.sizes[self.slot(psn)])
    }

    /// Bytes of the flying packets that an ACK does not cover.
    fn flying_behind(&self, cum: u32, map: u64) -> i64 {
        let from = cum.wrapping_add(1);
        let many = self.flow.next.wrapping_sub(from).min(self.span());
        let after = (0..many).map(|i| self.flow.next.wrapping_sub(many - i));
        let flying = after.filter(|&psn| {
            let bit = psn.wrapping_sub(from);
            let covered = bit < u64::BITS && map >> bit & 1 == 1;
            !covered && self.status(psn) == Status::Flying
        });
        flying.map(|psn| i64::from(self.size(psn))).sum()
    }

    /// Bytes of the flying packets of all other flows.
    fn flying_elsewhere(&self) -> i64 {
        let own = self.slot(0)..self.slot(0) + self.capacity();
        let marks = self.memory.outstanding.iter().zip(&self.memory.marked);
        let mut bytes = 0;
        for (word, (outstanding, marked)) in marks.enumerate() {
            let mut flying = outstanding & !marked;
            // A ring has whole words of bits.
            if own.contains(&(word * WORD)) {
                flying = 0;
            }
            while flying != 0 {
                let slot = word * WORD + flying.trailing_zeros() as usize;
                bytes += i64::from(size_of(self.memory.sizes[slot]));
                flying &= flying - 1;
            }
        }
        bytes
    }

    /// A packet of one of these statuses, from a random one on.
    fn packet(&self, rng: &mut Rng, statuses: &[Status]) -> Option<u32> {
        let many = self.span();
        let from = rng.below(many.into()) as u32;
        (0..many)
            .map(|i| self.flow.low.wrapping_add((from + i) % many))
            .find(|&psn| statuses.contains(&self.status(psn)))
    }
}

/// Makes the calls of a profile.
pub struct Source {
    pub rng: Rng,
    pub profile: Profile,
    /// The flow of the last call, and that one call in so many turns to any other.
    at: u64,
    turns: u64,
}

impl Source {
    /// Calls of the flows by turns, or mostly of one, whose ring is full before the others'.
    pub fn new(mut rng: Rng, profile: Profile) -> Source {
        let turns: &[u64] = match profile.small {
            true => &[40, 1_000],
            false => &[1, 4, 40, 1_000],
        };
        Source {
            at: rng.next_u64(),
            turns: rng.pick(turns),
            rng,
            profile,
        }
    }

    /// The next call; the model must be sound.
    pub fn next(&mut self, model: &Model) -> Call {
        let state = model.state().unwrap_or_default();
        let flows = model.table.len() / FLOW_WORDS;
        let at = self.turn(&state, flows);
        let Some(view) = View::of(model, at) else {
            return Call::Path { time: 0, flow: at };
        };
        if self.one_call_in(self.profile.choices) {
            choice(&mut self.rng)
        } else if self.one_call_in(self.profile.plans) {
            self.plan(model, &view)
        } else if self.one_call_in(self.profile.reads) {
            let call = self.reading(&view);
            self.astray(&view, call)
        } else if self.one_call_in(self.profile.edges) {
            let call = self.edge_call(&view);
            self.astray(&view, call)
        } else {
            self.good_call(&view)
        }
    }

    /// 0 is none.
    fn one_call_in(&mut self, many: u64) -> bool {
        many > 0 && self.rng.one_in(many)
    }

    /// The flow that the next call is for, of so many. What closes the window may fly on another one.
    fn turn(&mut self, state: &State, flows: usize) -> usize {
        let closed = state.name == Name::Active && self.rng.one_in(8);
        if closed || self.rng.one_in(self.turns) {
            self.at = self.rng.next_u64();
        }
        self.at.checked_rem(flows as u64).unwrap_or(0) as usize
    }

    fn good_call(&mut self, view: &View) -> Call {
        let (time, flow) = (self.time(view), view.at);
        match self.kind() {
            0 => self.new_data(view, time),
            1 => self.new_packet(view, time),
            2 => self.resend(view, time),
            3 => Call::Ack(self.ack(view, time)),
            4 => self.nack(view, time),
            5 => self.loss(view, time),
            _ => Call::Path { time, flow },
        }
    }

    /// What the ring shows of a packet, or of a PSN at or beyond its edges.
    fn reading(&mut self, view: &View) -> Call {
        let edge = self.edge_psn(view);
        let inside = self.rng.below(view.span().into()) as u32;
        let inside = view.flow.low.wrapping_add(inside);
        let psn = self.rng.pick(&[edge, inside, inside]);
        let flow = view.at;
        if self.rng.one_in(2) {
            Call::Status { flow, psn }
        } else {
            Call::NextMarked { flow, psn }
        }
    }

    fn kind(&mut self) -> usize {
        let weights = self.profile.weights;
        let mut rest = self.rng.below(weights.iter().sum());
        for (kind, weight) in weights.into_iter().enumerate() {
            if rest < weight {
                return kind;
            }
            rest -= weight;
        }
        0
    }

    /// Now, or a little later. Streams that run late start near the end of time.
    pub(crate) fn time(&mut self, view: &View) -> u64 {
        let clock = view.state.clock;
        if self.profile.late && clock == 0 {
            return TIME_END - 1 - self.rng.below(1 << 14);
        }
        let base = view.state.base;
        let step = self.rng.below(base / 8 + 2);
        let pause = self.rng.between(base, 4 * base);
        let later = match self.rng.below(40) {
            0 => pause,
            1..=20 => 0,
            _ => step,
        };
        (clock + later).min(TIME_END - 1)
    }

    /// Enough for a few packets.
    fn new_data(&mut self, view: &View, time: u64) -> Call {
        let mtu = view.state.settings.mtu;
        let most = self.rng.pick(&[100, mtu, 4 * mtu, 32 * mtu]);
        Call::NewData {
            time,
            flow: view.at,
            bytes: self.rng.between(1, most),
        }
    }

    /// A new packet; new data where the backlog has none.
    pub(crate) fn new_packet(&mut self, view: &View, time: u64) -> Call {
        let least = u64::from(SIZE_MIN);
        let most = view.flow.backlog.min(view.state.settings.mtu);
        if most < least {
            return self.new_data(view, time);
        }
        let any = self.rng.between(least, most);
        // Over the backlog, where it is short.
        let over = (most + 1).min(view.state.settings.mtu);
        let size = match self.rng.below(32) {
            0 if self.profile.edges > 0 => over,
            _ if self.profile.small => least,
            _ => self.rng.pick(&[most, most, any, least]),
        };
        Call::Send {
            time,
            flow: view.at,
            psn: view.flow.next,
            bytes: size as u32,
            resend: false,
        }
    }

    pub(crate) fn resend(&mut self, view: &View, time: u64) -> Call {
        let Some(psn) = view.packet(&mut self.rng, &[Status::Marked]) else {
            return self.new_packet(view, time);
        };
        Call::Send {
            time,
            flow: view.at,
            psn,
            bytes: view.size(psn),
            resend: true,
        }
    }

    fn nack(&mut self, view: &View, time: u64) -> Call {
        let Some(psn) = view.packet(&mut self.rng, &[Status::Flying]) else {
            return self.new_packet(view, time);
        };
        // Seldom sooner than a round trip: the base never rises again, and the window needs it.
        let soon = self.rng.one_in(8);
        let due = view.memory.sent[view.slot(psn)] + if soon { 0 } else { self.trip(view) };
        Call::Nack(Nack {
            time: time.max(due).min(TIME_END - 1),
            flow: view.at,
            psn,
            ev: self.ev(view),
            reason: self.rng.below(3) as u32,
            marked: self.rng.below(8) < self.profile.marked,
            retx: (view.resends(psn) == 1) != self.rng.one_in(8),
        })
    }

    fn loss(&mut self, view: &View, time: u64) -> Call {
        let Some(psn) = view.packet(&mut self.rng, &[Status::Flying]) else {
            return self.new_packet(view, time);
        };
        Call::Loss {
            time,
            flow: view.at,
            psn,
            ev: self.ev(view),
        }
    }

    pub fn ev(&mut self, view: &View) -> u32 {
        self.rng.below(view.evs().into()) as u32
    }

    /// An ACK whose delay lies at one of the places where the rules change: the time is late enough
    /// for it, and the service takes up the rest.
    pub fn ack(&mut self, view: &View, time: u64) -> Ack {
        let trigger = view.packet(&mut self.rng, &[Status::Flying, Status::Marked]);
        let trigger = trigger.unwrap_or(view.flow.low.wrapping_sub(1));
        let trip = self.trip(view);
        let due = view.memory.sent[view.slot(trigger)] + trip;
        let time = time.max(due).min(TIME_END - 1);
        let (cum, map) = self.cover(view, trigger);
        Ack {
            time,
            flow: view.at,
            cum,
            map,
            trigger,
            count: self.count(view, cum, map),
            service: time.saturating_sub(due).try_into().unwrap_or(0),
            ev: self.ev(view),
            marked: self.rng.below(8) < self.profile.marked,
            retx: (view.resends(trigger) == 1) != self.rng.one_in(16),
        }
    }

    /// A round trip.
    fn trip(&mut self, view: &View) -> u64 {
        let base = view.state.base;
        let settings = &view.state.settings;
        if self.rng.one_in(64) {
            return self.shorter(view);
        }
        let target = settings.target_qdelay;
        let below = self.rng.below(target);
        let near = self.rng.pick(&[0, 0, base / 8]);
        let edge = self.rng.pick(&[target, 5 * base, settings.qa_threshold]);
        let slow = self.rng.between(target, 6 * target);
        let edge = beside(&mut self.rng, edge);
        base + match self.rng.below(8) {
            0..=3 => near,
            4 => beside(&mut self.rng, base / 8),
            5 => below,
            6 => edge,
            _ => slow,
        }
    }

    /// A round trip that lowers the base: mostly by little, by a tick or to where max_wnd meets cwnd.
    fn shorter(&mut self, view: &View) -> u64 {
        let base = view.state.base;
        let meets = beside(&mut self.rng, least_base(&view.state));
        match self.rng.below(8) {
            0 => self.rng.between(base / 2, base),
            1..=3 => meets.max(base - base / 8),
            _ => base - 1,
        }
    }

    /// A cum and a map that cover the trigger and name sent packets only.
    fn cover(&mut self, view: &View, trigger: u32) -> (u32, u64) {
        let last = view.flow.next.wrapping_sub(1);
        let ahead = last.wrapping_sub(trigger);
        let behind = trigger.wrapping_sub(view.flow.low).min(63);
        let up = self.rng.below(u64::from(ahead) + 1) as u32;
        let down = 1 + self.rng.below(u64::from(behind) + 1) as u32;
        let further = 1 + self.rng.below(64) as u32;
        let cum = match self.rng.below(8) {
            0 | 1 => trigger,
            2 => trigger.wrapping_add(up.min(8)),
            3 => trigger.wrapping_add(up),
            // Often below low.
            4 => trigger.wrapping_sub(further),
            _ => trigger.wrapping_sub(down),
        };
        let back = last.wrapping_sub(cum);
        let sent = if back < 64 { (1 << back) - 1 } else { u64::MAX };
        let thin = self.rng.next_u64() & self.rng.next_u64();
        let bit = trigger.wrapping_sub(cum).wrapping_sub(1);
        let own = 1u64.checked_shl(bit).unwrap_or(0);
        let map = self.rng.pick(&[0, thin & sent, thin & sent, sent]);
        (cum, map | own)
    }

    /// All has arrived that is in flight and does not fly after this ACK; or a part of it, or more;
    /// or the count is old.
    fn count(&mut self, view: &View, cum: u32, map: u64) -> u32 {
        let flying = view.flying_behind(cum, map) + view.flying_elsewhere();
        let units = (view.state.in_flight - flying).max(0) as u64 / UNIT;
        let more = view.state.in_flight.max(0) as u64 / UNIT;
        let behind = u64::from(COUNT_END) - self.rng.between(1, 1 << 10);
        let ahead = match self.rng.below(32) {
            0..=23 => units,
            24..=27 => self.rng.below(units + 1),
            28 => 0,
            29 => more,
            30 => self.rng.below(more + 2),
            _ => behind,
        };
        ((u64::from(view.flow.held) + ahead) % u64::from(COUNT_END)) as u32
    }
}
