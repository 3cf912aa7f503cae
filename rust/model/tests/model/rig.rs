//! A state with memory of its own, and short ways to make events.

use model::{
    Ack, Event, Flow, Loss, Memory, Nack, Name, NewData, Outcome, Path, PlanRefusal, Planned,
    Refusal, Send, Settings, State, Turn,
};

pub const EMPTY: u8 = 0;
pub const FLYING: u8 = 1;
pub const MARKED: u8 = 2;
pub const DONE: u8 = 3;

/// The settings E of 01.
pub fn e() -> Settings {
    Settings {
        mtu: 4096,
        max_wnd: 614_400,
        config_base_rtt: 96,
        target_qdelay: 72,
        fi: 4096,
        eta: 1024,
        alpha: 224,
        gamma: 819,
        max_md_jump: 512,
        adjust_period: 96,
        adjust_bytes: 32_768,
        qa_threshold: 288,
        first_psn: 0,
        quick_adapt_off: false,
        ev_count: 256,
    }
}

/// What a slot holds: status, size, time of sending, resend count.
pub type Slot = (u8, u32, u64, u8);

#[derive(Clone, Debug, PartialEq)]
pub struct Rig {
    pub state: State,
    pub memory: Memory,
}

impl Rig {
    pub fn new(settings: Settings) -> Rig {
        Rig::with_capacity(settings, 64)
    }

    pub fn with_capacity(settings: Settings, capacity: usize) -> Rig {
        Rig::with_flows(settings, 1, capacity)
    }

    /// So many flows, each with a ring of so many slots.
    pub fn with_flows(settings: Settings, flows: usize, capacity: usize) -> Rig {
        let mut memory = Memory::with_flows(flows, capacity, settings.ev_count as usize);
        let (answer, state) = State::set_up(&settings, &mut memory.lend());
        assert_eq!(answer, 0);
        Rig { state, memory }
    }

    /// Settings E at clock 10,000, with no adjustment due before 10,096.
    pub fn e() -> Rig {
        Rig::e_with_flows(1)
    }

    /// The same with so many flows, each with a ring of 64 slots.
    pub fn e_with_flows(flows: usize) -> Rig {
        let mut rig = Rig::with_flows(e(), flows, 64);
        rig.state.clock = 10_000;
        rig.state.last_adjust = 10_000;
        rig
    }

    /// Flow 0.
    pub fn flow(&self) -> &Flow {
        &self.memory.flows[0]
    }

    pub fn flow_mut(&mut self) -> &mut Flow {
        &mut self.memory.flows[0]
    }

    /// Flow 0 has this backlog, and so have all flows together. Names nothing.
    pub fn set_backlog(&mut self, bytes: u64) {
        self.flow_mut().backlog = bytes;
        self.state.backlog = bytes;
    }

    /// Puts packets into the ring of flow 0 from `low` on, then settles.
    pub fn lay(self, low: u32, slots: &[Slot]) -> Rig {
        self.lay_in(0, low, slots)
    }

    pub fn lay_in(mut self, flow: usize, low: u32, slots: &[Slot]) -> Rig {
        self.memory.flows[flow].low = low;
        self.memory.flows[flow].next = low.wrapping_add(slots.len() as u32);
        for (i, &slot) in slots.iter().enumerate() {
            self.put_in(flow, low.wrapping_add(i as u32), slot);
        }
        self.settle();
        self
    }

    /// Slots of each flow's ring.
    pub fn capacity(&self) -> usize {
        self.memory.sizes.len() / self.memory.flows.len()
    }

    /// Where a PSN of a flow lives in the buffer.
    pub fn place(&self, flow: usize, psn: u32) -> usize {
        flow * self.capacity() + psn as usize % self.capacity()
    }

    pub fn put(&mut self, psn: u32, slot: Slot) {
        self.put_in(0, psn, slot);
    }

    pub fn put_in(&mut self, flow: usize, psn: u32, (status, size, sent, resent): Slot) {
        let slot = self.place(flow, psn);
        self.mark(slot, status);
        self.memory.sizes[slot] = size + 65_536 * u32::from(resent);
        self.memory.sent[slot] = sent;
    }

    /// Sets the two bits of a slot: done and empty have neither.
    pub fn mark(&mut self, slot: usize, status: u8) {
        let memory = &mut self.memory;
        set(
            &mut memory.outstanding,
            slot,
            matches!(status, FLYING | MARKED),
        );
        set(&mut memory.marked, slot, status == MARKED);
    }

    pub fn slot(&self, psn: u32) -> Slot {
        self.slot_in(0, psn)
    }

    pub fn slot_in(&self, flow: usize, psn: u32) -> Slot {
        let slot = self.place(flow, psn);
        let number = self.memory.sizes[slot];
        (
            self.status_in(flow, psn),
            number % 65_536,
            self.memory.sent[slot],
            (number / 65_536) as u8,
        )
    }

    pub fn status(&self, psn: u32) -> u8 {
        self.status_in(0, psn)
    }

    /// What the bits show; without any, a slot of low..next-1 is done.
    pub fn status_in(&self, flow: usize, psn: u32) -> u8 {
        let slot = self.place(flow, psn);
        let Flow { low, next, .. } = self.memory.flows[flow];
        let in_ledger = psn.wrapping_sub(low) < next.wrapping_sub(low);
        let outstanding = is_set(&self.memory.outstanding, slot);
        match (outstanding, is_set(&self.memory.marked, slot)) {
            (true, false) => FLYING,
            (true, true) => MARKED,
            (false, false) if in_ledger => DONE,
            (false, false) => EMPTY,
            (false, true) => panic!("PSN {psn} is marked and not outstanding"),
        }
    }

    /// All that is a flow's own: its record and its part of the buffers.
    pub fn own(&self, flow: usize) -> (Flow, [&[u64]; 3], &[u32]) {
        let slots = flow * self.capacity()..(flow + 1) * self.capacity();
        let words = slots.start / 64..slots.end / 64;
        let memory = &self.memory;
        let (outstanding, marked) = (&memory.outstanding[words.clone()], &memory.marked[words]);
        let sent = &memory.sent[slots.clone()];
        (
            memory.flows[flow],
            [outstanding, marked, sent],
            &memory.sizes[slots],
        )
    }

    /// What low..next-1 of a flow holds.
    fn packets(&self, flow: usize) -> impl Iterator<Item = Slot> + '_ {
        let Flow { low, next, .. } = self.memory.flows[flow];
        (0..next.wrapping_sub(low)).map(move |i| self.slot_in(flow, low.wrapping_add(i)))
    }

    /// Counts the totals in low..next-1 of every flow, and its backlog, and names the state.
    pub fn settle(&mut self) {
        let flows = &self.memory.flows;
        let slots: Vec<Slot> = (0..flows.len())
            .flat_map(|flow| self.packets(flow))
            .collect();
        let marked = || slots.iter().filter(|slot| slot.0 == MARKED);
        self.state.backlog = flows.iter().map(|flow| flow.backlog).sum();
        self.state.flying = slots.iter().filter(|slot| slot.0 == FLYING).count() as u64;
        self.state.marked = marked().count() as u64;
        self.state.marked_bytes = marked().map(|slot| u64::from(slot.1)).sum();
        self.rename();
    }

    /// Names the state by its numbers.
    pub fn rename(&mut self) {
        let state = &mut self.state;
        let room = i128::from(state.in_flight) + i128::from(state.settings.mtu);
        state.name = match (state.backlog, state.marked, state.flying) {
            (0, 0, 0) => Name::Idle,
            (0, 0, _) => Name::Pending,
            _ if room <= i128::from(state.cwnd) => Name::Ready,
            _ => Name::Active,
        };
    }

    pub fn holds(&mut self) -> bool {
        model::number_two(&self.state, &self.memory.lend())
    }

    pub fn take(&mut self, event: impl Into<Event>) -> Outcome {
        self.state.take(&mut self.memory.lend(), &event.into())
    }

    pub fn choose(&mut self) -> Result<Option<Turn>, Refusal> {
        self.state.choose(&self.memory.lend())
    }

    pub fn judge(&mut self, time: u64, plan: &[Planned]) -> Result<(), PlanRefusal> {
        self.state.judge(&self.memory.lend(), time, plan)
    }

    pub fn plan(&mut self, time: u64, size: u32, room: usize) -> Result<Vec<Planned>, Refusal> {
        self.state.plan(&self.memory.lend(), time, size, room)
    }

    /// The event must be accepted, move the clock but not the turn, and leave what holds together.
    #[track_caller]
    pub fn accept(&mut self, event: impl Into<Event>) -> Outcome {
        let event = event.into();
        assert!(self.holds(), "before {event:?}: {:?}", self.state);
        let turn = self.state.turn;
        let outcome = self.take(event);
        assert_eq!(self.state.turn, turn, "{event:?}");
        assert_eq!(outcome.number, 0, "{event:?}");
        assert_eq!(outcome.ev.is_some(), matches!(event, Event::Path(_)));
        let reports = matches!(event, Event::Ack(_) | Event::Nack(_));
        assert_eq!(outcome.sampling.is_some(), reports, "{event:?}");
        assert_eq!(self.state.clock, time_of(&event));
        assert!(self.holds(), "after {event:?}: {:?}", self.state);
        outcome
    }

    /// The event must be refused with this number and change nothing.
    #[track_caller]
    pub fn refuse(&mut self, number: u8, event: impl Into<Event>) {
        let event = event.into();
        let before = self.clone();
        let outcome = self.take(event);
        assert_eq!(outcome, Outcome::from(number), "{event:?}");
        assert_eq!(*self, before);
    }

    /// A choice must be refused, with 2, and change nothing.
    #[track_caller]
    pub fn refuse_choice(&mut self) {
        let before = self.clone();
        assert_eq!(self.choose(), Err(Refusal::NotTogether));
        assert_eq!(*self, before);
    }

    /// A plan is refused with 2, judged or made, before its time is looked at. Nothing changes.
    #[track_caller]
    pub fn refuse_plans(&mut self) {
        let before = self.clone();
        for time in [self.state.clock, u64::MAX] {
            let together = Refusal::NotTogether;
            assert_eq!(self.judge(time, &[]), Err(together.into()));
            assert_eq!(self.plan(time, 41, 64), Err(together));
        }
        assert_eq!(*self, before);
    }

    /// The rig after the event, which must be accepted.
    #[track_caller]
    pub fn after(&self, event: impl Into<Event>) -> Rig {
        let mut rig = self.clone();
        rig.accept(event);
        rig
    }
}

/// Slot i is bit i mod 64 of word i / 64.
pub fn is_set(words: &[u64], slot: usize) -> bool {
    words[slot / 64] & 1 << (slot % 64) != 0
}

pub fn set(words: &mut [u64], slot: usize, on: bool) {
    let bit = 1 << (slot % 64);
    let word = &mut words[slot / 64];
    *word = if on { *word | bit } else { *word & !bit };
}

pub fn time_of(event: &Event) -> u64 {
    match event {
        Event::NewData(event) => event.time,
        Event::Send(event) => event.time,
        Event::Ack(event) => event.time,
        Event::Nack(event) => event.time,
        Event::Loss(event) => event.time,
        Event::Path(event) => event.time,
    }
}

pub fn flow_of(event: &Event) -> u64 {
    match event {
        Event::NewData(event) => event.flow,
        Event::Send(event) => event.flow,
        Event::Ack(event) => event.flow,
        Event::Nack(event) => event.flow,
        Event::Loss(event) => event.flow,
        Event::Path(event) => event.flow,
    }
}

/// The same event of another flow. The others below are of flow 0.
pub fn of(number: u64, event: impl Into<Event>) -> Event {
    let mut event = event.into();
    let flow = match &mut event {
        Event::NewData(event) => &mut event.flow,
        Event::Send(event) => &mut event.flow,
        Event::Ack(event) => &mut event.flow,
        Event::Nack(event) => &mut event.flow,
        Event::Loss(event) => &mut event.flow,
        Event::Path(event) => &mut event.flow,
    };
    *flow = number;
    event
}

pub fn new_data(time: u64, bytes: u64) -> Event {
    Event::NewData(NewData {
        time,
        flow: 0,
        bytes,
    })
}

pub fn send(time: u64, psn: u32, size: u32) -> Event {
    Event::Send(Send {
        time,
        flow: 0,
        size,
        psn,
        resend: false,
    })
}

pub fn resend(time: u64, psn: u32, size: u32) -> Event {
    Event::Send(Send {
        time,
        flow: 0,
        size,
        psn,
        resend: true,
    })
}

/// An unmarked ACK for `cum` alone, which is its trigger.
pub fn ack(time: u64, cum: u32, count: u32) -> Ack {
    Ack {
        time,
        flow: 0,
        cum,
        map: 0,
        trigger: cum,
        count,
        service: 0,
        ev: 0,
        marked: false,
        retx: false,
    }
}

pub fn nack(time: u64, psn: u32, reason: u8) -> Nack {
    Nack {
        time,
        flow: 0,
        psn,
        ev: 0,
        reason,
        marked: false,
        retx: false,
    }
}

pub fn loss(time: u64, psn: u32) -> Loss {
    Loss {
        time,
        flow: 0,
        psn,
        ev: 0,
    }
}

pub fn path(time: u64) -> Event {
    Event::Path(Path { time, flow: 0 })
}
