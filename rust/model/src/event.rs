//! Setting up and the events, each in two forms: one that tests number 2 in full, and one named
//! `_trusted` for a replay that has tested it once. What number 2 says must hold for the latter;
//! an accepted event preserves it.
//!
//! Within an event all refusals are tested, in the order of 01, before anything changes. An event is
//! of one flow, which may be any number: 25 where there is no such flow (M-107).

use crate::bounds::{BACKLOG_MAX, COUNT_END, SIZE_MIN, TIME_END, UNIT};
use crate::check::number_two;
use crate::ledger::{covers, Ledger, LedgerMut};
use crate::lent::Lent;
use crate::refusal::{number, Refusal};
use crate::ring::Status;
use crate::sampling::Sampling;
use crate::settings::Settings;
use crate::state::State;

#[derive(Clone, Copy, Debug, PartialEq, Eq)]
pub struct NewData {
    pub time: u64,
    pub flow: u64,
    pub bytes: u64,
}

#[derive(Clone, Copy, Debug, PartialEq, Eq)]
pub struct Send {
    pub time: u64,
    pub flow: u64,
    pub size: u32,
    pub psn: u32,
    pub resend: bool,
}

#[derive(Clone, Copy, Debug, PartialEq, Eq)]
pub struct Ack {
    pub time: u64,
    pub flow: u64,
    /// Covers every PSN up to and including this one.
    pub cum: u32,
    /// Bit i covers cum + 1 + i.
    pub map: u64,
    /// The packet that this ACK answers.
    pub trigger: u32,
    pub count: u32,
    pub service: u32,
    pub ev: u16,
    /// The M flag.
    pub marked: bool,
    pub retx: bool,
}

#[derive(Clone, Copy, Debug, PartialEq, Eq)]
pub struct Nack {
    pub time: u64,
    pub flow: u64,
    pub psn: u32,
    pub ev: u16,
    pub reason: u8,
    /// The M flag.
    pub marked: bool,
    pub retx: bool,
}

/// NACK reason: trimmed before the last hop.
pub const TRIMMED: u8 = 0;
/// NACK reason: trimmed at the last hop.
pub const TRIMMED_LAST_HOP: u8 = 1;
/// NACK reason: any other.
pub const OTHER: u8 = 2;

#[derive(Clone, Copy, Debug, PartialEq, Eq)]
pub struct Loss {
    pub time: u64,
    pub flow: u64,
    pub psn: u32,
    pub ev: u16,
}

/// A choice of the next path, which is the same for every flow.
#[derive(Clone, Copy, Debug, PartialEq, Eq)]
pub struct Path {
    pub time: u64,
    pub flow: u64,
}

/// Any event, for those who take them from a log.
#[derive(Clone, Copy, Debug, PartialEq, Eq)]
pub enum Event {
    NewData(NewData),
    Send(Send),
    Ack(Ack),
    Nack(Nack),
    Loss(Loss),
    Path(Path),
}

impl From<NewData> for Event {
    fn from(event: NewData) -> Event {
        Event::NewData(event)
    }
}

impl From<Send> for Event {
    fn from(event: Send) -> Event {
        Event::Send(event)
    }
}

impl From<Ack> for Event {
    fn from(event: Ack) -> Event {
        Event::Ack(event)
    }
}

impl From<Nack> for Event {
    fn from(event: Nack) -> Event {
        Event::Nack(event)
    }
}

impl From<Loss> for Event {
    fn from(event: Loss) -> Event {
        Event::Loss(event)
    }
}

impl From<Path> for Event {
    fn from(event: Path) -> Event {
        Event::Path(event)
    }
}

/// What an event answers: 0 or the refusal number, the EV of an accepted path choice, and what an
/// accepted ACK or NACK says of its sample (M-103).
#[derive(Clone, Copy, Debug, Default, PartialEq, Eq)]
pub struct Outcome {
    pub number: u8,
    pub ev: Option<u16>,
    pub sampling: Option<Sampling>,
}

impl From<u8> for Outcome {
    fn from(number: u8) -> Outcome {
        Outcome {
            number,
            ev: None,
            sampling: None,
        }
    }
}

/// The calls from outside: number 2 is tested in full. Each returns 0 or the refusal number; ACK,
/// NACK and path choice return what goes with an acceptance too.
impl State {
    /// The answer with the fresh state, or with a state of zeros if refused.
    pub fn set_up(settings: &Settings, lent: &mut Lent) -> (u8, State) {
        if !settings.in_range() {
            return (Refusal::Setting.number(), State::default());
        }
        if !lent.lengths_good(settings.ev_count) {
            return (Refusal::NotTogether.number(), State::default());
        }
        lent.clear(settings.first_psn);
        (0, State::fresh(*settings))
    }

    pub fn new_data(&mut self, lent: &mut Lent, event: &NewData) -> u8 {
        number(
            self.together(lent)
                .and_then(|()| self.try_new_data(lent, event)),
        )
    }

    pub fn send(&mut self, lent: &mut Lent, event: &Send) -> u8 {
        number(
            self.together(lent)
                .and_then(|()| self.try_send(lent, event)),
        )
    }

    pub fn ack(&mut self, lent: &mut Lent, event: &Ack) -> Outcome {
        sampling_outcome(self.together(lent).and_then(|()| self.try_ack(lent, event)))
    }

    pub fn nack(&mut self, lent: &mut Lent, event: &Nack) -> Outcome {
        sampling_outcome(
            self.together(lent)
                .and_then(|()| self.try_nack(lent, event)),
        )
    }

    pub fn loss(&mut self, lent: &mut Lent, event: &Loss) -> u8 {
        number(
            self.together(lent)
                .and_then(|()| self.try_loss(lent, event)),
        )
    }

    pub fn path(&mut self, lent: &Lent, event: &Path) -> Outcome {
        path_outcome(
            self.together(lent)
                .and_then(|()| self.try_path(lent, event)),
        )
    }

    pub fn take(&mut self, lent: &mut Lent, event: &Event) -> Outcome {
        match event {
            Event::NewData(event) => self.new_data(lent, event).into(),
            Event::Send(event) => self.send(lent, event).into(),
            Event::Ack(event) => self.ack(lent, event),
            Event::Nack(event) => self.nack(lent, event),
            Event::Loss(event) => self.loss(lent, event).into(),
            Event::Path(event) => self.path(lent, event),
        }
    }
}

/// The same without number 2.
impl State {
    pub fn new_data_trusted(&mut self, lent: &mut Lent, event: &NewData) -> u8 {
        number(self.try_new_data(lent, event))
    }

    pub fn send_trusted(&mut self, lent: &mut Lent, event: &Send) -> u8 {
        number(self.try_send(lent, event))
    }

    pub fn ack_trusted(&mut self, lent: &mut Lent, event: &Ack) -> Outcome {
        sampling_outcome(self.try_ack(lent, event))
    }

    pub fn nack_trusted(&mut self, lent: &mut Lent, event: &Nack) -> Outcome {
        sampling_outcome(self.try_nack(lent, event))
    }

    pub fn loss_trusted(&mut self, lent: &mut Lent, event: &Loss) -> u8 {
        number(self.try_loss(lent, event))
    }

    pub fn path_trusted(&mut self, lent: &Lent, event: &Path) -> Outcome {
        path_outcome(self.try_path(lent, event))
    }

    pub fn take_trusted(&mut self, lent: &mut Lent, event: &Event) -> Outcome {
        match event {
            Event::NewData(event) => self.new_data_trusted(lent, event).into(),
            Event::Send(event) => self.send_trusted(lent, event).into(),
            Event::Ack(event) => self.ack_trusted(lent, event),
            Event::Nack(event) => self.nack_trusted(lent, event),
            Event::Loss(event) => self.loss_trusted(lent, event).into(),
            Event::Path(event) => self.path_trusted(lent, event),
        }
    }
}

/// What a flow's ring shows. Number 2 is tested in full, then the flow, and nothing changes.
impl State {
    /// The status of `psn`; `None` where it is not one of low..next-1.
    pub fn status(&self, lent: &Lent, flow: u64, psn: u32) -> Result<Option<Status>, Refusal> {
        self.together(lent)?;
        let ledger = lent.ledger(flow)?;
        Ok(ledger.slot_of(psn).map(|slot| ledger.ring.status(slot)))
    }

    /// The first marked PSN from `psn` on; next where there is none, or where `psn` is not one of
    /// low..next-1.
    pub fn next_marked(&self, lent: &Lent, flow: u64, psn: u32) -> Result<u32, Refusal> {
        self.together(lent)?;
        let ledger = lent.ledger(flow)?;
        Ok(match ledger.slot_of(psn) {
            Some(_) => ledger.first_marked(psn),
            None => ledger.flow.next,
        })
    }
}

fn path_outcome(answer: Result<u16, Refusal>) -> Outcome {
    match answer {
        Ok(ev) => Outcome {
            ev: Some(ev),
            ..Outcome::from(0)
        },
        Err(refusal) => refusal.number().into(),
    }
}

fn sampling_outcome(answer: Result<Sampling, Refusal>) -> Outcome {
    match answer {
        Ok(sampling) => Outcome {
            sampling: Some(sampling),
            ..Outcome::from(0)
        },
        Err(refusal) => refusal.number().into(),
    }
}

/// The events themselves.
impl State {
    fn try_new_data(&mut self, lent: &mut Lent, event: &NewData) -> Result<(), Refusal> {
        self.time_allowed(event.time)?;
        let mut ledger = lent.ledger_mut(event.flow)?;
        let fits = event.bytes <= BACKLOG_MAX - ledger.flow.backlog;
        Refusal::Bytes.unless(event.bytes > 0 && fits)?;

        self.add_backlog(&mut ledger, event.bytes);
        self.finish(event.time);
        Ok(())
    }

    pub(crate) fn try_send(&mut self, lent: &mut Lent, event: &Send) -> Result<(), Refusal> {
        self.time_allowed(event.time)?;
        let mut ledger = lent.ledger_mut(event.flow)?;
        let size = event.size;
        Refusal::Size.unless(size >= SIZE_MIN && u64::from(size) <= self.settings.mtu)?;
        if event.resend {
            self.resend(&mut ledger, event)?;
        } else {
            self.send_new(&mut ledger, event)?;
        }
        self.finish(event.time);
        Ok(())
    }

    fn send_new(&mut self, ledger: &mut LedgerMut, event: &Send) -> Result<(), Refusal> {
        let Ledger { flow, ring } = ledger.read();
        Refusal::WrongPacket.unless(event.psn == flow.next)?;
        Refusal::Backlog.unless(u64::from(event.size) <= flow.backlog)?;
        Refusal::RingFull.unless(flow.span() as usize != ring.capacity())?;
        Refusal::Window.unless(self.window_open())?;

        self.add_packet(ledger, event.time, event.size);
        Ok(())
    }

    fn resend(&mut self, ledger: &mut LedgerMut, event: &Send) -> Result<(), Refusal> {
        let marked = ledger.read().slot_with(event.psn, Status::Marked);
        let slot = marked
            .filter(|&slot| ledger.ring.read().size(slot) == event.size)
            .ok_or(Refusal::WrongPacket)?;
        Refusal::Window.unless(self.window_open())?;

        self.fly_again(ledger, event.time, slot);
        Ok(())
    }

    fn try_ack(&mut self, lent: &mut Lent, event: &Ack) -> Result<Sampling, Refusal> {
        let now = event.time;
        self.time_allowed(now)?;
        let mut ledger = lent.ledger_mut(event.flow)?;
        Refusal::Count.unless(event.count < COUNT_END)?;
        self.ev_allowed(event.ev)?;
        Refusal::Trigger.unless(covers(event.cum, event.map, event.trigger))?;
        Refusal::WrongAck.unless(ledger.flow.names_sent(event.cum, event.map))?;
        let forward = ledger.flow.forward_units(event.count);
        let falls_by = UNIT * u64::from(forward.unwrap_or(0));
        Refusal::InFlight.unless(self.may_fall_by(falls_by))?;

        let base_before = self.base;
        let (trigger, service) = (event.trigger, event.service);
        let sampling = ledger.read().sample(now, trigger, service, event.retx);
        self.deliver_covered(&mut ledger, event.cum, event.map);
        let newly = match forward {
            Some(units) => self.take_count(&mut ledger, event.count, units),
            None => 0,
        };
        self.window_on_ack(now, newly, sampling, event.marked);
        if event.marked {
            lent.ev_times[usize::from(event.ev)] = now + base_before;
        }
        self.finish(now);
        Ok(sampling)
    }

    fn try_nack(&mut self, lent: &mut Lent, event: &Nack) -> Result<Sampling, Refusal> {
        let now = event.time;
        self.time_allowed(now)?;
        let mut ledger = lent.ledger_mut(event.flow)?;
        Refusal::Reason.unless(event.reason <= OTHER)?;
        self.ev_allowed(event.ev)?;
        let slot = self.lost_slot(&ledger.read(), event.psn)?;

        let base_before = self.base;
        let sampling = ledger.read().sample(now, event.psn, 0, event.retx);
        let size = self.mark(&mut ledger, slot);
        if let Some(sample) = sampling.ticks() {
            self.lower_base(sample);
        }
        if event.reason != OTHER {
            self.feed(self.settings.config_base_rtt);
            self.window_on_loss(now, size);
        }
        if event.marked || event.reason == TRIMMED {
            lent.ev_times[usize::from(event.ev)] = now + base_before;
        }
        self.finish(now);
        Ok(sampling)
    }

    fn try_loss(&mut self, lent: &mut Lent, event: &Loss) -> Result<(), Refusal> {
        let now = event.time;
        self.time_allowed(now)?;
        let mut ledger = lent.ledger_mut(event.flow)?;
        self.ev_allowed(event.ev)?;
        let slot = self.lost_slot(&ledger.read(), event.psn)?;

        let size = self.mark(&mut ledger, slot);
        self.window_on_loss(now, size);
        // A loss takes no sample: the base is still the one held before.
        lent.ev_times[usize::from(event.ev)] = now + self.base;
        self.finish(now);
        Ok(())
    }

    fn try_path(&mut self, lent: &Lent, event: &Path) -> Result<u16, Refusal> {
        self.time_allowed(event.time)?;
        lent.flow_allowed(event.flow)?;

        let ev = self.take_path(lent, event.time);
        self.finish(event.time);
        Ok(ev)
    }

    pub(crate) fn together(&self, lent: &Lent) -> Result<(), Refusal> {
        Refusal::NotTogether.unless(number_two(self, lent))
    }

    pub(crate) fn time_allowed(&self, time: u64) -> Result<(), Refusal> {
        Refusal::Time.unless(self.clock <= time && time < TIME_END)
    }

    fn ev_allowed(&self, ev: u16) -> Result<(), Refusal> {
        Refusal::Ev.unless(u32::from(ev) < self.settings.ev_count)
    }

    /// The slot of a flying packet that in-flight allows to be taken out as lost.
    fn lost_slot(&self, ledger: &Ledger, psn: u32) -> Result<usize, Refusal> {
        let slot = ledger
            .slot_with(psn, Status::Flying)
            .ok_or(Refusal::NotFlying)?;
        Refusal::InFlight.unless(self.may_fall_by(u64::from(ledger.ring.size(slot))))?;
        Ok(slot)
    }

    fn finish(&mut self, now: u64) {
        self.clock = now;
        self.name = self.ruled_name();
    }
}
