use crate::words::{plan_of, turn_of};
use model::{Event, Loss, NewData, Outcome, Path, Planned, Sampling, Send, Turn};
use nscc::raw::Lent;
use nscc::{Ack, Nack, Sample};

/// A call of a C function, with fields as wide as the function takes them.
#[derive(Clone, Debug, PartialEq, Eq)]
pub enum Call {
    SetUp {
        settings: Vec<u64>,
        first_psn: u32,
        quick_adapt_off: bool,
        ev_count: u32,
    },
    NewData {
        time: u64,
        flow: usize,
        bytes: u64,
    },
    Send {
        time: u64,
        flow: usize,
        psn: u32,
        bytes: u32,
        resend: bool,
    },
    Ack(Ack),
    Nack(Nack),
    Loss {
        time: u64,
        flow: usize,
        psn: u32,
        ev: u32,
    },
    Path {
        time: u64,
        flow: usize,
    },
    /// What a flow's ring shows of a PSN.
    Status {
        flow: usize,
        psn: u32,
    },
    /// A flow's first marked PSN from this one on.
    NextMarked {
        flow: usize,
        psn: u32,
    },
    /// Which flow sends next. What is named is written in these words, whatever they hold.
    Choose {
        turn: Vec<u64>,
    },
    /// Whether each send of this plan would be accepted, whatever its numbers are.
    Judge {
        time: u64,
        plan: Vec<u32>,
    },
    /// What would be sent by turns. The plan is written in this room, whatever that holds.
    Plan {
        time: u64,
        bytes: u32,
        room: Vec<u32>,
    },
}

/// What a call is lent beside a context: copies of [`Call::turn`] and [`Call::plan`].
#[derive(Debug, Default)]
pub struct Beside<'a> {
    pub turn: &'a mut [u64],
    pub plan: &'a mut [u32],
}

impl Call {
    pub fn set_up(settings: &model::Settings) -> Call {
        Call::SetUp {
            settings: settings.numbers().to_vec(),
            first_psn: settings.first_psn,
            quick_adapt_off: settings.quick_adapt_off,
            ev_count: settings.ev_count,
        }
    }

    /// The flow that the call is for; `None` for setting up, for a choice and for plans.
    pub fn flow(&self) -> Option<usize> {
        match *self {
            Call::SetUp { .. } | Call::Choose { .. } | Call::Judge { .. } | Call::Plan { .. } => {
                None
            }
            Call::Ack(Ack { flow, .. }) | Call::Nack(Nack { flow, .. }) => Some(flow),
            Call::NewData { flow, .. }
            | Call::Send { flow, .. }
            | Call::Loss { flow, .. }
            | Call::Path { flow, .. }
            | Call::Status { flow, .. }
            | Call::NextMarked { flow, .. } => Some(flow),
        }
    }

    /// The same call for another flow.
    pub fn for_flow(mut self, other: usize) -> Call {
        match &mut self {
            Call::SetUp { .. } | Call::Choose { .. } | Call::Judge { .. } | Call::Plan { .. } => {}
            Call::Ack(Ack { flow, .. }) | Call::Nack(Nack { flow, .. }) => *flow = other,
            Call::NewData { flow, .. }
            | Call::Send { flow, .. }
            | Call::Loss { flow, .. }
            | Call::Path { flow, .. }
            | Call::Status { flow, .. }
            | Call::NextMarked { flow, .. } => *flow = other,
        }
        self
    }

    /// The words that a choice is lent for what it names; other calls have none.
    pub fn turn(&self) -> &[u64] {
        match self {
            Call::Choose { turn } => turn,
            _ => &[],
        }
    }

    /// The plan that is judged, or the room that one is written in; other calls have none.
    pub fn plan(&self) -> &[u32] {
        match self {
            Call::Judge { plan, .. } => plan,
            Call::Plan { room, .. } => room,
            _ => &[],
        }
    }

    /// Calls the C function: the number in the low 32 bits, an EV, a sample's number, what the ring
    /// shows or what there is to say of a plan above them.
    pub fn ask(&self, lent: &mut Lent, beside: Beside) -> u64 {
        let number = match self {
            Call::SetUp {
                settings,
                first_psn,
                quick_adapt_off,
                ev_count,
            } => lent.set_up(settings, *first_psn, *quick_adapt_off, *ev_count),
            Call::NewData { time, flow, bytes } => lent.new_data(*time, *flow, *bytes),
            Call::Send {
                time,
                flow,
                psn,
                bytes,
                resend,
            } => lent.send(*time, *flow, *psn, *bytes, *resend),
            Call::Ack(ack) => return lent.ack(ack),
            Call::Nack(nack) => return lent.nack(nack),
            Call::Loss {
                time,
                flow,
                psn,
                ev,
            } => lent.loss(*time, *flow, *psn, *ev),
            Call::Path { time, flow } => return lent.path(*time, *flow),
            Call::Status { flow, psn } => return lent.show().status(*flow, *psn),
            Call::NextMarked { flow, psn } => return lent.show().next_marked(*flow, *psn),
            Call::Choose { .. } => lent.choose(beside.turn),
            Call::Judge { time, .. } => return lent.show().judge(*time, beside.plan),
            Call::Plan { time, bytes, .. } => return lent.show().plan(*time, *bytes, beside.plan),
        };
        number.into()
    }

    /// The model's event; `None` for setting up, readings, choices and plans. The model's EVs and
    /// reasons are narrower: a wider one is handed to it as its widest, which it refuses alike.
    pub fn event(&self) -> Option<Event> {
        let flow = self.flow()? as u64;
        let event = match *self {
            Call::SetUp { .. }
            | Call::Status { .. }
            | Call::NextMarked { .. }
            | Call::Choose { .. }
            | Call::Judge { .. }
            | Call::Plan { .. } => return None,
            Call::NewData { time, bytes, .. } => NewData { time, flow, bytes }.into(),
            Call::Send {
                time,
                psn,
                bytes,
                resend,
                ..
            } => Event::Send(Send {
                time,
                flow,
                size: bytes,
                psn,
                resend,
            }),
            Call::Ack(ack) => Event::Ack(model_ack(&ack)),
            Call::Nack(nack) => Event::Nack(model_nack(&nack)),
            Call::Loss { time, psn, ev, .. } => Event::Loss(Loss {
                time,
                flow,
                psn,
                ev: narrow_ev(ev),
            }),
            Call::Path { time, .. } => Event::Path(Path { time, flow }),
        };
        Some(event)
    }

    /// The call of an event.
    pub fn of(event: &Event) -> Call {
        match *event {
            Event::NewData(NewData { time, flow, bytes }) => Call::NewData {
                time,
                flow: flow_number(flow),
                bytes,
            },
            Event::Send(send) => Call::Send {
                time: send.time,
                flow: flow_number(send.flow),
                psn: send.psn,
                bytes: send.size,
                resend: send.resend,
            },
            Event::Ack(ack) => Call::Ack(Ack {
                time: ack.time,
                flow: flow_number(ack.flow),
                cum: ack.cum,
                map: ack.map,
                trigger: ack.trigger,
                count: ack.count,
                service: ack.service,
                ev: ack.ev.into(),
                marked: ack.marked,
                retx: ack.retx,
            }),
            Event::Nack(nack) => Call::Nack(Nack {
                time: nack.time,
                flow: flow_number(nack.flow),
                psn: nack.psn,
                ev: nack.ev.into(),
                reason: nack.reason.into(),
                marked: nack.marked,
                retx: nack.retx,
            }),
            Event::Loss(loss) => Call::Loss {
                time: loss.time,
                flow: flow_number(loss.flow),
                psn: loss.psn,
                ev: loss.ev.into(),
            },
            Event::Path(Path { time, flow }) => Call::Path {
                time,
                flow: flow_number(flow),
            },
        }
    }
}

/// A flow as the C functions take it. One that is wider is refused alike as the widest.
fn flow_number(flow: u64) -> usize {
    flow.try_into().unwrap_or(usize::MAX)
}

fn model_ack(ack: &Ack) -> model::Ack {
    model::Ack {
        time: ack.time,
        flow: ack.flow as u64,
        cum: ack.cum,
        map: ack.map,
        trigger: ack.trigger,
        count: ack.count,
        service: ack.service,
        ev: narrow_ev(ack.ev),
        marked: ack.marked,
        retx: ack.retx,
    }
}

fn model_nack(nack: &Nack) -> model::Nack {
    model::Nack {
        time: nack.time,
        flow: nack.flow as u64,
        psn: nack.psn,
        ev: narrow_ev(nack.ev),
        reason: nack.reason.try_into().unwrap_or(u8::MAX),
        marked: nack.marked,
        retx: nack.retx,
    }
}

fn narrow_ev(ev: u32) -> u16 {
    ev.try_into().unwrap_or(u16::MAX)
}

/// What the model answers to a call.
#[derive(Clone, Debug, Default, PartialEq, Eq)]
pub struct Answer {
    pub outcome: Outcome,
    /// What a reading shows: a status' number, 0 for none, or a PSN. Of a plan that was judged the
    /// first send that fails, of one that was made how many sends it has.
    pub shown: Option<u32>,
    /// What an accepted choice names; `None` where that is nobody.
    pub named: Option<Turn>,
    /// The sends of a plan that was made.
    pub planned: Vec<Planned>,
}

impl From<Outcome> for Answer {
    fn from(outcome: Outcome) -> Answer {
        Answer {
            outcome,
            ..Answer::default()
        }
    }
}

impl Answer {
    /// As the C functions answer it.
    pub fn word(&self) -> u64 {
        let above = self.shown.map_or(0, u64::from);
        answer_of(self.outcome) | above << 32
    }

    /// What a choice leaves in the words that it was lent: a refusal leaves them as they were.
    pub fn turn(&self, lent: &[u64]) -> Vec<u64> {
        match self.outcome.number {
            0 => turn_of(self.named).to_vec(),
            _ => lent.to_vec(),
        }
    }

    /// What a call leaves in the plan or the room that it was lent: its sends are written, and no
    /// more.
    pub fn plan(&self, lent: &[u32]) -> Vec<u32> {
        let mut plan = lent.to_vec();
        let written = plan_of(&self.planned);
        plan[..written.len()].copy_from_slice(&written);
        plan
    }
}

/// The model's outcome as the C functions answer it.
pub fn answer_of(outcome: Outcome) -> u64 {
    let Outcome {
        number,
        ev,
        sampling,
    } = outcome;
    let sample = sampling.map(|sampling| sample_of(sampling).number().into());
    let above = ev.map(u32::from).or(sample).unwrap_or(0);
    u64::from(number) | u64::from(above) << 32
}

fn sample_of(sampling: Sampling) -> Sample {
    match sampling {
        Sampling::Taken(_) => Sample::Taken,
        Sampling::Cut => Sample::Cut,
        Sampling::Gone => Sample::Gone,
        Sampling::Ambiguous => Sample::Ambiguous,
        Sampling::NotPositive => Sample::NotPositive,
    }
}
