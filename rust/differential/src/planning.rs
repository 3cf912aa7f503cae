//! Plans to judge, and calls that plan.

use crate::call::Call;
use crate::sides::Model;
use crate::source::{Source, View};
use crate::words::plan_of;
use model::bounds::SIZE_MIN;
use model::{Planned, Rng, SENDS_MAX};
use nscc::{PlannedWord, FLOW_WORDS, PLANNED};

/// A call that plans. Its room is enough for every plan or too short, ends within a send or is
/// longer, and holds any numbers.
pub fn planning(rng: &mut Rng, time: u64, bytes: u32) -> Call {
    let full = PLANNED * SENDS_MAX;
    let any = rng.below(full as u64) as usize;
    let short = rng.pick(&[0, 1, 3, PLANNED, 2 * PLANNED - 1, full - 1]);
    let long = rng.pick(&[full + 1, full + 3, full + PLANNED, 4 * full]);
    let length = rng.pick(&[full, full, full, any, short, long]);
    let room = (0..length).map(|_| rng.next_u32()).collect();
    Call::Plan { time, bytes, room }
}

impl Source {
    /// A call that plans, or a plan to judge.
    pub(crate) fn plan(&mut self, model: &Model, view: &View) -> Call {
        let (good, edge) = (self.time(view), self.edge_time(view));
        let time = self.rng.pick(&[good, good, edge]);
        let bytes = self.planned_bytes(view);
        if self.rng.one_in(2) {
            return planning(&mut self.rng, time, bytes);
        }
        let mut sends = self.proposal(model, view, bytes);
        for _ in 0..self.rng.pick(&[0, 0, 0, 1, 1, 2]) {
            self.change_send(view, &mut sends);
        }
        if self.rng.one_in(8) {
            self.lengthen(view, &mut sends);
        }
        let plan = self.numbers(&sends);
        Call::Judge { time, plan }
    }

    /// The size of new packets: the smallest, of which many can go, any, or one at an edge.
    fn planned_bytes(&mut self, view: &View) -> u32 {
        let mtu = view.state.settings.mtu as u32;
        let any = self.rng.between(SIZE_MIN.into(), mtu.into()) as u32;
        let over_backlog = (view.flow.backlog as u32).saturating_add(1).min(mtu);
        let edges = [0, SIZE_MIN - 1, mtu, mtu + 1, over_backlog, u32::MAX];
        let edge = self.rng.pick(&edges);
        self.rng.pick(&[SIZE_MIN, SIZE_MIN, SIZE_MIN, any, edge])
    }

    /// No sends, or some that can go and often one behind them, which may be refused.
    fn proposal(&mut self, model: &Model, view: &View, bytes: u32) -> Vec<Planned> {
        let mut model = model.clone();
        let mut sends = match self.rng.below(8) {
            0 => return Vec::new(),
            1..=3 => by_turns(&mut model, view.state.clock, bytes),
            _ => self.out_of_turn(&mut model),
        };
        if sends.is_empty() || self.rng.one_in(2) && sends.len() < SENDS_MAX {
            sends.extend(self.one_more(&model, bytes));
        }
        sends
    }

    /// Sends of any flows, made as they are proposed.
    fn out_of_turn(&mut self, model: &mut Model) -> Vec<Planned> {
        let most = self.rng.pick(&[1, 5, 20, SENDS_MAX]);
        let mut sends = Vec::new();
        for _ in 0..most {
            let Some(view) = self.any_view(model) else {
                break;
            };
            let time = view.state.clock;
            let call = if self.rng.one_in(2) {
                self.resend(&view, time)
            } else {
                self.new_packet(&view, time)
            };
            // There may be nothing to send: then it is new data.
            sends.extend(planned(&call).filter(|_| model.answer(&call).outcome.number == 0));
        }
        sends
    }

    /// A send that may be refused: a new packet, for which backlog, ring or window may be too small,
    /// or one at an edge.
    fn one_more(&mut self, model: &Model, bytes: u32) -> Option<Planned> {
        let view = self.any_view(model)?;
        let over_backlog = (view.flow.backlog + 1).max(SIZE_MIN.into());
        let over_backlog = over_backlog.min(view.state.settings.mtu) as u32;
        if self.rng.one_in(4) {
            return planned(&self.edge_send(&view, view.state.clock));
        }
        Some(Planned {
            flow: view.at as u64,
            resend: false,
            psn: view.flow.next,
            size: self.rng.pick(&[bytes, SIZE_MIN, over_backlog]),
        })
    }

    /// Any flow.
    fn any_view<'a>(&mut self, model: &'a Model) -> Option<View<'a>> {
        let flows = model.table.len() / FLOW_WORDS;
        View::of(model, self.rng.below(flows as u64) as usize)
    }

    /// A send is left out, doubled, changed, put elsewhere, or its packet goes once more.
    fn change_send(&mut self, view: &View, sends: &mut Vec<Planned>) {
        let many = sends.len() as u64;
        if many == 0 {
            return;
        }
        let [any, j] = [(); 2].map(|()| self.rng.below(many) as usize);
        let i = self.rng.pick(&[any, any, sends.len() - 1]);
        let behind = self.rng.between(i as u64 + 1, many) as usize;
        let send = sends[i];
        match self.rng.below(10) {
            0 => {
                sends.remove(i);
            }
            1 => sends.insert(j, send),
            2 => sends.swap(i, j),
            3 => sends[i].flow = self.other_flow(view, send.flow),
            4 => sends[i].resend = !send.resend,
            5 => sends[i].psn = self.other_psn(view, send.psn),
            6 => sends[i].size = self.other_size(view, send.size),
            // Behind its send the packet flies.
            _ => sends.insert(
                behind,
                Planned {
                    resend: true,
                    ..send
                },
            ),
        }
    }

    /// Another flow, one past the table, or one that a narrower number would take for this one.
    fn other_flow(&mut self, view: &View, flow: u64) -> u64 {
        let flows = view.flows as u64;
        let other = self.rng.below(flows);
        let wider = flow + (1 << self.rng.pick(&[8, 16, 31]));
        let far = self.rng.pick(&[8, 1 << 31, u32::MAX.into()]);
        self.rng.pick(&[other, flows, wider, far])
    }

    fn other_psn(&mut self, view: &View, psn: u32) -> u32 {
        let edge = self.edge_psn(view);
        let around = psn.wrapping_add(view.capacity() as u32);
        let beside = self.rng.pick(&[psn.wrapping_add(1), psn.wrapping_sub(1)]);
        self.rng.pick(&[edge, around, beside, beside])
    }

    fn other_size(&mut self, view: &View, size: u32) -> u32 {
        let mtu = view.state.settings.mtu as u32;
        let beside = self.rng.pick(&[size.wrapping_add(1), size.wrapping_sub(1)]);
        let edges = [0, SIZE_MIN - 1, SIZE_MIN, mtu, mtu + 1, u32::MAX];
        let edge = self.rng.pick(&edges);
        let wider = size.wrapping_add(1 << 16);
        self.rng.pick(&[beside, beside, edge, wider])
    }

    /// Filled up to 64 sends, to one more or to far more, with the packets behind the last one.
    fn lengthen(&mut self, view: &View, sends: &mut Vec<Planned>) {
        let one_more = SENDS_MAX + 1;
        let lengths = [SENDS_MAX, one_more, one_more, 2 * SENDS_MAX, 1_000];
        let many = self.rng.pick(&lengths);
        let mut last = sends.last().copied().unwrap_or(Planned {
            flow: view.at as u64,
            resend: false,
            psn: view.flow.next.wrapping_sub(1),
            size: SIZE_MIN,
        });
        while sends.len() < many {
            last.psn = last.psn.wrapping_add(1);
            sends.push(last);
        }
    }

    /// The plan's numbers: at times resends with other numbers than 1, or a send that is not whole.
    fn numbers(&mut self, sends: &[Planned]) -> Vec<u32> {
        let mut plan = plan_of(sends);
        let marks: &[u32] = match self.rng.below(4) {
            0 => &[1, 2, 256, 1 << 16, 1 << 31, u32::MAX],
            _ => &[1],
        };
        let (sends, _) = plan.as_chunks_mut::<PLANNED>();
        let resends = sends
            .iter_mut()
            .map(|send| &mut send[PlannedWord::Resend as usize]);
        for resend in resends.filter(|resend| **resend != 0) {
            *resend = self.rng.pick(marks);
        }
        if self.rng.one_in(24) {
            plan.resize(plan.len() + self.rng.between(1, 3) as usize, 0);
        }
        plan
    }
}

/// The sends that go by turns, which are made.
fn by_turns(model: &mut Model, time: u64, bytes: u32) -> Vec<Planned> {
    let sends = model.plan(time, bytes, SENDS_MAX).unwrap_or_default();
    for &send in &sends {
        model.answer(&Call::Send {
            time,
            flow: send.flow as usize,
            psn: send.psn,
            bytes: send.size,
            resend: send.resend,
        });
    }
    sends
}

/// The send of a call; `None` for other calls.
fn planned(call: &Call) -> Option<Planned> {
    let Call::Send {
        flow,
        psn,
        bytes,
        resend,
        ..
    } = *call
    else {
        return None;
    };
    Some(Planned {
        flow: flow as u64,
        resend,
        psn,
        size: bytes,
    })
}
