//! Plans of 64 sends, half of them of marked packets: beside the model, and beside single calls of
//! the library that come to the same. A plan's call tests number 2 once, each single call again.

use crate::calls::{filled, take};
use crate::sides::{assert_alike, Model};
use crate::table::Table;
use crate::timing::{race, Times};
use differential::plan_of;
use model::{Event, Loss, NewData, Planned, Send, SENDS_MAX};
use nscc::raw::Lent;
use nscc::{Context, Turn, Word, PLANNED, TURN};
use std::hint::black_box;

const ROUNDS: usize = 200;
/// When everything happens.
const TIME: u64 = 1;
/// Every packet has so many bytes.
const BYTES: u32 = 1024;
/// The answer where a whole plan was made.
const FULL: u64 = (SENDS_MAX as u64) << 32;

/// The flows, and the slots of each.
const SHAPES: [(&str, usize, usize); 3] = [
    ("64 slots", 1, 64),
    ("1024 slots", 1, 1_024),
    ("8 flows of 1024 slots", 8, 1_024),
];

/// (b) The library and the model.
pub fn beside_model(table: &mut Table) {
    for (name, flows, capacity) in SHAPES {
        let mut sides = Sides::new(flows, capacity);
        let what = format!("(b) a plan of 64 sends judged, {name}");
        table.add(what, sides.judge());
        let what = format!("(b) a plan of 64 sends made, {name}");
        table.add(what, sides.plan());
    }
}

/// The library alone: one call, and in a copy of the memory as many sends, or choices and sends.
pub fn beside_calls(table: &mut Table) {
    for (name, flows, capacity) in SHAPES {
        let sides = Sides::new(flows, capacity);
        let what = format!("a plan of 64 sends judged, {name}");
        table.add(what, sides.judge_or_send());
        let what = format!("a plan of 64 sends made, {name}");
        table.add(what, sides.plan_or_choose());
    }
}

/// Both sides, and the plan that both of them make.
struct Sides {
    context: Context,
    model: Model,
    sends: Vec<Planned>,
    /// The same in numbers.
    plan: Vec<u32>,
    /// Plans of a lap.
    many: usize,
}

impl Sides {
    /// Half of each ring is full, half of a plan's sends are of marked packets.
    fn new(flows: usize, capacity: usize) -> Sides {
        let (mut context, mut model) = filled(flows, capacity, capacity / 2);
        let share = (SENDS_MAX / 2 / flows) as u32;
        for flow in 0..flows as u64 {
            take(&mut context, &mut model, &to_send(flow, share));
        }
        let lent = model.memory.lend();
        let planned = model.state.plan(&lent, TIME, BYTES, SENDS_MAX);
        let sends = planned.expect("a sound context");
        let sides = Sides {
            context,
            model,
            plan: plan_of(&sends),
            sends,
            many: (16_000 / (flows * capacity)).max(1),
        };
        sides.compare();
        sides
    }

    /// Both make this plan and accept it; its sends, and choices and sends, leave the same.
    fn compare(&self) {
        let resends = self.sends.iter().filter(|send| send.resend).count();
        assert_eq!((self.sends.len(), resends), (SENDS_MAX, SENDS_MAX / 2));
        let mut room = [0; PLANNED * SENDS_MAX];
        assert_eq!(self.context.show().plan(TIME, BYTES, &mut room), FULL);
        assert_eq!(room, *self.plan);
        assert_eq!(self.context.show().judge(TIME, &self.plan), 0);

        let mut model = self.model.clone();
        let judged = model.state.judge(&model.memory.lend(), TIME, &self.sends);
        assert_eq!(judged, Ok(()));
        let [mut sent, mut chosen] = [(); 2].map(|()| self.context.clone());
        let events: Vec<Event> = self.sends.iter().map(event).collect();
        assert_eq!(take(&mut sent, &mut model, &events), 0);
        assert_alike(&sent, &model);
        assert!(choose_all(&mut chosen.lend()));
        // Choices have moved it.
        chosen.words[Word::Turn as usize] = sent.word(Word::Turn);
        assert_eq!(chosen, sent);
    }

    fn judge(&mut self) -> Times {
        let shown = self.context.show();
        let Model { state, memory } = &mut self.model;
        let lent = memory.lend();
        in_turn(
            self.many,
            || shown.judge(TIME, black_box(&self.plan)) == 0,
            || state.judge(black_box(&lent), TIME, &self.sends).is_ok(),
        )
    }

    fn plan(&mut self) -> Times {
        let shown = self.context.show();
        let mut room = [0; PLANNED * SENDS_MAX];
        let Model { state, memory } = &mut self.model;
        let lent = memory.lend();
        in_turn(
            self.many,
            || shown.plan(TIME, BYTES, black_box(&mut room)) == FULL,
            || {
                let plan = state.plan(black_box(&lent), TIME, BYTES, SENDS_MAX);
                plan.is_ok_and(|plan| plan.len() == SENDS_MAX)
            },
        )
    }

    fn judge_or_send(&self) -> Times {
        let shown = self.context.show();
        let mut copy = self.context.clone();
        in_turn(
            self.many,
            || shown.judge(TIME, black_box(&self.plan)) == 0,
            || send_all(&mut copied(&self.context, &mut copy), &self.sends),
        )
    }

    fn plan_or_choose(&self) -> Times {
        let shown = self.context.show();
        let mut room = [0; PLANNED * SENDS_MAX];
        let mut copy = self.context.clone();
        in_turn(
            self.many,
            || shown.plan(TIME, BYTES, black_box(&mut room)) == FULL,
            || choose_all(&mut copied(&self.context, &mut copy)),
        )
    }
}

/// The time of a plan, of which a lap has so many. Each must be a good one.
fn in_turn(many: usize, mut ours: impl FnMut() -> bool, mut other: impl FnMut() -> bool) -> Times {
    race(
        ROUNDS,
        many,
        |clock| clock.lap(|| assert!((0..many).all(|_| ours()))),
        |clock| clock.lap(|| assert!((0..many).all(|_| other()))),
    )
}

/// So many packets of a flow are lost, and as many wait to be sent.
fn to_send(flow: u64, share: u32) -> Vec<Event> {
    let (time, ev) = (TIME, 0);
    let bytes = u64::from(share * BYTES);
    let mut events = vec![Event::from(NewData { time, flow, bytes })];
    events.extend((0..share).map(|psn| {
        Event::Loss(Loss {
            time,
            flow,
            psn,
            ev,
        })
    }));
    events
}

fn event(send: &Planned) -> Event {
    let Planned {
        flow,
        resend,
        psn,
        size,
    } = *send;
    Event::Send(Send {
        time: TIME,
        flow,
        size,
        psn,
        resend,
    })
}

/// A copy in memory that is there.
fn copied<'a>(from: &Context, to: &'a mut Context) -> Lent<'a> {
    to.words.copy_from_slice(&from.words);
    to.flows.copy_from_slice(&from.flows);
    to.outstanding.copy_from_slice(&from.outstanding);
    to.marked.copy_from_slice(&from.marked);
    to.sizes.copy_from_slice(&from.sizes);
    to.sent.copy_from_slice(&from.sent);
    to.evs.copy_from_slice(&from.evs);
    to.lend()
}

/// All are accepted.
fn send_all(lent: &mut Lent, sends: &[Planned]) -> bool {
    sends.iter().all(|send| {
        let flow = send.flow as usize;
        lent.send(TIME, flow, send.psn, send.size, send.resend) == 0
    })
}

/// As many choices as a plan has sends, and what they name; all are accepted.
fn choose_all(lent: &mut Lent) -> bool {
    let mut turn = [0; TURN];
    (0..SENDS_MAX).all(|_| {
        let chosen = lent.choose(&mut turn) == 0;
        let named = Turn::of(&turn).filter(|_| chosen);
        named.is_some_and(|Turn { flow, resend, psn }| {
            lent.send(TIME, flow, psn, BYTES, resend) == 0
        })
    })
}
