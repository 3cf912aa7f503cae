//! Planned sends (M-111) among random events: plans are made by the text, and judged by making
//! their sends one by one, each with number 2 in full.

use crate::flows::any_event;
use crate::plans::{again, made, new};
use crate::rig::*;
use crate::turns_random::expected;
use model::{Event, Flow, PlanRefusal, Planned, Rng, Settings};

/// What the planner is to plan, with a look at one PSN after the other for every turn.
pub fn by_turns(rig: &Rig, time: u64, size: u32, room: usize) -> Vec<Planned> {
    let mut rig = rig.clone();
    let mut plan = vec![];
    while plan.len() < room.min(64) {
        let Some(turn) = expected(&rig, rig.state.turn) else {
            break;
        };
        let planned = if turn.resend {
            let (_, recorded, _, _) = rig.slot_in(turn.flow as usize, turn.psn);
            again(turn.flow, turn.psn, recorded)
        } else {
            new(turn.flow, turn.psn, size)
        };
        rig.state.turn = (turn.flow + 1) % rig.memory.flows.len() as u64;
        if rig.take(made(time, &planned)).number != 0 {
            break;
        }
        plan.push(planned);
    }
    plan
}

/// The first send that is refused when they are made one after the other, and its number.
fn first_refused(rig: &Rig, time: u64, plan: &[Planned]) -> Option<(usize, u8)> {
    let mut rig = rig.clone();
    let made = plan.iter().map(|planned| made(time, planned));
    let numbers = made.map(|event| rig.take(event).number);
    numbers.enumerate().find(|&(_, number)| number != 0)
}

/// Sends of all flows that may be good as long as window, rings and backlogs last.
fn any_plan(rng: &mut Rng, rig: &Rig) -> Vec<Planned> {
    let mut flows = rig.memory.flows.clone();
    let small = rng.one_in(2);
    let sends = rng.pick(&[5, 20, 64, 80]);
    let mut plan = vec![];
    for _ in 0..rng.between(1, sends) {
        let flow = rng.below(flows.len() as u64) as usize;
        let Flow { low, next, .. } = &mut flows[flow];
        let psn = low.wrapping_add(rng.below(70) as u32);
        let (status, recorded, _, _) = rig.slot_in(flow, psn);
        if status == MARKED {
            plan.push(again(flow as u64, psn, recorded));
        } else {
            let any = rng.between(41, 4_096) as u32;
            plan.push(new(flow as u64, *next, if small { 41 } else { any }));
            *next = next.wrapping_add(1);
        }
    }
    plan
}

/// One field of one send becomes another, or two sends change places.
fn spoil(rng: &mut Rng, plan: &mut [Planned]) {
    let many = plan.len() as u64;
    let (number, other) = (rng.below(many) as usize, rng.below(many) as usize);
    let planned = &mut plan[number];
    match rng.below(5) {
        0 => planned.flow = rng.pick(&[0, 1, 8, u64::MAX]),
        1 => planned.resend = !planned.resend,
        2 => planned.psn = planned.psn.wrapping_add(rng.pick(&[1, u32::MAX])),
        3 => planned.size = rng.pick(&[0, 40, 41, 4_096, 4_097]),
        _ => plan.swap(number, other),
    }
}

/// What plans met, for tests that they are worth something.
#[derive(Default)]
struct Seen {
    accepted: u32,
    /// Plans refused at their first send, and later, by number.
    at_once: [u32; 28],
    later: [u32; 28],
    /// Plans made: empty, of 64 sends, ended by the room, and with both kinds of packets.
    empty: u32,
    full: u32,
    no_room: u32,
    mixed: u32,
}

impl Seen {
    /// The judge must answer as the sends do. Was the plan accepted?
    fn judge(&mut self, rig: &Rig, time: u64, plan: &[Planned]) -> bool {
        let mut judged = rig.clone();
        let answer = judged.judge(time, plan);
        assert_eq!(judged, *rig);
        let Err(PlanRefusal { refusal, send }) = answer else {
            assert!(plan.len() <= 64);
            assert_eq!(first_refused(rig, time, plan), None);
            self.accepted += 1;
            return true;
        };
        let number = refusal.number();
        if plan.len() > 64 {
            assert_eq!((number, send), (27, None));
        } else {
            let named = send.map(|send| (send, number));
            assert_eq!(named, first_refused(rig, time, plan));
        }
        let seen = match send {
            Some(0) | None => &mut self.at_once,
            Some(_) => &mut self.later,
        };
        seen[usize::from(number)] += 1;
        false
    }

    /// The planner must plan as the text says, and its plan be accepted.
    fn plan(&mut self, rig: &Rig, time: u64, size: u32, room: usize) -> Vec<Planned> {
        let mut planning = rig.clone();
        let plan = planning.plan(time, size, room).expect("a good time");
        assert_eq!(planning, *rig);
        assert_eq!(plan, by_turns(rig, time, size, room));
        assert!(self.judge(rig, time, &plan));
        let resends = plan.iter().filter(|planned| planned.resend).count();
        self.empty += u32::from(plan.is_empty());
        self.full += u32::from(plan.len() == 64);
        self.no_room += u32::from(plan.len() == room);
        self.mixed += u32::from(resends > 0 && resends < plan.len());
        plan
    }
}

/// A context of so many flows, near the PSN wrap, with a wide window or a narrow one.
fn any_context(rng: &mut Rng, flows: usize) -> Rig {
    let settings = Settings {
        max_wnd: rng.pick(&[4_096, 60_000, 614_400, 1 << 26]),
        first_psn: 4_294_967_295 - rng.below(100) as u32,
        quick_adapt_off: rng.one_in(2),
        ..e()
    };
    Rig::with_flows(settings, flows, 64)
}

#[test]
fn random_events_and_plans() {
    let mut rng = Rng::new(111);
    let mut seen = Seen::default();
    for context in 0..160 {
        let flows = 1 + context % 8;
        let few_acks = rng.pick(&[1, 20]);
        let mut rig = any_context(&mut rng, flows);
        for _ in 0..300 {
            let flow = rng.below(flows as u64) as usize;
            let event = any_event(&mut rng, &rig, flow);
            if !matches!(event, Event::Ack(_)) || rng.one_in(few_acks) {
                rig.take(of(flow as u64, event));
            }
            if !rng.one_in(8) {
                continue;
            }
            let time = rig.state.clock + rng.below(20);
            let size = rng.pick(&[41, 41, 500, 4_096, 40]);
            let room = rng.pick(&[0, 3, 64, 64, 64, 100]);
            let planned = seen.plan(&rig, time, size, room);
            let mut plan = any_plan(&mut rng, &rig);
            if rng.one_in(3) {
                spoil(&mut rng, &mut plan);
            }
            let good = seen.judge(&rig, time, &plan);
            if rng.one_in(2) {
                for planned in if good { plan } else { planned } {
                    rig.accept(made(time, &planned));
                }
            }
        }
    }
    let Seen {
        accepted,
        at_once,
        later,
        empty,
        full,
        no_room,
        mixed,
    } = seen;
    let met = [accepted, empty, full, no_room, mixed, at_once[27]];
    assert!(met.iter().all(|&times| times > 100), "{met:?}");
    for refused in [at_once, later] {
        let met = [25, 4, 8, 5, 7, 6].map(|number| refused[number]);
        assert!(met.iter().all(|&times| times > 10), "{met:?}");
    }
}
