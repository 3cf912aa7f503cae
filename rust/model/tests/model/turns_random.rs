//! Fair turns (M-108) among random events: every choice is held against the text.

use crate::flows::any_event;
use crate::rig::*;
use crate::turns::{again, new, with_turn};
use model::{gen, Event, Flow, Outcome, Reader, Rng, Settings, State, Turn};

/// What a flow has to send, by a look at one PSN after the other: a marked packet first.
fn due(rig: &Rig, flow: usize) -> Option<Turn> {
    let Flow {
        low, next, backlog, ..
    } = rig.memory.flows[flow];
    let packets = next.wrapping_sub(low);
    let mut psns = (0..packets).map(|i| low.wrapping_add(i));
    let marked = psns.find(|&psn| rig.status_in(flow, psn) == MARKED);
    let room = (packets as usize) < rig.capacity();
    match marked {
        Some(psn) => Some(again(flow as u64, psn)),
        None if backlog > 0 && room => Some(new(flow as u64, next)),
        None => None,
    }
}

fn dues(rig: &Rig) -> Vec<Option<Turn>> {
    let flows = 0..rig.memory.flows.len();
    flows.map(|flow| due(rig, flow)).collect()
}

fn window_full(rig: &Rig) -> bool {
    let State {
        in_flight, cwnd, ..
    } = rig.state;
    i128::from(in_flight) + i128::from(rig.state.settings.mtu) > i128::from(cwnd)
}

/// Who is named from this flow on: the first ready one that is not before it, else the first.
pub fn expected(rig: &Rig, from: u64) -> Option<Turn> {
    let dues = dues(rig);
    let ready = || dues.iter().copied().flatten();
    let not_before = ready().find(|turn| turn.flow >= from);
    let first = not_before.or_else(|| ready().next());
    first.filter(|_| !window_full(rig))
}

/// What choices met, for tests that they are worth something.
#[derive(Default)]
struct Seen {
    new: u32,
    again: u32,
    /// Nobody, with a full window and somebody ready.
    window_full: u32,
    /// Nobody, with an open window.
    none_ready: u32,
    /// Backlog that waits for a full ring; a marked packet of a full ring that was named.
    held_back: u32,
    full_named: u32,
    /// Named with a backlog that fills no packet.
    crumbs: u32,
    /// Flows that were ready all the time and chosen as late as may be, by the number of flows.
    latest: [u32; 9],
    /// A marked packet behind 2^32 whose low is before it.
    wrapped: u32,
    unsent: u32,
}

/// A context whose choices are held against the text of M-108. Who was named last is kept here.
struct Watch {
    rig: Rig,
    last: Option<usize>,
    /// How many choices have named another flow, while this one was ready at every choice.
    waited: Vec<usize>,
}

impl Watch {
    fn new(rig: Rig) -> Watch {
        Watch {
            last: None,
            waited: vec![0; rig.memory.flows.len()],
            rig,
        }
    }

    /// An event, which does not move the turn.
    fn take(&mut self, event: Event) -> Outcome {
        let turn = self.rig.state.turn;
        let outcome = self.rig.take(event);
        assert_eq!(self.rig.state.turn, turn, "{event:?}");
        outcome
    }

    /// The answer of both forms.
    fn answer(&mut self) -> Option<Turn> {
        let mut trusted = self.rig.clone();
        let answer = self.rig.choose().expect("a context that holds together");
        let lent = trusted.memory.lend();
        assert_eq!(trusted.state.choose_trusted(&lent), answer);
        assert_eq!(trusted, self.rig);
        assert!(self.rig.holds());
        answer
    }

    fn choose(&mut self, seen: &mut Seen) -> Option<Turn> {
        let before = self.rig.clone();
        let answer = self.answer();
        seen.note(&before, answer);
        let dues = dues(&before);
        // "No flow ready, or in-flight + MTU > cwnd: the answer is nobody."
        let none_ready = dues.iter().all(Option::is_none);
        assert_eq!(answer.is_none(), none_ready || window_full(&before));
        if let Some(turn) = answer {
            let named = turn.flow as usize;
            assert_eq!(dues[named], answer, "who is named is ready");
            self.check_round(&dues, named);
            // Nothing else changes.
            assert_eq!(with_turn(before, self.rig.state.turn), self.rig);
        } else {
            assert_eq!(self.rig, before, "the turn doesn't move");
        }
        self.check_waits(&dues, answer, seen);
        answer
    }

    /// "Turns go round from the flow after the last one named; at set-up from flow 0."
    fn check_round(&mut self, dues: &[Option<Turn>], named: usize) {
        let flows = dues.len();
        let mut flow = self.last.map_or(0, |last| last + 1) % flows;
        while flow != named {
            assert_eq!(dues[flow], None, "flow {named} was named before {flow}");
            flow = (flow + 1) % flows;
        }
        self.last = Some(named);
    }

    /// "A flow that is ready at every choice is chosen within as many choices that name somebody as
    /// there are flows."
    fn check_waits(&mut self, dues: &[Option<Turn>], answer: Option<Turn>, seen: &mut Seen) {
        let flows = dues.len();
        for (flow, due) in dues.iter().enumerate() {
            let named = answer.is_some_and(|turn| turn.flow == flow as u64);
            let waited = &mut self.waited[flow];
            seen.latest[flows] += u32::from(named && *waited == flows - 1);
            if named || due.is_none() {
                *waited = 0;
            } else {
                *waited += usize::from(answer.is_some());
            }
            assert!(*waited < flows, "flow {flow} waits too long");
        }
    }

    /// The named flow sends: its packet is never refused, if there are bytes enough for one.
    fn send(&mut self, rng: &mut Rng, small: bool, turn: Turn) -> bool {
        let time = self.rig.state.clock;
        let flow = turn.flow as usize;
        let event = if turn.resend {
            resend(time, turn.psn, self.rig.slot_in(flow, turn.psn).1)
        } else {
            let backlog = self.rig.memory.flows[flow].backlog;
            let most = backlog.min(self.rig.state.settings.mtu);
            let any = rng.between(41, most.max(41));
            let size = if small { 41 } else { rng.pick(&[any, most]) };
            if most < 41 {
                return false;
            }
            send(time, turn.psn, size as u32)
        };
        let outcome = self.take(of(turn.flow, event));
        assert_eq!(outcome.number, 0, "{turn:?}");
        true
    }
}

impl Seen {
    fn note(&mut self, before: &Rig, answer: Option<Turn>) {
        let dues = dues(before);
        let Some(turn) = answer else {
            let none_ready = dues.iter().all(Option::is_none);
            self.none_ready += u32::from(none_ready && !window_full(before));
            self.window_full += u32::from(!none_ready);
            return;
        };
        let capacity = before.capacity() as u32;
        let full = |flow: &Flow| flow.next.wrapping_sub(flow.low) == capacity;
        let records = &before.memory.flows;
        let mut idle = records.iter().zip(dues).filter(|(_, due)| due.is_none());
        let held_back = idle.any(|(flow, _)| flow.backlog > 0 && full(flow));
        self.held_back += u32::from(held_back);
        let named = &records[turn.flow as usize];
        if turn.resend {
            self.again += 1;
            self.full_named += u32::from(full(named));
            self.wrapped += u32::from(turn.psn < named.low);
        } else {
            self.new += 1;
            self.crumbs += u32::from(named.backlog < 41);
        }
    }
}

/// A context of so many flows, near the PSN wrap. The window is wide where rings are to be filled.
fn any_context(rng: &mut Rng, flows: usize, filling: bool) -> Watch {
    let any = rng.pick(&[4_096, 12_000, 60_000, 614_400]);
    let settings = Settings {
        max_wnd: if filling { 1 << 26 } else { any },
        first_psn: 4_294_967_295 - rng.below(100) as u32,
        quick_adapt_off: filling || rng.one_in(2),
        ..e()
    };
    Watch::new(Rig::with_flows(settings, flows, 64))
}

#[test]
fn random_events_and_choices() {
    let mut rng = Rng::new(108);
    let mut seen = Seen::default();
    for context in 0..400 {
        let flows = 1 + context % 8;
        // Small packets and few ACKs fill the rings.
        let filling = rng.one_in(4);
        let (few_acks, steps) = if filling { (100, 1_200) } else { (1, 400) };
        let sends = rng.pick(&[2, 5, 40]);
        let mut watch = any_context(&mut rng, flows, filling);
        for _ in 0..steps {
            if rng.one_in(2) {
                let flow = rng.below(flows as u64) as usize;
                let event = any_event(&mut rng, &watch.rig, flow);
                if !matches!(event, Event::Ack(_)) || rng.one_in(few_acks) {
                    watch.take(of(flow as u64, event));
                }
            } else if let Some(turn) = watch.choose(&mut seen) {
                let sent = !rng.one_in(sends) && watch.send(&mut rng, filling, turn);
                seen.unsent += u32::from(!sent);
            }
        }
    }
    let Seen {
        new,
        again,
        window_full,
        none_ready,
        held_back,
        full_named,
        crumbs,
        latest,
        wrapped,
        unsent,
    } = seen;
    let met = [new, again, window_full, none_ready, unsent];
    assert!(met.iter().all(|&times| times > 1_000), "{met:?}");
    let met = [held_back, full_named, crumbs, wrapped];
    assert!(met.iter().all(|&times| times > 100), "{met:?}");
    assert!(latest[1..].iter().all(|&times| times > 100), "{latest:?}");
}

/// Logs with choices between their records, of a sender that does not ask whose turn it is.
#[test]
fn logs_with_choices_between() {
    let mut rng = Rng::new(801);
    let mut seen = Seen::default();
    for seed in 0..24 {
        for make in [gen::flows, gen::hostile] {
            let log = make(seed, 1_000);
            let mut reader = Reader::new(&log);
            let first = reader.next_record().ok().flatten();
            let settings = first.and_then(|record| record.settings());
            let Some(settings) = settings.filter(Settings::in_range) else {
                continue;
            };
            let mut watch = Watch::new(Rig::with_flows(settings, 8, 512));
            while let Ok(Some(record)) = reader.next_record() {
                let Some(event) = record.event() else {
                    break;
                };
                watch.take(event);
                for _ in 0..rng.below(3) {
                    watch.choose(&mut seen);
                }
            }
        }
    }
    let met = [seen.new, seen.again, seen.window_full, seen.none_ready];
    assert!(met.iter().all(|&times| times > 100), "{met:?}");
    assert!(seen.held_back > 10 && seen.latest[8] > 10);
}
