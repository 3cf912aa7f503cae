//! What `examples/card.c` is to print, worked out by the model.

use differential::{answer_of, plan_of, Answer, Call, Model};
use model::gen::E;
use model::{Flow, Outcome, Planned, Settings};
use nscc::{sampled, Ack, Nack, Sample, Status, Word, PLANNED, TURN};
use std::fmt::Write;

struct Card {
    model: Model,
    samples: Vec<Sample>,
    text: String,
}

impl Card {
    fn show(&mut self, name: &str, call: Call) -> Outcome {
        let outcome = self.model.answer(&call).outcome;
        self.show_state(name, outcome);
        outcome
    }

    fn show_state(&mut self, name: &str, outcome: Outcome) {
        let state = self.model.state().expect("words of a state");
        self.line(&format!(
            "{name} {} {} {} {} {} {} {}",
            outcome.number,
            state.in_flight,
            state.cwnd,
            state.flying,
            state.marked,
            state.backlog,
            state.name
        ));
    }

    /// An ACK or a NACK, which must be accepted.
    fn show_sample(&mut self, name: &str, call: Call) {
        let answer = answer_of(self.show(name, call));
        let sample = sampled(answer).expect("accepted");
        self.line(&format!("{name}: {sample}"));
        self.samples.push(sample);
    }

    fn line(&mut self, line: &str) {
        writeln!(self.text, "{line}").expect("a String takes it");
    }

    fn send(&mut self, name: &str, time: u64, flow: usize, psn: u32, resend: bool) {
        let bytes = 4096;
        self.show(
            name,
            Call::Send {
                time,
                flow,
                psn,
                bytes,
                resend,
            },
        );
    }

    /// An ACK of flow 0.
    fn ack(&mut self, name: &str, time: u64, psn: u32, count: u32, ev: u32, retx: bool) {
        let ack = Ack {
            time,
            flow: 0,
            cum: psn,
            map: 0,
            trigger: psn,
            count,
            service: 4,
            ev,
            marked: false,
            retx,
        };
        self.show_sample(name, Call::Ack(ack));
    }

    /// What a flow's ring shows of a packet.
    fn status(&mut self, flow: usize, psn: u32) {
        let shown = self.model.answer(&Call::Status { flow, psn }).shown;
        let status = Status::of(shown.expect("a sound state"));
        let status = status.map_or("none".to_string(), |status| status.to_string());
        self.line(&format!("flow {flow}, PSN {psn}: {status}"));
    }

    fn flows(&self) -> Vec<Flow> {
        self.model.flows().expect("words of a table")
    }

    fn oldest_marked(&mut self, flow: usize) -> u32 {
        let psn = self.flows()[flow].low;
        let shown = self.model.answer(&Call::NextMarked { flow, psn }).shown;
        shown.expect("a sound state")
    }

    fn new_data(&mut self, time: u64, flow: usize, bytes: u64) {
        let name = format!("flow-{flow}-new-data");
        self.show(&name, Call::NewData { time, flow, bytes });
    }

    fn choose(&mut self) -> Answer {
        let turn = vec![0; TURN];
        self.model.answer(&Call::Choose { turn })
    }

    /// Who is named takes a path and sends, until nobody is named.
    fn send_by_turns(&mut self, time: u64) {
        let mut answer = self.choose();
        while let Some(turn) = answer.named {
            let (flow, psn) = (turn.flow as usize, turn.psn);
            let again = if turn.resend { " again" } else { "" };
            let path = self.model.answer(&Call::Path { time, flow });
            let ev = path.outcome.ev.expect("accepted");
            self.line(&format!("flow {flow}: PSN {psn}{again} on EV {ev}"));
            self.send("send", time, flow, psn, turn.resend);
            answer = self.choose();
        }
        self.show_state("choose", answer.outcome);
        self.show_turn();
    }

    fn show_turn(&mut self) {
        let first = self.model.words[Word::Turn as usize];
        self.line(&format!("the next round starts with flow {first}"));
    }

    /// So many sends by turns.
    fn plan(&mut self, time: u64, sends: usize) -> Vec<Planned> {
        let (bytes, room) = (4096, vec![0; sends * PLANNED]);
        self.model.answer(&Call::Plan { time, bytes, room }).planned
    }

    fn judge(&mut self, time: u64, sends: &[Planned]) {
        let plan = plan_of(sends);
        let answer = self.model.answer(&Call::Judge { time, plan });
        let said = match answer.shown {
            Some(send) => format!("send {send} is refused with {}", answer.outcome.number),
            None => "accepted".to_string(),
        };
        self.line(&format!("a plan of {} sends: {said}", sends.len()));
    }

    fn path(&mut self, time: u64, flow: usize) -> u32 {
        let outcome = self.show("path", Call::Path { time, flow });
        let ev = outcome.ev.expect("accepted");
        self.line(&format!("EV {ev}"));
        ev.into()
    }
}

/// The worked example of 01.
fn worked(card: &mut Card) {
    let settings = Settings::from_numbers(E, 0, false);
    card.show("set-up", Call::set_up(&settings));
    let (time, flow, bytes) = (0, 0, 8192);
    card.show("new-data", Call::NewData { time, flow, bytes });
    card.send("send-0", 10, 0, 0, false);
    let before = card.model.clone();
    card.send("send-2", 20, 0, 2, false);
    assert_eq!(card.model, before);
    card.line("refused, and nothing changed");
    card.ack("ack-0", 110, 0, 16, 0, false);
}

/// A packet that is trimmed, sent again and acknowledged twice.
fn trimmed(card: &mut Card) {
    let ev = card.path(120, 0);
    card.send("send-1", 130, 0, 1, false);
    let nack = Nack {
        time: 230,
        flow: 0,
        psn: 1,
        ev,
        reason: 0,
        marked: false,
        retx: false,
    };
    card.show_sample("nack-1", Call::Nack(nack));
    let until = card.model.memory.ev_times[ev as usize];
    card.line(&format!("EV {ev} is avoided until {until}"));
    let again = card.oldest_marked(0);
    card.status(0, again);
    let ev = card.path(235, 0);
    card.send("resend-1", 240, 0, again, true);
    card.status(0, again);
    card.ack("ack-1", 340, 1, 32, ev, true);
    card.status(0, again);
    card.ack("copy", 341, 1, 32, ev, true);
}

/// A packet of flow 1.
fn other(card: &mut Card) {
    let flow = 1;
    card.new_data(350, flow, 4096);
    let ev = card.path(355, flow);
    card.send("flow-1-send-0", 360, flow, 0, false);
    card.status(flow, 0);
    card.status(0, 0);
    let ack = Ack {
        time: 460,
        flow,
        cum: 0,
        map: 0,
        trigger: 0,
        count: 16,
        service: 4,
        ev,
        marked: false,
        retx: false,
    };
    card.show_sample("flow-1-ack-0", Call::Ack(ack));
    for (at, Flow { next, held, .. }) in card.flows().into_iter().enumerate() {
        card.line(&format!("flow {at}: next {next}, received {held} * 256"));
    }
}

/// Both flows by turns, and a packet that goes again.
fn both(card: &mut Card) {
    card.new_data(470, 0, 12_288);
    card.new_data(470, 1, 8192);
    card.send_by_turns(480);
    let nack = Nack {
        time: 580,
        flow: 1,
        psn: 1,
        ev: 4,
        reason: 2,
        marked: false,
        retx: false,
    };
    card.show_sample("flow-1-nack-1", Call::Nack(nack));
    card.new_data(585, 1, 4096);
    card.new_data(585, 0, 4096);
    card.send_by_turns(590);
}

/// A plan with the packet that goes again once more behind it, then without.
fn planned(card: &mut Card) {
    let nack = Nack {
        time: 592,
        flow: 1,
        psn: 2,
        ev: 6,
        reason: 2,
        marked: false,
        retx: false,
    };
    card.show_sample("flow-1-nack-2", Call::Nack(nack));
    card.new_data(592, 0, 12_288);
    let mut sends = card.plan(595, 3);
    sends.push(sends[1]);
    card.judge(595, &sends);
    sends.pop();
    card.judge(595, &sends);
    for Planned {
        flow, resend, psn, ..
    } in sends
    {
        let again = if resend { " again" } else { "" };
        card.line(&format!("flow {flow}: PSN {psn}{again} as planned"));
        card.send("send", 595, flow as usize, psn, resend);
    }
    card.show_turn();
}

/// New data of a flow that there is not.
fn no_flow(card: &mut Card) {
    let before = card.model.clone();
    card.new_data(600, 2, 4096);
    assert_eq!(card.model, before);
    card.line("refused, and nothing changed");
}

/// How often each came.
fn count(card: &mut Card) {
    let times = |sample| card.samples.iter().filter(|&&s| s == sample).count();
    let [taken, cut, gone, ambiguous, not_positive] = Sample::ALL.map(times);
    card.line(&format!(
        "samples {taken}, cut {cut}, gone {gone}, ambiguous {ambiguous}, not positive {not_positive}"
    ));
}

#[test]
fn card() {
    let mut card = Card {
        model: Model::empty(2, 64),
        samples: Vec::new(),
        text: String::new(),
    };
    card.line("call ans inflight cwnd flying waiting backlog state");
    worked(&mut card);
    trimmed(&mut card);
    let state = card.model.state().expect("words of a state");
    let (base, avg) = (state.base, state.avg);
    card.line(&format!("base {base}, average {avg}/1024 ticks"));
    other(&mut card);
    both(&mut card);
    planned(&mut card);
    count(&mut card);
    no_flow(&mut card);
    card.model.words[Word::Cwnd as usize] = 0;
    let (time, flow, bytes) = (600, 0, 1);
    let refused = card.model.answer(&Call::NewData { time, flow, bytes });
    card.line(&format!("a window of 0: {}", refused.outcome.number));

    let file = concat!(env!("CARGO_MANIFEST_DIR"), "/../../examples/card.out");
    let expected = std::fs::read_to_string(file).expect("examples/card.out");
    assert_eq!(card.text, expected);
}
