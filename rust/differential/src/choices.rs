//! How choices were answered.

use crate::call::Answer;
use crate::tally::Before;
use model::bounds::SIZE_MIN;
use model::{Flow, Turn};
use nscc::{Word, FLOWS_MAX, IN_FLIGHT_ADDED};
use std::fmt;

#[derive(Clone, Copy, Debug, Default)]
pub struct Choices {
    /// A marked packet was named, or a new one.
    pub marked: u64,
    pub new: u64,
    /// Nobody was named, because the window is full: there is a flow that is ready.
    pub window_full: u64,
    /// Nobody was named, because no flow is ready: the window is open.
    pub none_ready: u64,
    pub refused: u64,
    /// Refused where the held turn names no flow.
    pub no_flow: u64,
    /// What was named was then sent.
    pub sent: u64,
    /// A marked packet was named whose ring is full.
    pub full_rings: u64,
    /// A flow was passed over that has backlog: its ring is full.
    pub held_back: u64,
    /// A flow before the held turn was named.
    pub rounds: u64,
    /// The backlog of the flow that was named fills no packet, and nothing of it is marked.
    pub crumbs: u64,
    /// Choices that named somebody, by the number of flows.
    pub flows: [u64; FLOWS_MAX],
}

impl Choices {
    /// The answer to a choice, in so many slots.
    pub fn note(&mut self, answer: &Answer, before: Option<&Before>, slots: usize) {
        let refused = answer.outcome.number != 0;
        self.refused += u64::from(refused);
        let Some(before) = before else {
            return;
        };
        if refused {
            let no_flow = before.word(Word::Turn) >= before.flows.len() as u64;
            self.no_flow += u64::from(no_flow);
        } else if let Some(turn) = answer.named {
            self.note_named(turn, before, slots);
        } else {
            self.note_nobody(before, slots);
        }
    }

    fn note_named(&mut self, turn: Turn, before: &Before, slots: usize) {
        let flows = &before.flows;
        let many = flows.len() as u64;
        let held = before.word(Word::Turn);
        let named = flows[turn.flow as usize];
        let full = named.span() as usize == slots / flows.len();
        let passed = (turn.flow + many - held) % many;
        let passed = (0..passed).map(|step| flows[((held + step) % many) as usize]);
        let crumb = !turn.resend && named.backlog < SIZE_MIN.into();
        self.marked += u64::from(turn.resend);
        self.new += u64::from(!turn.resend);
        self.full_rings += u64::from(full);
        self.held_back += u64::from(has_backlog(passed));
        self.rounds += u64::from(turn.flow < held);
        self.crumbs += u64::from(crumb);
        self.flows[flows.len() - 1] += 1;
    }

    fn note_nobody(&mut self, before: &Before, slots: usize) {
        let flows = &before.flows;
        let capacity = slots / flows.len();
        let [in_flight, mtu, cwnd] =
            [Word::InFlight, Word::Mtu, Word::Cwnd].map(|word| before.word(word));
        let open = in_flight + mtu <= cwnd + IN_FLIGHT_ADDED as u64;
        let with_room = flows
            .iter()
            .filter(|flow| (flow.span() as usize) < capacity);
        let ready = before.word(Word::Marked) > 0 || has_backlog(with_room.copied());
        self.window_full += u64::from(!open && ready);
        self.none_ready += u64::from(open);
        self.held_back += u64::from(open && has_backlog(flows.iter().copied()));
    }
}

fn has_backlog(mut flows: impl Iterator<Item = Flow>) -> bool {
    flows.any(|flow| flow.backlog > 0)
}

impl fmt::Display for Choices {
    fn fmt(&self, f: &mut fmt::Formatter) -> fmt::Result {
        if self.new + self.refused == 0 {
            return Ok(());
        }
        write!(
            f,
            "; choices: marked {}, new {}, window full {}, none ready {}, refused {}, \
             turns of no flow {}, sent {}, full rings {}, held back {}, rounds {}, crumbs {}, \
             flows {:?}",
            self.marked,
            self.new,
            self.window_full,
            self.none_ready,
            self.refused,
            self.no_flow,
            self.sent,
            self.full_rings,
            self.held_back,
            self.rounds,
            self.crumbs,
            self.flows
        )
    }
}
