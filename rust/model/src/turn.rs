//! Fair turns (M-108): which flow sends next. A choice is no event: it has no time and no record in
//! the log, tests number 2 only and changes nothing but the held turn.

use crate::lent::Lent;
use crate::refusal::Refusal;
use crate::state::State;

/// The flow that is named, and the packet that it has to send.
#[derive(Clone, Copy, Debug, PartialEq, Eq)]
pub struct Turn {
    pub flow: u64,
    /// A marked packet goes; else a new one.
    pub resend: bool,
    /// The marked packet nearest to low; for a new one next.
    pub psn: u32,
}

impl State {
    /// Names the flow whose turn it is, and the turn moves behind it, whether it then sends or not.
    /// `None` is nobody: no flow is ready or the window is full, and the turn stays.
    pub fn choose(&mut self, lent: &Lent) -> Result<Option<Turn>, Refusal> {
        self.together(lent)?;
        Ok(self.choose_trusted(lent))
    }

    /// The same without number 2.
    pub fn choose_trusted(&mut self, lent: &Lent) -> Option<Turn> {
        if !self.window_open() {
            return None;
        }
        let flows = lent.flows.len() as u64;
        let mut round = (0..flows).map(|step| (self.turn + step) % flows);
        let named = round.find_map(|flow| turn_of(lent, flow))?;
        self.turn = (named.flow + 1) % flows;
        Some(named)
    }
}

/// What a flow has to send, a marked packet first; `None` where it is not ready. A full ring keeps
/// new packets back, and marked ones not: they have their slots.
fn turn_of(lent: &Lent, flow: u64) -> Option<Turn> {
    let ledger = lent.ledger(flow).ok()?;
    let record = ledger.flow;
    let ring_full = record.span() as usize >= ledger.ring.capacity();
    // Where nothing is marked this is next: the PSN of a new packet.
    let psn = ledger.first_marked(record.low);
    let resend = psn != record.next;
    let ready = resend || (record.backlog > 0 && !ring_full);
    ready.then_some(Turn { flow, resend, psn })
}
