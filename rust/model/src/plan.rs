//! Planned sends (M-111): a judge of the plans of others, and a simple planner. Both make the sends
//! on a copy of state and lent memory, so they change nothing, and the held turn does not move.

use crate::event::Send;
use crate::lent::{Lent, Memory};
use crate::refusal::Refusal;
use crate::state::State;
use crate::turn::Turn;
use std::iter;

/// A plan has at most so many sends.
pub const SENDS_MAX: usize = 64;

/// One send of a plan.
#[derive(Clone, Copy, Debug, PartialEq, Eq)]
pub struct Planned {
    pub flow: u64,
    /// A marked packet goes; else a new one.
    pub resend: bool,
    pub psn: u32,
    pub size: u32,
}

/// Why a plan is refused.
#[derive(Clone, Copy, Debug, PartialEq, Eq)]
pub struct PlanRefusal {
    pub refusal: Refusal,
    /// The first send that fails, from 0 on; 2, 3 and 27 name none.
    pub send: Option<usize>,
}

impl From<Refusal> for PlanRefusal {
    fn from(refusal: Refusal) -> PlanRefusal {
        let send = None;
        PlanRefusal { refusal, send }
    }
}

impl State {
    /// Accepts a plan exactly if each send, made in this order at this time, would be accepted.
    pub fn judge(&self, lent: &Lent, time: u64, plan: &[Planned]) -> Result<(), PlanRefusal> {
        let mut trial = Trial::new(self, lent, time)?;
        Refusal::PlanTooLong.unless(plan.len() <= SENDS_MAX)?;
        for (number, planned) in plan.iter().enumerate() {
            let send = Some(number);
            trial
                .send(planned)
                .map_err(|refusal| PlanRefusal { refusal, send })?;
        }
        Ok(())
    }

    /// Plans by M-108's turns, with new packets of this size: until nobody is named, a send would
    /// be refused, or there are 64 sends or as many as there is room for. 2, then 3, give no plan.
    pub fn plan(
        &self,
        lent: &Lent,
        time: u64,
        size: u32,
        room: usize,
    ) -> Result<Vec<Planned>, Refusal> {
        let mut trial = Trial::new(self, lent, time)?;
        let sends = iter::from_fn(|| trial.send_next(size));
        Ok(sends.take(room.min(SENDS_MAX)).collect())
    }
}

/// The copy on which the sends of one instant are made.
struct Trial {
    state: State,
    memory: Memory,
    time: u64,
}

impl Trial {
    /// Number 2 is tested here and kept by every send.
    fn new(state: &State, lent: &Lent, time: u64) -> Result<Trial, Refusal> {
        state.together(lent)?;
        state.time_allowed(time)?;
        Ok(Trial {
            state: *state,
            memory: lent.copied(),
            time,
        })
    }

    fn send(&mut self, planned: &Planned) -> Result<(), Refusal> {
        let event = Send {
            time: self.time,
            flow: planned.flow,
            size: planned.size,
            psn: planned.psn,
            resend: planned.resend,
        };
        self.state.try_send(&mut self.memory.lend(), &event)
    }

    /// The send of the flow whose turn it is: a marked packet with its recorded size, else a new
    /// one of this size. `None` where nobody is named, or the send is refused.
    fn send_next(&mut self, size: u32) -> Option<Planned> {
        let lent = self.memory.lend();
        let Turn { flow, resend, psn } = self.state.choose_trusted(&lent)?;
        let ring = lent.ledger(flow).ok()?.ring;
        let size = if resend {
            ring.size(ring.slot(psn))
        } else {
            size
        };
        let planned = Planned {
            flow,
            resend,
            psn,
            size,
        };
        self.send(&planned).ok()?;
        Some(planned)
    }
}
