//! Choices, and what comes of them.

use crate::call::Call;
use crate::sides::Model;
use crate::source::{Source, View};
use model::bounds::{SIZE_MIN, TIME_END};
use model::{Rng, Turn};
use nscc::{Word, FLOW_WORDS, TURN};

/// A choice. What is lent for its answer holds numbers that no choice writes; at times it is too
/// short or too long.
pub fn choice(rng: &mut Rng) -> Call {
    let length = if rng.one_in(12) {
        rng.pick(&[0, 1, 3, 5, 8])
    } else {
        TURN
    };
    let strange = |_| rng.next_u64() | 1 << 63;
    Call::Choose {
        turn: (0..length).map(strange).collect(),
    }
}

/// Moves the held turn, as choices between two parts of a log do.
pub fn move_turn(rng: &mut Rng, model: &mut Model) {
    let flows = model.table.len() / FLOW_WORDS;
    model.words[Word::Turn as usize] = rng.below(flows as u64);
}

/// The call sends the packet that a choice has named: in time, and with a size that it may have.
pub fn sends(call: &Call, turn: Turn, model: &Model) -> bool {
    let Call::Send {
        time,
        flow,
        psn,
        bytes,
        resend,
    } = *call
    else {
        return false;
    };
    let Some(view) = View::of(model, flow) else {
        return false;
    };
    let sizes = if resend {
        let size = view.size(psn).into();
        size..=size
    } else {
        u64::from(SIZE_MIN)..=most_new(&view)
    };
    (flow as u64, psn, resend) == (turn.flow, turn.psn, turn.resend)
        && (view.state.clock..TIME_END).contains(&time)
        && sizes.contains(&bytes.into())
}

/// The greatest size of a new packet of this flow.
fn most_new(view: &View) -> u64 {
    view.flow.backlog.min(view.state.settings.mtu)
}

impl Source {
    /// What a send loop does with what was named: nothing, or it sends it, at times with a path.
    pub fn follow(&mut self, model: &Model, turn: Turn) -> Vec<Call> {
        let flow = turn.flow as usize;
        let Some(view) = View::of(model, flow).filter(|_| self.rng.one_in(2)) else {
            return Vec::new();
        };
        let time = self.time(&view);
        let bytes = if turn.resend {
            view.size(turn.psn)
        } else {
            self.new_size(&view)
        };
        let send = Call::Send {
            time,
            flow,
            psn: turn.psn,
            bytes,
            resend: turn.resend,
        };
        if self.rng.one_in(2) {
            vec![Call::Path { time, flow }, send]
        } else {
            vec![send]
        }
    }

    /// The size of a new packet; one that is refused where the backlog is too short for any.
    fn new_size(&mut self, view: &View) -> u32 {
        let (least, most) = (u64::from(SIZE_MIN), most_new(view));
        let any = self.rng.between(least, most.max(least));
        let size = match self.profile.small {
            true => least,
            false => self.rng.pick(&[most, most, any, least]),
        };
        size as u32
    }
}
