use crate::refusal::{answer, Refusal};
use crate::word::{PlannedWord, PLANNED};
use std::error::Error;
use std::fmt;

/// A send of a plan.
#[derive(Clone, Copy, Debug, PartialEq, Eq)]
pub struct Planned {
    pub flow: usize,
    /// A marked packet once more; else a new one.
    pub resend: bool,
    pub psn: u32,
    pub size: u32,
}

impl Planned {
    /// Of its numbers in a plan.
    pub fn of(numbers: &[u32; PLANNED]) -> Planned {
        let number = |word: PlannedWord| numbers[word as usize];
        Planned {
            flow: number(PlannedWord::Flow) as usize,
            resend: number(PlannedWord::Resend) != 0,
            psn: number(PlannedWord::Psn),
            size: number(PlannedWord::Size),
        }
    }

    /// Its numbers in the header's order. A flow that is wider is refused alike as the widest.
    pub fn numbers(&self) -> [u32; PLANNED] {
        let flow = self.flow.try_into().unwrap_or(u32::MAX);
        [flow, self.resend.into(), self.psn, self.size]
    }
}

/// Why a plan was refused.
#[derive(Clone, Copy, Debug, PartialEq, Eq)]
pub struct PlanRefusal {
    pub refusal: Refusal,
    /// The first send that fails, from 0 on. `Unsound`, `Time` and `PlanTooLong` name none.
    pub send: Option<usize>,
}

impl fmt::Display for PlanRefusal {
    fn fmt(&self, f: &mut fmt::Formatter) -> fmt::Result {
        if let Some(send) = self.send {
            write!(f, "send {send}: ")?;
        }
        write!(f, "{}", self.refusal)
    }
}

impl Error for PlanRefusal {}

/// What the judge's answer says.
pub fn judged(word: u64) -> Result<(), PlanRefusal> {
    let Err(refusal) = answer(word) else {
        return Ok(());
    };
    let send = match refusal {
        Refusal::Unsound | Refusal::Time | Refusal::PlanTooLong => None,
        _ => Some((word >> 32) as usize),
    };
    Err(PlanRefusal { refusal, send })
}
