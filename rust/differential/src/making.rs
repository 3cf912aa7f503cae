//! The sends that a plan speaks of, made one by one.

use crate::call::{Answer, Call};
use crate::sides::Ours;
use crate::words::{plan_of, sends_of};
use model::Planned;

/// What was said of a plan is what comes of its sends, made in a copy of the memory. A plan that was
/// made must be accepted by the judge, too.
pub fn make(ours: &Ours, call: &Call, answer: &Answer) -> Result<(), String> {
    match call {
        Call::Judge { time, plan } => {
            let sends = sends_of(plan).unwrap_or_default();
            make_sends(ours.clone(), *time, &told(&sends, answer))
        }
        Call::Plan { time, .. } => {
            let mut copy = ours.clone();
            let plan = plan_of(&answer.planned);
            let judged = copy.lend().show().judge(*time, &plan);
            // A refused time is refused here as well.
            if judged != answer.outcome.number.into() {
                return Err(format!("what was planned is judged {judged:#x}"));
            }
            let accepted: Vec<(Planned, u8)> =
                answer.planned.iter().map(|&send| (send, 0)).collect();
            make_sends(copy, *time, &accepted)
        }
        _ => Ok(()),
    }
}

/// Each send of a plan that was judged, with its number, up to the first that fails.
fn told(sends: &[Planned], answer: &Answer) -> Vec<(Planned, u8)> {
    let number = answer.outcome.number;
    let good = match (number, answer.shown) {
        (0, _) => sends.len(),
        (_, Some(fails)) => fails as usize,
        // Refused as a whole.
        (_, None) => return Vec::new(),
    };
    let numbers = (0..sends.len()).map(|i| if i < good { 0 } else { number });
    sends.iter().copied().zip(numbers).take(good + 1).collect()
}

fn make_sends(mut ours: Ours, time: u64, told: &[(Planned, u8)]) -> Result<(), String> {
    for (i, (send, number)) in told.iter().enumerate() {
        let Planned {
            flow,
            resend,
            psn,
            size,
        } = *send;
        let made = ours.lend().send(time, flow as usize, psn, size, resend);
        if made != u32::from(*number) {
            return Err(format!("send {i} of the plan: {made}, judged {number}"));
        }
    }
    Ok(())
}
