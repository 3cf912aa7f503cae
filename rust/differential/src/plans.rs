//! How plans were answered.

use crate::call::Answer;
use crate::tally::NUMBERS;
use crate::words::sends_of;
use model::{Planned, SENDS_MAX};
use nscc::{Refusal, PLANNED};
use std::fmt;

#[derive(Clone, Copy, Debug, Default)]
pub struct Plans {
    /// Plans that were judged and accepted: of no sends, of some, and of 64.
    pub empty: u64,
    pub accepted: u64,
    pub longest: u64,
    /// Accepted ones with marked packets and new ones, and with several flows.
    pub mixed: u64,
    pub several: u64,
    /// Plans that were judged and refused, by number: as a whole, at their first send, at a later
    /// one, and at the 64th.
    pub whole: [u64; NUMBERS],
    pub first: [u64; NUMBERS],
    pub later: [u64; NUMBERS],
    pub last: u64,
    /// Refused at a packet that the plan itself has sent: as a new one, or again.
    pub own: u64,
    pub twice: u64,
    /// Plans that were made: of no sends, of some, of 64, and such that end where a shorter room
    /// does.
    pub nothing: u64,
    pub made: u64,
    pub full: u64,
    pub no_room: u64,
    /// Marked packets in them, and plans that have new ones beside these.
    pub resends: u64,
    pub both: u64,
    /// No plan was made, by number.
    pub unmade: [u64; NUMBERS],
}

impl Plans {
    /// The answer to a plan that was judged.
    pub fn note_judged(&mut self, plan: &[u32], answer: &Answer) {
        let number = usize::from(answer.outcome.number);
        let sends = sends_of(plan).unwrap_or_default();
        match (number, answer.shown) {
            (0, _) => self.note_accepted(&sends),
            (_, Some(fails)) => self.note_refused(&sends, fails as usize, number),
            (_, None) => self.whole[number] += 1,
        }
    }

    fn note_accepted(&mut self, sends: &[Planned]) {
        let several = sends.iter().any(|send| send.flow != sends[0].flow);
        self.empty += u64::from(sends.is_empty());
        self.accepted += u64::from(!sends.is_empty());
        self.longest += u64::from(sends.len() == SENDS_MAX);
        self.mixed += u64::from(has_both(sends));
        self.several += u64::from(several);
    }

    fn note_refused(&mut self, sends: &[Planned], fails: usize, number: usize) {
        let numbers = if fails == 0 {
            &mut self.first
        } else {
            &mut self.later
        };
        numbers[number] += 1;
        self.last += u64::from(fails == SENDS_MAX - 1);
        let failed = sends[fails];
        let sent = |resend| {
            let before = sends[..fails].iter();
            let mut same = before.filter(|send| (send.flow, send.psn) == (failed.flow, failed.psn));
            same.any(|send| send.resend == resend)
        };
        let again = failed.resend && number == Refusal::WrongPsn as usize;
        self.own += u64::from(again && sent(false));
        self.twice += u64::from(again && sent(true));
    }

    /// The answer to planning, in a room of so many numbers.
    pub fn note_planned(&mut self, room: usize, answer: &Answer) {
        let number = usize::from(answer.outcome.number);
        if number != 0 {
            self.unmade[number] += 1;
            return;
        }
        let sends = &answer.planned;
        let resends = sends.iter().filter(|send| send.resend).count();
        let filled = sends.len() == room / PLANNED && sends.len() < SENDS_MAX;
        self.nothing += u64::from(sends.is_empty());
        self.made += u64::from(!sends.is_empty());
        self.full += u64::from(sends.len() == SENDS_MAX);
        self.no_room += u64::from(filled);
        self.resends += resends as u64;
        self.both += u64::from(has_both(sends));
    }
}

/// Marked packets and new ones.
fn has_both(sends: &[Planned]) -> bool {
    let mut others = sends.iter();
    others.any(|send| send.resend != sends[0].resend)
}

impl fmt::Display for Plans {
    fn fmt(&self, f: &mut fmt::Formatter) -> fmt::Result {
        if self.made + self.nothing == 0 {
            return Ok(());
        }
        write!(
            f,
            "; plans judged: empty {}, accepted {}, of 64 {}, mixed {}, several flows {}, refused",
            self.empty, self.accepted, self.longest, self.mixed, self.several
        )?;
        by_number(f, &self.whole)?;
        write!(f, ", at once")?;
        by_number(f, &self.first)?;
        write!(f, ", later")?;
        by_number(f, &self.later)?;
        write!(
            f,
            ", at the 64th {}, own packets {}, twice {}; plans made: nothing {}, some {}, of 64 {}, \
             no room {}, resends {}, both {}, refused",
            self.last,
            self.own,
            self.twice,
            self.nothing,
            self.made,
            self.full,
            self.no_room,
            self.resends,
            self.both
        )?;
        by_number(f, &self.unmade)
    }
}

fn by_number(f: &mut fmt::Formatter, times: &[u64; NUMBERS]) -> fmt::Result {
    let met = times.iter().enumerate().filter(|(_, &times)| times > 0);
    for (number, times) in met {
        write!(f, " {number}:{times}")?;
    }
    Ok(())
}
