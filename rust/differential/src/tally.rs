//! What was compared, so that one can see that it was worth something.

use crate::call::{Answer, Call};
use crate::choices::Choices;
use crate::plans::Plans;
use crate::sides::Model;
use crate::words::state_of;
use model::{Flow, Outcome, Sampling};
use nscc::{Refusal, Word, FLOWS_MAX, IN_FLIGHT_ADDED, WORDS};
use std::fmt;

/// Room for every number of an answer.
pub const NUMBERS: usize = Refusal::LogTooLong as usize + 1;

/// PSNs so far from 2^32 are near it.
const NEAR: u32 = 1 << 13;

/// The letters of M-103.
pub const LETTERS: [char; 5] = ['s', 'c', 'g', 'a', 'n'];

#[derive(Clone, Debug, Default)]
pub struct Tally {
    /// Streams, states or logs.
    pub cases: u64,
    /// Answers by number.
    pub answers: [u64; NUMBERS],
    /// What accepted ACKs and NACKs said of their samples, in the order of [`LETTERS`].
    pub samples: [u64; LETTERS.len()],
    /// What the ring showed of a PSN: none, flying, marked, done.
    pub statuses: [u64; 4],
    pub choices: Choices,
    pub plans: Plans,
    pub seen: Seen,
}

/// How often accepted calls did what is easily missed.
#[derive(Clone, Copy, Debug, Default)]
pub struct Seen {
    pub cuts: u64,
    pub quick_adapts: u64,
    pub fast_modes: u64,
    /// cwnd was above its new ceiling.
    pub clamps: u64,
    pub psn_wraps: u64,
    pub count_wraps: u64,
    pub below_zero: u64,
    /// EVs over 255 that were taken.
    pub far_paths: u64,
    /// The last EV was taken.
    pub cursor_wraps: u64,
    /// inc_bytes or a tally has come to its stop.
    pub stops: u64,
    /// Calls for a flow whose ring is full.
    pub full_rings: u64,
    /// Calls for a flow whose ring is not full, while that of another is.
    pub full_beside: u64,
    /// Calls while the PSNs of one flow are before 2^32, and those of another behind it.
    pub half_wrapped: u64,
    /// Calls by their flow.
    pub flows: [u64; FLOWS_MAX],
    /// The next marked packet was another one than was asked about.
    pub marked_ahead: u64,
}

/// What there was before a call.
pub struct Before {
    words: [u64; WORDS],
    pub flows: Vec<Flow>,
}

impl Before {
    pub fn word(&self, word: Word) -> u64 {
        self.words[word as usize]
    }
}

impl Tally {
    /// `None` for words that no state or no table has.
    pub fn before(model: &Model) -> Option<Before> {
        Some(Before {
            words: model.words.as_slice().try_into().ok()?,
            flows: model.flows()?,
        })
    }

    pub fn note(&mut self, call: &Call, answer: &Answer, before: Option<Before>, after: &Model) {
        self.count(answer.outcome);
        let slots = after.memory.sizes.len();
        match call {
            Call::Choose { .. } => self.choices.note(answer, before.as_ref(), slots),
            Call::Judge { plan, .. } => self.plans.note_judged(plan, answer),
            Call::Plan { room, .. } => self.plans.note_planned(room.len(), answer),
            _ => {}
        }
        let before = before.filter(|_| answer.outcome.number == 0);
        let (Some(at), Some(before), Some(flows)) = (call.flow(), before, after.flows()) else {
            return;
        };
        let was = before.flows[at];
        self.seen.note_flow(at, &before, slots);
        match (call, answer.shown) {
            (Call::Status { .. }, Some(status)) => self.statuses[status as usize] += 1,
            (Call::NextMarked { psn, .. }, Some(marked)) => {
                let ahead = marked != *psn && marked != was.next;
                self.seen.marked_ahead += u64::from(ahead);
            }
            _ => {
                self.seen.note(&before.words, &after.words);
                self.seen.note_wraps(&was, &flows[at]);
            }
        }
    }

    pub fn count(&mut self, outcome: Outcome) {
        self.tell(outcome.number, outcome.sampling.map(Sampling::letter));
    }

    /// An answer by its number and letter.
    pub fn tell(&mut self, number: u8, letter: Option<char>) {
        self.answers[usize::from(number)] += 1;
        let told = LETTERS.into_iter().zip(&mut self.samples);
        for (_, times) in told.filter(|(each, _)| Some(*each) == letter) {
            *times += 1;
        }
    }

    pub fn calls(&self) -> u64 {
        self.answers.iter().sum()
    }
}

impl Seen {
    /// Which flow the call is for, and what its ring and the others' are like, in so many slots.
    fn note_flow(&mut self, at: usize, before: &Before, slots: usize) {
        let capacity = slots / before.flows.len();
        let full = |flow: &Flow| flow.span() as usize == capacity;
        let own = full(&before.flows[at]);
        let beside = !own && before.flows.iter().any(full);
        self.full_rings += u64::from(own);
        self.full_beside += u64::from(beside);
        let mut nexts = before.flows.iter().map(|flow| flow.next);
        let half = nexts.clone().any(|next| next < NEAR) && nexts.any(|next| next >= !NEAR);
        self.half_wrapped += u64::from(half);
        self.flows[at] += 1;
    }

    /// An event changes no flow but its own.
    fn note_wraps(&mut self, was: &Flow, is: &Flow) {
        self.psn_wraps += u64::from(is.next < was.next);
        self.count_wraps += u64::from(is.held < was.held);
    }

    fn note(&mut self, before: &[u64], after: &[u64]) {
        let was = |word: Word| before[word as usize];
        let is = |word: Word| after[word as usize];
        let changed = |word: Word| was(word) != is(word);
        let stopped = |word: Word, at: u64| is(word) == at && was(word) < at;
        let tallies = [Word::Received, Word::Achieved, Word::Ignored, Word::FiCount];
        let stop =
            stopped(Word::IncBytes, 1 << 60) || tallies.iter().any(|&word| stopped(word, 1 << 40));
        self.cuts += u64::from(changed(Word::LastDec));
        self.quick_adapts += u64::from(changed(Word::BytesToIgnore));
        self.fast_modes += u64::from(is(Word::Fast) > was(Word::Fast));
        self.clamps += u64::from(state_of(after).is_some_and(|s| was(Word::Cwnd) > s.max_wnd()));
        self.below_zero += u64::from(is(Word::InFlight) < IN_FLIGHT_ADDED as u64);
        let behind = changed(Word::Cursor).then_some(is(Word::Cursor));
        self.far_paths += u64::from(behind.is_some_and(|cursor| cursor > 256));
        self.cursor_wraps += u64::from(behind == Some(0));
        self.stops += u64::from(stop);
    }
}

impl fmt::Display for Tally {
    fn fmt(&self, f: &mut fmt::Formatter) -> fmt::Result {
        write!(f, "{} cases, {} answers:", self.cases, self.calls())?;
        for (number, times) in self.answers.iter().enumerate() {
            if *times > 0 {
                write!(f, " {number}:{times}")?;
            }
        }
        for (letter, times) in LETTERS.iter().zip(self.samples) {
            if times > 0 {
                write!(f, " {letter}:{times}")?;
            }
        }
        if self.statuses.iter().any(|&times| times > 0) {
            write!(f, "; statuses {:?}", self.statuses)?;
        }
        write!(f, "{}{}", self.choices, self.plans)?;
        let seen = &self.seen;
        if seen.cuts > 0 {
            write!(
                f,
                "; cuts {}, quick adapts {}, fast modes {}, clamps {}, PSN wraps {}, \
                 count wraps {}, below zero {}, EVs over 255 {}, cursor wraps {}, stops {}, \
                 full rings {}, full beside {}, half wrapped {}, marked ahead {}, flows {:?}",
                seen.cuts,
                seen.quick_adapts,
                seen.fast_modes,
                seen.clamps,
                seen.psn_wraps,
                seen.count_wraps,
                seen.below_zero,
                seen.far_paths,
                seen.cursor_wraps,
                seen.stops,
                seen.full_rings,
                seen.full_beside,
                seen.half_wrapped,
                seen.marked_ahead,
                seen.flows
            )?;
        }
        Ok(())
    }
}
