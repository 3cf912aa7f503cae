//! A list of calls from a start on, compared after every call.

use crate::call::{Answer, Beside, Call};
use crate::making::make;
use crate::shorten::thin;
use crate::sides::{same, Fenced, Model, Ours, ODD};
use crate::source::Source;
use crate::tally::Tally;
use crate::turns::sends;
use model::ring::{bit, resends_of, size_of, WORD};
use model::Turn;
use std::fmt::{Debug, Write};

/// Both sides, which hold the same.
struct Pair {
    ours: Ours,
    model: Model,
    /// What a choice has named, as long as nothing has happened that may keep it from being sent.
    named: Option<Turn>,
}

impl Pair {
    fn new(start: &Model) -> Pair {
        Pair {
            ours: Ours::of(start),
            model: start.clone(),
            named: None,
        }
    }

    /// The call sends what was named: it must be accepted.
    fn sends_named(&self, call: &Call) -> bool {
        self.named
            .is_some_and(|turn| sends(call, turn, &self.model))
    }

    /// Both sides answer the call; then all that was lent is compared.
    fn call(&mut self, call: &Call) -> Result<Answer, String> {
        let named = self.sends_named(call);
        let mut turn = Fenced::new(call.turn(), ODD);
        let mut plan = Fenced::new(call.plan(), ODD as u32);
        let beside = Beside {
            turn: turn.inner_mut(),
            plan: plan.inner_mut(),
        };
        let our_answer = call.ask(&mut self.ours.lend(), beside);
        let answer = self.model.answer(call);
        let models = answer.word();
        if our_answer != models {
            return Err(format!("answered {our_answer:#x}, the model {models:#x}"));
        }
        if let Call::Choose { turn: lent } = call {
            compare_beside("word of the turn", &turn, &answer.turn(lent))?;
        }
        compare_beside("number of the plan", &plan, &answer.plan(call.plan()))?;
        self.ours.compare(&self.model)?;
        make(&self.ours, call, &answer)?;
        if named && answer.outcome.number != 0 {
            return Err(format!("{models:#x} is answered to what was named"));
        }
        self.remember(call, &answer);
        Ok(answer)
    }

    /// A path, a reading, a plan and a refusal leave what may be sent as it was.
    fn remember(&mut self, call: &Call, answer: &Answer) {
        let leaves = matches!(
            call,
            Call::Path { .. }
                | Call::Status { .. }
                | Call::NextMarked { .. }
                | Call::Judge { .. }
                | Call::Plan { .. }
        );
        if answer.outcome.number == 0 && !leaves {
            self.named = answer.named;
        }
    }
}

/// What a call was lent beside the context.
fn compare_beside<T: Copy + PartialEq + Debug>(
    name: &str,
    ours: &Fenced<T>,
    model: &[T],
) -> Result<(), String> {
    same(name, ours.inner(), model)?;
    if ours.whole() {
        Ok(())
    } else {
        Err(format!("memory beside every {name} was written"))
    }
}

/// Calls made so far from a start.
pub struct Session {
    start: Model,
    calls: Vec<Call>,
    pair: Pair,
}

impl Session {
    pub fn new(start: Model) -> Session {
        Session {
            pair: Pair::new(&start),
            start,
            calls: Vec::new(),
        }
    }

    /// The held clock; 0 for words that no state has.
    pub fn clock(&self) -> u64 {
        self.pair.model.state().map_or(0, |state| state.clock)
    }

    /// The next call of the source, and what follows where it has named a packet.
    pub fn step(&mut self, source: &mut Source, tally: &mut Tally) -> Result<(), String> {
        let call = source.next(&self.pair.model);
        let Some(turn) = self.call(call, tally)?.named else {
            return Ok(());
        };
        for call in source.follow(&self.pair.model, turn) {
            self.call(call, tally)?;
        }
        Ok(())
    }

    /// What both answer, or what differs with the shortest list of calls that shows it.
    pub fn call(&mut self, call: Call, tally: &mut Tally) -> Result<Answer, String> {
        self.calls.push(call);
        let call = &self.calls[self.calls.len() - 1];
        let before = Tally::before(&self.pair.model);
        let named = self.pair.sends_named(call);
        match self.pair.call(call) {
            Ok(answer) => {
                tally.note(call, &answer, before, &self.pair.model);
                tally.choices.sent += u64::from(named);
                Ok(answer)
            }
            Err(difference) => Err(self.report(&difference)),
        }
    }

    fn report(&self, difference: &str) -> String {
        let calls = thin(&self.calls, |calls| {
            first_difference(&self.start, calls).is_some()
        });
        let shown = first_difference(&self.start, &calls);
        let mut report = format!(
            "call {}: {difference}\nthinned to {} calls: {}\n",
            self.calls.len(),
            calls.len(),
            shown.as_deref().unwrap_or(difference)
        );
        describe(&self.start, &mut report);
        for call in &calls {
            // Writing to a String does not fail.
            let _ = writeln!(report, "{call:?}");
        }
        report
    }
}

fn first_difference(start: &Model, calls: &[Call]) -> Option<String> {
    let mut pair = Pair::new(start);
    calls.iter().find_map(|call| pair.call(call).err())
}

/// The start's words, lengths and whatever is not zero.
fn describe(start: &Model, report: &mut String) {
    let memory = &start.memory;
    let lengths = [
        memory.outstanding.len(),
        memory.marked.len(),
        memory.sizes.len(),
        memory.sent.len(),
        memory.ev_times.len(),
    ];
    let _ = writeln!(
        report,
        "start: words {:?}\ntable {:?}\nlengths {lengths:?}",
        start.words, start.table
    );
    list_slots("outstanding", &memory.outstanding, report);
    list_slots("marked", &memory.marked, report);
    let sizes: Vec<(u32, u32)> = memory
        .sizes
        .iter()
        .map(|&n| (size_of(n), resends_of(n)))
        .collect();
    list("sizes and resend counts", &sizes, report);
    list("sent", &memory.sent, report);
    list("EV times", &memory.ev_times, report);
}

/// The slots whose bits are set.
fn list_slots(name: &str, words: &[u64], report: &mut String) {
    let all = 0..WORD * words.len();
    let set: Vec<usize> = all.filter(|&slot| bit(words, slot)).collect();
    if !set.is_empty() {
        let _ = writeln!(report, "{name} slots {set:?}");
    }
}

fn list<T: Copy + Default + PartialEq + Debug>(name: &str, numbers: &[T], report: &mut String) {
    let numbered = numbers.iter().enumerate();
    let some: Vec<(usize, T)> = numbered
        .filter(|(_, &number)| number != T::default())
        .map(|(i, &number)| (i, number))
        .collect();
    if !some.is_empty() {
        let _ = writeln!(report, "{name} {some:?}");
    }
}
