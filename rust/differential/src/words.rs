//! The one place where the model's state, flows, turns and plans meet the header's words.

use model::{Flow, Name, Planned, Settings, State, Turn};
use nscc::{
    FlowWord, PlannedWord, TurnWord, Word, FLOW_WORDS, IN_FLIGHT_ADDED, PLANNED, SETTINGS, TURN,
    WORDS,
};

pub fn words_of(state: &State) -> [u64; WORDS] {
    let mut words = [0; WORDS];
    words[..SETTINGS].copy_from_slice(&state.settings.numbers());
    let others = [
        (Word::FirstPsn, state.settings.first_psn.into()),
        (Word::QuickAdaptOff, state.settings.quick_adapt_off.into()),
        (Word::Backlog, state.backlog),
        (Word::Flying, state.flying),
        (Word::Marked, state.marked),
        (Word::MarkedBytes, state.marked_bytes),
        (Word::InFlight, (state.in_flight + IN_FLIGHT_ADDED) as u64),
        (Word::Cwnd, state.cwnd),
        (Word::Base, state.base),
        (Word::Avg, state.avg),
        (Word::IncBytes, state.inc_bytes),
        (Word::Received, state.received),
        (Word::Achieved, state.achieved),
        (Word::Ignored, state.ignored),
        (Word::BytesToIgnore, state.bytes_to_ignore),
        (Word::FiCount, state.fi_count),
        (Word::Fast, state.fast_mode.into()),
        (Word::Trigger, state.trigger.into()),
        (Word::QaEnd, state.qa_end),
        (Word::LastAdjust, state.last_adjust),
        (Word::LastDec, state.last_dec),
        (Word::Clock, state.clock),
        (Word::Cursor, state.cursor),
        (Word::Phase, phase_of(state.name)),
        (Word::EvCount, state.settings.ev_count.into()),
        (Word::Turn, state.turn),
    ];
    for (word, number) in others {
        words[word as usize] = number;
    }
    words
}

/// `None` for words that no state has: too few or too many, or a number wider than its kind.
pub fn state_of(words: &[u64]) -> Option<State> {
    let words = Words(words.try_into().ok()?);
    let number = |word| words.number(word);
    Some(State {
        settings: words.settings()?,
        clock: number(Word::Clock),
        flying: number(Word::Flying),
        marked: number(Word::Marked),
        marked_bytes: number(Word::MarkedBytes),
        backlog: number(Word::Backlog),
        in_flight: i64::try_from(number(Word::InFlight)).ok()? - IN_FLIGHT_ADDED,
        cwnd: number(Word::Cwnd),
        base: number(Word::Base),
        avg: number(Word::Avg),
        inc_bytes: number(Word::IncBytes),
        received: number(Word::Received),
        achieved: number(Word::Achieved),
        ignored: number(Word::Ignored),
        bytes_to_ignore: number(Word::BytesToIgnore),
        fi_count: number(Word::FiCount),
        fast_mode: words.flag(Word::Fast)?,
        trigger: words.flag(Word::Trigger)?,
        qa_end: number(Word::QaEnd),
        last_adjust: number(Word::LastAdjust),
        last_dec: number(Word::LastDec),
        cursor: number(Word::Cursor),
        turn: number(Word::Turn),
        name: name_of(number(Word::Phase))?,
    })
}

/// The words of the table.
pub fn table_of(flows: &[Flow]) -> Vec<u64> {
    flows.iter().flat_map(flow_words).collect()
}

fn flow_words(flow: &Flow) -> [u64; FLOW_WORDS] {
    FlowWord::ALL.map(|word| match word {
        FlowWord::Low => flow.low.into(),
        FlowWord::Next => flow.next.into(),
        FlowWord::Held => flow.held.into(),
        FlowWord::Backlog => flow.backlog,
    })
}

/// `None` for words that no table has: a flow's are not whole, or a number is wider than its kind.
/// There may be any number of flows.
pub fn flows_of(table: &[u64]) -> Option<Vec<Flow>> {
    let (flows, rest) = table.as_chunks();
    let flows: Option<Vec<Flow>> = flows.iter().map(flow_of).collect();
    flows.filter(|_| rest.is_empty())
}

fn flow_of(words: &[u64; FLOW_WORDS]) -> Option<Flow> {
    let number = |word: FlowWord| words[word as usize];
    let narrow = |word| number(word).try_into().ok();
    Some(Flow {
        low: narrow(FlowWord::Low)?,
        next: narrow(FlowWord::Next)?,
        held: narrow(FlowWord::Held)?,
        backlog: number(FlowWord::Backlog),
    })
}

/// The words of what an accepted choice names, which may be nobody.
pub fn turn_of(named: Option<Turn>) -> [u64; TURN] {
    let mut words = [0; TURN];
    if let Some(Turn { flow, resend, psn }) = named {
        words[TurnWord::Named as usize] = 1;
        words[TurnWord::Flow as usize] = flow;
        words[TurnWord::Resend as usize] = resend.into();
        words[TurnWord::Psn as usize] = psn.into();
    }
    words
}

/// The numbers of a plan. A flow that is wider is refused alike as the widest.
pub fn plan_of(sends: &[Planned]) -> Vec<u32> {
    sends.iter().flat_map(send_numbers).collect()
}

fn send_numbers(send: &Planned) -> [u32; PLANNED] {
    let mut numbers = [0; PLANNED];
    numbers[PlannedWord::Flow as usize] = send.flow.try_into().unwrap_or(u32::MAX);
    numbers[PlannedWord::Resend as usize] = send.resend.into();
    numbers[PlannedWord::Psn as usize] = send.psn;
    numbers[PlannedWord::Size as usize] = send.size;
    numbers
}

/// `None` for numbers that no plan has: a send's are not whole. There may be any number of sends.
pub fn sends_of(plan: &[u32]) -> Option<Vec<Planned>> {
    let (sends, rest) = plan.as_chunks();
    rest.is_empty().then(|| sends.iter().map(send_of).collect())
}

fn send_of(numbers: &[u32; PLANNED]) -> Planned {
    let number = |word: PlannedWord| numbers[word as usize];
    Planned {
        flow: number(PlannedWord::Flow).into(),
        resend: number(PlannedWord::Resend) != 0,
        psn: number(PlannedWord::Psn),
        size: number(PlannedWord::Size),
    }
}

struct Words<'a>(&'a [u64; WORDS]);

impl Words<'_> {
    fn number(&self, word: Word) -> u64 {
        self.0[word as usize]
    }

    fn narrow(&self, word: Word) -> Option<u32> {
        self.number(word).try_into().ok()
    }

    fn flag(&self, word: Word) -> Option<bool> {
        match self.number(word) {
            0 => Some(false),
            1 => Some(true),
            _ => None,
        }
    }

    fn settings(&self) -> Option<Settings> {
        let (numbers, _) = self.0.split_first_chunk::<SETTINGS>()?;
        let first_psn = self.narrow(Word::FirstPsn)?;
        let quick_adapt_off = self.flag(Word::QuickAdaptOff)?;
        let settings = Settings::from_numbers(*numbers, first_psn, quick_adapt_off);
        Some(settings.with_evs(self.narrow(Word::EvCount)?))
    }
}

fn phase_of(name: Name) -> u64 {
    match name {
        Name::Idle => 0,
        Name::Pending => 1,
        Name::Ready => 2,
        Name::Active => 3,
    }
}

fn name_of(word: u64) -> Option<Name> {
    [Name::Idle, Name::Pending, Name::Ready, Name::Active]
        .into_iter()
        .find(|&name| phase_of(name) == word)
}
