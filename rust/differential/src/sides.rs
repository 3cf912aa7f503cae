//! The two sides of a comparison: the model's, and the memory that the C functions are lent.

use crate::call::{Answer, Call};
use crate::words::{flows_of, sends_of, state_of, table_of, words_of};
use model::{Flow, Memory, Outcome, PlanRefusal, Planned, Refusal, Settings, State};
use nscc::raw::Lent;
use nscc::{FlowWord, Word, EVS_MIN, FLOW_WORDS, PLANNED, TURN, WORDS};

const UNSOUND: u8 = Refusal::NotTogether as u8;

/// A context as the model has it, with state and table in words, so that any words can be handed in.
/// The flows in `memory` are written from the table by [`Model::lend`].
#[derive(Clone, Debug, PartialEq, Eq)]
pub struct Model {
    pub words: Vec<u64>,
    /// The table of flows.
    pub table: Vec<u64>,
    pub memory: Memory,
}

impl Model {
    /// So many flows, each with a ring of so many slots, and 256 EV times.
    pub fn empty(flows: usize, capacity: usize) -> Model {
        Model::with_evs(flows, capacity, EVS_MIN as usize)
    }

    pub fn with_evs(flows: usize, capacity: usize, evs: usize) -> Model {
        Model {
            words: vec![0; WORDS],
            table: vec![0; flows * FLOW_WORDS],
            memory: Memory::with_flows(flows, capacity, evs),
        }
    }

    /// `None` for words that no state has.
    pub fn state(&self) -> Option<State> {
        state_of(&self.words)
    }

    /// `None` for words that no table has.
    pub fn flows(&self) -> Option<Vec<Flow>> {
        flows_of(&self.table)
    }

    /// The state with all that is lent, the flows included; `None` for words that no state or no
    /// table has.
    pub fn lend(&mut self) -> Option<(State, model::Lent<'_>)> {
        let state = self.state()?;
        self.memory.flows = self.flows()?;
        Some((state, self.memory.lend()))
    }

    /// The same where no word is looked at, as when setting up: a state and flows of zeros. A table
    /// of a flow that is not whole is lent as one of none, which setting up refuses alike.
    pub fn lend_new(&mut self) -> (State, model::Lent<'_>) {
        let (flows, rest) = self.table.as_chunks::<FLOW_WORDS>();
        let many = if rest.is_empty() { flows.len() } else { 0 };
        self.memory.flows = vec![Flow::default(); many];
        (State::default(), self.memory.lend())
    }

    pub fn set_state(&mut self, state: &State) {
        self.words.clear();
        self.words.extend(words_of(state));
    }

    pub fn set_flows(&mut self, flows: &[Flow]) {
        self.table = table_of(flows);
    }

    /// Writes the words of this state and of the flows that were lent. A refused setting up gives a
    /// state of zeros, and leaves the table as it was.
    pub fn store(&mut self, state: &State) {
        self.set_state(state);
        if *state != State::default() {
            self.table = table_of(&self.memory.flows);
        }
    }

    pub fn sound(&mut self) -> bool {
        let lent = self.lend();
        lent.is_some_and(|(state, lent)| model::number_two(&state, &lent))
    }

    pub fn answer(&mut self, call: &Call) -> Answer {
        match *call {
            Call::Status { flow, psn } => self.read(|state, lent| {
                let status = state.status(lent, flow as u64, psn)?;
                Ok(status.map_or(0, |status| status.number().into()))
            }),
            Call::NextMarked { flow, psn } => {
                self.read(|state, lent| state.next_marked(lent, flow as u64, psn))
            }
            Call::Choose { ref turn } => self.choose(turn.len()),
            Call::Judge { time, ref plan } => self.judge(time, plan),
            Call::Plan {
                time,
                bytes,
                ref room,
            } => self.answer_plan(time, bytes, room.len() / PLANNED),
            _ => self.take(call).into(),
        }
    }

    /// A choice that is lent so many words for what it names.
    fn choose(&mut self, words: usize) -> Answer {
        let lent = self.lend().filter(|_| words == TURN);
        let Some((mut state, lent)) = lent else {
            return Outcome::from(UNSOUND).into();
        };
        match state.choose(&lent) {
            Ok(named) => {
                self.set_state(&state);
                Answer {
                    named,
                    ..Answer::default()
                }
            }
            Err(refusal) => Outcome::from(refusal.number()).into(),
        }
    }

    /// A plan in numbers. Sends that are not whole don't hold together.
    fn judge(&mut self, time: u64, plan: &[u32]) -> Answer {
        let lent = self.lend().zip(sends_of(plan));
        let Some(((state, lent), sends)) = lent else {
            return Outcome::from(UNSOUND).into();
        };
        match state.judge(&lent, time, &sends) {
            Ok(()) => Answer::default(),
            Err(PlanRefusal { refusal, send }) => Answer {
                outcome: refusal.number().into(),
                shown: send.map(|send| send as u32),
                ..Answer::default()
            },
        }
    }

    fn answer_plan(&mut self, time: u64, bytes: u32, room: usize) -> Answer {
        match self.plan(time, bytes, room) {
            Ok(planned) => Answer {
                shown: Some(planned.len() as u32),
                planned,
                ..Answer::default()
            },
            Err(refusal) => Outcome::from(refusal.number()).into(),
        }
    }

    /// At most so many sends by turns.
    pub fn plan(&mut self, time: u64, bytes: u32, room: usize) -> Result<Vec<Planned>, Refusal> {
        let (state, lent) = self.lend().ok_or(Refusal::NotTogether)?;
        state.plan(&lent, time, bytes, room)
    }

    fn read(&mut self, show: impl FnOnce(&State, &model::Lent) -> Result<u32, Refusal>) -> Answer {
        let lent = self.lend().ok_or(Refusal::NotTogether);
        match lent.and_then(|(state, lent)| show(&state, &lent)) {
            Ok(shown) => Answer {
                shown: Some(shown),
                ..Answer::default()
            },
            Err(refusal) => Outcome::from(refusal.number()).into(),
        }
    }

    fn take(&mut self, call: &Call) -> Outcome {
        let Some(event) = call.event() else {
            return self.set_up(call).into();
        };
        let Some((mut state, mut lent)) = self.lend() else {
            return UNSOUND.into();
        };
        let outcome = state.take(&mut lent, &event);
        self.store(&state);
        outcome
    }

    /// The words of state and table are written, not read. A refusal leaves them as they were: the
    /// state of zeros that 01 speaks of is what the model answers beside the number.
    fn set_up(&mut self, call: &Call) -> u8 {
        let Call::SetUp {
            settings,
            first_psn,
            quick_adapt_off,
            ev_count,
        } = call
        else {
            return UNSOUND;
        };
        let Ok(numbers) = settings.as_slice().try_into() else {
            return UNSOUND;
        };
        let settings = Settings::from_numbers(numbers, *first_psn, *quick_adapt_off);
        let settings = settings.with_evs(*ev_count);
        if !settings.in_range() {
            return Refusal::Setting.number();
        }
        if self.words.len() != WORDS {
            return UNSOUND;
        }
        let (number, state) = State::set_up(&settings, &mut self.lend_new().1);
        if number == 0 {
            self.store(&state);
        }
        number
    }
}

/// Elements between two fences, which nobody may touch.
#[derive(Clone)]
pub struct Fenced<T> {
    all: Vec<T>,
    fence: T,
}

const FENCE: usize = 8;

/// What stands in the fences, as wide as the elements are.
pub const ODD: u64 = 0xa5a5_a5a5_a5a5_a5a5;

impl<T: Copy + PartialEq> Fenced<T> {
    pub fn new(inner: &[T], fence: T) -> Fenced<T> {
        let fences = [fence; FENCE];
        Fenced {
            all: [&fences, inner, &fences].concat(),
            fence,
        }
    }

    fn end(&self) -> usize {
        self.all.len() - FENCE
    }

    pub fn inner(&self) -> &[T] {
        &self.all[FENCE..self.end()]
    }

    pub fn inner_mut(&mut self) -> &mut [T] {
        let end = self.end();
        &mut self.all[FENCE..end]
    }

    pub fn whole(&self) -> bool {
        let fences = [&self.all[..FENCE], &self.all[self.end()..]];
        fences
            .iter()
            .all(|part| part.iter().all(|&t| t == self.fence))
    }
}

/// The memory that the C functions are lent.
#[derive(Clone)]
pub struct Ours {
    words: Fenced<u64>,
    flows: Fenced<u64>,
    outstanding: Fenced<u64>,
    marked: Fenced<u64>,
    sizes: Fenced<u32>,
    sent: Fenced<u64>,
    evs: Fenced<u64>,
}

impl Ours {
    pub fn of(model: &Model) -> Ours {
        let memory = &model.memory;
        Ours {
            words: Fenced::new(&model.words, ODD),
            flows: Fenced::new(&model.table, ODD),
            outstanding: Fenced::new(&memory.outstanding, ODD),
            marked: Fenced::new(&memory.marked, ODD),
            sizes: Fenced::new(&memory.sizes, ODD as u32),
            sent: Fenced::new(&memory.sent, ODD),
            evs: Fenced::new(&memory.ev_times, ODD),
        }
    }

    pub fn lend(&mut self) -> Lent<'_> {
        Lent {
            words: self.words.inner_mut(),
            flows: self.flows.inner_mut(),
            outstanding: self.outstanding.inner_mut(),
            marked: self.marked.inner_mut(),
            sizes: self.sizes.inner_mut(),
            sent: self.sent.inner_mut(),
            evs: self.evs.inner_mut(),
        }
    }

    /// What differs from the model's side, if anything does.
    pub fn compare(&self, model: &Model) -> Result<(), String> {
        self.compare_words(&model.words)?;
        self.compare_flows(&model.table)?;
        self.compare_memory(&model.memory)
    }

    fn compare_words(&self, words: &[u64]) -> Result<(), String> {
        let Some((i, ours, model)) = difference(self.words.inner(), words) else {
            return Ok(());
        };
        let name = Word::ALL.get(i).map(|word| format!("{word:?}"));
        Err(format!(
            "word {i}, {}: {ours}, the model's {model}",
            name.unwrap_or_default()
        ))
    }

    fn compare_flows(&self, table: &[u64]) -> Result<(), String> {
        let Some((i, ours, model)) = difference(self.flows.inner(), table) else {
            return Ok(());
        };
        let (flow, word) = (i / FLOW_WORDS, FlowWord::ALL[i % FLOW_WORDS]);
        Err(format!(
            "flow {flow}, {word:?}: {ours}, the model's {model}"
        ))
    }

    fn compare_memory(&self, memory: &Memory) -> Result<(), String> {
        same_bits("outstanding", self.outstanding.inner(), &memory.outstanding)?;
        same_bits("marked", self.marked.inner(), &memory.marked)?;
        same("sizes", self.sizes.inner(), &memory.sizes)?;
        same("sent", self.sent.inner(), &memory.sent)?;
        same("EV time", self.evs.inner(), &memory.ev_times)?;
        let whole = self.words.whole()
            && self.flows.whole()
            && self.outstanding.whole()
            && self.marked.whole()
            && self.sizes.whole()
            && self.sent.whole()
            && self.evs.whole();
        if whole {
            Ok(())
        } else {
            Err("memory beside what was lent was written".into())
        }
    }
}

pub fn same<T: Copy + PartialEq + std::fmt::Debug>(
    name: &str,
    ours: &[T],
    model: &[T],
) -> Result<(), String> {
    match difference(ours, model) {
        None => Ok(()),
        Some((i, ours, model)) => Err(format!("{name} {i}: {ours:?}, the model's {model:?}")),
    }
}

/// The same, with words of bits as such.
fn same_bits(name: &str, ours: &[u64], model: &[u64]) -> Result<(), String> {
    match difference(ours, model) {
        None => Ok(()),
        Some((i, ours, model)) => Err(format!(
            "{name} {i}: {ours:#018x}, the model's {model:#018x}"
        )),
    }
}

/// The first place where two slices of one length differ.
fn difference<T: Copy + PartialEq>(ours: &[T], model: &[T]) -> Option<(usize, T, T)> {
    // Most often nothing differs, and whole slices compare fast.
    if ours == model {
        return None;
    }
    let pairs = ours.iter().zip(model).enumerate();
    let mut differing = pairs.filter(|(_, (ours, model))| ours != model);
    differing
        .next()
        .map(|(i, (&ours, &model))| (i, ours, model))
}
