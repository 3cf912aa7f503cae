//! What both sides do and leave.

use differential::{table_of, words_of};
use model::bounds::EVS_USUAL;
use model::{Memory, Settings, State};
use nscc::Context;

/// One flow, with so many slots where nothing else is said.
pub const CAPACITY: usize = 1_024;

/// The model's context with its memory.
#[derive(Clone)]
pub struct Model {
    pub state: State,
    pub memory: Memory,
}

impl Model {
    /// So many flows, each with a ring of so many slots, and 256 EVs.
    pub fn empty(flows: usize, capacity: usize) -> Model {
        Model::with_evs(flows, capacity, EVS_USUAL as usize)
    }

    /// The same with so many EVs.
    pub fn with_evs(flows: usize, capacity: usize, evs: usize) -> Model {
        Model {
            state: State::default(),
            memory: Memory::with_flows(flows, capacity, evs),
        }
    }
}

/// Sets both sides up; the settings must be good ones.
pub fn set_up(context: &mut Context, model: &mut Model, settings: &Settings) {
    set_up_ours(context, settings);
    set_up_model(model, settings);
}

pub fn set_up_ours(context: &mut Context, settings: &Settings) {
    let number = context.lend().set_up(
        &settings.numbers(),
        settings.first_psn,
        settings.quick_adapt_off,
        settings.ev_count,
    );
    assert_eq!(number, 0);
}

pub fn set_up_model(model: &mut Model, settings: &Settings) {
    let (number, state) = State::set_up(settings, &mut model.memory.lend());
    assert_eq!(number, 0);
    model.state = state;
}

/// Fails unless both sides are left alike.
pub fn assert_alike(context: &Context, model: &Model) {
    let memory = &model.memory;
    assert_eq!(context.words, words_of(&model.state));
    assert_eq!(context.flows, table_of(&memory.flows));
    assert_eq!(context.outstanding, memory.outstanding);
    assert_eq!(context.marked, memory.marked);
    assert_eq!(context.sizes, memory.sizes);
    assert_eq!(context.sent, memory.sent);
    assert_eq!(context.evs, memory.ev_times);
}
