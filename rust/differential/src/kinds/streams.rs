use crate::call::Call;
use crate::numbers::edge;
use crate::profile::PROFILES;
use crate::session::Session;
use crate::shape::Shape;
use crate::sides::Model;
use crate::source::Source;
use crate::tally::Tally;
use model::ring::WORD;
use model::Rng;

/// Capacity, and calls of a stream: enough to fill a ring.
const SIZES: [(usize, usize); 4] = [(64, 2_000), (128, 2_000), (1_024, 3_000), (4_096, 6_000)];

/// Seeds go through the profiles and the capacities.
pub fn run(seed: u64, tally: &mut Tally) -> Result<(), String> {
    let mut rng = Rng::new(seed);
    let seed = seed as usize;
    let (round, turn) = (seed / PROFILES.len(), seed % PROFILES.len());
    let profile = PROFILES[turn];
    let (capacity, calls) = SIZES[(turn + round) % SIZES.len()];
    let shape = Shape::of(&mut rng, capacity);
    let settings = profile.settings(&mut rng);
    let evs = settings.ev_count as usize;
    let mut session = Session::new(used(&mut rng, shape, evs));
    let mut source = Source::new(rng, profile);
    tally.cases += 1;
    session.call(Call::set_up(&settings), tally)?;
    for _ in 0..calls {
        session
            .step(&mut source, tally)
            .map_err(|report| format!("{}: {report}", profile.name))?;
    }
    Ok(())
}

/// Memory with something in it, which setting up has to clear.
pub fn used(rng: &mut Rng, shape: Shape, evs: usize) -> Model {
    let mut model = shape.model(evs);
    let memory = &mut model.memory;
    for _ in 0..16 {
        let slot = rng.below(shape.slots() as u64) as usize;
        memory.outstanding[slot / WORD] = edge(rng);
        memory.marked[slot / WORD] = edge(rng);
        memory.sizes[slot] = edge(rng) as u32;
        memory.sent[slot] = edge(rng);
        let ev = rng.below(evs as u64) as usize;
        if let Some(time) = memory.ev_times.get_mut(ev) {
            *time = edge(rng);
        }
    }
    model.words.fill_with(|| edge(rng));
    model.table.fill_with(|| edge(rng));
    model
}
