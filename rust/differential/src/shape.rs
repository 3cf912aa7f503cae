//! How many flows a context has, and slots.

use crate::sides::Model;
use model::replay::{CAPACITY, FLOWS};
use model::Rng;
use nscc::FLOWS_MAX;
use std::ops::Range;

/// So many flows, each with a ring of so many slots.
#[derive(Clone, Copy, Debug)]
pub struct Shape {
    pub flows: usize,
    pub capacity: usize,
}

impl Shape {
    /// The program's.
    pub const PROGRAM: Shape = Shape {
        flows: FLOWS,
        capacity: CAPACITY,
    };

    /// One to eight flows. The smallest rings are the fastest to compare and the first to wrap: those
    /// of one and of two words of bits.
    pub fn any(rng: &mut Rng) -> Shape {
        let flows = any_flows(rng);
        let capacity = rng.pick(&[64, 64, 64, 128, 128, 256, 1_024, 4_096]);
        Shape { flows, capacity }.bounded(rng)
    }

    /// So many slots each, and one to eight flows.
    pub fn of(rng: &mut Rng, capacity: usize) -> Shape {
        let flows = any_flows(rng);
        Shape { flows, capacity }.bounded(rng)
    }

    /// For a log, which may name all eight flows: often so many.
    pub fn for_log(rng: &mut Rng) -> Shape {
        let Shape { flows, capacity } = Shape::any(rng);
        let flows = rng.pick(&[flows, FLOWS_MAX]);
        Shape { flows, capacity }.bounded(rng)
    }

    /// Every slot is compared after every call: seldom more than two of the largest rings.
    fn bounded(self, rng: &mut Rng) -> Shape {
        let most = (2 * 4_096 / self.capacity).max(1);
        let few = self.flows.min(most);
        let flows = rng.pick(&[few, few, few, few, self.flows]);
        Shape { flows, ..self }
    }

    pub fn model(self, evs: usize) -> Model {
        Model::with_evs(self.flows, self.capacity, evs)
    }

    /// Slots of the whole ring buffer.
    pub fn slots(self) -> usize {
        self.flows * self.capacity
    }

    /// The slots of a flow's ring.
    pub fn slots_of(self, flow: usize) -> Range<usize> {
        flow * self.capacity..(flow + 1) * self.capacity
    }
}

fn any_flows(rng: &mut Rng) -> usize {
    rng.between(1, FLOWS_MAX as u64) as usize
}
