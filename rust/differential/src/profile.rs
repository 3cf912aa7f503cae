//! Shapes of call streams.

use crate::numbers;
use model::{Rng, Settings};

/// How many of each call there are, and what is in them.
#[derive(Clone, Copy, Debug)]
pub struct Profile {
    pub name: &'static str,
    /// Weights of new data, new packet, resend, ACK, NACK, loss and path.
    pub weights: [u64; 7],
    /// One call in so many has fields at and beyond their edges; 0 is none.
    pub edges: u64,
    /// One call in so many reads the ring; 0 is none.
    pub reads: u64,
    /// One call in so many is a choice; 0 is none.
    pub choices: u64,
    /// One call in so many judges a plan or makes one; 0 is none.
    pub plans: u64,
    /// Of eight ACKs so many have the M flag.
    pub marked: u64,
    /// Packets of the smallest size, so that the ring is full before the window.
    pub small: bool,
    /// MaxWnd in packets of an MTU; 0 leaves it to the settings.
    pub window: u64,
    /// The times start near 2^48.
    pub late: bool,
}

const MIXED: Profile = Profile {
    name: "mixed",
    weights: [4, 30, 8, 30, 2, 2, 6],
    edges: 12,
    reads: 8,
    choices: 6,
    plans: 16,
    marked: 3,
    small: false,
    window: 0,
    late: false,
};

/// A stream that keeps to the rules, to measure with.
pub const GOOD: Profile = Profile {
    name: "good",
    weights: [4, 40, 20, 40, 1, 1, 10],
    edges: 0,
    reads: 0,
    choices: 0,
    plans: 0,
    marked: 2,
    window: 30,
    ..MIXED
};

pub const PROFILES: [Profile; 9] = [
    MIXED,
    Profile {
        name: "hostile",
        edges: 2,
        ..MIXED
    },
    Profile {
        name: "losses",
        weights: [4, 40, 30, 12, 15, 15, 4],
        ..MIXED
    },
    Profile {
        name: "marks",
        weights: [4, 40, 4, 40, 4, 1, 1],
        marked: 7,
        ..MIXED
    },
    Profile {
        name: "fast",
        weights: [4, 40, 4, 40, 0, 0, 1],
        edges: 50,
        marked: 0,
        window: 20,
        ..MIXED
    },
    Profile {
        name: "ring",
        weights: [2, 120, 6, 2, 2, 2, 1],
        small: true,
        window: 1000,
        ..MIXED
    },
    Profile {
        name: "window",
        weights: [4, 40, 8, 10, 2, 2, 1],
        window: 4,
        ..MIXED
    },
    Profile {
        name: "paths",
        weights: [4, 40, 20, 40, 10, 10, 30],
        marked: 7,
        ..MIXED
    },
    Profile {
        name: "late",
        late: true,
        ..MIXED
    },
];

impl Profile {
    pub fn settings(&self, rng: &mut Rng) -> Settings {
        let edges = rng.one_in(2);
        let mut settings = numbers::settings(rng, edges);
        if self.window > 0 {
            let packets = rng.between(1, self.window);
            settings.max_wnd = (settings.mtu * packets).min(1 << 26);
        }
        settings
    }
}
