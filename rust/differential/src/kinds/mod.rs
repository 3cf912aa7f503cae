//! The kinds of comparison.

mod chunks;
mod logs;
mod pieces;
mod replay;
mod set_up;
mod spoilt;
mod states;
mod streams;
pub mod text;

use crate::tally::Tally;

#[derive(Clone, Copy, Debug, PartialEq, Eq)]
pub enum Kind {
    /// Setting up: settings at and beyond their ranges, any lengths, used memory.
    SetUp,
    /// Random and hostile calls from a set-up on.
    Streams,
    /// Generated logs, record by record as calls.
    Logs,
    /// Calls on made-up states that hold together.
    States,
    /// A call on a state or buffer of which something is spoilt.
    Spoilt,
    /// Whole logs through `nscc_replay`, in batches.
    Replay,
    /// Logs through `nscc_chunk`, cut anywhere.
    Chunks,
    /// Whole logs through the program.
    Text,
    /// Logs through the program while they are written, cut anywhere.
    Pieces,
    /// The program's run reports of whole logs.
    Report,
}

impl Kind {
    pub const ALL: [Kind; 10] = [
        Kind::SetUp,
        Kind::Streams,
        Kind::Logs,
        Kind::States,
        Kind::Spoilt,
        Kind::Replay,
        Kind::Chunks,
        Kind::Text,
        Kind::Pieces,
        Kind::Report,
    ];

    pub fn name(self) -> &'static str {
        match self {
            Kind::SetUp => "set-up",
            Kind::Streams => "streams",
            Kind::Logs => "logs",
            Kind::States => "states",
            Kind::Spoilt => "spoilt",
            Kind::Replay => "replay",
            Kind::Chunks => "chunks",
            Kind::Text => "text",
            Kind::Pieces => "pieces",
            Kind::Report => "report",
        }
    }

    /// Makes the cases of this seed and compares them; `Err` tells what differs, with the shortest
    /// list of calls or records that shows it.
    pub fn run(self, seed: u64, tally: &mut Tally) -> Result<(), String> {
        match self {
            Kind::SetUp => set_up::run(seed, tally),
            Kind::Streams => streams::run(seed, tally),
            Kind::Logs => logs::run(seed, tally),
            Kind::States => states::run(seed, tally),
            Kind::Spoilt => spoilt::run(seed, tally),
            Kind::Replay => replay::run(seed, tally),
            Kind::Chunks => chunks::run(seed, tally),
            Kind::Text => text::run(seed, tally),
            Kind::Pieces => pieces::run(seed, tally),
            Kind::Report => text::run_report(seed, tally),
        }
    }
}
