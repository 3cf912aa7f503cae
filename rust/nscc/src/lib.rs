//! A safe wrapper of the proved C library: see `include/nscc.h`.
//!
//! A [`Context`] owns one context's memory and answers every event of its flows. [`raw`] has the C functions over
//! slices, for those who keep the memory themselves: any lengths and any contents may be handed in.

mod context;
mod event;
mod plan;
pub mod raw;
mod refusal;
mod sample;
mod status;
mod turn;
mod word;

pub use context::{Context, Part, Place};
pub use event::{Ack, Nack, Settings};
pub use plan::{judged, PlanRefusal, Planned};
pub use refusal::{answer, Refusal};
pub use sample::{sampled, Sample};
pub use status::Status;
pub use turn::Turn;
pub use word::{
    FlowWord, PartWord, Phase, PlaceWord, PlannedWord, TurnWord, Word, EVS_MAX, EVS_MIN, FLOWS_MAX,
    FLOW_WORDS, IN_FLIGHT_ADDED, PART, PIECE, PLACE, PLANNED, SENDS_MAX, SETTINGS, TURN, WORDS,
};
