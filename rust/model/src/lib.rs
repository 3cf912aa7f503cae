//! A plain model of document 01: the ledger of sent packets, the NSCC window and the choice of the
//! next entropy value (EV), with the event log and its replay.
//!
//! [`State`] holds the numbers of a context, [`Lent`] the table of its flows, their rings and the EV
//! times. Each event is of one flow, changes both in place and returns 0, or the refusal number of 01
//! and changes nothing. An accepted ACK or NACK says what became of its sample: [`Sampling`]. Which
//! flow sends next is a choice, and no event: [`State::choose`] answers a [`Turn`]. Sends that are
//! [`Planned`] for one instant are judged by [`State::judge`], and [`State::plan`] plans some. A log
//! may also come in chunks: [`Part`] is what its replay holds between them. A [`Report`] has the
//! figures of a whole log.

#![forbid(unsafe_code)]

pub mod bounds;
pub mod check;
pub mod chunks;
pub mod event;
pub mod flow;
pub mod gen;
mod ledger;
pub mod lent;
pub mod log;
mod path;
pub mod plan;
pub mod refusal;
pub mod replay;
pub mod report;
pub mod ring;
pub mod rng;
mod sampling;
pub mod settings;
pub mod state;
mod turn;
pub mod vectors;
mod window;

pub use check::number_two;
pub use chunks::{Chunk, Part};
pub use event::{Ack, Event, Loss, Nack, NewData, Outcome, Path, Send};
pub use flow::Flow;
pub use lent::{Lent, Memory};
pub use log::{parse, write, Reader, Record};
pub use plan::{PlanRefusal, Planned, SENDS_MAX};
pub use refusal::Refusal;
pub use replay::replay;
pub use report::{report, Report};
pub use ring::Status;
pub use rng::Rng;
pub use sampling::Sampling;
pub use settings::Settings;
pub use state::{Name, State};
pub use turn::Turn;
