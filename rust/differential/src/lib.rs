//! The proved C library and the program against the model of 01.
//!
//! Each [`Kind`] makes its cases from a seed, lets both sides answer and compares all that can be
//! seen of them.

mod call;
mod choices;
mod edges;
mod kinds;
mod logs;
mod making;
mod numbers;
mod planning;
mod plans;
mod profile;
mod session;
mod shape;
mod shorten;
mod sides;
mod sound;
mod source;
mod spoil;
mod tally;
mod turns;
mod words;

pub use call::{answer_of, Answer, Beside, Call};
pub use choices::Choices;
pub use kinds::text::program;
pub use kinds::Kind;
pub use plans::Plans;
pub use profile::GOOD;
pub use sides::Model;
pub use source::Source;
pub use tally::{Seen, Tally};
pub use words::{flows_of, plan_of, sends_of, state_of, table_of, turn_of, words_of};
