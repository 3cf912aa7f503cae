//! The words of `include/nscc.h`, in its order.

/// A word of the state, which is over all flows. `word as usize` is its place.
#[derive(Clone, Copy, Debug, PartialEq, Eq)]
pub enum Word {
    Mtu,
    MaxWnd,
    ConfigBaseRtt,
    TargetQdelay,
    Fi,
    Eta,
    Alpha,
    Gamma,
    MaxMdJump,
    AdjustPeriod,
    AdjustBytes,
    QaThreshold,
    FirstPsn,
    QuickAdaptOff,
    /// The sum of the flows' backlogs.
    Backlog,
    Flying,
    Marked,
    MarkedBytes,
    /// In-flight + [`IN_FLIGHT_ADDED`]; in-flight is at most MaxWnd.
    InFlight,
    /// MTU..max(MTU, MaxWnd * base / config_base_rtt), rounded down.
    Cwnd,
    /// It only falls, and the bound of cwnd with it.
    Base,
    Avg,
    IncBytes,
    Received,
    Achieved,
    Ignored,
    BytesToIgnore,
    FiCount,
    Fast,
    Trigger,
    QaEnd,
    LastAdjust,
    LastDec,
    Clock,
    Cursor,
    /// A [`Phase`].
    Phase,
    /// A power of two, [`EVS_MIN`]..[`EVS_MAX`].
    EvCount,
    /// The held turn, the flow from which the next round starts: below the number of flows.
    Turn,
}

impl Word {
    pub const ALL: [Word; WORDS] = [
        Word::Mtu,
        Word::MaxWnd,
        Word::ConfigBaseRtt,
        Word::TargetQdelay,
        Word::Fi,
        Word::Eta,
        Word::Alpha,
        Word::Gamma,
        Word::MaxMdJump,
        Word::AdjustPeriod,
        Word::AdjustBytes,
        Word::QaThreshold,
        Word::FirstPsn,
        Word::QuickAdaptOff,
        Word::Backlog,
        Word::Flying,
        Word::Marked,
        Word::MarkedBytes,
        Word::InFlight,
        Word::Cwnd,
        Word::Base,
        Word::Avg,
        Word::IncBytes,
        Word::Received,
        Word::Achieved,
        Word::Ignored,
        Word::BytesToIgnore,
        Word::FiCount,
        Word::Fast,
        Word::Trigger,
        Word::QaEnd,
        Word::LastAdjust,
        Word::LastDec,
        Word::Clock,
        Word::Cursor,
        Word::Phase,
        Word::EvCount,
        Word::Turn,
    ];
}

/// A word of a flow. `word as usize` is its place among the flow's words.
#[derive(Clone, Copy, Debug, PartialEq, Eq)]
pub enum FlowWord {
    /// The oldest PSN that is not done.
    Low,
    /// The PSN of the next new packet.
    Next,
    /// The received count.
    Held,
    Backlog,
}

impl FlowWord {
    pub const ALL: [FlowWord; FLOW_WORDS] = [
        FlowWord::Low,
        FlowWord::Next,
        FlowWord::Held,
        FlowWord::Backlog,
    ];
}

/// A word of what a choice names.
#[derive(Clone, Copy, Debug, PartialEq, Eq)]
pub enum TurnWord {
    /// 1 where a flow is named; 0 where nobody is, and so are then the others.
    Named,
    Flow,
    /// 1 for a marked packet, 0 for a new one.
    Resend,
    Psn,
}

/// A number of a send in a plan.
#[derive(Clone, Copy, Debug, PartialEq, Eq)]
pub enum PlannedWord {
    Flow,
    /// 0 for a new packet, any other number for a marked one.
    Resend,
    Psn,
    Size,
}

/// A word of a place in a log.
#[derive(Clone, Copy, Debug, PartialEq, Eq)]
pub enum PlaceWord {
    At,
    Done,
    Stopped,
    Answered,
}

/// A word of a log that comes in chunks.
#[derive(Clone, Copy, Debug, PartialEq, Eq)]
pub enum PartWord {
    At,
    Done,
    Stopped,
    Piece,
    Answered,
    Taken,
}

/// The state's name.
#[derive(Clone, Copy, Debug, PartialEq, Eq)]
pub enum Phase {
    Idle,
    Pending,
    Ready,
    Active,
}

impl Phase {
    /// Of the word [`Word::Phase`]; `None` for a word that no state has.
    pub fn of(word: u64) -> Option<Phase> {
        match word {
            0 => Some(Phase::Idle),
            1 => Some(Phase::Pending),
            2 => Some(Phase::Ready),
            3 => Some(Phase::Active),
            _ => None,
        }
    }
}

/// How many settings there are.
pub const SETTINGS: usize = 12;
/// How many words a state has.
pub const WORDS: usize = 38;
/// How many words a flow has in the table.
pub const FLOW_WORDS: usize = 4;
/// The greatest number of flows. The least is one.
pub const FLOWS_MAX: usize = 8;
/// How many words a choice answers in.
pub const TURN: usize = 4;
/// How many numbers a send has in a plan.
pub const PLANNED: usize = 4;
/// The most sends of a plan.
pub const SENDS_MAX: usize = 64;
/// How many words a place has.
pub const PLACE: usize = 4;
/// How many words a log that comes in chunks has.
pub const PART: usize = 6;
/// How many bytes the room of its piece has.
pub const PIECE: usize = 61;
/// The least EV count, and the greatest. It is a power of two.
pub const EVS_MIN: u32 = 256;
pub const EVS_MAX: u32 = 4096;
/// What is added to in-flight in its word, since in-flight may be below zero.
pub const IN_FLIGHT_ADDED: i64 = 1 << 24;
