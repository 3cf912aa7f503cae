use std::error::Error;
use std::fmt;

/// Why a call was refused; the value is the number of the refusal.
#[derive(Clone, Copy, Debug, PartialEq, Eq)]
pub enum Refusal {
    Setting = 1,
    Unsound = 2,
    Time = 3,
    Size = 4,
    Backlog = 5,
    WindowFull = 6,
    RingFull = 7,
    WrongPsn = 8,
    UnsentOrOld = 9,
    NotFlying = 10,
    Sinks = 11,
    Malformed = 12,
    Bytes = 20,
    Count = 21,
    Reason = 22,
    Ev = 23,
    Trigger = 24,
    Flow = 25,
    PlanTooLong = 27,
    LogTooLong = 28,
}

impl Refusal {
    pub fn number(self) -> u32 {
        self as u32
    }

    pub fn of(number: u32) -> Option<Refusal> {
        const ALL: [Refusal; 20] = [
            Refusal::Setting,
            Refusal::Unsound,
            Refusal::Time,
            Refusal::Size,
            Refusal::Backlog,
            Refusal::WindowFull,
            Refusal::RingFull,
            Refusal::WrongPsn,
            Refusal::UnsentOrOld,
            Refusal::NotFlying,
            Refusal::Sinks,
            Refusal::Malformed,
            Refusal::Bytes,
            Refusal::Count,
            Refusal::Reason,
            Refusal::Ev,
            Refusal::Trigger,
            Refusal::Flow,
            Refusal::PlanTooLong,
            Refusal::LogTooLong,
        ];
        ALL.into_iter().find(|refusal| refusal.number() == number)
    }
}

impl fmt::Display for Refusal {
    fn fmt(&self, f: &mut fmt::Formatter) -> fmt::Result {
        let why = match self {
            Refusal::Setting => "a setting is outside its range",
            Refusal::Unsound => "state, flows or buffers don't hold together",
            Refusal::Time => "time before the held clock, or 2^48 or more",
            Refusal::Size => "a packet's size is outside 41..MTU",
            Refusal::Backlog => "a new packet larger than its flow's backlog",
            Refusal::WindowFull => "in-flight + MTU is over the window",
            Refusal::RingFull => "no slot for a new packet in its flow's ring",
            Refusal::WrongPsn => "a PSN that is not next or not marked, or another size",
            Refusal::UnsentOrOld => "an ACK names an unsent packet, or is too old",
            Refusal::NotFlying => "the packet does not fly",
            Refusal::Sinks => "in-flight would fall below -2^24",
            Refusal::Malformed => "a log record is malformed",
            Refusal::Bytes => "new data of 0 bytes, or a flow's backlog over 2^40",
            Refusal::Count => "a received count of 2^24 or more",
            Refusal::Reason => "a NACK's reason over 2",
            Refusal::Ev => "an EV that is not below the EV count",
            Refusal::Trigger => "an ACK does not cover its trigger",
            Refusal::Flow => "a flow that the table does not have",
            Refusal::PlanTooLong => "a plan of more than 64 sends",
            Refusal::LogTooLong => "a log would have 2^48 bytes or more",
        };
        write!(f, "{}: {why}", self.number())
    }
}

impl Error for Refusal {}

/// What an answer says that has the number in its low 32 bits, and above them the EV of an accepted
/// path choice, the number of an accepted ACK's or NACK's [`Sample`](crate::Sample), what the ring
/// shows, or how many sends a plan has (0 in all others).
pub fn answer(word: u64) -> Result<u32, Refusal> {
    match word as u32 {
        0 => Ok((word >> 32) as u32),
        // The library is proved to answer with no other number.
        number => Err(Refusal::of(number).expect("a number of the header")),
    }
}
