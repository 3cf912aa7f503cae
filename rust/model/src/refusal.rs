/// Why an event, a choice, a plan, a setting up, a log record or a chunk is refused; the value is
/// the number of 01 as amended by M-100, or of M-104, M-107 and M-111.
#[derive(Clone, Copy, Debug, PartialEq, Eq)]
#[repr(u8)]
pub enum Refusal {
    Setting = 1,
    NotTogether = 2,
    Time = 3,
    Size = 4,
    Backlog = 5,
    Window = 6,
    RingFull = 7,
    WrongPacket = 8,
    WrongAck = 9,
    NotFlying = 10,
    InFlight = 11,
    Malformed = 12,
    Room = 13,
    Bytes = 20,
    Count = 21,
    Reason = 22,
    Ev = 23,
    Trigger = 24,
    Flow = 25,
    PlanTooLong = 27,
    TooLong = 28,
}

impl Refusal {
    pub fn number(self) -> u8 {
        self as u8
    }

    /// `Err(self)` unless `allowed`.
    pub(crate) fn unless(self, allowed: bool) -> Result<(), Refusal> {
        if allowed {
            Ok(())
        } else {
            Err(self)
        }
    }
}

/// 0 for an accepted event, else the refusal number.
pub(crate) fn number(answer: Result<(), Refusal>) -> u8 {
    match answer {
        Ok(()) => 0,
        Err(refusal) => refusal.number(),
    }
}
