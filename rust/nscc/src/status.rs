use std::fmt;

/// What the ring shows of a packet in low..next-1; the value is the header's number.
#[derive(Clone, Copy, Debug, PartialEq, Eq)]
pub enum Status {
    /// Sent, and neither acknowledged nor taken for lost.
    Flying = 1,
    /// Taken for lost, and waits to be sent again.
    Marked = 2,
    /// Acknowledged, while an older packet is not.
    Done = 3,
}

impl Status {
    pub const ALL: [Status; 3] = [Status::Flying, Status::Marked, Status::Done];

    pub fn number(self) -> u8 {
        self as u8
    }

    /// `None` for 0, which is the number of a PSN outside low..next-1, and beyond 3.
    pub fn of(number: u32) -> Option<Status> {
        let mut all = Status::ALL.into_iter();
        all.find(|status| u32::from(status.number()) == number)
    }
}

impl fmt::Display for Status {
    fn fmt(&self, f: &mut fmt::Formatter) -> fmt::Result {
        f.write_str(match self {
            Status::Flying => "flying",
            Status::Marked => "marked",
            Status::Done => "done",
        })
    }
}
