use crate::refusal::{answer, Refusal};
use std::fmt;

/// What an accepted ACK or NACK says of its packet's round trip; the value is the header's number.
#[derive(Clone, Copy, Debug, PartialEq, Eq)]
pub enum Sample {
    Taken = 1,
    Cut = 2,
    Gone = 3,
    Ambiguous = 4,
    NotPositive = 5,
}

impl Sample {
    pub const ALL: [Sample; 5] = [
        Sample::Taken,
        Sample::Cut,
        Sample::Gone,
        Sample::Ambiguous,
        Sample::NotPositive,
    ];

    pub fn number(self) -> u8 {
        self as u8
    }

    /// `None` for 0, which answers other than of an accepted ACK or NACK have, and beyond 5.
    pub fn of(number: u32) -> Option<Sample> {
        let mut all = Sample::ALL.into_iter();
        all.find(|sample| u32::from(sample.number()) == number)
    }
}

impl fmt::Display for Sample {
    fn fmt(&self, f: &mut fmt::Formatter) -> fmt::Result {
        f.write_str(match self {
            Sample::Taken => "a sample",
            Sample::Cut => "a sample cut to 2^20",
            Sample::Gone => "packet gone",
            Sample::Ambiguous => "ambiguous resend",
            Sample::NotPositive => "not positive",
        })
    }
}

/// What an ACK's or a NACK's answer says, of a call or of a record that was replayed.
pub fn sampled(word: u64) -> Result<Sample, Refusal> {
    // The library is proved to say one of the five where it accepts.
    answer(word).map(|number| Sample::of(number).expect("a sample of the header"))
}
