use crate::word::{TurnWord, TURN};

/// The flow whose turn it is, and the packet that it has to send.
#[derive(Clone, Copy, Debug, PartialEq, Eq)]
pub struct Turn {
    pub flow: usize,
    /// The marked packet nearest to low; else a new one.
    pub resend: bool,
    /// The marked packet's PSN, or next.
    pub psn: u32,
}

impl Turn {
    /// Of the words of an accepted choice; `None` where it names nobody.
    pub fn of(words: &[u64; TURN]) -> Option<Turn> {
        let word = |word: TurnWord| words[word as usize];
        let named = word(TurnWord::Named) != 0;
        named.then(|| Turn {
            flow: word(TurnWord::Flow) as usize,
            resend: word(TurnWord::Resend) != 0,
            psn: word(TurnWord::Psn) as u32,
        })
    }
}
