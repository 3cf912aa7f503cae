//! The C functions over slices, each with the number that it answers.

#[cfg(bridge)]
mod bridge;
#[cfg(not(bridge))]
mod linked;

/// Everything of a context that a call is lent.
#[derive(Debug)]
pub struct Lent<'a> {
    pub words: &'a mut [u64],
    pub flows: &'a mut [u64],
    pub outstanding: &'a mut [u64],
    pub marked: &'a mut [u64],
    pub sizes: &'a mut [u32],
    pub sent: &'a mut [u64],
    pub evs: &'a mut [u64],
}

/// The same for calls that only read.
#[derive(Clone, Copy, Debug, PartialEq, Eq)]
pub struct Shown<'a> {
    pub words: &'a [u64],
    pub flows: &'a [u64],
    pub outstanding: &'a [u64],
    pub marked: &'a [u64],
    pub sizes: &'a [u32],
    pub sent: &'a [u64],
    pub evs: &'a [u64],
}

impl Lent<'_> {
    pub fn show(&self) -> Shown<'_> {
        Shown {
            words: self.words,
            flows: self.flows,
            outstanding: self.outstanding,
            marked: self.marked,
            sizes: self.sizes,
            sent: self.sent,
            evs: self.evs,
        }
    }
}

/// The library is reached over a bridge, under an emulator: slow, and no time says anything.
pub const EMULATED: bool = cfg!(bridge);
