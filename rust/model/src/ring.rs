//! A flow's ring: a packet's size, resend count and send time, and two marks as bits, by slots.

use std::ops::Range;

/// Slots of a word of marks.
pub const WORD: usize = u64::BITS as usize;

/// Where the resend count starts in a slot's number.
const RESENDS_AT: u32 = 16;

/// What a slot of low..next-1 shows. The value is the number of C.
#[derive(Clone, Copy, Debug, PartialEq, Eq)]
pub enum Status {
    /// Sent, and neither covered by an ACK nor taken out as lost.
    Flying = 1,
    /// Taken out as lost, waiting to be resent.
    Marked = 2,
    /// Covered by an ACK; kept until `low` has passed it.
    Done = 3,
}

impl Status {
    /// By the two marks of a slot.
    pub fn of(outstanding: bool, marked: bool) -> Status {
        match (outstanding, marked) {
            (false, _) => Status::Done,
            (true, false) => Status::Flying,
            (true, true) => Status::Marked,
        }
    }

    pub fn number(self) -> u8 {
        self as u8
    }
}

/// A slot's number: the packet's size, and 2^16 times its resend count.
pub fn number_of(size: u32, resends: u32) -> u32 {
    size | resends << RESENDS_AT
}

pub fn size_of(number: u32) -> u32 {
    number & ((1 << RESENDS_AT) - 1)
}

pub fn resends_of(number: u32) -> u32 {
    number >> RESENDS_AT
}

/// Slot i is bit i mod 64 of word i / 64.
pub fn bit(words: &[u64], slot: usize) -> bool {
    words[slot / WORD] >> (slot % WORD) & 1 == 1
}

pub fn set_bit(words: &mut [u64], slot: usize) {
    words[slot / WORD] |= 1 << (slot % WORD);
}

pub fn clear_bit(words: &mut [u64], slot: usize) {
    words[slot / WORD] &= !(1 << (slot % WORD));
}

/// The lowest `many` bits; all of them from 64 on.
pub(crate) fn ones(many: usize) -> u64 {
    if many < WORD {
        (1 << many) - 1
    } else {
        u64::MAX
    }
}

/// One flow's ring, to be read: its part of the four lent slices. The capacity is a power of two.
#[derive(Clone, Copy, Debug)]
pub(crate) struct Ring<'a> {
    pub outstanding: &'a [u64],
    pub marked: &'a [u64],
    pub sizes: &'a [u32],
    pub sent: &'a [u64],
}

impl Ring<'_> {
    pub fn capacity(&self) -> usize {
        self.sizes.len()
    }

    /// Where PSN `psn` lives.
    pub fn slot(&self, psn: u32) -> usize {
        psn as usize & (self.capacity() - 1)
    }

    /// The slots of `many` PSNs from `psn` on, at most as many as the ring has: up to its end, and
    /// from its start.
    pub fn slots(&self, psn: u32, many: u32) -> [Range<usize>; 2] {
        let start = self.slot(psn);
        let end = start + many as usize;
        let around = end.saturating_sub(self.capacity());
        [start..end - around, 0..around]
    }

    /// What a slot of low..next-1 shows.
    pub fn status(&self, slot: usize) -> Status {
        Status::of(bit(self.outstanding, slot), bit(self.marked, slot))
    }

    pub fn size(&self, slot: usize) -> u32 {
        size_of(self.sizes[slot])
    }

    pub fn resends(&self, slot: usize) -> u32 {
        resends_of(self.sizes[slot])
    }

    /// The marks of the 64 slots from that of `psn` on: bit i is that of PSN `psn` + i.
    pub fn outstanding_from(&self, psn: u32) -> u64 {
        bits_from(self.outstanding, self.slot(psn))
    }

    pub fn marked_from(&self, psn: u32) -> u64 {
        bits_from(self.marked, self.slot(psn))
    }
}

/// The same ring, to be changed.
#[derive(Debug)]
pub(crate) struct RingMut<'a> {
    pub outstanding: &'a mut [u64],
    pub marked: &'a mut [u64],
    pub sizes: &'a mut [u32],
    pub sent: &'a mut [u64],
}

impl RingMut<'_> {
    pub fn read(&self) -> Ring<'_> {
        Ring {
            outstanding: self.outstanding,
            marked: self.marked,
            sizes: self.sizes,
            sent: self.sent,
        }
    }

    /// Takes both marks off those of the 64 slots from that of `psn` on whose bit is set.
    pub fn clear_marks(&mut self, psn: u32, bits: u64) {
        let slot = self.read().slot(psn);
        clear_bits(self.outstanding, slot, bits);
        clear_bits(self.marked, slot, bits);
    }

    /// Numbers and send times of `many` slots from that of `psn` on become zero.
    pub fn clear_numbers(&mut self, psn: u32, many: u32) {
        for i in 0..many {
            let slot = self.read().slot(psn.wrapping_add(i));
            self.sizes[slot] = 0;
            self.sent[slot] = 0;
        }
    }
}

/// The 64 bits from `slot` on, around the ring's end. In a ring of one word they are that word,
/// turned. The words must be a power of two.
fn bits_from(words: &[u64], slot: usize) -> u64 {
    let (word, shift) = (slot / WORD, slot % WORD);
    let next = (word + 1) & (words.len() - 1);
    match shift {
        0 => words[word],
        _ => words[word] >> shift | words[next] << (WORD - shift),
    }
}

/// Clears those of the same 64 bits that are set in `bits`.
fn clear_bits(words: &mut [u64], slot: usize, bits: u64) {
    let (word, shift) = (slot / WORD, slot % WORD);
    let next = (word + 1) & (words.len() - 1);
    words[word] &= !(bits << shift);
    if shift > 0 {
        words[next] &= !(bits >> (WORD - shift));
    }
}
