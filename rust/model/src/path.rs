//! The next path of 01. An EV is avoided while its time is after now.

use crate::lent::Lent;
use crate::state::State;

impl State {
    /// Takes the next EV and moves the cursor behind it.
    pub(crate) fn take_path(&mut self, lent: &Lent, now: u64) -> u16 {
        let cursor = self.cursor as usize;
        // A cursor that is not avoided is taken in either case, and saves the counting.
        let cursor_free = lent.ev_times[cursor] <= now;
        let ev = if cursor_free || mostly_avoided(lent, now) {
            cursor
        } else {
            first_free(lent, now, cursor)
        };
        // The number of EVs is a power of two: a mask, and no division.
        self.cursor = (ev as u64 + 1) & (u64::from(self.settings.ev_count) - 1);
        ev as u16
    }
}

fn mostly_avoided(lent: &Lent, now: u64) -> bool {
    let avoided = lent.ev_times.iter().filter(|&&time| time > now).count();
    2 * avoided > lent.ev_times.len()
}

/// The first EV from the cursor on, circularly, that is not avoided.
fn first_free(lent: &Lent, now: u64, cursor: usize) -> usize {
    let (before, from) = lent.ev_times.split_at(cursor);
    let free = |&time: &u64| time <= now;
    match from.iter().position(free) {
        Some(i) => cursor + i,
        None => before.iter().position(free).unwrap_or(cursor),
    }
}
