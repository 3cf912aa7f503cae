//! Single calls with a chunk (M-104): what is held, what is taken, and every refusal, by hand.

use crate::example::{new_data, record, send, settings_e};
use model::chunks::Taken;
use model::replay::evs_lent;
use model::{Chunk, Memory, Outcome, Part, Refusal, State};

pub const LOG_END: u64 = 1 << 48;
pub const PIECE: usize = 61;
/// What stands in the answers' room before a call.
const UNANSWERED: u8 = 99;

/// A context under replay in chunks.
#[derive(Clone, Debug, PartialEq)]
pub struct Side {
    pub part: Part,
    pub state: State,
    pub memory: Memory,
}

impl Side {
    pub fn new() -> Side {
        Side {
            part: Part::default(),
            state: State::default(),
            memory: Memory::new(64),
        }
    }

    /// Lends three flows, and as many EV times as the log asks for.
    pub fn lending_to(log: &[u8]) -> Side {
        Side {
            memory: Memory::with_flows(3, 64, evs_lent(log)),
            ..Side::new()
        }
    }

    /// After settings E and new data, as after a log of 73 bytes.
    pub fn set_up() -> Side {
        let mut side = Side::new();
        let log = [settings_e(), new_data(5, 1_000)].concat();
        let (taken, answers) = side.take(&log, false, 3).unwrap();
        assert_eq!((taken.answered, taken.bytes), (2, log.len()));
        assert_eq!(answers, vec![Outcome::from(0); 2]);
        assert_eq!((side.part.offset, side.part.done), (73, 2));
        side
    }

    /// The answers given; the room behind them must be left as it was.
    pub fn take(
        &mut self,
        bytes: &[u8],
        ended: bool,
        room: usize,
    ) -> Result<(Taken, Vec<Outcome>), Refusal> {
        let mut answers = vec![Outcome::from(UNANSWERED); room];
        let chunk = Chunk { bytes, ended };
        let lent = &mut self.memory.lend();
        let taken = self.part.take(&mut self.state, lent, chunk, &mut answers);
        let answered = taken.map_or(0, |taken| taken.answered);
        let behind = &answers[answered..];
        assert!(behind.iter().all(|answer| answer.number == UNANSWERED));
        answers.truncate(answered);
        taken.map(|taken| (taken, answers))
    }

    /// A call that is refused and changes nothing.
    #[track_caller]
    fn refuse(&mut self, refusal: Refusal, bytes: &[u8], ended: bool, room: usize) {
        let before = self.clone();
        assert_eq!(self.take(bytes, ended, room), Err(refusal));
        assert_eq!(*self, before);
    }

    /// A call that takes the whole chunk and gives no answer.
    #[track_caller]
    fn silent(&mut self, bytes: &[u8], ended: bool, room: usize) {
        let taken = Taken {
            answered: 0,
            bytes: bytes.len(),
        };
        assert_eq!(self.take(bytes, ended, room), Ok((taken, vec![])));
    }

    /// A call whose only answer is a refusal at which replay stops; all is taken, nothing is held.
    #[track_caller]
    fn stop(&mut self, number: u8, bytes: &[u8], ended: bool) {
        let (taken, answers) = self.take(bytes, ended, 4).unwrap();
        assert_eq!((taken.answered, taken.bytes), (1, bytes.len()));
        assert_eq!(answers, [Outcome::from(number)]);
        let part = &self.part;
        assert!(part.stopped && part.held == 0 && part.piece == [0; PIECE]);
    }
}

/// With no room nothing is taken, also of a log that has ended and of a record that is malformed.
#[test]
fn no_room() {
    let fresh = Side::new();
    for (bytes, ended) in [(&[][..], true), (&[9; 20], false), (&settings_e(), true)] {
        let mut side = fresh.clone();
        let (taken, _) = side.take(bytes, ended, 0).unwrap();
        assert_eq!((taken.answered, taken.bytes), (0, 0));
        assert_eq!(side, fresh);
    }
}

/// The room is full with the last whole record: the bytes behind it are not taken.
#[test]
fn a_full_room_leaves_what_is_unfinished() {
    let path = record(6, &[&9u64.to_le_bytes()]);
    let chunk = [&path[5..], &path, &path[..3]].concat();
    let start = {
        let mut side = Side::set_up();
        side.silent(&path[..5], false, 2);
        side
    };
    for (room, bytes, held) in [(0, 0, 5), (1, 7, 0), (2, 19, 0), (3, 22, 3)] {
        let mut side = start.clone();
        let (taken, answers) = side.take(&chunk, false, room).unwrap();
        assert_eq!((taken.bytes, side.part.held), (bytes, held));
        assert_eq!(answers.len(), room.min(2));
        assert_eq!(side.part.offset, 73 + 12 * answers.len() as u64);
    }
    // The third answer, of the record that is cut, has room or waits for it.
    for (room, answered) in [(2, 2), (3, 3)] {
        let mut side = start.clone();
        let (taken, _) = side.take(&chunk, true, room).unwrap();
        assert_eq!(taken.answered, answered);
        assert_eq!(side.part.stopped, answered == 3);
        assert_eq!(taken.bytes, if answered == 3 { 22 } else { 19 });
    }
}

/// Five records of 12 bytes and a byte of a sixth, answered one by one for no bytes.
#[test]
fn a_piece_of_several_records() {
    let path = record(6, &[&9u64.to_le_bytes()]);
    let mut side = Side::set_up();
    let bytes = path.repeat(6);
    side.part.piece.copy_from_slice(&bytes[..PIECE]);
    side.part.held = PIECE as u64;
    for answered in 1..=5u64 {
        let (taken, answers) = side.take(&bytes[PIECE..], false, 1).unwrap();
        assert_eq!((taken.bytes, answers[0].ev), (0, Some(answered as u16 - 1)));
        assert_eq!(side.part.held, PIECE as u64 - 12 * answered);
        assert_eq!(side.part.offset, 73 + 12 * answered);
    }
    let (taken, answers) = side.take(&bytes[PIECE..], true, 1).unwrap();
    assert_eq!((taken.bytes, answers[0].ev), (11, Some(5)));
    assert_eq!((side.part.held, side.part.done), (0, 8));
    side.silent(&[], true, 1);
}

#[test]
fn malformed_at_four_bytes() {
    for malformed in [[0, 0, 1, 0], [10, 0, 7, 0], [10, 1, 6, 0], [11, 0, 6, 0]] {
        for cut in 1..=3 {
            let mut side = Side::set_up();
            side.silent(&malformed[..cut], false, 4);
            assert_eq!(side.part.held, cut as u64);
            side.stop(12, &malformed[cut..], false);
            assert_eq!((side.part.offset, side.part.done), (73, 2));
        }
    }
}

/// Settings in a second place, another record in the first, and unknown flags: when it is whole.
#[test]
fn malformed_when_whole() {
    let mut flags = send(9, 100, 0);
    flags[20] = 2;
    let mut settings = settings_e();
    settings[56] = 2;
    let path = record(6, &[&[0; 8]]);
    for (start, malformed) in [
        (Side::set_up(), settings_e()),
        (Side::set_up(), flags),
        (Side::new(), path),
        (Side::new(), settings),
    ] {
        for cut in 0..malformed.len() {
            let mut side = start.clone();
            side.silent(&malformed[..cut], false, 4);
            side.stop(12, &malformed[cut..], false);
            assert_eq!((side.state, &side.memory), (start.state, &start.memory));
            let part = &side.part;
            assert_eq!(
                (part.offset, part.done),
                (start.part.offset, start.part.done)
            );
        }
    }
}

#[test]
fn an_unfinished_record_at_the_end() {
    for start in [Side::new(), Side::set_up()] {
        let bytes = settings_e();
        for cut in 1..bytes.len() {
            // The end with the last bytes, or by itself.
            let mut side = start.clone();
            side.stop(12, &bytes[..cut], true);
            let mut later = start.clone();
            later.silent(&bytes[..cut], false, 4);
            later.stop(12, &[], true);
            assert_eq!(later, side);
            assert_eq!(side.part.offset, start.part.offset);
        }
        // Nothing unfinished: the end says nothing, and is not held.
        let mut side = start.clone();
        side.silent(&[], true, 4);
        assert_eq!(side, start);
    }
}

#[test]
fn refused_settings_are_done() {
    // A state of zeros comes in the place of what stood there; lent memory stays.
    let mut fresh = Side::new();
    fresh.state = Side::set_up().state;
    fresh.memory.sizes[3] = 9;
    let mut settings = settings_e();
    settings[4..8].fill(0);
    let bytes = [settings, vec![1; 300]].concat();
    let mut side = fresh.clone();
    side.stop(1, &bytes, false);
    assert_eq!((side.part.offset, side.part.done), (57, 1));
    assert_eq!(
        (side.state, &side.memory),
        (State::default(), &fresh.memory)
    );
    // A ring that is too short is the 2 of setting up: the record's, not the call's.
    fresh.memory.sent.pop();
    let mut side = fresh.clone();
    side.stop(2, &settings_e(), false);
    assert_eq!((side.part.offset, side.part.done), (57, 1));
    assert_eq!(
        (side.state, &side.memory),
        (State::default(), &fresh.memory)
    );
}

#[test]
fn after_a_stop_nothing_changes() {
    let mut side = Side::set_up();
    side.stop(12, &[1; 4], false);
    // Neither state nor lent memory is looked at, nor the piece within its room.
    side.state.cwnd = 0;
    side.memory.outstanding.clear();
    side.part.piece = [9; PIECE];
    side.part.held = PIECE as u64;
    for offset in [side.part.offset, LOG_END - 1] {
        side.part.offset = offset;
        let before = side.clone();
        for (bytes, ended, room) in [(&[][..], false, 0), (&[10; 500], false, 9), (&[], true, 9)] {
            side.silent(bytes, ended, room);
        }
        assert_eq!(side, before);
    }
    side.part.held += 1;
    side.refuse(Refusal::NotTogether, &[], false, 1);
}

#[test]
fn number_2_of_what_is_held() {
    let good = Side::set_up();
    for stopped in [false, true] {
        let mut side = good.clone();
        side.part.stopped = stopped;
        for (change, sound) in [
            ((|part| part.held = 61) as fn(&mut Part), true),
            (|part| part.held = 62, false),
            (|part| part.held = u64::MAX, false),
            (|part| part.offset = LOG_END - 1, true),
            (|part| part.offset = LOG_END, false),
            (|part| part.offset = u64::MAX, false),
            (|part| part.done = part.offset, true),
            (|part| part.done = part.offset + 1, false),
            (|part| part.done = u64::MAX, false),
            (|part| (part.done, part.offset) = (0, 0), true),
            (|part| (part.done, part.offset) = (1, 0), false),
        ] {
            let mut side = side.clone();
            change(&mut side.part);
            for (bytes, ended, room) in [(&[][..], false, 0), (&[1; 70], true, 4)] {
                let answer = side.clone().take(bytes, ended, room);
                assert_eq!(answer != Err(Refusal::NotTogether), sound);
                if !sound {
                    side.refuse(Refusal::NotTogether, bytes, ended, room);
                }
            }
        }
    }
}

/// State and lent memory are looked at between accepted settings and a stop.
#[test]
fn number_2_of_the_context() {
    let spoil = |side: &mut Side| side.state.base = 0;
    let mut fresh = Side::new();
    spoil(&mut fresh);
    fresh.silent(&settings_e()[..50], false, 4);
    let (taken, _) = fresh.take(&settings_e()[50..], false, 4).unwrap();
    assert_eq!(taken.answered, 1);
    assert_eq!(fresh.state.base, 96);
    for (bytes, ended, room) in [(&[][..], false, 0), (&[], true, 1), (&[1; 70], true, 4)] {
        let mut side = fresh.clone();
        spoil(&mut side);
        side.refuse(Refusal::NotTogether, bytes, ended, room);
        let mut side = fresh.clone();
        side.state.turn = 1;
        side.refuse(Refusal::NotTogether, bytes, ended, room);
        let mut side = fresh.clone();
        side.memory.ev_times.pop();
        side.refuse(Refusal::NotTogether, bytes, ended, room);
        // 2 before 28.
        side.part.offset = LOG_END - 1;
        side.refuse(Refusal::NotTogether, bytes, ended, room);
    }
}

/// A chunk with which the log would have 2^48 bytes, and one byte less.
#[test]
fn a_log_that_is_too_long() {
    for start in [Side::new(), Side::set_up()] {
        for held in [0, 3, 61] {
            for many in [0u64, 1, 200] {
                let mut side = start.clone();
                side.part.held = held;
                side.part.piece = [255; PIECE];
                for length in [LOG_END - 1, LOG_END, LOG_END + 1] {
                    side.part.offset = length - held - many;
                    if side.part.offset >= LOG_END {
                        continue;
                    }
                    let bytes = vec![255; many as usize];
                    for (ended, room) in [(false, 0), (false, 2), (true, 2)] {
                        if length < LOG_END {
                            assert!(side.clone().take(&bytes, ended, room).is_ok());
                        } else {
                            side.refuse(Refusal::TooLong, &bytes, ended, room);
                        }
                    }
                }
            }
        }
    }
}

/// A chunk that was refused is no part of the log: a shorter one is taken in its place.
#[test]
fn after_a_chunk_that_is_too_long() {
    let path = record(6, &[&9u64.to_le_bytes()]);
    let mut side = Side::set_up();
    side.part.offset = LOG_END - 13;
    side.silent(&path[..7], false, 2);
    side.refuse(Refusal::TooLong, &[&path[7..], &[10]].concat(), false, 2);
    let (taken, answers) = side.take(&path[7..], false, 2).unwrap();
    assert_eq!((taken.bytes, answers[0].ev), (5, Some(0)));
    assert_eq!(side.part.offset, LOG_END - 1);
    side.silent(&[], true, 2);
    side.refuse(Refusal::TooLong, &[10], false, 2);
}
