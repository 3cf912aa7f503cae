//! Logs in chunks (M-104) against the replay of the joined log, by a second way of saying when each
//! answer is due and what is taken and held.

use crate::chunk_calls::{Side, LOG_END, PIECE};
use crate::example::{new_data, record, send, settings_e};
use model::chunks::Lines;
use model::replay::{Replay, HEADER};
use model::vectors::bundled;
use model::{gen, replay, Chunk, Outcome, Part, Rng};

/// The lengths and kinds of 01, M-107 and M-110.
const PAIRS: [(u8, u8); 14] = [
    (14, 1),
    (19, 2),
    (37, 3),
    (18, 4),
    (16, 5),
    (10, 6),
    (55, 16),
    (59, 16),
    (15, 33),
    (20, 34),
    (38, 35),
    (19, 36),
    (17, 37),
    (11, 38),
];

/// An answer of the joined log.
struct Told {
    outcome: Outcome,
    /// Bytes of the records done, with this one if it is.
    end: usize,
    /// With how many bytes of the log it is given; `None`: when the log has ended.
    due: Option<usize>,
}

/// What the joined log gives.
struct Joined {
    told: Vec<Told>,
    stopped: bool,
    side: Side,
}

/// Replays the rest of a log, from a place with nothing held on.
fn joined(from: &Side, log: &[u8]) -> Joined {
    let mut side = from.clone();
    let mut told = Vec::new();
    let lent = side.memory.lend();
    let mut replay = if side.part.done > 0 {
        Replay::resume(log, side.state, lent)
    } else {
        Replay::new(log, lent)
    };
    let mut stopped = false;
    while !stopped {
        let start = replay.offset();
        let (outcome, due) = match replay.step() {
            Ok(None) => break,
            Ok(Some(outcome)) => (outcome, Some(replay.offset())),
            Err(12) => (12.into(), fault(log, start)),
            Err(number) => (number.into(), Some(replay.offset())),
        };
        stopped = outcome.number == 12 || matches!(outcome.number, 1 | 2);
        let end = if outcome.number == 12 {
            start
        } else {
            replay.offset()
        };
        told.push(Told { outcome, end, due });
    }
    side.state = replay.state;
    Joined {
        told,
        stopped,
        side,
    }
}

/// Where the fault of a malformed record can be told.
fn fault(log: &[u8], start: usize) -> Option<usize> {
    let rest = &log[start..];
    let [length, high, kind, other, ..] = *rest else {
        return None;
    };
    let whole = 2 + usize::from(length);
    if (high, other) != (0, 0) || !PAIRS.contains(&(length, kind)) {
        Some(start + 4)
    } else if rest.len() >= whole {
        Some(start + whole)
    } else {
        None
    }
}

/// A log on its way, of which the start's piece is the front.
struct Walk<'a> {
    log: &'a [u8],
    joined: Joined,
    start: Part,
    side: Side,
    given: usize,
    taken: usize,
}

impl<'a> Walk<'a> {
    fn new(log: &'a [u8]) -> Walk<'a> {
        Walk::from(Side::lending_to(log), log)
    }

    fn from(side: Side, log: &'a [u8]) -> Walk<'a> {
        let taken = side.part.held as usize;
        assert_eq!(side.part.piece[..taken], log[..taken]);
        Walk {
            log,
            joined: joined(&side, log),
            start: side.part,
            side,
            given: 0,
            taken,
        }
    }

    fn left(&self) -> usize {
        self.log.len() - self.taken
    }

    fn over(&self) -> bool {
        self.given == self.joined.told.len() && self.left() == 0
    }

    fn stopped(&self) -> bool {
        self.joined.stopped && self.given == self.joined.told.len()
    }

    /// Hands in so many of the bytes that are left; what comes of it is compared.
    fn hand_in(&mut self, many: usize, ended: bool, room: usize) {
        let to = self.taken + many;
        assert!(!ended || to == self.log.len());
        let before = self.side.clone();
        let was_stopped = self.stopped();
        let (taken, answers) = self
            .side
            .take(&self.log[self.taken..to], ended, room)
            .unwrap();

        let told = &self.joined.told[self.given..];
        let due = |told: &&Told| ended || told.due.is_some_and(|due| due <= to);
        let expected: Vec<Outcome> = told
            .iter()
            .take_while(due)
            .take(room)
            .map(|told| told.outcome)
            .collect();
        assert_eq!(answers, expected);
        self.given += answers.len();
        let end = self.joined.told[..self.given]
            .last()
            .map_or(0, |told| told.end);
        let full = answers.len() == room && !self.stopped();
        let from = self.taken;
        self.taken = if full { from.max(end) } else { to };
        assert_eq!(taken.bytes, self.taken - from);
        if was_stopped {
            assert_eq!(self.side, before);
        } else {
            self.check_part(end);
        }
    }

    fn check_part(&self, end: usize) {
        let part = &self.side.part;
        let piece = if self.stopped() {
            &[]
        } else {
            &self.log[end..self.taken]
        };
        assert_eq!(part.held, piece.len() as u64);
        assert_eq!(part.piece[..piece.len()], *piece);
        assert!(part.piece[piece.len()..].iter().all(|&byte| byte == 0));
        assert_eq!(part.offset, self.start.offset + end as u64);
        let given = self.joined.told[..self.given].iter();
        let done = given.filter(|told| told.outcome.number != 12).count();
        assert_eq!(part.done, self.start.done + done as u64);
        assert_eq!(part.stopped, self.stopped());
    }

    /// All is given and taken: state and lent memory are those of the joined log.
    fn check_end(&self) {
        assert!(self.over());
        assert_eq!(self.side.state, self.joined.side.state);
        assert_eq!(self.side.memory, self.joined.side.memory);
    }

    /// Hands in the rest as the log's end until nothing more comes.
    fn finish(&mut self, room: usize) {
        loop {
            self.hand_in(self.left(), true, room);
            if self.over() {
                break;
            }
        }
        self.check_end();
    }
}

/// One record of each kind, accepted: 225 bytes.
fn one_of_each() -> Vec<u8> {
    let psn = |psn: u32| psn.to_le_bytes();
    let time = |time: u64| time.to_le_bytes();
    let ack: [&[u8]; 5] = [&time(106), &psn(0), &[0; 8], &psn(0), &[0; 11]];
    [
        settings_e(),
        new_data(0, 300),
        send(10, 100, 0),
        record(3, &ack),
        send(107, 100, 1),
        record(4, &[&time(110), &psn(1), &[7, 0, 0, 1]]),
        record(2, &[&time(111), &psn(100), &psn(1), &[1]]),
        record(5, &[&time(120), &psn(1), &[8, 0]]),
        record(6, &[&time(121)]),
    ]
    .concat()
}

/// The same of flow 2, and one of a flow that is not lent: 233 bytes and 13.
fn one_of_each_by_flow() -> Vec<u8> {
    let psn = |psn: u32| psn.to_le_bytes();
    let head = |time: u64, flow: u8| [&time.to_le_bytes()[..], &[flow]].concat();
    let ack: [&[u8]; 5] = [&head(106, 2), &psn(0), &[0; 8], &psn(0), &[0; 11]];
    [
        settings_e(),
        record(33, &[&head(0, 2), &psn(300)]),
        record(34, &[&head(10, 2), &psn(100), &psn(0), &[0]]),
        record(35, &ack),
        record(34, &[&head(107, 2), &psn(100), &psn(1), &[0]]),
        record(36, &[&head(110, 2), &psn(1), &[7, 0, 0, 1]]),
        record(34, &[&head(111, 2), &psn(100), &psn(1), &[1]]),
        record(37, &[&head(120, 2), &psn(1), &[8, 0]]),
        record(38, &[&head(121, 2)]),
        record(38, &[&head(121, 3)]),
    ]
    .concat()
}

/// The bundled logs that are short, every malformed one among them, and one of each kind.
fn small_logs() -> Vec<Vec<u8>> {
    let bundled = bundled().into_iter().map(|vector| vector.log);
    let mut logs: Vec<Vec<u8>> = bundled.filter(|log| log.len() < 260).collect();
    logs.push(one_of_each());
    logs.push(one_of_each_by_flow());
    logs
}

#[test]
fn one_of_each_is_accepted() {
    let log = one_of_each();
    let told = joined(&Side::new(), &log).told;
    assert_eq!(log.len(), 225);
    assert!(told.len() == 9 && told.iter().all(|told| told.outcome.number == 0));

    let log = one_of_each_by_flow();
    let told = joined(&Side::lending_to(&log), &log).told;
    assert_eq!(log.len(), 233 + 13);
    let numbers: Vec<u8> = told.iter().map(|told| told.outcome.number).collect();
    assert_eq!(numbers, [0, 0, 0, 0, 0, 0, 0, 0, 0, 25]);
}

#[test]
fn small_logs_stop_in_every_way() {
    let logs = small_logs();
    let replayed = |log| joined(&Side::lending_to(log), log);
    let all = logs.iter().map(|log| (log, replayed(log)));
    let (mut at_four, mut when_whole, mut at_the_end, mut by_1, mut never) = (0, 0, 0, 0, 0);
    for (log, joined) in all {
        let last = joined.told.last();
        match last.map(|told| (told.outcome.number, told.due)) {
            _ if !joined.stopped => never += 1,
            Some((12, Some(due))) if due == last.map_or(0, |told| told.end) + 4 => at_four += 1,
            Some((12, Some(_))) => when_whole += 1,
            Some((12, None)) => at_the_end += 1,
            Some((1, _)) => by_1 += 1,
            _ => panic!("{log:?}"),
        }
    }
    let times = [at_four, when_whole, at_the_end, by_1, never];
    assert!(times.iter().all(|&times| times > 4), "{times:?}");
}

#[test]
fn every_cut() {
    for log in small_logs() {
        for cut in 0..=log.len() {
            let mut walk = Walk::new(&log);
            walk.hand_in(cut, false, 20);
            // What has come of the log, as if that were all: its whole records.
            let done = walk.side.part.offset as usize;
            let prefix = joined(&Side::lending_to(&log), &log[..done]).side;
            assert_eq!(
                (walk.side.state, &walk.side.memory),
                (prefix.state, &prefix.memory)
            );
            walk.finish(20);
        }
    }
}

#[test]
fn every_two_cuts() {
    let log = one_of_each();
    for first in 0..=log.len() {
        for second in first..=log.len() {
            let mut walk = Walk::new(&log);
            walk.hand_in(first, false, 20);
            walk.hand_in(second - first, false, 20);
            walk.finish(20);
        }
    }
}

#[test]
fn a_byte_at_a_time() {
    for log in bundled().into_iter().map(|vector| vector.log) {
        let mut walk = Walk::new(&log);
        for _ in 0..log.len() {
            walk.hand_in(1, false, 1);
            assert!(walk.side.part.held < PIECE as u64);
            // Nothing more is given for no bytes.
            let given = walk.given;
            walk.hand_in(0, false, 1);
            assert_eq!(walk.given, given);
        }
        walk.finish(1);
    }
}

#[test]
fn chunks_of_many_records() {
    for log in bundled().into_iter().map(|vector| vector.log) {
        for most in [40, 100, 1_000] {
            let mut walk = Walk::new(&log);
            while walk.left() > most {
                walk.hand_in(most, false, 100);
            }
            walk.finish(100);
        }
    }
}

/// What is not taken is handed in again, with the same end or with more.
#[test]
fn small_rooms() {
    for log in small_logs() {
        for room in 1..=2 {
            for chunk in [1, 5, 13, 60, 300] {
                let mut walk = Walk::new(&log);
                while walk.left() > chunk {
                    walk.hand_in(chunk, false, room);
                    walk.hand_in(chunk.min(walk.left()), false, 0);
                }
                walk.hand_in(walk.left(), true, 0);
                walk.finish(room);
            }
        }
    }
}

fn any_log(rng: &mut Rng) -> Vec<u8> {
    let seed = rng.next_u64();
    let records = rng.pick(&[3, 20, 100]);
    match rng.below(7) {
        0 => gen::narrow(seed, records, 64),
        3 => gen::flows(seed, records),
        1 => gen::lossy(seed, records),
        2 => gen::wide(seed, records),
        _ => gen::hostile(seed, records),
    }
}

#[test]
fn any_logs_in_any_chunks() {
    let mut rng = Rng::new(11);
    for _ in 0..4_000 {
        let log = any_log(&mut rng);
        let most = rng.pick(&[1, 6, 30, 80, 500]);
        let room = rng.pick(&[1, 2, 3, 40]);
        let mut walk = Walk::new(&log);
        while walk.left() > 0 && !rng.one_in(300) {
            let many = rng.below(most + 1).min(walk.left() as u64);
            walk.hand_in(many as usize, false, rng.below(room + 1) as usize);
        }
        walk.finish(room as usize);
    }
}

/// The piece is any bytes, whole records among them, behind which the room is not of zeros.
#[test]
fn any_piece() {
    let mut rng = Rng::new(12);
    let (mut whole, mut stopped) = (0, 0);
    for _ in 0..40_000 {
        let (mut side, mut log) = if rng.one_in(2) {
            (Side::new(), settings_e())
        } else {
            (Side::set_up(), vec![])
        };
        while log.len() < 200 {
            let time = rng.below(40).to_le_bytes();
            log.extend(match rng.below(4) {
                0 => new_data(rng.below(20), 1),
                1 => record(5, &[&time, &[0; 6]]),
                _ => record(6, &[&time]),
            });
        }
        for _ in 0..rng.below(3) {
            let i = rng.below(120) as usize;
            let any = rng.next_u32() as u8;
            log[i] = rng.pick(&[0, 1, 255, any]);
        }
        let held = rng.between(0, PIECE as u64) as usize;
        log.truncate(rng.between(held as u64, 200) as usize);
        side.part.piece = [0; PIECE].map(|_: u8| rng.next_u32() as u8);
        side.part.piece[..held].copy_from_slice(&log[..held]);
        side.part.held = held as u64;
        // The log may have any length before.
        let first = rng.pick(&[side.part.offset, 1 << 40, LOG_END - 201]);
        side.part.offset = first;
        if side.part.done > 0 {
            side.part.done = rng.pick(&[1, 2, first - 1, first]);
        }
        let mut walk = Walk::from(side, &log);
        while walk.left() > 0 && !rng.one_in(4) {
            let many = rng.below(walk.left() as u64 + 1) as usize;
            walk.hand_in(many, false, rng.below(5) as usize);
            whole += u64::from(walk.given > 1);
        }
        walk.finish(rng.between(1, 5) as usize);
        stopped += u64::from(walk.stopped());
    }
    assert!(whole > 10_000 && stopped > 10_000, "{whole} {stopped}");
}

fn lines_of<'a>(chunks: impl IntoIterator<Item = &'a [u8]>) -> String {
    let mut lines = Lines::default();
    let mut text = String::from(HEADER);
    for bytes in chunks {
        let ended = false;
        text += &lines.take(Chunk { bytes, ended }).unwrap();
    }
    let (bytes, ended) = (&[][..], true);
    text + &lines.take(Chunk { bytes, ended }).unwrap()
}

#[test]
fn lines_are_those_of_the_joined_log() {
    for log in bundled().into_iter().map(|vector| vector.log) {
        let text = replay(&log);
        let step = if log.len() < 260 { 1 } else { 997 };
        for cut in (0..=log.len()).step_by(step) {
            let (front, back) = log.split_at(cut);
            assert_eq!(lines_of([front, back]), text);
        }
        for many in [1, 19, 4_096] {
            assert_eq!(lines_of(log.chunks(many)), text);
        }
    }
}

/// Each chunk's own lines: the record that ends in it, and where the malformed one starts.
#[test]
fn lines_of_each_chunk() {
    let log = [settings_e(), new_data(0, 9), vec![10, 0, 7, 0, 1, 2, 3]].concat();
    let mut lines = Lines::default();
    for (bytes, ended, text) in [
        (&log[..56], false, ""),
        (&log[56..60], false, "1 0 0 614400 0 0 0 IDLE\n"),
        (&[], false, ""),
        (&log[60..76], false, "2 0 0 614400 0 0 9 READY\n"),
        (&log[76..77], false, "3 12 73\n"),
        (&log[77..], false, ""),
        (&[], true, ""),
    ] {
        assert_eq!(lines.take(Chunk { bytes, ended }).unwrap(), text);
    }
}
