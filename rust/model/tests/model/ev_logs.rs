//! The settings record that says how many EVs there are (M-110): its bytes, what the program lends
//! and prints, and a replay in chunks.

use crate::chunk_calls::{Side, PIECE};
use crate::evs::{ALLOWED, ODD};
use crate::example::{self, record, settings_e, settings_e_with};
use model::chunks::Lines;
use model::log::{append, parse_front};
use model::replay::{evs_lent, Replay};
use model::{gen, parse, replay, write, Chunk, Memory, Outcome, Record, Refusal, Rng, State};

/// Settings E as a record.
fn record_e(ev_count: u32) -> Record {
    Record::Settings {
        numbers: gen::E,
        first_psn: 0,
        flags: 0,
        ev_count,
    }
}

/// The bytes of 512 are 0, 2, 0, 0; those of 256 stand nowhere.
#[test]
fn the_bytes_of_the_longer_record() {
    let long = settings_e_with(512);
    assert_eq!(long.len(), 61);
    assert_eq!(long[..4], [59, 0, 16, 0]);
    assert_eq!(long[4..57], settings_e()[4..]);
    assert_eq!(long[57..], [0, 2, 0, 0]);
    assert_eq!(parse(&long, 0), Ok(Some((record_e(512), 61))));
    assert_eq!(parse(&settings_e(), 0), Ok(Some((record_e(256), 57))));
    let mut room = [0xee; 62];
    assert_eq!(write(&record_e(512), &mut room), Ok(61));
    assert_eq!((&room[..61], room[61]), (&long[..], 0xee));
    let mut room = [0xee; 62];
    assert_eq!(write(&record_e(256), &mut room), Ok(57));
    assert_eq!(
        (&room[..57], &room[57..]),
        (&settings_e()[..], &[0xee; 5][..])
    );
}

#[test]
fn a_longer_record_that_says_256_is_malformed() {
    let mut told = settings_e_with(256);
    assert_eq!(told.len(), 61);
    assert_eq!(parse(&told, 0), Err(Refusal::Malformed));
    assert_eq!(parse_front(&told), Err(Refusal::Malformed));
    // It is told with the last byte, and before a setting out of range.
    assert_eq!(parse_front(&told[..60]), Ok(None));
    told[4..8].fill(0);
    assert_eq!(parse(&told, 0), Err(Refusal::Malformed));
    prints(&[told, settings_e()], "1 12 0\n");
}

/// Any other number is read and written back, allowed or not, each of its bytes in its place.
#[test]
fn every_other_number_is_read_and_written() {
    let mut rng = Rng::new(4);
    let near = [
        256,
        511,
        512,
        513,
        1 << 16,
        256 << 8,
        256 << 16,
        0x0100_0100,
    ];
    for _ in 0..4_000 {
        let any = rng.next_u32();
        let (beside, odd) = (rng.pick(&near), rng.pick(&ODD));
        let evs = rng.pick(&[beside, odd, any]);
        let long = settings_e_with(evs);
        if evs == 256 {
            assert_eq!(parse(&long, 0), Err(Refusal::Malformed));
            continue;
        }
        assert_eq!(parse(&long, 0), Ok(Some((record_e(evs), 61))));
        let mut log = vec![9];
        append(&record_e(evs), &mut log).unwrap();
        assert_eq!(log[1..], long);
    }
}

#[test]
fn the_longer_record_in_part() {
    let long = settings_e_with(4_096);
    for cut in 0..61 {
        assert_eq!(parse_front(&long[..cut]), Ok(None), "{cut}");
    }
    for cut in 1..61 {
        assert_eq!(parse(&long[..cut], 0), Err(Refusal::Malformed), "{cut}");
    }
    // Where the length says 56, 57, 58 or 60 the record is malformed, and at four bytes.
    for length in [54, 56, 57, 58, 60, 61, 63] {
        let mut other = [&long[..], &[0; 9]].concat();
        other[0] = length;
        assert_eq!(parse(&other, 0), Err(Refusal::Malformed), "{length}");
        assert_eq!(parse_front(&other[..4]), Err(Refusal::Malformed));
    }
    // No other kind has its length.
    for kind in [1, 2, 3, 4, 5, 6, 15, 17] {
        let other = record(kind, &[&[0; 57]]);
        assert_eq!(parse(&other, 0), Err(Refusal::Malformed), "{kind}");
    }
}

#[test]
fn the_flags_of_the_longer_record() {
    for flags in 0..=255 {
        let mut long = settings_e_with(512);
        long[56] = flags;
        assert_eq!(parse(&long, 0).is_ok(), flags < 2, "{flags}");
    }
    let mut room = [0; 61];
    for (room, answer) in [
        (&mut room[..60], Err(Refusal::Room)),
        (&mut [0; 61][..], Ok(61)),
    ] {
        assert_eq!(write(&record_e(512), room), answer);
    }
}

const HEADER: &str = "rec ans inflight cwnd flying waiting backlog state\n";
const FIRST: &str = "1 0 0 614400 0 0 0 IDLE\n";

fn lines_of<'a>(chunks: impl IntoIterator<Item = &'a [u8]>) -> String {
    let mut lines = Lines::default();
    let mut text = String::from(HEADER);
    for bytes in chunks {
        let ended = false;
        text += &lines.take(Chunk { bytes, ended }).unwrap();
    }
    let (bytes, ended) = (&[][..], true);
    text + &lines.take(Chunk { bytes, ended }).unwrap()
}

/// What the program prints of a log, also where it comes in two chunks or byte by byte.
#[track_caller]
fn prints(records: &[Vec<u8>], lines: &str) {
    let log = records.concat();
    let text = format!("{HEADER}{lines}");
    assert_eq!(replay(&log), text);
    for cut in 0..=log.len().min(130) {
        let (front, back) = log.split_at(cut);
        assert_eq!(lines_of([front, back]), text, "cut at {cut}");
    }
    assert_eq!(lines_of(log.chunks(1)), text);
}

fn loss_record(time: u64, psn: u32, ev: u16) -> Vec<u8> {
    let (psn, ev) = (psn.to_le_bytes(), ev.to_le_bytes());
    record(5, &[&time.to_le_bytes(), &psn, &ev])
}

fn path_record(time: u64) -> Vec<u8> {
    record(6, &[&time.to_le_bytes()])
}

/// A packet lost on the first EV past the last, then on the last. A loss takes 100 from cwnd.
#[test]
fn the_program_lends_as_many_times_as_are_asked_for() {
    for evs in ALLOWED {
        let settings = match evs {
            256 => settings_e(),
            _ => settings_e_with(evs),
        };
        let ev = evs as u16;
        prints(
            &[
                settings,
                example::new_data(0, 100),
                example::send(0, 100, 0),
                loss_record(0, 0, ev),
                loss_record(0, 0, ev - 1),
                path_record(0),
            ],
            &format!(
                "{FIRST}\
                 2 0 0 614400 0 0 100 READY\n\
                 3 0 100 614400 1 0 0 PENDING\n\
                 4 23 100 614400 1 0 0 PENDING\n\
                 5 0 0 614300 0 1 0 READY\n\
                 6 0 0 614300 0 1 0 READY 0\n"
            ),
        );
    }
}

#[test]
fn a_number_that_is_not_allowed_is_1() {
    for evs in ODD {
        prints(&[settings_e_with(evs), path_record(0)], "1 1\n");
    }
    let mut small = settings_e_with(512);
    small[4..8].fill(0);
    prints(&[small, path_record(0)], "1 1\n");
}

#[test]
fn a_second_settings_record_of_either_length() {
    let long = format!("{FIRST}2 12 61\n");
    let short = format!("{FIRST}2 12 57\n");
    for evs in [0, 255, 256, 512] {
        prints(&[settings_e_with(512), settings_e_with(evs)], &long);
        prints(&[settings_e(), settings_e_with(evs)], &short);
    }
    prints(&[settings_e_with(512), settings_e(), path_record(0)], &long);
    prints(&[settings_e_with(512), vec![59, 0, 16]], &long);
}

/// The lines' last words: EV 511 and then 0 again, with 256 EVs 255 and then 0.
#[test]
fn the_program_goes_around() {
    for (settings, evs) in [
        (settings_e(), 256),
        (settings_e_with(512), 512),
        (settings_e_with(4_096), 4_096),
    ] {
        let log = [settings, path_record(0).repeat(evs + 2)].concat();
        let text = replay(&log);
        let told = text.lines().skip(2).map(|line| {
            let last = line.rsplit(' ').next().unwrap();
            last.parse::<usize>().unwrap()
        });
        let expected: Vec<usize> = (0..evs).chain([0, 1]).collect();
        assert_eq!(told.collect::<Vec<_>>(), expected);
        assert_eq!(lines_of(log.chunks(1_000)), text);
    }
}

#[test]
fn how_many_times_the_program_lends() {
    for evs in ALLOWED {
        let asked = if evs == 256 { 512 } else { evs };
        let log = [settings_e_with(asked), path_record(0)].concat();
        assert_eq!(evs_lent(&log), asked as usize);
    }
    for evs in ODD.into_iter().chain([256]) {
        assert_eq!(evs_lent(&settings_e_with(evs)), 256, "{evs}");
    }
    let cut = &settings_e_with(512)[..60];
    for log in [&[][..], &settings_e(), &path_record(0), cut, &[9; 90]] {
        assert_eq!(evs_lent(log), 256);
    }
}

/// Record 1 through the library: 1 for the number, else 2 where another length is lent.
#[test]
fn a_replay_with_other_times() {
    for evs in ALLOWED.into_iter().chain(ODD) {
        for lent in [0, 255, 256, 257, 512, 1_024, 4_096] {
            let settings = match evs {
                256 => settings_e(),
                _ => settings_e_with(evs),
            };
            let expected = match ALLOWED.contains(&evs) {
                false => Err(1),
                true if lent == evs as usize => Ok(Some(Outcome::from(0))),
                true => Err(2),
            };
            let mut memory = Memory::with_evs(64, lent);
            memory.ev_times.fill(7);
            let mut replay = Replay::new(&settings, memory.lend());
            assert_eq!(replay.step(), expected, "{lent} times of {evs} EVs");
            let zeros = replay.state == State::default();
            assert_eq!(zeros, expected.is_err());
            let cleared = lent > 0 && memory.ev_times[0] == 0;
            assert_eq!(cleared, expected.is_ok());

            let mut side = Side::new();
            side.memory = Memory::with_evs(64, lent);
            let log = [settings, path_record(0)].concat();
            let (taken, answers) = side.take(&log, false, 9).unwrap();
            let accepted = [Outcome::from(0), path_of(0)];
            match expected {
                Ok(_) => assert_eq!(answers, accepted),
                Err(number) => assert_eq!(answers, [Outcome::from(number)]),
            }
            assert_eq!(
                (taken.bytes, side.part.stopped),
                (log.len(), expected.is_err())
            );
        }
    }
}

fn path_of(ev: u16) -> Outcome {
    Outcome {
        ev: Some(ev),
        ..Outcome::from(0)
    }
}

/// The longest record that is not whole: 60 bytes are held, and the last one ends it.
#[test]
fn a_piece_of_the_longest_record() {
    assert_eq!(PIECE, 61);
    let long = settings_e_with(512);
    let mut side = Side::lending_to(&long);
    let (taken, answers) = side.take(&long[..60], false, 9).unwrap();
    assert_eq!((taken.bytes, answers.len(), side.part.held), (60, 0, 60));
    assert_eq!(side.part.piece[..60], long[..60]);
    assert_eq!(side.part.piece[60], 0);
    let (_, answers) = side.take(&long[60..], false, 9).unwrap();
    assert_eq!(answers, [Outcome::from(0)]);
    assert_eq!((side.part.held, side.part.offset), (0, 61));
    assert_eq!(side.state.settings.ev_count, 512);

    // Held whole, it is answered for no bytes.
    let mut side = Side::lending_to(&long);
    side.part.piece.copy_from_slice(&long);
    side.part.held = 61;
    let (taken, answers) = side.take(&[], false, 1).unwrap();
    assert_eq!((taken.bytes, answers), (0, vec![Outcome::from(0)]));
    assert_eq!((side.part.held, side.part.offset), (0, 61));
}

/// At its last byte and not before, whatever is lent.
#[test]
fn a_longer_record_that_says_256_in_chunks() {
    let told = settings_e_with(256);
    for lent in [0, 256, 512] {
        for cut in 0..61 {
            let mut side = Side::new();
            side.memory = Memory::with_evs(64, lent);
            let (taken, _) = side.take(&told[..cut], false, 4).unwrap();
            assert_eq!((taken.answered, side.part.held), (0, cut as u64));
            let (taken, answers) = side.take(&told[cut..], false, 4).unwrap();
            assert_eq!((taken.bytes, answers), (61 - cut, vec![Outcome::from(12)]));
            assert!(side.part.stopped && (side.part.offset, side.part.done) == (0, 0));
        }
    }
}

/// A context of 512 EVs is handed in with the times of another number.
#[test]
fn number_2_of_a_replay_in_chunks() {
    let mut side = Side::lending_to(&settings_e_with(512));
    side.take(&settings_e_with(512), false, 1).unwrap();
    for lent in [0, 256, 511, 513, 1_024] {
        let mut other = side.clone();
        other.memory.ev_times.resize(lent, 0);
        let before = other.clone();
        assert_eq!(
            other.take(&path_record(0), false, 1),
            Err(Refusal::NotTogether)
        );
        assert_eq!(other, before);
    }
    let (_, answers) = side.take(&path_record(0), false, 1).unwrap();
    assert_eq!(answers, [path_of(0)]);
}

/// The generators say 256 by the short record, and each other number too.
#[test]
fn generated_logs_have_every_number() {
    for seed in 0..4 {
        let log = gen::wide(seed, 50);
        assert_eq!(evs_lent(&log), 512 << seed);
        assert_eq!(replay(&log).lines().count(), 51);
    }
    let first = |log: &[u8]| parse(log, 0).ok().flatten().map(|(record, _)| record);
    let counts = |log: Vec<u8>| first(&log)?.settings().map(|settings| settings.ev_count);
    let hostile: Vec<u32> = (0..4_000)
        .filter_map(|s| counts(gen::hostile(s, 2)))
        .collect();
    for evs in ALLOWED {
        let times = hostile.iter().filter(|&&told| told == evs).count();
        assert!(times > 200, "{evs}: {times}");
    }
    let odd = hostile.iter().filter(|told| !ALLOWED.contains(told));
    assert!(odd.count() > 10);
    let told_usual = (0..4_000).filter(|&seed| {
        let log = gen::hostile(seed, 2);
        log.len() > 60 && log[..2] == [59, 0] && log[57..61] == [0, 1, 0, 0]
    });
    assert!(told_usual.count() > 10);
}
