//! The event log: the bytes of each record, round trips, malformed records and the stops of replay.

use crate::example::{new_data, record, send, settings_e};
use model::log::{append, parse_front};
use model::{gen, parse, replay, write, Reader, Record, Refusal, Rng};

const HEADER: &str = "rec ans inflight cwnd flying waiting backlog state\n";
const FIRST: &str = "1 0 0 614400 0 0 0 IDLE\n";

/// One record of each kind of 01, settings in both lengths, every byte of it different where that
/// is allowed. Kinds 33 to 38 have a page of their own.
fn one_of_each() -> [Record; 8] {
    let time = 0x0807_0605_0403_0201;
    let flow = None;
    let numbers = [
        0x0403_0201,
        0x0807_0605,
        0x0c0b_0a09,
        0x100f_0e0d,
        0x1413_1211,
        0x1817_1615,
        0x1c1b_1a19,
        0x201f_1e1d,
        0x2423_2221,
        0x2827_2625,
        0x2c2b_2a29,
        0x302f_2e2d,
    ];
    [
        Record::NewData {
            time,
            flow,
            bytes: 0x0c0b_0a09,
        },
        Record::Send {
            time,
            flow,
            size: 0x0c0b_0a09,
            psn: 0x100f_0e0d,
            resend: 1,
        },
        Record::Ack {
            time,
            flow,
            cum: 0x0c0b_0a09,
            map: 0x1413_1211_100f_0e0d,
            trigger: 0x1817_1615,
            count: 0x1c1b_1a19,
            service: 0x201f_1e1d,
            ev: 0x2221,
            flags: 3,
        },
        Record::Nack {
            time,
            flow,
            psn: 0x0c0b_0a09,
            ev: 0x0e0d,
            reason: 0x0f,
            flags: 2,
        },
        Record::Loss {
            time,
            flow,
            psn: 0x0c0b_0a09,
            ev: 0x0e0d,
        },
        Record::Path { time, flow },
        Record::Settings {
            numbers,
            first_psn: 0x3433_3231,
            flags: 1,
            ev_count: 256,
        },
        Record::Settings {
            numbers,
            first_psn: 0x3433_3231,
            flags: 0,
            ev_count: 0x8483_8281,
        },
    ]
}

/// The bytes of the above: length and kind, then 1, 2, 3 and so on, and the last ones as given.
fn expected_bytes() -> [Vec<u8>; 8] {
    let bytes = |length: u8, kind: u8, last: &[u8]| {
        let counting = 1..=length - 2 - last.len() as u8;
        let head = [length, 0, kind, 0];
        head.into_iter()
            .chain(counting)
            .chain(last.iter().copied())
            .collect()
    };
    [
        bytes(14, 1, &[]),
        bytes(19, 2, &[1]),
        bytes(37, 3, &[3]),
        bytes(18, 4, &[2]),
        bytes(16, 5, &[]),
        bytes(10, 6, &[]),
        bytes(55, 16, &[1]),
        bytes(59, 16, &[0, 0x81, 0x82, 0x83, 0x84]),
    ]
}

#[test]
fn the_bytes_of_each_kind() {
    for (record, bytes) in one_of_each().iter().zip(expected_bytes()) {
        let mut room = [0xee; 70];
        assert_eq!(write(record, &mut room), Ok(bytes.len()));
        assert_eq!(room[..bytes.len()], bytes);
        assert!(room[bytes.len()..].iter().all(|&byte| byte == 0xee));
        assert_eq!(parse(&bytes, 0), Ok(Some((*record, bytes.len()))));
    }
}

#[test]
fn parse_starts_at_the_offset() {
    let log = expected_bytes().concat();
    let mut offset = 0;
    for (record, bytes) in one_of_each().into_iter().zip(expected_bytes()) {
        let after = offset + bytes.len();
        assert_eq!(parse(&log, offset), Ok(Some((record, after))));
        offset = after;
    }
    for beyond in [log.len(), log.len() + 1, usize::MAX] {
        assert_eq!(parse(&log, beyond), Ok(None));
    }
}

#[test]
fn a_reader_holds_its_place() {
    let mut log = expected_bytes().concat();
    let whole = log.len();
    log.extend([14, 0, 1]);
    let mut reader = Reader::new(&log);
    for record in one_of_each() {
        assert_eq!(reader.next_record(), Ok(Some(record)));
    }
    for _ in 0..2 {
        assert_eq!(reader.next_record(), Err(Refusal::Malformed));
        assert_eq!(reader.offset(), whole);
    }
}

#[test]
fn every_cut_end_is_malformed() {
    for bytes in expected_bytes() {
        for cut in 1..bytes.len() {
            assert_eq!(parse(&bytes[..cut], 0), Err(Refusal::Malformed));
        }
    }
}

#[test]
fn other_lengths_are_malformed() {
    for bytes in expected_bytes() {
        for length in (0..=70u16).chain([u16::MAX]) {
            let mut other = bytes.clone();
            other[..2].copy_from_slice(&length.to_le_bytes());
            other.resize(100, 0);
            let settings = bytes[2] == 16 && [55, 59].contains(&length);
            let good = settings || usize::from(length) + 2 == bytes.len();
            assert_eq!(parse(&other, 0).is_ok(), good, "length {length}");
        }
    }
}

#[test]
fn other_kinds_are_malformed() {
    let good = [1u16, 2, 3, 4, 5, 6, 16, 33, 34, 35, 36, 37, 38];
    for kind in 0..=u16::MAX {
        let accepted = [12usize, 17, 35, 16, 14, 8, 53, 57, 13, 18, 36, 17, 15, 9]
            .iter()
            .any(|&fields| parse(&record(kind, &[&vec![0; fields]]), 0).is_ok());
        assert_eq!(accepted, good.contains(&kind), "kind {kind}");
    }
}

#[test]
fn a_front_is_read_when_it_is_whole() {
    for (record, bytes) in one_of_each().into_iter().zip(expected_bytes()) {
        for cut in 0..bytes.len() {
            assert_eq!(parse_front(&bytes[..cut]), Ok(None));
        }
        let whole = Ok(Some((record, bytes.len())));
        assert_eq!(parse_front(&bytes), whole);
        assert_eq!(parse_front(&[bytes, vec![9; 5]].concat()), whole);
    }
}

/// A length and a kind that are no pair are told at four bytes; other faults with the last byte.
#[test]
fn a_malformed_front_is_told_at_once() {
    let plain = expected_bytes().map(|bytes| [bytes[0], 0, bytes[2], 0]);
    let of_flows = [(15, 33), (20, 34), (38, 35), (19, 36), (17, 37), (11, 38)];
    let of_flows = of_flows.map(|(length, kind)| [length, 0, kind, 0]);
    let pairs = [&plain[..], &of_flows].concat();
    for kind in 0..=u16::MAX {
        for length in (0..=70).chain([0x100 + 14, u16::MAX]) {
            let [a, b] = u16::to_le_bytes(length);
            let [c, d] = kind.to_le_bytes();
            let head = [a, b, c, d];
            let expected = if pairs.contains(&head) {
                Ok(None)
            } else {
                Err(Refusal::Malformed)
            };
            assert_eq!(parse_front(&head), expected, "{head:?}");
            assert_eq!(parse_front(&head[..3]), Ok(None));
        }
    }
    let [_, send, ack, nack, _, _, settings, _] = expected_bytes();
    for bytes in [send, ack, nack, settings] {
        let bytes = with_last(&bytes, 4);
        assert_eq!(parse_front(&bytes[..bytes.len() - 1]), Ok(None));
        assert_eq!(parse_front(&bytes), Err(Refusal::Malformed));
    }
}

/// The record with another last byte: resend byte or flags.
fn with_last(bytes: &[u8], last: u8) -> Vec<u8> {
    let mut bytes = bytes.to_vec();
    *bytes.last_mut().unwrap() = last;
    bytes
}

#[test]
fn unknown_flag_bits_and_resend_bytes_are_malformed() {
    let [_, send, ack, nack, _, _, settings, _] = expected_bytes();
    for last in 0..=255 {
        let good = |bytes: &[u8]| parse(&with_last(bytes, last), 0).is_ok();
        assert_eq!(good(&send), last < 2, "resend {last}");
        assert_eq!(good(&ack), last < 4, "flags {last}");
        assert_eq!(good(&nack), last < 4, "flags {last}");
        assert_eq!(good(&settings), last < 2, "flags {last}");
    }
}

#[test]
fn what_cannot_be_written() {
    let [new_data, send, ack, nack, loss, path, settings, longer] = one_of_each();
    let mut unwritable = Vec::new();
    let mut spoil = |mut record: Record, change: fn(&mut Record)| {
        change(&mut record);
        unwritable.push(record);
    };
    spoil(new_data, |record| {
        if let Record::NewData { bytes, .. } = record {
            *bytes = 1 << 32;
        }
    });
    spoil(send, |record| {
        if let Record::Send { resend, .. } = record {
            *resend = 2;
        }
    });
    for record in [ack, nack] {
        spoil(record, |record| {
            if let Record::Ack { flags, .. } | Record::Nack { flags, .. } = record {
                *flags = 4;
            }
        });
    }
    for record in [settings, longer] {
        spoil(record, |record| {
            if let Record::Settings { flags, .. } = record {
                *flags = 2;
            }
        });
        spoil(record, |record| {
            if let Record::Settings { numbers, .. } = record {
                numbers[11] = 1 << 32;
            }
        });
    }
    assert_eq!(unwritable.len(), 8);
    for record in unwritable {
        // 12 also where the room is too short.
        for length in [70, 0] {
            let mut room = vec![0xee; length];
            assert_eq!(write(&record, &mut room), Err(Refusal::Malformed));
            assert!(room.iter().all(|&byte| byte == 0xee));
        }
    }
    for record in [loss, path] {
        assert!(write(&record, &mut [0; 60]).is_ok());
    }
}

#[test]
fn too_little_room_is_13() {
    for (record, bytes) in one_of_each().iter().zip(expected_bytes()) {
        for length in 0..bytes.len() {
            let mut room = vec![0xee; length];
            assert_eq!(write(record, &mut room), Err(Refusal::Room));
            assert!(room.iter().all(|&byte| byte == 0xee));
        }
        let mut room = vec![0; bytes.len()];
        assert_eq!(write(record, &mut room), Ok(bytes.len()));
        assert_eq!(room, bytes);
    }
}

/// Any record that can be written.
fn any_record(rng: &mut Rng) -> Record {
    let time = rng.next_u64();
    let psn = rng.next_u32();
    let ev = rng.next_u32() as u16;
    let flags = rng.below(4) as u8;
    let any = rng.next_u32() as u8;
    let flow = rng.pick(&[None, Some(0), Some(7), Some(any)]);
    match rng.below(7) {
        0 => Record::NewData {
            time,
            flow,
            bytes: rng.next_u32().into(),
        },
        1 => Record::Send {
            time,
            flow,
            size: rng.next_u32(),
            psn,
            resend: flags & 1,
        },
        2 => Record::Ack {
            time,
            flow,
            cum: psn,
            map: rng.next_u64(),
            trigger: rng.next_u32(),
            count: rng.next_u32(),
            service: rng.next_u32(),
            ev,
            flags,
        },
        3 => Record::Nack {
            time,
            flow,
            psn,
            ev,
            reason: rng.next_u32() as u8,
            flags,
        },
        4 => Record::Loss {
            time,
            flow,
            psn,
            ev,
        },
        5 => Record::Path { time, flow },
        _ => Record::Settings {
            numbers: [0; 12].map(|_: u64| rng.next_u32().into()),
            first_psn: psn,
            flags: flags & 1,
            ev_count: rng.pick(&[256, 512, psn, !psn]),
        },
    }
}

#[test]
fn parse_after_write_gives_the_record() {
    let mut rng = Rng::new(1);
    for _ in 0..20_000 {
        let record = any_record(&mut rng);
        let mut log = Vec::new();
        append(&record, &mut log).unwrap();
        assert_eq!(parse(&log, 0), Ok(Some((record, log.len()))));
    }
}

#[test]
fn write_after_parse_gives_the_bytes() {
    for seed in 0..40 {
        let made = [gen::traffic, gen::flows, gen::hostile].map(|make| make(seed, 300));
        for log in made {
            let mut reader = Reader::new(&log);
            let mut again = Vec::new();
            while let Ok(Some(record)) = reader.next_record() {
                append(&record, &mut again).unwrap();
            }
            assert_eq!(again, log[..reader.offset()]);
        }
    }
}

#[test]
fn random_bytes_are_read_without_a_fault() {
    let mut rng = Rng::new(2);
    let mut accepted = 0;
    for _ in 0..20_000 {
        let [good, ..] = expected_bytes();
        let mut log = if rng.one_in(2) { good } else { vec![0; 60] };
        for _ in 0..rng.below(4) {
            let i = rng.below(log.len() as u64) as usize;
            log[i] = rng.next_u32() as u8;
        }
        accepted += u64::from(parse(&log, 0).is_ok());
        assert!(replay(&log).starts_with(HEADER));
    }
    assert!(accepted > 1_000);
}

#[track_caller]
fn prints(records: &[Vec<u8>], lines: &str) {
    assert_eq!(replay(&records.concat()), format!("{HEADER}{lines}"));
}

#[test]
fn record_1_must_be_settings() {
    prints(&[new_data(0, 1), settings_e()], "1 12 0\n");
    prints(&[vec![7]], "1 12 0\n");
    prints(&[vec![7, 0, 0]], "1 12 0\n");
    prints(&[vec![55, 0, 16, 0]], "1 12 0\n");
}

#[test]
fn a_refused_record_1_stops_replay() {
    let mut settings = settings_e();
    settings[4..8].copy_from_slice(&1_023u32.to_le_bytes());
    prints(&[settings.clone()], "1 1\n");
    prints(&[settings, settings_e(), new_data(0, 1)], "1 1\n");
}

#[test]
fn a_second_settings_record_stops_replay() {
    let lines = format!("{FIRST}2 12 57\n");
    prints(&[settings_e(), settings_e(), new_data(0, 1)], &lines);
    // Also one that would be refused for its numbers.
    let mut bad = settings_e();
    bad[4..8].fill(0);
    prints(&[settings_e(), bad], &lines);
}

#[test]
fn a_malformed_record_stops_replay() {
    let lines = format!("{FIRST}2 0 0 614400 0 0 9 READY\n3 12 73\n");
    let before = [settings_e(), new_data(0, 9)].concat();
    let [good, ..] = expected_bytes();
    for cut in [vec![1], vec![1, 0], vec![14, 0, 1], good[..15].to_vec()] {
        prints(&[before.clone(), cut], &lines);
    }
    for bad in [
        record(7, &[&[0; 8]]),
        record(6, &[&[0; 9]]),
        with_last(&send(0, 4096, 0), 2),
    ] {
        prints(&[before.clone(), bad.clone()], &lines);
        prints(&[before.clone(), bad, new_data(0, 1)], &lines);
    }
}

#[test]
fn a_refused_event_prints_the_unchanged_state_and_goes_on() {
    prints(
        &[
            settings_e(),
            new_data(5, 100),
            new_data(4, 1),
            send(5, 101, 0),
        ],
        &format!(
            "{FIRST}\
             2 0 0 614400 0 0 100 READY\n\
             3 3 0 614400 0 0 100 READY\n\
             4 5 0 614400 0 0 100 READY\n"
        ),
    );
}

/// "so its refusal 7 comes at 512" (M-107).
#[test]
fn a_ring_of_the_program_has_512_slots() {
    let mut log = [settings_e(), new_data(0, 100_000)].concat();
    for psn in 0..513 {
        log.extend(send(0, 41, psn));
    }
    let text = replay(&log);
    let mut last = text.lines().rev();
    // 512 packets of 41 bytes.
    let refused = "515 7 20992 614400 512 0 79008 READY";
    assert_eq!(last.next(), Some(refused));
    let accepted = "514 0 20992 614400 512 0 79008 READY";
    assert_eq!(last.next(), Some(accepted));
}
