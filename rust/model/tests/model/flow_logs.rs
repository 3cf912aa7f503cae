//! Records that name their flow (M-107), kinds 33 to 38: their bytes, what is malformed, 25, and
//! their replay, in one piece and in chunks. Bytes and lines were worked out by hand from 01 and
//! 02.

use crate::chunk_calls::Side;
use crate::example::{new_data, record, send, settings_e};
use model::chunks::Lines;
use model::log::{append, parse_front};
use model::replay::{program_memory, Replay, CAPACITY, FLOWS, HEADER};
use model::{gen, parse, replay, report, write};
use model::{Chunk, Event, Memory, Outcome, Part, Reader, Record, Refusal, State};

const FIRST: &str = "1 0 0 614400 0 0 0 IDLE\n";

/// Kind and length of the records with a flow number: "kinds 33 to 38, lengths one more".
const KINDS: [(u16, u16); 6] = [(33, 15), (34, 20), (35, 38), (36, 19), (37, 17), (38, 11)];

/// A record of such a kind whose fields are all 0.
fn zeros(kind: u16, length: u16) -> Vec<u8> {
    assert!(KINDS.contains(&(kind, length)));
    record(kind, &[&vec![0; usize::from(length) - 2]])
}

/// A record of a kind with a flow: time, flow number, then the other fields.
fn of(kind: u16, time: u64, flow: u8, fields: &[&[u8]]) -> Vec<u8> {
    record(kind, &[&time.to_le_bytes(), &[flow], &fields.concat()])
}

fn new_data_of(flow: u8, time: u64, bytes: u32) -> Vec<u8> {
    of(33, time, flow, &[&bytes.to_le_bytes()])
}

fn send_of(flow: u8, time: u64, size: u32, psn: u32) -> Vec<u8> {
    let (size, psn) = (size.to_le_bytes(), psn.to_le_bytes());
    of(34, time, flow, &[&size, &psn, &[0]])
}

/// An unmarked ACK up to `cum`, which is its trigger.
fn ack_of(flow: u8, time: u64, cum: u32, count: u32) -> Vec<u8> {
    of(35, time, flow, &[&ack_fields(cum, count)])
}

fn ack(time: u64, cum: u32, count: u32) -> Vec<u8> {
    record(3, &[&time.to_le_bytes(), &ack_fields(cum, count)])
}

/// Cum, map, trigger, count, service, EV and flags.
fn ack_fields(cum: u32, count: u32) -> Vec<u8> {
    let (cum, count) = (cum.to_le_bytes(), count.to_le_bytes());
    [&cum[..], &[0; 8], &cum, &count, &[0; 7]].concat()
}

fn nack_of(flow: u8, time: u64, psn: u32, reason: u8) -> Vec<u8> {
    of(36, time, flow, &[&psn.to_le_bytes(), &[0, 0, reason, 0]])
}

fn loss_of(flow: u8, time: u64, psn: u32) -> Vec<u8> {
    of(37, time, flow, &[&psn.to_le_bytes(), &[0, 0]])
}

fn path_of(flow: u8, time: u64) -> Vec<u8> {
    of(38, time, flow, &[])
}

/// One record of each kind, every byte of it different where that is allowed.
fn one_of_each() -> [Record; 6] {
    let time = 0x0807_0605_0403_0201;
    let flow = Some(9);
    [
        Record::NewData {
            time,
            flow,
            bytes: 0x0d0c_0b0a,
        },
        Record::Send {
            time,
            flow,
            size: 0x0d0c_0b0a,
            psn: 0x1110_0f0e,
            resend: 1,
        },
        Record::Ack {
            time,
            flow,
            cum: 0x0d0c_0b0a,
            map: 0x1514_1312_1110_0f0e,
            trigger: 0x1918_1716,
            count: 0x1d1c_1b1a,
            service: 0x2120_1f1e,
            ev: 0x2322,
            flags: 3,
        },
        Record::Nack {
            time,
            flow,
            psn: 0x0d0c_0b0a,
            ev: 0x0f0e,
            reason: 0x10,
            flags: 2,
        },
        Record::Loss {
            time,
            flow,
            psn: 0x0d0c_0b0a,
            ev: 0x0f0e,
        },
        Record::Path { time, flow },
    ]
}

/// The bytes of the above: length and kind, then 1, 2, 3 and so on, and the last one as given. The
/// ninth of them, behind the eight of the time, is the flow number.
fn expected_bytes() -> [Vec<u8>; 6] {
    let bytes = |length: u8, kind: u8, last: &[u8]| {
        let counting: Vec<u8> = (1..=length - 2 - last.len() as u8).collect();
        [&[length, 0, kind, 0], &counting[..], last].concat()
    };
    [
        bytes(15, 33, &[]),
        bytes(20, 34, &[1]),
        bytes(38, 35, &[3]),
        bytes(19, 36, &[2]),
        bytes(17, 37, &[]),
        bytes(11, 38, &[]),
    ]
}

#[test]
fn the_bytes_of_each_kind() {
    for (record, bytes) in one_of_each().iter().zip(expected_bytes()) {
        assert_eq!(bytes[12], 9, "the flow number behind the time");
        let mut room = [0xee; 70];
        assert_eq!(write(record, &mut room), Ok(bytes.len()));
        assert_eq!(room[..bytes.len()], bytes);
        assert!(room[bytes.len()..].iter().all(|&byte| byte == 0xee));
        assert_eq!(parse(&bytes, 0), Ok(Some((*record, bytes.len()))));
        for length in 0..bytes.len() {
            let mut room = vec![0xee; length];
            assert_eq!(write(record, &mut room), Err(Refusal::Room));
            assert!(room.iter().all(|&byte| byte == 0xee));
        }
    }
}

/// Only the byte behind the time is the flow number, and any byte is one.
#[test]
fn any_byte_is_a_flow_number() {
    for (record, bytes) in one_of_each().iter().zip(expected_bytes()) {
        for number in 0..=255 {
            let mut other = bytes.clone();
            other[12] = number;
            let (read, after) = parse(&other, 0).unwrap().unwrap();
            assert_eq!(after, other.len());
            assert_eq!(flow_number(&read), number.into());
            assert_eq!(read == *record, number == 9);
            let mut back = Vec::new();
            append(&read, &mut back).unwrap();
            assert_eq!(back, other);
        }
    }
}

fn flow_number(record: &Record) -> u64 {
    match record.event().unwrap() {
        Event::NewData(event) => event.flow,
        Event::Send(event) => event.flow,
        Event::Ack(event) => event.flow,
        Event::Nack(event) => event.flow,
        Event::Loss(event) => event.flow,
        Event::Path(event) => event.flow,
    }
}

/// One byte less or more is 12, also the length of the old kind; so is every other length.
#[test]
fn other_lengths_are_malformed() {
    for (kind, length) in KINDS {
        assert_eq!(zeros(kind, length).len(), 2 + usize::from(length));
        assert!(parse(&zeros(kind, length), 0).is_ok());
        for other in (0..=70u16).filter(|&other| other != length) {
            let mut bytes = zeros(kind, length);
            bytes[..2].copy_from_slice(&other.to_le_bytes());
            bytes.resize(100, 0);
            assert_eq!(parse(&bytes, 0), Err(Refusal::Malformed), "{kind} {other}");
            // In chunks it is told as soon as length and kind are there.
            assert_eq!(parse_front(&bytes[..3]), Ok(None));
            assert_eq!(parse_front(&bytes[..4]), Err(Refusal::Malformed));
        }
        for cut in 1..zeros(kind, length).len() {
            let cut = &zeros(kind, length)[..cut];
            assert_eq!(parse(cut, 0), Err(Refusal::Malformed));
            assert_eq!(parse_front(cut), Ok(None));
        }
    }
}

/// There is no kind 32 or 39, nor 48, 16 with a flow: whatever the length.
#[test]
fn kinds_beside_these_are_malformed() {
    for kind in (7..=15).chain(17..=32).chain(39..=70).chain([33 + 256]) {
        for length in 2..=63 {
            let bytes = record(kind, &[&vec![0; length - 2]]);
            assert_eq!(parse(&bytes, 0), Err(Refusal::Malformed), "kind {kind}");
        }
    }
}

#[test]
fn unknown_bits_and_resend_bytes_are_malformed() {
    for (index, known) in [(1, 2), (2, 4), (3, 4)] {
        for last in 0..=255 {
            let mut bytes = expected_bytes()[index].clone();
            *bytes.last_mut().unwrap() = last;
            let read = parse(&bytes, 0);
            assert_eq!(read.is_ok(), last < known, "kind {}", bytes[2]);
        }
    }
    // Nor can they be written, in any room.
    let [_, mut send, mut ack, mut nack, _, _] = one_of_each();
    if let Record::Send { resend, .. } = &mut send {
        *resend = 2;
    }
    for record in [&mut ack, &mut nack] {
        if let Record::Ack { flags, .. } | Record::Nack { flags, .. } = record {
            *flags = 4;
        }
    }
    for record in [send, ack, nack] {
        for length in [70, 0] {
            let mut room = vec![0xee; length];
            assert_eq!(write(&record, &mut room), Err(Refusal::Malformed));
            assert!(room.iter().all(|&byte| byte == 0xee));
        }
    }
}

/// A record of an old kind and one that names flow 0 mean one event, and are different records.
#[test]
fn an_old_kind_means_flow_0() {
    let pairs = [
        (new_data(5, 7), new_data_of(0, 5, 7)),
        (send(5, 41, 7), send_of(0, 5, 41, 7)),
        (ack(5, 7, 8), ack_of(0, 5, 7, 8)),
        (
            record(4, &[&[5, 0, 0, 0, 0, 0, 0, 0], &[7, 0, 0, 0, 0, 0, 1, 0]]),
            nack_of(0, 5, 7, 1),
        ),
        (
            record(5, &[&[5, 0, 0, 0, 0, 0, 0, 0], &[7, 0, 0, 0, 0, 0]]),
            loss_of(0, 5, 7),
        ),
        (record(6, &[&[5, 0, 0, 0, 0, 0, 0, 0]]), path_of(0, 5)),
    ];
    for (old, new) in pairs {
        assert_eq!(new.len(), old.len() + 1);
        assert_eq!(u16::from(new[2]), u16::from(old[2]) + 32);
        let read = |bytes: &[u8]| parse(bytes, 0).unwrap().unwrap().0;
        assert_ne!(read(&old), read(&new));
        assert_eq!(read(&old).event(), read(&new).event());
        assert_eq!(flow_number(&read(&new)), 0);
        for bytes in [old, new] {
            let mut back = Vec::new();
            append(&read(&bytes), &mut back).unwrap();
            assert_eq!(back, bytes);
        }
    }
}

/// Old and new kinds, flows of the table and past it: the log is written back byte for byte.
#[test]
fn a_log_is_written_back() {
    let log = [
        settings_e(),
        new_data(0, 100),
        new_data_of(0, 0, 100),
        send_of(0, 0, 100, 0),
        send(0, 100, 1),
        loss_of(0, 1, 1),
        nack_of(255, 1, 0, 9),
        ack_of(8, 2, 0, 1 << 31),
        path_of(7, 1 << 50),
    ]
    .concat();
    let mut reader = Reader::new(&log);
    let mut back = Vec::new();
    while let Some(record) = reader.next_record().unwrap() {
        append(&record, &mut back).unwrap();
    }
    assert_eq!(back, log);
}

#[track_caller]
fn prints(records: &[Vec<u8>], lines: &str) {
    let log = records.concat();
    let text = format!("{HEADER}{lines}");
    assert_eq!(replay(&log), text);
    // The same by a byte at a time.
    let mut by_bytes = Lines::default();
    let mut told = String::from(HEADER);
    for bytes in log.chunks(1) {
        let ended = false;
        told += &by_bytes.take(Chunk { bytes, ended }).unwrap();
    }
    let (bytes, ended) = (&[][..], true);
    told += &by_bytes.take(Chunk { bytes, ended }).unwrap();
    assert_eq!(told, text);
}

#[test]
fn a_malformed_record_stops_replay() {
    for (kind, length) in KINDS {
        for fields in [usize::from(length) - 3, usize::from(length) - 1] {
            let malformed = record(kind, &[&vec![0; fields]]);
            let lines = format!("{FIRST}2 12 57\n");
            prints(&[settings_e(), malformed, path_of(0, 0)], &lines);
        }
    }
    for kind in [32, 39] {
        let malformed = record(kind, &[&[0; 9]]);
        let lines = format!("{FIRST}2 0 0 614400 0 0 0 IDLE 0\n3 12 70\n");
        prints(&[settings_e(), path_of(0, 0), malformed], &lines);
    }
    let mut resend = send_of(1, 0, 41, 0);
    *resend.last_mut().unwrap() = 2;
    prints(&[settings_e(), resend], &format!("{FIRST}2 12 57\n"));
    // Of a flow that there is not, too: 12 is found before any other number.
    let mut flags = ack_of(8, 0, 0, 0);
    *flags.last_mut().unwrap() = 4;
    prints(&[settings_e(), flags], &format!("{FIRST}2 12 57\n"));
    // Record 1 must be settings.
    prints(&[path_of(0, 0), settings_e()], "1 12 0\n");
}

/// "A flow out of range is refusal 25, tested after 3"; READINGS: before the field tests.
#[test]
fn number_25_and_its_order() {
    let unchanged = "0 614400 0 0 9 READY";
    let mut records = vec![settings_e(), new_data(100, 9)];
    let mut lines = format!("{FIRST}2 0 {unchanged}\n");
    let mut refused = |number: u8, bytes: Vec<u8>| {
        records.push(bytes);
        lines += &format!("{} {number} {unchanged}\n", records.len());
    };
    let far_ev = |flow: u8| of(37, 100, flow, &[&[0; 4], &[0, 1]]);
    // Too old, or too late, and of no flow: 3.
    for time in [99, 1 << 48, u64::MAX] {
        refused(3, new_data_of(8, time, 1));
        refused(3, send_of(8, time, 41, 0));
        refused(3, ack_of(255, time, u32::MAX, 0));
        refused(3, nack_of(8, time, 0, 0));
        refused(3, loss_of(8, time, 0));
        refused(3, path_of(8, time));
    }
    for flow in [8, 9, 128, 255] {
        // Nothing else is wrong.
        refused(25, new_data_of(flow, 100, 1));
        refused(25, ack_of(flow, 100, u32::MAX, 0));
        refused(25, path_of(flow, 100));
        // Something else is wrong as well, which is told where the flow is 7.
        refused(25, new_data_of(flow, 100, 0));
        refused(25, send_of(flow, 100, 40, 0));
        refused(25, ack_of(flow, 100, u32::MAX, 1 << 24));
        refused(25, nack_of(flow, 100, 0, 3));
        refused(25, far_ev(flow));
        refused(25, loss_of(flow, 100, 0));
    }
    refused(20, new_data_of(7, 100, 0));
    refused(4, send_of(7, 100, 40, 0));
    refused(21, ack_of(7, 100, u32::MAX, 1 << 24));
    refused(22, nack_of(7, 100, 0, 3));
    refused(23, far_ev(7));
    refused(10, loss_of(7, 100, 0));
    // A refused path has no EV at its end, and takes none.
    records.push(path_of(7, 100));
    lines += &format!("{} 0 {unchanged} 0\n", records.len());
    prints(&records, &lines);
}

/// "records accepted, and refused by number" (M-105): 25 like the others, at its place.
#[test]
fn the_report_counts_25() {
    let log = [
        settings_e(),
        new_data_of(8, 0, 1),
        path_of(255, 0),
        new_data_of(7, 0, 300),
        send_of(7, 0, 100, 0),
        send_of(7, 0, 101, 0), // 8
        new_data_of(6, 0, 100),
        send_of(6, 0, 100, 0),
        loss_of(7, 1, 0),
        of(34, 1, 7, &[&100u32.to_le_bytes(), &[0; 4], &[1]]), // sent again
        ack_of(6, 64, 0, 0),                                   // a sample of 64
        path_of(8, 64),
    ]
    .concat();
    let figures = report(&log);
    assert_eq!(figures.refused[25], 3);
    let text = figures.to_string();
    let lines: Vec<&str> = text.lines().collect();
    assert_eq!(
        lines,
        [
            "accepted 8",
            "refused 8 1",
            "refused 25 3",
            "taken 1",
            "cut 0",
            "gone 0",
            "ambiguous 0",
            "not-positive 0",
            "least 64",
            "greatest 64",
            "bucket 6 1",
            "new 200",
            "again 100",
        ]
    );
}

/// Old and new kinds of flow 0, mixed in every way, leave what the old kinds leave.
#[test]
fn old_and_new_kinds_of_flow_0_mixed() {
    let old = [
        new_data(0, 9_000),
        send(10, 4_096, 0),
        send(11, 100, 1),
        record(5, &[&20u64.to_le_bytes(), &[1, 0, 0, 0, 3, 0]]),
        send(25, 4_096, 5), // 8
        ack(110, 0, 16),
        record(6, &[&110u64.to_le_bytes()]),
    ];
    let new = [
        new_data_of(0, 0, 9_000),
        send_of(0, 10, 4_096, 0),
        send_of(0, 11, 100, 1),
        of(37, 20, 0, &[&[1, 0, 0, 0, 3, 0]]),
        send_of(0, 25, 4_096, 5),
        ack_of(0, 110, 0, 16),
        path_of(0, 110),
    ];
    // The sample is 100; the loss takes 100 from cwnd, the ACK adds 224 * 4,096 * 68 / 614,300 =
    // 101, and eta, up to the ceiling.
    let lines = format!(
        "{FIRST}\
         2 0 0 614400 0 0 9000 READY\n\
         3 0 4096 614400 1 0 4904 READY\n\
         4 0 4196 614400 2 0 4804 READY\n\
         5 0 4096 614300 1 1 4804 READY\n\
         6 8 4096 614300 1 1 4804 READY\n\
         7 0 0 614400 0 1 4804 READY s\n\
         8 0 0 614400 0 1 4804 READY 0\n"
    );
    let all_old = left(&[vec![settings_e()], old.to_vec()].concat());
    for mix in 0..1u32 << old.len() {
        let mut records = vec![settings_e()];
        for (i, (old, new)) in old.iter().zip(&new).enumerate() {
            let named = mix >> i & 1 == 1;
            records.push(if named { new } else { old }.clone());
        }
        prints(&records, &lines);
        assert_eq!(left(&records), all_old);
    }
}

/// The outcomes, the state and the lent memory after a replay with the program's flows.
fn left(records: &[Vec<u8>]) -> (Vec<Outcome>, State, Memory) {
    let log = records.concat();
    let mut memory = program_memory(256);
    let mut replay = Replay::new(&log, memory.lend());
    let step = || replay.step().unwrap();
    let outcomes = std::iter::from_fn(step).collect();
    let state = replay.state;
    (outcomes, state, memory)
}

/// "The program has eight flows of 512 slots": 4,096 in all.
#[test]
fn the_shape_of_the_program() {
    assert_eq!((FLOWS, CAPACITY), (8, 512));
    let memory = program_memory(256);
    assert_eq!((memory.flows.len(), memory.sizes.len()), (8, 4_096));
    assert_eq!((memory.outstanding.len(), memory.sent.len()), (64, 4_096));
    assert_eq!(memory.capacity(), 512);
}

/// "its refusal 7 comes at 512": flow 3 is full, flow 4 still sends, an ACK of flow 3 makes room.
#[test]
fn a_full_ring_of_one_flow() {
    // Backlog for two more packets of flow 3, and for two of flow 4.
    let mut records = vec![
        settings_e(),
        new_data_of(3, 0, 514 * 41),
        new_data_of(4, 0, 82),
    ];
    records.extend((0..512).map(|psn| send_of(3, 0, 41, psn)));
    records.extend([
        send_of(3, 0, 41, 512),  // 7
        send_of(4, 0, 41, 0),    //
        send_of(3, 0, 41, 512),  // 7 still
        ack_of(4, 96, 0, 0),     // of flow 4: no room in flow 3
        send_of(3, 96, 41, 512), // 7
        ack_of(3, 96, 0, 0),     //
        send_of(3, 96, 41, 512), //
        send_of(3, 96, 41, 513), // 7
    ]);
    let text = replay(&records.concat());
    let last: Vec<&str> = text.lines().skip(515).collect();
    assert_eq!(
        last,
        [
            "515 0 20992 614400 512 0 164 READY",
            "516 7 20992 614400 512 0 164 READY",
            "517 0 21033 614400 513 0 123 READY",
            "518 7 21033 614400 513 0 123 READY",
            "519 0 21033 614400 512 0 123 READY s",
            "520 7 21033 614400 512 0 123 READY",
            "521 0 21033 614400 511 0 123 READY s",
            "522 0 21074 614400 512 0 82 READY",
            "523 7 21074 614400 512 0 82 READY",
        ]
    );
}

/// All eight are full, each at 512, one after another.
#[test]
fn all_rings_full() {
    let mut log = settings_e();
    for flow in 0..8 {
        log.extend(new_data_of(flow, 0, 513 * 41));
        log.extend((0..513).flat_map(|psn| send_of(flow, 0, 41, psn)));
    }
    let text = replay(&log);
    for flow in 1..=8 {
        // Settings, then 514 records a flow.
        let line = text.lines().nth(1 + 514 * flow).unwrap();
        let (sent, left) = (512 * flow, 41 * flow);
        let bytes = 41 * sent;
        let full = format!("{} 7 {bytes} 614400 {sent} 0 {left} READY", 1 + 514 * flow);
        assert_eq!(line, full);
    }
}

/// "every flow starts at the settings' first PSN": each comes to the wrap in its own time.
#[test]
fn flows_wrap_apart() {
    let mut settings = settings_e();
    settings[52..56].copy_from_slice(&(u32::MAX - 1).to_le_bytes());
    let last = u32::MAX;
    let records = [
        settings,
        new_data_of(1, 0, 400),
        new_data_of(7, 0, 400),
        send_of(1, 0, 100, last - 1),
        send_of(1, 0, 100, last),
        send_of(1, 0, 100, 0), // around
        send_of(7, 0, 100, 0), // 8: not yet
        send_of(7, 0, 100, last - 1),
        ack_of(7, 96, 0, 1), // 9: unsent there
        ack_of(1, 96, 0, 1),
        send_of(7, 96, 100, last),
        ack_of(7, 96, last - 1, 1),
    ];
    let lines = "1 0 0 614400 0 0 0 IDLE\n\
                 2 0 0 614400 0 0 400 READY\n\
                 3 0 0 614400 0 0 800 READY\n\
                 4 0 100 614400 1 0 700 READY\n\
                 5 0 200 614400 2 0 600 READY\n\
                 6 0 300 614400 3 0 500 READY\n\
                 7 8 300 614400 3 0 500 READY\n\
                 8 0 400 614400 4 0 400 READY\n\
                 9 9 400 614400 4 0 400 READY\n\
                 10 0 144 614400 1 0 400 READY s\n\
                 11 0 244 614400 2 0 300 READY\n\
                 12 0 -12 614400 1 0 300 READY s\n";
    prints(&records, lines);
}

/// A caller may lend any number of flows from one to eight; 25 then comes at that number.
#[test]
fn as_many_flows_as_are_lent() {
    for flows in 1..=8 {
        let log = [
            settings_e(),
            new_data_of(flows - 1, 5, 1),
            new_data_of(flows, 5, 1),
            path_of(flows, 5),
            path_of(flows, 4),
        ]
        .concat();
        let numbers = [0, 0, 25, 25, 3];
        let mut memory = Memory::with_flows(flows.into(), 64, 256);
        let mut replay = Replay::new(&log, memory.lend());
        for number in numbers {
            assert_eq!(replay.step(), Ok(Some(Outcome::from(number))));
        }
        assert_eq!(replay.step(), Ok(None));

        let mut side = Side::new();
        side.memory = Memory::with_flows(flows.into(), 64, 256);
        let (_, answers) = side.take(&log, true, 9).unwrap();
        assert_eq!(answers, numbers.map(Outcome::from));
        assert_eq!(side.memory, memory);
    }
    // No flow at all, or nine, is 2 at setting up; then replay stops.
    for flows in [0, 9] {
        let mut memory = Memory::with_flows(flows, 64, 256);
        let settings = settings_e();
        let mut replay = Replay::new(&settings, memory.lend());
        assert_eq!(replay.step(), Err(2));
    }
}

/// An unfinished record of a flow is held as far as it has come. The longest record of all is still
/// that of settings: 61 bytes.
#[test]
fn a_record_of_a_flow_cut_anywhere() {
    assert_eq!(Part::default().piece.len(), 61);
    for whole in [
        new_data_of(2, 9, 5),
        ack_of(2, 9, u32::MAX, 0),
        path_of(2, 9),
    ] {
        for cut in 0..whole.len() {
            let mut side = Side::lending_to(&[]);
            side.take(&settings_e(), false, 1).unwrap();
            let (taken, _) = side.take(&whole[..cut], false, 1).unwrap();
            assert_eq!((taken.answered, side.part.held), (0, cut as u64));
            assert_eq!(side.part.piece[..cut], whole[..cut]);
            let (taken, answers) = side.take(&whole[cut..], false, 1).unwrap();
            assert_eq!((taken.answered, answers[0].number), (1, 0));
            assert_eq!(side.part.offset, 57 + whole.len() as u64);
        }
    }
}

/// How often the events of a log name each flow, and how often none.
fn flows_named(log: &[u8], times: &mut [u32; 256]) -> u32 {
    let mut reader = Reader::new(log);
    let mut old = 0;
    while let Ok(Some(record)) = reader.next_record() {
        let mut bytes = Vec::new();
        append(&record, &mut bytes).unwrap();
        match bytes[2] {
            33..=38 => times[usize::from(bytes[12])] += 1,
            16 => {}
            _ => old += 1,
        }
    }
    old
}

/// Logs of old kinds only are fit for a context of one flow.
#[test]
fn generated_logs_with_old_kinds_only() {
    let narrow = |seed, records| gen::narrow(seed, records, 64);
    let old_makes = [
        gen::traffic,
        gen::lossy,
        gen::marked,
        gen::winding,
        gen::wide,
    ];
    for make in old_makes.into_iter().chain([gen::bulk, narrow]) {
        let mut times = [0; 256];
        let old: u32 = (0..8)
            .map(|seed| flows_named(&make(seed, 400), &mut times))
            .sum();
        assert_eq!((old, times), (8 * 399, [0; 256]));
    }
    let plain = |seed: &u64| {
        let mut times = [0; 256];
        flows_named(&gen::hostile(*seed, 100), &mut times);
        times == [0; 256]
    };
    let share = (0..400).filter(plain).count();
    assert!((160..240).contains(&share), "{share}");
}

/// Every flow of the table is met, flow 0 by both kinds, and flows past it: 8 and 255 among them.
#[test]
fn generated_logs_with_flows() {
    for make in [gen::flows, gen::hostile] {
        let mut times = [0; 256];
        let old: u32 = (0..100)
            .map(|seed| flows_named(&make(seed, 800), &mut times))
            .sum();
        let past: u32 = times[8..].iter().sum();
        assert!(old > 1_000 && times[0] > 1_000, "{old} {times:?}");
        assert!(times[1..8].iter().all(|&times| times > 1_000), "{times:?}");
        assert!(times[8] > 30 && times[255] > 15, "{times:?}");
        assert!(past * 50 < times[..8].iter().sum(), "{past}");
    }
}
