//! The logs that are replayed.

mod mixed;

use model::log::{append, M, QUICK_ADAPT_OFF};
use model::replay::CAPACITY;
use model::{gen, Event, Reader, Record, Settings};

/// Makes a log of so many records.
pub type Make = fn(usize) -> Vec<u8>;

/// The kinds of log, each with its name.
pub const KINDS: [(&str, Make); 5] = [
    ("traffic", |records| gen::traffic(SEED, records)),
    ("loss-heavy", |records| gen::lossy(SEED, records)),
    ("marks-heavy", |records| gen::marked(SEED, records)),
    ("path-heavy", |records| gen::winding(SEED, records)),
    ("bulk", |records| gen::bulk(SEED, records)),
];

/// A seed whose settings are E of 01 with quick adapt on.
const SEED: u64 = 0;

pub fn traffic(records: usize) -> Vec<u8> {
    gen::traffic(SEED, records)
}

/// Traffic that a ring of so many slots has room for. The generator's are at most the program's.
pub fn traffic_for(capacity: usize, records: usize) -> (Settings, Vec<Event>) {
    apart(&gen::narrow(SEED, records, capacity.min(CAPACITY)))
}

/// Traffic of eight flows.
pub fn mixed(records: usize) -> Vec<u8> {
    mixed::mixed(SEED, records)
}

/// ACKs of a round of bulk, as many as the greatest number of flows, and packets of each.
const EIGHTHS: u32 = 8;
const EIGHTH: u32 = 128;
const LARGE: u32 = 16_384;

/// Rounds of large packets, dealt to so many flows by turns, and of ACKs for them, each for an eighth
/// of the round. All but flows and PSNs is the same for one flow and for eight.
pub fn dealt(records: usize, flows: usize) -> Vec<u8> {
    let flows = flows as u32;
    let mut numbers = gen::E;
    (numbers[0], numbers[1]) = (LARGE.into(), 1 << 26);
    let mut all = vec![Record::Settings {
        numbers,
        first_psn: 0,
        flags: QUICK_ADAPT_OFF,
        ev_count: 256,
    }];
    for round in 0.. {
        if all.len() >= records {
            break;
        }
        deal(round, flows, &mut all);
    }
    all.truncate(records);
    bytes_of(&all)
}

/// New data, packets and ACKs of a round.
fn deal(round: u32, flows: u32, records: &mut Vec<Record>) {
    let packets = EIGHTHS * EIGHTH;
    let time = u64::from(round) * 200;
    let first = round * packets / flows;
    let named = |i: u32| Some((i % flows) as u8);
    records.extend((0..EIGHTHS).map(|i| Record::NewData {
        time,
        flow: named(i),
        bytes: u64::from(EIGHTH * LARGE),
    }));
    records.extend((0..packets).map(|i| Record::Send {
        time,
        flow: named(i),
        size: LARGE,
        psn: first + i / flows,
        resend: 0,
    }));
    records.extend((0..EIGHTHS).map(|i| {
        let cum = first + (i / flows + 1) * EIGHTH - 1;
        Record::Ack {
            time: time + 100,
            flow: named(i),
            cum,
            map: 0,
            trigger: cum,
            count: (cum + 1) * (LARGE / 256) % (1 << 24),
            service: 0,
            ev: 0,
            flags: 0,
        }
    }));
}

/// How many records a log has.
pub fn count(log: &[u8]) -> usize {
    let mut reader = Reader::new(log);
    let next = || reader.next_record().expect("a sound log");
    std::iter::from_fn(next).count()
}

/// The settings and the events of a log.
pub fn apart(log: &[u8]) -> (Settings, Vec<Event>) {
    let mut reader = Reader::new(log);
    let mut next = || reader.next_record().expect("a sound log");
    let first = next().and_then(|record| record.settings());
    let events = std::iter::from_fn(next).filter_map(|record| record.event());
    (first.expect("settings"), events.collect())
}

/// Packets under way in the logs of ACKs: they fit in the smallest ring.
const UNDER_WAY: u32 = 60;
const SIZE: u32 = 1024;

/// Packets under way, then `pairs` times an ACK that delivers the oldest and a new packet. No round
/// trip is shorter than the 96 ticks of E: the window stays wide enough.
pub fn ack_and_send(pairs: u32) -> Vec<u8> {
    let mut records = start(pairs);
    for i in 0..pairs {
        let time = 96 + 2 * i;
        records.push(ack(time, i, i + 1));
        records.push(send(time, UNDER_WAY + i));
    }
    bytes_of(&records)
}

/// Packets under way, then `acks` times an ACK that delivers nothing that is not yet delivered.
pub fn repeated_ack(acks: u32) -> Vec<u8> {
    let mut records = start(0);
    records.push(ack(0, 0, 1));
    records.extend((1..=acks).map(|time| ack(time, 0, 1)));
    bytes_of(&records)
}

/// Path choices. With `avoided`, marked ACKs come first, after which every second EV is avoided and
/// no choice finds the EV at the cursor free.
pub fn path_choices(paths: usize, avoided: bool) -> Vec<u8> {
    let mut records = start(0);
    let evs = if avoided { 0..256 } else { 0..0 };
    for even in evs.step_by(2) {
        let mut marked = ack(0, 0, 1);
        if let Record::Ack { ev, flags, .. } = &mut marked {
            (*ev, *flags) = (even, M);
        }
        records.push(marked);
    }
    let (time, flow) = (0, None);
    records.resize(records.len() + paths, Record::Path { time, flow });
    bytes_of(&records)
}

/// Settings, backlog for all and the first packets.
fn start(more: u32) -> Vec<Record> {
    let numbers = gen::E;
    let bytes = u64::from(UNDER_WAY + more) * u64::from(SIZE);
    let mut records = vec![
        Record::Settings {
            numbers,
            first_psn: 0,
            flags: 0,
            ev_count: 256,
        },
        Record::NewData {
            time: 0,
            flow: None,
            bytes,
        },
    ];
    records.extend((0..UNDER_WAY).map(|psn| send(0, psn)));
    records
}

fn send(time: u32, psn: u32) -> Record {
    Record::Send {
        time: time.into(),
        flow: None,
        size: SIZE,
        psn,
        resend: 0,
    }
}

/// An ACK of everything up to `cum`, with the received count of so many packets.
fn ack(time: u32, cum: u32, packets: u32) -> Record {
    Record::Ack {
        time: time.into(),
        flow: None,
        cum,
        map: 0,
        trigger: cum,
        count: packets * (SIZE / 256) % (1 << 24),
        service: 0,
        ev: 0,
        flags: 0,
    }
}

fn bytes_of(records: &[Record]) -> Vec<u8> {
    let mut log = Vec::new();
    for record in records {
        append(record, &mut log).expect("every field fits");
    }
    log
}

#[cfg(test)]
mod tests {
    use super::dealt;
    use model::replay::Replay;
    use model::{Memory, State};

    /// The shared state after each record, all of which must be accepted.
    fn states(flows: usize) -> Vec<State> {
        let log = dealt(5_000, flows);
        let mut memory = Memory::with_flows(flows, 4_096 / flows, 256);
        let mut replay = Replay::new(&log, memory.lend());
        let mut states = Vec::new();
        while let Some(outcome) = replay.step().expect("a sound log") {
            assert_eq!(outcome.number, 0, "record {}", states.len() + 1);
            states.push(replay.state);
        }
        states
    }

    /// What one flow does to the window, eight flows do with the same events.
    #[test]
    fn dealt_logs_have_the_same_events() {
        let one = states(1);
        assert_eq!(one.len(), 5_000);
        assert!(one == states(8), "the shared states differ");
    }
}
