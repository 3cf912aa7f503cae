//! Mixed traffic of eight flows under one window, every record of which names its flow. It is made
//! beside the model's state, so that no record is refused: packets go where the window and fair turns
//! let them, queue in one narrow place and are marked, trimmed or lost there, and each flow has a
//! receiver that tells what has arrived.

use crate::sides::CAPACITY;
use model::bounds::{COUNT_END, EVS_USUAL, FLOWS_MAX, SIZE_MIN, UNIT};
use model::event::{OTHER, TRIMMED, TRIMMED_LAST_HOP};
use model::log::{append, M, RETX};
use model::ring::size_of;
use model::{gen, Memory, Outcome, Record, Rng, Settings, State, Turn};
use std::collections::{BTreeSet, VecDeque};

/// Ticks of the way there and back where nothing queues, and bytes that the narrow place lets pass
/// in a tick: about a third of what the window allows, so that it has to close.
const WAY: u64 = 80;
const RATE: u64 = 2_048;

/// A log of so many records.
pub fn mixed(seed: u64, records: usize) -> Vec<u8> {
    let mut sim = Sim::new(seed, records);
    while !sim.full() {
        sim.step();
    }
    sim.log
}

#[derive(Clone, Copy)]
enum Fate {
    Delivered,
    Refused(u8),
    Lost,
}

/// A packet under way, until the sender hears of it.
struct Packet {
    due: u64,
    flow: u8,
    psn: u32,
    size: u32,
    ev: u16,
    flags: u8,
    fate: Fate,
}

/// What has arrived of a flow. PSNs start at 0, and a log is too short for them to wrap.
#[derive(Clone, Default)]
struct Receiver {
    /// The first PSN that has not arrived.
    next: u32,
    beyond: BTreeSet<u32>,
    bytes: u64,
}

impl Receiver {
    /// No packet comes twice: it is sent again only where it was lost or trimmed.
    fn take(&mut self, psn: u32, size: u32) {
        self.bytes += u64::from(size);
        self.beyond.insert(psn);
        while self.beyond.remove(&self.next) {
            self.next += 1;
        }
    }

    fn map(&self) -> u64 {
        let covered = self.beyond.range(self.next..self.next + u64::BITS);
        covered.fold(0, |map, psn| map | 1 << (psn - self.next))
    }

    fn count(&self) -> u32 {
        (self.bytes.div_ceil(UNIT) % u64::from(COUNT_END)) as u32
    }
}

struct Sim {
    rng: Rng,
    log: Vec<u8>,
    written: usize,
    records: usize,
    state: State,
    memory: Memory,
    now: u64,
    /// When the narrow place is free again, in ticks times its rate.
    free_at: u64,
    /// In the order in which they are due.
    under_way: VecDeque<Packet>,
    receivers: Vec<Receiver>,
    /// The EV of the last path choice.
    ev: u16,
}

impl Sim {
    /// With 01's settings E.
    fn new(seed: u64, records: usize) -> Sim {
        let settings = Settings::from_numbers(gen::E, 0, false);
        let mut memory = Memory::with_flows(FLOWS_MAX, CAPACITY, EVS_USUAL as usize);
        let (_, state) = State::set_up(&settings, &mut memory.lend());
        let mut sim = Sim {
            rng: Rng::new(seed),
            log: Vec::new(),
            written: 0,
            records,
            state,
            memory,
            now: 0,
            free_at: 0,
            under_way: VecDeque::new(),
            receivers: vec![Receiver::default(); FLOWS_MAX],
            ev: 0,
        };
        sim.emit(Record::Settings {
            numbers: gen::E,
            first_psn: 0,
            flags: 0,
            ev_count: EVS_USUAL,
        });
        sim
    }

    fn full(&self) -> bool {
        self.written >= self.records
    }

    /// Writes the record, unless the log is full, and the event takes place.
    fn emit(&mut self, record: Record) -> Outcome {
        if !self.full() {
            append(&record, &mut self.log).expect("every field fits");
            self.written += 1;
        }
        let Some(event) = record.event() else {
            return Outcome::default();
        };
        let outcome = self.state.take_trusted(&mut self.memory.lend(), &event);
        assert_eq!(outcome.number, 0, "{record:?}");
        outcome
    }

    /// One thing happens, or time goes on.
    fn step(&mut self) {
        if let Some(packet) = self.under_way.pop_front_if(|packet| packet.due <= self.now) {
            return self.arrive(&packet);
        }
        let any = self.rng.below(FLOWS_MAX as u64) as u8;
        if self.backlog(any) < 4 * self.state.settings.mtu && self.rng.one_in(4) {
            return self.new_data(any);
        }
        match self.state.choose_trusted(&self.memory.lend()) {
            Some(turn) => self.send(turn),
            None => self.wait(),
        }
    }

    fn backlog(&self, flow: u8) -> u64 {
        self.memory.flows[usize::from(flow)].backlog
    }

    fn new_data(&mut self, flow: u8) {
        let bytes = self.rng.between(1, 32 * self.state.settings.mtu);
        self.emit(Record::NewData {
            time: self.now,
            flow: Some(flow),
            bytes,
        });
    }

    /// Sends what a choice has named, every second time over a new path.
    fn send(&mut self, turn: Turn) {
        let (flow, psn) = (turn.flow as u8, turn.psn);
        let Some(size) = self.size_of(turn) else {
            return self.new_data(flow);
        };
        let (time, named) = (self.now, Some(flow));
        if self.rng.one_in(2) {
            let outcome = self.emit(Record::Path { time, flow: named });
            self.ev = outcome.ev.unwrap_or(0);
        }
        self.emit(Record::Send {
            time,
            flow: named,
            size,
            psn,
            resend: turn.resend.into(),
        });
        self.launch(flow, psn, size, turn.resend);
    }

    /// That of the marked packet, or of a new one, one in four of which is small; `None` where there
    /// are too few bytes for one.
    fn size_of(&mut self, turn: Turn) -> Option<u32> {
        if turn.resend {
            let slot = turn.flow as usize * CAPACITY + turn.psn as usize % CAPACITY;
            return Some(size_of(self.memory.sizes[slot]));
        }
        let least = u64::from(SIZE_MIN);
        let most = self.backlog(turn.flow as u8).min(self.state.settings.mtu);
        if most < least {
            return None;
        }
        let small = self.rng.one_in(4);
        let size = if small {
            self.rng.between(least, most)
        } else {
            most
        };
        Some(size as u32)
    }

    fn launch(&mut self, flow: u8, psn: u32, size: u32, resend: bool) {
        self.free_at = self.free_at.max(self.now * RATE) + u64::from(size);
        let queue = self.free_at / RATE - self.now;
        let target = self.state.settings.target_qdelay;
        let marked = queue > target || (queue > target / 2 && self.rng.one_in(3));
        let fate = match self.rng.below(100) {
            0 => Fate::Lost,
            1 => Fate::Refused(OTHER),
            2 => Fate::Refused(TRIMMED_LAST_HOP),
            3 | 4 if queue > target => Fate::Refused(TRIMMED),
            _ => Fate::Delivered,
        };
        self.under_way.push_back(Packet {
            due: self.now + WAY + queue,
            flow,
            psn,
            size,
            ev: self.ev,
            flags: if marked { M } else { 0 } | if resend { RETX } else { 0 },
            fate,
        });
    }

    fn arrive(&mut self, packet: &Packet) {
        let (time, flow) = (self.now, Some(packet.flow));
        let Packet { psn, ev, flags, .. } = *packet;
        match packet.fate {
            Fate::Delivered => self.deliver(packet),
            Fate::Refused(reason) => {
                self.emit(Record::Nack {
                    time,
                    flow,
                    psn,
                    ev,
                    reason,
                    flags,
                });
            }
            Fate::Lost => {
                self.emit(Record::Loss {
                    time,
                    flow,
                    psn,
                    ev,
                });
            }
        }
    }

    /// One ACK in four is lost, if the flow has more under way, and one in 64 comes twice. The map
    /// always reaches the packet: a lost one is sent again long before 64 others of its flow are.
    fn deliver(&mut self, packet: &Packet) {
        let Packet { flow, psn, .. } = *packet;
        self.receivers[usize::from(flow)].take(psn, packet.size);
        let more = self.under_way.iter().any(|other| other.flow == flow);
        let times = match self.rng.below(64) {
            0..16 if more => 0,
            16 => 2,
            _ => 1,
        };
        for _ in 0..times {
            self.ack(flow, Some(psn), packet.ev, packet.flags);
        }
    }

    /// What the flow's receiver tells. Where no packet is the trigger, the last one covered by cum is.
    fn ack(&mut self, flow: u8, trigger: Option<u32>, ev: u16, flags: u8) {
        let receiver = &self.receivers[usize::from(flow)];
        let cum = receiver.next.wrapping_sub(1);
        let (map, count) = (receiver.map(), receiver.count());
        let service = self.rng.below(4) as u32;
        self.emit(Record::Ack {
            time: self.now,
            flow: Some(flow),
            cum,
            map,
            trigger: trigger.unwrap_or(cum),
            count,
            service,
            ev,
            flags,
        });
    }

    /// Until the next packet is due. With none under way, those of whom an ACK was lost tell anew.
    fn wait(&mut self) {
        if self.rng.one_in(200) {
            // Others fill the queue.
            self.free_at = self.free_at.max(self.now * RATE) + RATE * self.rng.below(4 * WAY);
        }
        if let Some(packet) = self.under_way.front() {
            self.now = packet.due;
            return;
        }
        self.now += self.rng.between(1, WAY);
        for flow in 0..FLOWS_MAX {
            if self.memory.flows[flow].held != self.receivers[flow].count() {
                self.ack(flow as u8, None, self.ev, 0);
            }
        }
    }
}

#[cfg(test)]
mod tests {
    use super::mixed;
    use crate::sides::CAPACITY;
    use model::replay::Replay;
    use model::{Memory, Record};

    /// What a log has of something, for each flow.
    type Many = [usize; 8];

    #[derive(Debug, Default)]
    struct Seen {
        new_data: Many,
        sends: Many,
        resends: Many,
        acks: Many,
        maps: Many,
        nacks: Many,
        losses: Many,
        paths: Many,
    }

    impl Seen {
        /// What a record is; its flow must be named.
        fn add(&mut self, record: &Record) {
            let (many, flow) = match *record {
                Record::NewData { flow, .. } => (&mut self.new_data, flow),
                Record::Send {
                    flow, resend: 0, ..
                } => (&mut self.sends, flow),
                Record::Send { flow, .. } => (&mut self.resends, flow),
                Record::Ack { flow, map: 0, .. } => (&mut self.acks, flow),
                Record::Ack { flow, .. } => (&mut self.maps, flow),
                Record::Nack { flow, .. } => (&mut self.nacks, flow),
                Record::Loss { flow, .. } => (&mut self.losses, flow),
                Record::Path { flow, .. } => (&mut self.paths, flow),
                Record::Settings { .. } => return,
            };
            many[usize::from(flow.expect("a flow is named"))] += 1;
        }
    }

    #[test]
    fn every_flow_has_everything_and_nothing_is_refused() {
        let log = mixed(0, 20_000);
        let mut memory = Memory::with_flows(8, CAPACITY, 256);
        let mut replay = Replay::new(&log, memory.lend());
        let mut seen = Seen::default();
        let mut records = 0;
        while let Some((record, outcome)) = replay.step_with_record().expect("a sound log") {
            assert_eq!(outcome.number, 0, "{record:?}");
            seen.add(&record);
            records += 1;
        }
        assert_eq!(records, 20_000);
        for (many, least) in [
            (seen.new_data, 40),
            (seen.sends, 1_000),
            (seen.resends, 20),
            (seen.acks, 500),
            (seen.maps, 80),
            (seen.nacks, 10),
            (seen.losses, 5),
            (seen.paths, 500),
        ] {
            assert!(many.iter().all(|&many| many >= least), "{seen:?}");
        }
    }
}
