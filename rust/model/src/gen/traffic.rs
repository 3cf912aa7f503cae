//! Realistic traffic: a sender that keeps to the rules, a road with one narrow place, where packets
//! queue, are marked, trimmed and lost, and a receiver for each flow that reports what arrives.

use super::{first_psn, near_wrap, past_table, settings_record, E};
use crate::bounds::{COUNT_END, EVS_USUAL, SIZE_MIN, TIME_END, UNIT};
use crate::event::{Outcome, OTHER, TRIMMED, TRIMMED_LAST_HOP};
use crate::flow::Flow;
use crate::lent::Memory;
use crate::log::{append, Record, M, RETX};
use crate::replay::{program_memory, CAPACITY, FLOWS};
use crate::ring::Status;
use crate::rng::Rng;
use crate::settings::Settings;
use crate::state::{Name, State};
use std::cmp::Reverse;
use std::collections::{BinaryHeap, VecDeque};

pub fn traffic(seed: u64, records: usize) -> Vec<u8> {
    run(seed, records, |_| {})
}

/// Traffic of which about one packet in six is trimmed, refused or lost.
pub fn lossy(seed: u64, records: usize) -> Vec<u8> {
    run(seed, records, |sim| sim.road.losses = 40)
}

/// Traffic of which at least three packets in four are marked.
pub fn marked(seed: u64, records: usize) -> Vec<u8> {
    run(seed, records, |sim| sim.road.marks = 3)
}

/// Marked traffic with four more path choices for every packet, so that many EVs are avoided.
pub fn winding(seed: u64, records: usize) -> Vec<u8> {
    run(seed, records, |sim| {
        sim.road.marks = 3;
        sim.more_paths = 4;
    })
}

/// Winding traffic over more than 256 EVs: 512 to 4,096, by the seed.
pub fn wide(seed: u64, records: usize) -> Vec<u8> {
    let evs = EVS_USUAL << (1 + seed % 4);
    run_over(evs, seed, records, |sim| {
        sim.road.marks = 3;
        sim.more_paths = 4;
    })
}

/// Traffic for a ring of `capacity` slots, which must be a ring's and at most the program's.
pub fn narrow(seed: u64, records: usize, capacity: usize) -> Vec<u8> {
    run(seed, records, |sim| sim.set_up(capacity))
}

/// Traffic of one to eight flows under one window (M-107), which fill their rings unlike. A record
/// of flow 0 names it or is of an old kind; now and then one names a flow past the program's table.
/// All flows start at one PSN, mostly near 2^32, and come to the wrap each in its own time.
pub fn flows(seed: u64, records: usize) -> Vec<u8> {
    let mut rng = Rng::new(seed);
    let mut settings = settings(&mut rng);
    if !rng.one_in(4) {
        settings.first_psn = near_wrap(&mut rng);
    }
    let start = rng.below(1 << 20);
    let mut sim = Sim::new(rng, settings, start, records);
    sim.road.losses = sim.rng.pick(&[1, 1, 40]);
    sim.road.marks = sim.rng.pick(&[0, 0, 3]);
    sim.spread();
    while !sim.full() {
        if sim.rng.one_in(400) {
            sim.stray();
        }
        sim.step();
    }
    sim.log
}

fn run(seed: u64, records: usize, shape: impl Fn(&mut Sim)) -> Vec<u8> {
    run_over(EVS_USUAL, seed, records, shape)
}

fn run_over(evs: u32, seed: u64, records: usize, shape: impl Fn(&mut Sim)) -> Vec<u8> {
    let mut rng = Rng::new(seed);
    let settings = settings(&mut rng).with_evs(evs);
    let start = rng.below(1 << 20);
    let mut sim = Sim::new(rng, settings, start, records);
    shape(&mut sim);
    while !sim.full() {
        sim.step();
    }
    sim.log
}

/// E, or numbers in its neighbourhood.
fn settings(rng: &mut Rng) -> Settings {
    let mut numbers = E;
    if !rng.one_in(3) {
        let mtu = rng.pick(&[1024, 1500, 2048, 4096, 9000]);
        let base = rng.between(30, 300);
        numbers[0] = mtu;
        numbers[1] = mtu * rng.between(8, 250);
        numbers[2] = base;
        numbers[3] = base * 3 / 4;
        numbers[5] = mtu / 4;
        numbers[9] = base;
        numbers[10] = 8 * mtu;
        numbers[11] = base * rng.between(1, 4);
    }
    let quick_adapt_off = rng.one_in(4);
    Settings::from_numbers(numbers, first_psn(rng), quick_adapt_off)
}

/// What becomes of a sent packet.
#[derive(Clone, Copy, Debug, PartialEq, Eq, PartialOrd, Ord)]
enum Fate {
    Delivered,
    Refused(u8),
    Lost,
    /// Taken for lost, and delivered after all.
    Late,
}

/// A packet on the road, ordered by the time at which the sender hears of it.
#[derive(Clone, Copy, Debug, PartialEq, Eq, PartialOrd, Ord)]
struct Packet {
    due: u64,
    order: u64,
    flow: usize,
    fate: Fate,
    psn: u32,
    size: u32,
    ev: u16,
    flags: u8,
}

/// The narrow place of the road.
struct Road {
    /// When it is free again, in 1/1,024 tick.
    free_at: u64,
    bytes_per_base: u64,
    base: u64,
    /// How many times as many packets as usual are lost.
    losses: u64,
    /// Of four packets so many are marked, whatever the queue.
    marks: u64,
}

impl Road {
    /// The packet queues and passes; how long that takes, in ticks.
    fn pass(&mut self, now: u64, size: u32) -> u64 {
        let now = now * 1024;
        let takes = u64::from(size) * self.base * 1024 / self.bytes_per_base;
        self.free_at = self.free_at.max(now) + takes;
        (self.free_at - now) / 1024
    }
}

/// What has arrived: everything up to `cum`, and of what follows it `beyond`.
struct Receiver {
    cum: u32,
    beyond: VecDeque<bool>,
    bytes: u64,
}

impl Receiver {
    fn take(&mut self, psn: u32, size: u32) {
        if self.has(psn) {
            return; // a second copy
        }
        let ahead = psn.wrapping_sub(self.cum).wrapping_sub(1) as usize;
        if self.beyond.len() <= ahead {
            self.beyond.resize(ahead + 1, false);
        }
        self.beyond[ahead] = true;
        self.bytes += u64::from(size);
        while self.beyond.front() == Some(&true) {
            self.beyond.pop_front();
            self.cum = self.cum.wrapping_add(1);
        }
    }

    fn has(&self, psn: u32) -> bool {
        let ahead = psn.wrapping_sub(self.cum).wrapping_sub(1) as usize;
        ahead > CAPACITY || self.beyond.get(ahead) == Some(&true)
    }

    fn map(&self) -> u64 {
        let bits = self.beyond.iter().take(64).enumerate();
        bits.fold(0, |map, (i, &arrived)| map | u64::from(arrived) << i)
    }

    /// The received count is rounded up to whole units.
    fn count(&self) -> u32 {
        (self.bytes.div_ceil(UNIT) % u64::from(COUNT_END)) as u32
    }
}

/// Bytes of small packets, of which a ring holds as many as it has slots in every window.
const SMALL: u64 = 100;

/// How a flow sends, and what is known of it beside the ledger.
struct Talk {
    /// One packet in so many is small.
    small: u64,
    /// Bytes of its largest packets.
    most: u64,
    /// New data comes in one step of so many.
    lull: u64,
    /// Of 64 ACKs so many are lost.
    acks_lost: u64,
    receiver: Receiver,
    to_resend: VecDeque<u32>,
}

impl Talk {
    /// Nothing is sent yet. The usual way to talk.
    fn new(rng: &mut Rng, settings: &Settings) -> Talk {
        Talk {
            small: rng.between(1, 16),
            most: settings.mtu,
            lull: rng.pick(&[2, 2, 60]),
            acks_lost: 16,
            receiver: Receiver {
                cum: settings.first_psn.wrapping_sub(1),
                beyond: VecDeque::new(),
                bytes: 0,
            },
            to_resend: VecDeque::new(),
        }
    }

    /// One way of several: small packets, or most ACKs lost, fill a ring before the window closes.
    fn unlike(rng: &mut Rng, settings: &Settings) -> Talk {
        Talk {
            most: rng.pick(&[settings.mtu, settings.mtu, SMALL]),
            lull: rng.pick(&[2, 8, 60, 400]),
            acks_lost: rng.pick(&[16, 16, 60]),
            ..Talk::new(rng, settings)
        }
    }

    /// Both of these, and always something to send.
    fn filling(rng: &mut Rng, settings: &Settings) -> Talk {
        Talk {
            most: SMALL,
            lull: 2,
            acks_lost: 60,
            ..Talk::new(rng, settings)
        }
    }
}

pub(super) struct Sim {
    pub rng: Rng,
    pub log: Vec<u8>,
    /// Records in the log, and how many it may have.
    written: usize,
    records: usize,
    pub state: State,
    pub memory: Memory,
    pub now: u64,
    /// No record names its flow: all are of flow 0.
    pub old_kinds: bool,
    /// The flows that send, from flow 0 on.
    talks: Vec<Talk>,
    /// The flow that has every second turn, beside its share of the others.
    busiest: usize,
    /// Path choices before every packet, beside the usual ones.
    more_paths: u64,
    ev: u16,
    road: Road,
    on_road: BinaryHeap<Reverse<Packet>>,
    order: u64,
    late_acks: Vec<Record>,
}

impl Sim {
    /// The log starts with the settings, which must be good ones. Flow 0 alone sends.
    pub fn new(mut rng: Rng, settings: Settings, now: u64, records: usize) -> Sim {
        let mut memory = program_memory(settings.ev_count as usize);
        let (_, state) = State::set_up(&settings, &mut memory.lend());
        let base = settings.config_base_rtt;
        let road = Road {
            free_at: 0,
            bytes_per_base: rng.between(settings.max_wnd / 4, settings.max_wnd).max(1),
            base: rng.between(base / 2, base).max(1),
            losses: 1,
            marks: 0,
        };
        let mut sim = Sim {
            old_kinds: true,
            talks: vec![Talk::new(&mut rng, &settings)],
            busiest: 0,
            rng,
            log: Vec::new(),
            written: 0,
            records,
            state,
            memory,
            now,
            more_paths: 0,
            ev: 0,
            road,
            on_road: BinaryHeap::new(),
            order: 0,
            late_acks: Vec::new(),
        };
        sim.emit(settings_record(&settings));
        sim
    }

    /// One to eight flows send, each in its way, and records name their flow. Nothing may be sent
    /// yet.
    pub fn spread(&mut self) {
        let settings = self.state.settings;
        let rng = &mut self.rng;
        let any = rng.between(1, FLOWS as u64) as usize;
        let many = rng.pick(&[any, FLOWS]);
        self.old_kinds = false;
        self.talks = (0..many).map(|_| Talk::unlike(rng, &settings)).collect();
        self.busiest = rng.below(many as u64) as usize;
        if rng.one_in(2) {
            self.talks[self.busiest] = Talk::filling(rng, &settings);
        }
    }

    /// How many flows send.
    pub fn talking(&self) -> usize {
        self.talks.len()
    }

    /// What a record of this flow names: flow 0 has both kinds, unless all are old.
    pub fn named(&mut self, flow: usize) -> Option<u8> {
        let plain = self.old_kinds || (flow == 0 && self.rng.one_in(2));
        (!plain).then_some(flow as u8)
    }

    /// Sets up once more, with one ring of so many slots and 256 EVs.
    fn set_up(&mut self, capacity: usize) {
        self.memory = Memory::new(capacity);
        (_, self.state) = State::set_up(&self.state.settings, &mut self.memory.lend());
    }

    /// The log has all its records.
    pub fn full(&self) -> bool {
        self.written >= self.records
    }

    /// Writes the record, unless the log is full, and the event takes place.
    pub fn emit(&mut self, record: Record) -> Outcome {
        if !self.full() && append(&record, &mut self.log).is_ok() {
            self.written += 1;
        }
        match record.event() {
            Some(event) => self.state.take_trusted(&mut self.memory.lend(), &event),
            None => Outcome::from(0),
        }
    }

    /// One thing happens, or time goes on.
    pub fn step(&mut self) {
        let due = self.on_road.peek().map(|packet| packet.0.due);
        if due.is_some_and(|due| due <= self.now) {
            return self.arrive();
        }
        if !self.late_acks.is_empty() && self.rng.one_in(8) {
            return self.arrive_late();
        }
        let flow = self.turn();
        let few = self.flow(flow).backlog < 4 * self.state.settings.mtu;
        if few && self.rng.one_in(self.talks[flow].lull) {
            self.new_data(flow);
        } else if self.may_send(flow) && !self.rng.one_in(16) {
            self.send(flow);
        } else {
            self.wait(due);
        }
    }

    /// The busiest flow or any, or the next one after it that may send.
    fn turn(&mut self) -> usize {
        let many = self.talks.len();
        if many == 1 {
            return 0;
        }
        let any = self.rng.below(many as u64) as usize;
        let first = self.rng.pick(&[self.busiest, any]);
        let mut turns = (first..many).chain(0..first);
        turns.find(|&flow| self.may_send(flow)).unwrap_or(first)
    }

    pub fn flow(&self, flow: usize) -> &Flow {
        &self.memory.flows[flow]
    }

    fn ring_room(&self, flow: usize) -> bool {
        (self.flow(flow).span() as usize) < self.memory.capacity()
    }

    /// Where one flow alone sends, what is marked is its own.
    fn may_send(&self, flow: usize) -> bool {
        let few = self.flow(flow).backlog < u64::from(SIZE_MIN);
        let again = if self.talks.len() == 1 {
            self.state.marked > 0
        } else {
            !self.talks[flow].to_resend.is_empty()
        };
        self.state.name == Name::Ready && (again || self.ring_room(flow) && !few)
    }

    fn wait(&mut self, due: Option<u64>) {
        let idle = self.rng.between(1, 4 * self.road.base);
        self.now = due
            .unwrap_or(self.now + idle)
            .max(self.state.clock)
            .min(TIME_END - 1);
        if due.is_none() && self.state.in_flight > 0 {
            for flow in 0..self.talks.len() {
                self.report(flow);
            }
        }
        if self.rng.one_in(300) {
            // Others fill the queue.
            self.road.free_at =
                self.road.free_at.max(self.now * 1024) + idle * self.rng.below(2048);
        }
    }

    fn new_data(&mut self, flow: usize) {
        let packets = self.rng.between(1, 64);
        let bytes = self.rng.between(1, packets * self.state.settings.mtu);
        let flow = self.named(flow);
        self.emit(Record::NewData {
            time: self.now,
            flow,
            bytes,
        });
    }

    fn send(&mut self, flow: usize) {
        let paths = self.more_paths + u64::from(self.rng.one_in(2));
        for _ in 0..paths {
            let (time, flow) = (self.now, self.named(flow));
            self.ev = self.emit(Record::Path { time, flow }).ev.unwrap_or(0);
        }
        let Some((psn, size, resend)) = self.next_packet(flow) else {
            self.new_data(flow);
            return;
        };
        let named = self.named(flow);
        let answer = self.emit(Record::Send {
            time: self.now,
            flow: named,
            size,
            psn,
            resend: resend.into(),
        });
        if answer.number == 0 {
            self.launch(flow, psn, size, resend);
        }
    }

    /// A marked packet, else a new one if backlog and ring allow it.
    fn next_packet(&mut self, flow: usize) -> Option<(u32, u32, bool)> {
        while let Some(psn) = self.talks[flow].to_resend.pop_front() {
            if let Some(size) = self.size_if(flow, psn, Status::Marked) {
                return Some((psn, size, true));
            }
        }
        let most = self.flow(flow).backlog.min(self.talks[flow].most);
        let least = u64::from(SIZE_MIN);
        if !self.ring_room(flow) || most < least {
            return None;
        }
        let size = if self.rng.one_in(self.talks[flow].small) {
            self.rng.between(least, most)
        } else {
            most
        };
        Some((self.flow(flow).next, size as u32, false))
    }

    fn size_if(&mut self, flow: usize, psn: u32, status: Status) -> Option<u32> {
        let lent = self.memory.lend();
        let ledger = lent.ledger(flow as u64).ok()?;
        let slot = ledger.slot_with(psn, status)?;
        Some(ledger.ring.size(slot))
    }

    fn launch(&mut self, flow: usize, psn: u32, size: u32, resend: bool) {
        let queue = self.road.pass(self.now, size);
        let base = self.road.base;
        let (fate, after) = self.fate(queue);
        let target = self.state.settings.target_qdelay;
        let marked = queue > target
            || (queue > target / 2 && self.rng.one_in(3))
            || (self.road.marks > 0 && self.rng.below(4) < self.road.marks);
        let flags = if marked { M } else { 0 } | if resend { RETX } else { 0 };
        self.put_on_road(Packet {
            due: self.now + base + after,
            order: 0,
            flow,
            fate,
            psn,
            size,
            ev: self.ev,
            flags,
        });
    }

    /// What becomes of a packet that queues so long, and when, counted from the base.
    fn fate(&mut self, queue: u64) -> (Fate, u64) {
        let base = self.road.base;
        match self.rng.below(4000) / self.road.losses {
            0..=7 => (Fate::Lost, 2 * base),
            8 => (Fate::Late, 2 * base),
            9..=11 => (Fate::Refused(OTHER), queue),
            12..=15 => (Fate::Refused(TRIMMED_LAST_HOP), queue),
            _ if queue > 3 * base => (Fate::Refused(TRIMMED), 0),
            _ => (Fate::Delivered, queue),
        }
    }

    fn put_on_road(&mut self, mut packet: Packet) {
        packet.order = self.order;
        self.order += 1;
        self.on_road.push(Reverse(packet));
    }

    fn arrive(&mut self) {
        let Some(Reverse(packet)) = self.on_road.pop() else {
            return;
        };
        let arrived = self.talks[packet.flow].receiver.has(packet.psn);
        match packet.fate {
            Fate::Delivered => self.deliver(&packet),
            // The receiver answers a second copy, even a trimmed one, with an ACK.
            _ if arrived => self.deliver(&packet),
            Fate::Refused(reason) => self.lose(&packet, Some(reason)),
            Fate::Lost => self.lose(&packet, None),
            Fate::Late => {
                self.lose(&packet, None);
                let later = self.rng.below(8 * self.road.base);
                self.put_on_road(Packet {
                    due: packet.due + later,
                    fate: Fate::Delivered,
                    ..packet
                });
            }
        }
    }

    fn lose(&mut self, packet: &Packet, reason: Option<u8>) {
        let Packet { psn, ev, flags, .. } = *packet;
        if self.size_if(packet.flow, psn, Status::Flying).is_none() {
            return;
        }
        let time = self.now;
        let flow = self.named(packet.flow);
        self.emit(match reason {
            Some(reason) => Record::Nack {
                time,
                flow,
                psn,
                ev,
                reason,
                flags,
            },
            None => Record::Loss {
                time,
                flow,
                psn,
                ev,
            },
        });
        self.talks[packet.flow].to_resend.push_back(psn);
    }

    /// The packet arrives. Most are answered at once; some ACKs are lost, late or doubled.
    fn deliver(&mut self, packet: &Packet) {
        let talk = &mut self.talks[packet.flow];
        talk.receiver.take(packet.psn, packet.size);
        let acks_lost = talk.acks_lost;
        let ack = self.ack_for(packet);
        match self.rng.below(64) {
            any if any < acks_lost && !self.on_road.is_empty() => {}
            16..=19 => self.late_acks.push(ack),
            20 => {
                self.emit(ack);
                self.emit(ack);
            }
            _ => {
                self.emit(ack);
            }
        }
    }

    fn ack_for(&mut self, packet: &Packet) -> Record {
        let receiver = &self.talks[packet.flow].receiver;
        let (cum, map, count) = (receiver.cum, receiver.map(), receiver.count());
        // A packet too far ahead for the map cannot be the trigger.
        let ahead = packet.psn.wrapping_sub(cum).wrapping_sub(1);
        let beyond_map = (64..CAPACITY as u32).contains(&ahead);
        Record::Ack {
            time: self.now,
            flow: self.named(packet.flow),
            cum,
            map,
            trigger: if beyond_map { cum } else { packet.psn },
            count,
            service: self.rng.below(4) as u32,
            ev: packet.ev,
            flags: packet.flags,
        }
    }

    /// With nothing on the road, the receiver tells once more what has arrived.
    fn report(&mut self, flow: usize) {
        let receiver = &self.talks[flow].receiver;
        let (cum, map, count) = (receiver.cum, receiver.map(), receiver.count());
        let flow = self.named(flow);
        self.emit(Record::Ack {
            time: self.now,
            flow,
            cum,
            map,
            trigger: cum,
            count,
            service: 0,
            ev: self.ev,
            flags: 0,
        });
    }

    fn arrive_late(&mut self) {
        let i = self.rng.below(self.late_acks.len() as u64) as usize;
        let mut ack = self.late_acks.swap_remove(i);
        if let Record::Ack { time, .. } = &mut ack {
            *time = self.now;
        }
        self.emit(ack);
    }

    /// A record of a flow past the table, which changes nothing.
    fn stray(&mut self) {
        let (time, ev) = (self.now, self.ev);
        let flow = Some(past_table(&mut self.rng));
        let psn = self.flow(0).next;
        let (bytes, size, resend) = (100, 100, 0);
        let record = match self.rng.below(4) {
            0 => Record::NewData { time, flow, bytes },
            1 => Record::Send {
                time,
                flow,
                size,
                psn,
                resend,
            },
            2 => Record::Loss {
                time,
                flow,
                psn,
                ev,
            },
            _ => Record::Path { time, flow },
        };
        self.emit(record);
    }
}
