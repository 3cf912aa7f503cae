//! Hostile logs: traffic among records with fields at and beyond their edges, and at the end a
//! record that is malformed.

use super::traffic::Sim;
use super::{first_psn, near_wrap, past_table, settings_record, E};
use crate::bounds::{BACKLOG_MAX, COUNT_END, EVS_USUAL, IN_FLIGHT_MIN, PSN_REACH, TIME_END};
use crate::flow::Flow;
use crate::log::{append, Record};
use crate::replay::{CAPACITY, FLOWS};
use crate::rng::Rng;
use crate::settings::Settings;

/// Half of the logs have old kinds only, the others records of all eight flows, and of flows past
/// the table.
pub fn hostile(seed: u64, records: usize) -> Vec<u8> {
    let mut rng = Rng::new(!seed);
    let mut settings = settings(&mut rng);
    let old_kinds = rng.one_in(2);
    if !old_kinds && rng.one_in(2) {
        settings.first_psn = near_wrap(&mut rng);
    }
    if rng.one_in(16) {
        let named = rng.pick(&[None, Some(0), Some(1), Some(255)]);
        let named = named.filter(|_| !old_kinds);
        return bad_start(&mut rng, settings, named);
    }
    let start = if rng.one_in(4) {
        TIME_END - 1 - rng.below(1 << 12)
    } else {
        rng.below(1 << 12)
    };
    let mut sim = Sim::new(rng, settings, start, records);
    if !old_kinds {
        sim.spread();
    }
    match sim.rng.below(16) {
        0 => flood(&mut sim),
        1 | 2 => fill(&mut sim),
        3..=8 if !old_kinds => fill_some(&mut sim),
        _ => {}
    }
    let rate = sim.rng.between(1, 8);
    while !sim.full() {
        sim.now = sim.now.max(sim.state.clock).min(TIME_END - 1);
        if sim.rng.one_in(rate) {
            let record = spoilt(&mut sim);
            sim.emit(record);
        } else {
            sim.step();
        }
    }
    if sim.rng.one_in(2) {
        let end = malformed(&mut sim);
        sim.log.extend(end);
    }
    sim.log
}

/// Every number in its range, often at an edge of it.
fn settings(rng: &mut Rng) -> Settings {
    let mut numbers = E;
    for i in 0..numbers.len() {
        let range = Settings::ranges(numbers[0])[i].clone();
        numbers[i] = match rng.below(6) {
            0 => *range.start(),
            1 => *range.end(),
            2 => rng.between(*range.start(), *range.end()),
            _ => numbers[i].max(*range.start()),
        };
    }
    let quick_adapt_off = rng.one_in(4);
    let settings = Settings::from_numbers(numbers, first_psn(rng), quick_adapt_off);
    settings.with_evs(rng.pick(&[256, 256, 256, 512, 1_024, 2_048, 4_096]))
}

/// A log whose record 1 is refused, or that is empty. A path in its place names this flow.
fn bad_start(rng: &mut Rng, settings: Settings, named: Option<u8>) -> Vec<u8> {
    let mut numbers = settings.numbers();
    let i = rng.below(12) as usize;
    let range = Settings::ranges(numbers[0])[i].clone();
    numbers[i] = if rng.one_in(2) {
        range.end() + 1
    } else {
        range.start().saturating_sub(1)
    };
    let out_of_range = Settings::from_numbers(numbers, 0, false);
    let evs = settings.ev_count;
    let path = |time: u64, flow: Option<u8>| bytes_of(&Record::Path { time, flow });
    let first = match rng.below(6) {
        0 => return Vec::new(),
        1 => path(0, named),
        2 => bytes_of(&settings_record(&settings.with_evs(odd_count(rng)))),
        3 => told_usual(&settings),
        4 => told_usual(&out_of_range),
        _ => bytes_of(&settings_record(&out_of_range.with_evs(evs))),
    };
    [first, path(1, None)].concat()
}

/// A number of EVs that is not allowed.
fn odd_count(rng: &mut Rng) -> u32 {
    let any = rng.next_u32() | 1;
    rng.pick(&[0, 1, 128, 255, 257, 768, 4_095, 4_097, 8_192, 1 << 31, any])
}

/// Settings that say 256 EVs where they should say nothing.
fn told_usual(settings: &Settings) -> Vec<u8> {
    let mut bytes = bytes_of(&settings_record(&settings.with_evs(0)));
    let end = bytes.len() - 4;
    bytes[end..].copy_from_slice(&EVS_USUAL.to_le_bytes());
    bytes
}

/// A flow of the table; flow 0 where all records are of old kinds.
fn any_flow(sim: &mut Sim) -> usize {
    if sim.old_kinds {
        0
    } else {
        sim.rng.below(FLOWS as u64) as usize
    }
}

/// New data of a flow until its backlog is near the bound.
fn flood(sim: &mut Sim) {
    let flow = any_flow(sim);
    let bytes = u64::from(u32::MAX);
    while sim.flow(flow).backlog + bytes <= BACKLOG_MAX && !sim.full() {
        let (time, flow) = (sim.now, sim.named(flow));
        sim.emit(Record::NewData { time, flow, bytes });
    }
}

/// The smallest packets of a flow until its ring is full or the window closed.
fn fill(sim: &mut Sim) {
    let flow = any_flow(sim);
    fill_with(sim, flow, usize::MAX);
}

/// Several flows one after another, each full or in part.
fn fill_some(sim: &mut Sim) {
    for _ in 0..sim.rng.between(2, 6) {
        let flow = any_flow(sim);
        let part = sim.rng.below(CAPACITY as u64) as usize;
        let many = sim.rng.pick(&[usize::MAX, part, part / 8]);
        fill_with(sim, flow, many);
    }
}

/// Sends so many of the smallest packets, unless one is refused.
fn fill_with(sim: &mut Sim, flow: usize, many: usize) {
    let time = sim.now;
    let bytes = 100 * CAPACITY as u64;
    let named = sim.named(flow);
    sim.emit(Record::NewData {
        time,
        flow: named,
        bytes,
    });
    let (mut answer, mut sent) = (0, 0);
    while answer == 0 && sent < many && !sim.full() {
        let (psn, named) = (sim.flow(flow).next, sim.named(flow));
        let send = Record::Send {
            time,
            flow: named,
            size: 41,
            psn,
            resend: 0,
        };
        answer = sim.emit(send).number;
        sent += 1;
    }
}

/// The flow that a record is about: one of the table, mostly one that sends.
fn edge_about(sim: &mut Sim) -> usize {
    let sends = sim.talking() as u64;
    let many = if sim.old_kinds || !sim.rng.one_in(4) {
        sends
    } else {
        FLOWS as u64
    };
    if many == 1 {
        0
    } else {
        sim.rng.below(many) as usize
    }
}

/// The flow that a record names: mostly that which it is about; another; one past the table.
fn edge_name(sim: &mut Sim, about: usize) -> Option<u8> {
    if sim.old_kinds {
        return None;
    }
    match sim.rng.below(16) {
        0 => Some(past_table(&mut sim.rng)),
        1 => {
            let other = any_flow(sim);
            sim.named(other)
        }
        _ => sim.named(about),
    }
}

/// A record of any kind with fields that mean something to the present state, or nearly.
fn spoilt(sim: &mut Sim) -> Record {
    let time = edge_time(sim);
    let about = edge_about(sim);
    let flow = edge_name(sim, about);
    match sim.rng.below(12) {
        0 => Record::NewData {
            time,
            flow,
            bytes: edge_bytes(sim, about),
        },
        1..=3 => edge_send(sim, time, flow, about),
        4..=8 => edge_ack(sim, time, flow, about),
        9 => Record::Nack {
            time,
            flow,
            psn: edge_psn(sim, about),
            ev: edge_ev(sim),
            reason: sim.rng.pick(&[0, 0, 1, 1, 2, 2, 3, 255]),
            flags: sim.rng.below(4) as u8,
        },
        10 => Record::Loss {
            time,
            flow,
            psn: edge_psn(sim, about),
            ev: edge_ev(sim),
        },
        _ => Record::Path { time, flow },
    }
}

fn edge_time(sim: &mut Sim) -> u64 {
    let clock = sim.state.clock;
    match sim.rng.below(40) {
        0 => clock.wrapping_sub(1),
        1 => clock,
        2 => TIME_END,
        3 => u64::MAX,
        4 => 0,
        5 => clock + (1 << 20),
        6 if sim.rng.one_in(100) => TIME_END - 1,
        _ => sim.now,
    }
}

fn edge_bytes(sim: &mut Sim, about: usize) -> u64 {
    let widest = u64::from(u32::MAX);
    let left = BACKLOG_MAX - sim.flow(about).backlog;
    let bytes = [0, 1, 41, widest, left, left + 1];
    sim.rng.pick(&bytes).min(widest)
}

fn edge_psn(sim: &mut Sim, about: usize) -> u32 {
    let Flow { low, next, .. } = *sim.flow(about);
    let inside = low.wrapping_add(sim.rng.below(CAPACITY as u64) as u32);
    sim.rng.pick(&[
        low.wrapping_sub(1),
        low,
        next.wrapping_sub(1),
        next,
        next.wrapping_add(1),
        low.wrapping_add(CAPACITY as u32),
        next.wrapping_sub(1 + PSN_REACH),
        next.wrapping_sub(2 + PSN_REACH),
        inside,
        inside,
        inside,
    ])
}

fn edge_ev(sim: &mut Sim) -> u16 {
    let evs = sim.state.settings.ev_count as u16;
    let any = sim.rng.below(evs.into()) as u16;
    let edges = [0, 255, 256, evs - 1, evs, u16::MAX];
    let edge = sim.rng.pick(&edges);
    sim.rng.pick(&[edge, any])
}

fn edge_send(sim: &mut Sim, time: u64, flow: Option<u8>, about: usize) -> Record {
    let mtu = sim.state.settings.mtu as u32;
    let any = sim.rng.between(41, u64::from(mtu)) as u32;
    let Flow { next, backlog, .. } = *sim.flow(about);
    let over_backlog = (backlog as u32).saturating_add(1).min(mtu);
    let psn = edge_psn(sim, about);
    Record::Send {
        time,
        flow,
        size: sim
            .rng
            .pick(&[40, 41, 41, 41, mtu, mtu, mtu + 1, any, over_backlog]),
        psn: sim.rng.pick(&[psn, next, next, next]),
        resend: sim.rng.one_in(4).into(),
    }
}

fn edge_ack(sim: &mut Sim, time: u64, flow: Option<u8>, about: usize) -> Record {
    let cum = edge_psn(sim, about);
    let back = sim.flow(about).next.wrapping_sub(1).wrapping_sub(cum);
    let map = edge_map(sim, back);
    let any = edge_psn(sim, about);
    Record::Ack {
        time,
        flow,
        cum,
        map,
        trigger: sim.rng.pick(&[
            cum,
            cum,
            cum.wrapping_add(1),
            cum.wrapping_add(1 + map.trailing_zeros()),
            cum.wrapping_sub(PSN_REACH),
            cum.wrapping_sub(PSN_REACH + 1),
            any,
        ]),
        count: edge_count(sim, about),
        service: sim.rng.pick(&[0, 0, 0, 1, 50, 100, u32::MAX]),
        ev: edge_ev(sim),
        flags: sim.rng.below(4) as u8,
    }
}

fn edge_map(sim: &mut Sim, back: u32) -> u64 {
    let thin = sim.rng.next_u64() & sim.rng.next_u64();
    let sent = match back {
        0 => 0,
        1..=63 => (1 << back) - 1,
        _ => u64::MAX,
    };
    let furthest = sent ^ (sent >> 1);
    let beyond = 1u64.checked_shl(back).unwrap_or(0);
    sim.rng
        .pick(&[0, 1, sent, thin & sent, thin & sent, furthest, beyond, thin])
}

fn edge_count(sim: &mut Sim, about: usize) -> u32 {
    let held = sim.flow(about).held;
    let to_bound = (sim.state.in_flight - IN_FLIGHT_MIN) as u32 / 256;
    let step = sim.rng.below(64) as u32;
    let ahead = sim.rng.pick(&[
        0,
        1,
        step,
        step,
        step,
        COUNT_END - 1,
        (1 << 23) - 1,
        1 << 23,
        to_bound,
        to_bound + 1,
    ]);
    match sim.rng.below(16) {
        0 => sim.rng.pick(&[COUNT_END - 1, COUNT_END, u32::MAX]),
        _ => (held + ahead) % COUNT_END,
    }
}

/// Bytes at which a replay stops.
fn malformed(sim: &mut Sim) -> Vec<u8> {
    let record = spoilt(sim);
    let mut bytes = bytes_of(&record);
    match sim.rng.below(8) {
        0 => {
            let kind = sim.rng.pick(&[0u16, 7, 15, 17, 32, 39, 48, u16::MAX]);
            bytes[2..4].copy_from_slice(&kind.to_le_bytes());
        }
        1 => {
            // One byte too long.
            bytes[0] += 1;
            bytes.push(0);
        }
        2 => {
            // One byte too short.
            bytes[0] -= 1;
            bytes.pop();
        }
        3 => {
            let left = sim.rng.between(1, bytes.len() as u64 - 1) as usize;
            bytes.truncate(left);
        }
        4 => bytes[..2].copy_from_slice(&sim.rng.pick(&[0u16, 1, u16::MAX]).to_le_bytes()),
        5 => bytes = bytes_of(&settings_record(&sim.state.settings)),
        // The kind with a flow in place of the one without, or the other way round; not the length.
        6 => bytes[2] ^= 32,
        _ => bytes = unknown_bits(sim),
    }
    bytes
}

/// A send with a resend byte, or an ACK with flags, that no record may have: its last byte.
fn unknown_bits(sim: &mut Sim) -> Vec<u8> {
    let time = sim.now;
    let about = edge_about(sim);
    let flow = edge_name(sim, about);
    let (record, last) = if sim.rng.one_in(2) {
        (
            edge_send(sim, time, flow, about),
            sim.rng.pick(&[2, 3, 255]),
        )
    } else {
        (edge_ack(sim, time, flow, about), sim.rng.pick(&[4, 7, 128]))
    };
    let mut bytes = bytes_of(&record);
    bytes.pop();
    bytes.push(last);
    bytes
}

fn bytes_of(record: &Record) -> Vec<u8> {
    let mut bytes = Vec::new();
    // Every field fits its bytes.
    let _ = append(record, &mut bytes);
    bytes
}
