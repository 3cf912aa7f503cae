//! Logs for both sides, and their records.

use crate::numbers::{any_ev_count, edge, lent_evs};
use model::replay::evs_lent;
use model::{gen, parse, Rng};

/// A log of any generator, for the program's flows.
pub fn generated(rng: &mut Rng, records: usize) -> Vec<u8> {
    let seed = rng.next_u64();
    match rng.below(14) {
        0 => gen::traffic(seed, records),
        1 => gen::lossy(seed, records),
        2 => gen::marked(seed, records),
        3 => gen::bulk(seed, records),
        4 | 5 => gen::wide(seed, records),
        6..=9 => gen::flows(seed, records),
        _ => gen::hostile(seed, records),
    }
}

/// How many EV times to lend to a log: mostly as many as the program does.
pub fn evs_for(rng: &mut Rng, log: &[u8]) -> usize {
    lent_evs(rng, evs_lent(log) as u32)
}

/// One seed in so many has a long log.
pub const LONG_EVERY: u64 = 400;

/// A log in which the received count wraps, of 6 MiB.
pub fn long(seed: u64) -> Vec<u8> {
    gen::bulk(seed, 300_000)
}

/// The log's pieces: a record each, and what is left where a record is malformed.
pub fn pieces(log: &[u8]) -> Vec<Vec<u8>> {
    let mut pieces = Vec::new();
    let mut at = 0;
    while let Ok(Some((_, after))) = parse(log, at) {
        pieces.push(log[at..after].to_vec());
        at = after;
    }
    if at < log.len() {
        pieces.push(log[at..].to_vec());
    }
    pieces
}

/// Some bytes or records changed, left out, doubled or exchanged.
pub fn damage(rng: &mut Rng, log: &[u8]) -> Vec<u8> {
    let mut pieces = pieces(log);
    for _ in 0..rng.below(8) {
        let many = pieces.len() as u64;
        if many == 0 {
            break;
        }
        // The first record sets up, and is worth more than its share.
        let many = if rng.one_in(16) { 1 } else { many };
        let (i, j) = (rng.below(many) as usize, rng.below(many) as usize);
        match rng.below(12) {
            0 => pieces.swap(i, j),
            1 => {
                let again = pieces[i].clone();
                pieces.insert(j, again);
            }
            2 => {
                pieces.remove(i);
            }
            3..=5 => change_flow(rng, &mut pieces[i]),
            _ => damage_piece(rng, &mut pieces[i]),
        }
    }
    if let Some(first) = pieces.first_mut().filter(|_| rng.one_in(8)) {
        recount(rng, first);
    }
    let mut log = pieces.concat();
    match rng.below(8) {
        0 => log.truncate(rng.below(log.len() as u64 + 1) as usize),
        // A cut end.
        1 => log.resize(log.len() + rng.between(1, 4) as usize, edge(rng) as u8),
        _ => {}
    }
    log
}

/// Settings say another EV count, or none; their length is that of the longer record, or the other.
fn recount(rng: &mut Rng, piece: &mut Vec<u8>) {
    const SHORT: usize = 57;
    if piece.len() < SHORT || piece[2..4] != [16, 0] {
        return;
    }
    piece.truncate(SHORT);
    if !rng.one_in(4) {
        let count = rng.pick(&[256, 256, 255, 8_192, u32::MAX]);
        let other = any_ev_count(rng);
        piece.extend(rng.pick(&[count, other]).to_le_bytes());
    }
    let told = piece.len() as u8 - 2;
    piece[0] = rng.pick(&[told, told, told, told, told, told, 55, 59]);
}

/// What a kind of record with a flow has above that of the same record without one.
const WITH_FLOW: u8 = 32;
/// Where the flow stands: behind length, kind and time.
const FLOW_AT: usize = 12;

/// The record of an event names a flow, another one, or none; or its kind says so, and its length
/// does not.
fn change_flow(rng: &mut Rng, piece: &mut Vec<u8>) {
    // A path choice without a flow ends where the flow would stand.
    let Some(&kind) = piece.get(2).filter(|_| piece.len() >= FLOW_AT) else {
        return;
    };
    let old = (1..=6).contains(&kind);
    let named = kind > WITH_FLOW && kind <= WITH_FLOW + 6 && piece.len() > FLOW_AT;
    let any = edge(rng) as u8;
    let flow = rng.pick(&[0, 1, 2, 7, 8, 255, any]);
    match rng.below(8) {
        0 => piece[2] ^= WITH_FLOW,
        1..=3 if named => {
            piece.remove(FLOW_AT);
            piece[0] = piece[0].wrapping_sub(1);
            piece[2] -= WITH_FLOW;
        }
        _ if named => piece[FLOW_AT] = flow,
        _ if old => {
            piece.insert(FLOW_AT, flow);
            piece[0] = piece[0].wrapping_add(1);
            piece[2] += WITH_FLOW;
        }
        _ => {}
    }
}

/// Fields change more often than lengths and kinds, since replay stops at those. The last byte often
/// has flags.
fn damage_piece(rng: &mut Rng, piece: &mut Vec<u8>) {
    let many = piece.len() as u64;
    let from = if rng.one_in(12) { 0 } else { 4 };
    if many <= from {
        return;
    }
    let any = rng.between(from, many - 1);
    let i = rng.pick(&[any, any, many - 1]) as usize;
    match rng.below(16) {
        0 => {
            piece.remove(i);
        }
        1 => piece.insert(i, edge(rng) as u8),
        2..=5 => piece[i] = rng.below(6) as u8,
        6..=10 => piece[i] ^= 1 << rng.below(8),
        _ => piece[i] = edge(rng) as u8,
    }
}
