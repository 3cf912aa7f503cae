//! The marks as bits (M-109): ACKs, number 2 and what the ring shows, against a look at one slot
//! after the other.

use crate::rig::*;
use model::{Ack, Refusal, Rng, Status};

const NOW: u64 = 10_050;

/// A ring that is often full or nearly so, with low anywhere in a word, often across the ring's end
/// and 2^32.
fn ring(rng: &mut Rng) -> Rig {
    let capacity = rng.pick(&[64, 64, 128, 256, 1_024]);
    let most = capacity as u64;
    let (few, any) = (rng.below(70).min(most), rng.below(most + 1));
    let packets = rng.pick(&[most, most, most - 1, most - few, few, any]) as u32;
    let near_end = 0u32.wrapping_sub(rng.below(most + 70) as u32);
    let anywhere = rng.next_u32();
    let low = rng.pick(&[0, 63, 64, near_end, near_end, anywhere]);
    let mixes: [&[u8]; 4] = [
        &[FLYING],
        &[FLYING, FLYING, MARKED, DONE],
        &[DONE, DONE, DONE, DONE, DONE, DONE, DONE, FLYING],
        &[MARKED, MARKED, FLYING, DONE],
    ];
    let mix = rng.pick(&mixes);
    let mut slots: Vec<Slot> = (0..packets)
        .map(|_| {
            let (size, resent) = (rng.between(41, 4_096), rng.below(3));
            let sent = rng.below(10_000);
            (rng.pick(mix), size as u32, sent, resent as u8)
        })
        .collect();
    if let Some(first) = slots.first_mut() {
        first.0 = rng.pick(&[FLYING, MARKED]);
    }
    let mut rig = Rig::with_capacity(e(), capacity);
    rig.state.clock = 10_000;
    rig.lay(low, &slots)
}

/// The PSNs of low..next-1.
fn psns(rig: &Rig) -> impl Iterator<Item = u32> {
    let (low, next) = (rig.flow().low, rig.flow().next);
    (0..next.wrapping_sub(low)).map(move |i| low.wrapping_add(i))
}

/// An ACK that names sent packets only, of a cum in the ledger or somewhat below it.
fn any_ack(rng: &mut Rng, rig: &Rig) -> Ack {
    let (low, next) = (rig.flow().low, rig.flow().next);
    let packets = u64::from(next.wrapping_sub(low));
    let inside = low.wrapping_add(rng.below(packets + 1) as u32);
    let before = low.wrapping_sub(rng.below(130) as u32);
    let cum = rng.pick(&[inside, inside, before, next]).wrapping_sub(1);
    let back = next.wrapping_sub(1).wrapping_sub(cum);
    let sent = if back < 64 { (1 << back) - 1 } else { u64::MAX };
    let any = rng.next_u64();
    Ack {
        map: rng.pick(&[0, any, any, u64::MAX, 1 << 63, 1]) & sent,
        ..ack(NOW, cum, 0)
    }
}

/// The ledger after the ACK: one PSN after the other, by the words of 01.
fn delivered(rig: &Rig, ack: &Ack) -> Rig {
    let mut after = rig.clone();
    for psn in psns(rig) {
        let ahead = i64::from(psn.wrapping_sub(ack.cum).cast_signed());
        let covered = ahead <= 0 || (ahead <= 64 && ack.map >> (ahead - 1) & 1 == 1);
        if covered {
            let (_, size, sent, resent) = rig.slot(psn);
            after.put(psn, (DONE, size, sent, resent));
        }
    }
    for psn in psns(rig) {
        if after.status(psn) != DONE {
            break;
        }
        after.put(psn, (EMPTY, 0, 0, 0));
        after.flow_mut().low = psn.wrapping_add(1);
    }
    after.settle();
    after
}

#[test]
fn acks_by_words() {
    let mut rng = Rng::new(109);
    let (mut full, mut old, mut passed) = (0, 0, 0);
    for _ in 0..20_000 {
        let mut rig = ring(&mut rng);
        let ack = any_ack(&mut rng, &rig);
        let expected = delivered(&rig, &ack);
        let before = *rig.flow();
        rig.accept(ack);
        assert_eq!(rig.memory, expected.memory, "{ack:?}");
        let (state, expected) = (&rig.state, &expected.state);
        assert_eq!(
            (state.flying, state.marked, state.marked_bytes),
            (expected.flying, expected.marked, expected.marked_bytes)
        );
        let span = before.next.wrapping_sub(before.low);
        full += u32::from(span as usize == rig.capacity());
        // The map starts below low, and reaches into the ledger or up to it.
        let below = before.low.wrapping_sub(1).wrapping_sub(ack.cum);
        old += u32::from(ack.map != 0 && (1..64).contains(&below));
        passed += u32::from(rig.flow().low.wrapping_sub(before.low) > 64);
    }
    assert!(full > 3_000 && old > 1_000 && passed > 1_000);
}

/// The last packet of a full ring shares a word with low.
#[test]
fn a_full_ring_of_one_word() {
    for low in [10, 63, 4_294_967_290u32] {
        let mut rig = Rig::e().lay(low, &[(FLYING, 100, 9_000, 0); 64]);
        // All but low and the last two.
        rig.accept(Ack {
            map: u64::MAX >> 2 & !1,
            ..ack(NOW, low.wrapping_sub(1), 0)
        });
        assert_eq!((rig.flow().low, rig.state.flying), (low, 3));
        rig.accept(ack(NOW, low, 0));
        let last = low.wrapping_add(63);
        assert_eq!(rig.flow().low, last.wrapping_sub(1));
        assert_eq!(rig.state.flying, 2);
        rig.accept(ack(NOW, last, 0));
        assert_eq!(
            (rig.flow().low, rig.state.flying),
            (last.wrapping_add(1), 0)
        );
        let mut empty = Rig::e().memory;
        (empty.flows[0].low, empty.flows[0].next) = (last.wrapping_add(1), last.wrapping_add(1));
        assert_eq!(rig.memory, empty);
    }
}

/// Number 2 of the bits, slot by slot.
fn bits_good(rig: &Rig) -> bool {
    let (low, next) = (rig.flow().low, rig.flow().next);
    let packets = next.wrapping_sub(low);
    (0..rig.capacity() as u32).all(|i| {
        let slot = low.wrapping_add(i) as usize % rig.capacity();
        let outstanding = is_set(&rig.memory.outstanding, slot);
        let marked = is_set(&rig.memory.marked, slot);
        match (outstanding, marked) {
            (false, true) => false,
            (false, false) => i > 0 || packets == 0,
            (true, _) => i < packets,
        }
    })
}

/// Totals as the bits have them, whether or not these are good.
fn total(rig: &mut Rig) {
    let (mut flying, mut marked, mut bytes) = (0, 0, 0);
    for slot in 0..rig.capacity() {
        if is_set(&rig.memory.marked, slot) {
            marked += 1;
            bytes += u64::from(rig.memory.sizes[slot] % 65_536);
        } else if is_set(&rig.memory.outstanding, slot) {
            flying += 1;
        }
    }
    let state = &mut rig.state;
    (state.flying, state.marked, state.marked_bytes) = (flying, marked, bytes);
    rig.rename();
}

#[test]
fn number_two_by_words() {
    let mut rng = Rng::new(2);
    let mut verdicts = [0, 0];
    for _ in 0..20_000 {
        let mut rig = ring(&mut rng);
        let packets = rig.flow().next.wrapping_sub(rig.flow().low);
        for _ in 0..rng.below(4) {
            // Mostly at the edges of low..next-1.
            let near = rng.below(3) as u32;
            let any = rng.next_u32();
            let psn = rng.pick(&[near, packets.wrapping_add(near), any]);
            let psn = rig.flow().low.wrapping_add(psn).wrapping_sub(1);
            let slot = psn as usize % rig.capacity();
            let memory = &mut rig.memory;
            let words = match rng.below(2) {
                0 => &mut memory.outstanding,
                _ => &mut memory.marked,
            };
            words[slot / 64] ^= 1 << (slot % 64);
        }
        total(&mut rig);
        let good = bits_good(&rig);
        assert_eq!(rig.holds(), good, "{rig:?}");
        verdicts[usize::from(good)] += 1;
    }
    assert!(verdicts.iter().all(|&times| times > 4_000), "{verdicts:?}");
}

#[test]
fn what_the_ring_shows() {
    let mut rng = Rng::new(7);
    for _ in 0..3_000 {
        let mut rig = ring(&mut rng);
        let before = rig.clone();
        let (low, next) = (rig.flow().low, rig.flow().next);
        let all: Vec<u32> = psns(&rig).collect();
        for _ in 0..20 {
            let inside = low.wrapping_add(rng.below(all.len() as u64 + 2) as u32);
            let far = rng.next_u32();
            let around = rig.capacity() as u32;
            let psn = rng.pick(&[
                inside,
                inside,
                low.wrapping_sub(1),
                next.wrapping_sub(1),
                next,
                inside.wrapping_add(around),
                inside.wrapping_sub(around),
                far,
            ]);
            let expected = match before.status(psn) {
                _ if !all.contains(&psn) => None,
                FLYING => Some(Status::Flying),
                MARKED => Some(Status::Marked),
                _ => Some(Status::Done),
            };
            let lent = rig.memory.lend();
            assert_eq!(rig.state.status(&lent, 0, psn), Ok(expected));
            let behind = all.iter().skip_while(|&&each| each != psn);
            let first = behind.copied().find(|&each| before.status(each) == MARKED);
            let first = first.unwrap_or(next);
            assert_eq!(rig.state.next_marked(&lent, 0, psn), Ok(first));
        }
        assert_eq!(rig, before);
    }
}

#[test]
fn readings_of_a_fresh_state() {
    let mut rig = Rig::e();
    let lent = rig.memory.lend();
    assert_eq!(rig.state.status(&lent, 0, 0), Ok(None));
    assert_eq!(rig.state.next_marked(&lent, 0, 0), Ok(0));
    rig.state.cwnd = 0;
    assert_eq!(rig.state.status(&lent, 0, 0), Err(Refusal::NotTogether));
    assert_eq!(
        rig.state.next_marked(&lent, 0, 0),
        Err(Refusal::NotTogether)
    );
}
