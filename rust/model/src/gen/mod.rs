//! Generators of event logs, from a seed and a length in records.

mod hostile;
mod traffic;

pub use hostile::hostile;
pub use traffic::{flows, lossy, marked, narrow, traffic, wide, winding};

use crate::bounds::{COUNT_END, UNIT};
use crate::log::{append, Record, QUICK_ADAPT_OFF};
use crate::replay::{CAPACITY, FLOWS};
use crate::rng::Rng;
use crate::settings::Settings;

/// The settings E of 01.
pub const E: [u64; 12] = [
    4096, 614_400, 96, 72, 4096, 1024, 224, 819, 512, 96, 32_768, 288,
];

pub(crate) fn settings_record(settings: &Settings) -> Record {
    Record::Settings {
        numbers: settings.numbers(),
        first_psn: settings.first_psn,
        flags: if settings.quick_adapt_off {
            QUICK_ADAPT_OFF
        } else {
            0
        },
        ev_count: settings.ev_count,
    }
}

/// A first PSN: 0, anywhere, or so near 2^32 that it soon wraps.
fn first_psn(rng: &mut Rng) -> u32 {
    match rng.below(3) {
        0 => 0,
        1 => rng.next_u32(),
        _ => near_wrap(rng),
    }
}

/// A first PSN so near 2^32 that a flow comes to the wrap before its ring is full.
fn near_wrap(rng: &mut Rng) -> u32 {
    u32::MAX - rng.below(200) as u32
}

/// A flow that the program does not have: the first, the last that a record can name, or any.
fn past_table(rng: &mut Rng) -> u8 {
    let first = FLOWS as u8;
    let any = rng.between(FLOWS as u64, 255) as u8;
    rng.pick(&[first, first, first + 1, any, 255])
}

/// Large packets by the program's ring and one ACK for all of them: the shortest way to a received
/// count that wraps, after some 270,000 records. They are of flow 0, by the old kinds.
pub fn bulk(seed: u64, records: usize) -> Vec<u8> {
    const MTU: u32 = 16_384;
    const RING: u32 = CAPACITY as u32;
    let mut rng = Rng::new(seed);
    let mut numbers = E;
    numbers[0] = u64::from(MTU);
    numbers[1] = 1 << 26;
    let settings = Settings::from_numbers(numbers, first_psn(&mut rng), true);
    let mut next = settings.first_psn;
    let mut time = 0;
    let mut units = 0u64;

    let mut batch = vec![settings_record(&settings)];
    let mut log = Vec::new();
    let mut written = 0;
    while written < records {
        let bytes = u64::from(RING * MTU);
        let flow = None;
        batch.push(Record::NewData { time, flow, bytes });
        for _ in 0..RING {
            time += rng.below(3);
            batch.push(Record::Send {
                time,
                flow,
                size: MTU,
                psn: next,
                resend: 0,
            });
            next = next.wrapping_add(1);
        }
        time += rng.between(90, 200);
        units += bytes / UNIT;
        let last = next.wrapping_sub(1);
        batch.push(Record::Ack {
            time,
            flow,
            cum: last,
            map: 0,
            trigger: last,
            count: (units % u64::from(COUNT_END)) as u32,
            service: 0,
            ev: 0,
            flags: 0,
        });
        for record in batch.drain(..).take(records - written) {
            // Every field fits its bytes.
            let _ = append(&record, &mut log);
            written += 1;
        }
    }
    log
}
