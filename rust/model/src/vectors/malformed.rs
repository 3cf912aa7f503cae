//! Malformed logs. All but those about record 1 start with settings E, and a good record follows
//! the malformed one, where that is no cut end: it is not looked at.

use super::build::*;
use super::Vector;
use crate::log::Record;

pub(super) fn logs() -> Vec<Vector> {
    let mut logs = wrong_lengths();
    logs.extend(no_kind());
    logs.extend(unknown_kinds());
    logs.extend(unknown_bits());
    logs.extend(cut_ends());
    logs.extend(settings_place());
    logs.extend(offsets());
    logs
}

/// A well-formed record of each kind but settings.
fn events() -> [(&'static str, Record); 6] {
    [
        ("new-data", data(0, 100)),
        ("send", send(0, 0, 41)),
        ("ack", ack(0, NONE, 0)),
        ("nack", nack(0, 0, 2)),
        ("loss", loss(0, 0)),
        ("path", path(0)),
    ]
}

/// The same of the kinds that name a flow.
fn events_of_flow() -> [(String, Record); 6] {
    events().map(|(name, record)| (format!("flow-{name}"), record.of(1)))
}

/// Settings E, the malformed record and a good one.
fn second(name: &str, malformed: Vec<u8>) -> Vector {
    raw(name, [bytes_of(e()), malformed, bytes_of(path(0))])
}

/// The malformed record in the place of the settings, and a good one.
fn first(name: &str, malformed: Vec<u8>) -> Vector {
    raw(name, [malformed, bytes_of(path(0))])
}

/// One byte less and one more than the kind's length, and the length says so.
fn wrong_lengths() -> Vec<Vector> {
    let mut logs = Vec::new();
    let plain = events().map(|(name, record)| (name.to_string(), record));
    for (name, record) in plain.into_iter().chain(events_of_flow()) {
        logs.push(second(&format!("{name}-short"), shorter(record)));
        logs.push(second(&format!("{name}-long"), longer(record)));
    }
    logs.push(first("settings-short", shorter(e())));
    logs.push(first("settings-long", longer(e())));
    logs
}

fn shorter(record: Record) -> Vec<u8> {
    let mut bytes = bytes_of(record);
    bytes.pop();
    bytes[0] -= 1;
    bytes
}

fn longer(record: Record) -> Vec<u8> {
    let mut bytes = bytes_of(record);
    bytes.push(0);
    bytes[0] += 1;
    bytes
}

/// A length of 0 and of 1, too short for a kind.
fn no_kind() -> Vec<Vector> {
    vec![
        second("length-0", vec![0, 0]),
        second("length-1", vec![1, 0, 6]),
    ]
}

/// Kinds beside the known ones, and one whose first byte alone is known.
fn unknown_kinds() -> Vec<Vector> {
    [0, 15, 17, 32, 39, 0x106]
        .map(|kind: u16| {
            let mut bytes = bytes_of(path(0));
            bytes[2..4].copy_from_slice(&kind.to_le_bytes());
            second(&format!("kind-{kind}"), bytes)
        })
        .to_vec()
}

/// The lowest unknown flag bit, and a resend byte of 2. Each is its record's last byte.
fn unknown_bits() -> Vec<Vector> {
    vec![
        second("ack-flags", with_last_byte(ack(0, NONE, 0), 4)),
        second("nack-flags", with_last_byte(nack(0, 0, 2), 4)),
        first("settings-flags", with_last_byte(e(), 2)),
        second("resend-byte", with_last_byte(send(0, 0, 41), 2)),
        second("flow-ack-flags", with_last_byte(ack(0, NONE, 0).of(1), 4)),
        second("flow-nack-flags", with_last_byte(nack(0, 0, 2).of(1), 4)),
        second("flow-resend-byte", with_last_byte(send(0, 0, 41).of(1), 2)),
    ]
}

fn with_last_byte(record: Record, byte: u8) -> Vec<u8> {
    let mut bytes = bytes_of(record);
    bytes.pop();
    bytes.push(byte);
    bytes
}

/// The log ends after 1, 2 and 3 bytes of a record, after its kind, before its last byte, and at its
/// end where its length says one more.
fn cut_ends() -> Vec<Vector> {
    let whole = bytes_of(data(0, 100));
    let cut = |name: &str, bytes: &[u8]| raw(name, [bytes_of(e()), bytes.to_vec()]);
    vec![
        cut("cut-1", &whole[..1]),
        cut("cut-2", &whole[..2]),
        cut("cut-3", &whole[..3]),
        cut("cut-4", &whole[..4]),
        cut("cut-last", &whole[..whole.len() - 1]),
        cut("cut-long", &longer(data(0, 100))[..whole.len()]),
    ]
}

/// Settings twice, and each other kind of 01 as record 1, and one that names a flow.
fn settings_place() -> Vec<Vector> {
    let mut logs = vec![second("settings-twice", bytes_of(e()))];
    for (name, record) in events() {
        logs.push(first(&format!("first-{name}"), bytes_of(record)));
    }
    logs.push(first("first-flow-path", bytes_of(path(0).of(0))));
    logs
}

/// Settings that are cut; and, after some or all of the events, one of which is refused, a record
/// that is too long, settings, and unknown flags.
fn offsets() -> Vec<Vector> {
    let settings = bytes_of(e());
    let cut = |name: &str, left: usize| raw(name, [settings[..left].to_vec()]);
    let after = |name: &str, many: usize, malformed: Vec<u8>| {
        let mut records = vec![settings.clone()];
        let events = events().map(|(_, record)| bytes_of(record));
        records.extend(events.into_iter().take(many));
        records.extend([malformed, bytes_of(path(0))]);
        raw(name, records)
    };
    vec![
        cut("settings-cut-1", 1),
        cut("settings-cut-last", settings.len() - 1),
        after("offset-73", 1, longer(path(0))),
        after("offset-133", 3, settings.clone()),
        after("offset-183", 6, with_last_byte(nack(0, 0, 2), 4)),
    ]
}
