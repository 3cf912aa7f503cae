//! The worked example of 01, from bytes put together here.

use model::replay;

const HEADER: &str = "rec ans inflight cwnd flying waiting backlog state\n";

/// A record of the given kind: its length is that of the kind and the fields.
pub fn record(kind: u16, fields: &[&[u8]]) -> Vec<u8> {
    let body = fields.concat();
    let length = body.len() as u16 + 2;
    [&length.to_le_bytes()[..], &kind.to_le_bytes(), &body].concat()
}

pub fn settings_e() -> Vec<u8> {
    record(16, &[&numbers_e(), &[0]])
}

/// The longer record, which says how many EVs there are.
pub fn settings_e_with(evs: u32) -> Vec<u8> {
    record(16, &[&numbers_e(), &[0], &evs.to_le_bytes()])
}

fn numbers_e() -> Vec<u8> {
    let numbers: [u32; 13] = [
        4096, 614_400, 96, 72, 4096, 1024, 224, 819, 512, 96, 32_768, 288, 0,
    ];
    numbers.iter().flat_map(|n| n.to_le_bytes()).collect()
}

pub fn new_data(time: u64, bytes: u32) -> Vec<u8> {
    record(1, &[&time.to_le_bytes(), &bytes.to_le_bytes()])
}

pub fn send(time: u64, size: u32, psn: u32) -> Vec<u8> {
    let (size, psn) = (size.to_le_bytes(), psn.to_le_bytes());
    record(2, &[&time.to_le_bytes(), &size, &psn, &[0]])
}

fn example_ack() -> Vec<u8> {
    record(
        3,
        &[
            &110u64.to_le_bytes(),
            &0u32.to_le_bytes(),  // cum
            &0u64.to_le_bytes(),  // map
            &0u32.to_le_bytes(),  // trigger
            &16u32.to_le_bytes(), // count
            &4u32.to_le_bytes(),  // service
            &0u16.to_le_bytes(),  // EV
            &[0],                 // flags
        ],
    )
}

#[test]
fn the_worked_example() {
    let log = [
        settings_e(),
        new_data(0, 8192),
        send(10, 4096, 0),
        send(20, 4096, 2),
        example_ack(),
    ]
    .concat();
    assert_eq!(
        replay(&log),
        "rec ans inflight cwnd flying waiting backlog state\n\
         1 0 0 614400 0 0 0 IDLE\n\
         2 0 0 614400 0 0 8192 READY\n\
         3 0 4096 614400 1 0 4096 READY\n\
         4 8 4096 614400 1 0 4096 READY\n\
         5 0 0 614400 0 0 4096 READY s\n"
    );
}

#[test]
fn an_empty_log_prints_the_header() {
    assert_eq!(replay(&[]), HEADER);
}

#[test]
fn an_accepted_path_line_ends_with_the_ev() {
    let path = |time: u64| record(6, &[&time.to_le_bytes()]);
    let log = [settings_e(), path(5), path(4), path(5)].concat();
    let lines = "1 0 0 614400 0 0 0 IDLE\n\
                 2 0 0 614400 0 0 0 IDLE 0\n\
                 3 3 0 614400 0 0 0 IDLE\n\
                 4 0 0 614400 0 0 0 IDLE 1\n";
    assert_eq!(replay(&log), format!("{HEADER}{lines}"));
}

#[test]
fn all_state_names_and_a_negative_in_flight() {
    let ack = |time: u64, cum: u32, count: u32| {
        let (cum, count) = (cum.to_le_bytes(), count.to_le_bytes());
        let zeros = [0; 7];
        record(
            3,
            &[&time.to_le_bytes(), &cum, &[0; 8], &cum, &count, &zeros],
        )
    };
    let loss = |time: u64, psn: u32| record(5, &[&time.to_le_bytes(), &psn.to_le_bytes(), &[0; 2]]);
    let mut numbers = settings_e();
    numbers[8..12].copy_from_slice(&8192u32.to_le_bytes()); // MaxWnd of two packets
    let log = [
        numbers,
        new_data(0, 8192),
        send(1, 4096, 0),
        send(2, 4096, 1),
        new_data(3, 100),
        send(3, 100, 2),
        ack(97, 0, 48),
        send(98, 100, 2),
        loss(99, 1),
    ]
    .concat();
    // Record 7 reports 12,288 of the 8,192 bytes sent; its sample is 96, so the ceiling stays. The
    // loss of record 9 takes 4,096 more from in-flight, and as much from cwnd.
    let lines = "1 0 0 8192 0 0 0 IDLE\n\
                 2 0 0 8192 0 0 8192 READY\n\
                 3 0 4096 8192 1 0 4096 READY\n\
                 4 0 8192 8192 2 0 0 PENDING\n\
                 5 0 8192 8192 2 0 100 ACTIVE\n\
                 6 6 8192 8192 2 0 100 ACTIVE\n\
                 7 0 -4096 8192 1 0 100 READY s\n\
                 8 0 -3996 8192 2 0 0 PENDING\n\
                 9 0 -8092 4096 1 1 0 READY\n";
    assert_eq!(replay(&log), format!("{HEADER}{lines}"));
}
