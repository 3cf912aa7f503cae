//! The run report (M-105): logs whose figures were worked out by hand, and generated logs against a
//! second way of counting, by the printed lines.

use crate::example::{new_data, record, send, settings_e};
use model::vectors::{bundled, examples};
use model::{gen, replay, report, Reader, Record, Report, Rng};
use std::collections::BTreeMap;

const RETX: u8 = 2;
/// The PSN before the first.
const NONE: u32 = u32::MAX;
const MOST: u64 = 1 << 20;

fn resend(time: u64, size: u32, psn: u32) -> Vec<u8> {
    let (size, psn) = (size.to_le_bytes(), psn.to_le_bytes());
    record(2, &[&time.to_le_bytes(), &size, &psn, &[1]])
}

/// An ACK up to `cum` with any trigger and count.
fn any_ack(time: u64, cum: u32, trigger: u32, count: u32, service: u32, flags: u8) -> Vec<u8> {
    record(
        3,
        &[
            &time.to_le_bytes(),
            &cum.to_le_bytes(),
            &0u64.to_le_bytes(), // map
            &trigger.to_le_bytes(),
            &count.to_le_bytes(),
            &service.to_le_bytes(),
            &0u16.to_le_bytes(), // EV
            &[flags],
        ],
    )
}

/// An ACK up to `psn`, which is its trigger.
fn ack(time: u64, psn: u32, service: u32) -> Vec<u8> {
    any_ack(time, psn, psn, 0, service, 0)
}

fn nack(time: u64, psn: u32, reason: u8, flags: u8) -> Vec<u8> {
    let psn = psn.to_le_bytes();
    record(4, &[&time.to_le_bytes(), &psn, &[0; 2], &[reason, flags]])
}

fn loss(time: u64, psn: u32, ev: u16) -> Vec<u8> {
    let (psn, ev) = (psn.to_le_bytes(), ev.to_le_bytes());
    record(5, &[&time.to_le_bytes(), &psn, &ev])
}

fn path(time: u64) -> Vec<u8> {
    record(6, &[&time.to_le_bytes()])
}

/// Settings E, and packets of 100 bytes sent at 10: PSNs from 0 on. All accepted.
fn sent(packets: u32) -> Vec<u8> {
    let mut log = [settings_e(), new_data(0, 100 * packets)].concat();
    log.extend((0..packets).flat_map(|psn| send(10, 100, psn)));
    log
}

/// The report's text must be these lines.
#[track_caller]
fn prints(log: &[u8], lines: &[&str]) {
    let expected: String = lines.iter().map(|line| format!("{line}\n")).collect();
    assert_eq!(report(log).to_string(), expected);
}

#[test]
fn the_worked_example() {
    let log = [
        settings_e(),
        new_data(0, 8192),
        send(10, 4096, 0),
        send(20, 4096, 2),
        any_ack(110, 0, 0, 16, 4, 0),
    ]
    .concat();
    // The refused send has sent nothing. 110 - 10 - 4 is from 64 to 127.
    prints(
        &log,
        &[
            "accepted 4",
            "refused 8 1",
            "taken 1",
            "cut 0",
            "gone 0",
            "ambiguous 0",
            "not-positive 0",
            "least 96",
            "greatest 96",
            "bucket 6 1",
            "new 4096",
            "again 0",
        ],
    );
}

/// The lines where nothing was sampled; `more` are those of the refusals.
fn without_samples<'a>(accepted: &'a str, more: &[&'a str]) -> Vec<&'a str> {
    let figures = ["taken 0", "cut 0", "gone 0", "ambiguous 0"];
    let rest = ["not-positive 0", "least 0", "greatest 0"];
    [&[accepted], more, &figures, &rest].concat()
}

#[test]
fn an_empty_log_has_figures_of_0() {
    let lines = without_samples("accepted 0", &[]);
    prints(&[], &[&lines[..], &["new 0", "again 0"]].concat());
    assert_eq!(report(&[]), Report::default());
}

#[test]
fn a_refused_first_record_is_all_that_counts() {
    let mut mtu_too_small = settings_e();
    mtu_too_small[4..8].copy_from_slice(&1_023u32.to_le_bytes());
    let cases = [
        (mtu_too_small, "refused 1 1"),
        (new_data(0, 100), "refused 12 1"),
        (vec![55], "refused 12 1"),
    ];
    for (first, refused) in cases {
        let log = [first, sent(1)].concat();
        let lines = without_samples("accepted 0", &[refused]);
        prints(&log, &[&lines[..], &["new 0", "again 0"]].concat());
    }
}

#[test]
fn a_malformed_record_counts_once_and_ends_the_log() {
    let unknown_kind = record(7, &[&[0; 8]]);
    let unknown_flag = nack(20, 0, 0, 4);
    let resend_byte = record(2, &[&[0; 16], &[2]]);
    let settings_again = settings_e();
    let lines = without_samples("accepted 3", &["refused 12 1"]);
    let lines = [&lines[..], &["new 100", "again 0"]].concat();
    for fault in [unknown_kind, unknown_flag, resend_byte, settings_again] {
        prints(&[sent(1), fault, ack(20, 0, 0), path(30)].concat(), &lines);
    }
    let cut_end = ack(20, 0, 0)[..38].to_vec();
    prints(&[sent(1), cut_end].concat(), &lines);
}

#[test]
fn a_cut_sample_counts_as_one_of_2_to_the_20() {
    let log = [
        sent(4),
        ack(15, 0, 0),
        ack(10 + MOST, 1, 0), // not cut
        ack(11 + MOST, 2, 0),
        ack(1 << 40, 3, 0),
    ]
    .concat();
    prints(
        &log,
        &[
            "accepted 10",
            "taken 2",
            "cut 2",
            "gone 0",
            "ambiguous 0",
            "not-positive 0",
            "least 5",
            "greatest 1048576",
            "bucket 2 1",
            "bucket 20 3",
            "new 400",
            "again 0",
        ],
    );
}

#[test]
fn a_cut_sample_alone_is_the_least_too() {
    let log = [sent(1), nack(11 + MOST, 0, 2, 0)].concat();
    let figures = report(&log);
    assert_eq!((figures.taken, figures.cut), (0, 1));
    assert_eq!((figures.least, figures.greatest), (MOST, MOST));
    assert_eq!(figures.buckets[20], 1);
}

#[test]
fn a_packet_that_is_gone() {
    let log = [settings_e(), ack(5, NONE, 0)].concat();
    prints(
        &log,
        &[
            "accepted 2",
            "taken 0",
            "cut 0",
            "gone 1",
            "ambiguous 0",
            "not-positive 0",
            "least 0",
            "greatest 0",
            "new 0",
            "again 0",
        ],
    );
}

#[test]
fn an_ambiguous_resend() {
    let log = [sent(1), loss(20, 0, 0), resend(30, 100, 0), ack(50, 0, 0)].concat();
    prints(
        &log,
        &[
            "accepted 6",
            "taken 0",
            "cut 0",
            "gone 0",
            "ambiguous 1",
            "not-positive 0",
            "least 0",
            "greatest 0",
            "new 100",
            "again 100",
        ],
    );
}

#[test]
fn a_round_trip_that_is_not_positive() {
    let log = [sent(2), ack(20, 0, 10), ack(20, 1, 11)].concat();
    prints(
        &log,
        &[
            "accepted 6",
            "taken 0",
            "cut 0",
            "gone 0",
            "ambiguous 0",
            "not-positive 2",
            "least 0",
            "greatest 0",
            "new 200",
            "again 0",
        ],
    );
}

/// Every kind by ACKs, and by NACKs as far as they can have it; no two of the five counts are alike.
#[test]
fn all_kinds_of_samples_in_one_log() {
    let log = [
        sent(9),
        nack(10, 7, 2, 0),    // not positive
        ack(20, 0, 10),       // not positive
        ack(21, 1, 12),       // not positive
        ack(21, 1, 0),        // gone
        ack(30, 2, 0),        // 20
        nack(31, 8, 1, 0),    // 21
        nack(31, 3, 0, RETX), // ambiguous
        loss(32, 4, 0),       // none
        resend(40, 100, 4),
        ack(41, 4, 0), // ambiguous
        resend(42, 100, 7),
        nack(43, 7, 2, RETX),  // 1
        nack(50, 7, 2, RETX),  // refused: it is marked
        ack(51, 5, 0),         // 41
        ack(12 + MOST, 6, 0),  // cut
        ack(12 + MOST, 9, 0),  // refused: it is unsent
        ack(12 + MOST, 6, 0),  // gone
        ack(12 + MOST, 5, 0),  // gone
        ack(12 + MOST, 4, 0),  // gone
        ack(12 + MOST, 3, 0),  // gone
        ack(12 + MOST, 2, 0),  // gone
        ack(12 + MOST, 8, 90), // 2^20 + 2 - 90: it is marked
    ]
    .concat();
    prints(
        &log,
        &[
            "accepted 31",
            "refused 9 1",
            "refused 10 1",
            "taken 5",
            "cut 1",
            "gone 6",
            "ambiguous 2",
            "not-positive 3",
            "least 1",
            "greatest 1048576",
            "bucket 0 1",
            "bucket 4 2",
            "bucket 5 1",
            "bucket 19 1",
            "bucket 20 1",
            "new 900",
            "again 200",
        ],
    );
}

#[test]
fn only_accepted_sends_have_bytes() {
    let log = [
        settings_e(),
        new_data(0, 300),
        send(1, 100, 0),
        send(1, 200, 1),
        send(1, 100, 2),   // refused: no backlog
        resend(2, 200, 1), // refused: it flies
        loss(2, 0, 0),
        loss(2, 1, 0),
        resend(3, 101, 0), // refused: another size
        send(3, 100, 0),   // refused: its PSN is not next
        resend(3, 200, 1),
        loss(4, 1, 0),
        resend(5, 200, 1),
    ]
    .concat();
    prints(
        &log,
        &[
            "accepted 9",
            "refused 5 1",
            "refused 8 3",
            "taken 0",
            "cut 0",
            "gone 0",
            "ambiguous 0",
            "not-positive 0",
            "least 0",
            "greatest 0",
            "new 300",
            "again 400",
        ],
    );
}

/// A refused ACK or NACK has no sample; the numbers are told in their order, not the log's.
#[test]
fn refusals_by_number() {
    let log = [
        sent(1),
        path(50),
        any_ack(50, 0, 1, 0, 0, 0),       // 24
        loss(50, 0, 256),                 // 23
        nack(50, 0, 3, 0),                // 22
        any_ack(50, 0, 0, 1 << 24, 0, 0), // 21
        new_data(50, 0),                  // 20
        new_data(50, 0),                  // 20
        nack(50, 1, 0, 0),                // 10
        ack(50, 1, 0),                    // 9
        send(50, 100, 2),                 // 8
        send(50, 100, 1),                 // 5
        send(50, 40, 1),                  // 4
        ack(49, 0, 0),                    // 3
        any_ack(50, 0, 0, 1 << 22, 0, 0), // 11: in-flight would be 100 - 2^30
        vec![0],                          // 12
    ]
    .concat();
    let refused = [
        "refused 3 1",
        "refused 4 1",
        "refused 5 1",
        "refused 8 1",
        "refused 9 1",
        "refused 10 1",
        "refused 11 1",
        "refused 12 1",
        "refused 20 2",
        "refused 21 1",
        "refused 22 1",
        "refused 23 1",
        "refused 24 1",
    ];
    let lines = without_samples("accepted 4", &refused);
    prints(&log, &[&lines[..], &["new 100", "again 0"]].concat());
}

/// A ring of the program has 512 slots.
#[test]
fn the_ring_is_the_programs() {
    let mut log = [settings_e(), new_data(0, 51_400)].concat();
    log.extend((0..514).flat_map(|psn| send(10, 100, psn)));
    let figures = report(&log);
    assert_eq!((figures.accepted, figures.refused[7]), (514, 1));
    assert_eq!(figures.refused[8], 1);
    assert_eq!(figures.new_bytes, 51_200);
}

/// Settings; 583 times new data, 512 packets of 16,384 bytes and an ACK of the last, 514 records;
/// then new data and 336 packets. An ACK comes 90 to 200 ticks after its packet.
#[test]
fn more_bytes_than_32_bits_hold() {
    let figures = report(&gen::bulk(0, 300_000));
    assert_eq!(figures.accepted, 300_000);
    assert_eq!(figures.new_bytes, 4_896_063_488);
    assert_eq!(figures.again_bytes, 0);
    assert_eq!(figures.taken, 583);
    assert_eq!(figures.buckets[6] + figures.buckets[7], 583);
    assert!(figures.least >= 90 && figures.greatest <= 200);
}

/// ACKs in the order of the PSNs, with these samples.
fn sampled(samples: &[u32]) -> Vec<u8> {
    let mut log = sent(samples.len() as u32);
    for (psn, sample) in (0..).zip(samples) {
        log.extend(ack(10 + MOST, psn, MOST as u32 - sample));
    }
    log
}

/// The least and the greatest sample of every bucket but 20, which has 2^20 alone.
fn ends_of_buckets() -> Vec<u32> {
    let ends = (0..20).flat_map(|k| [1 << k, (2 << k) - 1]);
    ends.chain([1 << 20]).collect()
}

#[test]
fn a_bucket_is_the_highest_set_bit() {
    let figures = report(&sampled(&ends_of_buckets()));
    let mut buckets = [0; 32];
    buckets[..20].fill(2);
    buckets[20] = 1;
    assert_eq!(figures.buckets, buckets);
    assert_eq!(figures.taken, 41);
    assert_eq!((figures.least, figures.greatest), (1, MOST));
}

#[test]
fn the_order_of_samples_does_not_matter() {
    let mut rng = Rng::new(11);
    let mut samples = ends_of_buckets();
    samples.retain(|sample| (100..=900_000).contains(sample));
    let in_order = report(&sampled(&samples));
    assert_eq!((in_order.least, in_order.greatest), (127, 524_288));
    for _ in 0..200 {
        for last in (1..samples.len()).rev() {
            samples.swap(last, rng.below(last as u64 + 1) as usize);
        }
        assert_eq!(report(&sampled(&samples)), in_order, "{samples:?}");
    }
}

/// The figures that the printed lines give, with the records beside them.
#[derive(Default)]
struct Counted {
    accepted: u64,
    refused: BTreeMap<u8, u64>,
    letters: BTreeMap<char, u64>,
    samples: Vec<u64>,
    new: u64,
    again: u64,
}

impl Counted {
    fn of(log: &[u8]) -> Counted {
        let mut counted = Counted::default();
        let mut sent = BTreeMap::new();
        let mut reader = Reader::new(log);
        for line in replay(log).lines().skip(1) {
            let answer = line.split(' ').nth(1).and_then(|word| word.parse().ok());
            match answer.expect("a number") {
                0 => {
                    let record = reader.next_record().ok().flatten();
                    counted.accept(&record.expect("a record"), line, &mut sent);
                }
                number => {
                    // A malformed one is the last.
                    let _ = reader.next_record();
                    *counted.refused.entry(number).or_default() += 1;
                }
            }
        }
        counted
    }

    /// `sent` has when each packet of each flow was last sent. A log is too short for a PSN to be
    /// used again.
    fn accept(&mut self, record: &Record, line: &str, sent: &mut BTreeMap<(u8, u32), u64>) {
        self.accepted += 1;
        match *record {
            Record::Send {
                time,
                flow,
                size,
                psn,
                resend,
            } => {
                sent.insert((flow.unwrap_or(0), psn), time);
                self.new += u64::from(size) * u64::from(1 - resend);
                self.again += u64::from(size) * u64::from(resend);
            }
            Record::Ack {
                time,
                flow,
                trigger,
                service,
                ..
            } => self.sample(
                line,
                |sent| time - sent - u64::from(service),
                sent.get(&(flow.unwrap_or(0), trigger)),
            ),
            Record::Nack {
                time, flow, psn, ..
            } => {
                let sent = sent.get(&(flow.unwrap_or(0), psn));
                self.sample(line, |sent| time - sent, sent);
            }
            _ => {}
        }
    }

    fn sample(&mut self, line: &str, trip: impl Fn(u64) -> u64, sent: Option<&u64>) {
        let letter = line.chars().last().expect("a letter");
        *self.letters.entry(letter).or_default() += 1;
        match (letter, sent) {
            ('s', Some(&sent)) => self.samples.push(trip(sent)),
            ('c', Some(&sent)) => {
                assert!(trip(sent) > MOST);
                self.samples.push(MOST);
            }
            _ => assert!("gan".contains(letter), "{line}"),
        }
    }

    fn in_bucket(&self, k: u32) -> usize {
        let (from, to) = (1 << k, 2 << k);
        let inside = |sample: &&u64| (from..to).contains(*sample);
        self.samples.iter().filter(inside).count()
    }

    fn text(&self) -> String {
        let mut lines = vec![format!("accepted {}", self.accepted)];
        for (number, times) in &self.refused {
            lines.push(format!("refused {number} {times}"));
        }
        let words = [
            ('s', "taken"),
            ('c', "cut"),
            ('g', "gone"),
            ('a', "ambiguous"),
            ('n', "not-positive"),
        ];
        for (letter, word) in words {
            let times = self.letters.get(&letter).unwrap_or(&0);
            lines.push(format!("{word} {times}"));
        }
        let (least, greatest) = (self.samples.iter().min(), self.samples.iter().max());
        lines.push(format!("least {}", least.unwrap_or(&0)));
        lines.push(format!("greatest {}", greatest.unwrap_or(&0)));
        for k in (0..32).filter(|&k| self.in_bucket(k) > 0) {
            lines.push(format!("bucket {k} {}", self.in_bucket(k)));
        }
        lines.push(format!("new {}", self.new));
        lines.push(format!("again {}\n", self.again));
        lines.join("\n")
    }
}

/// Logs of every generator.
fn generated() -> Vec<Vec<u8>> {
    let mut logs = Vec::new();
    for seed in 0..12 {
        logs.extend([
            gen::traffic(seed, 2_000),
            gen::lossy(seed, 2_000),
            gen::marked(seed, 2_000),
            gen::winding(seed, 500),
            gen::flows(seed, 2_000),
            gen::bulk(seed, 2_500),
        ]);
    }
    logs.extend((0..150).map(|seed| gen::hostile(seed, 1_500)));
    // Some are refused at once.
    logs.extend((0..1_600).map(|seed| gen::hostile(seed, 5)));
    logs
}

#[test]
fn generated_logs_by_the_printed_lines() {
    let mut numbers = [0; 29];
    let mut kinds = [0; 5];
    let mut bytes = [0; 2];
    for log in generated() {
        let figures = report(&log);
        assert_eq!(figures.to_string(), Counted::of(&log).text());
        for (sum, times) in numbers.iter_mut().zip(figures.refused) {
            *sum += times;
        }
        let met = [
            figures.taken,
            figures.cut,
            figures.gone,
            figures.ambiguous,
            figures.not_positive,
        ];
        for (sum, times) in kinds.iter_mut().zip(met) {
            *sum += times;
        }
        bytes[0] += figures.new_bytes;
        bytes[1] += figures.again_bytes;
    }
    // The logs are worth something.
    for number in [1, 3, 4, 5, 6, 7, 8, 9, 10, 11, 12, 20, 21, 22, 23, 24, 25] {
        assert!(numbers[number] > 5, "{number}: {numbers:?}");
    }
    assert!(kinds.iter().all(|&times| times > 20), "{kinds:?}");
    assert!(bytes.iter().all(|&sum| sum > 1_000_000), "{bytes:?}");
}

#[test]
fn bundled_logs_by_the_printed_lines() {
    for vector in bundled().into_iter().chain(examples()) {
        let text = report(&vector.log).to_string();
        assert_eq!(text, Counted::of(&vector.log).text(), "{}", vector.name);
    }
}

#[test]
fn the_buckets_add_up_to_the_samples_taken_and_cut() {
    let mut samples = 0;
    for log in generated() {
        let figures = report(&log);
        let sum: u64 = figures.buckets.iter().sum();
        assert_eq!(sum, figures.taken + figures.cut);
        assert_eq!(figures.least == 0, sum == 0);
        assert!(figures.least <= figures.greatest);
        samples += sum;
    }
    assert!(samples > 10_000, "{samples}");
}

#[test]
fn every_printed_line_is_counted_once() {
    for log in generated() {
        let figures = report(&log);
        let refused: u64 = figures.refused.iter().sum();
        let lines = replay(&log).lines().count() as u64 - 1;
        assert_eq!(figures.accepted + refused, lines);
        assert_eq!(figures.refused[0], 0);
    }
}
