//! The bundled logs: their files are up to date, and lines of them that were worked out by hand.

use model::vectors::{bundled, examples, files, readable, Vector, DATA};
use model::{replay, write, Reader, Record};
use std::collections::BTreeSet;
use std::fs;
use std::path::{Path, PathBuf};

fn root() -> PathBuf {
    Path::new(env!("CARGO_MANIFEST_DIR")).join("../..")
}

#[test]
fn the_files_in_place_are_those_of_the_list() {
    for file in files() {
        let path = root().join(&file.path);
        let in_place = fs::read(&path).unwrap_or_else(|error| panic!("{}: {error}", file.path));
        assert!(
            in_place == file.bytes,
            "{} is stale: model-vectors writes it anew",
            file.path
        );
    }
}

#[test]
fn no_other_file_lies_among_the_logs() {
    let listed: BTreeSet<String> = bundled().iter().map(Vector::file_name).collect();
    let in_place: BTreeSet<String> = fs::read_dir(root().join(DATA))
        .expect("the folder of the logs")
        .map(|entry| entry.expect("a file").file_name())
        .map(|name| name.to_string_lossy().into_owned())
        .collect();
    assert_eq!(in_place, listed);
}

#[test]
fn names_differ_and_are_short_words() {
    for vectors in [bundled(), examples()] {
        let names: BTreeSet<&str> = vectors.iter().map(|vector| vector.name.as_str()).collect();
        assert_eq!(names.len(), vectors.len());
        for name in names {
            let plain = |c: char| c.is_ascii_lowercase() || c.is_ascii_digit() || c == '-';
            assert!(name.chars().all(plain) && name.len() < 24, "{name}");
        }
    }
}

/// All but 2 and 13, which are no answers to a log.
#[test]
fn every_number_that_a_log_can_meet_is_met() {
    let numbers: BTreeSet<u8> = bundled()
        .iter()
        .flat_map(|vector| answers(&replay(&vector.log)))
        .collect();
    let expected = [
        0, 1, 3, 4, 5, 6, 7, 8, 9, 10, 11, 12, 20, 21, 22, 23, 24, 25,
    ];
    assert_eq!(numbers, BTreeSet::from(expected));
}

fn answers(text: &str) -> Vec<u8> {
    let answer = |line: &str| line.split(' ').nth(1)?.parse().ok();
    text.lines().skip(1).filter_map(answer).collect()
}

/// ACKs meet all five letters, NACKs all but g; refused records and other kinds have none.
#[test]
fn every_letter_is_met() {
    let (mut on_acks, mut on_nacks) = (BTreeSet::new(), BTreeSet::new());
    for vector in bundled() {
        let mut reader = Reader::new(&vector.log);
        let text = replay(&vector.log);
        for line in text.lines().skip(1) {
            let accepted = line.split(' ').nth(1) == Some("0");
            let letters = match reader.next_record() {
                Ok(Some(Record::Ack { .. })) if accepted => &mut on_acks,
                Ok(Some(Record::Nack { .. })) if accepted => &mut on_nacks,
                _ => {
                    assert_eq!(letter(line), None, "{}: {line}", vector.name);
                    continue;
                }
            };
            letters.insert(letter(line).expect(line));
        }
    }
    assert_eq!(on_acks, BTreeSet::from(['a', 'c', 'g', 'n', 's']));
    assert_eq!(on_nacks, BTreeSet::from(['a', 'c', 'n', 's']));
}

/// The letter at the end of a line.
fn letter(line: &str) -> Option<char> {
    let last = line.split(' ').next_back()?.parse().ok();
    last.filter(|letter: &char| letter.is_ascii_lowercase())
}

/// The letters of each log's accepted ACKs and NACKs, in their order.
#[test]
fn letters_worked_out_by_hand() {
    let expected = [
        ("worked", "s"),
        ("kinds", "ss"),
        ("resends", "saasaaaa"),
        ("samples", "nnsgggsss"),
        ("nack-samples", "ssgas"),
        ("sample-stop", "scsc"),
        ("sample-ack", "sngascgs"),
        ("sample-nack", "nsaaccna"),
        ("sample-edges", "nsssssccssnnnc"),
        ("sample-gone", "gggsgsgggsggs"),
        ("nack-resends", "saasaaaa"),
        ("sample-order", "aggagaaagcn"),
        ("sample-letters", "ssnsga"),
    ];
    let bundled = bundled();
    for (name, letters) in expected {
        let text = text(&bundled, name);
        let told: String = text.lines().filter_map(letter).collect();
        assert_eq!(told, letters, "{name}:\n{text}");
    }
}

/// Only a refused record 1 and a malformed record stop a replay.
#[test]
fn every_other_log_is_replayed_to_its_end() {
    for vector in bundled().into_iter().chain(examples()) {
        let answers = answers(&replay(&vector.log));
        if !matches!(answers.last(), Some(1 | 12)) {
            assert_eq!(answers.len(), records(&vector.log), "{}", vector.name);
        }
    }
}

fn records(log: &[u8]) -> usize {
    let mut reader = Reader::new(log);
    let mut records = 0;
    while reader.next_record().expect("well-formed").is_some() {
        records += 1;
    }
    records
}

/// The offset in a line with 12 is that of the record's length; other stops tell none.
#[test]
fn a_malformed_record_is_told_with_its_offset() {
    for vector in bundled() {
        let text = replay(&vector.log);
        let last = text.lines().last().expect("the header");
        match last.split(' ').collect::<Vec<_>>()[..] {
            [record, "12", offset] => {
                let record = record.parse().expect("a number");
                let start = start_of(&vector.log, record).to_string();
                assert_eq!(offset, start, "{}", vector.name);
            }
            [record, number] => assert_eq!((record, number), ("1", "1")),
            ref words => assert!(words.len() >= 8, "{}: {last}", vector.name),
        }
    }
}

/// Where a record starts, by the lengths of those before it.
fn start_of(log: &[u8], record: usize) -> usize {
    (1..record).fold(0, |start, _| {
        let length = u16::from_le_bytes([log[start], log[start + 1]]);
        start + 2 + usize::from(length)
    })
}

/// "so every log is written back byte for byte" (M-110), up to the first record that is refused.
#[test]
fn every_log_is_written_back() {
    for vector in bundled().into_iter().chain(examples()) {
        let mut reader = Reader::new(&vector.log);
        let mut room = vec![0; vector.log.len()];
        let mut back = 0;
        while let Ok(Some(record)) = reader.next_record() {
            back += write(&record, &mut room[back..]).expect("room for what was read");
        }
        assert_eq!(back, readable(&vector.log), "{}", vector.name);
        assert_eq!(room[..back], vector.log[..back], "{}", vector.name);
    }
}

/// What is read and what there is; the records have the lengths that 01 and M-110 name, and two.
#[test]
fn bytes_written_back_worked_out_by_hand() {
    let expected = [
        ("empty", 0, 0),
        ("worked", 57 + 16 + 2 * 21 + 39, 154),
        ("settings-twice", 57 + 57 + 12, 126), // read on, though its replay stops at 57
        ("first-path", 12 + 12, 24),
        ("evs-768", 61 + 12, 73),
        ("evs-256", 0, 73), // the longer record that says 256 is refused
        ("cut-1", 57, 57 + 1),
        ("cut-last", 57, 57 + 15),
        ("settings-cut-1", 0, 1),
        ("offset-73", 57 + 16, 73 + 13 + 12),
        ("kind-262", 57, 57 + 12 + 12),
        ("kind-39", 57, 57 + 12 + 12),
        ("flow-path-short", 57, 57 + 12 + 12),
        ("flow-path-long", 57, 57 + 14 + 12),
        ("first-flow-path", 13 + 12, 25),
        // Sends of 21 or 22 bytes; flow 0 has an old kind for both new packets and the resend too.
        ("flow-kinds", 57 + 17 + 3 * 22 + 40 + 21 + 19 + 13, 233),
        ("flow-zero", 57 + 17 + 21 + 40 + 21 + 21 + 21 + 19 + 12, 229),
    ];
    let bundled = bundled();
    for (name, back, length) in expected {
        let vector = bundled.iter().find(|vector| vector.name == name);
        let log = &vector.expect(name).log;
        assert_eq!((readable(log), log.len()), (back, length), "{name}");
    }
}

fn text(vectors: &[Vector], name: &str) -> String {
    let vector = vectors.iter().find(|vector| vector.name == name);
    replay(&vector.expect(name).log)
}

#[test]
fn the_worked_example_prints_the_text_of_01() {
    let expected = "rec ans inflight cwnd flying waiting backlog state\n\
                    1 0 0 614400 0 0 0 IDLE\n\
                    2 0 0 614400 0 0 8192 READY\n\
                    3 0 4096 614400 1 0 4096 READY\n\
                    4 8 4096 614400 1 0 4096 READY\n\
                    5 0 0 614400 0 0 4096 READY s\n";
    assert_eq!(text(&bundled(), "worked"), expected);
    assert_eq!(text(&examples(), "worked"), expected);
}

/// Settings have 57 bytes, the records after them 16, 21, 39, 20, 18 and 12.
#[test]
fn offsets_worked_out_by_hand() {
    let expected = [
        ("settings-cut-1", "1 12 0"),
        ("settings-cut-last", "1 12 0"),
        ("first-path", "1 12 0"),
        ("settings-twice", "2 12 57"),
        ("cut-1", "2 12 57"),
        ("offset-73", "3 12 73"),
        ("offset-133", "5 12 133"),
        ("offset-183", "8 12 183"),
    ];
    let bundled = bundled();
    for (name, line) in expected {
        assert_eq!(text(&bundled, name).lines().last(), Some(line), "{name}");
    }
}

#[test]
fn the_order_of_refusals() {
    let bundled = bundled();
    let answers = |name| answers(&text(&bundled, name));
    assert_eq!(
        answers("order"),
        [0, 0, 0, 3, 4, 8, 5, 6, 8, 3, 24, 9, 11, 3, 22, 10, 3, 23, 3, 20]
    );

    let fields = [21, 21, 21, 23, 21, 23, 24];
    let mut expected = vec![0, 0, 0];
    expected.extend([3; 7]);
    expected.extend(fields.repeat(4));
    expected.extend([9, 11, 0]);
    assert_eq!(answers("order-ack"), expected);

    let fields = [22, 22, 23, 23];
    let mut expected = vec![0, 0, 0, 0];
    expected.extend([3; 4]);
    expected.extend(fields.repeat(2));
    expected.push(0);
    expected.extend(fields);
    expected.extend([10, 10, 11, 11, 0, 0]);
    assert_eq!(answers("order-nack"), expected);
}

/// Lines worked out by hand from 01. The window is the fourth word.
#[test]
fn lines_worked_out_by_hand() {
    let expected = [
        ("closed", "6 6 8193 12288 3 0 11807 ACTIVE"),
        ("closed", "9 0 8234 12288 4 0 11766 ACTIVE"), // sent at 8,192
        ("in-flight", "6 0 -16777216 614400 2 0 144 READY g"),
        // A sample of 10 leaves 614,400 * 10 / 96 = 64,000 in these three.
        ("map", "9 0 -12 64000 2 0 0 PENDING s"), // P7: 5, 7 and 9 are delivered
        ("psn-wrap", "11 0 400 64000 1 0 100 READY s"), // P8: three delivered
        ("counts", "11 11 3072 64000 1 0 0 PENDING"),
        ("burst", "9 0 4096 614400 1 0 5424 READY s"),
        ("burst", "13 0 4096 614400 1 0 5424 READY g"),
        // 12 losses of 4,096; then 224 * 4,096 * 36 / 565,248 = 58 by a sample, else 116.
        ("resends", "34 0 32768 565248 8 0 0 PENDING"),
        ("resends", "35 0 28672 565306 7 0 0 PENDING s"),
        ("resends", "36 0 24576 565422 6 0 0 PENDING a"),
        ("resends", "37 0 20480 565538 5 0 0 PENDING a"),
        ("resends", "38 0 16384 565596 4 0 0 PENDING s"),
        ("resends", "42 0 0 566060 0 0 0 IDLE a"),
        // 614,400 * 1 / 96: neither 66,060,288 nor 16,777,216 saved up can raise it.
        ("samples", "19 0 -4096 6400 1 0 0 PENDING s"),
        ("samples", "20 0 -8192 6400 0 0 0 IDLE s"),
        // 2^26 * 60 / 8,000; 4,096 less, then 16,777,216 / 499,220 = 33 more; 2^26 * 30 / 8,000.
        ("nack-samples", "8 0 8192 503316 2 2 0 READY s"),
        ("nack-samples", "10 0 0 499253 1 3 0 READY g"),
        ("nack-samples", "17 0 -4096 251658 0 4 0 READY s"),
        // 614,400 * 50 / 96 = 320,000, then losses of 4,096.
        ("ev-times", "9 0 12288 320000 3 1 4096 READY s"),
        ("ev-times", "12 0 0 307712 0 4 4096 READY"),
        // P2: 91,750,400 / 610,495 = 150; the average is 75, so 819 * 3 / 75 = 32 is cut.
        ("delays", "23 0 -24576 610645 0 1 0 READY s"),
        ("delays", "24 0 -24576 591562 0 1 0 READY g"),
        ("fast-mode", "12 0 -581632 610304 7 1 0 READY g"),
        ("fast-mode", "13 0 -581888 610560 7 1 0 READY g"),
        // 224 * 32,768 * 72 / 606,208 = 871; 524,353,536 / 607,079 = 863, and eta.
        ("adjustment", "8 0 -32768 607079 0 2 0 READY g"),
        ("adjustment", "10 0 -65280 608966 0 2 0 READY g"),
        ("adjustment", "13 0 -409600 614400 0 2 0 READY g"),
        ("cut", "8 0 16384 369000 2 0 0 PENDING s"), // P3
        ("cut", "9 0 16384 369000 2 0 0 PENDING g"),
        ("cut", "10 0 16384 221616 2 0 0 PENDING g"), // times 615 / 1,024
        ("cut", "13 0 16384 110808 0 0 0 IDLE s"),
        ("floors", "6 0 4296 5935 2 0 0 PENDING s"), // times 1,013 / 1,024
        ("floors", "7 0 4296 4096 1 0 0 PENDING s"),
        ("quick-adapt", "16 0 -613444 614400 2 1 44 READY s"),
        // 1,249 units are 319,744, below 614,400 * 50 / 96 = 320,000.
        ("quick-adapt", "17 0 -933188 319744 1 1 44 READY s"),
        ("quick-adapt", "19 0 -933188 4096 0 1 44 READY 1"),
        // 12,288 + (2 * 224 * 4,096 * 72) / 12,288 + 1,024.
        ("quick-adapt-loss", "12 0 -634580 24064 2 1 0 READY g"),
        ("quick-adapt-off", "12 0 -634580 614400 2 1 0 READY g"),
        ("ignoring", "11 0 0 4766 2 1 0 READY g"), // 7,936 * 615 / 1,024
        ("backlog-full", "259 0 0 614400 0 0 1099511627776 READY"),
        ("backlog-full", "260 20 0 614400 0 0 1099511627776 READY"),
        ("paths", "130 0 0 614400 0 0 0 IDLE 128"),
        ("paths", "132 0 0 614400 0 0 0 IDLE 129"),
        ("paths", "257 0 0 614400 0 0 0 IDLE 254"),
        ("paths", "260 0 0 614400 0 0 0 IDLE 1"),
        ("ring-full", "517 7 20992 25087 512 0 100 ACTIVE"),
        ("ring-full", "525 7 20736 25087 449 0 100 READY"),
        // Flow 4 sends between these.
        ("ring-full", "527 0 20777 25087 450 0 141 READY"),
        ("ring-full", "528 7 20777 25087 450 0 141 READY"),
        ("ring-full", "530 0 20818 25087 450 0 100 READY"),
        ("ring-full", "531 0 20859 25087 451 0 59 READY"),
    ];
    all_printed(&expected);
}

fn all_printed(expected: &[(&str, &str)]) {
    let bundled = bundled();
    for (name, line) in expected {
        let text = text(&bundled, name);
        assert!(text.lines().any(|l| l == *line), "{name}: {line}\n{text}");
    }
}

/// The same for max_wnd: 614,400 / 96 = 6,400 for each tick of the base, where MaxWnd is E's.
#[test]
fn ceilings_worked_out_by_hand() {
    all_printed(&[
        ("ceiling-ack", "11 0 32768 614400 7 0 0 PENDING s"), // 97 ticks
        ("ceiling-ack", "12 0 32768 608000 6 0 0 PENDING s"), // 95
        ("ceiling-ack", "13 0 32768 608000 5 0 0 PENDING s"), // 96
        ("ceiling-ack", "16 0 24576 599808 2 2 0 READY s"),   // 94, after two losses: below 601,600
        ("ceiling-ack", "17 0 24576 307200 1 2 0 READY s"),   // 48
        ("ceiling-ack", "18 0 24576 6400 0 2 0 ACTIVE s"),    // 1
        ("ceiling-ack", "19 6 24576 6400 0 2 0 ACTIVE"),
        ("ceiling-ack", "20 0 2048 6400 0 2 0 READY g"), // 88 units less, and 4,096 more are 6,144
        ("ceiling-ack", "21 0 6144 6400 1 1 0 ACTIVE"),
        ("ceiling-nack", "7 0 12288 608000 3 1 0 READY s"), // 95 ticks
        ("ceiling-nack", "8 0 8192 482304 2 2 0 READY s"),  // 76: 486,400 - 4,096
        ("ceiling-nack", "9 0 4096 303104 1 3 0 READY s"),  // 48: 307,200 - 4,096
        ("ceiling-nack", "10 0 0 299008 0 4 0 READY"),      // a loss: 4,096 less
        ("ceiling-nack", "12 0 0 299008 0 4 0 READY a"),
        ("ceiling-nack", "14 0 0 153600 0 4 0 READY s"), // 24
        // 32,768 * 48 / 96.
        ("ceiling-closed", "9 0 20480 16384 5 1 4096 ACTIVE s"),
        ("ceiling-closed", "10 6 20480 16384 5 1 4096 ACTIVE"),
        ("ceiling-closed", "11 6 20480 16384 5 1 4096 ACTIVE"),
        ("ceiling-closed", "12 0 12288 16384 5 1 4096 READY g"),
        ("ceiling-closed", "13 0 16384 16384 6 0 4096 ACTIVE"),
        ("ceiling-closed", "14 6 16384 16384 6 0 4096 ACTIVE"),
        // 8,192 * 49 / 96 = 4,181; * 48 / 96 = 4,096; then the MTU.
        ("ceiling-mtu", "8 0 500 4181 4 0 0 PENDING s"),
        ("ceiling-mtu", "9 0 500 4096 3 0 0 PENDING s"),
        ("ceiling-mtu", "10 0 500 4096 2 0 0 PENDING s"),
        ("ceiling-mtu", "11 0 500 4096 1 0 0 PENDING s"),
        ("ceiling-mtu", "12 0 400 4096 0 1 0 ACTIVE s"),
        ("ceiling-mtu", "13 6 400 4096 0 1 0 ACTIVE"),
        ("ceiling-mtu", "14 0 -112 4096 0 1 0 READY g"),
        ("ceiling-mtu", "15 0 -12 4096 1 0 0 PENDING"),
        // 614,399 * 95 = 58,367,905 = 96 * 607,999 + 1; * 50 = 30,719,950 = 96 * 319,999 + 46;
        // 614,399 = 96 * 6,399 + 95.
        ("ceiling-rounds", "6 0 300 607999 2 0 2200 READY s"),
        ("ceiling-rounds", "7 0 300 319999 1 0 2200 READY s"),
        ("ceiling-rounds", "8 0 300 6399 0 0 2200 READY s"),
        ("ceiling-rounds", "9 0 2303 6399 1 0 197 READY"),
        ("ceiling-rounds", "10 0 2344 6399 2 0 156 ACTIVE"), // 2,303 + 4,096 was 6,399
        ("ceiling-rounds", "11 6 2344 6399 2 0 156 ACTIVE"),
        // 2^26 - 1; less its 16,384th, which is nearly 4,096; its half; its 16,384th.
        ("ceiling-largest", "7 0 400 67108863 3 0 0 PENDING s"),
        ("ceiling-largest", "8 0 400 67104767 2 0 0 PENDING s"),
        ("ceiling-largest", "9 0 400 33554431 1 0 0 PENDING s"),
        ("ceiling-largest", "10 0 400 4095 0 0 0 IDLE s"),
        // 48 ticks and a loss; 1,184 units are 303,104; up to 307,200.
        ("ceiling-fast-mode", "9 0 -290816 303104 2 1 0 READY g"),
        ("ceiling-fast-mode", "10 0 -291072 303360 2 1 0 READY g"),
        ("ceiling-fast-mode", "11 0 -294656 306944 2 1 0 READY g"),
        ("ceiling-fast-mode", "12 0 -294912 307200 2 1 0 READY g"),
        ("ceiling-fast-mode", "13 0 -295168 307200 2 1 0 READY g"),
        // 24 ticks; a loss, and 98 units are 25,088, too many.
        ("ceiling-fast-mode", "14 0 -295424 153600 1 1 0 READY s"),
        ("ceiling-fast-mode", "15 0 -299520 149504 0 2 0 READY"),
        ("ceiling-fast-mode", "16 0 -324608 153600 0 2 0 READY g"),
        // 224 * 32,768 * 72 / 299,008 = 1,767; eta; 2,113,929,216 / 301,799 = 7,004 is too much.
        ("ceiling-adjustment", "10 0 -24576 300775 1 2 0 READY g"),
        ("ceiling-adjustment", "11 0 -24576 301799 1 2 0 READY g"),
        ("ceiling-adjustment", "12 0 -155648 307200 1 2 0 READY g"),
        ("ceiling-adjustment", "13 0 -155648 307200 1 2 0 READY g"),
        ("ceiling-adjustment", "14 0 -159744 153600 0 0 0 IDLE s"),
        // 1,199 units are 306,944, below 307,200; 600 are 153,600 and not below it.
        ("ceiling-quick-adapt", "11 0 -306444 306944 4 1 0 READY s"),
        ("ceiling-quick-adapt", "12 0 -306544 306844 3 2 0 READY"),
        ("ceiling-quick-adapt", "13 0 -460144 153600 2 2 0 READY s"),
        ("ceiling-quick-adapt", "14 0 -460144 4096 2 2 0 READY g"),
        // 1,200 units are not below 307,200, so the size is taken; 599 are below 153,600.
        ("ceiling-trimmed", "6 0 -307200 307100 0 1 100 READY s"),
        ("ceiling-trimmed", "7 0 -460544 307100 0 1 100 READY g"),
        ("ceiling-trimmed", "9 0 -460544 153344 0 2 0 READY s"),
        // 40,960 * 615 / 1,024 and a loss; 40,960 * 24 / 96 = 10,240, and 8,192 were achieved.
        ("ceiling-ignoring", "11 0 32768 24600 7 0 0 PENDING s"),
        ("ceiling-ignoring", "12 0 28672 20504 6 1 0 ACTIVE"),
        ("ceiling-ignoring", "13 0 20480 8192 5 1 0 ACTIVE s"),
        ("ceiling-ignoring", "14 0 10240 8192 5 1 0 ACTIVE g"),
        // The average is 142: 819 * 70 / 142 = 403, and 8,192 * 621 / 1,024 are left.
        ("ceiling-ignoring", "15 0 0 4968 5 1 0 READY g"),
    ]);
}

/// All that the logs of M-110 print, behind the header. A loss or a trimmed packet of 100 bytes takes
/// as much from cwnd.
#[test]
fn evs_worked_out_by_hand() {
    let expected = [
        (
            "evs-512",
            "1 0 0 614400 0 0 0 IDLE\n\
             2 23 0 614400 0 0 0 IDLE\n\
             3 0 0 614400 0 0 0 IDLE g\n\
             4 0 0 614400 0 0 0 IDLE g\n\
             5 0 0 614400 0 0 0 IDLE g\n\
             6 0 0 614400 0 0 0 IDLE 1\n\
             7 0 0 614400 0 0 0 IDLE 2\n",
        ),
        (
            "evs-4096",
            "1 0 0 614400 0 0 0 IDLE\n\
             2 0 0 614400 0 0 300 READY\n\
             3 0 100 614400 1 0 200 READY\n\
             4 0 200 614400 2 0 100 READY\n\
             5 23 200 614400 2 0 100 READY\n\
             6 0 100 614300 1 1 100 READY n\n\
             7 23 100 614300 1 1 100 READY\n\
             8 0 0 614200 0 2 100 READY\n\
             9 0 0 614200 0 2 100 READY 0\n",
        ),
        ("evs-768", "1 1\n"),
        ("evs-8192", "1 1\n"),
        ("evs-256", "1 12 0\n"),
    ];
    let bundled = bundled();
    for (name, lines) in expected {
        let text = text(&bundled, name);
        assert_eq!(
            text.split_once('\n').expect("the header").1,
            lines,
            "{name}"
        );
    }
}

/// All that the logs of M-107 print, behind the header. Flow 3 does what flow 0 does.
#[test]
fn flows_worked_out_by_hand() {
    // A round trip of 96 keeps the window; one of 3 leaves 614,400 * 3 / 96, a loss 100 less. EV 0
    // is avoided until 123.
    let each = "1 0 0 614400 0 0 0 IDLE\n\
                2 0 0 614400 0 0 300 READY\n\
                3 0 100 614400 1 0 200 READY\n\
                4 0 100 614400 0 0 200 READY s\n\
                5 0 200 614400 1 0 100 READY\n\
                6 0 100 19200 0 1 100 READY s\n\
                7 0 200 19200 1 0 100 READY\n\
                8 0 100 19100 0 1 100 READY\n\
                9 0 100 19100 0 1 100 READY 1\n";
    let own = "1 0 0 8192 0 0 0 IDLE\n\
               2 0 0 8192 0 0 4096 READY\n\
               3 5 0 8192 0 0 4096 READY\n\
               4 0 4096 8192 1 0 0 PENDING\n\
               5 0 4096 8192 1 0 8192 READY\n\
               6 8 4096 8192 1 0 8192 READY\n\
               7 0 8192 8192 2 0 4096 ACTIVE\n\
               8 6 8192 8192 2 0 4096 ACTIVE\n\
               9 10 8192 8192 2 0 4096 ACTIVE\n\
               10 10 8192 8192 2 0 4096 ACTIVE\n\
               11 9 8192 8192 2 0 4096 ACTIVE\n\
               12 0 4096 8192 1 0 4096 READY s\n\
               13 0 8192 8192 2 0 0 PENDING\n\
               14 0 4096 8192 1 0 0 PENDING s\n\
               15 0 0 4096 0 0 0 IDLE s\n"; // a base of 1 leaves the MTU
    let bundled = bundled();
    for (name, lines) in [("flow-kinds", each), ("flow-zero", each), ("flow-own", own)] {
        let text = text(&bundled, name);
        let behind = text.split_once('\n').expect("the header").1;
        assert_eq!(behind, lines, "{name}");
    }
    assert_eq!(
        answers(&text(&bundled, "flow-refused")),
        [0, 0, 25, 25, 3, 25, 20, 25, 4, 25, 21, 25, 22, 25, 23, 3, 25, 25, 0]
    );
    all_printed(&[("flow-refused", "19 0 0 614400 0 0 300 READY 0")]);
}

#[test]
fn the_logs_together_are_short() {
    let bytes: usize = bundled().iter().map(|vector| vector.log.len()).sum();
    assert!(bytes < 65_000, "{bytes}");
}

#[test]
fn insane_numbers_are_refused_and_change_nothing() {
    let text = text(&examples(), "insane");
    let unchanged = "8192 614400 2 0 11808 READY";
    let numbers = [
        3, 3, 20, 4, 4, 8, 8, 21, 23, 24, 22, 23, 9, 9, 9, 10, 10, 11,
    ];
    let mut lines = text.lines().skip(5);
    for (record, number) in (5..).zip(numbers) {
        let line = format!("{record} {number} {unchanged}");
        assert_eq!(lines.next(), Some(line.as_str()));
    }
    assert_eq!(lines.next(), Some("23 0 4096 614400 1 0 11808 READY s"));
    assert_eq!(lines.next(), Some("24 0 4096 614400 1 0 11808 READY 0"));
    assert_eq!(lines.next(), None);
}

/// The windows after the ACKs of the log, each the one before plus eta and what was saved up, as far
/// as the ceiling allows.
#[test]
fn a_packet_sent_twice_spoils_nothing() {
    let text = text(&examples(), "resent");
    let expected = [
        "6 0 0 611436 0 0 20480 READY a",    // no sample: 108
        "9 0 4096 612562 1 0 12288 READY s", // delay 4: 102
        "12 0 0 576000 0 0 12288 READY s",   // base 90: 614,400 * 90 / 96, and no more
        "14 0 0 576000 0 0 8192 READY s",    // delay 10: no more either
        "20 0 0 568948 0 0 4096 READY a",    // two losses of 4,096; no sample: 116
        "23 0 0 569972 0 0 0 IDLE 1",        // EV 0 is avoided until 1,480
    ];
    for line in expected {
        assert!(text.lines().any(|l| l == line), "{line}\n{text}");
    }
}

#[test]
fn lost_acks_leave_the_ledger_of_all_acks() {
    let examples = examples();
    let all = text(&examples, "all-acks");
    let lost = text(&examples, "lost-acks");
    assert_eq!(
        all.lines().last(),
        Some("17 0 4096 614400 1 0 4096 READY s")
    );
    // The newest is record 13 here; those after it change nothing and measure nothing.
    let from_newest: Vec<&str> = lost.lines().skip(13).collect();
    assert_eq!(
        from_newest,
        [
            "13 0 4096 614400 1 0 4096 READY s",
            "14 0 4096 614400 1 0 4096 READY g",
            "15 0 4096 614400 1 0 4096 READY g",
        ]
    );
}
