use super::replay::report;
use super::text::{count, difference, program};
use crate::logs::{damage, generated};
use crate::tally::Tally;
use model::log::parse_front;
use model::Rng;
use std::io::{BufRead, BufReader, Write};
use std::process::{ChildStdin, ChildStdout, Stdio};
use std::sync::mpsc::{self, Receiver};
use std::thread;
use std::time::Duration;

/// A line that has not come by then does not come.
const LATEST: Duration = Duration::from_secs(20);

pub fn run(seed: u64, tally: &mut Tally) -> Result<(), String> {
    let mut rng = Rng::new(seed);
    let records = rng.pick(&[2, 10, 40, 300]);
    let log = generated(&mut rng, records);
    let damaged = damage(&mut rng, &log);
    let log = if rng.one_in(2) { log } else { damaged };
    let cuts = rng.next_u64();
    tally.cases += 1;
    let text = compare(&log, cuts).map_err(|difference| {
        let fails = |log: &[Vec<u8>]| compare(&log.concat(), cuts).is_err();
        report(&log, &difference, fails)
    })?;
    count(&text, tally);
    Ok(())
}

/// The text on which both agree.
fn compare(log: &[u8], cuts: u64) -> Result<String, String> {
    let mut program = program()?;
    program.stdin(Stdio::piped()).stdout(Stdio::piped());
    let mut child = program
        .spawn()
        .map_err(|error| format!("the program: {error}"))?;
    let (Some(input), Some(output)) = (child.stdin.take(), child.stdout.take()) else {
        return Err("the program has no input or no output".into());
    };
    let fed = feed(input, &lines_of(output), log, cuts);
    let status = child
        .wait()
        .map_err(|error| format!("the program: {error}"))?;
    if status.code().is_none() {
        return Err(format!("the program died: {status}"));
    }
    fed
}

/// Hands the log in piece by piece, cut anywhere, and the next one only when there is a line for
/// each record that is there.
fn feed(
    mut input: ChildStdin,
    lines: &Receiver<String>,
    log: &[u8],
    cuts: u64,
) -> Result<String, String> {
    let expected = model::replay(log);
    let all = expected.lines().count();
    let mut rng = Rng::new(cuts);
    let longest = match log.len() {
        0..=1_000 => rng.pick(&[1, 6, 70]),
        _ => rng.pick(&[70, 400, 5_000]),
    };
    let mut text = String::new();
    let mut come = 0;
    let mut at = 0;
    loop {
        let due = all.min(1 + records_in(&log[..at]));
        while come < due {
            let line = lines.recv_timeout(LATEST);
            text += &line.map_err(|_| format!("no line {} after {at} bytes", come + 1))?;
            come += 1;
        }
        if at == log.len() {
            break;
        }
        let to = log.len().min(at + rng.between(1, longest) as usize);
        // A program whose replay has stopped reads no more; what it prints is seen all the same.
        let _ = input.write_all(&log[at..to]);
        at = to;
    }
    drop(input);
    text.extend(lines);
    if text == expected {
        return Ok(expected);
    }
    Err(difference(&text, &expected))
}

/// How many records can be answered, of which the last may be malformed; an unfinished one can't.
fn records_in(mut log: &[u8]) -> usize {
    let mut records = 0;
    loop {
        match parse_front(log) {
            Ok(Some((_, length))) => log = &log[length..],
            Ok(None) => return records,
            Err(_) => return records + 1,
        }
        records += 1;
    }
}

/// The program's lines, as they come.
fn lines_of(output: ChildStdout) -> Receiver<String> {
    let (to, lines) = mpsc::channel();
    thread::spawn(move || {
        let mut output = BufReader::new(output);
        let mut line = String::new();
        while output.read_line(&mut line).is_ok_and(|length| length > 0) {
            if to.send(line.split_off(0)).is_err() {
                break;
            }
        }
    });
    lines
}
