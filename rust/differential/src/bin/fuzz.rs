//! `fuzz SECONDS [SEED]`: every kind of comparison with one seed after another, for that long, and at
//! least one round. `fuzz one KIND SEED`: one of them again.
//!
//! Each comparison runs in a process of its own, so that a crash or a call that does not end is told
//! like any other failure. Ends with 1 on a failure.

use differential::{program, Kind, Tally};
use std::process::{Child, Command, ExitCode, ExitStatus, Stdio};
use std::time::{Duration, Instant, SystemTime, UNIX_EPOCH};
use std::{env, io, thread};

const USAGE: &str = "usage: fuzz SECONDS [SEED], or fuzz one KIND SEED";
/// A comparison takes far less.
const LONGEST: Duration = Duration::from_secs(120);

fn main() -> ExitCode {
    let arguments: Vec<String> = env::args().skip(1).collect();
    let words: Vec<&str> = arguments.iter().map(String::as_str).collect();
    let answer = match words[..] {
        ["one", kind, seed] => match (kind_of(kind), seed.parse()) {
            (Some(kind), Ok(seed)) => one(kind, seed),
            _ => Err(USAGE.into()),
        },
        [seconds] => rounds(seconds, &fresh_seed().to_string()),
        [seconds, seed] => rounds(seconds, seed),
        _ => Err(USAGE.into()),
    };
    match answer {
        Ok(()) => ExitCode::SUCCESS,
        Err(report) => {
            eprintln!("{report}");
            ExitCode::FAILURE
        }
    }
}

fn kind_of(name: &str) -> Option<Kind> {
    Kind::ALL.into_iter().find(|kind| kind.name() == name)
}

fn fresh_seed() -> u64 {
    let now = SystemTime::now().duration_since(UNIX_EPOCH);
    now.map_or(0, |now| now.as_micros() as u64)
}

/// Prints how many cases and answers were compared.
fn one(kind: Kind, seed: u64) -> Result<(), String> {
    let mut tally = Tally::default();
    kind.run(seed, &mut tally)?;
    println!("{} {}", tally.cases, tally.calls());
    Ok(())
}

fn rounds(seconds: &str, seed: &str) -> Result<(), String> {
    let seconds = seconds.parse().map_err(|_| USAGE)?;
    let first: u64 = seed.parse().map_err(|_| USAGE)?;
    program()?;
    println!("{seconds} seconds, seeds from {first} on");
    let start = Instant::now();
    let mut sums = [(0, 0); Kind::ALL.len()];
    let mut seed = first;
    loop {
        for (kind, sum) in Kind::ALL.into_iter().zip(&mut sums) {
            let (cases, answers) = apart(kind, seed)
                .map_err(|failure| format!("seed {seed}, kind {}: {failure}", kind.name()))?;
            sum.0 += cases;
            sum.1 += answers;
        }
        seed = seed.wrapping_add(1);
        if start.elapsed() >= Duration::from_secs(seconds) {
            break;
        }
    }
    println!("{} seeds, nothing differs", seed.wrapping_sub(first));
    for (kind, (cases, answers)) in Kind::ALL.into_iter().zip(sums) {
        println!("{}: {cases} cases, {answers} answers", kind.name());
    }
    Ok(())
}

/// Runs one comparison in a process of its own; the report goes to standard error.
fn apart(kind: Kind, seed: u64) -> Result<(u64, u64), String> {
    let seed = seed.to_string();
    let run = || -> io::Result<(ExitStatus, Child)> {
        let mut child = Command::new(env::current_exe()?)
            .args(["one", kind.name(), &seed])
            .stdout(Stdio::piped())
            .spawn()?;
        Ok((wait(&mut child)?, child))
    };
    let (status, child) = run().map_err(|error| error.to_string())?;
    if !status.success() {
        return Err(format!(
            "failed, {status}; again: fuzz one {} {seed}",
            kind.name()
        ));
    }
    let output = child
        .wait_with_output()
        .map_err(|error| error.to_string())?;
    let text = String::from_utf8_lossy(&output.stdout);
    let mut numbers = text.split_whitespace().flat_map(str::parse);
    let (cases, answers) = (numbers.next(), numbers.next());
    Ok((cases.unwrap_or(0), answers.unwrap_or(0)))
}

/// Waits for the end of the process, and brings it about if it takes too long.
fn wait(child: &mut Child) -> io::Result<ExitStatus> {
    let start = Instant::now();
    loop {
        if let Some(status) = child.try_wait()? {
            return Ok(status);
        }
        if start.elapsed() > LONGEST {
            eprintln!("no end after {} seconds", LONGEST.as_secs());
            child.kill()?;
        }
        thread::sleep(Duration::from_millis(1));
    }
}
