use super::replay::report;
use crate::logs::{damage, generated, long, LONG_EVERY};
use crate::tally::Tally;
use model::{Report, Rng};
use std::io::Write;
use std::path::{Path, PathBuf};
use std::process::{Command, Output, Stdio};
use std::{env, fs, io, process, thread};

/// The variable that names another program, for this processor.
const PROGRAM: &str = "NSCC_PROGRAM";

/// How the program is run: by itself, or under an emulator on processors other than x86-64.
/// `Err` is a message that it is missing.
pub fn program() -> Result<Command, String> {
    let root = Path::new(env!("CARGO_MANIFEST_DIR")).join("../..");
    let named = env::var_os(PROGRAM).map(PathBuf::from);
    let native = named.is_some() || cfg!(target_arch = "x86_64");
    let program = named.unwrap_or_else(|| root.join("target/bin/nscc"));
    if !program.is_file() {
        let program = program.display();
        return Err(format!(
            "{program} is missing. Make it with `tools/prove nscc` at the repository's root, \
             or name it in {PROGRAM}."
        ));
    }
    if native {
        return Ok(Command::new(program));
    }
    let mut command = Command::new(root.join("tools/x86-64"));
    command.arg("run").arg(program);
    Ok(command)
}

/// What the program prints of a log.
struct Print {
    /// The arguments before the log.
    options: &'static [&'static str],
    /// What the model prints.
    model: fn(&[u8]) -> String,
}

/// The lines of 01.
const LINES: Print = Print {
    options: &[],
    model: model::replay,
};

/// The run report of M-105.
const REPORT: Print = Print {
    options: &["-r"],
    model: |log| model::report(log).to_string(),
};

pub fn run(seed: u64, tally: &mut Tally) -> Result<(), String> {
    let log = compare_seed(&LINES, seed, tally)?;
    count(&model::replay(&log), tally);
    Ok(())
}

/// The same logs, by their reports.
pub fn run_report(seed: u64, tally: &mut Tally) -> Result<(), String> {
    let log = compare_seed(&REPORT, seed, tally)?;
    count_report(&model::report(&log), tally);
    Ok(())
}

/// The log of this seed, on which both agree.
fn compare_seed(print: &Print, seed: u64, tally: &mut Tally) -> Result<Vec<u8>, String> {
    let mut rng = Rng::new(seed);
    let log = if seed.is_multiple_of(LONG_EVERY) {
        long(seed)
    } else {
        let log = generated(&mut rng, 1_000);
        let damaged = damage(&mut rng, &log);
        if rng.one_in(2) {
            log
        } else {
            damaged
        }
    };
    let named = rng.one_in(2);
    tally.cases += 1;
    compare(print, &log, named).map_err(|difference| {
        let fails = |log: &[Vec<u8>]| compare(print, &log.concat(), named).is_err();
        report(&log, &difference, fails)
    })?;
    Ok(log)
}

impl Print {
    /// What the program says of a log, in a file or on its standard input.
    fn output(&self, log: &[u8], named: bool) -> Result<Output, String> {
        let mut program = program()?;
        program.args(self.options);
        let output = if named {
            from_file(program, log)
        } else {
            from_input(program, log)
        };
        output.map_err(|error| format!("the program: {error}"))
    }
}

fn compare(print: &Print, log: &[u8], named: bool) -> Result<(), String> {
    let expected = (print.model)(log);
    let output = print.output(log, named)?;
    if output.status.code().is_none() {
        return Err(format!("the program died: {}", output.status));
    }
    if output.stdout == expected.as_bytes() {
        return Ok(());
    }
    let difference = difference(&String::from_utf8_lossy(&output.stdout), &expected);
    let said = String::from_utf8_lossy(&output.stderr);
    Err(format!("{difference} {}", said.trim_end()))
}

fn from_file(mut program: Command, log: &[u8]) -> io::Result<Output> {
    let name = format!("nscc-{}-{:?}.log", process::id(), thread::current().id());
    let file = env::temp_dir().join(name);
    fs::write(&file, log)?;
    let output = program.arg(&file).output();
    fs::remove_file(&file)?;
    output
}

fn from_input(mut program: Command, log: &[u8]) -> io::Result<Output> {
    let mut child = program
        .stdin(Stdio::piped())
        .stdout(Stdio::piped())
        .stderr(Stdio::piped())
        .spawn()?;
    let input = child.stdin.take();
    thread::scope(|scope| {
        scope.spawn(move || {
            // A program that stops reading is seen by what it prints.
            input.map(|mut input| input.write_all(log))
        });
        child.wait_with_output()
    })
}

pub fn difference(ours: &str, expected: &str) -> String {
    let mut lines = ours.lines().zip(expected.lines()).enumerate();
    match lines.find(|(_, (ours, expected))| ours != expected) {
        Some((i, (ours, expected))) => {
            format!("line {}: `{ours}`, the model's `{expected}`", i + 1)
        }
        None => format!(
            "{} lines ({} bytes), the model's {} ({} bytes)",
            ours.lines().count(),
            ours.len(),
            expected.lines().count(),
            expected.len()
        ),
    }
}

pub fn count(text: &str, tally: &mut Tally) {
    for line in text.lines().skip(1) {
        let mut words = line.split(' ').skip(1);
        let number = words.next().and_then(|word| word.parse().ok());
        // An EV or an offset of one digit is a character too, and counts for nothing.
        let letter = words.last().and_then(|word| word.parse().ok());
        if let Some(number) = number {
            tally.tell(number, letter);
        }
    }
}

fn count_report(report: &Report, tally: &mut Tally) {
    tally.answers[0] += report.accepted;
    for (sum, times) in tally.answers.iter_mut().zip(report.refused) {
        *sum += times;
    }
    // In the order of the letters of M-103.
    let kinds = [
        report.taken,
        report.cut,
        report.gone,
        report.ambiguous,
        report.not_positive,
    ];
    for (sum, times) in tally.samples.iter_mut().zip(kinds) {
        *sum += times;
    }
}
