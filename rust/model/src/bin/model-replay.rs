//! `model-replay [FILE]`: replays an event log from the file, or from standard input, to text.

use std::io::{self, Read, Write};
use std::process::ExitCode;

fn main() -> ExitCode {
    match run() {
        Ok(()) => ExitCode::SUCCESS,
        Err(error) => {
            eprintln!("model-replay: {error}");
            ExitCode::FAILURE
        }
    }
}

fn run() -> io::Result<()> {
    let log = read_log()?;
    io::stdout().write_all(model::replay(&log).as_bytes())
}

fn read_log() -> io::Result<Vec<u8>> {
    let mut arguments = std::env::args_os().skip(1);
    match (arguments.next(), arguments.next()) {
        (Some(file), None) => std::fs::read(file),
        (None, _) => {
            let mut log = Vec::new();
            io::stdin().read_to_end(&mut log)?;
            Ok(log)
        }
        _ => Err(io::Error::other("usage: model-replay [FILE]")),
    }
}
