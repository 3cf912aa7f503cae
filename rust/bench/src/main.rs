//! `bench`: times the proved library against the model, and plans against single calls, and prints a
//! table of each in Markdown. Both sides get the same logs and events in the same run. What they
//! answer and leave is compared before anything is timed.
//!
//! `bench [--anchor PROGRAM] LOG..`: times the library over these logs instead, and beside it a
//! program that replays them too. Then the sums of their answers are compared.

mod anchor;
mod calls;
mod chunks;
mod given;
mod logs;
mod plans;
mod replays;
mod sides;
mod sum;
mod table;
mod timing;
mod whole;

use given::{Asked, Given};
use std::env;
use std::process::ExitCode;
use table::Table;

const USAGE: &str = "\
usage: bench
       bench [--anchor PROGRAM] LOG..";

const EMULATED: &str = "\
The library runs under an emulator here, where a time says nothing. To measure, name a folder with
an archive for this processor in NSCC_ARCHIVE_DIR.";

const HOW: &str = "\
Both sides gave the same answers and left the same memory before anything was timed. Setting up
clears the buffers first, on both. Times are the best of several rounds, ours and the model's in turn.
";

const SINGLE: &str = "
A plan beside single calls of the library in a copy of the memory: 64 sends, or 64 choices and sends.
Copying is part of their time.
";

fn main() -> ExitCode {
    match Asked::of(env::args_os().skip(1)) {
        Some(Asked::Table) => print_table(),
        Some(Asked::Logs(given)) => print_logs(&given),
        None => {
            eprintln!("{USAGE}");
            ExitCode::from(2)
        }
    }
}

fn print_logs(given: &Given) -> ExitCode {
    if nscc::raw::EMULATED {
        eprintln!("{EMULATED}");
        return ExitCode::FAILURE;
    }
    if given.print() {
        ExitCode::SUCCESS
    } else {
        ExitCode::FAILURE
    }
}

fn print_table() -> ExitCode {
    println!("Processor architecture: {}.", env::consts::ARCH);
    if nscc::raw::EMULATED {
        println!("{EMULATED}");
        return ExitCode::SUCCESS;
    }
    println!("{HOW}");
    let mut table = Table::beside("model");
    replays::kinds(&mut table);
    replays::flows(&mut table);
    replays::paths(&mut table);
    replays::rooms(&mut table);
    chunks::lengths(&mut table);
    replays::lengths(&mut table);
    replays::acks(&mut table);
    calls::events(&mut table);
    calls::choices(&mut table);
    plans::beside_model(&mut table);
    calls::acks(&mut table);
    calls::full_test(&mut table);
    print!("{table}");
    println!("{SINGLE}");
    let mut table = Table::beside("single calls");
    plans::beside_calls(&mut table);
    print!("{table}");
    ExitCode::SUCCESS
}
