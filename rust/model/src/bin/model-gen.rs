//! `model-gen traffic|lossy|marked|winding|wide|flows|hostile|bulk SEED RECORDS`: writes a
//! generated event log to standard output.

use model::gen;
use std::io::{self, Write};
use std::process::ExitCode;

const USAGE: &str =
    "usage: model-gen traffic|lossy|marked|winding|wide|flows|hostile|bulk SEED RECORDS";

fn main() -> ExitCode {
    let arguments: Vec<String> = std::env::args().skip(1).collect();
    let written = generate(&arguments)
        .ok_or_else(|| io::Error::other(USAGE))
        .and_then(|log| io::stdout().write_all(&log));
    match written {
        Ok(()) => ExitCode::SUCCESS,
        Err(error) => {
            eprintln!("model-gen: {error}");
            ExitCode::FAILURE
        }
    }
}

fn generate(arguments: &[String]) -> Option<Vec<u8>> {
    let [kind, seed, records] = arguments else {
        return None;
    };
    let seed = seed.parse().ok()?;
    let records = records.parse().ok()?;
    match kind.as_str() {
        "traffic" => Some(gen::traffic(seed, records)),
        "lossy" => Some(gen::lossy(seed, records)),
        "marked" => Some(gen::marked(seed, records)),
        "winding" => Some(gen::winding(seed, records)),
        "wide" => Some(gen::wide(seed, records)),
        "flows" => Some(gen::flows(seed, records)),
        "hostile" => Some(gen::hostile(seed, records)),
        "bulk" => Some(gen::bulk(seed, records)),
        _ => None,
    }
}
