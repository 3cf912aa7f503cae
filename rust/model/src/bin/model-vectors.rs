//! `model-vectors ROOT`: writes the bundled logs, their expected text and the examples below ROOT.

use std::fs;
use std::io;
use std::path::Path;
use std::process::ExitCode;

fn main() -> ExitCode {
    match run() {
        Ok(()) => ExitCode::SUCCESS,
        Err(error) => {
            eprintln!("model-vectors: {error}");
            ExitCode::FAILURE
        }
    }
}

fn run() -> io::Result<()> {
    let mut arguments = std::env::args_os().skip(1);
    match (arguments.next(), arguments.next()) {
        (Some(root), None) => write_all(Path::new(&root)),
        _ => Err(io::Error::other("usage: model-vectors ROOT")),
    }
}

fn write_all(root: &Path) -> io::Result<()> {
    for file in model::vectors::files() {
        let path = root.join(file.path);
        if let Some(folder) = path.parent() {
            fs::create_dir_all(folder)?;
        }
        fs::write(path, file.bytes)?;
    }
    Ok(())
}
