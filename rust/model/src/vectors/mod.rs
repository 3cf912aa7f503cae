//! The bundled logs: small logs of known content, each with the text that its replay prints and
//! how much of it is written back, and the examples. Another implementation is held to them.

mod basics;
mod build;
mod ceiling;
mod class;
mod evs;
mod flows;
mod ledger;
mod long;
mod malformed;
mod refusals;
mod samples;
mod sampling;
mod window;

use crate::log::Reader;
use crate::replay::replay;

/// A log and the name of its file, without the ending.
#[derive(Clone, Debug, PartialEq, Eq)]
pub struct Vector {
    pub name: String,
    pub log: Vec<u8>,
}

impl Vector {
    pub fn file_name(&self) -> String {
        format!("{}.log", self.name)
    }
}

/// Every bundled log, in the order in which it is replayed. The long ones come last.
pub fn bundled() -> Vec<Vector> {
    [
        basics::logs(),
        refusals::logs(),
        ledger::logs(),
        samples::logs(),
        sampling::logs(),
        window::logs(),
        ceiling::logs(),
        evs::logs(),
        flows::logs(),
        malformed::logs(),
        long::logs(),
    ]
    .concat()
}

/// The worked example of 01 and the logs of the class.
pub fn examples() -> Vec<Vector> {
    let mut examples = vec![basics::worked()];
    examples.extend(class::logs());
    examples
}

/// The names of the bundled logs' files, one a line.
pub fn args() -> String {
    lines(|vector| vector.file_name() + "\n")
}

/// What is printed of the bundled logs: each log's name, the text of its replay, and how many of
/// its bytes are written back from the records that it is read as.
pub fn stdout() -> String {
    lines(|vector| {
        let (name, text) = (vector.file_name(), replay(&vector.log));
        let (back, length) = (readable(&vector.log), vector.log.len());
        format!("log {name}\n{text}back {back} of {length}\n")
    })
}

/// How many bytes of a log its records have, up to its end or the first that is refused. A replay
/// may have stopped before: a second settings record is read like any other.
pub fn readable(log: &[u8]) -> usize {
    let mut reader = Reader::new(log);
    while let Ok(Some(_)) = reader.next_record() {}
    reader.offset()
}

fn lines(of_one: impl Fn(&Vector) -> String) -> String {
    bundled().iter().map(of_one).collect()
}

/// A file to be written: its path below the root and its bytes.
#[derive(Clone, Debug, PartialEq, Eq)]
pub struct File {
    pub path: String,
    pub bytes: Vec<u8>,
}

/// The folder of the bundled logs below the root.
pub const DATA: &str = "crates/test_vectors/data";

/// Every file that is made from the bundled logs and the examples.
pub fn files() -> Vec<File> {
    let file = |path: &str, bytes: Vec<u8>| File {
        path: path.to_string(),
        bytes,
    };
    let mut files = vec![
        file("crates/test_vectors/args", args().into_bytes()),
        file("crates/test_vectors/stdout", stdout().into_bytes()),
    ];
    for (folder, vectors) in [(DATA, bundled()), ("examples", examples())] {
        for vector in vectors {
            let path = format!("{folder}/{}", vector.file_name());
            files.push(file(&path, vector.log));
        }
    }
    files
}
