//! How the program reads and writes: a log's end is an end, whichever read met it, and output that
//! is lost is told.

use differential::program;
use model::gen::E;
use model::log::append;
use model::Record;
use nscc::raw::EMULATED;
use std::fs::{self, File};
use std::io::{Read, Seek, Write};
use std::os::fd::OwnedFd;
use std::os::unix::net::UnixDatagram;
use std::process::{Child, ChildStdout, Command, Output, Stdio};
use std::sync::{Mutex, MutexGuard, PoisonError};
use std::thread::sleep;
use std::time::{Duration, Instant};
use std::{env, process};

/// What has not come by then does not come.
const LATEST: Duration = Duration::from_secs(20);

/// Under an emulator one cut in so many.
const SHARE: usize = if EMULATED { 10 } else { 1 };

/// The bytes of the log's first record.
const FIRST: usize = 61;

/// Held by the test that runs: a program that another test starts may hold a copy of a pipe's end
/// from its fork to its exec, and an output that a test closes is then not lost yet.
static ALONE: Mutex<()> = Mutex::new(());

const HEADER: &str = "rec ans inflight cwnd flying waiting backlog state\n";

/// Settings of 512 EVs, a record of 59 bytes and its length, and three records behind it.
fn log() -> Vec<u8> {
    let (flow, size, psn, resend) = (None, 4096, 0, 0);
    let records = [
        Record::Settings {
            numbers: E,
            first_psn: 0,
            flags: 0,
            ev_count: 512,
        },
        Record::NewData {
            time: 0,
            flow,
            bytes: 8192,
        },
        Record::Send {
            time: 10,
            flow,
            size,
            psn,
            resend,
        },
        Record::Path {
            time: 20,
            flow: Some(1),
        },
    ];
    let mut log = Vec::new();
    for record in &records {
        append(record, &mut log).expect("a record that can be written");
    }
    log
}

fn alone() -> MutexGuard<'static, ()> {
    ALONE.lock().unwrap_or_else(PoisonError::into_inner)
}

fn nscc(options: &[&str]) -> Command {
    let mut nscc = program().expect("the program");
    nscc.args(options);
    nscc
}

/// The same through a shell, with this before `"$@"` and that behind it.
fn through_shell(before: &str, nscc: &Command, behind: &str) -> Command {
    let mut shell = Command::new("sh");
    let script = format!("{before} exec \"$@\" {behind}");
    shell.args(["-c", &script, "sh"]);
    shell.arg(nscc.get_program()).args(nscc.get_args());
    shell
}

fn text(bytes: &[u8]) -> &str {
    std::str::from_utf8(bytes).expect("text")
}

/// A log in a file of its own, from its start on.
fn in_file(name: &str, log: &[u8]) -> File {
    let path = env::temp_dir().join(format!("nscc-{}-{name}.log", process::id()));
    fs::write(&path, log).expect("a file");
    let file = File::open(&path).expect("the file");
    fs::remove_file(&path).expect("the file");
    file
}

/// What the program makes of datagrams, a read each, and what of them it leaves unread.
fn read_by_read(options: &[&str], reads: &[&[u8]], latest: Duration) -> (Output, Vec<Vec<u8>>) {
    let (ours, theirs) = UnixDatagram::pair().expect("a pair of sockets");
    theirs.set_read_timeout(Some(latest)).expect("a time");
    for read in reads {
        assert_eq!(ours.send(read).expect("room for it"), read.len());
    }
    let unread = theirs.try_clone().expect("a copy");
    let stdin = Stdio::from(OwnedFd::from(theirs));
    let output = nscc(options).stdin(stdin).output().expect("a run");
    unread.set_nonblocking(true).expect("a socket");
    let mut left = Vec::new();
    let mut room = [0; 4096];
    while let Ok(length) = unread.recv(&mut room) {
        left.push(room[..length].to_vec());
    }
    (output, left)
}

/// A file that grows, a terminal and a FIFO with a second writer may all give a read nothing and
/// the next one bytes; here it is certain. What the first reads gave is the log.
fn ends_at_first_end(options: &[&str], model: fn(&[u8]) -> String) {
    let log = log();
    for cut in (0..=log.len()).step_by(SHARE) {
        let (front, rest) = log.split_at(cut);
        let reads: &[&[u8]] = &[front, b"", rest];
        let reads = if cut == 0 { &reads[1..] } else { reads };
        let (output, left) = read_by_read(options, reads, LATEST);
        assert_eq!(text(&output.stdout), model(front), "cut at {cut}");
        assert_eq!(text(&output.stderr), "", "cut at {cut}");
        assert_eq!(left, [rest], "cut at {cut}");
    }
}

#[test]
fn an_end_is_an_end() {
    let _alone = alone();
    let cut = &log()[..FIRST - 1];
    assert_eq!(model::replay(cut), format!("{HEADER}1 12 0\n"));
    assert_eq!(model::replay(b""), HEADER);
    ends_at_first_end(&[], model::replay);
}

#[test]
fn an_end_is_an_end_of_a_report() {
    let _alone = alone();
    ends_at_first_end(&["-r"], |log| model::report(log).to_string());
}

#[test]
fn a_failed_read_is_no_end() {
    let _alone = alone();
    let log = log();
    let latest = Duration::from_millis(50);
    let why = "nscc: standard input: Resource temporarily unavailable\n";
    for (cut, whole) in [(1, 0), (FIRST - 1, 0), (FIRST, FIRST), (FIRST + 9, FIRST)] {
        let (output, _) = read_by_read(&[], &[&log[..cut]], latest);
        // A record that is cut is not refused, since the log has not ended.
        let expected = model::replay(&log[..whole]);
        assert_eq!(text(&output.stdout), expected, "cut at {cut}");
        assert_eq!(text(&output.stderr), why, "cut at {cut}");
        let (output, _) = read_by_read(&["-r"], &[&log[..cut]], latest);
        assert_eq!(text(&output.stdout), "", "cut at {cut}");
        assert_eq!(text(&output.stderr), why, "cut at {cut}");
    }
    let folder = env::temp_dir();
    let output = nscc(&[]).arg(&folder).output().expect("a run");
    let why = format!("nscc: {}: Is a directory\n", folder.display());
    assert_eq!(text(&output.stdout), HEADER);
    assert_eq!(text(&output.stderr), why);
}

/// Lines that can't be written are told, and nothing is read where not even the header can be.
#[test]
fn a_full_disk_is_told() {
    let _alone = alone();
    let why = "nscc: standard output: No space left on device\n";
    let log = log();
    for (options, read) in [(&[] as &[&str], 0), (&["-p"], 0), (&["-r"], log.len())] {
        let mut file = in_file(&format!("full{}", options.concat()), &log);
        let stdin = file.try_clone().expect("a copy");
        let full = File::options().write(true).open("/dev/full").expect("it");
        let output = nscc(options).stdin(stdin).stdout(full).output();
        let output = output.expect("a run");
        assert_eq!(text(&output.stderr), why, "{options:?}");
        let at = file.stream_position().expect("a place");
        assert_eq!(at, read as u64, "{options:?}");
    }
}

#[test]
fn a_closed_output_is_told() {
    let _alone = alone();
    let why = "nscc: standard output: Bad file descriptor\n";
    for options in [&[] as &[&str], &["-r"]] {
        let stdin = in_file(&format!("closed{}", options.concat()), &log());
        let mut closed = through_shell("", &nscc(options), ">&-");
        let output = closed.stdin(stdin).output().expect("a run");
        assert_eq!(text(&output.stderr), why, "{options:?}");
    }
}

/// The exit of a program whose input stays open: it ends by itself or is ended.
fn ended(child: &mut Child) -> bool {
    let start = Instant::now();
    while start.elapsed() < LATEST {
        if child.try_wait().expect("a child").is_some() {
            return true;
        }
        sleep(Duration::from_millis(5));
    }
    child.kill().expect("a child");
    false
}

fn take_header(output: &mut ChildStdout) {
    let mut header = vec![0; HEADER.len()];
    output.read_exact(&mut header).expect("a header");
    assert_eq!(text(&header), HEADER);
}

/// The reader goes away behind the header: the first write of lines that fails ends the reading,
/// though the log goes on.
#[test]
fn lines_that_are_lost_end_the_reading() {
    let _alone = alone();
    let mut child = through_shell("trap '' PIPE;", &nscc(&[]), "")
        .stdin(Stdio::piped())
        .stdout(Stdio::piped())
        .stderr(Stdio::piped())
        .spawn()
        .expect("a run");
    let mut input = child.stdin.take().expect("its input");
    take_header(&mut child.stdout.take().expect("its output"));
    input.write_all(&log()).expect("a log");
    assert!(ended(&mut child), "it reads on");
    let mut said = String::new();
    let mut errors = child.stderr.take().expect("its messages");
    errors.read_to_string(&mut said).expect("text");
    assert_eq!(said, "nscc: standard output: Broken pipe\n");
    drop(input);
}
