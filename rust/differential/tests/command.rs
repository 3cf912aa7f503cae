//! The command as a shell user meets it: `tools/nscc`, its options, its messages and its status.

use std::fs;
use std::path::{Path, PathBuf};
use std::process::{Command, Output, Stdio};

const ROOT: &str = concat!(env!("CARGO_MANIFEST_DIR"), "/../..");

fn worked() -> String {
    format!("{ROOT}/examples/worked.log")
}

fn nscc() -> Command {
    let mut command = Command::new(format!("{ROOT}/tools/nscc"));
    command.stdin(Stdio::null());
    command
}

/// The command with these words, in a shell that redirects as `redirected` says.
fn redirected(words: &str, redirected: &str) -> Output {
    let line = format!("exec {ROOT}/tools/nscc {words} {redirected}");
    let output = Command::new("sh").args(["-c", &line]).output();
    output.expect("a shell")
}

fn run(words: &[&str]) -> Output {
    nscc().args(words).output().expect("tools/nscc runs")
}

fn status(output: &Output) -> i32 {
    output.status.code().expect("no signal")
}

fn said(bytes: &[u8]) -> &str {
    std::str::from_utf8(bytes).expect("text")
}

/// Every line on standard error begins with the program's name.
fn messages(output: &Output) -> Vec<&str> {
    let lines: Vec<&str> = said(&output.stderr).lines().collect();
    for line in &lines {
        assert!(line.starts_with("nscc: "), "{line}");
    }
    lines
}

/// It ended with this status, and told this and nothing else.
fn told(output: &Output, wanted: i32, lines: &[&str]) {
    assert_eq!(messages(output), lines);
    assert_eq!(status(output), wanted);
}

const USAGE: &str = "nscc: usage: nscc [-p] [-r] [--] [LOG]";

#[test]
fn a_log_is_replayed() {
    let output = run(&[&worked()]);
    told(&output, 0, &[]);
    let lines = fs::read_to_string(format!("{ROOT}/crates/nscc/stdout"));
    assert_eq!(said(&output.stdout), lines.expect("the worked example"));
}

#[test]
fn a_dash_is_standard_input() {
    let wanted = run(&[&worked()]).stdout;
    for words in [&["-"][..], &["--", "-"], &[]] {
        let log = fs::File::open(worked()).expect("the worked example");
        let output = nscc().args(words).stdin(log).output();
        let output = output.expect("tools/nscc runs");
        told(&output, 0, &[]);
        assert_eq!(output.stdout, wanted, "{words:?}");
    }
}

#[test]
fn help_and_version() {
    let help = run(&["--help"]);
    told(&help, 0, &[]);
    assert!(said(&help.stdout).starts_with("usage: nscc "));
    for option in ["-p", "--progress", "-r", "--report", "-h", "--version"] {
        assert!(said(&help.stdout).contains(option), "{option}");
    }
    assert_eq!(run(&["-h"]).stdout, help.stdout);
    let version = run(&["--version"]);
    told(&version, 0, &[]);
    assert_eq!(said(&version.stdout), "nscc 1.0.0\n");
}

#[test]
fn an_unknown_option_is_told_with_the_usage() {
    for option in ["-x", "--reports", "-pr", "---"] {
        let output = run(&[option, &worked()]);
        told(
            &output,
            2,
            &[&format!("nscc: {option}: no such option"), USAGE],
        );
        assert!(output.stdout.is_empty());
    }
}

#[test]
fn two_logs_are_a_wrong_usage() {
    let output = run(&[&worked(), &worked()]);
    told(&output, 2, &[USAGE]);
    assert!(output.stdout.is_empty());
}

#[test]
fn behind_two_dashes_nothing_is_an_option() {
    let output = run(&["--", "-r"]);
    told(&output, 1, &["nscc: -r: No such file or directory"]);
}

#[test]
fn progress_and_report_together() {
    let report = run(&["-r", &worked()]);
    told(&report, 0, &[]);
    assert!(said(&report.stdout).starts_with("accepted 4\n"));
    for words in [["-p", "-r"], ["-r", "-p"], ["--report", "--progress"]] {
        let both = run(&[words[0], words[1], &worked()]);
        assert_eq!(both.stdout, report.stdout, "{words:?}");
        told(&both, 0, &["nscc: 5 records"]);
    }
}

#[test]
fn progress_beside_lines() {
    let output = run(&["-p", &worked()]);
    told(&output, 0, &["nscc: 5 records"]);
    assert_eq!(output.stdout, run(&[&worked()]).stdout);
}

#[test]
fn a_missing_log() {
    let output = run(&["no-such.log"]);
    told(
        &output,
        1,
        &["nscc: no-such.log: No such file or directory"],
    );
    assert!(output.stdout.is_empty());
}

#[test]
fn a_directory() {
    for words in [&[ROOT][..], &["-r", ROOT]] {
        let output = run(words);
        told(&output, 1, &[&format!("nscc: {ROOT}: Is a directory")]);
    }
}

/// A file that cannot be read: by its mode, or, where the user may read every file, one whose first bytes are never there.
fn unreadable() -> (PathBuf, &'static str) {
    use std::os::unix::fs::PermissionsExt;
    let path = Path::new(env!("CARGO_TARGET_TMPDIR")).join("unreadable.log");
    fs::write(&path, b"").expect("a file");
    fs::set_permissions(&path, fs::Permissions::from_mode(0o0)).expect("a mode");
    if fs::File::open(&path).is_ok() {
        return ("/proc/self/mem".into(), "Input/output error");
    }
    (path, "Permission denied")
}

#[test]
fn an_unreadable_log() {
    let (path, why) = unreadable();
    let name = path.to_str().expect("text");
    for words in [&[name][..], &["-r", name]] {
        told(&run(words), 1, &[&format!("nscc: {name}: {why}")]);
    }
}

#[test]
fn a_closed_standard_output() {
    for option in ["", "-r", "--help", "--version"] {
        let output = redirected(&format!("{option} {}", worked()), ">&-");
        told(&output, 1, &["nscc: standard output: Bad file descriptor"]);
    }
}

#[test]
fn a_full_standard_output() {
    for option in ["", "-r", "--help", "--version"] {
        let output = redirected(&format!("{option} {}", worked()), ">/dev/full");
        told(
            &output,
            1,
            &["nscc: standard output: No space left on device"],
        );
    }
}

#[test]
fn a_closed_standard_input() {
    let output = redirected("", "<&-");
    told(&output, 1, &["nscc: standard input: Bad file descriptor"]);
}
