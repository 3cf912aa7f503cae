//! Another program that replays logs, against which the library is held. `PROGRAM time LOG` writes
//! one line: the log's name, `N records`, `N ns/record` and the sum of all answers.

use crate::whole::Measured;
use std::path::Path;
use std::process::{Command, Stdio};

/// What the program makes of a log. Whatever it says beside its line is shown.
pub fn measure(program: &Path, log: &Path) -> Result<Measured, String> {
    let mut command = Command::new(program);
    command.arg("time").arg(log).stderr(Stdio::inherit());
    let program = program.display();
    let ran = command.output();
    let ran = ran.map_err(|error| format!("{program} can't be run: {error}"))?;
    if !ran.status.success() {
        return Err(format!("{program} ended with {}", ran.status));
    }
    let text = String::from_utf8_lossy(&ran.stdout);
    read(&text).ok_or_else(|| {
        let start: String = text.chars().take(80).collect();
        format!("{program} wrote {start:?}, not `NAME N records N ns/record SUM`")
    })
}

fn read(text: &str) -> Option<Measured> {
    let mut lines = text.lines();
    let words: Vec<&str> = lines.next()?.split_whitespace().collect();
    // A name may have several words.
    let [_, .., records, "records", nanoseconds, "ns/record", sum] = words[..] else {
        return None;
    };
    let measured = Measured {
        records: records.parse().ok()?,
        nanoseconds: time_of(nanoseconds)?,
        sum: sum_of(sum)?,
    };
    lines.next().is_none().then_some(measured)
}

fn time_of(word: &str) -> Option<f64> {
    let time: f64 = word.parse().ok()?;
    (time.is_finite() && time >= 0.0).then_some(time)
}

/// Sixteen digits.
fn sum_of(word: &str) -> Option<u64> {
    let digits = word.len() == 16 && word.bytes().all(|digit| digit.is_ascii_hexdigit());
    u64::from_str_radix(word, 16).ok().filter(|_| digits)
}

#[cfg(test)]
mod tests {
    use super::{measure, read};
    use crate::whole::Measured;
    use std::path::Path;

    const LINE: &str =
        "calm.log                   200000 records   13.04 ns/record  0280d2c93f121252\n";

    const MEASURED: Measured = Measured {
        records: 200_000,
        nanoseconds: 13.04,
        sum: 0x0280_d2c9_3f12_1252,
    };

    #[test]
    fn a_line_is_read() {
        assert_eq!(read(LINE), Some(MEASURED));
        assert_eq!(read(LINE.trim_end()), Some(MEASURED));
        let name = LINE.replace("calm.log", "1 records of a calm day.log");
        assert_eq!(read(&name), Some(MEASURED));
    }

    #[test]
    fn anything_else_is_not() {
        let edits = [
            ("calm.log", ""),
            ("200000", ""),
            ("200000", "-1"),
            ("200000", "2e5"),
            ("200000", "99999999999999999999"),
            ("records", "lines"),
            ("13.04", "nan"),
            ("13.04", "inf"),
            ("13.04", "-13.04"),
            ("13.04", "13,04"),
            ("ns/record", "ns"),
            ("0280d2c93f121252", ""),
            ("0280d2c93f121252", "280d2c93f121252"),
            ("0280d2c93f121252", "00280d2c93f121252"),
            ("0280d2c93f121252", "+280d2c93f121252"),
            ("0280d2c93f121252", "0280d2c93f12125g"),
            ("0280d2c93f121252", "0280d2c93f121252 more"),
        ];
        for (from, to) in edits {
            assert_eq!(read(&LINE.replace(from, to)), None, "{from} -> {to}");
        }
        assert_eq!(read(""), None);
        assert_eq!(read("\n"), None);
        assert_eq!(read(&format!("\n{LINE}")), None);
        assert_eq!(read(&format!("{LINE}{LINE}")), None);
    }

    fn refused(program: &str) -> String {
        let measured = measure(Path::new(program), Path::new("calm.log"));
        measured.expect_err("it is no such program")
    }

    #[test]
    fn a_program_that_is_none_is_told() {
        assert!(refused("/nowhere/at-all").starts_with("/nowhere/at-all can't be run: "));
        assert_eq!(refused("false"), "false ended with exit status: 1");
        assert!(refused("true").starts_with("true wrote \"\", not "));
        assert!(refused("echo").starts_with("echo wrote \"time calm.log\\n\", not "));
    }
}
