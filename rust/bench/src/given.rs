//! Logs that are given on the command line: a line for each, of the library alone or beside another
//! program that replays the same log.

use crate::anchor;
use crate::whole::{Measured, Whole};
use std::ffi::OsString;
use std::fs;
use std::path::{Path, PathBuf};

/// How often the library and the other program take their turn.
const TURNS: usize = 3;

/// The least width of a name, as in the other program's line.
const NAME: usize = 24;

/// What the command line asks for.
#[derive(Debug, PartialEq, Eq)]
pub enum Asked {
    Table,
    Logs(Given),
}

/// At least one log.
#[derive(Debug, PartialEq, Eq)]
pub struct Given {
    logs: Vec<PathBuf>,
    anchor: Option<PathBuf>,
}

impl Asked {
    /// `None` where the words after the program's name ask for nothing that there is.
    pub fn of(words: impl IntoIterator<Item = OsString>) -> Option<Asked> {
        let (mut logs, mut anchor) = (Vec::new(), None);
        let mut words = words.into_iter();
        while let Some(word) = words.next() {
            if word == "--anchor" && anchor.is_none() {
                anchor = Some(PathBuf::from(words.next()?));
            } else if word.as_encoded_bytes().starts_with(b"--") {
                return None;
            } else {
                logs.push(PathBuf::from(word));
            }
        }
        match (logs.is_empty(), &anchor) {
            (false, _) => Some(Asked::Logs(Given { logs, anchor })),
            (true, None) => Some(Asked::Table),
            (true, Some(_)) => None,
        }
    }
}

impl Given {
    /// Prints a line for each log, or what is wrong with it; whether nothing was.
    pub fn print(&self) -> bool {
        let names = self.logs.iter().map(|log| name_of(log).chars().count());
        let width = names.fold(NAME, usize::max);
        let mut good = true;
        for log in &self.logs {
            match self.measure(log) {
                Ok(told) => println!("{}", told.line(&name_of(log), width)),
                Err(why) => {
                    eprintln!("bench: {}: {why}", log.display());
                    good = false;
                }
            }
        }
        good
    }

    fn measure(&self, log: &Path) -> Result<Told, String> {
        let bytes = fs::read(log).map_err(|error| error.to_string())?;
        let mut whole = Whole::new(&bytes);
        match &self.anchor {
            None => Ok(Told {
                ours: whole.measure(),
                anchors: None,
            }),
            Some(program) => in_turn(|| whole.measure(), || anchor::measure(program, log)),
        }
    }
}

/// The best of both sides, each of which must have the same answers in every turn.
fn in_turn(
    mut ours: impl FnMut() -> Measured,
    mut anchors: impl FnMut() -> Result<Measured, String>,
) -> Result<Told, String> {
    let mut turn = || -> Result<Told, String> {
        let (ours, anchors) = (ours(), anchors()?);
        alike(&ours, &anchors)?;
        let anchors = Some(anchors);
        Ok(Told { ours, anchors })
    };
    let mut told = turn()?;
    for _ in 1..TURNS {
        told = told.best(turn()?);
    }
    Ok(told)
}

/// A log's name without its folders.
fn name_of(log: &Path) -> String {
    let name = log.file_name().unwrap_or(log.as_os_str());
    name.to_string_lossy().into_owned()
}

/// Both sides gave the same answers, as far as their sums show it.
fn alike(ours: &Measured, anchors: &Measured) -> Result<(), String> {
    if (ours.records, ours.sum) == (anchors.records, anchors.sum) {
        return Ok(());
    }
    Err(format!(
        "the answers differ: our sum is {:016x} over {} records, the anchor's {:016x} over {}",
        ours.sum, ours.records, anchors.sum, anchors.records
    ))
}

/// What there is to say of a log.
#[derive(Debug, PartialEq)]
struct Told {
    ours: Measured,
    anchors: Option<Measured>,
}

impl Told {
    fn best(self, other: Told) -> Told {
        let anchors = self.anchors.zip(other.anchors);
        Told {
            ours: self.ours.best(other.ours),
            anchors: anchors.map(|(one, other)| one.best(other)),
        }
    }

    /// Without another program the line is like that program's own.
    fn line(&self, name: &str, width: usize) -> String {
        let Measured {
            records,
            nanoseconds: ours,
            sum,
        } = self.ours;
        let start = format!("{name:<width$} {records:>8} records {ours:>7.2}");
        match self.anchors {
            None => format!("{start} ns/record  {sum:016x}"),
            Some(Measured { nanoseconds, .. }) => {
                let ratio = ours / nanoseconds;
                format!(
                    "{start} ns ours {nanoseconds:>7.2} ns anchor {ratio:>6.2} ratio  {sum:016x}"
                )
            }
        }
    }
}

#[cfg(test)]
mod tests {
    use super::{alike, in_turn, Asked, Given, Measured, Told, TURNS};
    use std::path::PathBuf;

    fn asked(words: &str) -> Option<Asked> {
        Asked::of(words.split_whitespace().map(Into::into))
    }

    fn given(logs: &[&str], anchor: Option<&str>) -> Option<Asked> {
        Some(Asked::Logs(Given {
            logs: logs.iter().map(PathBuf::from).collect(),
            anchor: anchor.map(PathBuf::from),
        }))
    }

    #[test]
    fn the_command_line_names_logs_or_asks_for_the_table() {
        assert_eq!(asked(""), Some(Asked::Table));
        assert_eq!(asked("a b"), given(&["a", "b"], None));
        assert_eq!(asked("--anchor p a"), given(&["a"], Some("p")));
        assert_eq!(asked("a --anchor p b"), given(&["a", "b"], Some("p")));
    }

    #[test]
    fn other_command_lines_are_refused() {
        for words in [
            "--anchor",
            "--anchor p",
            "a --anchor",
            "--anchor p --anchor q a",
            "--other a",
        ] {
            assert_eq!(asked(words), None, "{words}");
        }
    }

    const OURS: Measured = Measured {
        records: 200_000,
        nanoseconds: 26.08,
        sum: 0x0280_d2c9_3f12_1252,
    };

    #[test]
    fn sums_and_records_must_be_alike_and_times_not() {
        assert_eq!(alike(&OURS, &taking(99.0)), Ok(()));
        let other = Measured { sum: 1, ..OURS };
        let why = alike(&OURS, &other).expect_err("the sums differ");
        assert!(why.contains("0280d2c93f121252"), "{why}");
        assert!(why.contains("0000000000000001"), "{why}");
        let fewer = Measured { records: 1, ..OURS };
        assert!(alike(&OURS, &fewer).is_err());
    }

    /// A side that measures these one after the other.
    fn side<T>(measured: [T; TURNS]) -> impl FnMut() -> T {
        let mut left = measured.into_iter();
        move || left.next().expect("a turn less")
    }

    fn taking(nanoseconds: f64) -> Measured {
        Measured {
            nanoseconds,
            ..OURS
        }
    }

    #[test]
    fn the_best_of_every_turn_is_kept() {
        let ours = side([taking(3.0), taking(2.0), taking(4.0)]);
        let anchors = side([Ok(taking(1.5)), Ok(taking(1.0)), Ok(taking(0.5))]);
        let best = Told {
            ours: taking(2.0),
            anchors: Some(taking(0.5)),
        };
        assert_eq!(in_turn(ours, anchors), Ok(best));
    }

    #[test]
    fn answers_that_differ_in_any_turn_are_told() {
        let other = Measured { sum: 1, ..OURS };
        for turn in 0..TURNS {
            let mut anchors = [OURS; TURNS];
            anchors[turn] = other;
            let told = in_turn(|| OURS, side(anchors.map(Ok)));
            assert_eq!(told, Err(alike(&OURS, &other).expect_err("another sum")));
        }
        let why = "it can't be run".to_string();
        assert_eq!(in_turn(|| OURS, || Err(why.clone())), Err(why.clone()));
    }

    #[test]
    fn lines_are_aligned() {
        let alone = Told {
            ours: OURS,
            anchors: None,
        };
        assert_eq!(
            alone.line("calm.log", 24),
            "calm.log                   200000 records   26.08 ns/record  0280d2c93f121252"
        );
        let beside = Told {
            ours: OURS,
            anchors: Some(taking(13.04)),
        };
        assert_eq!(
            beside.line("calm.log", 10),
            "calm.log     200000 records   26.08 ns ours   13.04 ns anchor   2.00 ratio  \
             0280d2c93f121252"
        );
    }
}
