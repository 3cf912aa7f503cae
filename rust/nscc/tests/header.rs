//! The names and numbers of the wrapper are those of `include/nscc.h`.

use nscc::{
    FlowWord, PartWord, PlaceWord, PlannedWord, Refusal, Sample, Status, TurnWord, Word, EVS_MAX,
    EVS_MIN, FLOWS_MAX, FLOW_WORDS, IN_FLIGHT_ADDED, PART, PIECE, PLACE, PLANNED, SENDS_MAX,
    SETTINGS, TURN, WORDS,
};
use std::fmt::Debug;

const HEADER: &str = include_str!("../../../include/nscc.h");

/// The names of an enum in their order, without its own prefix, and their numbers where the header
/// has any.
fn names(of: &str, prefix: &str) -> Vec<(String, Option<u32>)> {
    let start = HEADER.find(&format!("enum {of} {{")).expect("the enum");
    let body = &HEADER[start..][..HEADER[start..].find("};").expect("its end")];
    let words = body.lines().map(str::trim);
    let names = words.filter(|line| line.starts_with("NSCC_")).map(|line| {
        line.strip_prefix(prefix)
            .unwrap_or_else(|| panic!("{line} is no name of {of}"))
    });
    let named = names.map(|line| {
        let end = line.find([',', ' ', '/']).unwrap_or(line.len());
        let number = line[end..].strip_prefix(" = ").map(|rest| {
            let digits: String = rest.chars().take_while(char::is_ascii_digit).collect();
            digits.parse().ok()
        });
        (line[..end].to_string(), number.flatten())
    });
    named.collect()
}

/// `QaEnd` is QA_END, but MaxWnd is MAXWND: so letters alone.
fn letters(name: impl Debug) -> String {
    let name = format!("{name:?}").to_uppercase();
    name.chars().filter(char::is_ascii_alphabetic).collect()
}

fn same_order(header: &[(String, Option<u32>)], ours: &[impl Debug]) {
    let header: Vec<String> = header.iter().map(|(name, _)| letters(name)).collect();
    let ours: Vec<String> = ours.iter().map(letters).collect();
    assert_eq!(header, ours);
}

#[test]
fn words() {
    let mut header = names("nscc_setting", "NSCC_SETTING_");
    assert_eq!(header.pop().expect("the last").0, "WORDS");
    assert_eq!(header.len(), SETTINGS);
    header.extend(names("nscc_state", "NSCC_STATE_"));
    assert_eq!(header.pop().expect("the last").0, "WORDS");
    assert_eq!(header.len(), WORDS);
    same_order(&header, &Word::ALL);
}

#[test]
fn flow() {
    let mut header = names("nscc_flow", "NSCC_FLOW_");
    assert_eq!(header.pop().expect("the last").0, "WORDS");
    assert_eq!(header.len(), FLOW_WORDS);
    same_order(&header, &FlowWord::ALL);
    for (i, word) in FlowWord::ALL.into_iter().enumerate() {
        assert_eq!(word as usize, i);
    }
}

#[test]
fn turn() {
    let mut header = names("nscc_turn", "NSCC_TURN_");
    assert_eq!(header.pop().expect("the last").0, "WORDS");
    assert_eq!(header.len(), TURN);
    let ours = [
        TurnWord::Named,
        TurnWord::Flow,
        TurnWord::Resend,
        TurnWord::Psn,
    ];
    same_order(&header, &ours);
    for (i, word) in ours.into_iter().enumerate() {
        assert_eq!(word as usize, i);
    }
}

#[test]
fn planned() {
    let mut header = names("nscc_planned", "NSCC_PLANNED_");
    assert_eq!(header.pop().expect("the last").0, "WORDS");
    assert_eq!(header.len(), PLANNED);
    let ours = [
        PlannedWord::Flow,
        PlannedWord::Resend,
        PlannedWord::Psn,
        PlannedWord::Size,
    ];
    same_order(&header, &ours);
    for (i, word) in ours.into_iter().enumerate() {
        assert_eq!(word as usize, i);
    }
}

#[test]
fn place() {
    let mut header = names("nscc_place", "NSCC_PLACE_");
    assert_eq!(header.pop().expect("the last").0, "WORDS");
    assert_eq!(header.len(), PLACE);
    let ours = [
        PlaceWord::At,
        PlaceWord::Done,
        PlaceWord::Stopped,
        PlaceWord::Answered,
    ];
    same_order(&header, &ours);
}

#[test]
fn part() {
    let mut header = names("nscc_part", "NSCC_PART_");
    assert_eq!(header.pop().expect("the last").0, "WORDS");
    assert_eq!(header.len(), PART);
    let ours = [
        PartWord::At,
        PartWord::Done,
        PartWord::Stopped,
        PartWord::Piece,
        PartWord::Answered,
        PartWord::Taken,
    ];
    same_order(&header, &ours);
}

#[test]
fn refusals() {
    let header = names("nscc_refusal", "NSCC_");
    assert_eq!(header.len(), 21);
    assert_eq!(header[0], ("ACCEPTED".to_string(), Some(0)));
    for (name, number) in &header[1..] {
        let refusal = number.and_then(Refusal::of).expect("a refusal");
        let name = name.strip_prefix("REFUSED_").expect("its enum's name");
        assert_eq!(letters(refusal), letters(name));
    }
}

#[test]
fn samples() {
    let header = names("nscc_sample", "NSCC_SAMPLE_");
    assert_eq!(header[0], ("UNTOLD".to_string(), Some(0)));
    assert_eq!(header.len(), 1 + Sample::ALL.len());
    for ((name, number), sample) in header[1..].iter().zip(Sample::ALL) {
        assert_eq!(*number, Some(sample.number().into()));
        assert_eq!(letters(sample), letters(name));
    }
}

#[test]
fn statuses() {
    let header = names("nscc_status", "NSCC_STATUS_");
    assert_eq!(header[0], ("NONE".to_string(), Some(0)));
    assert_eq!(header.len(), 1 + Status::ALL.len());
    for ((name, number), status) in header[1..].iter().zip(Status::ALL) {
        assert_eq!(*number, Some(status.number().into()));
        assert_eq!(letters(status), letters(name));
    }
}

/// The command tells the header's version.
#[test]
fn version() {
    let start = HEADER.find("#define NSCC_VERSION \"").expect("the version");
    let version = HEADER[start..].split('"').nth(1).expect("its text");
    let program = include_str!("../../../crates/nscc/src/main.rt");
    assert!(program.contains(&format!("b\"nscc {version}\\n\"")));
}

#[test]
fn numbers() {
    assert!(HEADER.contains(&format!("#define NSCC_EVS_MIN {EVS_MIN}\n")));
    assert!(HEADER.contains(&format!("#define NSCC_EVS_MAX {EVS_MAX}\n")));
    assert!(HEADER.contains(&format!("#define NSCC_FLOWS_MAX {FLOWS_MAX}\n")));
    assert!(HEADER.contains(&format!("#define NSCC_PIECE_BYTES {PIECE}\n")));
    let most = format!("#define NSCC_PLAN_SENDS_MAX {SENDS_MAX}\n");
    assert!(HEADER.contains(&most));
    let added = format!("#define NSCC_IN_FLIGHT_ADDED {IN_FLIGHT_ADDED}\n");
    assert!(HEADER.contains(&added));
}
