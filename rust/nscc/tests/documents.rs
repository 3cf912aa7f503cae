//! What the documents say of the repository is so: the README's map is that of `crates.txt`, its
//! example is the program's, every file that is named is there, every theorem stands in the file
//! that is named for it, and every public function has its wrong answers.

use std::collections::{BTreeMap, BTreeSet};
use std::fs;
use std::path::{Path, PathBuf};

/// A word in backticks with one of these endings names a file, by its path from the root.
const ENDINGS: [&str; 9] = [
    ".antt", ".c", ".edit", ".h", ".log", ".md", ".out", ".rs", ".rt",
];

/// The width of prose, in characters.
const WIDTH: usize = 100;

/// For each crate what it stands on.
type Uses = BTreeMap<String, BTreeSet<String>>;

fn root() -> PathBuf {
    Path::new(env!("CARGO_MANIFEST_DIR")).join("../..")
}

fn text(path: &str) -> String {
    fs::read_to_string(root().join(path)).unwrap_or_else(|error| panic!("{path}: {error}"))
}

/// The documents of a folder.
fn markdown(folder: &str) -> Vec<String> {
    let listed = fs::read_dir(root().join(folder)).expect("a folder");
    let names = listed.map(|entry| entry.expect("an entry").file_name());
    let names = names.map(|name| format!("{folder}/{}", name.to_str().expect("a name")));
    let mut all: Vec<String> = names.filter(|name| name.ends_with(".md")).collect();
    all.sort();
    all
}

/// All but the notes of `docs/changes`, which are of their day.
fn documents() -> Vec<String> {
    let mut all = markdown("docs");
    all.push("README.md".to_string());
    all
}

/// The crates of `crates.txt`, a line each: `NAME: DEP DEP ..`, or `NAME staticlib: DEP DEP ..`. A
/// crate that has no line is the toolchain's, and the map leaves it out.
fn listed() -> Uses {
    let text = text("crates.txt");
    let lines = text.lines().filter(|line| !line.starts_with('#'));
    let crates = lines.filter_map(|line| line.split_once(':'));
    let crates: Vec<(&str, &str)> = crates
        .map(|(name, on)| (name.split(' ').next().expect("a first"), on))
        .collect();
    let own: BTreeSet<&str> = crates.iter().map(|(name, _)| *name).collect();
    let uses = crates.iter().map(|(name, on)| {
        let on = on.split_whitespace().filter(|on| own.contains(on));
        (name.to_string(), on.map(str::to_string).collect())
    });
    uses.collect()
}

/// The crates and arrows of the README's picture: `A --> B & C` is two arrows.
fn drawn() -> Uses {
    let text = text("README.md");
    let (_, block) = text.split_once("```mermaid\n").expect("a picture");
    let (block, _) = block.split_once("```").expect("its end");
    let mut uses = Uses::new();
    for line in block.lines().skip(1) {
        let (from, to) = line.split_once("-->").expect("an arrow");
        for name in to.split('&').map(|name| name.trim().to_string()) {
            uses.entry(name.clone()).or_default();
            let from = uses.entry(from.trim().to_string()).or_default();
            assert!(from.insert(name), "an arrow is drawn twice: {line}");
        }
    }
    uses
}

/// What can be reached from a crate over arrows, of one arrow at least.
fn reached(uses: &Uses, from: &str) -> BTreeSet<String> {
    let mut seen = BTreeSet::new();
    let mut left = vec![from.to_string()];
    while let Some(name) = left.pop() {
        for on in &uses[&name] {
            if seen.insert(on.clone()) {
                left.push(on.clone());
            }
        }
    }
    seen
}

/// The words in backticks, of a text without its blocks of code.
fn quoted(text: &str) -> Vec<String> {
    let prose: Vec<&str> = text.split("```").step_by(2).collect();
    let lines = prose.iter().flat_map(|part| part.lines());
    let lines: Vec<&str> = lines.filter(|line| !line.starts_with("    ")).collect();
    let joined = lines.join("\n");
    let spans = joined.split('`').skip(1).step_by(2);
    let words = spans.flat_map(str::split_whitespace);
    words.map(str::to_string).collect()
}

/// Where the links of a text lead, those to other sites left out.
fn links(text: &str) -> Vec<String> {
    let after = text.split("](").skip(1);
    let targets = after.filter_map(|rest| rest.split_once(')').map(|(target, _)| target));
    let own = targets.filter(|target| !target.contains("://"));
    own.map(str::to_string).collect()
}

/// What stands at the root, but for what is built.
fn tops() -> BTreeSet<String> {
    let entries = fs::read_dir(root()).expect("the root");
    let names = entries.map(|entry| entry.expect("an entry").file_name());
    let names = names.map(|name| name.to_str().expect("a name").to_string());
    names.filter(|name| name != "target").collect()
}

#[test]
fn every_crate_is_drawn() {
    let drawn: Vec<String> = drawn().into_keys().collect();
    let listed: Vec<String> = listed().into_keys().collect();
    assert_eq!(drawn, listed);
}

#[test]
fn every_arrow_is_a_dependency() {
    let listed = listed();
    for (from, to) in drawn() {
        let extra: Vec<&String> = to.difference(&listed[&from]).collect();
        assert!(extra.is_empty(), "{from} does not depend on {extra:?}");
    }
}

#[test]
fn every_dependency_is_reached() {
    let drawn = drawn();
    for (from, on) in listed() {
        let reached = reached(&drawn, &from);
        let missing: Vec<&String> = on.difference(&reached).collect();
        assert!(
            missing.is_empty(),
            "no arrows lead from {from} to {missing:?}"
        );
    }
}

#[test]
fn no_arrow_is_transitive() {
    let drawn = drawn();
    for (from, to) in &drawn {
        for by in to {
            let beyond = reached(&drawn, by);
            let twice: Vec<&String> = to.intersection(&beyond).collect();
            assert!(twice.is_empty(), "{from} reaches {twice:?} by {by} already");
        }
    }
}

#[test]
fn every_crate_has_its_sentence() {
    let text = text("README.md");
    for name in listed().keys() {
        let start = format!("- `{name}`: ");
        let told = text.lines().filter(|line| line.starts_with(&start)).count();
        assert_eq!(told, 1, "{name}");
    }
}

#[test]
fn the_example_is_what_the_program_writes() {
    let lines = text("crates/nscc/stdout");
    let lines: Vec<String> = lines.lines().map(|line| format!("    {line}\n")).collect();
    assert!(text("README.md").contains(&format!("\n\n{}\n", lines.concat())));
}

#[test]
fn every_file_is_there() {
    let tops = tops();
    let mut missing = Vec::new();
    for document in documents() {
        let text = text(&document);
        let folder = root().join(&document);
        let folder = folder.parent().expect("a folder");
        for target in links(&text) {
            let file = target.split('#').next().expect("a first");
            if !folder.join(file).exists() {
                missing.push(format!("{document}: {target}"));
            }
        }
        for word in quoted(&text) {
            let top = word.split('/').next().expect("a first");
            let names = tops.contains(top) && word.contains('/');
            let ends = ENDINGS.iter().any(|ending| word.ends_with(ending));
            // What is built, and `crates/NAME/..`, which stands for many.
            let made = top == "target" || word.contains("/NAME/");
            if (names || ends) && !made && !root().join(&word).exists() {
                missing.push(format!("{document}: {word}"));
            }
        }
    }
    assert!(missing.is_empty(), "{missing:#?}");
}

/// A row of a table of theorems has their names in its first cell and files in its last.
#[test]
fn every_theorem_stands_where_it_is_said_to() {
    let text = text("docs/THEOREMS.md");
    let mut missing = Vec::new();
    let mut found = 0;
    let tables = text.split("\n| theorem |").skip(1);
    let rows = tables.flat_map(|table| table.split("\n\n").next().expect("a first").lines());
    for row in rows.filter(|row| row.starts_with("| `")) {
        let cells: Vec<&str> = row.trim_matches('|').split(" | ").collect();
        let files = quoted(cells.last().expect("a cell"));
        let files: Vec<String> = files.iter().map(|path| self::text(path)).collect();
        for name in quoted(cells[0]) {
            let start = format!("{name} :");
            let lines = files.iter().flat_map(|file| file.lines());
            let mut lines = lines.map(|line| line.trim_start().trim_start_matches("pub "));
            if lines.any(|line| line.starts_with(&start)) {
                found += 1;
            } else {
                missing.push(name);
            }
        }
    }
    assert!(missing.is_empty(), "{missing:#?}");
    assert!(found > 100, "{found} theorems");
}

/// The public functions of a crate.
fn functions(name: &str) -> Vec<String> {
    let folder = root().join("crates").join(name).join("src");
    let files = fs::read_dir(folder).expect("a crate's src");
    let mut all = Vec::new();
    for file in files.map(|entry| entry.expect("an entry").path()) {
        let text = fs::read_to_string(file).expect("a source");
        for line in text.lines().map(str::trim_start) {
            let public = line.strip_prefix("pub ").unwrap_or_default();
            let public = public.strip_prefix("extern \"C\" ").unwrap_or(public);
            if let Some(rest) = public.strip_prefix("fn ") {
                let end = rest.find(['(', '<']).expect("its parameters");
                all.push(rest[..end].to_string());
            }
        }
    }
    all
}

#[test]
fn every_public_function_has_its_wrong_answers() {
    let text = text("docs/PROMISES.md");
    let mut missing = Vec::new();
    let mut found = 0;
    for name in listed().keys() {
        let title = format!("\n## {name}\n");
        let section = text.split_once(&title).map(|(_, rest)| rest);
        let section = section.unwrap_or_default();
        let section = section.split("\n## ").next().expect("a first");
        let rows = section.lines().filter_map(|line| line.strip_prefix("| "));
        let firsts = rows.filter_map(|row| row.split(" | ").next()).map(quoted);
        let listed: BTreeSet<String> = firsts.flatten().collect();
        for function in functions(name) {
            found += 1;
            if !listed.contains(&function) {
                missing.push(format!("{name}: {function}"));
            }
        }
    }
    assert!(missing.is_empty(), "{missing:#?}");
    assert!(found > 50, "{found} functions");
}

/// Tables and code apart.
#[test]
fn prose_has_one_width() {
    let mut wide = Vec::new();
    let mut all = documents();
    all.extend(markdown("docs/changes"));
    all.extend(markdown("rust/model"));
    for document in all {
        let text = text(&document);
        let prose = text.split("```").step_by(2).flat_map(str::lines);
        let prose = prose.filter(|line| !line.starts_with("    ") && !line.starts_with('|'));
        let over = prose.filter(|line| line.chars().count() > WIDTH);
        wide.extend(over.map(|line| format!("{document}: {line}")));
    }
    assert!(wide.is_empty(), "{wide:#?}");
}
