//! The documents against the repository: what they name is there, and what they count is so many.

use std::fs;
use std::path::{Path, PathBuf};

use stled325_host::model::fault::Fault;

const DOCUMENTS: &[&str] =
    &["README.md", "docs/DECISIONS.md", "docs/FIGURES.md", "docs/MAP.md", "docs/PANEL.md", "host/README.md"];

fn top() -> PathBuf {
    Path::new(env!("CARGO_MANIFEST_DIR")).join("..")
}

fn read(file: impl AsRef<Path>) -> String {
    let path = top().join(file);
    fs::read_to_string(&path).unwrap_or_else(|e| panic!("{}: {e}", path.display()))
}

/// The files below a folder that end so, but for what the prover keeps in a crate's folder out.
fn files(folder: &Path, ending: &str) -> Vec<PathBuf> {
    let mut found = Vec::new();
    for entry in fs::read_dir(folder).into_iter().flatten() {
        let path = entry.unwrap().path();
        if path.is_dir() && !path.ends_with("out") {
            found.extend(files(&path, ending));
        } else if path.to_string_lossy().ends_with(ending) {
            found.push(path);
        }
    }
    found
}

/// All text of the files below a folder that end so.
fn below(folder: &Path, ending: &str) -> String {
    files(folder, ending).iter().map(|path| fs::read_to_string(path).unwrap()).collect()
}

/// How many of the text's `unfolding` clauses name the word; a clause goes on over lines that are indented further.
fn unfoldings(text: &str, word: &str) -> usize {
    let indent = |line: &str| line.len() - line.trim_start().len();
    let mut count = 0;
    let mut lines = text.lines().peekable();
    while let Some(line) = lines.next() {
        if line.split_whitespace().next() != Some("unfolding") {
            continue;
        }
        let mut clause = line.to_string();
        while let Some(further) = lines.next_if(|next| indent(next) > indent(line)) {
            clause = clause + " " + further;
        }
        count += usize::from(clause.split_whitespace().any(|named| named == word));
    }
    count
}

/// Whether a line declares the name, behind one of the keywords.
fn declares(line: &str, keywords: &[&str], name: &str) -> bool {
    let mut rest = line.trim_start();
    for mark in ["abbrev ", "unfoldable ", "pub ", "extern \"C\" "] {
        rest = rest.strip_prefix(mark).unwrap_or(rest);
    }
    keywords.iter().any(|keyword| {
        let after = rest.strip_prefix(keyword).and_then(|rest| rest.strip_prefix(name));
        after.is_some_and(|after| after.starts_with([' ', '(', '<', ':', ';']))
    })
}

/// `crate/File.name`: a definition, law or field in the crate's specs or proofs.
fn has_definition(krate: &str, file: &str, name: &str) -> bool {
    ["specs", "proofs"].iter().any(|folder| {
        let text = fs::read_to_string(top().join(format!("crates/{krate}/{folder}/{file}.antt")));
        let typed = |line: &str| line.contains(" : ") && declares(line, &["", "record ", "data "], name);
        text.is_ok_and(|text| text.lines().any(typed))
    })
}

/// `crate::item`, `crate::Struct::method`: each step is declared in the crate's code.
fn has_item(krate: &str, steps: &[&str]) -> bool {
    let code = below(&top().join(format!("crates/{krate}/src")), ".rt");
    let keywords = ["fn ", "struct ", "enum ", "const ", "mod "];
    steps.iter().all(|step| code.lines().any(|line| declares(line, &keywords, step)))
}

/// Whether the repository has what a word in code type names; None where the word names no crate's item.
fn found(word: &str) -> Option<bool> {
    let listed = |krate: &str| top().join("crates").join(krate).is_dir();
    let plain = |part: &str| part.chars().all(|c| c.is_ascii_alphanumeric() || c == '_' || c == '-');
    if let Some((krate, edit)) = word.split_once('!').filter(|(krate, edit)| plain(krate) && plain(edit)) {
        return Some(top().join(format!("crates/{krate}/must-fail/{edit}.edit")).is_file());
    }
    if let Some((krate, place)) = word.split_once('/').filter(|(krate, _)| plain(krate)) {
        let (file, name) =
            place.split_once('.').filter(|(file, _)| plain(file) && file.starts_with(char::is_uppercase))?;
        return Some(has_definition(krate, file, name));
    }
    let steps: Vec<&str> = word.split("::").collect();
    match steps[..] {
        [krate, ref items @ ..] if !items.is_empty() && steps.iter().all(|step| plain(step)) => {
            Some(listed(krate) && has_item(krate, items))
        }
        _ => None,
    }
}

#[test]
fn a_name_that_is_not_there_is_noticed() {
    for there in [
        "calendar/Date.leap",
        "calendar::Clock",
        "controller::Core::tick",
        "notation::Part::fill",
        "units!second_one_late",
    ] {
        assert_eq!(found(there), Some(true), "{there}");
    }
    for missing in
        ["calendar/Date.leaps", "calendar::Clocks", "controller::Core::tack", "units!late", "x::y", "x/Y.z"]
    {
        assert_eq!(found(missing), Some(false), "{missing}");
    }
}

#[test]
fn the_documents_name_what_is_there() {
    let mut names = 0;
    let mut missing = Vec::new();
    for document in DOCUMENTS {
        for line in read(document).lines() {
            for word in line.split('`').skip(1).step_by(2) {
                match found(word) {
                    Some(true) => names += 1,
                    Some(false) => missing.push(format!("{document}: {word}")),
                    None => {}
                }
            }
        }
    }
    assert!(missing.is_empty(), "named, but not there: {missing:#?}");
    assert!(names > 700, "only {names} names were found to look for");
}

#[test]
fn the_documents_count_what_is_there() {
    let examples =
        read("crates/vectors/stdin").lines().filter(|l| l.starts_with(|c: char| c.is_ascii_digit())).count();
    let host = below(&top().join("host/src"), ".rs") + &below(&top().join("host/tests"), ".rs");
    let tests = host.lines().filter(|line| line.trim() == "#[test]").count();
    let faults = Fault::ALL.len();
    let steps = read(".ci/run").lines().filter(|line| line.trim_start().starts_with("step \"")).count();
    let worst = read("docs/FIGURES.md");
    let worst = worst.split("The worst call needs ").nth(1).and_then(|rest| rest.split(' ').next()).unwrap();
    let counted = [
        ("README.md", format!("| {examples} worked examples")),
        ("README.md", format!("the calls of {examples} examples")),
        ("README.md", format!("`ls crates/*/must-fail/*.edit | wc -l` and {steps} ")),
        ("README.md", format!("| {tests} tests of `host/`")),
        ("README.md", format!("| {faults} plausible wrong readings")),
        ("README.md", format!(" {worst} bytes for the worst call")),
        ("docs/MAP.md", format!("| {examples} worked examples")),
        ("host/README.md", format!("lists the {faults} faults")),
        ("host/README.md", format!("| {tests} tests:")),
    ];
    for (document, words) in counted {
        assert!(read(document).contains(&words), "{document} does not say: {words}");
    }
    let readme = read("README.md");
    for line in read("crates.txt").lines().filter(|line| !line.trim().is_empty()) {
        let krate = line.split([':', ' ']).next().unwrap();
        assert!(readme.contains(&format!("  {krate} ")), "README.md gives crate {krate} no floor");
    }
}

#[test]
fn only_the_two_places_named_look_into_the_leap_rule() {
    assert_eq!(unfoldings("unfolding a\n  leap\nx = leap\n  unfolding leap\n", "leap"), 2);
    assert_eq!(unfoldings("unfolding leap-counted\nx = leap\n", "leap"), 0);
    assert!(read("crates/calendar/specs/Date.antt").contains("unfoldable pub leap :"));
    let mut places = Vec::new();
    for file in files(&top().join("crates"), ".antt") {
        let clauses = unfoldings(&read(&file), "leap");
        places.extend(vec![file.strip_prefix(top()).unwrap().display().to_string(); clauses]);
    }
    places.sort();
    assert_eq!(places, ["crates/calendar/proofs/Date.antt", "crates/calendar/proofs/is_leap/Answers.antt"]);
}
