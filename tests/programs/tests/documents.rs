//! What docs/CLAIMS.md names is there: every edit of the repository stands in it, every edit that it names is an edit, and every theorem
//! or definition that it names by its file is declared in that file.

use std::collections::BTreeSet;
use std::fs;
use std::path::{Path, PathBuf};

fn root() -> PathBuf {
    Path::new(env!("CARGO_MANIFEST_DIR")).join("../..")
}

fn read(path: &Path) -> String {
    fs::read_to_string(path).unwrap_or_else(|error| panic!("{}: {error}", path.display()))
}

/// The files of a folder, and of those below it, but for what `rt` made in a crate's out/.
fn files(folder: &Path, found: &mut Vec<PathBuf>) {
    for entry in fs::read_dir(folder).expect("a folder") {
        let path = entry.expect("an entry").path();
        if path.ends_with("out") {
            continue;
        }
        if path.is_dir() {
            files(&path, found);
        } else {
            found.push(path);
        }
    }
}

fn crate_files() -> Vec<PathBuf> {
    let mut found = Vec::new();
    files(&root().join("crates"), &mut found);
    assert!(found.len() > 300, "{} files", found.len());
    found
}

/// The words of a text that stand in backticks.
fn quoted(text: &str) -> BTreeSet<&str> {
    text.split('`').skip(1).step_by(2).collect()
}

fn edits() -> BTreeSet<String> {
    crate_files()
        .iter()
        .filter(|path| {
            path.extension()
                .is_some_and(|extension| extension == "edit")
        })
        .map(|path| {
            path.file_stem()
                .expect("a name")
                .to_string_lossy()
                .into_owned()
        })
        .collect()
}

/// What a file of specs/ or proofs/ declares: the name before the first colon of a line.
fn declared(text: &str) -> Vec<String> {
    let name = |line: &str| {
        let words: Vec<_> = line.split_whitespace().collect();
        let colon = words.iter().take(4).position(|&word| word == ":")?;
        Some(words[colon.checked_sub(1)?].to_owned())
    };
    text.lines().filter_map(name).collect()
}

#[test]
fn every_edit_is_listed_with_what_it_shows() {
    let claims = read(&root().join("docs/CLAIMS.md"));
    let listed = quoted(&claims);
    let edits = edits();
    assert!(edits.len() > 100, "{} edits", edits.len());
    let missing: Vec<_> = edits
        .iter()
        .filter(|edit| !listed.contains(edit.as_str()))
        .collect();
    assert!(missing.is_empty(), "not in docs/CLAIMS.md: {missing:?}");
}

#[test]
fn every_edit_that_is_named_is_there() {
    let claims = read(&root().join("docs/CLAIMS.md"));
    let edits = edits();
    let sources: String = crate_files()
        .iter()
        .filter(|path| path.extension().is_some_and(|extension| extension == "rt"))
        .map(|path| read(path))
        .collect();
    let tests: String = {
        let mut found = Vec::new();
        files(&root().join("tests"), &mut found);
        found
            .iter()
            .filter(|path| path.extension().is_some_and(|extension| extension == "rs"))
            .map(|path| read(path))
            .collect()
    };
    // Definitions and theorems are spelled as edits and functions are.
    let declared: BTreeSet<String> = crate_files()
        .iter()
        .filter(|path| {
            path.extension()
                .is_some_and(|extension| extension == "antt")
        })
        .flat_map(|path| declared(&read(path)))
        .collect();
    let is_name = |word: &&str| {
        word.contains('_')
            && word.starts_with(|c: char| c.is_ascii_lowercase())
            && word
                .chars()
                .all(|c| c.is_ascii_lowercase() || c.is_ascii_digit() || c == '_')
    };
    let mut named = 0;
    for word in quoted(&claims).iter().filter(|word| is_name(word)) {
        named += 1;
        let known = edits.contains(*word)
            || sources.contains(&format!("fn {word}("))
            || tests.contains(&format!("fn {word}("))
            || declared.contains(*word)
            || root().join("crates").join(word).is_dir();
        assert!(
            known,
            "docs/CLAIMS.md names `{word}`, which is no edit, function, test, crate, definition or theorem"
        );
    }
    assert!(named > 100, "{named} names");
}

#[test]
fn every_claim_that_is_named_is_declared() {
    let claims = read(&root().join("docs/CLAIMS.md"));
    for (letter, file, at_least) in [
        ("C", "Claims.antt", 12),
        ("D", "Codes.antt", 8),
        ("E", "Readings.antt", 7),
        ("F", "Falling.antt", 3),
    ] {
        let specs = read(&root().join("crates/claims/specs").join(file));
        let mut named = 0;
        for (_, after) in claims
            .match_indices(&format!("{letter} `"))
            .map(|(at, word)| claims.split_at(at + word.len()))
        {
            named += 1;
            let name = after.split('`').next().expect("a name");
            let declared = specs.contains(&format!("pub {name} :"))
                || specs.contains(&format!("pub record {name} "));
            assert!(
                declared,
                "docs/CLAIMS.md names the claim `{name}`, which claims/specs/{file} does not have"
            );
        }
        assert!(named >= at_least, "{named} claims in {file}");
    }
}
