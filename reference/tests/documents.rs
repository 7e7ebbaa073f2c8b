//! The crates as the documents show them, against `crates.txt` and the crates' own files.

#[path = "common/root.rs"]
mod root;

use std::collections::BTreeSet;
use std::fs;
use std::path::Path;

use root::root;

/// A crate and those that `crates.txt` says it knows of.
struct Crate {
    name: String,
    dependencies: Vec<String>,
}

fn read(file: &Path) -> String {
    fs::read_to_string(file).unwrap_or_else(|error| panic!("{}: {error}", file.display()))
}

/// The crates in the order of `crates.txt`, which has a line `NAME: DEPENDENCY ..` for each; behind
/// the name of a static library stands the word `staticlib`.
fn crates() -> Vec<Crate> {
    read(&root().join("crates.txt"))
        .lines()
        .filter_map(|line| line.split('#').next()?.split_once(':'))
        .map(|(name, dependencies)| Crate {
            name: name.trim().trim_end_matches(" staticlib").to_string(),
            dependencies: dependencies.split_whitespace().map(String::from).collect(),
        })
        .collect()
}

/// All that `name` stands on, itself aside. A crate of the toolchain has no line and adds nothing.
fn below<'a>(crates: &'a [Crate], name: &str) -> BTreeSet<&'a str> {
    let mut found = BTreeSet::new();
    for dependency in crates
        .iter()
        .filter(|of| of.name == name)
        .flat_map(|of| &of.dependencies)
    {
        found.insert(dependency.as_str());
        found.extend(below(crates, dependency));
    }
    found
}

/// The Mermaid block for these crates, each under what it stands on: only the arrows that no other
/// path implies, and a crate without arrows on a line of its own.
fn picture(crates: &[Crate]) -> String {
    let mut arrows = Vec::new();
    for Crate { name, dependencies } in crates {
        let implied: BTreeSet<&str> = dependencies
            .iter()
            .flat_map(|dependency| below(crates, dependency))
            .collect();
        arrows.extend(
            dependencies
                .iter()
                .filter(|dependency| crates.iter().any(|of| of.name == **dependency))
                .filter(|dependency| !implied.contains(dependency.as_str()))
                .map(|dependency| (dependency, name)),
        );
    }
    let mut text = String::from("graph TD\n");
    for Crate { name, .. } in crates {
        if !arrows
            .iter()
            .any(|&(above, under)| name == above || name == under)
        {
            text += &format!("    {name}\n");
        }
    }
    for (above, under) in arrows {
        text += &format!("    {above} --> {under}\n");
    }
    text
}

/// The lines of a block, in any order.
fn sorted(block: &str) -> Vec<&str> {
    let mut lines: Vec<&str> = block.lines().map(str::trim).collect();
    lines.sort();
    lines
}

/// All code and proofs in a folder, comments left out, and what the check keeps in `out`.
fn code(folder: &Path) -> String {
    let mut text = String::new();
    for entry in fs::read_dir(folder).expect("each crate has a folder") {
        let path = entry.expect("an entry").path();
        if path.is_dir() {
            if !path.ends_with("out") {
                text += &code(&path);
            }
        } else if let Some(comment) = comment_mark(&path) {
            for line in read(&path).lines() {
                text += line.split(comment).next().unwrap_or_default();
                text += "\n";
            }
        }
    }
    text
}

/// What a comment begins with in a file of code or proofs.
fn comment_mark(file: &Path) -> Option<&'static str> {
    match file.extension()?.to_str()? {
        "rt" => Some("//"),
        "antt" => Some("--"),
        _ => None,
    }
}

/// Whether `code` names a crate: `NAME::`, or `Rattle.NAME` in a clause or a proof.
fn mentions(code: &str, name: &str) -> bool {
    let in_word = |letter: char| letter.is_alphanumeric() || letter == '_';
    code.match_indices(name).any(|(at, _)| {
        let (before, after) = (&code[..at], &code[at + name.len()..]);
        let called = after.starts_with("::") && !before.ends_with(in_word);
        let cited = before.ends_with("Rattle.") && !after.starts_with(in_word);
        called || cited
    })
}

#[test]
fn the_picture_of_the_crates_is_that_of_crates_txt() {
    let document = read(&root().join("docs/ARCHITECTURE.md"));
    let found: Vec<&str> = document
        .split("```mermaid\n")
        .skip(1)
        .map(|rest| rest.split("```").next().unwrap_or_default())
        .collect();
    let right = picture(&crates());
    assert!(
        matches!(found[..], [block] if sorted(block) == sorted(&right)),
        "docs/ARCHITECTURE.md is to have this one block:\n\n```mermaid\n{right}```\n"
    );
}

#[test]
fn every_dependency_is_named_in_its_crate() {
    let mut unnamed = Vec::new();
    for Crate { name, dependencies } in crates() {
        let code = code(&root().join("crates").join(&name));
        for dependency in dependencies {
            if !mentions(&code, &dependency) {
                unnamed.push(format!("{name}: {dependency}"));
            }
        }
    }
    assert!(unnamed.is_empty(), "listed, but never named: {unnamed:?}");
}

/// The edits that a text names, as CRATE/EDIT; a file's path has more parts.
fn edits_named<'a>(text: &'a str, crates: &[Crate]) -> Vec<(&'a str, &'a str)> {
    let in_name = |letter: char| letter.is_alphanumeric() || "_/.".contains(letter);
    text.split(|letter| !in_name(letter))
        .filter_map(|word| word.split_once('/'))
        .filter(|(name, edit)| crates.iter().any(|of| of.name == *name) && !edit.contains('/'))
        .collect()
}

#[test]
fn every_edit_that_the_promises_name_is_there() {
    let promises = read(&root().join("docs/PROMISES.md"));
    let named = edits_named(&promises, &crates());
    assert!(!named.is_empty(), "docs/PROMISES.md names no edit");
    let missing: Vec<_> = named
        .into_iter()
        .filter(|(name, edit)| {
            let edits = root().join("crates").join(name).join("must-fail");
            !edits.join(format!("{edit}.edit")).is_file()
        })
        .collect();
    assert!(missing.is_empty(), "named, but not there: {missing:?}");
}
