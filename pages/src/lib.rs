//! What the programs read: the repository's files, the crates that it lists, its sources and its pages.

pub mod antt;
/// The same arguments and ends as oracle's programs have; its file, since this package has no dependency.
#[path = "../../oracle/src/args.rs"]
pub mod args;
pub mod contracts;
pub mod declared;
pub mod rattle;
pub mod sentences;
pub mod theorems;

use args::fail;
use std::fs;
use std::path::{Path, PathBuf};

pub fn read(path: &Path) -> String {
    fs::read_to_string(path).unwrap_or_else(|e| fail(&format!("{}: {e}", path.display())))
}

/// README.md and the pages of docs/.
pub fn pages_of(top: &Path) -> Vec<PathBuf> {
    let listed = fs::read_dir(top.join("docs")).unwrap_or_else(|e| fail(&format!("docs: {e}")));
    let mut all: Vec<PathBuf> = listed.filter_map(|entry| Some(entry.ok()?.path())).collect();
    all.push(top.join("README.md"));
    all.retain(|page| page.extension().is_some_and(|e| e == "md"));
    all.sort();
    all
}

/// Every crates/CRATE/must-fail/EDIT.edit.
pub fn edits_of(top: &Path) -> std::io::Result<Vec<PathBuf>> {
    let mut all = Vec::new();
    for of in fs::read_dir(top.join("crates"))? {
        let Ok(listed) = fs::read_dir(of?.path().join("must-fail")) else { continue };
        for edit in listed {
            all.push(edit?.path());
        }
    }
    all.retain(|path| path.extension().is_some_and(|e| e == "edit"));
    all.sort();
    Ok(all)
}

/// The crates that crates.txt lists, in its order. What a crate is made into may stand behind its name, as `c_api_c staticlib: ..`.
pub fn crates(top: &Path) -> Vec<String> {
    crates_in(&read(&top.join("crates.txt")))
}

fn crates_in(text: &str) -> Vec<String> {
    let lines = text.lines().map(|line| line.split('#').next().unwrap_or(""));
    lines.filter_map(|line| line.split_once(':')?.0.split_whitespace().next().map(String::from)).collect()
}

/// What stands in backquotes.
pub fn quoted(text: &str) -> impl Iterator<Item = &str> {
    text.lines().flat_map(|line| line.split('`').skip(1).step_by(2))
}

#[test]
fn names_of_crates() {
    let text = "# half: of old\nhalf:\nwhole bin: half # and: more\n\nwhole_c staticlib: half whole\n";
    assert_eq!(crates_in(text), ["half", "whole", "whole_c"]);
}

/// For a test: each of some texts as it is, but for one that has one place altered.
#[cfg(test)]
fn altering<'a>(text: &'a str, old: &str, new: &str) -> impl Fn(&str) -> String + 'a {
    assert_eq!(text.matches(old).count(), 1, "{old}");
    let altered = text.replace(old, new);
    move |one| if one == text { altered.clone() } else { one.to_string() }
}
