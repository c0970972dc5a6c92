//! Whether each theorem that the pages name says what docs/THEOREMS.md says.

use crate::antt::{beginnings, file, names, Declaration, File, Kind};
use crate::quoted;
use crate::rattle::short;
use std::collections::{BTreeMap, BTreeSet};

#[cfg(test)]
mod tests;

pub const PAGE: &str = "docs/THEOREMS.md";

/// How many theorems and definitions the page states, and what is wrong.
pub struct Said {
    pub theorems: usize,
    pub definitions: usize,
    pub faults: Vec<String>,
}

/// Holds the page to the sources, which `source` reads by their paths, and the other pages' names of theorems to this one.
pub fn check(page: &str, others: &[(String, String)], source: &dyn Fn(&str) -> Option<String>) -> Said {
    let mut said = Said { theorems: 0, definitions: 0, faults: Vec::new() };
    let stated = match stated(page) {
        Ok(stated) => stated,
        Err(what) => {
            said.faults.push(format!("{PAGE}: {what}"));
            return said;
        }
    };
    let mut files: BTreeMap<&str, File> = BTreeMap::new();
    for path in stated.iter().map(|(path, _)| path.as_str()).collect::<BTreeSet<_>>() {
        match source(path).ok_or("it is not there".to_string()).and_then(|text| file(&text)) {
            Ok(file) => drop(files.insert(path, file)),
            Err(what) => said.faults.push(format!("{path}: {what}")),
        }
    }
    let all: BTreeSet<String> = stated.iter().map(|(path, one)| format!("{path}#{}", one.name)).collect();
    if all.len() != stated.len() {
        said.faults.push(format!("{PAGE} states something twice"));
    }
    let (listed, mut used) = (listed(page), BTreeSet::new());
    for (path, one) in &stated {
        match one.kind {
            Kind::Theorem => said.theorems += 1,
            Kind::Definition | Kind::Type => said.definitions += 1,
        }
        let Some(file) = files.get(path.as_str()) else { continue };
        let mut wrong = |what: String| said.faults.push(format!("{path}#{}: {what}", one.name));
        if let Err(what) = hold(one, file) {
            wrong(what);
        }
        for meant in spoken(path, one, file).into_iter().filter(|meant| !all.contains(meant)) {
            match meant.contains("/specs/") {
                true if listed.contains(&meant) => drop(used.insert(meant)),
                true => wrong(format!("it speaks of {meant}, which the table of {PAGE} does not list")),
                false => wrong(format!("it speaks of {meant}, which {PAGE} does not state")),
            }
        }
    }
    for name in listed.difference(&used) {
        said.faults.push(format!("{PAGE} lists {name}, and no statement speaks of it"));
    }
    if said.theorems == 0 {
        said.faults.push(format!("{PAGE} states no theorem"));
    }
    for (other, text) in others {
        for name in quoted(text).filter(|name| is_theorem(name) && !all.contains(*name)) {
            said.faults.push(format!("{other} names {name}, which {PAGE} does not state"));
        }
    }
    said
}

/// The files in which a function's own proof stands: that it meets its contract, and the contract is held elsewhere.
const OWN: [&str; 3] = ["/Answers.antt", "/Invariants.antt", "/Proof.antt"];

/// A name on a page that stands in a file of proofs, as `crates/line/proofs/Rejoin.antt#line`, but not in a function's own proof.
fn is_theorem(name: &str) -> bool {
    let Some((path, _)) = name.split_once('#') else { return false };
    let proofs = path.strip_prefix("crates/").and_then(|path| path.split_once("/proofs/"));
    proofs.is_some_and(|(_, file)| file.ends_with(".antt") && !OWN.iter().any(|own| file.ends_with(own)))
}

/// What the page states: in each block of antt a comment with a path, and below it declarations of that file.
fn stated(page: &str) -> Result<Vec<(String, Declaration)>, String> {
    let (mut all, mut within) = (Vec::new(), false);
    // the path, and the lines below it
    let mut parts: Vec<(String, String)> = Vec::new();
    for line in page.lines() {
        match (within, line) {
            (false, "```antt") => within = true,
            (true, "```") => within = false,
            (true, line) => match line.strip_prefix("-- crates/") {
                Some(path) => parts.push((format!("crates/{}", path.trim()), String::new())),
                None => {
                    let part = parts.last_mut().ok_or("a block of antt does not begin with a path")?;
                    part.1.push_str(line);
                    part.1.push('\n');
                }
            },
            (false, _) => {}
        }
    }
    for (path, text) in &parts {
        let read = file(text).map_err(|what| format!("under {path}: {what}"))?;
        if read.declarations.is_empty() {
            return Err(format!("nothing is stated under {path}"));
        }
        all.extend(read.declarations.into_iter().map(|one| (path.clone(), one)));
    }
    Ok(all)
}

/// Holds one declaration of the page to its file.
fn hold(one: &Declaration, file: &File) -> Result<(), String> {
    let found: Vec<&Declaration> = file.declarations.iter().filter(|other| other.name == one.name).collect();
    let [found] = found[..] else {
        return Err(format!("it is declared {} times, and once is wanted", found.len()));
    };
    let differs = |what: &str, here: &str, there: &str| {
        Err(format!("{what} `{}` in the source, and `{}` on the page", short(there), short(here)))
    };
    if found.kind != one.kind {
        return Err(format!("it is a {:?} in the source, and a {:?} on the page", found.kind, one.kind));
    }
    if found.given != one.given {
        return differs("it takes for granted", &one.given.join(" "), &found.given.join(" "));
    }
    if found.statement != one.statement {
        return differs("it says", &one.statement, &found.statement);
    }
    match found.kind {
        Kind::Theorem if !one.equations.is_empty() => return Err("the page has its proof".into()),
        Kind::Theorem if found.equations.is_empty() => return Err("it has no proof".into()),
        Kind::Definition if found.equations != one.equations => {
            return differs("it is", &one.equations.join("; "), &found.equations.join("; "));
        }
        _ => {}
    }
    Ok(())
}

/// What a declaration speaks of in this repository, by file and name. The structs of the code, in specs/declared, are not among it: the
/// kit makes those files.
fn spoken(path: &str, one: &Declaration, file: &File) -> BTreeSet<String> {
    let texts = one.given.iter().chain([&one.statement]).chain(&one.equations);
    let meant = texts.flat_map(|text| names(text)).filter_map(|name| {
        let own = |name| file.declarations.iter().any(|other| other.name == name).then(|| format!("{path}#{name}"));
        beginnings(name).filter(|name| *name != one.name).find_map(|name| file.meaning(name).or_else(|| own(name)))
    });
    meant.filter(|meant| meant.starts_with("crates/") && !meant.contains("/specs/declared/")).collect()
}

/// The definitions that the page lists: rows with a path and names, each in backquotes.
fn listed(page: &str) -> BTreeSet<String> {
    let mut all = BTreeSet::new();
    for line in page.lines().filter(|line| line.starts_with("| `crates/")) {
        let mut words = quoted(line);
        let path = words.next().unwrap_or("");
        all.extend(words.map(|name| format!("{path}#{name}")));
    }
    all
}
