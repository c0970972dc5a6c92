//! Checks that what docs/REVIEW.md names is there.

use pages::args::{fail, top, Args};
use pages::declared::declares;
use pages::sentences::{self, row, Sentences};
use pages::{crates, edits_of, pages_of, quoted, read};
use std::collections::BTreeSet;
use std::fs;
use std::path::{Path, PathBuf};

const HELP: &str = "\
review: check that every file, theorem, edit and test that docs/REVIEW.md names exists, and those that the other pages name

  --file PATH        the page (docs/REVIEW.md of the repository around this folder)
  --sentences FOLDER documents 01 and 02 numbered by sentence, 01-sentences.md and 02-sentences.md (../shared beside the
                     repository, if they are there)
  --help             this text

A row of the page is `| C5 | \"Cosine of step k\" | .. |`: a sentence's number, its first words, what answers for it. A sentence of
a request of document 02 has a number as E1.2.
A name in backquotes with a slash and no space is a path from the top of the repository, or a path and a name in that file, as
`crates/cosine/specs/Cosine.antt#cosine`. Each path must exist, and each name must be declared in its file: an import or a use of it does not count.
Under each letter and each request the numbers run from 1 with none missing and none twice, and the requests from E0. Where the
numbered sentences are at hand, each row's words must open its sentence, and every sentence must have a row: all of
document 01, and of document 02 those of every request that has one.
The other pages of docs/ and README.md are held to their paths and names too, but for what a build or a checkout makes
(what lies in a folder target/, or starts with ../) and folders.
On docs/TRUST.md a name in backquotes as `lpc:longer_window_taken` is an edit, crates/lpc/must-fail/longer_window_taken.edit: each must
exist, and the page must name every edit that does. README.md must name in backquotes every crate that crates.txt lists.
Exit status: 0 all is there; 1 something is missing; 2 bad usage.
";

fn main() {
    let mut args = Args::new(HELP);
    let top = top();
    let file = args.value("--file").unwrap_or_else(|| top.join("docs/REVIEW.md"));
    let given: Option<PathBuf> = args.value("--sentences");
    args.end();
    let texts = |folder: PathBuf| ["01", "02"].map(|document| folder.join(format!("{document}-sentences.md")));
    let default = texts(top.join("../shared"));
    let at_hand = match given {
        Some(folder) => Some(texts(folder)),
        None => default.iter().all(|path| path.is_file()).then_some(default),
    };
    let sentences = at_hand.map(|paths| Sentences::of(&paths.map(|path| read(&path))));
    let page = read(&file);
    let (mut faults, mut rows, mut bare, mut names) = (0, 0, 0, 0);
    let mut wrong = |line: Option<usize>, what: String| {
        let line = line.map(|i| format!("{}:", i + 1)).unwrap_or_default();
        println!("{}:{line} {what}", file.display());
        faults += 1;
    };
    for (i, line) in page.lines().enumerate() {
        let before = names;
        for name in named(line) {
            names += 1;
            if let Err(what) = exists(&top, name) {
                wrong(Some(i), what);
            }
        }
        if row(line).is_some() {
            rows += 1;
            bare += usize::from(names == before);
        }
    }
    for (line, what) in sentences::faults(&page, sentences.as_ref()) {
        wrong(line, what);
    }
    let held = if sentences.is_some() { ", held to the sentences of documents 01 and 02" } else { "" };
    println!("{rows} rows ({bare} without a path), {names} names{held}: {faults} faults");
    faults += other_pages(&top, &file);
    faults += edits(&top);
    faults += map(&top);
    if faults > 0 {
        fail("a page names what is not there");
    }
}

/// Checks the names on README.md and on the pages of docs/ but one; answers how many are not there.
fn other_pages(top: &Path, but: &Path) -> u32 {
    let mut pages = pages_of(top);
    pages.retain(|page| page != but);
    let (mut faults, mut names) = (0, 0);
    for page in &pages {
        for (i, line) in read(page).lines().enumerate() {
            let made = |name: &str| name.starts_with("../") || name.split('/').any(|folder| folder == "target");
            for name in named(line).filter(|name| !made(name) && !name.ends_with('/')) {
                names += 1;
                if let Err(what) = exists(top, name) {
                    println!("{}:{}: {what}", page.display(), i + 1);
                    faults += 1;
                }
            }
        }
    }
    println!("{names} names on {} other pages: {faults} faults", pages.len());
    faults
}

/// Holds the edits that docs/TRUST.md names to those that are there, both ways; answers how many are missing on either side.
fn edits(top: &Path) -> u32 {
    let page = "docs/TRUST.md";
    let text = read(&top.join(page));
    let named: BTreeSet<&str> = quoted(&text).filter(|name| is_edit(name)).collect();
    let there = edits_there(top).unwrap_or_else(|e| fail(&format!("crates: {e}")));
    let mut faults = 0;
    for name in named.iter().filter(|name| !there.contains(**name)) {
        println!("{page}: there is no edit {name}");
        faults += 1;
    }
    for name in there.iter().filter(|name| !named.contains(name.as_str())) {
        println!("{page} does not name the edit {name}");
        faults += 1;
    }
    println!("{} edits, {} of them named on {page}: {faults} faults", there.len(), named.len());
    faults
}

/// Answers how many crates README.md does not name.
fn map(top: &Path) -> u32 {
    let (listed, page) = (crates(top), read(&top.join("README.md")));
    let named: BTreeSet<&str> = quoted(&page).collect();
    let missing: Vec<&String> = listed.iter().filter(|name| !named.contains(name.as_str())).collect();
    for name in &missing {
        println!("README.md does not name the crate {name}");
    }
    println!("{} crates, {} not named in README.md", listed.len(), missing.len());
    missing.len() as u32
}

fn is_edit(name: &str) -> bool {
    let word = |w: &str| !w.is_empty() && w.bytes().all(|b| b == b'_' || b.is_ascii_lowercase() || b.is_ascii_digit());
    name.split_once(':').is_some_and(|(of, edit)| word(of) && word(edit))
}

/// Every edit, as CRATE:EDIT.
fn edits_there(top: &Path) -> std::io::Result<BTreeSet<String>> {
    let name = |path: &Path| {
        let of = path.parent()?.parent()?.file_name()?.to_str()?;
        Some(format!("{of}:{}", path.file_stem()?.to_str()?))
    };
    Ok(edits_of(top)?.iter().filter_map(|path| name(path)).collect())
}

/// The names in backquotes that are paths.
fn named(line: &str) -> impl Iterator<Item = &str> {
    quoted(line).filter(|name| name.contains('/') && !name.contains(' '))
}

/// Whether a path is there, and a name declared in the file at it.
fn exists(top: &Path, name: &str) -> Result<(), String> {
    let (path, inner) = match name.split_once('#') {
        Some((path, inner)) => (path, Some(inner)),
        None => (name, None),
    };
    let full = top.join(path.trim_start_matches('/'));
    if !full.exists() {
        return Err(format!("{path} is not there"));
    }
    let Some(inner) = inner else { return Ok(()) };
    let text = fs::read_to_string(&full).map_err(|e| format!("{path}: {e}"))?;
    match declares(path, &text, inner)? {
        true => Ok(()),
        false => Err(format!("{path} does not declare {inner}")),
    }
}
