//! Holds every theorem that the pages name to docs/THEOREMS.md.

use pages::args::{fail, top, Args};
use pages::theorems::{check, PAGE};
use pages::{edits_of, pages_of, read};
use std::fs;

const HELP: &str = "\
theorems: check that every theorem that the pages name says what docs/THEOREMS.md says

  --help   this text

On docs/THEOREMS.md a block marked antt has a comment with a path, and below it declarations of that file: a theorem by its statement,
a definition with its equations, a record or a data type whole, each within the modules that stand around it. Each must be
the source's own, word by word; line ends, comments and `pub` do not count. What a statement speaks of must be stated on the page too, or be
a definition of some crate's specs/ that the page's table lists, by file and name, as the source imports it. Every name of a file of proofs on README.md and the other pages of docs/, as
`crates/line/proofs/Rejoin.antt#line`, must be stated there, and so must what a must-fail edit names in its line `shown:`; the proof that a
function meets its contract, in an Answers.antt, an Invariants.antt or a Proof.antt of its own folder, need not.

Exit status: 0 all hold; 1 one does not, and is told; 2 bad usage.
";

fn main() {
    Args::new(HELP).end();
    let top = top();
    let mut others: Vec<(String, String)> = Vec::new();
    for path in pages_of(&top).iter().filter(|path| **path != top.join(PAGE)) {
        others.push((path.strip_prefix(&top).unwrap_or(path).display().to_string(), read(path)));
    }
    for path in edits_of(&top).unwrap_or_else(|e| fail(&format!("crates: {e}"))) {
        let text = read(&path);
        let shown = text.lines().filter_map(|line| line.strip_prefix("shown:"));
        let shown: String = shown.map(|name| format!("`{}`\n", name.trim())).collect();
        others.push((path.strip_prefix(&top).unwrap_or(&path).display().to_string(), shown));
    }
    let source = |path: &str| fs::read_to_string(top.join(path)).ok();
    let said = check(&read(&top.join(PAGE)), &others, &source);
    for fault in &said.faults {
        println!("{fault}");
    }
    println!(
        "{} theorems, and {} definitions that they speak of: {} faults",
        said.theorems,
        said.definitions,
        said.faults.len()
    );
    if !said.faults.is_empty() {
        fail("a theorem is not what docs/THEOREMS.md says");
    }
}
