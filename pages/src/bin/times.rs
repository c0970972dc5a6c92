//! Makes the tables of docs/TIMES.md, and checks that no crate is missing there.

use pages::args::{fail, top, Args};
use pages::{crates, read};
use std::collections::BTreeMap;
use std::path::Path;

const HELP: &str = "\
times: the time that each crate and each step of the gate takes

  times          print the tables of docs/TIMES.md from the last run of the gate (target/gate/ci.log and steps)
  times --check  check that docs/TIMES.md has a row for each crate of crates.txt, and no row for another
  times --help   this text

Exit status: 0 done; 1 a row is missing or too many; 2 bad usage.
";

/// What the log tells of a crate. Not every kit tells how long a check took.
#[derive(Default)]
struct Crate {
    proved: Option<u64>,
    edits: u64,
    edits_time: Option<u64>,
    run: Option<u64>,
}

fn main() {
    let mut args = Args::new(HELP);
    let check = args.flag("--check");
    args.end();
    let top = top();
    let listed = crates(&top);
    if check {
        check_page(&read(&top.join("docs/TIMES.md")), &listed);
    } else {
        print_tables(&top, &listed);
    }
}

fn check_page(page: &str, listed: &[String]) {
    // The table of crates is the one whose head says so; it ends with the first line that is no row.
    let lines = page.lines().skip_while(|line| cell(line) != Some("crate")).skip(2);
    let rows: Vec<&str> =
        lines.map_while(cell).map(|name| name.trim_matches('`')).filter(|name| *name != "all").collect();
    let missing: Vec<&String> = listed.iter().filter(|name| !rows.contains(&name.as_str())).collect();
    let strange: Vec<&&str> = rows.iter().filter(|row| !listed.iter().any(|name| name == *row)).collect();
    if !missing.is_empty() || !strange.is_empty() {
        fail(&format!(
            "docs/TIMES.md: no row for {missing:?}, and rows for {strange:?}, which crates.txt does not list"
        ));
    }
    println!("docs/TIMES.md has a row for each of the {} crates", listed.len());
}

/// The first cell of a row.
fn cell(line: &str) -> Option<&str> {
    line.trim().strip_prefix('|')?.split('|').next().map(str::trim)
}

fn print_tables(top: &Path, listed: &[String]) {
    let mut found: BTreeMap<&str, Crate> = listed.iter().map(|name| (name.as_str(), Crate::default())).collect();
    let log = read(&top.join("target/gate/ci.log"));
    for line in log.lines().filter_map(|line| line.strip_prefix("rt: ")) {
        let seconds = seconds(line);
        let words: Vec<&str> = line.split_whitespace().collect();
        match words[..] {
            ["must-fail", edit, ..] => {
                if let Some(own) = edit.split('/').next().and_then(|name| found.get_mut(name)) {
                    own.edits += 1;
                    own.edits_time = own.edits_time.map_or(seconds, |time| Some(time + seconds.unwrap_or(0)));
                }
            }
            [name, "proved", ..] => {
                if let Some(own) = found.get_mut(name) {
                    own.proved = seconds;
                }
            }
            [name, "ran" | "ran,", ..] => {
                if let Some(own) = found.get_mut(name) {
                    own.run = seconds;
                }
            }
            _ => {}
        }
    }
    println!("| crate | proved in | must-fail edits | tried in | run in |\n|---|---|---|---|---|");
    for name in listed {
        let own = &found[name.as_str()];
        let [proved, tried, run] = [own.proved, own.edits_time, own.run].map(|time| match time {
            Some(seconds) => format!("{seconds} s"),
            None => "–".to_string(),
        });
        println!("| {name} | {proved} | {} | {tried} | {run} |", own.edits);
    }
    println!("\n| step of the gate | time |\n|---|---|");
    for line in read(&top.join("target/gate/steps")).lines() {
        if let Some((seconds, step)) = line.split_once(' ') {
            println!("| {step} | {seconds} s |");
        }
    }
}

/// The time at the end of a line: `.. 3 s)`.
fn seconds(line: &str) -> Option<u64> {
    line.strip_suffix(" s)")?.rsplit(['(', ' ']).next()?.parse().ok()
}
