//! Times the library's doors and the published Rust side by side, on speech-like inputs.

mod chains;
mod chart;
mod given;
mod measure;
mod pairs;
mod published;
mod rows;

use oracle::args::{fail, Args};
use oracle::doors::made::DOORS;
use std::fs;
use std::path::PathBuf;

const HELP: &str = "\
bench: time the doors of the library in their bare forms, each beside the published Rust's function of its name; and a frame
by its door and by the doors of its stages in a chain, both beside the published functions in that chain

  --only NAME    one door alone; the frame's with both chains
  --batches N    batches of each side of each door, in turn; the median counts (301)
  --seed S       the seed of the inputs (1)
  --counts FILE  instruction counts to print beside the times: lines `NAME rust|ours TOTAL`, over all 32 inputs
  --chart FILE   write the ratios there as a picture (SVG)
  --list         print the names of the doors
  --count        call each side of each door on all 32 inputs and print `NAME rust|ours` after each, for a counter of
                 instructions that counts inside bench_counted
  --help         this text

It prints a table in markdown, with a dash where the Rust has no such function; the frame comes first, and after the table
what it takes beside the chain of its doors. Inputs are drawn by the words with which the header says what a parameter holds.
A door over lent code rows is lent the Rust's, and stands beside the function that has them built in. A door that takes a limit
of lags has a row with 142 and, as NAME_82, one with 82, beside the Rust's text with 85 and 82 cut in.
bench/run builds it, counts instructions and runs it.
Exit status: 0 done; 1 the Rust is not at hand, a door refuses what is drawn for it, or a file could not be read or
written; 2 bad usage.
";

fn main() {
    let mut args = Args::new(HELP);
    let only: Option<String> = args.value("--only");
    let batches = args.value("--batches").unwrap_or(301usize).max(1);
    let seed = args.value("--seed").unwrap_or(1u64);
    let counts: Option<PathBuf> = args.value("--counts");
    let chart: Option<PathBuf> = args.value("--chart");
    let list = args.flag("--list");
    let count = args.flag("--count");
    if let Some(name) = &only {
        if DOORS.iter().all(|door| door.name != name) {
            args.fail(&format!("there is no door {name}"));
        }
    }
    args.end();
    if list {
        DOORS.iter().for_each(|door| println!("{}", door.name));
        return;
    }
    let both = oracle::both::rust().unwrap_or_else(|why| fail(&format!("nothing to time: {why}")));
    let mut pairs = pairs::pairs(&both.published, seed, only.as_deref());
    if count {
        measure::count(&mut pairs);
        return;
    }
    let counted = counts.map(|path| measure::counts(&path)).unwrap_or_default();
    let times = measure::times(&mut pairs, batches);
    let names: Vec<&str> = pairs.iter().map(|pair| pair.name.as_str()).collect();
    let rows = rows::rows(&names, &times, &counted);
    print!("{}", rows::table(&rows));
    if let Some(text) = rows::beside(&rows) {
        print!("\n{text}");
    }
    if let Some(path) = chart {
        if let Err(why) = fs::write(&path, chart::svg(&rows)) {
            fail(&format!("{}: {why}", path.display()));
        }
    }
}
