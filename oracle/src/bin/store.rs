//! Writes the Rust's answers that the program `replay` holds the library to.

use oracle::args::{fail, Args};
use oracle::given::{hex, parse};
use oracle::operations::{named, Operation, OPERATIONS};
use oracle::random::Random;
use std::io::Write;

const HELP: &str = "\
store: write the Rust's answers for the operations of document 01 and of requests E2, E4 and E6, kept as crates/replay/stdin;
none for those of request E5, whose inputs have thousands of words

  --seed S       the seed of the inputs (1)
  --only NAME    one operation alone
  --help         this text

A record is a line of words: the operation's number, its input, its status, its results. A word is 8 hexadecimal
digits and a space, or a line feed after the last of a record: word i of the file starts at byte 9 x i. A single is
its bits; a double, a length, place, half or choice is two words, high then low; a list of samples is its length in
one word and then its singles, or the 16 bits of each sample in a word; a byte is one word. A NaN among the results is 7fc00000. Refused
results are zeros, memories as given. Half of an operation's records go through the limits; the inputs of oracle/aimed.txt
come last, in its order. The operations of document 01 come first with theirs, and those of a request after those of the
requests before it, and the aimed inputs of request E6 last of all, so that lines keep their numbers. The Rust's calls of cos,
acos and log10 are replaced by document 01's rules; with the limit of lags 82 it has 85 and 82 cut in.
Exit status: 0 done; 1 the Rust is not at hand; 2 bad usage.
";

/// The last operation of document 01, of request E2, of request E4, of request E5 and of request E6.
const LAST: [u32; 5] = [15, 17, 19, 24, 25];

/// Inputs that are aimed at one fault each; those below a line that opens like this are of request E6, whatever operation they
/// are of.
const AIMED: &str = include_str!("../../aimed.txt");
const LATER: &str = "# Request E6";

fn main() {
    let mut args = Args::new(HELP);
    let seed = args.value("--seed").unwrap_or(1u64);
    let only: Option<String> = args.value("--only");
    let chosen: Vec<&Operation> = match &only {
        Some(name) => vec![named(name).unwrap_or_else(|why| args.fail(&why))],
        None => OPERATIONS.iter().collect(),
    };
    args.end();
    let rust = oracle::both::rust().unwrap_or_else(|why| fail(&format!("not compared: {why}")));
    let mut text = String::new();
    let mut store = |operation: &Operation, given: Vec<u32>| {
        let (status, answer) = operation.whole_answer(&rust.ruled, &given);
        let mut words = vec![operation.number];
        words.extend(given);
        words.push(status);
        words.extend(operation.plain(&answer));
        text += &(hex(&words) + "\n");
    };
    let (earlier, later) = AIMED.split_at(AIMED.find(LATER).unwrap_or(AIMED.len()));
    let mut rest = &chosen[..];
    for last in LAST {
        let (some, later) = rest.split_at(rest.partition_point(|one| one.number <= last));
        rest = later;
        for operation in some {
            for turn in turns(operation) {
                let mut random = Random::new(seed, operation.number, turn);
                store(operation, operation.source.draw(&mut random, turn));
            }
        }
        for (operation, given) in aimed(earlier) {
            if some.iter().any(|one| one.number == operation.number) {
                store(operation, given);
            }
        }
    }
    assert!(rest.is_empty(), "LAST has no place for the operations from {} on", rest[0].name);
    for (operation, given) in aimed(later) {
        if chosen.iter().any(|one| one.number == operation.number) {
            store(operation, given);
        }
    }
    if let Err(why) = std::io::stdout().write_all(text.as_bytes()) {
        fail(&format!("standard output: {why}"));
    }
}

/// Inputs of oracle/aimed.txt, each with its operation.
fn aimed(text: &str) -> impl Iterator<Item = (&'static Operation, Vec<u32>)> + '_ {
    let lines = text.lines().filter(|line| !line.is_empty() && !line.starts_with('#'));
    lines.map(|line| parse(line).unwrap_or_else(|why| fail(&format!("oracle/aimed.txt: {why}: {line}"))))
}

/// Half from the limits, where there are any, evenly over all of them, and half from what follows.
fn turns(operation: &Operation) -> impl Iterator<Item = u64> {
    let limits = operation.source.limit_turns();
    let half = if limits > 0 { operation.stored / 2 } else { 0 };
    (0..half).map(move |i| i * limits / half).chain((0..operation.stored - half).map(move |i| limits + i))
}
