//! Compares the library with the Rust, operation by operation.

use oracle::args::Args;
use oracle::given::{self, short};
use oracle::operations::{named, others, Operation, OPERATIONS};
use oracle::progress::Progress;
use oracle::random::Random;
use oracle::runner::{run, Plan, Tally};
use oracle::shape::{Field, Kind};
use oracle::shrink::shrink;
use oracle::trial::{Judge, Trial};
use std::cell::Cell;
use std::ops::Range;
use std::process::exit;
use std::time::{Duration, Instant};

const HELP: &str = "\
differ: call the door of every function that the Rust has and compare its answer with the Rust's

  --seed S       the seed of the inputs (1)
  --count N      calls for each function (20000)
  --minutes M    stop after M minutes, shared evenly between the functions, even if the count is not reached
  --hours H      the same in hours (with a time and no --count: only the time counts)
  --threads N    threads that share the calls (as many as there are cores)
  --only NAMES   some functions alone, with commas between them, as lsp_to_lpc,lpc_to_lsp
  --turn T       one call alone: the turn that a difference names
  --replay LINE  one input alone: a function's name and the words of its input, as a difference prints them;
                 @FILE takes such lines from a file (empty lines and lines that open with # are passed over)
  --list         print the names of the functions, one a line
  --progress     show progress on standard error even where that is no terminal
  --plant        a check of differ itself: before it is compared, the last word of each answer that is no refusal is
                 altered by one bit where two words of the input are below zero, read as singles; of an input of fewer
                 than four words, where each is above 100; of a longer one without singles, where two are
  --help         this text

The limits come first, then random bits, speech-like values and damaged copies. Results are compared bit for bit with
the Rust in which each call of cos, acos and log10 is replaced by document 01's rule, as request E1 changed it; every NaN
counts as one. A frame is compared with the Rust's functions in the chain of request E2, memories included. What is done over
lent code rows is compared with the Rust's text in which the rows are those; loading rows and finding one, which the Rust does
not do, with a model written from request E5. With the limit of lags 142 the Rust stands as it is; with 82 it has 85 and 82
cut in as numbers, which request E6 does not ask for: the line says how many calls had each. The history that is then not in
use must come back bit for bit. After a refusal every lent buffer must be untouched. For functions that call cos, acos or
log10 the largest distance to the published Rust is printed, with the input that showed it, and held to document 01's bounds;
of a frame, how often its index is another.

An input is fixed by seed, function and turn. The outcome of a seed and a count is the same on any number of threads.
The run stops at the first difference, the one of the lowest turn, and prints it; then the plainest input found that
still shows it, and the line that replays it.

Doors of the header that the Rust has no function for are named and not compared.

Variables, when oracle/ is built: G7231_RUST, the folder with src/encoder.rs; G7231_FOLDER, what ./install wrote.
Exit status: 0 no difference, or no Rust to compare with; 1 a difference, or a bound broken; 2 bad usage.
";

/// The limits of lags that a call may have.
const LIMITS: [u32; 2] = [142, 82];

/// The words of an input that a line of the outcome still shows.
const LONGEST_SHOWN: usize = 1_000;

thread_local! {
    /// The function and turn that a thread is at, for the message of a panic.
    static AT: Cell<(&'static str, u64)> = const { Cell::new(("", 0)) };
}

fn main() {
    let mut args = Args::new(HELP);
    let seed = args.value("--seed").unwrap_or(1u64);
    let time = time(&mut args);
    let count = args.value("--count").unwrap_or(if time.is_some() { u64::MAX } else { 20_000 });
    let cores = std::thread::available_parallelism().map_or(1, |n| n.get());
    let threads = args.value("--threads").unwrap_or(cores);
    let only: Option<String> = args.value("--only");
    let turn: Option<u64> = args.value("--turn");
    let replay: Option<String> = args.value("--replay");
    let progress = args.flag("--progress");
    let plant = args.flag("--plant");
    let list = args.flag("--list");
    let chosen = match &only {
        Some(names) => names.split(',').map(named).collect::<Result<Vec<_>, _>>().unwrap_or_else(|why| args.fail(&why)),
        None => OPERATIONS.iter().collect(),
    };
    if count == 0 || threads == 0 || threads > 1024 || turn == Some(u64::MAX) {
        args.fail("a count is at least 1, threads are 1 to 1024, and turns end before the last machine word");
    }
    let lines = replay.map(|text| lines(&text).unwrap_or_else(|why| args.fail(&why)));
    args.end();
    if list {
        chosen.iter().for_each(|operation| println!("{}", operation.name));
        return;
    }
    let judge = match oracle::both::rust() {
        Ok(rust) => Judge { rust, plant },
        Err(why) => {
            println!("not compared: {why}");
            return;
        }
    };
    if let Some(lines) = lines {
        let good = lines.iter().filter(|(operation, given)| replayed(&judge, operation, given)).count();
        println!("replayed: {good} of {} without a difference", lines.len());
        exit(if good == lines.len() { 0 } else { 1 });
    }
    name_the_turn_of_a_panic(seed);
    let turns = turn.map_or(0..count, |turn| turn..turn + 1);
    let run = Run { judge, seed, turns, threads };
    let mut progress = Progress::new(progress);
    let ends = time.map(|time| Instant::now() + time);
    let mut good = true;
    for (done, operation) in chosen.iter().enumerate() {
        // What is left of the time, shared evenly between the functions that are left.
        let left = (chosen.len() - done) as u32;
        let until = ends.map(|ends| Instant::now() + ends.saturating_duration_since(Instant::now()) / left);
        match run.compare(operation, until, &mut progress) {
            Outcome::Differs => {
                println!("stopped at the first difference: compared {} of {}", done + 1, OPERATIONS.len());
                exit(1);
            }
            Outcome::BeyondItsBound => good = false,
            Outcome::Agrees => {}
        }
    }
    if !others().is_empty() {
        println!("not compared, since the Rust has no such function: {}", others().join(", "));
    }
    println!("compared: {} of {}", chosen.len(), OPERATIONS.len());
    exit(if good { 0 } else { 1 });
}

/// How long to run, if that is given.
fn time(args: &mut Args) -> Option<Duration> {
    let given = [("--minutes", 60.0), ("--hours", 3600.0)].map(|(name, unit)| Some(args.value::<f64>(name)? * unit));
    let seconds = match given {
        [None, None] => return None,
        [Some(seconds), None] | [None, Some(seconds)] => seconds,
        _ => args.fail("--minutes or --hours, and not both"),
    };
    match Duration::try_from_secs_f64(seconds) {
        // Ten years are enough, and an instant that far away can still be named.
        Ok(time) if !time.is_zero() && seconds < 3.2e8 => Some(time),
        _ => args.fail("a time is more than nothing, and at most ten years"),
    }
}

/// The inputs to replay: one line, or those of a file.
fn lines(text: &str) -> Result<Vec<(&'static Operation, Vec<u32>)>, String> {
    let Some(path) = text.strip_prefix('@') else { return Ok(vec![given::parse(text)?]) };
    let whole = std::fs::read_to_string(path).map_err(|why| format!("{path}: {why}"))?;
    let own = |(_, line): &(usize, &str)| !line.trim().is_empty() && !line.starts_with('#');
    let numbered = whole.lines().enumerate().filter(own);
    let all: Vec<_> = numbered
        .map(|(i, line)| given::parse(line).map_err(|why| format!("{path}, line {}: {why}", i + 1)))
        .collect::<Result<_, _>>()?;
    if all.is_empty() {
        return Err(format!("{path}: no line"));
    }
    Ok(all)
}

/// Runs one input and prints it with both answers.
fn replayed(judge: &Judge, operation: &Operation, given: &[u32]) -> bool {
    let trial = judge.replay(operation, given);
    println!("{}: {}", operation.name, trial.fault.as_deref().unwrap_or("no difference"));
    show(operation, given, &trial);
    trial.fault.is_none()
}

/// A panic of the Rust's ends the program: the message says where it was.
fn name_the_turn_of_a_panic(seed: u64) {
    let usual = std::panic::take_hook();
    std::panic::set_hook(Box::new(move |info| {
        usual(info);
        let (name, turn) = AT.get();
        if !name.is_empty() {
            eprintln!("it was at: differ --only {name} --seed {seed} --turn {turn}");
        }
    }));
}

enum Outcome {
    Agrees,
    BeyondItsBound,
    Differs,
}

struct Run {
    judge: Judge,
    seed: u64,
    turns: Range<u64>,
    threads: usize,
}

impl Run {
    /// The input of a turn, and the numbers that follow it.
    fn draw(&self, operation: &Operation, turn: u64) -> (Vec<u32>, Random) {
        let mut random = Random::new(self.seed, operation.number, turn);
        let given = operation.source.draw(&mut random, turn);
        (given, random)
    }

    /// Compares one operation over the turns; prints its line, after the difference if there is one.
    fn compare(&self, operation: &'static Operation, until: Option<Instant>, progress: &mut Progress) -> Outcome {
        let began = Instant::now();
        let plan = Plan { turns: self.turns.clone(), until, threads: self.threads };
        let one = |turn, tally: &mut Tally| {
            AT.set((operation.name, turn));
            let (given, mut random) = self.draw(operation, turn);
            let trial = self.judge.call(operation, &given, &mut random);
            tally.refused += u64::from(trial.wanted_status != 0);
            for (own, count) in LIMITS.iter().zip(&mut tally.limits) {
                *count += u64::from(operation.lag_limit(&given) == Some(*own));
            }
            match trial.fault {
                Some(_) => tally.fault = Some(turn),
                None => self.judge.measure(operation, turn, &given, &trial, &mut tally.distances),
            }
        };
        let tally = run(&plan, &one, |tally| progress.show(|| shown(operation, &plan, tally, began)));
        progress.clear();
        if let Some(turn) = tally.fault {
            self.explain(operation, turn);
        }
        let (line, within) = line(operation, self.seed, &tally, began);
        println!("{line}");
        match (tally.fault, within) {
            (Some(_), _) => Outcome::Differs,
            (None, false) => Outcome::BeyondItsBound,
            (None, true) => Outcome::Agrees,
        }
    }

    /// Prints a difference, and the plainest input that shows it.
    fn explain(&self, operation: &Operation, turn: u64) {
        let (given, mut random) = self.draw(operation, turn);
        let trial = self.judge.call(operation, &given, &mut random);
        let Some(fault) = &trial.fault else {
            println!("{}: a difference that did not show again (seed {}, turn {turn})", operation.name, self.seed);
            return;
        };
        println!("{}: {fault} (seed {}, turn {turn})", operation.name, self.seed);
        show(operation, &given, &trial);
        let differ = if self.judge.plant { "differ --plant" } else { "differ" };
        let again = format!("{differ} --only {} --seed {} --turn {turn}", operation.name, self.seed);
        let mut faulty = |given: &[u32]| self.judge.replay(operation, given).fault.as_ref() == Some(fault);
        if !faulty(&given) {
            println!("its input alone does not show it; again: {again}");
            return;
        }
        let smallest = shrink(operation, &given, &mut faulty);
        println!("{}: {fault}, the plainest input of {} tried", operation.name, smallest.trials);
        show(operation, &smallest.given, &self.judge.replay(operation, &smallest.given));
        println!("again: {again}");
        println!("replay: {differ} --replay \"{}\"", given::line(operation, &smallest.given));
    }
}

/// Progress: the function, the calls done, their share and their rate.
fn shown(operation: &Operation, plan: &Plan, tally: &Tally, began: Instant) -> String {
    let seconds = began.elapsed().as_secs_f64();
    let counted = tally.calls as f64 / (plan.turns.end - plan.turns.start) as f64;
    let timed = plan.until.map(|until| seconds / (until - began).as_secs_f64().max(1e-9));
    let share = timed.map_or(counted, |timed| timed.max(counted)).min(1.0);
    format!(
        "{}: {} calls, {:.0}%, {:.0} a second",
        operation.name,
        tally.calls,
        100.0 * share,
        tally.calls as f64 / seconds
    )
}

/// An operation's line, and whether every distance is within its bound.
fn line(operation: &Operation, seed: u64, tally: &Tally, began: Instant) -> (String, bool) {
    let mut within = true;
    let mut line = format!(
        "{:<25} seed {seed}, {} calls ({} refused), {} differences, {:.1} s",
        operation.name,
        tally.calls,
        tally.refused,
        u64::from(tally.fault.is_some()),
        began.elapsed().as_secs_f64()
    );
    if operation.takes().iter().any(|field| field.role == "lag limit") {
        let [logger, gateway] = tally.limits;
        let seen = if tally.fault.is_none() { "not asked, seen equal" } else { "not asked" };
        line += &format!("; 142: {logger}, 82: {gateway} (held to the Rust with 85 and 82 cut in: {seen})");
    }
    for distance in &tally.distances.largest {
        line += &format!(
            "; {} at most {:.3e} from the published Rust at {}",
            distance.what,
            distance.largest,
            short(&distance.shown_by)
        );
        if let Some(bound) = distance.bound {
            within &= distance.largest <= bound;
            line += &format!(" ({} {bound:.3e})", if distance.largest <= bound { "bound" } else { "BEYOND ITS BOUND" });
        }
    }
    for count in &tally.distances.counts {
        line += &format!("; {}: {} times", count.what, count.times);
        if count.times > 0 {
            // an input with code rows in it would fill the screen
            line += &match count.shown_by.len() {
                0..=LONGEST_SHOWN => format!(", first at {}", short(&count.shown_by)),
                _ => format!(", first at turn {}", count.turn),
            };
        }
    }
    (line, within)
}

/// Prints an input, what the door gave and what was wanted, field by field, as bits; of a refusal the status alone.
fn show(operation: &Operation, given: &[u32], trial: &Trial) {
    for (field, words) in operation.takes().iter().zip(operation.parts(given)) {
        println!("  given  {}{}: {}", field.name, length(field, words), short(words));
    }
    let answers = [("gave  ", trial.status, &trial.gave), ("wanted", trial.wanted_status, &trial.wanted)];
    for (what, status, words) in answers {
        println!("  {what} status: {status}");
        if status != 0 {
            continue;
        }
        for (field, words) in operation.gives.iter().zip(operation.results(words)) {
            println!("  {what} {}{}: {}", field.name, length(field, words), short(words));
        }
    }
}

/// Of a list, how long it is.
fn length(field: &Field, words: &[u32]) -> String {
    match field.kind {
        Kind::Samples => format!(" ({} samples)", words.len()),
        Kind::Shorts => format!(" ({} numbers)", words.len()),
        Kind::ByteList => format!(" ({} bytes)", words.len()),
        _ => String::new(),
    }
}
