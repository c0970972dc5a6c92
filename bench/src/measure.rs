//! Times and instruction counts of both sides.

use crate::given::INPUTS;
use crate::pairs::{Pair, Run};
use oracle::args::fail;
use oracle::progress::Progress;
use std::collections::BTreeMap;
use std::fs;
use std::path::Path;
use std::time::Instant;

/// A batch takes about this long, in seconds.
const BATCH: f64 = 200e-6;

/// One figure of the Rust's, where it has the function, and one of ours.
#[derive(Clone, Copy)]
pub struct Sides {
    pub rust: Option<f64>,
    pub ours: f64,
}

impl Sides {
    pub fn ratio(self) -> Option<f64> {
        Some(self.ours / self.rust?)
    }
}

/// The median time of a call of each pair, in nanoseconds. Every round has a batch of each door and each side, so that
/// whatever slows the machine down for a while slows all of them.
pub fn times(pairs: &mut [Pair], rounds: usize) -> Vec<Sides> {
    let calls: Vec<usize> = pairs.iter_mut().map(calls_of).collect();
    let mut found = vec![[Vec::new(), Vec::new()]; pairs.len()];
    let mut progress = Progress::new(false);
    for round in 0..rounds {
        for ((pair, calls), found) in pairs.iter_mut().zip(&calls).zip(&mut found) {
            // Neither side always follows the other.
            for side in [round % 2, 1 - round % 2] {
                if let Some(run) = side_of(pair, side) {
                    found[side].push(batch(run, *calls));
                }
            }
        }
        progress.show(|| format!("timing: round {} of {rounds}", round + 1));
    }
    progress.clear();
    let medians = found
        .into_iter()
        .map(|[rust, ours]| Sides { rust: (!rust.is_empty()).then(|| median(rust)), ours: median(ours) });
    medians.collect()
}

/// The two sides, by number and by name.
const SIDES: [&str; 2] = ["rust", "ours"];

fn side_of(pair: &mut Pair, side: usize) -> Option<&mut Run> {
    match side {
        0 => pair.rust.as_mut(),
        _ => Some(&mut pair.ours),
    }
}

/// How many calls make a batch, the same for both sides.
fn calls_of(pair: &mut Pair) -> usize {
    let once = (0..2).filter_map(|side| Some(batch(side_of(pair, side)?, INPUTS * 4))).fold(0.0, f64::max) * 1e-9;
    ((BATCH / once) as usize).clamp(INPUTS, 200_000) / INPUTS * INPUTS
}

/// The time of a call over a batch, in nanoseconds.
fn batch(run: &mut Run, calls: usize) -> f64 {
    let began = Instant::now();
    for i in 0..calls {
        run(i % INPUTS);
    }
    began.elapsed().as_secs_f64() * 1e9 / calls as f64
}

fn median(mut times: Vec<f64>) -> f64 {
    times.sort_by(f64::total_cmp);
    times[times.len() / 2]
}

/// A counter of instructions looks for this name: it counts while the function runs, and notes the count at its end.
#[no_mangle]
#[inline(never)]
pub extern "C" fn bench_counted(run: &mut Run) {
    (0..INPUTS).for_each(run);
}

/// Calls each side of each door once on every input, and prints which, for `counts` to read beside the counts.
pub fn count(pairs: &mut [Pair]) {
    for pair in pairs {
        for (side, called) in SIDES.iter().enumerate() {
            if let Some(run) = side_of(pair, side) {
                // Once before, so that nothing is set up for the first time while it is counted.
                run(0);
                bench_counted(run);
                println!("{} {called}", pair.name);
            }
        }
    }
}

/// Instructions of a call, by door: lines `NAME rust|ours TOTAL` with the total over all inputs.
pub fn counts(path: &Path) -> BTreeMap<String, Sides> {
    let bad = |why: &str| -> ! { fail(&format!("{}: {why}", path.display())) };
    let text = fs::read_to_string(path).unwrap_or_else(|e| bad(&e.to_string()));
    let mut all = BTreeMap::new();
    for line in text.lines() {
        let [name, side, total] = line.split_whitespace().collect::<Vec<_>>()[..] else {
            bad(&format!("{line} is not NAME SIDE TOTAL"))
        };
        let Ok(total) = total.parse::<f64>() else { bad(&format!("{total} is no number")) };
        let own: &mut Sides = all.entry(name.to_string()).or_insert(Sides { rust: None, ours: f64::NAN });
        match side {
            "rust" => own.rust = Some(total / INPUTS as f64),
            "ours" => own.ours = total / INPUTS as f64,
            _ => bad("a side is rust or ours"),
        }
    }
    all
}
