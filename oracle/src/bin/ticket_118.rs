//! Codes a call of whole-number speech with the published Rust or with the library, for examples/ticket_118.

use oracle::args::{fail, Args};
use oracle::line_coder::{frame_indices, hash, indices, ours, published, samples_of, LineCoder};
use oracle::speech::call;
use std::fs;
use std::process::exit;

const HELP: &str = "\
ticket_118: code a call with the published Rust or with the library, and print the hash of its indices

  --coder WHO         rust: the published functions; ours: the library's doors one by one; frame: its frame call
  --seed S            the seed of the call (SEED); its samples are made of whole numbers
  --frames N          frames of 240 samples, 30 ms each (200)
  --store FILE        write the indices there, one a line after a line that names the call
  --part FILE FILE    compare two such files: where they part, and how often
  --search N          the hashes of N calls, from the seed on, one a line
  --help              this text

A frame: the 180 samples of the last subframe's window, lpc_analysis, lpc_to_lsp (a frame without a line set keeps the
lines before it), lsp_cosines_to_freq, quantise_lsp_freq against the set before; or code_frame alone. The hash is FNV-1a,
64 bits.
Exit status: 0 done, or the files are the same; 1 they part; 2 bad usage; 3 the coder is not at hand.
";

/// The indices of a call.
type Coder = Box<dyn Fn(&[i16]) -> Vec<u32>>;

fn by_stages(coder: LineCoder) -> Coder {
    Box::new(move |call| indices(&coder, call))
}

/// A call on which the published Rust's indices part when a C library's answers move by one unit in the last place.
const SEED: u64 = 471;

fn main() {
    let help: &'static str = HELP.replace("SEED", &SEED.to_string()).leak();
    let mut args = Args::new(help);
    if args.flag("--part") {
        let (Some(one), Some(other)) = (args.word(), args.word()) else { args.fail("--part FILE FILE") };
        args.end();
        part(&one, &other);
    }
    let coder: Option<String> = args.value("--coder");
    let seed = args.value("--seed").unwrap_or(SEED);
    let frames = args.value("--frames").unwrap_or(200usize);
    let store: Option<String> = args.value("--store");
    let search: Option<u64> = args.value("--search");
    if frames == 0 || frames > 1_000_000 {
        args.fail("a call has 1 to 1,000,000 frames");
    }
    let (name, coder) = match coder.as_deref() {
        Some("rust") => ("the published Rust", published().map(by_stages)),
        Some("ours") => ("the library", Ok(by_stages(ours()))),
        Some("frame") => ("the library", Ok(Box::new(frame_indices) as Coder)),
        _ => args.fail("--coder is rust, ours or frame"),
    };
    args.end();
    let coder = coder.unwrap_or_else(|why| {
        eprintln!("{why}");
        exit(3)
    });
    if let Some(calls) = search {
        for seed in (seed..).take(calls as usize) {
            println!("{seed} {:016x}", hash(&code(&coder, seed, frames)));
        }
        return;
    }
    let coded = code(&coder, seed, frames);
    if let Some(path) = store {
        let mut text = format!("# {name}, seed {seed}, {frames} frames\n");
        coded.iter().for_each(|index| text += &format!("{index:06x}\n"));
        fs::write(&path, text).unwrap_or_else(|why| fail(&format!("{path}: {why}")));
    }
    println!("{name}, seed {seed}, {frames} frames: hash {:016x}", hash(&coded));
}

fn code(coder: &Coder, seed: u64, frames: usize) -> Vec<u32> {
    coder(&call(seed, samples_of(frames)))
}

/// Prints where two stored calls part.
fn part(one: &str, other: &str) -> ! {
    let (left, right) = (read(one), read(other));
    if left.len() != right.len() {
        bad(&format!("{one} has {} frames, and {other} {}", left.len(), right.len()));
    }
    let apart: Vec<usize> = (0..left.len()).filter(|frame| left[*frame] != right[*frame]).collect();
    println!("hashes {:016x} and {:016x}", hash(&left), hash(&right));
    match apart.first() {
        None => println!("all {} frames have the same index", left.len()),
        Some(first) => println!(
            "{} of {} frames have another index, the first at {:.2} s: frame {first}, {:06x} and {:06x}",
            apart.len(),
            left.len(),
            *first as f64 * 0.03,
            left[*first],
            right[*first]
        ),
    }
    exit(if apart.is_empty() { 0 } else { 1 })
}

/// The indices of a stored call.
fn read(path: &str) -> Vec<u32> {
    let text = fs::read_to_string(path).unwrap_or_else(|why| bad(&format!("{path}: {why}")));
    let lines = text.lines().filter(|line| !line.starts_with('#'));
    let all: Vec<u32> = lines
        .map(|line| u32::from_str_radix(line, 16).unwrap_or_else(|_| bad(&format!("{path}: {line} is no index"))))
        .collect();
    if all.is_empty() {
        bad(&format!("{path}: no index"));
    }
    all
}

fn bad(why: &str) -> ! {
    eprintln!("{why}");
    exit(2)
}
