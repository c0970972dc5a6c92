//! Codes a call by the frame call and by the doors one by one, and decodes it at the other end, as examples/c/call.c
//! does; prints the same lines. Where a file of code rows is named, all of it is over that file's rows.

mod g7231;
mod hash;

use std::fs::File;
use std::io::Read;
use std::process::exit;

use g7231::doors::{
    G7231_FRAME as FRAME, G7231_LAG_MAX, G7231_NO_LINE_SET, G7231_PAST as PAST, G7231_SPAN as SPAN,
    G7231_SUBFRAME as SUBFRAME, G7231_WINDOW as WINDOW,
};
use g7231::{Bands, Coder, FilterMemory, Frame, Refusal, Rows, Shaping, Taps, WeightingMem};
use hash::Hash;

type Lines = [f32; 10];
type Filters = [[f32; 11]; 4];

/// Samples looked at before a frame, and after it.
const AROUND: usize = (SPAN - FRAME) / 2;
const SPACING_HZ: f32 = 31.25;
/// The limit of pitch lags that a frame has.
const LIMIT: u32 = G7231_LAG_MAX as u32;

/// The subframe of a frame's 360 samples.
fn subframe(x: &[f32; SPAN], s: usize) -> &[f32; SUBFRAME] {
    x[AROUND + s * SUBFRAME..].first_chunk().unwrap()
}

/// From a set of line frequencies to the lines of the frame. They are taken whether or not they could be held apart.
fn settle(set: &Lines, answers: &mut Hash) -> Result<Lines, Refusal> {
    let cosines = g7231::lsp_freq_to_cosines(set)?;
    let (lines, converged) = g7231::enforce_lsp_stability(&cosines, SPACING_HZ)?;
    answers.singles(&cosines);
    answers.singles(&lines);
    answers.number(converged as u32);
    Ok(lines)
}

/// The filter of each subframe, between the last frame's lines and this one's.
fn filters(last: &Lines, lines: &Lines, answers: &mut Hash) -> Result<Filters, Refusal> {
    let mut a = Filters::default();
    for (s, a) in a.iter_mut().enumerate() {
        let between = g7231::interpolate_lsp(s, last, lines)?;
        *a = g7231::lsp_to_lpc(&between)?;
        answers.singles(&between);
        answers.singles(a);
    }
    Ok(a)
}

/// The windows' filters, of which the last gives the lines, and the weighting taps of each.
fn windows(x: &[f32; SPAN], answers: &mut Hash) -> Result<(Filters, [Taps; 4]), Refusal> {
    let (mut a, mut taps) = (Filters::default(), [Taps::default(); 4]);
    for s in 0..4 {
        let set = g7231::lpc_analysis(&x[s * SUBFRAME..s * SUBFRAME + WINDOW])?;
        a[s] = set.a;
        taps[s] = g7231::weighting_taps(&set.a)?;
        answers.singles(&set.a);
        answers.doubles(&set.r);
        answers.singles(&[set.k2]);
        answers.singles(&taps[s].wz);
        answers.singles(&taps[s].wp);
    }
    Ok((a, taps))
}

/// The lines of a filter as an index, and the set that the decoder makes of it. A filter that has no lines (7) refuses
/// nothing: the set before is quantised in their place.
fn quantise(rows: Option<&Rows>, a: &[f32; 11], set: &Lines, answers: &mut Hash) -> Result<(u32, Lines), Refusal> {
    let freq = match g7231::lpc_to_lsp(a) {
        Ok(found) => {
            answers.number(0);
            let freq = g7231::lsp_cosines_to_freq(&found)?;
            answers.singles(&found);
            freq
        }
        Err(Refusal(G7231_NO_LINE_SET)) => {
            answers.number(G7231_NO_LINE_SET);
            *set
        }
        Err(other) => return Err(other),
    };
    answers.singles(&freq);
    match rows {
        None => g7231::quantise_lsp_freq(&freq, set),
        Some(rows) => g7231::quantise_lsp_freq_in(rows, &freq, set),
    }
}

/// What `code_frame` does, by the doors one by one, and the weighting taps beside it.
fn step(
    rows: Option<&Rows>,
    coder: &mut Coder,
    x: &[f32; SPAN],
    answers: &mut Hash,
) -> Result<(Frame, [Taps; 4]), Refusal> {
    let (a, taps) = windows(x, answers)?;
    let (index, set) = quantise(rows, &a[3], &coder.set, answers)?;
    let lines = settle(&set, answers)?;
    let a = filters(&coder.lines, &lines, answers)?;

    let mut mem = WeightingMem { x: coder.x_mem, f: coder.f_mem };
    let mut speech = coder.weighted.to_vec();
    for s in 0..4 {
        speech.extend(g7231::weight_subframe(subframe(x, s), &taps[s], &mut mem)?);
    }
    answers.singles(&speech);
    let weighted = *speech.last_chunk().unwrap();

    let pitch = [g7231::open_loop_pitch(LIMIT, &speech, 0)?, g7231::open_loop_pitch(LIMIT, &speech, 1)?];
    let (mut lag, mut factor) = ([0; 4], [0.0; 4]);
    for s in 0..4 {
        let shaping = g7231::harmonic_noise_shaping(LIMIT, &speech, PAST + s * SUBFRAME, pitch[s / 2])?;
        (lag[s], factor[s]) = (shaping.lag, shaping.beta);
    }
    *coder = Coder { set, lines, x_mem: mem.x, f_mem: mem.f, weighted };
    Ok((Frame { index, pitch, lag, factor, a }, taps))
}

/// The combined filter of each subframe, which a search would run.
fn combine(
    mem: &mut FilterMemory,
    x: &[f32; SPAN],
    frame: &Frame,
    taps: &[Taps; 4],
    answers: &mut Hash,
) -> Result<(), Refusal> {
    for s in 0..4 {
        let shaping = Shaping { lag: frame.lag[s], beta: frame.factor[s] };
        let response = g7231::combined_impulse_response(LIMIT, &frame.a[s], &taps[s], shaping)?;
        // what the filter still rings with, on a copy of its memory
        let ringing = g7231::run_combined(&mut mem.clone(), &[0.0; SUBFRAME], &frame.a[s], &taps[s], shaping)?;
        // a coder would send the excitation that it found
        let out = g7231::run_combined(mem, subframe(x, s), &frame.a[s], &taps[s], shaping)?;
        for list in [response, ringing, out] {
            answers.singles(&list);
        }
    }
    Ok(())
}

struct Decoder {
    set: Lines,
    lines: Lines,
}

impl Decoder {
    /// The same set, lines and filters from the index alone, of which three bytes were sent.
    fn decode(&mut self, rows: Option<&Rows>, sent: &Bands, answers: &mut Hash) -> Result<Filters, Refusal> {
        let index = g7231::combine_lsp_index(sent);
        self.set = match rows {
            None => g7231::decode_lsp_freq(index, &self.set)?,
            Some(rows) => g7231::decode_lsp_freq_in(rows, index, &self.set)?,
        };
        let last = self.lines;
        self.lines = settle(&self.set, answers)?;
        filters(&last, &self.lines, answers)
    }
}

/// The bits of a frame and of the memory after it, in the order of the header.
fn bits(frame: &Frame, coder: &Coder) -> Vec<u32> {
    let mut all = vec![frame.index];
    all.extend(frame.pitch.iter().chain(&frame.lag));
    let mut singles = |list: &[f32]| all.extend(list.iter().map(|x| x.to_bits()));
    singles(&frame.factor);
    singles(frame.a.as_flattened());
    for ten in [coder.set, coder.lines, coder.x_mem, coder.f_mem] {
        singles(&ten);
    }
    singles(&coder.weighted);
    all
}

/// Whether two lists have the same bits; if not, why the call ends.
fn same(one: &[f32], other: &[f32], frame: usize, what: &str) -> Result<(), String> {
    let equal = one.len() == other.len() && one.iter().zip(other).all(|(x, y)| x.to_bits() == y.to_bits());
    equal.then_some(()).ok_or_else(|| format!("frame {frame}: the ends have different {what}"))
}

/// The samples with 60 zeros before and after them, and zeros where the last frame is not whole.
fn read_call(name: &str) -> Result<Vec<i16>, String> {
    let bytes = std::fs::read(name).map_err(|e| format!("{name}: {e}"))?;
    if bytes.is_empty() || bytes.len() % 2 != 0 {
        let why = if bytes.is_empty() { "it has no samples" } else { "it ends with half a sample" };
        return Err(format!("{name}: {why}"));
    }
    let mut samples = vec![0; AROUND];
    samples.extend(bytes.chunks_exact(2).map(|pair| i16::from_le_bytes([pair[0], pair[1]])));
    samples.resize((bytes.len() / 2).next_multiple_of(FRAME) + 2 * AROUND, 0);
    Ok(samples)
}

/// The rows of a file, of which no more is read than what is too much.
fn read_rows(name: &str) -> Result<Rows, String> {
    let mut bytes = Vec::new();
    let read = File::open(name).and_then(|file| file.take(32769).read_to_end(&mut bytes));
    read.map_err(|e| format!("{name}: {e}"))?;
    g7231::load_rows(&bytes).map_err(|why| format!("{name}: refused with {}: {why}", why.0))
}

fn run(name: &str, rows: Option<&Rows>) -> Result<(), String> {
    let refused = |why: Refusal| format!("a door refused with {}: {why}", why.0);
    let samples = read_call(name)?;
    let (mut caller, mut stepper) = (g7231::new_coder(), g7231::new_coder());
    let mut combined = g7231::new_filter_memory(LIMIT).map_err(refused)?;
    let set = g7231::resting_set();
    let mut decoder = Decoder { set, lines: g7231::lsp_freq_to_cosines(&set).map_err(refused)? };
    let [mut coded, mut called, mut stepped, mut answers] = [(); 4].map(|()| Hash::new());
    for (k, start) in (0..samples.len() - 2 * AROUND).step_by(FRAME).enumerate() {
        let around = &samples[start..start + SPAN];
        let frame = match rows {
            None => g7231::code_frame(&mut caller, around, SPACING_HZ),
            Some(rows) => g7231::code_frame_in(rows, &mut caller, around, SPACING_HZ),
        };
        let frame = frame.map_err(refused)?;
        coded.numbers(&[frame.index, frame.pitch[0], frame.pitch[1]]);
        let one = bits(&frame, &caller);
        called.numbers(&one);

        let x = std::array::from_fn(|i| f32::from(around[i]));
        let (again, taps) = step(rows, &mut stepper, &x, &mut answers).map_err(refused)?;
        let other = bits(&again, &stepper);
        stepped.numbers(&other);
        answers.numbers(&other);
        if one != other {
            return Err(format!("frame {k}: the frame call and the doors one by one part"));
        }
        combine(&mut combined, &x, &frame, &taps, &mut answers).map_err(refused)?;

        let sent = g7231::split_lsp_index(frame.index).map_err(refused)?;
        let a = decoder.decode(rows, &sent, &mut answers).map_err(refused)?;
        same(&decoder.set, &caller.set, k, "sets")?;
        same(&decoder.lines, &caller.lines, k, "lines")?;
        same(a.as_flattened(), frame.a.as_flattened(), k, "filters")?;
        println!("frame {k:3}  index {:8}  lags {:3} {:3}", frame.index, frame.pitch[0], frame.pitch[1]);
    }
    println!("indices and lags      {:016x}", coded.0);
    println!("the frame call        {:016x}", called.0);
    println!("the doors one by one  {:016x}", stepped.0);
    println!("all answers           {:016x}", answers.0);
    Ok(())
}

const USAGE: &str =
    "call FILE [ROWS]: codes and decodes a call, 16-bit little-endian mono at 8,000 samples a second; over \
the code rows of a file, as `rows write` of examples/c/rows.c writes one, where ROWS names it";

fn main() {
    let words: Vec<String> = std::env::args().skip(1).collect();
    match &words[..] {
        [word] if word == "--help" || word == "-h" => println!("{USAGE}"),
        [name, rows @ ..] if rows.len() <= 1 => {
            let rows = rows.first().map(|file| read_rows(file)).transpose();
            if let Err(why) = rows.and_then(|rows| run(name, rows.as_ref())) {
                eprintln!("call: {why}");
                exit(1);
            }
        }
        _ => {
            eprintln!("{USAGE}");
            exit(2);
        }
    }
}
