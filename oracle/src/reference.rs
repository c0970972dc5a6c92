//! The fifteen operations as document 01 and request E6 have them, the splitting and combining of an index as request E4 has
//! them, those over code rows as request E5 has them, and a new filter memory as request E6 has it: the refusals, in their
//! order, and then the Rust's function, or `row_file` where it has none.
//!
//! Each takes the words of its input and answers the words of its result, or the number of its refusal.

use crate::row_file::{self, NUMBERS};
use crate::words::{Reader, Words};

type Ten = [f32; 10];
type Eleven = [f32; 11];
type Subframe = [f32; 60];

/// The memories of the combined filter.
pub struct Memory {
    pub syn: Ten,
    pub wz: Ten,
    pub wp: Ten,
    /// The Rust has the first places alone, as many as its limit has in use.
    pub p_hist: [f32; HISTORY],
}

/// The places of a history.
pub const HISTORY: usize = 145;

/// The Rust's functions that turn on the limit of lags.
#[derive(Clone, Copy)]
pub struct Lags {
    pub open_loop_pitch: fn(&[f32], usize) -> i32,
    pub harmonic_noise_shaping: fn(&[f32], usize, i32) -> (i32, f32),
    pub new_memory: fn() -> Memory,
    pub run_combined: fn(Memory, &Subframe, &Eleven, &Ten, &Ten, i32, f32) -> (Memory, Subframe),
    pub combined_impulse_response: fn(&Eleven, &Ten, &Ten, i32, f32) -> Subframe,
}

/// The Rust's functions. There are two such sets: as published, and with document 01's rules.
#[derive(Clone, Copy)]
pub struct Rust {
    pub lpc_analysis: fn(&[f32]) -> (Eleven, [f64; 11], f32),
    pub lpc_to_lsp: fn(&Eleven) -> Option<Ten>,
    pub lsp_cosines_to_freq: fn(&Ten) -> Ten,
    pub lsp_freq_to_cosines: fn(&Ten) -> Ten,
    pub quantise_lsp_freq: fn(&Ten, &Ten) -> (u32, Ten),
    pub decode_lsp_freq: fn(u32, &Ten) -> Ten,
    /// These two over lent rows.
    pub quantise_lsp_freq_in: fn(&[i16], &Ten, &Ten) -> (u32, Ten),
    pub decode_lsp_freq_in: fn(&[i16], u32, &Ten) -> Ten,
    pub split_lsp_index: fn(u32) -> [u8; 3],
    pub combine_lsp_index: fn([u8; 3]) -> u32,
    pub enforce_lsp_stability: fn(&Ten, f32) -> (Ten, bool),
    pub interpolate_lsp: fn(usize, &Ten, &Ten) -> Ten,
    pub lsp_to_lpc: fn(&Ten) -> Eleven,
    pub weighting_taps: fn(&Eleven) -> (Ten, Ten),
    pub weight_subframe: fn(&[f32], &Ten, &Ten, &mut Ten, &mut Ten) -> Subframe,
    /// With the limit 142, which the Rust has.
    pub logger: Lags,
    /// With 82 and 85 in its place: the same text but for these numbers.
    pub gateway: Lags,
}

impl Rust {
    /// The functions with a limit; with any other number there are none.
    pub fn lags(&self, limit: u32) -> Result<&Lags, u32> {
        match limit {
            142 => Ok(&self.logger),
            82 => Ok(&self.gateway),
            _ => Err(CHOICE),
        }
    }
}

/// How many samples are looked back on with a limit.
pub fn past(limit: u32) -> usize {
    limit as usize + 3
}

pub type Answer = Result<Words, u32>;

const LENGTH: u32 = 1;
const CHOICE: u32 = 2;
const PLACE: u32 = 3;
const LAG: u32 = 4;
const NOT_FINITE: u32 = 5;
const MAGNITUDE: u32 = 6;
const NO_LINE_SET: u32 = 7;
const INDEX: u32 = 9;
const ROW_FILE: u32 = 10;
const ROW_NUMBER: u32 = 11;

fn refuse(status: u32, when: bool) -> Result<(), u32> {
    if when {
        Err(status)
    } else {
        Ok(())
    }
}

fn finite(lists: &[&[f32]]) -> Result<(), u32> {
    refuse(NOT_FINITE, lists.iter().any(|list| list.iter().any(|x| !x.is_finite())))
}

fn in_magnitude(lists: &[&[f32]]) -> Result<(), u32> {
    refuse(MAGNITUDE, lists.iter().any(|list| list.iter().any(|x| x.abs() > 65_536.0)))
}

/// The Rust ignores what stands above the 24 bits.
fn in_24_bits(index: u32) -> Result<(), u32> {
    refuse(INDEX, index > 16_777_215)
}

pub fn lpc_analysis(rust: &Rust, mut given: Reader) -> Answer {
    let window = given.samples();
    refuse(LENGTH, window.len() != 180)?;
    finite(&[&window])?;
    let (a, r, k2) = (rust.lpc_analysis)(&window);
    Ok(Words::default().singles(&a).doubles(&r).single(k2))
}

pub fn lpc_to_lsp(rust: &Rust, mut given: Reader) -> Answer {
    let a = given.singles();
    finite(&[&a])?;
    let lsp = (rust.lpc_to_lsp)(&a).ok_or(NO_LINE_SET)?;
    Ok(Words::default().singles(&lsp))
}

pub fn lsp_cosines_to_freq(rust: &Rust, mut given: Reader) -> Answer {
    let cosines = given.singles();
    finite(&[&cosines])?;
    Ok(Words::default().singles(&(rust.lsp_cosines_to_freq)(&cosines)))
}

pub fn lsp_freq_to_cosines(rust: &Rust, mut given: Reader) -> Answer {
    let freq = given.singles();
    finite(&[&freq])?;
    in_magnitude(&[&freq])?;
    Ok(Words::default().singles(&(rust.lsp_freq_to_cosines)(&freq)))
}

fn quantised(mut given: Reader, quantise: impl Fn(&Ten, &Ten) -> (u32, Ten)) -> Answer {
    let (p, prev) = (given.singles(), given.singles());
    finite(&[&p, &prev])?;
    in_magnitude(&[&p, &prev])?;
    let (index, set) = quantise(&p, &prev);
    Ok(Words::default().number(index).singles(&set))
}

pub fn quantise_lsp_freq(rust: &Rust, given: Reader) -> Answer {
    quantised(given, rust.quantise_lsp_freq)
}

fn decoded(mut given: Reader, decode: impl Fn(u32, &Ten) -> Ten) -> Answer {
    let (index, prev) = (given.number(), given.singles());
    in_24_bits(index)?;
    finite(&[&prev])?;
    in_magnitude(&[&prev])?;
    Ok(Words::default().singles(&decode(index, &prev)))
}

pub fn decode_lsp_freq(rust: &Rust, given: Reader) -> Answer {
    decoded(given, rust.decode_lsp_freq)
}

/// Rows that are lent: their number alone is looked at, before anything else.
pub fn lent_rows(given: &mut Reader) -> Result<Vec<i16>, u32> {
    let rows = given.shorts();
    refuse(LENGTH, rows.len() != NUMBERS)?;
    Ok(rows)
}

pub fn quantise_lsp_freq_in(rust: &Rust, mut given: Reader) -> Answer {
    let rows = lent_rows(&mut given)?;
    quantised(given, |p, prev| (rust.quantise_lsp_freq_in)(&rows, p, prev))
}

pub fn decode_lsp_freq_in(rust: &Rust, mut given: Reader) -> Answer {
    let rows = lent_rows(&mut given)?;
    decoded(given, |index, prev| (rust.decode_lsp_freq_in)(&rows, index, prev))
}

pub fn load_rows(_: &Rust, mut given: Reader) -> Answer {
    let (file, places) = (given.byte_list(), given.number());
    refuse(LENGTH, places as usize != NUMBERS)?;
    refuse(ROW_FILE, !row_file::is_one(&file))?;
    let rows = row_file::numbers(&file);
    refuse(ROW_NUMBER, !row_file::pass(&rows))?;
    Ok(Words::default().shorts(&rows))
}

pub fn row(_: &Rust, mut given: Reader) -> Answer {
    lent_rows(&mut given)?;
    let (band, index) = (given.number(), given.number());
    refuse(CHOICE, band > 2 || index > 255)?;
    let (start, count) = row_file::place(band as usize, index as usize);
    Ok(Words::default().word(start).word(count))
}

pub fn split_lsp_index(rust: &Rust, mut given: Reader) -> Answer {
    let index = given.number();
    in_24_bits(index)?;
    Ok(Words::default().bytes(&(rust.split_lsp_index)(index)))
}

pub fn combine_lsp_index(rust: &Rust, mut given: Reader) -> Answer {
    Ok(Words::default().number((rust.combine_lsp_index)(given.bytes())))
}

pub fn enforce_lsp_stability(rust: &Rust, mut given: Reader) -> Answer {
    let (cosines, spacing) = (given.singles(), given.single());
    finite(&[&cosines, &[spacing]])?;
    refuse(MAGNITUDE, !(0.0..=400.0).contains(&spacing))?;
    let (out, converged) = (rust.enforce_lsp_stability)(&cosines, spacing);
    Ok(Words::default().singles(&out).number(converged.into()))
}

pub fn interpolate_lsp(rust: &Rust, mut given: Reader) -> Answer {
    let (choice, prev, cur) = (given.word(), given.singles(), given.singles());
    finite(&[&prev, &cur])?;
    Ok(Words::default().singles(&(rust.interpolate_lsp)(choice, &prev, &cur)))
}

pub fn lsp_to_lpc(rust: &Rust, mut given: Reader) -> Answer {
    let lsp = given.singles();
    finite(&[&lsp])?;
    Ok(Words::default().singles(&(rust.lsp_to_lpc)(&lsp)))
}

pub fn weighting_taps(rust: &Rust, mut given: Reader) -> Answer {
    let a = given.singles();
    finite(&[&a])?;
    let (wz, wp) = (rust.weighting_taps)(&a);
    Ok(Words::default().singles(&wz).singles(&wp))
}

pub fn weight_subframe(rust: &Rust, mut given: Reader) -> Answer {
    let x = given.samples();
    let (wz, wp) = (given.singles(), given.singles());
    let (mut x_mem, mut f_mem) = (given.singles(), given.singles());
    refuse(LENGTH, x.len() != 60)?;
    finite(&[&x, &wz, &wp, &x_mem, &f_mem])?;
    let out = (rust.weight_subframe)(&x, &wz, &wp, &mut x_mem, &mut f_mem);
    Ok(Words::default().singles(&x_mem).singles(&f_mem).singles(&out))
}

pub fn open_loop_pitch(rust: &Rust, mut given: Reader) -> Answer {
    let (limit, wbuf, half) = (given.number(), given.samples(), given.word());
    let lags = rust.lags(limit)?;
    refuse(CHOICE, half > 1)?;
    let end = past(limit) + 120 * half + 120;
    refuse(LENGTH, wbuf.len() < end)?;
    finite(&[&wbuf[..end]])?;
    Ok(Words::default().number((lags.open_loop_pitch)(&wbuf, half) as u32))
}

pub fn harmonic_noise_shaping(rust: &Rust, mut given: Reader) -> Answer {
    let (limit, wbuf, place, l_ol) = (given.number(), given.samples(), given.word(), given.number());
    let lags = rust.lags(limit)?;
    refuse(LAG, !(18..=limit).contains(&l_ol))?;
    // The place is any machine word: nothing is added to it before it is known to be small.
    refuse(PLACE, place < past(limit) || place > wbuf.len() || wbuf.len() - place < 60)?;
    finite(&[&wbuf[place - past(limit)..place + 60]])?;
    let (lag, beta) = (lags.harmonic_noise_shaping)(&wbuf, place, l_ol as i32);
    Ok(Words::default().number(lag as u32).single(beta))
}

pub fn new_filter_memory(rust: &Rust, mut given: Reader) -> Answer {
    let limit = given.number();
    let Memory { syn, wz, wp, p_hist } = (rust.lags(limit)?.new_memory)();
    Ok(Words::default().number(limit).singles(&syn).singles(&wz).singles(&wp).singles(&p_hist))
}

pub fn run_combined(rust: &Rust, mut given: Reader) -> Answer {
    let limit = given.number();
    let (syn, wz_mem, wp_mem) = (given.singles(), given.singles(), given.singles());
    let history = given.words(HISTORY);
    let (input, aq, wz, wp) = (given.singles(), given.singles(), given.singles(), given.singles());
    let (lag, beta) = (given.number(), given.single());
    let lags = rust.lags(limit)?;
    refuse(LAG, !(18..=limit + 3).contains(&lag))?;
    // The places that are not in use stay words, so that nothing is done to them.
    let (in_use, others) = history.split_at(past(limit));
    let mut p_hist = [0.0; HISTORY];
    p_hist.iter_mut().zip(in_use).for_each(|(single, bits)| *single = f32::from_bits(*bits));
    finite(&[&syn, &wz_mem, &wp_mem, &p_hist, &input, &aq, &wz, &wp, &[beta]])?;
    let memory = Memory { syn, wz: wz_mem, wp: wp_mem, p_hist };
    let (after, out) = (lags.run_combined)(memory, &input, &aq, &wz, &wp, lag as i32, beta);
    let memories = Words::default().singles(&after.syn).singles(&after.wz).singles(&after.wp);
    Ok(memories.singles(&after.p_hist[..in_use.len()]).numbers(others).singles(&out))
}

pub fn combined_impulse_response(rust: &Rust, mut given: Reader) -> Answer {
    let (limit, aq, wz, wp) = (given.number(), given.singles(), given.singles(), given.singles());
    let (lag, beta) = (given.number(), given.single());
    let lags = rust.lags(limit)?;
    refuse(LAG, !(18..=limit + 3).contains(&lag))?;
    finite(&[&aq, &wz, &wp, &[beta]])?;
    Ok(Words::default().singles(&(lags.combined_impulse_response)(&aq, &wz, &wp, lag as i32, beta)))
}
