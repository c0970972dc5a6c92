//! The doors of libg7231.a as safe functions. A host may copy this file; the bindings that it stands on are installed
//! with the library (share/g7231/g7231.rs).
//!
//! Lengths are in the types or checked by the doors, and a `&mut` is apart from every other reference, so no call here
//! can break what the header asks. The safe forms are called: a function cannot know the thread's floating-point mode.

use std::ffi::CStr;
use std::fmt;

pub mod doors {
    include!(env!("G7231_BINDINGS"));
}

use doors::*;

pub type Bands = [u8; G7231_BANDS];
type Lines = [f32; G7231_ORDER];
type Filter = [f32; G7231_FILTER];
type Subframe = [f32; G7231_SUBFRAME];

/// Why a call was refused: the header's number. What was lent is as it was.
#[derive(Clone, Copy, Debug, PartialEq, Eq)]
pub struct Refusal(pub u32);

impl fmt::Display for Refusal {
    fn fmt(&self, f: &mut fmt::Formatter) -> fmt::Result {
        let words = unsafe { CStr::from_ptr(g7231_refusal(self.0)) };
        f.write_str(&words.to_string_lossy())
    }
}

impl std::error::Error for Refusal {}

/// The answer where the status is 0, else the refusal.
fn answer<T>(status: u32, made: T) -> Result<T, Refusal> {
    match status {
        G7231_DONE => Ok(made),
        other => Err(Refusal(other)),
    }
}

/// A coder's memory: [`new_coder`] starts it, and then only [`code_frame`], or [`code_frame_in`], alters it.
pub use doors::g7231_coder as Coder;
/// What a frame is coded as.
pub use doors::g7231_frame as Frame;

/// The memory of a coder that has coded nothing.
pub fn new_coder() -> Coder {
    let ten = [0.0; G7231_ORDER];
    let mut coder = Coder { set: ten, lines: ten, x_mem: ten, f_mem: ten, weighted: [0.0; G7231_PAST] };
    unsafe { g7231_new_coder(&mut coder) };
    coder
}

/// What a frame is before it is coded.
const NO_FRAME: Frame = Frame { index: 0, pitch: [0; 2], lag: [0; 4], factor: [0.0; 4], a: [[0.0; G7231_FILTER]; 4] };

/// Codes a frame of 240 samples, given with the 60 before it and the 60 after it.
pub fn code_frame(coder: &mut Coder, samples: &[i16], spacing_hz: f32) -> Result<Frame, Refusal> {
    let mut frame = NO_FRAME;
    let status = unsafe { g7231_code_frame(coder, samples.as_ptr(), samples.len(), spacing_hz, &mut frame) };
    answer(status, frame)
}

/// Linear prediction of a window: coefficients, sums of the autocorrelation, second reflection.
#[derive(Clone, Copy, Default)]
pub struct LpcSet {
    pub a: Filter,
    pub r: [f64; G7231_FILTER],
    pub k2: f32,
}

/// Linear prediction of 180 samples.
pub fn lpc_analysis(window: &[f32]) -> Result<LpcSet, Refusal> {
    let mut set = LpcSet::default();
    let LpcSet { a, r, k2 } = &mut set;
    let status = unsafe { g7231_lpc_analysis(window.as_ptr(), window.len(), a, r, k2) };
    answer(status, set)
}

/// The line spectral pairs of a filter, as ten cosines that fall.
pub fn lpc_to_lsp(a: &Filter) -> Result<Lines, Refusal> {
    let mut lsp = [0.0; G7231_ORDER];
    let status = unsafe { g7231_lpc_to_lsp(a, &mut lsp) };
    answer(status, lsp)
}

/// Line cosines to frequencies.
pub fn lsp_cosines_to_freq(cosines: &Lines) -> Result<Lines, Refusal> {
    let mut freq = [0.0; G7231_ORDER];
    let status = unsafe { g7231_lsp_cosines_to_freq(cosines, &mut freq) };
    answer(status, freq)
}

/// Line frequencies to cosines.
pub fn lsp_freq_to_cosines(freq: &Lines) -> Result<Lines, Refusal> {
    let mut cosines = [0.0; G7231_ORDER];
    let status = unsafe { g7231_lsp_freq_to_cosines(freq, &mut cosines) };
    answer(status, cosines)
}

/// The line frequencies that both ends of a line start from.
pub fn resting_set() -> Lines {
    let mut set = [0.0; G7231_ORDER];
    unsafe { g7231_resting_set(&mut set) };
    set
}

/// The 24-bit index of a set after the previous one, and the set that the decoder makes of it.
pub fn quantise_lsp_freq(p: &Lines, prev: &Lines) -> Result<(u32, Lines), Refusal> {
    let (mut index, mut set) = (0, [0.0; G7231_ORDER]);
    let status = unsafe { g7231_quantise_lsp_freq(p, prev, &mut index, &mut set) };
    answer(status, (index, set))
}

/// The set of an index after the previous one.
pub fn decode_lsp_freq(index: u32, prev: &Lines) -> Result<Lines, Refusal> {
    let mut set = [0.0; G7231_ORDER];
    let status = unsafe { g7231_decode_lsp_freq(index, prev, &mut set) };
    answer(status, set)
}

/// The row of each band that an index of 24 bits names; a longer word is refused.
pub fn split_lsp_index(index: u32) -> Result<Bands, Refusal> {
    let mut bands = [0; G7231_BANDS];
    let status = unsafe { g7231_split_lsp_index(index, &mut bands) };
    answer(status, bands)
}

/// The index of three rows.
pub fn combine_lsp_index(bands: &Bands) -> u32 {
    let mut index = 0;
    unsafe { g7231_combine_lsp_index(bands, &mut index) };
    index
}

/// Lines at least a spacing apart, and whether a pass met no pair too close.
pub fn enforce_lsp_stability(cosines: &Lines, spacing_hz: f32) -> Result<(Lines, bool), Refusal> {
    let (mut out, mut converged) = ([0.0; G7231_ORDER], 0);
    let status = unsafe { g7231_enforce_lsp_stability(cosines, spacing_hz, &mut out, &mut converged) };
    answer(status, (out, converged != 0))
}

/// The lines of a subframe between the last frame's and this one's.
pub fn interpolate_lsp(choice: usize, prev: &Lines, cur: &Lines) -> Result<Lines, Refusal> {
    let mut out = [0.0; G7231_ORDER];
    let status = unsafe { g7231_interpolate_lsp(choice, prev, cur, &mut out) };
    answer(status, out)
}

/// The filter of a line set.
pub fn lsp_to_lpc(lsp: &Lines) -> Result<Filter, Refusal> {
    let mut a = [0.0; G7231_FILTER];
    let status = unsafe { g7231_lsp_to_lpc(lsp, &mut a) };
    answer(status, a)
}

/// Zeros and poles of the perceptual weighting filter.
#[derive(Clone, Copy, Default)]
pub struct Taps {
    pub wz: Lines,
    pub wp: Lines,
}

/// The taps of the weighting filter.
pub fn weighting_taps(a: &Filter) -> Result<Taps, Refusal> {
    let mut taps = Taps::default();
    let status = unsafe { g7231_weighting_taps(a, &mut taps.wz, &mut taps.wp) };
    answer(status, taps)
}

/// The weighting filter's last ten inputs and outputs, most recent first.
#[derive(Clone, Copy, Default)]
pub struct WeightingMem {
    pub x: Lines,
    pub f: Lines,
}

/// 60 samples through the weighting filter.
pub fn weight_subframe(x: &[f32], taps: &Taps, mem: &mut WeightingMem) -> Result<Subframe, Refusal> {
    let mut out = [0.0; G7231_SUBFRAME];
    let WeightingMem { x: x_mem, f: f_mem } = mem;
    let status = unsafe { g7231_weight_subframe(x.as_ptr(), x.len(), &taps.wz, &taps.wp, x_mem, f_mem, &mut out) };
    answer(status, out)
}

/// The pitch lag, up to a limit of 142 or 82, of one half of a frame that starts at place limit + 3 of the weighted speech.
pub fn open_loop_pitch(limit: u32, wbuf: &[f32], half: usize) -> Result<u32, Refusal> {
    let mut lag = 0;
    let status = unsafe { g7231_open_loop_pitch(limit, wbuf.as_ptr(), wbuf.len(), half, &mut lag) };
    answer(status, lag)
}

/// The lag and the factor of harmonic noise shaping.
#[derive(Clone, Copy, Default)]
pub struct Shaping {
    pub lag: u32,
    pub beta: f32,
}

/// Harmonic noise shaping of the subframe at a place, around a pitch lag of the same limit.
pub fn harmonic_noise_shaping(limit: u32, wbuf: &[f32], place: usize, l_ol: u32) -> Result<Shaping, Refusal> {
    let mut shaping = Shaping::default();
    let Shaping { lag, beta } = &mut shaping;
    let status = unsafe { g7231_harmonic_noise_shaping(limit, wbuf.as_ptr(), wbuf.len(), place, l_ol, lag, beta) };
    answer(status, shaping)
}

/// The combined filter's memory: [`new_filter_memory`] starts it, and then only [`run_combined`] alters it, but for its limit.
pub use doors::g7231_filter_memory as FilterMemory;

/// A filter memory at rest, with its caller's limit of pitch lags: 142 or 82.
pub fn new_filter_memory(limit: u32) -> Result<FilterMemory, Refusal> {
    let ten = [0.0; G7231_ORDER];
    let mut mem = FilterMemory { lag_limit: 0, syn: ten, wz_mem: ten, wp_mem: ten, p_hist: [0.0; G7231_PAST] };
    let status = unsafe { g7231_new_filter_memory(limit, &mut mem) };
    answer(status, mem)
}

/// 60 samples through synthesis, weighting and harmonic filter.
pub fn run_combined(
    mem: &mut FilterMemory,
    input: &Subframe,
    aq: &Filter,
    taps: &Taps,
    shaping: Shaping,
) -> Result<Subframe, Refusal> {
    let mut out = [0.0; G7231_SUBFRAME];
    let Shaping { lag, beta } = shaping;
    let status = unsafe { g7231_run_combined(mem, input, aq, &taps.wz, &taps.wp, lag, beta, &mut out) };
    answer(status, out)
}

/// The same filter's response to the unit impulse, from rest.
pub fn combined_impulse_response(limit: u32, aq: &Filter, taps: &Taps, shaping: Shaping) -> Result<Subframe, Refusal> {
    let mut out = [0.0; G7231_SUBFRAME];
    let Shaping { lag, beta } = shaping;
    let status = unsafe { g7231_combined_impulse_response(limit, aq, &taps.wz, &taps.wp, lag, beta, &mut out) };
    answer(status, out)
}

/// Code rows of one's own. Only [`load_rows`] makes them and nothing alters them, which is what the header asks of rows
/// that are lent. Both ends of a line must have the same.
#[derive(Clone)]
pub struct Rows([i16; G7231_ROWS]);

/// The code rows of a file: notes, 2,560 numbers and two more, in at most 32,768 bytes.
pub fn load_rows(file: &[u8]) -> Result<Rows, Refusal> {
    let mut rows = Rows([0; G7231_ROWS]);
    let status = unsafe { g7231_load_rows(file.as_ptr(), file.len(), rows.0.as_mut_ptr(), rows.0.len()) };
    answer(status, rows)
}

/// A row of a band.
#[allow(dead_code)]
pub fn row(rows: &Rows, band: u32, index: u32) -> Result<&[i16], Refusal> {
    let (mut start, mut count) = (0, 0);
    let status = unsafe { g7231_row(rows.0.as_ptr(), rows.0.len(), band, index, &mut start, &mut count) };
    answer(status, &rows.0[start..start + count])
}

/// [`quantise_lsp_freq`] over these rows.
pub fn quantise_lsp_freq_in(rows: &Rows, p: &Lines, prev: &Lines) -> Result<(u32, Lines), Refusal> {
    let (mut index, mut set) = (0, [0.0; G7231_ORDER]);
    let Rows(rows) = rows;
    let status = unsafe { g7231_quantise_lsp_freq_in(rows.as_ptr(), rows.len(), p, prev, &mut index, &mut set) };
    answer(status, (index, set))
}

/// [`decode_lsp_freq`] over these rows.
pub fn decode_lsp_freq_in(rows: &Rows, index: u32, prev: &Lines) -> Result<Lines, Refusal> {
    let mut set = [0.0; G7231_ORDER];
    let status = unsafe { g7231_decode_lsp_freq_in(rows.0.as_ptr(), rows.0.len(), index, prev, &mut set) };
    answer(status, set)
}

/// [`code_frame`] over these rows.
pub fn code_frame_in(rows: &Rows, coder: &mut Coder, samples: &[i16], spacing_hz: f32) -> Result<Frame, Refusal> {
    let mut frame = NO_FRAME;
    let (Rows(rows), count) = (rows, samples.len());
    let status = unsafe {
        g7231_code_frame_in(rows.as_ptr(), rows.len(), coder, samples.as_ptr(), count, spacing_hz, &mut frame)
    };
    answer(status, frame)
}
