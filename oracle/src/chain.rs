//! One frame through the stages, one after the other, as request E2 of document 02 chains them.
//!
//! Whoever makes the stages: the Rust with document 01's refusals (`frame`), the Rust as it is published, or the
//! library's own doors (bench/). The Rust's frame driver is another chain: it scales the samples and falls back otherwise.

use crate::makers::resting;

pub type Ten = [f32; 10];
pub type Eleven = [f32; 11];
pub type Subframe = [f32; 60];

/// What a coder keeps between frames.
#[derive(Clone)]
pub struct Coder {
    /// The line frequencies that the decoder has.
    pub set: Ten,
    /// The stabilised line cosines of the last frame.
    pub lines: Ten,
    pub x_mem: Ten,
    pub f_mem: Ten,
    /// The weighted speech before the frame.
    pub weighted: [f32; 145],
}

/// What a frame is coded to.
pub struct Coded {
    pub index: u32,
    pub pitch: [u32; 2],
    /// Lag and factor of each subframe.
    pub shaping: [(u32, f32); 4],
    pub a: [Eleven; 4],
}

/// The stages of document 01 that a frame goes through; each answers, or refuses with its number.
pub trait Stages {
    fn lpc_analysis(&self, window: &[f32]) -> Result<Eleven, u32>;
    fn lpc_to_lsp(&self, a: &Eleven) -> Result<Ten, u32>;
    fn lsp_cosines_to_freq(&self, cosines: &Ten) -> Result<Ten, u32>;
    fn lsp_freq_to_cosines(&self, freq: &Ten) -> Result<Ten, u32>;
    fn quantise_lsp_freq(&self, p: &Ten, prev: &Ten) -> Result<(u32, Ten), u32>;
    /// The cosines alone: a frame uses them whether or not the passes converged.
    fn enforce_lsp_stability(&self, cosines: &Ten, spacing_hz: f32) -> Result<Ten, u32>;
    fn interpolate_lsp(&self, choice: usize, prev: &Ten, cur: &Ten) -> Result<Ten, u32>;
    fn lsp_to_lpc(&self, lsp: &Ten) -> Result<Eleven, u32>;
    fn weighting_taps(&self, a: &Eleven) -> Result<(Ten, Ten), u32>;
    fn weight_subframe(&self, x: &[f32], wz: &Ten, wp: &Ten, x_mem: &mut Ten, f_mem: &mut Ten)
        -> Result<Subframe, u32>;
    fn open_loop_pitch(&self, wbuf: &[f32], half: usize) -> Result<u32, u32>;
    fn harmonic_noise_shaping(&self, wbuf: &[f32], place: usize, l_ol: u32) -> Result<(u32, f32), u32>;
}

const NO_LINE_SET: u32 = 7;
const FRAME_LENGTH: u32 = 8;

/// Samples that a frame is coded from: 60 before it, its 240, 60 after it.
pub const SPAN: usize = 360;

/// A coder before its first frame.
pub fn new_coder(stages: &impl Stages) -> Result<Coder, u32> {
    let set = resting();
    let lines = stages.lsp_freq_to_cosines(&set)?;
    Ok(Coder { set, lines, x_mem: [0.0; 10], f_mem: [0.0; 10], weighted: [0.0; 145] })
}

/// The index of a filter's lines after the set that the decoder has, and the set that it makes of the index. A filter
/// without a line set refuses nothing: that set itself is quantised.
pub fn lines(stages: &impl Stages, a: &Eleven, set: &Ten) -> Result<(u32, Ten), u32> {
    let p = match stages.lpc_to_lsp(a) {
        Err(NO_LINE_SET) => *set,
        found => stages.lsp_cosines_to_freq(&found?)?,
    };
    stages.quantise_lsp_freq(&p, set)
}

/// Codes a frame. The first refusal of a stage is the frame's, and leaves the coder as it was.
pub fn code_frame(stages: &impl Stages, coder: &mut Coder, samples: &[i16], spacing_hz: f32) -> Result<Coded, u32> {
    let samples: &[i16; SPAN] = samples.try_into().map_err(|_| FRAME_LENGTH)?;
    let x = samples.map(f32::from);
    let windows = four(|s| stages.lpc_analysis(&x[60 * s..60 * s + 180]))?;
    let (index, set) = lines(stages, &windows[3], &coder.set)?;
    let cosines = stages.enforce_lsp_stability(&stages.lsp_freq_to_cosines(&set)?, spacing_hz)?;
    let a = four(|s| stages.lsp_to_lpc(&stages.interpolate_lsp(s, &coder.lines, &cosines)?))?;
    let (mut x_mem, mut f_mem) = (coder.x_mem, coder.f_mem);
    let mut speech = [0.0; 145 + 240];
    speech[..145].copy_from_slice(&coder.weighted);
    for (s, window) in windows.iter().enumerate() {
        let (wz, wp) = stages.weighting_taps(window)?;
        let own = &x[60 + 60 * s..120 + 60 * s];
        let out = stages.weight_subframe(own, &wz, &wp, &mut x_mem, &mut f_mem)?;
        speech[145 + 60 * s..205 + 60 * s].copy_from_slice(&out);
    }
    let pitch = [stages.open_loop_pitch(&speech, 0)?, stages.open_loop_pitch(&speech, 1)?];
    let shaping = four(|s| stages.harmonic_noise_shaping(&speech, 145 + 60 * s, pitch[s / 2]))?;
    let weighted = std::array::from_fn(|i| speech[240 + i]);
    *coder = Coder { set, lines: cosines, x_mem, f_mem, weighted };
    Ok(Coded { index, pitch, shaping, a })
}

/// One of each subframe, in order, up to the first refusal.
fn four<T>(of: impl Fn(usize) -> Result<T, u32>) -> Result<[T; 4], u32> {
    Ok([of(0)?, of(1)?, of(2)?, of(3)?])
}
