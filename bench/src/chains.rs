//! A frame through the stages one after the other, as one function: the published Rust's stages, without a refusal; and
//! the library's doors in their bare forms, as a host calls them.

use crate::given::Given;
use crate::pairs::Run;
use oracle::args::fail;
use oracle::chain::{code_frame, Coder, Eleven, Stages, Subframe, Ten};
use oracle::doors::made::*;
use oracle::reference::Rust;
use std::hint::black_box;

/// The published stages on the frames that the door is called on. The memories are filled before each, as the door's are.
pub fn published(rust: &Rust, given: &Given) -> Run {
    let stages = Published(*rust);
    let frames = frames(given);
    for (coder, samples, spacing_hz) in &frames {
        if let Err(status) = code_frame(&stages, &mut coder.clone(), samples, *spacing_hz) {
            fail(&format!("a chain refuses what is drawn for {}: status {status}", given.door.name));
        }
    }
    Box::new(move |i| {
        let (coder, samples, spacing_hz) = &frames[i];
        let mut coder = coder.clone();
        black_box(code_frame(&stages, &mut coder, samples, *spacing_hz).ok());
        black_box(coder);
    })
}

fn frames(given: &Given) -> Vec<(Coder, Vec<i16>, f32)> {
    let [set, lines, x_mem, f_mem] = ["set", "lines", "x_mem", "f_mem"].map(|name| given.arrays(name));
    let (weighted, samples, spacing_hz) =
        (given.arrays("weighted"), given.shorts("samples"), given.singles("spacing_hz"));
    let frame = |(i, samples)| {
        let coder = Coder { set: set[i], lines: lines[i], x_mem: x_mem[i], f_mem: f_mem[i], weighted: weighted[i] };
        (coder, samples, spacing_hz[i])
    };
    samples.into_iter().enumerate().map(frame).collect()
}

struct Published(Rust);

impl Stages for Published {
    fn lpc_analysis(&self, window: &[f32]) -> Result<Eleven, u32> {
        Ok((self.0.lpc_analysis)(window).0)
    }

    fn lpc_to_lsp(&self, a: &Eleven) -> Result<Ten, u32> {
        (self.0.lpc_to_lsp)(a).ok_or(G7231_NO_LINE_SET)
    }

    fn lsp_cosines_to_freq(&self, cosines: &Ten) -> Result<Ten, u32> {
        Ok((self.0.lsp_cosines_to_freq)(cosines))
    }

    fn lsp_freq_to_cosines(&self, freq: &Ten) -> Result<Ten, u32> {
        Ok((self.0.lsp_freq_to_cosines)(freq))
    }

    fn quantise_lsp_freq(&self, p: &Ten, prev: &Ten) -> Result<(u32, Ten), u32> {
        Ok((self.0.quantise_lsp_freq)(p, prev))
    }

    fn enforce_lsp_stability(&self, cosines: &Ten, spacing_hz: f32) -> Result<Ten, u32> {
        Ok((self.0.enforce_lsp_stability)(cosines, spacing_hz).0)
    }

    fn interpolate_lsp(&self, choice: usize, prev: &Ten, cur: &Ten) -> Result<Ten, u32> {
        Ok((self.0.interpolate_lsp)(choice, prev, cur))
    }

    fn lsp_to_lpc(&self, lsp: &Ten) -> Result<Eleven, u32> {
        Ok((self.0.lsp_to_lpc)(lsp))
    }

    fn weighting_taps(&self, a: &Eleven) -> Result<(Ten, Ten), u32> {
        Ok((self.0.weighting_taps)(a))
    }

    fn weight_subframe(
        &self,
        x: &[f32],
        wz: &Ten,
        wp: &Ten,
        x_mem: &mut Ten,
        f_mem: &mut Ten,
    ) -> Result<Subframe, u32> {
        Ok((self.0.weight_subframe)(x, wz, wp, x_mem, f_mem))
    }

    fn open_loop_pitch(&self, wbuf: &[f32], half: usize) -> Result<u32, u32> {
        Ok((self.0.logger.open_loop_pitch)(wbuf, half) as u32)
    }

    fn harmonic_noise_shaping(&self, wbuf: &[f32], place: usize, l_ol: u32) -> Result<(u32, f32), u32> {
        let (lag, factor) = (self.0.logger.harmonic_noise_shaping)(wbuf, place, l_ol as i32);
        Ok((lag as u32, factor))
    }
}

/// The limit of lags that a frame has.
const LIMIT: u32 = 142;

const EMPTY: g7231_frame = g7231_frame { index: 0, pitch: [0; 2], lag: [0; 4], factor: [0.0; 4], a: [[0.0; 11]; 4] };

/// The doors of the stages one by one: each writes where its answer is wanted, and no more is copied than is kept, so that
/// what is timed is the doors and nothing around them.
pub fn doors(given: &Given) -> Run {
    let frames = frames(given);
    let call = |(coder, samples, spacing_hz): &(Coder, Vec<i16>, f32), frame: &mut g7231_frame| {
        let mut coder = coder.clone();
        // Each buffer has the length that its door asks for, and none overlaps another.
        let status = unsafe { by_doors(&mut coder, samples, *spacing_hz, frame) };
        black_box(coder);
        status
    };
    let mut frame = EMPTY;
    for one in &frames {
        let status = call(one, &mut frame);
        if status != G7231_DONE {
            fail(&format!("a chain of doors refuses what is drawn for {}: status {status}", given.door.name));
        }
        // as text every float has its own digits, and a zero its sign
        if format!("{frame:?}") != format!("{:?}", whole(one)) {
            fail(&format!("the doors one by one answer otherwise than {}", given.door.name));
        }
    }
    Box::new(move |i| {
        call(&frames[i], &mut frame);
        black_box(&frame);
    })
}

/// The frame by its own door.
fn whole((coder, samples, spacing_hz): &(Coder, Vec<i16>, f32)) -> g7231_frame {
    let Coder { set, lines, x_mem, f_mem, weighted } = coder.clone();
    let mut coder = g7231_coder { set, lines, x_mem, f_mem, weighted };
    let mut frame = EMPTY;
    unsafe { g7231_code_frame(&mut coder, samples.as_ptr(), samples.len(), *spacing_hz, &mut frame) };
    frame
}

unsafe fn by_doors(coder: &mut Coder, samples: &[i16], spacing_hz: f32, frame: &mut g7231_frame) -> u32 {
    macro_rules! go {
        ($door:ident, $($argument:expr),*) => {
            match $door($($argument),*) {
                G7231_DONE => {}
                status => return status,
            }
        };
    }
    let (mut x, mut w, mut speech) = ([0.0f32; 360], [[0.0; 11]; 4], [0.0f32; 385]);
    for (single, sample) in x.iter_mut().zip(samples) {
        *single = f32::from(*sample);
    }
    let (mut r, mut k2) = ([0.0; 11], 0.0);
    for s in 0..4 {
        go!(g7231_bare_lpc_analysis, x[60 * s..].as_ptr(), 180, &mut w[s], &mut r, &mut k2);
    }
    let (mut cosines, mut freq, mut set, mut lines) = ([0.0; 10], [0.0; 10], [0.0; 10], [0.0; 10]);
    match g7231_bare_lpc_to_lsp(&w[3], &mut cosines) {
        G7231_DONE => go!(g7231_bare_lsp_cosines_to_freq, &cosines, &mut freq),
        G7231_NO_LINE_SET => freq = coder.set,
        status => return status,
    }
    go!(g7231_bare_quantise_lsp_freq, &freq, &coder.set, &mut frame.index, &mut set);
    go!(g7231_bare_lsp_freq_to_cosines, &set, &mut cosines);
    let mut converged = 0;
    go!(g7231_bare_enforce_lsp_stability, &cosines, spacing_hz, &mut lines, &mut converged);
    for s in 0..4 {
        go!(g7231_bare_interpolate_lsp, s, &coder.lines, &lines, &mut cosines);
        go!(g7231_bare_lsp_to_lpc, &cosines, &mut frame.a[s]);
    }
    speech[..145].copy_from_slice(&coder.weighted);
    let (mut wz, mut wp) = ([0.0; 10], [0.0; 10]);
    for s in 0..4 {
        go!(g7231_bare_weighting_taps, &w[s], &mut wz, &mut wp);
        let (from, to) = (x[60 + 60 * s..].as_ptr(), speech[145 + 60 * s..].as_mut_ptr().cast());
        go!(g7231_bare_weight_subframe, from, 60, &wz, &wp, &mut coder.x_mem, &mut coder.f_mem, to);
    }
    for half in 0..2 {
        go!(g7231_bare_open_loop_pitch, LIMIT, speech.as_ptr(), 385, half, &mut frame.pitch[half]);
    }
    for s in 0..4 {
        let (pitch, lag, factor) = (frame.pitch[s / 2], &mut frame.lag[s], &mut frame.factor[s]);
        go!(g7231_bare_harmonic_noise_shaping, LIMIT, speech.as_ptr(), 385, 145 + 60 * s, pitch, lag, factor);
    }
    (coder.set, coder.lines) = (set, lines);
    coder.weighted.copy_from_slice(&speech[240..]);
    G7231_DONE
}
