//! The lines of a call, frame by frame: window, coefficients, lines, frequencies, index.
//!
//! As document 01's stages stand in a coder, with neither the frame driver's high-pass filter nor its stability pass; and
//! by the library's frame call, whose indices need neither.

use crate::both::rust;
use crate::doors::made::*;
use crate::doors::resting_set;
use crate::hash::Hash;
use crate::makers::resting;

type Ten = [f32; 10];
type Analysis = ([f32; 11], [f64; 11], f32);

/// The four stages and the set that they start from, the Rust's or the library's.
pub struct LineCoder {
    pub resting: Ten,
    pub analyse: fn(&[f32]) -> Analysis,
    pub lines: fn(&[f32; 11]) -> Option<Ten>,
    pub frequencies: fn(&Ten) -> Ten,
    pub quantise: fn(&Ten, &Ten) -> (u32, Ten),
}

/// The published Rust's stages, cos and acos of the C library included.
pub fn published() -> Result<LineCoder, String> {
    let rust = rust()?.published;
    Ok(LineCoder {
        resting: resting(),
        analyse: rust.lpc_analysis,
        lines: rust.lpc_to_lsp,
        frequencies: rust.lsp_cosines_to_freq,
        quantise: rust.quantise_lsp_freq,
    })
}

/// The library's stages.
pub fn ours() -> LineCoder {
    LineCoder {
        resting: resting_set(),
        analyse: |window| {
            let (mut a, mut r, mut k2) = ([0.0; 11], [0.0; 11], 0.0);
            done(unsafe { g7231_lpc_analysis(window.as_ptr(), window.len(), &mut a, &mut r, &mut k2) });
            (a, r, k2)
        },
        lines: |a| {
            let mut lsp = [0.0; 10];
            match unsafe { g7231_lpc_to_lsp(a, &mut lsp) } {
                G7231_NO_LINE_SET => None,
                status => {
                    done(status);
                    Some(lsp)
                }
            }
        },
        frequencies: |lsp| {
            let mut freq = [0.0; 10];
            done(unsafe { g7231_lsp_cosines_to_freq(lsp, &mut freq) });
            freq
        },
        quantise: |p, prev| {
            let (mut index, mut set) = (0, [0.0; 10]);
            done(unsafe { g7231_quantise_lsp_freq(p, prev, &mut index, &mut set) });
            (index, set)
        },
    }
}

/// Samples are finite and within bounds, so nothing of a call is refused.
fn done(status: u32) {
    assert!(status == 0, "a door refused a frame: {status}");
}

const FRAME: usize = 240;
/// How far lines are held apart: the Recommendation's for decoding. No index depends on it.
const SPACING_HZ: f32 = 31.25;
/// Where the window of the last subframe starts in its frame, and how long it is: it is centred on the subframe.
const WINDOW: (usize, usize) = (120, 180);

/// How many samples a call of so many frames has: the last window looks a subframe ahead.
pub fn samples_of(frames: usize) -> usize {
    FRAME * frames + 60
}

/// The index of each frame. A frame without a line set is coded with the lines before it.
pub fn indices(coder: &LineCoder, call: &[i16]) -> Vec<u32> {
    let (mut frequencies, mut set) = (coder.resting, coder.resting);
    let frames = (call.len() - 60) / FRAME;
    let mut all = Vec::with_capacity(frames);
    for frame in 0..frames {
        let start = FRAME * frame + WINDOW.0;
        let window: Vec<f32> = call[start..start + WINDOW.1].iter().map(|x| f32::from(*x)).collect();
        if let Some(lines) = (coder.lines)(&(coder.analyse)(&window).0) {
            frequencies = (coder.frequencies)(&lines);
        }
        let (index, decoded) = (coder.quantise)(&frequencies, &set);
        set = decoded;
        all.push(index);
    }
    all
}

/// The index of each frame by the frame call. Silence stands before the call, where the first window alone looks.
pub fn frame_indices(call: &[i16]) -> Vec<u32> {
    let mut samples = vec![0; 60];
    samples.extend(call);
    let ten = [0.0; 10];
    let mut coder = g7231_coder { set: ten, lines: ten, x_mem: ten, f_mem: ten, weighted: [0.0; 145] };
    done(unsafe { g7231_new_coder(&mut coder) });
    let code = |start| {
        let around: &[i16] = &samples[start..start + G7231_SPAN];
        let mut frame = g7231_frame { index: 0, pitch: [0; 2], lag: [0; 4], factor: [0.0; 4], a: [[0.0; 11]; 4] };
        done(unsafe { g7231_code_frame(&mut coder, around.as_ptr(), around.len(), SPACING_HZ, &mut frame) });
        frame.index
    };
    (0..call.len() - 60).step_by(FRAME).map(code).collect()
}

/// The hash of a call's indices.
pub fn hash(indices: &[u32]) -> u64 {
    let mut hash = Hash::new();
    indices.iter().for_each(|index| hash.number(*index));
    hash.0
}

#[cfg(test)]
mod tests {
    use super::*;

    #[test]
    fn hashes_are_those_of_fnv() {
        assert_eq!(hash(&[]), 0xcbf2_9ce4_8422_2325);
        assert_eq!(hash(&[u32::from_le_bytes(*b"foob")]), 0xdd12_0e79_0c25_12af);
    }
}
