//! Opens the Rust's functions to this package. They are private where they were cut; this module stands below them, once
//! below the published text and once below the ruled one, and with the limit of lags of each.

use super::super::{encoder, encoder_82, spec_lsp};
use super::*;
use crate::own_rows;
use crate::reference::{Lags, Memory, Rust};

pub const RUST: Rust = Rust {
    lpc_analysis: |window| {
        let set = lpc_analysis(window);
        (set.a, set.r, set.k2)
    },
    lpc_to_lsp,
    lsp_cosines_to_freq: spec_lsp::lsp_cosines_to_freq,
    lsp_freq_to_cosines: spec_lsp::lsp_freq_to_cosines,
    quantise_lsp_freq: spec_lsp::quantise_lsp_freq,
    decode_lsp_freq: spec_lsp::decode_lsp_freq,
    quantise_lsp_freq_in: own_rows::quantise_lsp_freq,
    decode_lsp_freq_in: own_rows::decode_lsp_freq,
    split_lsp_index: spec_lsp::split_lsp_index,
    combine_lsp_index: spec_lsp::combine_lsp_index,
    enforce_lsp_stability,
    interpolate_lsp,
    lsp_to_lpc,
    weighting_taps,
    weight_subframe,
    logger: encoder::reach::LAGS,
    gateway: encoder_82::reach::LAGS,
};

/// With the limit that this text has.
pub const LAGS: Lags = Lags {
    open_loop_pitch,
    harmonic_noise_shaping: |wbuf, place, l_ol| {
        let shaping = harmonic_noise_shaping(wbuf, place, l_ol);
        (shaping.lag, shaping.beta)
    },
    new_memory: || opened(CombinedMem::new()),
    run_combined: |memory, input, aq, wz, wp, lag, beta| {
        let mut own = CombinedMem::new();
        (own.syn, own.wz, own.wp) = (memory.syn, memory.wz, memory.wp);
        // as many places as this text has
        own.p_hist.copy_from_slice(&memory.p_hist[..WSPEECH_HIST]);
        let out = run_combined(&mut own, input, aq, wz, wp, HnsParams { lag, beta });
        (opened(own), out)
    },
    combined_impulse_response: |aq, wz, wp, lag, beta| combined_impulse_response(aq, wz, wp, HnsParams { lag, beta }),
};

/// The places of the history that this text does not have are zeros here.
fn opened(own: CombinedMem) -> Memory {
    let mut p_hist = [0.0; 145];
    p_hist[..WSPEECH_HIST].copy_from_slice(&own.p_hist);
    Memory { syn: own.syn, wz: own.wz, wp: own.wp, p_hist }
}
