//! The published Rust's functions on the inputs that a door is called on; for a frame, which it has no function for, its
//! functions in a chain; the same for the doors over lent rows, which are lent the Rust's own; and with the limit of lags 82 the
//! text that has 85 and 82 cut in.

use crate::chains;
use crate::given::Given;
use crate::pairs::{Run, FRAME};
use oracle::reference::{Memory, Rust};
use std::hint::black_box;

fn timed<T>(call: impl Fn(usize) -> T + 'static) -> Option<Run> {
    Some(Box::new(move |i| {
        black_box(call(i));
    }))
}

/// For each function: the door's parameters that it takes, in which form, and its call.
macro_rules! functions {
    ($rust:ident, $given:ident, $called:ident; $($name:ident($($parameter:ident: $form:ident),*) => $call:expr;)*) => {
        $(if $called == stringify!($name) {
            let $name = $rust.$name;
            $(let $parameter = $given.$form(stringify!($parameter));)*
            return timed(move |i| {
                $(let $parameter = &$parameter[i];)*
                $call
            });
        })*
    };
}

/// The Rust's function of a door's name, if it has one. A door over lent rows has the name of the one over built-in rows, and `_in`.
pub fn run(rust: &Rust, given: &Given) -> Option<Run> {
    let called = given.door.name.strip_suffix("_in").unwrap_or(given.door.name);
    if called == FRAME {
        return Some(chains::published(rust, given));
    }
    functions! { rust, given, called;
        lpc_analysis(window: lists) => lpc_analysis(window);
        lpc_to_lsp(a: arrays) => lpc_to_lsp(a);
        lsp_cosines_to_freq(cosines: arrays) => lsp_cosines_to_freq(cosines);
        lsp_freq_to_cosines(freq: arrays) => lsp_freq_to_cosines(freq);
        quantise_lsp_freq(p: arrays, prev: arrays) => quantise_lsp_freq(p, prev);
        decode_lsp_freq(index: numbers, prev: arrays) => decode_lsp_freq(*index, prev);
        split_lsp_index(index: numbers) => split_lsp_index(*index);
        combine_lsp_index(bands: bytes) => combine_lsp_index(*bands);
        enforce_lsp_stability(cosines: arrays, spacing_hz: singles) => enforce_lsp_stability(cosines, *spacing_hz);
        interpolate_lsp(choice: sizes, prev: arrays, cur: arrays) => interpolate_lsp(*choice, prev, cur);
        lsp_to_lpc(lsp: arrays) => lsp_to_lpc(lsp);
        weighting_taps(a: arrays) => weighting_taps(a);
        weight_subframe(x: lists, wz: arrays, wp: arrays, x_mem: arrays, f_mem: arrays) =>
            weight_subframe(x, wz, wp, &mut { *x_mem }, &mut { *f_mem });
    }
    let lags = rust.lags(given.limit).ok()?;
    // the Rust's has another name; it is copied to where a memory of either limit has room
    if called == "new_filter_memory" {
        let new_memory = lags.new_memory;
        return timed(move |_| new_memory());
    }
    functions! { lags, given, called;
        open_loop_pitch(wbuf: lists, half: sizes) => open_loop_pitch(wbuf, *half);
        harmonic_noise_shaping(wbuf: lists, place: sizes, l_ol: numbers) =>
            harmonic_noise_shaping(wbuf, *place, *l_ol as i32);
        run_combined(syn: arrays, wz_mem: arrays, wp_mem: arrays, p_hist: arrays, input: arrays, aq: arrays, wz: arrays,
            wp: arrays, lag: numbers, beta: singles) => {
            let memory = Memory { syn: *syn, wz: *wz_mem, wp: *wp_mem, p_hist: *p_hist };
            run_combined(memory, input, aq, wz, wp, *lag as i32, *beta)
        };
        combined_impulse_response(aq: arrays, wz: arrays, wp: arrays, lag: numbers, beta: singles) =>
            combined_impulse_response(aq, wz, wp, *lag as i32, *beta);
    }
    None
}
