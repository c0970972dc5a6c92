//! A likely input of each operation.

use crate::chain::SPAN;
use crate::code_rows;
use crate::makers::*;
use crate::random::Random;
use crate::reference::{past, HISTORY};
use crate::row_file::NUMBERS;
use crate::shape::{bits, octets, shorts, word, Parts};

pub fn lpc_analysis(random: &mut Random) -> Parts {
    vec![bits(&signal(random, 180))]
}

pub fn lpc_to_lsp(random: &mut Random) -> Parts {
    vec![bits(&filter(random))]
}

pub fn lsp_cosines_to_freq(random: &mut Random) -> Parts {
    vec![bits(&cosines(random))]
}

pub fn lsp_freq_to_cosines(random: &mut Random) -> Parts {
    let mut set = ordered(random);
    if random.once_in(3) {
        set = set.map(|f| f * random.between(-2.0, 2.0) as f32);
    }
    vec![bits(&set)]
}

pub fn quantise_lsp_freq(random: &mut Random) -> Parts {
    vec![bits(&ordered(random)), bits(&decoded(random))]
}

pub fn decode_lsp_freq(random: &mut Random) -> Parts {
    vec![index(random), bits(&decoded(random))]
}

pub fn split_lsp_index(random: &mut Random) -> Parts {
    vec![index(random)]
}

pub fn combine_lsp_index(random: &mut Random) -> Parts {
    vec![[0; 3].map(|_| random.bits() >> 24).to_vec()]
}

pub fn enforce_lsp_stability(random: &mut Random) -> Parts {
    vec![bits(&cosines(random)), spacing(random)]
}

pub fn interpolate_lsp(random: &mut Random) -> Parts {
    vec![word(random.below(5)), bits(&cosines(random)), bits(&cosines(random))]
}

pub fn lsp_to_lpc(random: &mut Random) -> Parts {
    vec![bits(&cosines(random))]
}

pub fn weighting_taps(random: &mut Random) -> Parts {
    vec![bits(&filter(random))]
}

pub fn weight_subframe(random: &mut Random) -> Parts {
    let (wz, wp) = taps(random);
    vec![bits(&signal(random, 60)), bits(&wz), bits(&wp), memory(random, 10), memory(random, 10)]
}

pub fn open_loop_pitch(random: &mut Random) -> Parts {
    let (limit, fits) = lag_limit(random);
    let half = random.below(2);
    let extra = *random.pick(&[0, 0, 1, 120]);
    vec![vec![limit], bits(&signal(random, past(fits) + 120 + 120 * half + extra)), word(half)]
}

pub fn harmonic_noise_shaping(random: &mut Random) -> Parts {
    let (limit, fits) = lag_limit(random);
    let place = past(fits) + 60 * random.below(4);
    vec![vec![limit], bits(&signal(random, past(fits) + 240)), word(place), lag(random, 18, fits)]
}

/// The combined filter with a limit, of one size or another, with its lag and factor.
pub fn combined(random: &mut Random, (limit, fits): (u32, u32), growth: f32) -> Parts {
    let (wz, wp) = taps(random);
    let aq = filter(random).map(|a| a * growth);
    let beta = 0.3125 * random.between(0.0, 1.0) as f32;
    vec![vec![limit], bits(&aq), bits(&wz), bits(&wp), lag(random, 18, fits + 3), bits(&[beta])]
}

/// Memories and an input before it. Where a history has places that are not in use, they most often hold what is no number.
pub fn run(random: &mut Random, growth: f32, input: Vec<f32>) -> Parts {
    let limit = lag_limit(random);
    let mut parts = combined(random, limit, growth);
    let mut memories = [10, 10, 10, HISTORY].map(|n| memory(random, n));
    if !random.once_in(4) {
        memories[3][past(limit.1)..].iter_mut().for_each(|place| *place = unlooked_at(random));
    }
    parts.splice(1..1, memories.into_iter().chain([bits(&input)]));
    parts
}

/// What a call must not notice: NaNs that signal and NaNs with a payload, infinities, any bits.
pub fn unlooked_at(random: &mut Random) -> u32 {
    let patterns =
        [0x7f80_0001, 0xff80_0001, 0x7fa0_1234, 0xffbf_ffff, 0x7fc0_0001, 0xffff_ffff, 0x7f80_0000, 0xff80_0000];
    if random.once_in(4) {
        random.bits()
    } else {
        *random.pick(&patterns)
    }
}

pub fn run_combined(random: &mut Random) -> Parts {
    let input = signal(random, 60);
    run(random, 1.0, input)
}

pub fn combined_impulse_response(random: &mut Random) -> Parts {
    let limit = lag_limit(random);
    combined(random, limit, 1.0)
}

pub fn new_filter_memory(random: &mut Random) -> Parts {
    vec![vec![lag_limit(random).0]]
}

pub fn new_coder(_: &mut Random) -> Parts {
    Vec::new()
}

pub fn code_frame(random: &mut Random) -> Parts {
    let (set, lines) = (bits(&decoded(random)), bits(&cosines(random)));
    let [x_mem, f_mem, weighted] = [10, 10, 145].map(|n| short_memory(random, n));
    vec![set, lines, x_mem, f_mem, weighted, shorts(&short_signal(random, SPAN)), spacing(random)]
}

pub fn load_rows(random: &mut Random) -> Parts {
    vec![octets(&code_rows::file(random)), vec![NUMBERS as u32]]
}

pub fn row(random: &mut Random) -> Parts {
    let rows = code_rows::lent(random);
    vec![shorts(&rows), vec![random.below(3) as u32], vec![random.bits() >> 24]]
}

pub fn quantise_lsp_freq_in(random: &mut Random) -> Parts {
    let rows = code_rows::lent(random);
    vec![shorts(&rows), bits(&ordered(random)), bits(&decoded_over(&rows, random))]
}

pub fn decode_lsp_freq_in(random: &mut Random) -> Parts {
    let rows = code_rows::lent(random);
    vec![shorts(&rows), index(random), bits(&decoded_over(&rows, random))]
}

pub fn code_frame_in(random: &mut Random) -> Parts {
    let rows = code_rows::lent(random);
    let mut parts = code_frame(random);
    parts[0] = bits(&decoded_over(&rows, random));
    parts.insert(0, shorts(&rows));
    parts
}
