//! The Rust both ways: as published, and with document 01's rules in place of cos, acos and log10.

use crate::reference::Rust;

pub struct Both {
    pub published: Rust,
    pub ruled: Rust,
}

/// Both, or why there is nothing to compare with.
pub fn rust() -> Result<Both, String> {
    #[cfg(rust)]
    return Ok(Both { published: crate::published::encoder::reach::RUST, ruled: crate::ruled::encoder::reach::RUST });
    #[cfg(not(rust))]
    return Err(format!("the Rust's source is not at {} (G7231_RUST names another folder)", env!("RUST_PATH")));
}

#[cfg(all(test, rust))]
mod tests {
    use super::*;
    use crate::code_rows::built_in;
    use crate::makers::{decoded, ordered, resting};
    use crate::random::Random;
    use crate::reference::{Lags, Memory};
    use crate::row_file::place;
    use crate::spec_tables::{lsp_codebook_entry, LspBand};

    /// Factor 0.25, and no prediction and no weighting.
    fn over_a_history_that_counts(lags: &Lags, lag: i32) -> (Memory, [f32; 60]) {
        let memory =
            Memory { syn: [0.0; 10], wz: [0.0; 10], wp: [0.0; 10], p_hist: std::array::from_fn(|k| (k + 1) as f32) };
        let (mut impulse, mut aq) = ([0.0; 60], [0.0; 11]);
        (impulse[0], aq[0]) = (1.0, 1.0);
        (lags.run_combined)(memory, &impulse, &aq, &[0.0; 10], &[0.0; 10], lag, 0.25)
    }

    /// The cases of request E3, which `worked_cases` runs through the library.
    #[test]
    fn the_published_filter_meets_the_cases_of_its_memories() {
        let lags = rust().unwrap().published.logger;
        for (lag, place) in [(145, 0), (85, 60)] {
            let (after, out) = over_a_history_that_counts(&lags, lag);
            let input = |n: usize| if n == 0 { 1.0 } else { 0.0 };
            assert_eq!(out, std::array::from_fn(|n| input(n) - 0.25 * (place + n + 1) as f32));
            let counted = |k: usize| if k < 85 { (k + 61) as f32 } else { input(k - 85) };
            assert_eq!(after.p_hist, std::array::from_fn(counted));
        }
        let counting = |from: usize| std::array::from_fn(|k| (from + k) as f32);
        let memory = Memory { syn: counting(1), wz: counting(11), wp: counting(21), p_hist: [0.0; 145] };
        let (mut aq, mut taps) = ([0.0; 11], [0.0; 10]);
        (aq[0], aq[1], taps[0]) = (1.0, 0.5, 0.25);
        let (after, out) = (lags.run_combined)(memory, &[0.0; 60], &aq, &taps, &taps, 18, 0.0);
        assert_eq!(out[..5], [-3.0, 0.875, -0.28125, 0.1015625, -0.041015625]);
        assert_eq!(after.p_hist[85..], out);
        let fallen = |k: usize| (-0.5f32).powi(60 - k as i32);
        assert_eq!([after.syn, after.wz, after.wp], [std::array::from_fn(fallen); 3]);
    }

    /// Request E6: the published text with 85 and 82 in it has a shorter history, and searches no further.
    #[test]
    fn the_published_text_is_cut_to_the_limit_of_a_gateway() {
        let rust = rust().unwrap();
        for text in [rust.published, rust.ruled] {
            let (after, out) = over_a_history_that_counts(&text.gateway, 85);
            assert_eq!(out[..4], [0.75, -0.5, -0.75, -1.0]);
            let counted = |k: usize| [if k < 25 { k as f32 + 61.0 } else { 0.0 }, 1.0][usize::from(k == 25)];
            assert_eq!(after.p_hist, std::array::from_fn(counted));
            let wbuf: Vec<f32> = (0..385).map(|k| if k % 83 == 0 { 1.0 } else { 0.0 }).collect();
            assert_eq!([text.logger, text.gateway].map(|lags| (lags.open_loop_pitch)(&wbuf, 1)), [83, 18]);
        }
    }

    /// The cases of request E4 that are decoded. The published text ignores what stands above the 24 bits.
    #[test]
    fn the_published_decoder_meets_the_cases_of_an_index() {
        let Rust { decode_lsp_freq, split_lsp_index, combine_lsp_index, .. } = rust().unwrap().published;
        let (resting, most) = (resting(), 16_777_215);
        let wanted = [4824.0, 9514.0, 13702.0, 14841.0, 19206.0, 21407.0, 22675.0, 25777.0, 28051.0, 29036.0];
        assert_eq!(decode_lsp_freq(most, &resting), wanted);
        assert_eq!(decode_lsp_freq(50_397_699, &resting), decode_lsp_freq(66_051, &resting));
        assert_eq!([66_051, 4_278_256_131].map(split_lsp_index), [[1, 2, 3]; 2]);
        assert_eq!((split_lsp_index(most), combine_lsp_index([255; 3])), ([255; 3], most));
    }

    /// Request E5: rows are lent to the published text in place of its own.
    #[test]
    fn over_its_own_rows_the_published_text_is_itself() {
        let rust = rust().unwrap().published;
        for band in LspBand::ALL {
            for index in 0..=255 {
                let (start, count) = place(band as usize, index.into());
                assert_eq!(built_in()[start..start + count], *lsp_codebook_entry(band, index));
            }
        }
        for turn in 0..2_000 {
            let random = &mut Random::new(1, 0, turn);
            let (p, prev, index) = (ordered(random), decoded(random), random.bits());
            assert_eq!((rust.quantise_lsp_freq_in)(built_in(), &p, &prev), (rust.quantise_lsp_freq)(&p, &prev));
            assert_eq!((rust.decode_lsp_freq_in)(built_in(), index, &prev), (rust.decode_lsp_freq)(index, &prev));
        }
    }
}
