//! The fifteen operations of document 01, the two of request E2, the two of request E4, the five of request E5 and the one of
//! request E6: each ties a door to the Rust's answer and to its inputs.
//!
//! What a door takes and gives is the header's to say. Here stands what the header cannot say.

use crate::distances::{self, Distances, Seen};
use crate::doors::made::{Door, DOORS};
use crate::doors::{fields, Frame};
use crate::inputs::Source;
use crate::likely;
use crate::random::Random;
use crate::reference::{past, Answer, Rust};
use crate::shape::{joined, split, Field, Kind};
use crate::words::Reader;
use std::ops::Range;
use std::sync::LazyLock;

/// The Rust's answer of each: its own function's, the chain's of a frame, or a model's where it has none.
mod answers {
    pub use crate::frame::*;
    pub use crate::reference::*;
}

/// What is special to each.
mod special {
    pub use crate::special::*;
    pub use crate::special_rows::*;
}

/// The field of a filter memory of which fewer places are in use with a lower limit.
const HISTORY: &str = "p_hist";

type Measure = fn(&Seen, &mut Distances);

pub struct Operation {
    /// From 1: its place in document 01, and then those of requests E2, E4, E5 and E6.
    pub number: u32,
    pub name: &'static str,
    pub door: &'static Door,
    pub source: Source,
    pub gives: Vec<Field>,
    answer: fn(&Rust, Reader) -> Answer,
    /// How far the library may be from the published Rust, where the Rust calls cos, acos or log10.
    pub distance: Option<Measure>,
    /// How many answers the stored list has.
    pub stored: u64,
}

macro_rules! operations {
    ($($name:ident: $distance:expr, $stored:expr;)*) => {{
        let mut number = 0;
        vec![$({
            number += 1;
            let door = door(stringify!($name));
            let (takes, gives) = fields(door);
            let source = Source { takes, likely: likely::$name, special: special::$name };
            let (distance, stored): (Option<Measure>, u64) = ($distance, $stored);
            Operation { number, name: door.name, door, source, gives, answer: answers::$name, distance, stored }
        }),*]
    }};
}

/// In document 01's order, and last those of requests E2, E4, E5 and E6: the distance to the published Rust, and how many answers are
/// stored. None are of request E5's, whose inputs have thousands of words.
pub static OPERATIONS: LazyLock<Vec<Operation>> = LazyLock::new(|| {
    operations! {
        lpc_analysis: None, 80;
        lpc_to_lsp: Some(distances::root), 300;
        lsp_cosines_to_freq: Some(distances::freq), 300;
        lsp_freq_to_cosines: Some(distances::cosine), 300;
        quantise_lsp_freq: None, 300;
        decode_lsp_freq: None, 300;
        enforce_lsp_stability: Some(distances::stability), 300;
        interpolate_lsp: None, 300;
        lsp_to_lpc: None, 300;
        weighting_taps: None, 300;
        weight_subframe: None, 100;
        open_loop_pitch: None, 80;
        harmonic_noise_shaping: Some(distances::shaping), 80;
        run_combined: None, 60;
        combined_impulse_response: None, 100;
        new_coder: None, 1;
        code_frame: Some(distances::frame), 40;
        split_lsp_index: None, 200;
        combine_lsp_index: None, 100;
        load_rows: None, 0;
        row: None, 0;
        quantise_lsp_freq_in: None, 0;
        decode_lsp_freq_in: None, 0;
        code_frame_in: Some(distances::frame), 0;
        new_filter_memory: None, 5;
    }
});

fn door(name: &str) -> &'static Door {
    DOORS.iter().find(|door| door.name == name).unwrap_or_else(|| panic!("include/g7231.h has no g7231_{name}"))
}

/// The operation of a name.
pub fn named(name: &str) -> Result<&'static Operation, String> {
    OPERATIONS.iter().find(|operation| operation.name == name).ok_or_else(|| format!("the Rust has no function {name}"))
}

/// The doors that are no such operation, so that the Rust has nothing to hold them to.
pub fn others() -> Vec<&'static str> {
    DOORS.iter().map(|door| door.name).filter(|name| named(name).is_err()).collect()
}

impl Operation {
    pub fn takes(&self) -> &[Field] {
        &self.source.takes
    }

    /// The parts of an input, one a field.
    pub fn parts<'a>(&self, given: &'a [u32]) -> Vec<&'a [u32]> {
        // Inputs are drawn here or were split when they were read.
        split(self.takes(), given).unwrap_or_else(|why| panic!("{}: {why}", self.name))
    }

    /// A call of its door, laid out.
    pub fn frame(&self, given: &[u32], random: &mut Random) -> Frame {
        Frame::new(self.door, &self.parts(given), random)
    }

    /// The whole answer in words: status, then the results. A refusal gives zeros, lists of none, and memories as they were.
    pub fn whole_answer(&self, rust: &Rust, given: &[u32]) -> (u32, Vec<u32>) {
        match (self.answer)(rust, Reader::new(given)) {
            Ok(words) => (0, words.0),
            Err(status) => {
                let parts = self.parts(given);
                let lent = |name| Some(parts[self.takes().iter().position(|field| field.name == name)?].to_vec());
                let each = self.gives.iter().map(|field| lent(field.name).unwrap_or(vec![0; field.kind.words()]));
                (status, joined(&self.gives, &each.collect()))
            }
        }
    }

    /// The parts of results, one a field.
    pub fn results<'a>(&self, words: &'a [u32]) -> Vec<&'a [u32]> {
        split(&self.gives, words).unwrap_or_else(|why| panic!("{}: {why}", self.name))
    }

    /// Whether two results of a call are the same, every NaN counting as one value, but for what the call may not touch.
    pub fn same(&self, given: &[u32], one: &[u32], other: &[u32]) -> bool {
        let untouched = self.untouched(given);
        one == other || self.plain(one) == self.plain(other) && one[untouched.clone()] == other[untouched]
    }

    /// The limit of lags of a call, where there is one.
    pub fn lag_limit(&self, given: &[u32]) -> Option<u32> {
        let at = self.takes().iter().position(|field| field.role == "lag limit")?;
        Some(self.parts(given)[at][0])
    }

    /// The words of the results that a call leaves as they are, bit for bit: the places of a memory's history that are not in
    /// use with its limit.
    fn untouched(&self, given: &[u32]) -> Range<usize> {
        let of_a_memory = |own: &&Field| own.name == HISTORY && self.takes().iter().any(|field| field.name == own.name);
        match (self.lag_limit(given), self.gives.iter().find(of_a_memory)) {
            (Some(limit), Some(history)) => {
                let before = self.gives.iter().take_while(|field| field.name != HISTORY);
                let (start, places) = (before.map(|field| field.kind.words()).sum::<usize>(), history.kind.words());
                start + past(limit).min(places)..start + places
            }
            _ => 0..0,
        }
    }

    /// Results with one pattern for every NaN.
    pub fn plain(&self, words: &[u32]) -> Vec<u32> {
        let mut all = Vec::with_capacity(words.len());
        for (field, own) in self.gives.iter().zip(self.results(words)) {
            if field.is_list() {
                all.push(own.len() as u32);
            }
            match field.kind {
                Kind::Doubles(_) => {
                    for pair in own.chunks(2) {
                        let nan = f64::from_bits((pair[0] as u64) << 32 | pair[1] as u64).is_nan();
                        all.extend(if nan { [0x7ff8_0000, 0] } else { [pair[0], pair[1]] });
                    }
                }
                _ if field.is_single() => {
                    all.extend(own.iter().map(|bits| if f32::from_bits(*bits).is_nan() { 0x7fc0_0000 } else { *bits }));
                }
                _ => all.extend(own),
            }
        }
        all
    }
}

#[cfg(test)]
mod tests {
    use super::*;

    /// A NaN counts for any other where a call may write one, and is itself where nothing may be touched.
    #[test]
    fn places_that_are_not_in_use_are_compared_as_bits() {
        let run = named("run_combined").unwrap();
        let given = |limit| {
            let words = |field: &Field| vec![if field.role == "lag limit" { limit } else { 0 }; field.kind.words()];
            joined(run.takes(), &run.takes().iter().map(words).collect())
        };
        let results = |place: usize, nan| {
            let mut words = vec![0; run.gives.iter().map(|field| field.kind.words()).sum()];
            words[30 + place] = nan;
            words
        };
        let cases = [(142, 144, true), (142, 85, true), (82, 84, true), (82, 85, false), (82, 144, false)];
        for (limit, place, same) in cases {
            let [quiet, payload] = [0x7fc0_0000, 0x7fa0_1234].map(|nan| results(place, nan));
            assert_eq!(run.same(&given(limit), &quiet, &payload), same, "limit {limit}, place {place}");
            assert!(run.same(&given(limit), &payload, &payload));
        }
    }
}
