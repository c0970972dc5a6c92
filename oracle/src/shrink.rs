//! Makes an input that shows a fault as plain as it can be while it still shows it.
//!
//! Fewer samples first; then zeros, ones and resting values in place of whole fields, their halves, and so on down to
//! single words; then single words with fewer digits. Each step must make the input lighter, so it comes to an end.

use crate::makers;
use crate::operations::Operation;
use crate::row_file::{image, NUMBERS};
use crate::shape::{bits, joined, octets, shorts, word, Field, Parts};

/// At most so many inputs are tried.
const TRIALS: u64 = 20_000;
const ONE: u32 = 0x3f80_0000;

pub struct Smallest {
    pub given: Vec<u32>,
    pub trials: u64,
}

/// The lightest input found for which `faulty` holds, starting from one for which it does.
pub fn shrink(operation: &Operation, given: &[u32], faulty: &mut dyn FnMut(&[u32]) -> bool) -> Smallest {
    let best = operation.parts(given).into_iter().map(<[u32]>::to_vec).collect();
    let mut search = Search { takes: operation.takes(), resting: resting(operation), best, trials: 0, faulty };
    loop {
        let before = search.weight(&search.best);
        search.fewer_samples();
        search.plainer_fields();
        search.plainer_words();
        if search.weight(&search.best) == before {
            return Smallest { given: joined(search.takes, &search.best), trials: search.trials };
        }
    }
}

struct Search<'a> {
    takes: &'a [Field],
    resting: Parts,
    best: Parts,
    trials: u64,
    faulty: &'a mut dyn FnMut(&[u32]) -> bool,
}

impl Search<'_> {
    /// Keeps another input if it is lighter and shows the fault.
    fn attempt(&mut self, parts: Parts) -> bool {
        if self.trials >= TRIALS || self.weight(&parts) >= self.weight(&self.best) {
            return false;
        }
        self.trials += 1;
        let kept = (self.faulty)(&joined(self.takes, &parts));
        if kept {
            self.best = parts;
        }
        kept
    }

    fn weight(&self, parts: &Parts) -> u64 {
        let fields = self.takes.iter().zip(parts).enumerate();
        fields.map(|(at, (field, part))| self.weight_of(at, field, part)).sum()
    }

    fn weight_of(&self, at: usize, field: &Field, part: &[u32]) -> u64 {
        if field.is_byte() {
            return part.iter().map(|word| 1 + u64::from(*word)).sum();
        }
        if field.is_short() {
            return part.iter().map(|word| 1 + weight_of_short(*word)).sum();
        }
        if !field.is_whole() {
            return part.iter().enumerate().map(|(i, word)| 1 + weight_of_single(*word, self.rest(at, i))).sum();
        }
        match value(part) {
            0 => 0,
            n if n == value(&self.resting[at]) => 1,
            n => 2 + n.min(1000) + u64::from(64 - n.leading_zeros()),
        }
    }

    fn rest(&self, at: usize, i: usize) -> u32 {
        self.resting[at].get(i).copied().unwrap_or(0)
    }

    /// Lists of samples cut at the end or the start, by all, a half, a quarter, ..
    fn fewer_samples(&mut self) {
        for at in (0..self.takes.len()).filter(|at| self.takes[*at].is_list()) {
            let mut cut = self.best[at].len();
            while cut > 0 {
                for from_start in [false, true] {
                    while cut <= self.best[at].len() {
                        let mut parts = self.best.clone();
                        let keep = parts[at].len() - cut;
                        parts[at] = if from_start { parts[at].split_off(cut) } else { parts[at][..keep].to_vec() };
                        if !self.attempt(parts) {
                            break;
                        }
                    }
                }
                cut /= 2;
            }
        }
    }

    /// Zeros, ones and resting values over whole fields, then over halves, quarters, .. of them.
    fn plainer_fields(&mut self) {
        let longest = self.best.iter().map(Vec::len).max().unwrap_or(0);
        let mut pieces = 1;
        loop {
            for at in 0..self.takes.len() {
                let (length, whole) = (self.best[at].len(), self.takes[at].is_whole());
                // A number is one value, whatever its words.
                let size = if whole { length } else { length.div_ceil(pieces) };
                if length == 0 || pieces > length || (whole && pieces > 1) {
                    continue;
                }
                for start in (0..length).step_by(size) {
                    self.plainer_piece(at, start, (start + size).min(length));
                }
            }
            if pieces >= longest {
                return;
            }
            pieces = (2 * pieces).min(longest);
        }
    }

    fn plainer_piece(&mut self, at: usize, start: usize, end: usize) {
        let fills: &[u32] = if self.takes[at].is_single() { &[0, ONE] } else { &[0] };
        for fill in fills {
            if self.attempt_piece(at, start, &vec![*fill; end - start]) {
                return;
            }
        }
        let resting: Vec<u32> = (start..end).map(|i| self.rest(at, i)).collect();
        self.attempt_piece(at, start, &resting);
    }

    /// Tries other words in a place of a field. Words that stand there already are no other input: a long list has many such.
    fn attempt_piece(&mut self, at: usize, start: usize, piece: &[u32]) -> bool {
        let place = start..start + piece.len();
        if self.best[at][place.clone()] == *piece {
            return false;
        }
        let mut parts = self.best.clone();
        parts[at][place].copy_from_slice(piece);
        self.attempt(parts)
    }

    /// Words with fewer digits, without their sign, or between 1 and 2; smaller numbers.
    fn plainer_words(&mut self) {
        for at in 0..self.takes.len() {
            if self.takes[at].is_whole() {
                while plainer_numbers(value(&self.best[at])).into_iter().any(|n| {
                    let mut parts = self.best.clone();
                    parts[at] = number(n, parts[at].len());
                    self.attempt(parts)
                }) {}
                continue;
            }
            let plainer = match &self.takes[at] {
                field if field.is_short() => plainer_shorts,
                field if field.is_byte() => plainer_bytes,
                _ => plainer_singles,
            };
            for i in 0..self.best[at].len() {
                while plainer(self.best[at][i]).into_iter().any(|word| self.attempt_piece(at, i, &[word])) {}
            }
        }
    }
}

fn value(words: &[u32]) -> u64 {
    words.iter().fold(0, |n, word| n << 32 | *word as u64)
}

fn number(n: u64, words: usize) -> Vec<u32> {
    (0..words).rev().map(|i| (n >> (32 * i)) as u32).collect()
}

/// 0, then 1, the resting value, and others by how many digits they have.
fn weight_of_single(word: u32, rest: u32) -> u64 {
    match word {
        0 => 0,
        ONE => 1,
        word if word == rest => 2,
        word => {
            let digits = if word << 9 == 0 { 0 } else { 23 - word.trailing_zeros() };
            u64::from(4 + digits + (word >> 31) + u32::from(word >> 23 & 0xff != 127))
        }
    }
}

/// 0, then by how many digits the magnitude has, and 1 more below 0.
fn weight_of_short(word: u32) -> u64 {
    let sample = word as i16;
    u64::from(16 - sample.unsigned_abs().leading_zeros()) * 2 + u64::from(sample < 0)
}

fn plainer_shorts(word: u32) -> Vec<u32> {
    let sample = word as i16;
    shorts(&[sample.saturating_abs(), sample / 256, sample / 16, sample / 2])
}

fn plainer_bytes(word: u32) -> Vec<u32> {
    vec![word >> 4, word >> 1, word.saturating_sub(10), word.saturating_sub(1)]
}

fn plainer_singles(word: u32) -> Vec<u32> {
    let mut list = vec![word & 0x7fff_ffff, ONE | word & 0x8000_0000];
    list.extend([23, 20, 16, 12, 8, 4, 2, 1].map(|n| word >> n << n));
    list.push(word & 0x807f_ffff | ONE);
    list
}

fn plainer_numbers(n: u64) -> Vec<u64> {
    vec![n >> 32, n >> 16, n >> 4, n >> 1, n.saturating_sub(10), n.saturating_sub(1)]
}

/// Values that nothing refuses: the resting set as frequencies, a bare filter, the smallest lag and place, a file of zeros.
fn resting(operation: &Operation) -> Parts {
    let of = |field: &Field| match field.role {
        "frequencies" => bits(&makers::resting()),
        "filter" => (0..field.kind.words()).map(|i| if i == 0 { ONE } else { 0 }).collect(),
        "spacing" => bits(&[31.25]),
        "lag limit" => vec![142],
        "lag" | "pitch lag" => vec![18],
        "place" => word(145),
        "row file" => octets(&image(&[], &[0; NUMBERS])),
        _ if field.is_places() => vec![NUMBERS as u32],
        _ => vec![0; field.kind.words()],
    };
    operation.takes().iter().map(of).collect()
}

#[cfg(test)]
mod tests {
    use super::*;
    use crate::operations::named;
    use crate::random::Random;
    use crate::row_file::is_one;
    use crate::trial::spoils;
    use crate::words::Reader;

    /// The first drawn input that a predicate holds for, made smaller.
    fn smallest(name: &str, faulty: &mut dyn FnMut(&[u32]) -> bool) -> Vec<u32> {
        let operation = named(name).unwrap();
        let mut drawn =
            (0..100_000).map(|turn| operation.source.draw(&mut Random::new(1, operation.number, turn), turn));
        let first = drawn.find(|given| faulty(given)).unwrap();
        let smallest = shrink(operation, &first, faulty);
        assert!(faulty(&smallest.given), "{name}");
        assert!(smallest.trials <= TRIALS);
        smallest.given
    }

    /// The plainest input that a planted fault shows on.
    fn smallest_spoilt(name: &str) -> Vec<u32> {
        smallest(name, &mut |given| spoils(named(name).unwrap(), given))
    }

    #[test]
    fn two_words_below_zero_are_all_that_is_left() {
        for name in ["lsp_to_lpc", "run_combined", "weighting_taps", "interpolate_lsp"] {
            let given = smallest_spoilt(name);
            let left: Vec<u32> = given.into_iter().filter(|word| *word != 0).collect();
            assert_eq!(left, [0xbf80_0000; 2], "{name}");
        }
    }

    #[test]
    fn lists_lose_the_samples_that_the_fault_does_not_need() {
        let given = smallest("open_loop_pitch", &mut |given: &[u32]| given[1] >= 100);
        assert_eq!(given, [&[0, 100][..], &[0; 100], &[0, 0]].concat());
    }

    #[test]
    fn bytes_stay_bytes() {
        assert_eq!(smallest_spoilt("combine_lsp_index"), [101; 3]);
        assert_eq!(smallest_spoilt("split_lsp_index"), [101]);
    }

    /// A file that a load takes loses its notes, and its numbers turn to zeros.
    #[test]
    fn files_stay_files() {
        let given = smallest("load_rows", &mut |given: &[u32]| {
            let mut given = Reader::new(given);
            is_one(&given.byte_list()) && given.number() == 2560
        });
        assert_eq!(Reader::new(&given).byte_list(), image(&[], &[0; NUMBERS]));
    }

    #[test]
    fn digits_and_numbers_fall_as_far_as_the_fault_lets_them() {
        // The third frequency above 1000, and an index above 5000.
        let given = smallest("decode_lsp_freq", &mut |given: &[u32]| {
            given[0] > 5000 && f32::from_bits(given[3]) > 1000.0 && f32::from_bits(given[3]).is_finite()
        });
        assert_eq!(given[4..], [0; 7]);
        assert_eq!(given[1..3], [0; 2]);
        assert!((5001..=10_001).contains(&given[0]), "{}", given[0]);
        assert_eq!(given[3], makers::resting()[2].to_bits());
    }
}
