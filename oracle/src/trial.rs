//! One call of a door, held to the Rust's answer.

use crate::both::Both;
use crate::distances::{Distances, Seen};
use crate::operations::Operation;
use crate::random::Random;
use crate::shape::Field;

/// What a door answered, and what it should have.
pub struct Trial {
    pub status: u32,
    pub gave: Vec<u32>,
    pub wanted_status: u32,
    pub wanted: Vec<u32>,
    /// What is wrong, if anything.
    pub fault: Option<String>,
}

/// What the doors are held to.
pub struct Judge {
    pub rust: Both,
    /// Whether to spoil some answers, to see that they are caught.
    pub plant: bool,
}

impl Judge {
    /// Calls the door on one input. The random numbers fill the buffers of the results and the guards.
    pub fn call(&self, operation: &Operation, given: &[u32], random: &mut Random) -> Trial {
        let (wanted_status, wanted) = operation.whole_answer(&self.rust.ruled, given);
        let mut frame = operation.frame(given, random);
        let status = frame.call();
        let mut gave = frame.gave();
        if self.plant && status == 0 && spoils(operation, given) {
            spoil(&mut gave);
        }
        let fault = if status != wanted_status {
            Some(format!("status {status} and not {wanted_status}"))
        } else if status != 0 && !operation.door.refusals.contains(&status) {
            Some(format!("status {status}, which the header does not list"))
        } else if let Some(trespass) = frame.trespass(status != 0) {
            Some(trespass)
        } else if status == 0 && !operation.same(given, &gave, &wanted) {
            Some("other results".to_string())
        } else {
            None
        };
        Trial { status, gave, wanted_status, wanted, fault }
    }

    /// The same for an input by itself, whatever turn it came from.
    pub fn replay(&self, operation: &Operation, given: &[u32]) -> Trial {
        self.call(operation, given, &mut Random::new(0, operation.number, 0))
    }

    /// Adds how far a good answer of a turn is from the published Rust's.
    pub fn measure(&self, operation: &Operation, turn: u64, given: &[u32], trial: &Trial, distances: &mut Distances) {
        let Some(distance) = operation.distance else { return };
        let (published_status, published) = operation.whole_answer(&self.rust.published, given);
        let seen =
            Seen { turn, given, status: trial.status, gave: &trial.gave, published_status, published: &published };
        distance(&seen, distances);
    }
}

/// The inputs on which a planted fault shows: at least two words are below zero, read as singles; of fewer than four words
/// each is above 100, and of more without a single at least two are.
pub fn spoils(operation: &Operation, given: &[u32]) -> bool {
    let two_above = |bound| given.iter().filter(|word| **word > bound).nth(1).is_some();
    match given.len() {
        0..4 => given.iter().all(|word| *word > 100),
        _ if operation.takes().iter().any(Field::is_single) => two_above(0x8000_0000),
        _ => two_above(100),
    }
}

/// The last word of the answer, one bit off.
fn spoil(gave: &mut [u32]) {
    if let Some(last) = gave.last_mut() {
        *last ^= 1;
    }
}

#[cfg(all(test, rust))]
mod tests {
    use super::*;
    use crate::both::rust;
    use crate::code_rows::{built_in, worked};
    use crate::hash::Hash;
    use crate::makers::resting;
    use crate::operations::named;
    use crate::row_file::{image, trailer_of};
    use crate::shape::{bits, joined, octets, shorts, word, Parts};
    use crate::words::Reader;

    /// What a door and what it is held to both answer.
    fn answered(name: &str, parts: Parts) -> Result<Vec<u32>, u32> {
        let operation = named(name).unwrap();
        let judge = Judge { rust: rust().unwrap(), plant: false };
        let trial = judge.replay(operation, &joined(operation.takes(), &parts));
        assert_eq!(trial.fault, None, "{name}");
        if trial.status == 0 {
            Ok(trial.gave)
        } else {
            Err(trial.status)
        }
    }

    fn loaded(file: &[u8]) -> Result<Vec<i16>, u32> {
        Ok(Reader::new(&answered("load_rows", vec![octets(file), vec![2_560]])?).shorts())
    }

    fn hash(file: &[u8]) -> u64 {
        let mut hash = Hash::new();
        hash.bytes(file);
        hash.0
    }

    /// The rows of the cases with another last number.
    fn ending_with(last: i16) -> Vec<i16> {
        [&worked()[..2_559], &[last]].concat()
    }

    /// The cases of request E5.
    #[test]
    fn a_load_meets_its_cases() {
        let [own, other] = [built_in(), worked()].map(|rows| image(&[], rows));
        assert_eq!((own.len(), hash(&own), hash(&other)), (5_128, 0x1784_2c97_1b3f_a02a, 0x5d0a_77e2_3720_8297));
        assert_eq!(own[..12], [0, 0, 0, 0, 0, 0, 0xf2, 0xfe, 0xa4, 0xfa, 0xf8, 0xfb]);
        assert_eq!(own[5_120..], [8, 0x14, 0, 0, 0, 0x0a, 0, 0]);
        assert_eq!(loaded(&own), Ok(built_in().to_vec()));
        assert_eq!(loaded(&[&[7; 27_640], &own[..]].concat()), Ok(built_in().to_vec()));
        assert_eq!(loaded(&[&[7; 27_641], &own[..]].concat()), Err(10));
        assert_eq!(loaded(&[&own[..], &other].concat()), Ok(worked().to_vec()));
        assert_eq!(loaded(&own[1..]), Err(10));
        assert_eq!(loaded(&[&own[..], b"\n"].concat()), Err(10));
        let high_byte_first = trailer_of(5_128u32.swap_bytes(), 2_560u32.swap_bytes());
        for end in [trailer_of(2_560, 5_128), high_byte_first] {
            assert_eq!(loaded(&[&own[..5_120], &end].concat()), Err(10));
        }
        for last in [8_193, -8_193] {
            assert_eq!(loaded(&image(&[], &ending_with(last))), Err(11));
        }
        assert_eq!(loaded(&image(&[], &ending_with(8_192))), Ok(ending_with(8_192)));
        assert_eq!(answered("load_rows", vec![Vec::new(), vec![2_559]]), Err(1));
    }

    #[test]
    fn rows_lie_where_the_cases_have_them() {
        let cases: [(u32, u32, usize, &[i16]); 3] = [
            (0, 0, 0, &[-8_192, -273, 7_646]),
            (1, 255, 1_533, &[6_735, -1_731, 6_188]),
            (2, 255, 2_556, &[-2_703, 5_216, -3_250, 4_669]),
        ];
        for (band, index, place, row) in cases {
            let answer = answered("row", vec![shorts(worked()), vec![band], vec![index]]).unwrap();
            let mut answer = Reader::new(&answer);
            let (start, count) = (answer.word(), answer.word());
            assert_eq!((start, &worked()[start..start + count]), (place, row));
        }
    }

    /// The cases of request E6.
    fn pulses(period: usize, length: usize) -> Vec<u32> {
        bits(&(0..length).map(|k| [1000.0, 500.0].get(k % period).copied().unwrap_or(0.0)).collect::<Vec<_>>())
    }

    #[test]
    fn pitch_is_searched_up_to_its_limit() {
        let pitch =
            |limit, wbuf, half| answered("open_loop_pitch", vec![vec![limit], wbuf, word(half)]).map(|lag| lag[0]);
        assert_eq!([142, 82].map(|limit| pitch(limit, pulses(100, 385), 0)), [Ok(100), Ok(18)]);
        assert_eq!([142, 82].map(|limit| pitch(limit, pulses(83, 385), 1)), [Ok(83), Ok(82)]);
        for (length, half, lag) in [(204, 0, Err(1)), (205, 0, Ok(41)), (324, 1, Err(1)), (325, 1, Ok(41))] {
            assert_eq!(pitch(82, pulses(41, length), half), lag, "{length}");
        }
        assert_eq!(pitch(83, vec![0x7fc0_0000; 3], 5), Err(2));
    }

    #[test]
    fn shaping_ends_three_above_its_limit() {
        let wbuf = bits(&(0..385usize).map(|k| ((k % 85).pow(2) * 5 % 301) as f32 - 150.0).collect::<Vec<_>>());
        let shaping =
            |place, l_ol| answered("harmonic_noise_shaping", vec![vec![82], wbuf.clone(), word(place), vec![l_ol]]);
        assert_eq!(shaping(85, 82), Ok(vec![85, 0x3ea0_0000]));
        assert_eq!([shaping(85, 83), shaping(84, 82)], [Err(4), Err(3)]);
        // a place is refused after a lag, and a limit before anything
        assert_eq!(shaping(84, 83), Err(4));
        assert_eq!(answered("harmonic_noise_shaping", vec![vec![0], Vec::new(), word(0), vec![0]]), Err(2));
    }

    /// The bare filter, whose history counts, on the unit impulse, with another history where one is wanted.
    fn filtered(limit: u32, lag: u32, alter: impl Fn(&mut [u32])) -> Result<(Vec<f32>, Vec<u32>), u32> {
        let (ten, mut impulse, mut aq) = (vec![0; 10], vec![0; 60], vec![0; 11]);
        (impulse[0], aq[0]) = (1f32.to_bits(), 1f32.to_bits());
        let mut p_hist = bits(&(0..145).map(|k| (k + 1) as f32).collect::<Vec<_>>());
        alter(&mut p_hist);
        let memory = [vec![limit], ten.clone(), ten.clone(), ten.clone(), p_hist];
        let filter = [impulse, aq, ten.clone(), ten, vec![lag], bits(&[0.25])];
        let gave = answered("run_combined", memory.into_iter().chain(filter).collect())?;
        Ok((Reader::new(&gave[175..]).singles::<60>().to_vec(), gave[30..175].to_vec()))
    }

    #[test]
    fn a_filter_keeps_as_much_history_as_its_limit_needs() {
        let (out, after) = filtered(82, 85, |_| {}).unwrap();
        assert_eq!(out[..4], [0.75, -0.5, -0.75, -1.0]);
        let left = |k: usize| match k {
            0..=24 => (k + 61) as f32,
            25 => 1.0,
            26..=84 => 0.0,
            _ => (k + 1) as f32,
        };
        assert_eq!(after, bits(&(0..145).map(left).collect::<Vec<_>>()));
        assert_eq!(filtered(82, 86, |_| {}), Err(4));
        assert_eq!(filtered(142, 85, |_| {}).unwrap().0[..3], [-14.25, -15.5, -15.75]);
        assert_eq!(filtered(100, 3, |p_hist| p_hist[7] = 0x7fc0_0000), Err(2));
    }

    /// What is not in use is looked at by no check and comes back as it was, whatever it is.
    #[test]
    fn a_filter_leaves_the_history_that_is_not_in_use() {
        let nans = [0x7f80_0001, 0xff80_0001, 0x7fa0_1234, 0xffbf_ffff, 0x7fc0_0001, 0xffff_ffff, 0x7f80_0000];
        let fill = |p_hist: &mut [u32]| (85..145).for_each(|k| p_hist[k] = nans[k % nans.len()]);
        let (out, after) = filtered(82, 85, fill).unwrap();
        let mut wanted = filtered(82, 85, |_| {}).unwrap().1;
        fill(&mut wanted);
        assert_eq!((out, after), (filtered(82, 85, |_| {}).unwrap().0, wanted));
        assert_eq!(filtered(82, 86, fill), Err(4));
        assert_eq!(filtered(142, 85, |p_hist| p_hist[144] = 0x7fa0_1234), Err(5));
        assert_eq!(filtered(82, 85, |p_hist| p_hist[84] = 0x7fa0_1234), Err(5));
    }

    #[test]
    fn a_memory_is_made_with_one_of_two_limits() {
        for limit in [142, 82] {
            assert_eq!(answered("new_filter_memory", vec![vec![limit]]), Ok([vec![limit], vec![0; 175]].concat()));
        }
        for limit in [0, 81, 83, 85, 100, 141, 143, 145, u32::MAX] {
            assert_eq!(answered("new_filter_memory", vec![vec![limit]]), Err(2));
        }
    }

    #[test]
    fn over_other_rows_a_set_has_the_index_of_its_case() {
        let p = [2861.0, 3349.0, 6658.0, 8154.0, 12594.0, 15127.0, 20404.0, 22882.0, 25093.0, 27146.0];
        let set = [6101.0, -775.0, 10113.0, 6912.0, 17897.0, 12054.0, 16030.0, 26457.0, 21215.0, 31368.0];
        let (rows, prev, index) = (shorts(worked()), bits(&resting()), 16_182_995);
        let quantised = answered("quantise_lsp_freq_in", vec![rows.clone(), bits(&p), prev.clone()]);
        assert_eq!(quantised, Ok([vec![index], bits(&set)].concat()));
        assert_eq!(answered("decode_lsp_freq_in", vec![rows, vec![index], prev]), Ok(bits(&set)));
    }
}
