//! Inputs drawn as words: the limits first, then random bits, likely values, damaged copies of those, and what is
//! special to a door. What is likely and what is special is handed in: nothing here knows a door.

use crate::random::Random;
use crate::shape::{joined, word, Field, Kind, Parts};
use std::ops::Range;
use std::sync::OnceLock;

/// Singles at and next to every bound, with both signs.
fn limits() -> &'static [u32] {
    static LIMITS: OnceLock<Vec<u32>> = OnceLock::new();
    LIMITS.get_or_init(|| {
        let mut list = Vec::new();
        // Infinity, NaNs quiet and signalling with and without a payload, the largest and the smallest.
        let patterns = [
            0x7f80_0000,
            0x7fc0_0000,
            0x7f80_0001,
            0x7fa0_0000,
            0x7fbf_ffff,
            0x7fc1_2345,
            0x7fff_ffff,
            0x7f7f_ffff,
            0x7f7f_fffe,
            0,
            1,
            2,
            0x007f_ffff,
            0x0080_0000,
            0x0080_0001,
        ];
        let values = [
            1.0,
            0.999,
            0.5,
            2.0,
            3.0 / 1024.0,
            1.0 / 512.0,
            1.0 / 1024.0,
            31.25,
            62.5,
            400.0,
            16_384.0,
            32_767.0,
            32_768.0,
            49_152.0,
            65_536.0,
            131_072.0,
            16_777_216.0,
            33_554_432.0,
            1e-20,
            1e19,
            1.8446744e19,
        ];
        let near = values.map(f32::to_bits).into_iter().flat_map(|at| [at - 1, at, at + 1]);
        for pattern in patterns.into_iter().chain(near) {
            list.extend([pattern, pattern | 0x8000_0000]);
        }
        list
    })
}

/// Machine words at and next to every bound, and such as would wrap or be cut to a small one.
const WORD_LIMITS: [u64; 40] = [
    0,
    1,
    2,
    3,
    4,
    17,
    18,
    19,
    59,
    60,
    61,
    84,
    85,
    141,
    142,
    143,
    144,
    145,
    146,
    204,
    205,
    206,
    265,
    324,
    325,
    326,
    385,
    0x7fff_ffff,
    0x8000_0000,
    0xffff_ffff,
    0x1_0000_0000,
    0x1_0000_0001,
    0x1_0000_0091,
    0x7fff_ffff_ffff_ffff,
    0x8000_0000_0000_0000,
    0x8000_0000_0000_0001,
    0xffff_ffff_ffff_ff00,
    0xffff_ffff_ffff_ffc4,
    0xffff_ffff_ffff_fffe,
    0xffff_ffff_ffff_ffff,
];

/// Limits of lags: the two, what is next to them and to the numbers made of them, and such as are cut or negated to one.
const LAG_LIMITS: [u64; 20] = [
    142,
    82,
    0,
    1,
    17,
    18,
    81,
    83,
    84,
    85,
    141,
    143,
    145,
    338,
    398,
    0x0001_0052,
    0x0001_008e,
    0x8000_0052,
    0xffff_ff72,
    0xffff_ffff,
];

/// Lags and places at and next to every bound of each limit, and such as would wrap or be cut to one.
const LAGS: [u64; 24] = [
    0,
    1,
    17,
    18,
    19,
    81,
    82,
    83,
    84,
    85,
    86,
    141,
    142,
    143,
    144,
    145,
    146,
    274,
    338,
    0x0001_0052,
    0x7fff_ffff,
    0x8000_0012,
    0xffff_ffee,
    0xffff_ffff,
];
const PLACES: [u64; 30] = [
    0,
    1,
    59,
    60,
    61,
    83,
    84,
    85,
    86,
    143,
    144,
    145,
    146,
    204,
    205,
    206,
    264,
    265,
    266,
    324,
    325,
    326,
    385,
    0x1_0000_0055,
    0x1_0000_0091,
    0x7fff_ffff_ffff_ffff,
    0x8000_0000_0000_0055,
    0xffff_ffff_ffff_ffab,
    0xffff_ffff_ffff_ffc4,
    0xffff_ffff_ffff_ffff,
];

fn word_limits(field: &Field) -> &'static [u64] {
    match field.role {
        "lag limit" => &LAG_LIMITS,
        "lag" | "pitch lag" => &LAGS,
        "place" => &PLACES,
        _ => &WORD_LIMITS,
    }
}

/// Numbers of 16 bits at and next to every bound.
const SHORT_LIMITS: [u32; 12] = [0x8000, 0x8001, 0xbfff, 0xc000, 0xff00, 0xffff, 0, 1, 0x00ff, 0x0100, 0x7ffe, 0x7fff];

/// How a list can be of another length: samples as singles, weighted speech, samples of 16 bits, code rows, and the bytes of
/// their file.
const LENGTHS: [usize; 14] = [0, 1, 59, 60, 61, 144, 179, 180, 181, 204, 205, 264, 265, 384];
const SPEECH_LENGTHS: [usize; 20] =
    [0, 1, 60, 84, 85, 144, 145, 146, 204, 205, 206, 264, 265, 266, 324, 325, 326, 384, 385, 386];
const SHORT_LENGTHS: [usize; 8] = [0, 1, 180, 240, 359, 360, 361, 480];
const ROW_LENGTHS: [usize; 9] = [0, 1, 768, 1536, 2559, 2560, 2561, 4096, 5120];
const BYTE_LENGTHS: [usize; 12] = [0, 1, 7, 8, 5120, 5127, 5128, 5129, 32_767, 32_768, 32_769, 65_535];

fn lengths(field: &Field) -> &'static [usize] {
    match field.kind {
        Kind::ByteList => &BYTE_LENGTHS,
        Kind::Places => &ROW_LENGTHS,
        Kind::Shorts if field.role == "code rows" => &ROW_LENGTHS,
        Kind::Shorts => &SHORT_LENGTHS,
        Kind::Samples if field.name == "wbuf" => &SPEECH_LENGTHS,
        _ => &LENGTHS,
    }
}

/// Whether a field is a whole number of its own, and not how many places there are.
fn is_number(field: &Field) -> bool {
    field.is_whole() && !field.is_places()
}

/// Where the inputs of one door come from.
pub struct Source {
    pub takes: Vec<Field>,
    /// Draws a likely input.
    pub likely: fn(&mut Random) -> Parts,
    /// Draws one of the inputs that are special to it; some go through a list in order.
    pub special: fn(&mut Random, u64) -> Parts,
}

impl Source {
    /// The input of a turn: the limits first.
    pub fn draw(&self, random: &mut Random, turn: u64) -> Vec<u32> {
        let first = self.limit_turns();
        let parts = if turn < first { self.limit(random, turn) } else { self.other(random, turn - first) };
        joined(&self.takes, &parts)
    }

    fn other(&self, random: &mut Random, turn: u64) -> Parts {
        match turn % 5 {
            0 => (self.likely)(random),
            1 => self.random_bits(random),
            2 => self.damaged(random),
            3 => (self.special)(random, turn / 5),
            _ if random.once_in(2) => (self.likely)(random),
            _ => self.random_bits(random),
        }
    }

    /// The turns that go through the limits, before the random ones.
    pub fn limit_turns(&self) -> u64 {
        self.limit_phases().iter().sum()
    }

    /// How many turns put limits into singles, into whole numbers, into numbers of 16 bits and into lengths.
    fn limit_phases(&self) -> [u64; 4] {
        let of = |test: fn(&Field) -> bool| self.takes.iter().filter(|field| test(field)).count() as u64;
        [
            limits().len() as u64 * 11 * of(Field::is_single),
            self.number_limits().len() as u64 * 3,
            SHORT_LIMITS.len() as u64 * 11 * of(Field::is_short),
            self.list_lengths().len() as u64 * 2,
        ]
    }

    /// Each whole number with each of its limits.
    fn number_limits(&self) -> Vec<(usize, u64)> {
        let numbers = self.takes.iter().enumerate().filter(|(_, field)| is_number(field));
        numbers.flat_map(|(at, field)| word_limits(field).iter().map(move |limit| (at, *limit))).collect()
    }

    /// Each list with each length that it can be of.
    fn list_lengths(&self) -> Vec<(usize, usize)> {
        let lists = self.takes.iter().enumerate().filter(|(_, field)| field.is_list() || field.is_places());
        lists.flat_map(|(at, field)| lengths(field).iter().map(move |length| (at, *length))).collect()
    }

    /// The fields of a kind, one after the other.
    fn field_of(&self, test: fn(&Field) -> bool, turn: u64) -> usize {
        let fields: Vec<usize> = (0..self.takes.len()).filter(|i| test(&self.takes[*i])).collect();
        fields[turn as usize % fields.len()]
    }

    fn limit(&self, random: &mut Random, turn: u64) -> Parts {
        let mut parts = (self.likely)(random);
        let [singles, scalars, shorts, _] = self.limit_phases();
        if turn < singles {
            let (limit, round) = in_turn(limits(), turn);
            set_limit(&mut parts[self.field_of(Field::is_single, round)], limit, round + turn, random);
        } else if turn < singles + scalars {
            let ((at, limit), _) = in_turn(&self.number_limits(), turn - singles);
            parts[at] = scalar(&self.takes[at], limit);
        } else if turn < singles + scalars + shorts {
            let (limit, round) = in_turn(&SHORT_LIMITS, turn - singles - scalars);
            set_limit(&mut parts[self.field_of(Field::is_short, round)], limit, round + turn, random);
        } else {
            let ((at, length), _) = in_turn(&self.list_lengths(), turn - singles - scalars - shorts);
            match &self.takes[at] {
                field if field.is_places() => parts[at] = vec![length as u32],
                field if field.is_byte() => parts[at].resize(length, 0x3f),
                field if field.is_short() => parts[at].resize(length, 0x3f00),
                _ => parts[at].resize(length, 0x3f00_0000),
            }
        }
        parts
    }

    /// A few words of a likely input replaced by a limit, a neighbour, the opposite or random bits.
    fn damaged(&self, random: &mut Random) -> Parts {
        let mut parts = (self.likely)(random);
        // A door that takes nothing has nothing to damage.
        if parts.is_empty() {
            return parts;
        }
        for _ in 0..1 + random.below(3) {
            let at = random.below(parts.len());
            let (field, part) = (&self.takes[at], &mut parts[at]);
            if field.is_short() {
                damage_shorts(part, lengths(field), random);
            } else if field.is_places() {
                part[0] = *random.pick(lengths(field)) as u32;
            } else if field.is_byte() && field.is_list() {
                damage_bytes(part, lengths(field), random);
            } else if field.is_byte() {
                let place = random.below(part.len());
                part[place] = random.bits() >> 24;
            } else if !field.is_single() {
                let limit = *random.pick(word_limits(field));
                *part = scalar(field, if random.once_in(4) { random.next() } else { limit });
            } else if !part.is_empty() {
                let place = random.below(part.len());
                let old = part[place];
                part[place] = match random.below(6) {
                    0 => *random.pick(limits()),
                    1 => old.wrapping_add(1),
                    2 => old ^ 0x8000_0000,
                    3 => part[random.below(part.len())],
                    4 => old ^ 1 << random.below(32),
                    _ => banded(random, 90, 160),
                };
                if field.is_list() && random.once_in(8) {
                    part.resize(*random.pick(lengths(field)), old);
                }
            }
        }
        parts
    }

    /// Every single, number of 16 bits and byte of a likely input replaced by random bits: the singles any at all, or with
    /// exponents in one band; of a list of bytes some in a row.
    fn random_bits(&self, random: &mut Random) -> Parts {
        let mut parts = (self.likely)(random);
        let bands = [(0, 254), (0, 142), (100, 142), (100, 126), (120, 130), (0, 3)];
        // None, or one of the bands.
        let band = random.below(bands.len() + 1).checked_sub(1).map(|at| bands[at]);
        for (field, part) in self.takes.iter().zip(&mut parts) {
            if field.is_single() {
                for word in part.iter_mut() {
                    *word = match band {
                        None => random.bits(),
                        Some((low, high)) => banded(random, low, high),
                    };
                }
            } else if field.is_short() {
                part.iter_mut().for_each(|word| *word = random.bits() >> 16);
            } else if field.is_byte() {
                let some = if field.is_list() { stretch(part.len(), random) } else { 0..part.len() };
                part[some].iter_mut().for_each(|word| *word = random.bits() >> 24);
            }
        }
        parts
    }
}

/// An entry of a list by the turn, and how often the list was gone through before.
fn in_turn<T: Copy>(list: &[T], turn: u64) -> (T, u64) {
    let count = list.len() as u64;
    (list[(turn % count) as usize], turn / count)
}

/// A limit at a place of a list, or everywhere: each place of a short list by the turn and then all; the ends, any and all
/// of a long one.
fn set_limit(part: &mut [u32], limit: u32, turn: u64, random: &mut Random) {
    let place = match part.len() {
        n @ 0..=11 => turn as usize % (n + 1),
        n => [0, n - 1, n, random.below(n), random.below(n)][random.below(5)],
    };
    match part.get_mut(place) {
        Some(word) => *word = limit,
        None => part.fill(limit),
    }
}

/// At most 256 places of a list, from any on.
fn stretch(length: usize, random: &mut Random) -> Range<usize> {
    let start = random.below(length + 1);
    start..length.min(start + random.below(257))
}

/// A byte anywhere or among the last replaced by another, with a bit turned or any; now and then a list of another length.
fn damage_bytes(part: &mut Vec<u32>, lengths: &[usize], random: &mut Random) {
    let Some(last) = part.len().checked_sub(1) else { return };
    let back = *random.pick(&[part.len(), part.len().min(16)]);
    let place = last - random.below(back);
    part[place] = if random.once_in(2) { part[place] ^ 1 << random.below(8) } else { random.bits() >> 24 };
    if random.once_in(8) {
        part.resize(*random.pick(lengths), 0);
    }
}

/// A number of 16 bits replaced by a limit, its neighbour, its opposite or any; now and then a list of another length.
fn damage_shorts(part: &mut Vec<u32>, lengths: &[usize], random: &mut Random) {
    let Some(last) = part.len().checked_sub(1) else { return };
    let place = random.below(last + 1);
    let old = part[place];
    part[place] = match random.below(4) {
        0 => *random.pick(&SHORT_LIMITS),
        1 => old.wrapping_add(1) & 0xffff,
        2 => old.wrapping_neg() & 0xffff,
        _ => random.bits() >> 16,
    };
    if random.once_in(8) {
        part.resize(*random.pick(lengths), old);
    }
}

fn scalar(field: &Field, value: u64) -> Vec<u32> {
    match field.kind {
        Kind::Number => vec![value as u32],
        _ => word(value as usize),
    }
}

/// Random digits and sign with an exponent field from low to high.
fn banded(random: &mut Random, low: u32, high: u32) -> u32 {
    let field = low + random.below((high - low + 1) as usize) as u32;
    random.bits() & 0x807f_ffff | field << 23
}
