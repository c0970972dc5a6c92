//! Code rows and files of them, for inputs. What is long is drawn once, and an input has a copy of some of it.

use crate::random::Random;
use crate::row_file::{image, place, DISTANCE, MOST, NUMBERS};
use std::sync::LazyLock;

/// The rows as the Rust publishes them.
pub fn built_in() -> &'static [i16] {
    static ROWS: LazyLock<Vec<i16>> = LazyLock::new(|| {
        #[cfg(rust)]
        {
            use crate::spec_tables as rust;
            [&rust::LSP_CODEBOOK_BAND0_Q13[..], &rust::LSP_CODEBOOK_BAND1_Q13, &rust::LSP_CODEBOOK_BAND2_Q13].concat()
        }
        #[cfg(not(rust))]
        worked().to_vec()
    });
    &ROWS
}

/// The rows of the worked cases of request E5.
pub fn worked() -> &'static [i16] {
    static ROWS: LazyLock<Vec<i16>> =
        LazyLock::new(|| (0..NUMBERS as i32).map(|i| (i * 7_919 % 16_385 - 8_192) as i16).collect());
    &ROWS
}

/// Drawn once: any bits, and numbers that a load passes.
struct Drawn {
    /// As many as the longest notes that are tried.
    bytes: Vec<u8>,
    any: Vec<i16>,
    passing: Vec<i16>,
}

static DRAWN: LazyLock<Drawn> = LazyLock::new(|| {
    let mut random = Random::new(0, 0, 0);
    Drawn {
        bytes: (0..2 * MOST).map(|_| random.bits() as u8).collect(),
        any: (0..8 * NUMBERS).map(|_| random.bits() as i16).collect(),
        passing: (0..8 * NUMBERS).map(|_| random.below(16_385) as i16 - 8_192).collect(),
    }
});

/// So many in a row, from any place.
fn stretch<'a, T>(of: &'a [T], count: usize, random: &mut Random) -> &'a [T] {
    let start = random.below(of.len() - count + 1);
    &of[start..start + count]
}

/// Rows that a load passes: the built-in ones, those of the cases, drawn ones, numbers at the bounds, rows that tie.
pub fn passing(random: &mut Random) -> Vec<i16> {
    match random.below(8) {
        0 | 1 => built_in().to_vec(),
        2 => worked().to_vec(),
        3 => stretch(&DRAWN.passing, NUMBERS, random).iter().map(|n| n.signum() * 8_192).collect(),
        4 => repeated(random),
        _ => stretch(&DRAWN.passing, NUMBERS, random).to_vec(),
    }
}

/// Rows that are lent: those, and numbers of any 16 bits, which are not tested.
pub fn lent(random: &mut Random) -> Vec<i16> {
    if random.once_in(4) {
        stretch(&DRAWN.any, NUMBERS, random).to_vec()
    } else {
        passing(random)
    }
}

/// The first few rows of each band again and again, or the first alone: the search must take the first of those that tie.
fn repeated(random: &mut Random) -> Vec<i16> {
    let mut rows = stretch(&DRAWN.passing, NUMBERS, random).to_vec();
    let period = *random.pick(&[1, 1, 2, 3, 4, 5, 128, 255]);
    for (band, index) in (0..3).flat_map(|band| (period..256).map(move |index| (band, index))) {
        let ((from, count), (to, _)) = (place(band, index % period), place(band, index));
        rows.copy_within(from..from + count, to);
    }
    rows
}

/// Notes: none, a few, any number of bytes, and as many as there can be.
pub fn notes(random: &mut Random) -> &'static [u8] {
    let count = match random.below(8) {
        0 | 1 => 0,
        2 => MOST - DISTANCE,
        3..=5 => random.below(64),
        _ => random.below(MOST - DISTANCE + 1),
    };
    bytes(count, random)
}

/// So many bytes of any content.
pub fn bytes(count: usize, random: &mut Random) -> &'static [u8] {
    stretch(&DRAWN.bytes, count, random)
}

/// A file that a load takes.
pub fn file(random: &mut Random) -> Vec<u8> {
    image(notes(random), &passing(random))
}
