//! The inputs that are special to the operations over code rows, as `special` has them for the others.

use crate::code_rows::{built_in, bytes, file, lent, notes, passing, worked};
use crate::likely;
use crate::makers::*;
use crate::random::Random;
use crate::row_file::{image, trailer, trailer_of, DISTANCE, MOST, NUMBERS};
use crate::shape::{bits, octets, shorts, Parts};
use crate::special::{self, UNFIT};

/// Numbers at and next to the bounds of a load, and the ends of 16 bits.
const NUMBER_LIMITS: [i16; 8] = [8_191, 8_192, 8_193, -8_191, -8_192, -8_193, i16::MAX, i16::MIN];

/// Buffers of another length than rows have.
const OTHER_LENGTHS: [usize; 7] = [0, 1, 768, NUMBERS - 1, NUMBERS + 1, NUMBERS + 4, 2 * NUMBERS];

/// Lengths of files at and next to the bounds, and such as are cut to a good one in 16 bits.
const FILE_LENGTHS: [usize; 10] =
    [0, 8, DISTANCE - 1, DISTANCE, DISTANCE + 1, MOST - 1, MOST, MOST + 1, MOST + 2, 65_536 + DISTANCE];

/// Files that are damaged, cut, lengthened, with other trailers, with numbers at the bounds, of every length that decides, and
/// one in another; and buffers of another length, whatever the file.
pub fn load_rows(random: &mut Random, turn: u64) -> Parts {
    let (kind, places) =
        if turn % 8 == 7 { (random.next(), *random.pick(&OTHER_LENGTHS)) } else { (turn % 8, NUMBERS) };
    vec![octets(&special_file(random, kind)), vec![places as u32]]
}

fn special_file(random: &mut Random, kind: u64) -> Vec<u8> {
    match kind % 7 {
        0 => image(notes(random), &with_limits(random)),
        1 => ending(file(random), other_trailer(random)),
        // the trailer is looked at before the numbers
        2 => ending(image(notes(random), &with_limits(random)), other_trailer(random)),
        3 => cut_or_lengthened(random),
        4 => of_length(*random.pick(&FILE_LENGTHS), random),
        5 => with_another_in_it(random),
        _ => one_byte_off(random),
    }
}

/// Rows with a number or two at a limit: the first, the last or any.
fn with_limits(random: &mut Random) -> Vec<i16> {
    let mut rows = passing(random);
    for _ in 0..1 + random.below(2) {
        let any = random.below(NUMBERS);
        rows[*random.pick(&[0, NUMBERS - 1, any])] = *random.pick(&NUMBER_LIMITS);
    }
    rows
}

/// A file with other bytes at its end.
fn ending(mut file: Vec<u8>, end: [u8; 8]) -> Vec<u8> {
    file.truncate(file.len() - end.len());
    file.extend(end);
    file
}

/// The two numbers in the other order, high byte first, off by a little or by what 8 or 16 bits do not show, or with a bit turned.
fn other_trailer(random: &mut Random) -> [u8; 8] {
    let mut good = trailer();
    match random.below(6) {
        0 => trailer_of(2_560, 5_128),
        1 => std::array::from_fn(|i| good[i ^ 3]),
        2 => trailer_of(*random.pick(&[5_126, 5_127, 5_129, 5_120, 0, u32::MAX]), 2_560),
        3 => trailer_of(5_128, *random.pick(&[2_558, 2_559, 2_561, 5_120, 0, u32::MAX])),
        4 => {
            let off = 1 << random.pick(&[8, 16, 24]);
            if random.once_in(2) {
                trailer_of(5_128 + off, 2_560)
            } else {
                trailer_of(5_128, 2_560 + off)
            }
        }
        _ => {
            good[random.below(8)] ^= 1 << random.below(8);
            good
        }
    }
}

/// A file less a few bytes at either end, or with more.
fn cut_or_lengthened(random: &mut Random) -> Vec<u8> {
    let mut file = file(random);
    let some = *random.pick(&[1, 2, 7, 8, 9, 5_120]);
    match random.below(4) {
        0 => file.split_off(some),
        1 => {
            file.truncate(file.len() - some);
            file
        }
        2 => [bytes(some, random), &file].concat(),
        _ => {
            let ends: [&[u8]; 4] = [b"\n", b"\r\n", b"\0", bytes(some, random)];
            [&file, *random.pick(&ends)].concat()
        }
    }
}

/// A file that is right but for its length: less than its rows, or any notes.
fn of_length(length: usize, random: &mut Random) -> Vec<u8> {
    let rows = image(&[], &passing(random));
    match length.checked_sub(rows.len()) {
        Some(more) => [bytes(more, random), &rows].concat(),
        None => rows[rows.len() - length..].to_vec(),
    }
}

/// Notes that hold a whole file: the last one counts, whichever of the two is right.
fn with_another_in_it(random: &mut Random) -> Vec<u8> {
    let inner = image(bytes(random.below(100), random), if random.once_in(2) { built_in() } else { worked() });
    let notes = [&inner, bytes(*random.pick(&[0, 0, 1, 2, 5_000]), random)].concat();
    match random.below(3) {
        0 => image(&notes, &with_limits(random)),
        // what follows the inner one is no file
        1 => [&notes, bytes(100, random)].concat(),
        _ => image(&notes, &passing(random)),
    }
}

/// A file with one byte altered: of its trailer, its numbers or anything.
fn one_byte_off(random: &mut Random) -> Vec<u8> {
    let mut file = file(random);
    let back = match random.below(3) {
        0 => random.below(8),
        1 => 8 + random.below(2 * NUMBERS),
        _ => random.below(file.len()),
    };
    let last = file.len() - 1;
    file[last - back] ^= (1 + random.below(255)) as u8;
    file
}

/// Rows of another length.
fn of_another_length(random: &mut Random) -> Vec<u32> {
    let mut rows = shorts(&lent(random));
    rows.resize(*random.pick(&OTHER_LENGTHS), 0);
    rows
}

/// Bands and indices at and beyond their bounds, and such as are good in 8 bits; rows of another length with them.
pub fn row(random: &mut Random, turn: u64) -> Parts {
    let band = *random.pick(&[0, 1, 2, 2, 3, 4, 256, 258, u32::MAX]);
    let index = *random.pick(&[0, 1, 254, 255, 255, 256, 257, 511, 65_536, u32::MAX]);
    let rows = if turn % 4 == 0 { of_another_length(random) } else { shorts(&lent(random)) };
    vec![rows, vec![band], vec![index]]
}

/// Sets at which two of the rows are about as near; rows of another length, with sets that are refused.
pub fn quantise_lsp_freq_in(random: &mut Random, turn: u64) -> Parts {
    if turn % 8 == 7 {
        let mut parts = likely::quantise_lsp_freq(random);
        parts[random.below(2)][random.below(10)] = *random.pick(&UNFIT);
        parts.insert(0, of_another_length(random));
        return parts;
    }
    let rows = lent(random);
    let mut parts = special::tied(&rows, random, turn);
    parts.insert(0, shorts(&rows));
    parts
}

/// What is special to the decoder, over any rows; rows of another length, with an index and a set that are refused.
pub fn decode_lsp_freq_in(random: &mut Random, turn: u64) -> Parts {
    let mut parts = special::decode_lsp_freq(random, turn);
    if turn % 4 == 3 {
        parts[0] = index_limit(random);
        parts[1][random.below(10)] = *random.pick(&UNFIT);
    }
    parts.insert(0, if turn % 4 == 3 { of_another_length(random) } else { shorts(&lent(random)) });
    parts
}

/// What is special to a frame, over any rows; rows so large that the set of the index is refused, which those of a load never
/// are; rows of another length with nothing right beside them.
pub fn code_frame_in(random: &mut Random, turn: u64) -> Parts {
    if turn % 4 == 3 {
        let far = *random.pick(&[65_536.0f32, -65_536.0, 60_000.0, 50_000.0]);
        let mut parts = likely::code_frame_in(random);
        parts[0].fill(shorts(&[*random.pick(&NUMBER_LIMITS)])[0]);
        parts[1] = bits(&[far; 10]);
        return parts;
    }
    let mut parts = special::code_frame(random, turn / 4);
    let other = turn % 4 == 2;
    if other {
        let nothing_right = |part: &mut Vec<u32>| part.fill(0x7fc0_0000);
        let [memories @ .., samples, spacing] = &mut parts[..] else { panic!("a frame has seven parts") };
        memories.iter_mut().chain([spacing]).for_each(nothing_right);
        samples.pop();
    }
    parts.insert(0, if other { of_another_length(random) } else { shorts(&lent(random)) });
    parts
}
