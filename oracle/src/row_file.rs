//! The file of code rows, and where a row lies in them: a model of our own, written from the sentences of request E5, since the
//! Rust has no such file.

/// The numbers of all rows.
pub const NUMBERS: usize = 2_560;
/// The rows of a band, and the numbers of a row in each.
const ROWS: usize = 256;
const WIDTHS: [usize; 3] = [3, 3, 4];

/// From the end of a file back to its first row.
pub const DISTANCE: usize = 5_128;
/// The bytes of the longest file.
pub const MOST: usize = 32_768;
/// The numbers that rows may have.
const BOUNDS: std::ops::RangeInclusive<i16> = -8_192..=8_192;

/// The last eight bytes of a file: the distance, and then the count.
pub fn trailer() -> [u8; 8] {
    trailer_of(DISTANCE as u32, NUMBERS as u32)
}

/// Eight bytes with these two numbers in them.
pub fn trailer_of(distance: u32, count: u32) -> [u8; 8] {
    let numbers = [distance.to_le_bytes(), count.to_le_bytes()];
    std::array::from_fn(|i| numbers[i / 4][i % 4])
}

/// Whether these are the bytes of a file of code rows, whatever its numbers.
pub fn is_one(file: &[u8]) -> bool {
    (DISTANCE..=MOST).contains(&file.len()) && file.ends_with(&trailer())
}

/// The numbers of such a file. What stands before them is not looked at.
pub fn numbers(file: &[u8]) -> Vec<i16> {
    let first = file.len() - DISTANCE;
    file[first..first + 2 * NUMBERS].chunks(2).map(|two| i16::from_le_bytes([two[0], two[1]])).collect()
}

/// Whether a load passes these numbers.
pub fn pass(rows: &[i16]) -> bool {
    rows.iter().all(|number| BOUNDS.contains(number))
}

/// Where a row starts, and how many numbers it has: bands 0, 1 and 2 in row order.
pub fn place(band: usize, index: usize) -> (usize, usize) {
    let before: usize = WIDTHS[..band].iter().map(|width| ROWS * width).sum();
    (before + WIDTHS[band] * index, WIDTHS[band])
}

/// The file of some rows, after notes.
pub fn image(notes: &[u8], rows: &[i16]) -> Vec<u8> {
    let mut file = Vec::with_capacity(notes.len() + DISTANCE);
    file.extend(notes);
    rows.iter().for_each(|number| file.extend(number.to_le_bytes()));
    file.extend(trailer());
    file
}
