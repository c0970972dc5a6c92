//! Line sets at which the search over code rows is hard to get right. They are made from those rows.

use crate::makers::{decoded_over, resting};
use crate::own_rows::decode_lsp_freq;
use crate::random::Random;
use crate::row_file::place;
use crate::shape::{bits, Parts};
use crate::spec_tables::LspBand;

/// Sets that a row meets exactly, sets midway between two rows of each band, so that errors tie, and sets about as far
/// from one row as from another, so that a single rounding decides.
pub fn sets(rows: &[i16], random: &mut Random, turn: u64) -> Parts {
    let dc = resting();
    if turn % 4 == 0 {
        let prev = decoded_over(rows, random);
        let p = decode_lsp_freq(rows, random.bits(), &prev);
        return vec![bits(&p), bits(&prev)];
    }
    let mut p = dc;
    let neighbours = LspBand::ALL.map(|band| neighbours(rows, random, band));
    for (band, (row, near)) in LspBand::ALL.into_iter().zip(neighbours) {
        let (start, length) = band.start_and_length();
        for j in 0..length {
            p[start + j] += (row[j] as f32 + near[j] as f32) / 2.0;
        }
    }
    if turn % 4 != 1 {
        let m = random.below(3);
        p = equally_far(random, p, LspBand::ALL[m], neighbours[m]);
    }
    vec![bits(&p), bits(&dc)]
}

/// A row of a band and the nearest other one.
fn neighbours<'a>(rows: &'a [i16], random: &mut Random, band: LspBand) -> (&'a [i16], &'a [i16]) {
    let entry = |index: u8| {
        let (start, count) = place(band as usize, index.into());
        &rows[start..start + count]
    };
    let row = entry(random.bits() as u8);
    let far = |other: &[i16]| -> i64 { row.iter().zip(other).map(|(a, b)| (*a as i64 - *b as i64).pow(2)).sum() };
    (row, (0..=255).map(entry).filter(|other| far(other) > 0).min_by_key(|other| far(other)).unwrap_or(row))
}

/// Moves a set off the midpoint of two rows of a band to where its weighted errors are about the same, but no longer
/// mirror images of each other.
fn equally_far(random: &mut Random, p: [f32; 10], band: LspBand, rows: (&[i16], &[i16])) -> [f32; 10] {
    let (start, length) = band.start_and_length();
    let dc = resting().map(f64::from);
    let mut p = p.map(f64::from);
    let widest = (0..length).max_by_key(|j| (rows.0[*j] as i32 - rows.1[*j] as i32).abs()).unwrap_or(0);
    for j in 0..length {
        let apart = (rows.0[j] as f64 - rows.1[j] as f64).abs() + 20.0;
        p[start + j] += random.between(-0.3, 0.3) * apart;
    }
    let difference = |p: &[f64; 10]| -> f64 {
        let error = |row: &[i16]| -> f64 {
            (0..length)
                .map(|j| {
                    let i = start + j;
                    let below = if i > 0 { p[i] - p[i - 1] } else { f64::INFINITY };
                    let above = if i < 9 { p[i + 1] - p[i] } else { f64::INFINITY };
                    (p[i] - dc[i] - row[j] as f64).powi(2) / below.min(above).max(1.0)
                })
                .sum()
        };
        error(rows.0) - error(rows.1)
    };
    let at = start + widest;
    let mut before = (p[at] + 1.0, 0.0);
    for _ in 0..12 {
        let here = p[at];
        p[at] = before.0;
        before.1 = difference(&p);
        p[at] = here;
        let now = difference(&p);
        if now == before.1 {
            break;
        }
        let next = here - now * (here - before.0) / (now - before.1);
        before = (here, now);
        if !(next - here).is_finite() || (next - here).abs() > 500.0 {
            break;
        }
        p[at] = next;
    }
    let mut p = p.map(|f| f as f32);
    let steps = random.below(5) as i32 - 2;
    p[at] = f32::from_bits(p[at].to_bits().wrapping_add_signed(steps));
    p
}
