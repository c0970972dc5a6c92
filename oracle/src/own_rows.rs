//! The Rust's quantiser and decoder over rows that are lent. build.rs has the text of spec_lsp.rs once more as `spec_lsp_in`, in
//! which `lsp_codebook_entry` is the one below; no other word of it is another.

use crate::row_file::place;
use crate::spec_lsp_in as rust;
use crate::spec_tables::LspBand;
use std::cell::RefCell;

thread_local! {
    /// The rows of the call that this thread is in.
    static ROWS: RefCell<Vec<i16>> = const { RefCell::new(Vec::new()) };
}

type Ten = [f32; 10];

pub fn quantise_lsp_freq(rows: &[i16], p: &Ten, prev: &Ten) -> (u32, Ten) {
    lend(rows);
    rust::quantise_lsp_freq(p, prev)
}

pub fn decode_lsp_freq(rows: &[i16], index: u32, prev: &Ten) -> Ten {
    lend(rows);
    rust::decode_lsp_freq(index, prev)
}

fn lend(rows: &[i16]) {
    ROWS.with_borrow_mut(|own| {
        own.clear();
        own.extend(rows);
    });
}

/// A row of those that are lent; one of three numbers has a zero after them, which the Rust does not read.
pub fn lsp_codebook_entry(band: LspBand, index: u8) -> [i16; 4] {
    let (start, count) = place(band as usize, index.into());
    ROWS.with_borrow(|rows| {
        let row = &rows[start..start + count];
        [row[0], row[1], row[2], row.get(3).copied().unwrap_or(0)]
    })
}
