//! The rows of the table: a door each, and the doors of a frame in a chain.

use crate::measure::Sides;
use crate::pairs::{CHAIN, FRAME};
use std::collections::BTreeMap;

pub struct Row {
    pub name: String,
    /// Nanoseconds.
    pub time: Sides,
    /// Instructions, where they were counted.
    pub count: Option<Sides>,
}

/// A row for each pair.
pub fn rows(names: &[&str], times: &[Sides], counts: &BTreeMap<String, Sides>) -> Vec<Row> {
    let row =
        |(name, time): (&&str, &Sides)| Row { name: name.to_string(), time: *time, count: counts.get(*name).copied() };
    names.iter().zip(times).map(row).collect()
}

/// The frame beside its doors in a chain, both of ours, where both are there.
pub fn beside(rows: &[Row]) -> Option<String> {
    let [frame, chain] = [FRAME, CHAIN].map(|name| rows.iter().find(|row| row.name == name));
    let (frame, chain) = (frame?, chain?);
    let mut text = format!("`{FRAME}` takes {:.3} of the time of `{CHAIN}`", frame.time.ours / chain.time.ours);
    if let (Some(own), Some(other)) = (frame.count, chain.count) {
        text += &format!(", and {:.3} of its instructions", own.ours / other.ours);
    }
    Some(text + ".\n")
}

/// The table in markdown.
pub fn table(rows: &[Row]) -> String {
    let mut text = "| function | Rust, ns | ours, ns | ours / Rust | instructions, Rust | ours | ours / Rust |\n\
        |---|---:|---:|---:|---:|---:|---:|\n"
        .to_string();
    for row in rows {
        text += &format!("| {} | {} |", row.name, cells(Some(row.time), nanoseconds));
        text += &format!(" {} |\n", cells(row.count, |count| format!("{count:.0}")));
    }
    text
}

/// The Rust's figure, ours and the ratio; a dash for what there is not.
fn cells(sides: Option<Sides>, figure: impl Fn(f64) -> String) -> String {
    let dash = || "–".to_string();
    let rust = sides.and_then(|sides| sides.rust).map_or_else(dash, &figure);
    let ours = sides.map_or_else(dash, |sides| figure(sides.ours));
    let ratio = sides.and_then(Sides::ratio).map_or_else(dash, |ratio| format!("{ratio:.2}"));
    format!("{rust} | {ours} | {ratio}")
}

/// A time, the short ones to a tenth.
pub fn nanoseconds(time: f64) -> String {
    if time < 99.95 {
        format!("{time:.1}")
    } else {
        format!("{time:.0}")
    }
}
