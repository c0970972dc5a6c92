//! An input as a line of text.
//!
//! The line is the operation's name and the words in hexadecimal; `00000000x180` stands for a word 180 times.

use crate::operations::{named, Operation};
use crate::shape::split;

/// Words in hexadecimal.
pub fn hex(words: &[u32]) -> String {
    words.iter().map(|word| format!("{word:08x}")).collect::<Vec<_>>().join(" ")
}

/// The same, with four or more of one word in a row written once.
pub fn short(words: &[u32]) -> String {
    let runs = words.chunk_by(|a, b| a == b).map(|run| match run.len() {
        0..=3 => hex(run),
        n => format!("{:08x}x{n}", run[0]),
    });
    runs.collect::<Vec<_>>().join(" ")
}

/// The line of an input.
pub fn line(operation: &Operation, given: &[u32]) -> String {
    format!("{} {}", operation.name, short(given)).trim_end().to_string()
}

/// Reads a line.
pub fn parse(text: &str) -> Result<(&'static Operation, Vec<u32>), String> {
    let mut words = text.split_whitespace();
    let name = words.next().ok_or("an input opens with the name of a function")?;
    let operation = named(name)?;
    let mut given = Vec::new();
    for text in words {
        let (word, times) =
            repeated(text).ok_or(format!("{text} is not a word of 8 hexadecimal digits, as 3f800000"))?;
        // No input is nearly as long: a slip of the pen is not to fill the memory.
        if times > 1_000_000 {
            return Err(format!("{text} is too long"));
        }
        given.extend(std::iter::repeat_n(word, times));
    }
    split(operation.takes(), &given).map_err(|why| format!("{name}: {why}"))?;
    Ok((operation, given))
}

fn repeated(text: &str) -> Option<(u32, usize)> {
    let (word, times) = match text.split_once('x') {
        Some((word, times)) => (word, times.parse().ok()?),
        None => (text, 1),
    };
    let digits = word.len() == 8 && word.bytes().all(|b| b.is_ascii_hexdigit());
    digits.then_some((u32::from_str_radix(word, 16).ok()?, times))
}

#[cfg(test)]
mod tests {
    use super::*;
    use crate::operations::OPERATIONS;
    use crate::random::Random;
    use crate::shape::joined;

    #[test]
    fn a_line_leads_back_to_its_input() {
        for operation in OPERATIONS.iter() {
            for turn in 0..300 {
                let given = operation.source.draw(&mut Random::new(3, operation.number, 11 * turn), 11 * turn);
                let (found, read) = parse(&line(operation, &given)).unwrap();
                assert_eq!((found.name, &read), (operation.name, &given));
                let parts = operation.parts(&given).into_iter().map(<[u32]>::to_vec).collect();
                assert_eq!(joined(operation.takes(), &parts), given);
            }
        }
    }

    #[test]
    fn bad_lines_are_refused() {
        let wrong = ["", "nothing 00000000", "lsp_to_lpc 00000000x9", "lsp_to_lpc 00000000x11", "lsp_to_lpc 0x10"];
        let worse =
            ["lsp_to_lpc 00000000x99999999999", "lsp_to_lpc g0000000x10", "lpc_analysis", "lpc_analysis ffffffff"];
        for line in wrong.into_iter().chain(worse) {
            assert!(parse(line).is_err(), "{line}");
        }
        assert_eq!(parse("lsp_to_lpc 3f800000x10").unwrap().1, [0x3f80_0000; 10]);
        assert_eq!(parse("lpc_analysis 00000000").unwrap().1, [0]);
    }
}
