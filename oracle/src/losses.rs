//! What the program `losses` prints: a model of our own, written from the sentences of request E7, over the published decoder.

use crate::both::rust;
use crate::makers::resting;

type Ten = [f32; 10];

/// The lines that a pattern may have.
pub const MOST: usize = 10_000;

/// A decoder, and the set that both ends start from.
pub struct Model {
    decode: fn(u32, &Ten) -> Ten,
    resting: Ten,
}

/// What is printed for one line.
#[derive(Clone, Copy, Debug, PartialEq)]
pub struct Row {
    /// Arrivals in a row, this line included.
    pub arrivals: u64,
    /// The largest difference in 1/64 units, rounded up.
    pub sixty_fourths: u64,
}

/// The rows of a pattern, and the number of the line that is refused, if one is.
#[derive(Clone, Debug, PartialEq)]
pub struct Answer {
    pub rows: Vec<Row>,
    pub refused: Option<usize>,
}

/// The lines of a text. A line feed at the very end begins no further line.
pub fn lines(text: &[u8]) -> Vec<&[u8]> {
    let mut lines: Vec<&[u8]> = text.split(|byte| *byte == b'\n').collect();
    // what follows the last line feed, or all of an empty text
    if lines.last().is_some_and(|last| last.is_empty()) {
        lines.pop();
    }
    lines
}

/// The index of a line and whether it arrives; none where the line is of another form.
pub fn turn(line: &[u8]) -> Option<(u32, bool)> {
    let (digits, end) = line.split_at_checked(6)?;
    let arrives = match end {
        b" +" => true,
        b" -" => false,
        _ => return None,
    };
    let upper_case = |byte: &u8| b"0123456789ABCDEF".contains(byte);
    let digits = std::str::from_utf8(digits).ok().filter(|_| digits.iter().all(upper_case))?;
    Some((u32::from_str_radix(digits, 16).ok()?, arrives))
}

impl Model {
    /// Over the published decoder, or why there is none.
    pub fn new() -> Result<Model, String> {
        Ok(Model { decode: rust()?.published.decode_lsp_freq, resting: resting() })
    }

    /// What a pattern is answered with.
    pub fn answer(&self, text: &[u8]) -> Answer {
        let (mut coder, mut decoder) = (self.resting, self.resting);
        let mut rows: Vec<Row> = Vec::new();
        for line in lines(text) {
            let (Some((index, arrives)), true) = (turn(line), rows.len() < MOST) else {
                let refused = Some(rows.len() + 1);
                return Answer { rows, refused };
            };
            coder = (self.decode)(index, &coder);
            if arrives {
                decoder = (self.decode)(index, &decoder);
            }
            let before = rows.last().map_or(0, |row| row.arrivals);
            let arrivals = if arrives { before + 1 } else { 0 };
            rows.push(Row { arrivals, sixty_fourths: sixty_fourths(&coder, &decoder) });
        }
        Answer { rows, refused: None }
    }
}

/// The largest difference of two sets. Every frequency of a line is a whole multiple of 2^-13 below 2^16, so that nothing here
/// is rounded but the answer.
fn sixty_fourths(coder: &Ten, decoder: &Ten) -> u64 {
    let differences = coder.iter().zip(decoder).map(|(c, d)| (f64::from(*c) - f64::from(*d)).abs());
    (64.0 * differences.fold(0.0, f64::max)).ceil() as u64
}

impl Answer {
    /// The bytes that are printed.
    pub fn text(&self) -> Vec<u8> {
        let mut text = String::new();
        for (at, row) in self.rows.iter().enumerate() {
            text += &format!("{} {} {}\n", at + 1, row.arrivals, row.sixty_fourths);
        }
        if let Some(line) = self.refused {
            text += &format!("refused 12 {line}\n");
        }
        text.into_bytes()
    }

    /// The first line at which the bound for lost indices does not hold: m lines after the last lost one, or after the start,
    /// at most (3/8)^m of what was printed there, and two more.
    pub fn beyond_the_bound(&self) -> Option<usize> {
        let mut last = 0;
        self.rows.iter().position(|row| {
            if row.arrivals == 0 {
                last = row.sixty_fourths;
            }
            !within(row.sixty_fourths, last, row.arrivals)
        })
    }
}

/// Whether q is at most (3/8)^m of the last and two more, in whole numbers.
fn within(q: u64, last: u64, m: u64) -> bool {
    // from the 30th line on less than one is left of anything below 2^32
    let m = m.min(30) as u32;
    u128::from(q.saturating_sub(2)) * 8u128.pow(m) <= 3u128.pow(m) * u128::from(last)
}

#[cfg(test)]
mod tests {
    use super::*;

    #[test]
    fn lines_are_cut_at_line_feeds() {
        let none: [&[u8]; 0] = [];
        assert_eq!(lines(b""), none);
        assert_eq!(lines(b"\n"), [b""]);
        assert_eq!(lines(b"a"), [b"a"]);
        assert_eq!(lines(b"a\n"), [b"a"]);
        assert_eq!(lines(b"a\n\n"), [&b"a"[..], b""]);
        assert_eq!(lines(b"a\n\r\nb"), [&b"a"[..], b"\r", b"b"]);
    }

    #[test]
    fn a_line_has_one_form() {
        assert_eq!(turn(b"010203 +"), Some((66_051, true)));
        assert_eq!(turn(b"ABCDEF -"), Some((0xAB_CDEF, false)));
        for other in [
            "",
            "010203",
            "010203 ",
            "010203 +\r",
            "010203 + ",
            " 010203 +",
            "01020 +",
            "0102030 +",
            "abcdef +",
            "01020g +",
            "01020G +",
            "+10203 +",
            "010203\t+",
            "010203  +",
            "010203 *",
            "010203 \u{2212}",
            "\u{feff}010203 +",
            "01020\0 +",
        ] {
            assert_eq!(turn(other.as_bytes()), None, "{other:?}");
        }
        // every byte of a line, one at a time
        let line = *b"0A9F03 -";
        for place in 0..line.len() {
            for byte in 0..=255u8 {
                let mut other = line;
                other[place] = byte;
                let right = match place {
                    0..=5 => byte.is_ascii_digit() || (b'A'..=b'F').contains(&byte),
                    6 => byte == b' ',
                    _ => byte == b'+' || byte == b'-',
                };
                assert_eq!(turn(&other).is_some(), right, "{other:?}");
            }
        }
    }

    #[test]
    fn the_bound_is_kept_in_whole_numbers() {
        assert!(within(2, 0, 0) && !within(3, 0, 0) && within(8, 8, 0) && within(10, 8, 0) && !within(11, 8, 0));
        assert!(within(5, 8, 1) && !within(6, 8, 1) && within(2, u64::MAX, 0));
        assert!(within(2, 600_000, 31) && !within(3, 600_000, 10_000));
    }

    #[cfg(rust)]
    mod over_the_rust {
        use super::super::*;
        use crate::loss_patterns::{counted, drawn_by_rule};

        fn answer(text: &str) -> Answer {
            Model::new().unwrap().answer(text.as_bytes())
        }

        fn printed(text: &str) -> String {
            String::from_utf8(answer(text).text()).unwrap()
        }

        #[test]
        fn the_cases_of_the_request() {
            assert_eq!(printed("010203 +\n000000 -\n000000 +\n"), "1 1 0\n2 0 106080\n3 1 39780\n");
            assert_eq!(printed(""), "");
            assert_eq!(printed("\n"), "refused 12 1\n");
            assert_eq!(printed("000000 +\n\n"), "1 1 0\nrefused 12 2\n");
            assert_eq!(printed("010203 -\r\n"), "refused 12 1\n");
            let after_a_loss = answer(&("FFFFFF -\n".to_string() + &"FFFFFF +\n".repeat(16)));
            let fall: Vec<u64> = after_a_loss.rows.iter().map(|row| row.sixty_fourths).collect();
            assert_eq!(
                fall,
                [384_768, 144_288, 54_108, 20_291, 7_609, 2_854, 1_070, 402, 151, 57, 22, 8, 3, 2, 1, 1, 1]
            );
            assert_eq!(after_a_loss.beyond_the_bound(), None);
            let several = "FF0700 -\n".repeat(3) + &"010203 +\n".repeat(3) + "000000 -\nABCDEF +\nABCDEF +";
            let rows: Vec<_> = answer(&several).rows.iter().map(|row| (row.arrivals, row.sixty_fourths)).collect();
            assert_eq!(
                rows,
                [
                    (0, 384_768),
                    (0, 529_056),
                    (0, 583_164),
                    (1, 218_687),
                    (2, 82_008),
                    (3, 30_753),
                    (0, 154_074),
                    (1, 57_778),
                    (2, 21_667)
                ]
            );
        }

        #[test]
        fn ten_thousand_lines() {
            let model = Model::new().unwrap();
            let all = model.answer(&counted(MOST)).text();
            assert_eq!((all.len(), all.ends_with(b"\n10000 10000 0\n")), (117_788, true));
            let one_more = model.answer(&[&counted(MOST)[..], b"x"].concat()).text();
            assert_eq!(one_more, [&all[..], b"refused 12 10001\n"].concat());
            assert_eq!(sha256(&one_more), "5fd5ece766d1972178e255119240090ebb8b3efd47d1216d44793cb1bb6dff49");
            let pattern = drawn_by_rule();
            assert!(pattern.starts_with(b"4F3459 +\n"));
            let drawn = model.answer(&pattern);
            assert_eq!(drawn.beyond_the_bound(), None);
            let drawn = drawn.text();
            assert_eq!((drawn.len(), drawn.ends_with(b"\n10000 13 1\n")), (115_913, true));
            assert_eq!(sha256(&drawn), "603ec8ede4355902dc5ea6e767f8f51322a3d4bd0f379639e8c903688229bc3e");
        }

        /// The hash that the cases are told by, from FIPS 180-4; its constants are the fractions of roots of primes.
        fn sha256(text: &[u8]) -> String {
            let primes: Vec<u64> = (2u64..312).filter(|n| (2..*n).all(|d| n % d != 0)).collect();
            let root = |n: u64, power: u32| {
                // the whole part of the root times 2^32, by halving
                let (mut low, mut high) = (0u128, 1u128 << 37);
                while high - low > 1 {
                    let middle = (low + high) / 2;
                    if middle.pow(power) <= u128::from(n) << (32 * power) {
                        low = middle;
                    } else {
                        high = middle;
                    }
                }
                low as u32
            };
            let steps: Vec<u32> = primes.iter().map(|n| root(*n, 3)).collect();
            let mut state: [u32; 8] = std::array::from_fn(|i| root(primes[i], 2));
            let mut padded = text.to_vec();
            padded.push(0x80);
            padded.resize((text.len() + 9).div_ceil(64) * 64 - 8, 0);
            padded.extend((8 * text.len() as u64).to_be_bytes());
            for block in padded.chunks(64) {
                let mut words: Vec<u32> =
                    block.chunks(4).map(|four| u32::from_be_bytes(four.try_into().unwrap())).collect();
                for t in 16..64 {
                    let (a, b) = (words[t - 15], words[t - 2]);
                    let small = a.rotate_right(7) ^ a.rotate_right(18) ^ (a >> 3);
                    let large = b.rotate_right(17) ^ b.rotate_right(19) ^ (b >> 10);
                    words.push(words[t - 16].wrapping_add(small).wrapping_add(words[t - 7]).wrapping_add(large));
                }
                let mut s = state;
                for t in 0..64 {
                    let turned = s[4].rotate_right(6) ^ s[4].rotate_right(11) ^ s[4].rotate_right(25);
                    let chosen = (s[4] & s[5]) ^ (!s[4] & s[6]);
                    let parts = [s[7], turned, chosen, steps[t], words[t]];
                    let first = parts.into_iter().fold(0u32, u32::wrapping_add);
                    let turned = s[0].rotate_right(2) ^ s[0].rotate_right(13) ^ s[0].rotate_right(22);
                    let most = (s[0] & s[1]) ^ (s[0] & s[2]) ^ (s[1] & s[2]);
                    let second = turned.wrapping_add(most);
                    s = [first.wrapping_add(second), s[0], s[1], s[2], s[3].wrapping_add(first), s[4], s[5], s[6]];
                }
                state.iter_mut().zip(s).for_each(|(sum, word)| *sum = sum.wrapping_add(word));
            }
            state.iter().map(|word| format!("{word:08x}")).collect()
        }
    }
}
