//! Texts for the program `losses`: the cases of request E7, those that are aimed at one fault each, and drawn ones.

use crate::random::Random;

/// A text, and what it is made for.
pub struct Pattern {
    pub name: String,
    pub text: Vec<u8>,
}

/// The lines that a pattern may have.
const MOST: usize = 10_000;

/// A line of the right form, with its line feed.
fn line(index: u32, arrives: bool) -> Vec<u8> {
    format!("{index:06X} {}\n", if arrives { '+' } else { '-' }).into_bytes()
}

/// So many times the index 0, which arrives.
pub fn counted(lines: usize) -> Vec<u8> {
    line(0, true).repeat(lines)
}

/// The 10,000 lines that a rule of whole numbers draws: two steps of it a line.
pub fn drawn_by_rule() -> Vec<u8> {
    let mut s = 20_250_118u64;
    let mut step = || {
        s = (s * 1_103_515_245 + 12_345) % (1 << 31);
        s
    };
    (0..MOST).flat_map(|_| line((step() / 128) as u32, (step() / 65_536) % 8 != 0)).collect()
}

/// Bytes that stand beside those of a line in one sense or another.
const BESIDE: [u8; 34] = [
    0, 9, 10, 11, 13, 26, 27, b' ', b'!', b'*', b'+', b',', b'-', b'.', b'/', b'0', b'5', b'9', b':', b'@', b'A', b'F',
    b'G', b'O', b'Z', b'`', b'a', b'f', b'x', 0x7f, 0x80, 0xa0, 0xe2, 0xff,
];

/// The texts that are aimed at one fault each.
pub fn aimed() -> Vec<Pattern> {
    let mut all = Vec::new();
    let mut add = |name: String, text: &[u8]| all.push(Pattern { name, text: text.to_vec() });
    cases(&mut add);
    bytes_of_lines(&mut add);
    line_feeds(&mut add);
    long_ones(&mut add);
    all
}

/// Takes a text and what it is made for.
type Add<'a> = dyn FnMut(String, &[u8]) + 'a;

/// Three lines that both ends part over, and six more.
const THREE: &[u8] = b"010203 +\n000000 -\n000000 +\n";
const NINE: &[u8] = b"FF0700 -\nFF0700 -\nFF0700 -\n010203 +\n010203 +\n010203 +\n000000 -\nABCDEF +\nABCDEF +\n";

fn cases(add: &mut Add) {
    add("nothing".into(), b"");
    add("the request's three lines".into(), THREE);
    add("sixteen arrivals after a loss".into(), &[&b"FFFFFF -\n"[..], &b"FFFFFF +\n".repeat(16)].concat());
    add("three losses in a row, and one".into(), NINE);
    add("every arrival of three hundred".into(), &line(0x12_3456, true).repeat(300));
    add("every line of three hundred lost".into(), &line(0xFE_DCBA, false).repeat(300));
    for digit in b"0123456789ABCDEF" {
        for place in 0..6 {
            let mut text = *b"000000 -\n000000 +\n";
            text[place] = *digit;
            add(format!("digit {place} is {}", *digit as char), &text);
        }
    }
    // each row of each band, lost and then arrived: what one end has of it and the other lacks
    for band in 0..3 {
        for row in 1..256 {
            let index = row << (8 * band);
            add(format!("index {index:06X} lost"), &[line(index, false), line(index, true), line(0, true)].concat());
        }
    }
}

fn bytes_of_lines(add: &mut Add) {
    for place in 0..THREE.len() {
        // all 256 in the middle line, its line feed included
        let middle = (9..18).contains(&place);
        let others: Vec<u8> = if middle { (0..=255).collect() } else { BESIDE.to_vec() };
        for byte in others {
            let mut text = THREE.to_vec();
            text[place] = byte;
            add(format!("byte {place} of three lines is {byte:#04x}"), &text);
        }
        for byte in BESIDE {
            let text = [&THREE[..place], &[byte], &THREE[place..]].concat();
            add(format!("{byte:#04x} put before byte {place} of three lines"), &text);
        }
        let text = [&THREE[..place], &THREE[place + 1..]].concat();
        add(format!("byte {place} of three lines is gone"), &text);
        let mut text = THREE.to_vec();
        text.swap(place, (place + 1) % THREE.len());
        add(format!("bytes {place} and the next are exchanged"), &text);
    }
    for length in 0..NINE.len() {
        add(format!("nine lines cut at byte {length}"), &NINE[..length]);
        add(format!("nine lines from byte {length} on"), &NINE[length..]);
    }
    for byte in 0..=255u8 {
        add(format!("{byte:#04x} alone"), &[byte]);
        add(format!("three lines and {byte:#04x}"), &[THREE, &[byte]].concat());
    }
    add("lower case".into(), &THREE.to_ascii_lowercase());
    add("nine lines in lower case".into(), &NINE.to_ascii_lowercase());
    add("a minus sign that is no hyphen".into(), "010203 +\n000000 \u{2212}\n".as_bytes());
    add("a byte order mark".into(), &[b"\xef\xbb\xbf", THREE].concat());
    add("two bytes a character".into(), &THREE.iter().flat_map(|byte| [*byte, 0]).collect::<Vec<_>>());
    add("a comment".into(), &[b"# pattern\n", THREE].concat());
    add("a number of seven digits".into(), b"0000001 +\n");
    add("a number with a prefix".into(), b"0x0001 +\n");
    add("zeros and nothing else".into(), &[0; 9_000]);
}

fn line_feeds(add: &mut Add) {
    let ends: Vec<usize> = (0..NINE.len()).filter(|at| NINE[*at] == b'\n').collect();
    for at in ends {
        let (before, after) = (&NINE[..at], &NINE[at + 1..]);
        let (number, rest) = (at / 9 + 1, &after[..after.len().min(8)]);
        for (what, end) in [
            ("is not there", &b""[..]),
            ("is doubled", b"\n\n"),
            ("stands three times", b"\n\n\n"),
            ("has a return before it", b"\r\n"),
            ("has a return after it", b"\n\r"),
            ("is a return", b"\r"),
            ("has a space before it", b" \n"),
            ("has a space after it", b"\n "),
            ("is a zero", b"\0"),
            ("is a form feed", b"\x0c"),
            ("is a vertical tab", b"\x0b"),
        ] {
            add(format!("the line feed of line {number} of nine {what}"), &[before, end, after].concat());
        }
        for (late, _) in rest.iter().enumerate() {
            let text = [before, &after[..=late], b"\n", &after[late + 1..]].concat();
            add(format!("the line feed of line {number} of nine comes {} bytes late", late + 1), &text);
        }
    }
    for many in [1, 2, 3, 9, 10, 100, 9_999, 10_000, 10_001] {
        add(format!("{many} line feeds"), &b"\n".repeat(many));
        add(format!("three lines and {many} line feeds"), &[THREE, &b"\n".repeat(many)].concat());
    }
    let returns: Vec<u8> = NINE
        .iter()
        .flat_map(|byte| if *byte == b'\n' { &b"\r\n"[..] } else { std::slice::from_ref(byte) })
        .copied()
        .collect();
    add("nine lines with returns".into(), &returns);
}

fn long_ones(add: &mut Add) {
    let drawn = drawn_by_rule();
    add("10,000 drawn lines".into(), &drawn);
    for lines in [9, 10, 99, 100, 999, 1_000, MOST - 1, MOST, MOST + 1, MOST + 2, 2 * MOST] {
        let text = counted(lines);
        add(format!("{lines} lines"), &text);
        add(format!("{lines} lines, the last without its line feed"), &text[..text.len() - 1]);
    }
    let full = counted(MOST);
    for (what, more) in [
        ("x", &b"x"[..]),
        ("a line feed", b"\n"),
        ("a return", b"\r"),
        ("a zero", b"\0"),
        ("0", b"0"),
        ("a line", b"000000 +"),
        ("a lost line", b"000000 -\n"),
        ("two line feeds", b"\n\n"),
        ("0xff", b"\xff"),
    ] {
        add(format!("10,000 lines and {what}"), &[&full[..], more].concat());
        add(format!("9,999 lines and {what}"), &[&full[9..], more].concat());
    }
    for (what, at) in
        [("first", 0), ("second", 1), ("middle", MOST / 2), ("last but one", MOST - 2), ("last", MOST - 1)]
    {
        for (place, byte) in [(0, b'a'), (5, b' '), (6, b'\t'), (7, b'*'), (8, b' ')] {
            let mut text = drawn.clone();
            text[9 * at + place] = byte;
            add(format!("byte {place} of the {what} of 10,000 lines is {byte:#04x}"), &text);
        }
    }
    add("10,000 lines, all lost".into(), &line(0xFF_FFFF, false).repeat(MOST));
    add("a megabyte of one line".into(), &b"0".repeat(1 << 20));
    add("a megabyte of lines".into(), &counted((1 << 20) / 9));
}

/// The text of a seed and a turn: some lines, in half of the turns damaged.
pub fn drawn(seed: u64, turn: u64) -> Pattern {
    let mut random = Random::new(seed, 0, turn);
    let lines = match random.below(100) {
        0 => 1_000 + random.below(MOST - 998),
        1..=20 => random.below(4),
        _ => random.below(300),
    };
    // how often a line is lost, after one that arrived and after one that was lost
    let rates = [0, 1, 10, 30, 125, 500, 875, 1_000];
    let lost = [*random.pick(&rates), *random.pick(&rates)];
    let indices = random.below(4);
    let (own, few) = (random.bits() >> 8, [0, 0xFF_FFFF, 0xFF_0700, random.bits() >> 8]);
    let (mut text, mut before) = (Vec::with_capacity(9 * lines), true);
    for _ in 0..lines {
        let index = match indices {
            0 => own,
            1 => *random.pick(&few),
            _ => random.bits() >> 8,
        };
        before = random.below(1_000) >= lost[usize::from(!before)];
        text.extend(line(index, before));
    }
    if random.once_in(3) {
        text.pop();
    }
    let damages = if random.once_in(2) { 1 + random.below(3) } else { 0 };
    for _ in 0..damages {
        damage(&mut text, &mut random);
    }
    Pattern { name: format!("seed {seed}, turn {turn}"), text }
}

/// Alters a text in one place.
fn damage(text: &mut Vec<u8>, random: &mut Random) {
    let at = random.below(text.len() + 1);
    let there = at < text.len();
    let byte = if random.once_in(2) { *random.pick(&BESIDE) } else { random.bits() as u8 };
    match random.below(10) {
        0 | 1 if there => text[at] = byte,
        2 if there => text[at] ^= 1 << random.below(8),
        3 if there => {
            text.remove(at);
        }
        4 => text.truncate(at),
        5 if there => {
            let other = random.below(text.len());
            text.swap(at, other);
        }
        6 => {
            // a piece of it once more
            let end = text.len().min(at + random.below(20));
            let piece = text[at..end].to_vec();
            text.splice(at..at, piece);
        }
        7 => {
            let end = text.len().min(at + random.below(20));
            text.drain(at..end);
        }
        8 => {
            // at the end of a line
            let end = text[at..].iter().position(|byte| *byte == b'\n').map_or(text.len(), |more| at + more);
            text.insert(end, *random.pick(b"\n\r \0"));
        }
        _ => text.insert(at, byte),
    }
}

#[cfg(test)]
mod tests {
    use super::*;

    #[test]
    fn a_turn_is_the_same_again_and_turns_differ() {
        let texts: Vec<_> = (0..50).map(|turn| drawn(7, turn).text).collect();
        assert!((0..50).all(|turn| drawn(7, turn).text == texts[turn as usize]));
        assert!(texts.iter().all(|text| texts.iter().filter(|other| *other == text).count() == 1 || text.len() < 9));
        assert!(texts.iter().any(|text| text.len() > 1_000));
    }

    #[test]
    fn aimed_texts_have_names_of_their_own() {
        let all = aimed();
        let mut names: Vec<_> = all.iter().map(|pattern| &pattern.name).collect();
        names.sort();
        names.dedup();
        assert_eq!(names.len(), all.len());
        assert!(all.len() > 3_000);
    }
}
