//! The rows of docs/REVIEW.md, held to the numbered sentences of documents 01 and 02.

use std::collections::{BTreeMap, BTreeSet};

/// A row of the page: a sentence's number, then its first words in quotation marks. A bar within a cell is written `\|`.
pub struct Row {
    pub number: String,
    words: String,
}

/// The sentences of both documents by number, without marks of emphasis.
pub struct Sentences(BTreeMap<String, String>);

impl Sentences {
    /// From the numbered texts: a line `- C5. Cosine of step k ..` for each sentence.
    pub fn of(texts: &[String]) -> Sentences {
        let lines = texts.iter().flat_map(|text| text.lines());
        let parts = lines.filter_map(|line| line.strip_prefix("- ")?.split_once(". "));
        let known = parts.filter(|(number, _)| place(number).is_some());
        Sentences(known.map(|(number, sentence)| (number.to_string(), without_marks(sentence))).collect())
    }

    /// Those that a page must have: all of document 01, and of document 02 the requests that it has a row of.
    fn due(&self, under: &BTreeSet<&str>) -> Vec<&String> {
        let due =
            |number: &String| place(number).is_some_and(|(group, _)| request(group).is_none() || under.contains(group));
        self.0.keys().filter(|number| due(number)).collect()
    }
}

/// The row that a line is, if it is one.
pub fn row(line: &str) -> Option<Row> {
    let line = line.strip_prefix('|')?.replace("\\|", "\0");
    let mut cells = line.split('|').map(|cell| cell.trim().replace('\0', "|"));
    let number = cells.next()?;
    place(&number)?;
    let words = cells.next().unwrap_or_default().trim_matches('"').to_string();
    Some(Row { number, words })
}

/// What a number stands under, and its place there: C5 is fifth under C, E1.2 second under the request E1.
fn place(number: &str) -> Option<(&str, u32)> {
    let digits = number.bytes().rev().take_while(u8::is_ascii_digit).count();
    let (group, last) = number.split_at(number.len() - digits);
    let letter = group.len() == 1 && group.as_bytes()[0].is_ascii_uppercase();
    (letter || request(group).is_some()).then_some(())?;
    Some((group, last.parse().ok()?))
}

/// The number of the request that sentences stand under, as `E1.`.
fn request(group: &str) -> Option<u32> {
    group.strip_prefix('E')?.strip_suffix('.')?.parse().ok()
}

/// What is wrong with the rows of a page, with the line, or none where the whole page is meant.
pub fn faults(page: &str, sentences: Option<&Sentences>) -> Vec<(Option<usize>, String)> {
    let rows: Vec<(usize, Row)> = page.lines().enumerate().filter_map(|(i, line)| Some((i, row(line)?))).collect();
    let mut found = Vec::new();
    let mut seen: BTreeMap<&str, u32> = BTreeMap::new();
    let mut requests = 0;
    for (i, row) in &rows {
        let Some((group, at)) = place(&row.number) else { continue };
        if let Some(of) = request(group).filter(|_| !seen.contains_key(group)) {
            if of != requests {
                found.push((Some(*i), format!("request E{of} stands where E{requests} is due")));
            }
            requests = of + 1;
        }
        let last = seen.entry(group).or_default();
        *last += 1;
        if at != *last {
            found.push((Some(*i), format!("{} stands where {group}{last} is due", row.number)));
            *last = at;
        }
        if let Some(Err(what)) = sentences.map(|all| opens(all, row)) {
            found.push((Some(*i), what));
        }
    }
    if rows.is_empty() {
        found.push((None, "no row".to_string()));
    }
    if let Some(all) = sentences {
        let there: BTreeSet<&String> = rows.iter().map(|(_, row)| &row.number).collect();
        let under = seen.keys().copied().collect();
        for number in all.due(&under).into_iter().filter(|number| !there.contains(number)) {
            found.push((None, format!("no row for {number}")));
        }
    }
    found
}

fn opens(all: &Sentences, row: &Row) -> Result<(), String> {
    let words = without_marks(row.words.trim_end_matches(['.', '…', ' ']));
    match all.0.get(&row.number) {
        None => Err(format!("there is no sentence {}", row.number)),
        Some(_) if words.is_empty() => Err(format!("the row of {} does not quote its sentence", row.number)),
        Some(sentence) if !sentence.starts_with(&words) => {
            Err(format!("{} opens with other words: {sentence}", row.number))
        }
        Some(_) => Ok(()),
    }
}

fn without_marks(text: &str) -> String {
    text.replace(['`', '*', '"'], "").split_whitespace().collect::<Vec<_>>().join(" ")
}

#[cfg(test)]
mod tests {
    use super::*;
    use crate::altering;

    const PAGE: &str = "\
| sentence | opens with | what answers for it |
|---|---|---|
| A1 | \"Step = the greatest whole\" | one |
| A2 | \"The Rust's\" | two |

| sentence | opens with | what answers for it |
| E0.1 | \"One landing each\" | three |
| E1.1 | \"Rounding 512 × \\|f\\| down\" | four |
| E1.2 | \"Take the nearest\" | five |
";
    const FIRST: &str = "- A1. Step = the **greatest** whole number.\n- A2. The Rust's `cos`.\n";
    const SECOND: &str = "\
## E1. Angles
- E0.1. One landing each.
- E1.1. Rounding 512 × |f| down pulls it.
- E1.2. Take the nearest whole number.
- E2.1. A request that has not landed.
";

    fn told(page: &str, second: &str) -> Vec<String> {
        let sentences = Sentences::of(&[FIRST.to_string(), second.to_string()]);
        faults(page, Some(&sentences)).into_iter().map(|(_, what)| what).collect()
    }

    #[test]
    fn a_page_that_has_every_sentence_is_taken() {
        assert_eq!(told(PAGE, SECOND), Vec::<String>::new());
        assert!(faults(PAGE, None).is_empty());
    }

    #[test]
    fn what_is_missing_or_misquoted_is_told() {
        for (old, new, what) in [
            ("| A2 |", "| A3 |", "A3 stands where A2 is due"),
            ("| A2 |", "| A1 |", "A1 stands where A2 is due"),
            ("| E1.1 |", "| E2.1 |", "request E2 stands where E1 is due"),
            ("| E1.2 |", "| E1.3 |", "there is no sentence E1.3"),
            ("| E1.2 | \"Take the nearest\" | five |\n", "", "no row for E1.2"),
            ("| A2 | \"The Rust's\" | two |\n", "", "no row for A2"),
            ("| E0.1 | \"One landing each\" | three |\n", "", "request E1 stands where E0 is due"),
            ("down\"", "up\"", "E1.1 opens with other words: Rounding 512 × |f| down pulls it."),
            ("\"Take the nearest\"", "\"\"", "the row of E1.2 does not quote its sentence"),
        ] {
            let told = told(&altering(PAGE, old, new)(PAGE), SECOND);
            assert!(told.iter().any(|one| one == what), "{old:?} to {new:?}: {told:?}");
        }
        assert_eq!(told("", SECOND)[0], "no row");
    }
}
