//! A sample holds; altered in one place, it is found out. So is the repository with any one theorem weakened.

use super::*;
use crate::altering;
use crate::args::top;
use crate::read;

const SAMPLE: &str = "
# Theorems

```antt
-- crates/half/proofs/Halved.antt
record Near (x : ℕ) : Type 0 where
  -- of four
  within : x ≤ 4

abbrev Both : ℕ → Type 0
Both n = Near n × Even n

first : (n : ℕ) → best.found ≡ whole.least.found → (halved n) ≡ 4

module _ (n : ℕ) (h : n < 8) where
  halved_near : (k : ℕ) → k < n →
      Near (halved k)

-- crates/half/proofs/Even.antt
abbrev Even : ℕ → Type 0
Even n = T (even n)
```

More words.

```antt
-- crates/half/proofs/Halved.antt
both : (n : ℕ) → n ≡ 4 → Both (halved n)
```

| file | names |
|---|---|
| `crates/half/specs/Best.antt` | `best` |
| `crates/half/specs/Even.antt` | `even` |
| `crates/half/specs/Half.antt` | `halved` |
| `crates/half/specs/Whole.antt` | `least` |
";

const HALVED: &str = "
-- Halves. Assumes nothing.
use Rattle.std.specs.Prelude.{◌≡◌, refl}
use Rattle.half.specs.Half.{halved}
use Rattle.half.proofs.Even.{Even, even_half}
use Rattle.half.specs.Best.{best}
use Rattle.half.specs.Whole as whole

pub record Near (x : ℕ) : Type 0 where
  pub within : x ≤ 4

abbrev pub Both : ℕ → Type 0
Both n = Near n × Even n

helper : (n : ℕ) → n ≡ n
helper n = refl

module _ (n : ℕ) (h : n < 8) where
  pub halved_near : (k : ℕ) → k < n → Near (halved k)
  unfolding halved
  halved_near k l = record { within = omega arith }

pub both : (n : ℕ) → n ≡ 4 → Both (halved n)
both n e = (halved_near 8 n, even_half n)

pub first : (n : ℕ) → best.found ≡ whole.least.found → (halved n) ≡ 4
first n e = omega arith
";

const EVEN: &str = "
use Rattle.std.specs.Prelude.{T}
use Rattle.half.specs.Even.{even}

abbrev pub Even : ℕ → Type 0
Even n = T (even n)

pub even_half : (n : ℕ) → Even n
even_half n = tt
";

const OTHER: &str = "named: `crates/half/proofs/Halved.antt#both`, and a file, `crates/half/proofs/Even.antt`.";

fn faults(page: &str, halved: &str, even: &str, other: &str) -> Vec<String> {
    let source = |path: &str| match path {
        "crates/half/proofs/Halved.antt" => Some(halved.to_string()),
        "crates/half/proofs/Even.antt" => Some(even.to_string()),
        _ => None,
    };
    check(page, &[("docs/OTHER.md".into(), other.into())], &source).faults
}

/// Alters one place of one of the texts, and looks for words in what is then said.
fn found(text: &str, old: &str, new: &str, words: &str) {
    let with = altering(text, old, new);
    let said = faults(&with(SAMPLE), &with(HALVED), &with(EVEN), &with(OTHER));
    assert!(said.iter().any(|fault| fault.contains(words)), "{old} -> {new}: {said:?}");
}

#[test]
fn the_sample_holds() {
    assert_eq!(faults(SAMPLE, HALVED, EVEN, OTHER), [""; 0]);
}

#[test]
fn a_theorem_that_says_less() {
    found(HALVED, "pub both : (n : ℕ) →", "pub both : (n : ℕ) → n ≡ 0 →", "#both: it says");
    found(HALVED, "n ≡ 4 → Both (halved n)", "n ≡ 4 → Both (halved n) ⊎ Unit", "#both: it says");
    found(HALVED, "k < n → Near (halved k)", "k < n → Near (halved k) × Unit", "#halved_near: it says");
    found(HALVED, "(h : n < 8)", "(h : n < 4)", "#halved_near: it takes for granted");
    found(HALVED, "module _ (n : ℕ)", "module _ (e : ⊥) (n : ℕ)", "#halved_near: it takes for granted");
}

#[test]
fn what_it_speaks_of() {
    found(HALVED, "within : x ≤ 4", "within : x ≤ 5", "#Near: it says");
    found(HALVED, "Both n = Near n × Even n", "Both n = Near n ⊎ Even n", "#Both: it is");
    found(EVEN, "Even n = T (even n)", "Even n = Unit", "#Even: it is");
    // the same word with another meaning
    found(
        HALVED,
        "half.specs.Half.{halved}",
        "half.specs.Other.{halved}",
        "#both: it speaks of crates/half/specs/Other.antt#halved",
    );
    found(SAMPLE, "| `crates/half/specs/Half.antt` | `halved` |\n", "", "#both: it speaks of");
    found(SAMPLE, "| `even` |", "| `even`, `odd` |", "no statement speaks of it");
    // by a field of it
    found(
        SAMPLE,
        "| `crates/half/specs/Best.antt` | `best` |\n",
        "",
        "#first: it speaks of crates/half/specs/Best.antt#best",
    );
    found(SAMPLE, "| `least` |", "| `most` |", "#first: it speaks of crates/half/specs/Whole.antt#least");
    found(HALVED, "specs.Best.{best}", "specs.Half.{best}", "#first: it speaks of crates/half/specs/Half.antt#best");
    found(HALVED, "specs.Whole as", "specs.Best as", "#first: it speaks of crates/half/specs/Best.antt#least");
    found(HALVED, "half.specs.Half.{halved}", "half.proofs.Even.{halved}", "#both: it speaks of");
    found(HALVED, "use Rattle.half.specs.Half.{halved}\n", "halved : ℕ → ℕ\nhalved n = n\n", "#both: it speaks of");
    found(HALVED, "half.proofs.Even.{Even,", "half.proofs.Odd.{Even,", "#Both: it speaks of");
}

#[test]
fn what_is_gone() {
    found(HALVED, "both n e = (halved_near 8 n, even_half n)\n", "", "#both: it has no proof");
    found(HALVED, "pub both :", "pub other :", "#both: it is declared 0 times");
    found(HALVED, "abbrev pub Both :", "pub Both :", "#Both: it is a Theorem in the source");
    found(SAMPLE, "both : (n : ℕ) → n ≡ 4 → Both (halved n)\n", "", "nothing is stated under");
    found(
        SAMPLE,
        "-- crates/half/proofs/Even.antt\n",
        "-- crates/half/proofs/Odd.antt\n",
        "crates/half/proofs/Odd.antt: it is not there",
    );
    found(
        SAMPLE,
        "\n\n```antt\n-- crates/half/proofs/Halved.antt\nrecord",
        "\n\n```antt\nrecord",
        "does not begin with a path",
    );
    found(OTHER, "#both", "#halved_far", "docs/OTHER.md names crates/half/proofs/Halved.antt#halved_far");
    assert_eq!(faults("", HALVED, EVEN, "").len(), 1);
}

#[test]
fn a_function_that_meets_its_contract() {
    let named = |path: &str| faults(SAMPLE, HALVED, EVEN, &format!("`crates/half/proofs/{path}#returns`"));
    for own in ["halve/Answers.antt", "halve/Invariants.antt", "Mem/new/Answers.antt", "halve/Proof.antt"] {
        assert_eq!(named(own), [""; 0], "{own}");
    }
    for other in ["Answers.antt", "halve/Turns.antt", "halve/MoreAnswers.antt"] {
        assert_eq!(
            named(other),
            [format!("docs/OTHER.md names crates/half/proofs/{other}#returns, which {PAGE} does not state")]
        );
    }
}

/// Every theorem of the page, weakened in its source by a hypothesis that nobody has.
#[test]
fn the_repository() {
    let top = top();
    let page = read(&top.join(PAGE));
    let source = |path: &str| std::fs::read_to_string(top.join(path)).ok();
    // a fault that is there already is for the program to tell
    let faults = check(&page, &[], &source).faults;
    let mut weakened = 0;
    for (path, one) in stated(&page).unwrap().iter().filter(|(_, one)| one.kind == Kind::Theorem) {
        let wanted = format!("{path}#{}: ", one.name);
        if faults.iter().any(|fault| fault.starts_with(&wanted)) {
            continue;
        }
        let begins = format!("{} :", one.name);
        let weaker = |asked: &str| {
            let alter = |line: &str| match line.trim_start().trim_start_matches("pub ").starts_with(&begins) {
                true if asked == path => line.replacen(" :", " : ⊥ →", 1),
                _ => line.to_string(),
            };
            Some(source(asked)?.lines().map(alter).collect::<Vec<_>>().join("\n"))
        };
        let said = check(&page, &[], &weaker).faults;
        assert!(said.iter().any(|fault| fault.starts_with(&format!("{wanted}it says"))), "{wanted}{said:?}");
        weakened += 1;
    }
    assert!(!faults.is_empty() || weakened > 0);
}
