//! What a file of antt declares: each declaration's statement with what its modules take for granted, and where its names come from.

use crate::rattle::place;
use std::collections::BTreeMap;

/// A theorem by its statement, or a definition by its equations too.
#[derive(Clone, Debug, PartialEq)]
pub struct Declaration {
    pub name: String,
    /// The parameters of the modules around it, outermost first.
    pub given: Vec<String>,
    /// Its type; of a record or a data type, all of it.
    pub statement: String,
    pub kind: Kind,
    pub equations: Vec<String>,
}

#[derive(Clone, Copy, Debug, PartialEq)]
pub enum Kind {
    /// What is proved: its equations are a proof, and nobody's to read.
    Theorem,
    /// What computes: its equations are what it means.
    Definition,
    /// A record or a data type.
    Type,
}

/// A file: its declarations in order, and what each imported name stands for.
#[derive(Default)]
pub struct File {
    pub declarations: Vec<Declaration>,
    imports: BTreeMap<String, String>,
}

impl File {
    /// What an imported or qualified name stands for, as `crates/lpc/specs/Analysis.antt#lpc_analysis`, or a module and a name.
    pub fn meaning(&self, name: &str) -> Option<String> {
        if let Some(found) = self.imports.get(name) {
            return Some(found.clone());
        }
        let (module, own) = name.rsplit_once('.')?;
        let module = self.imports.get(module).cloned().unwrap_or_else(|| place(module));
        (module.ends_with(".antt")).then(|| format!("{module}#{own}"))
    }
}

/// Words before a declaration; all but `pub` say that it computes.
const MARKS: [&str; 3] = ["pub", "abbrev", "unfoldable"];

pub fn file(text: &str) -> Result<File, String> {
    let lines: Vec<Line> = plain(text)?;
    let mut all = File::default();
    block(&lines, &[], &mut all)?;
    Ok(all)
}

/// A line that is not empty: how far it stands in, and its words without comments. What closes a bracket belongs to what is before it.
struct Line<'a> {
    indent: usize,
    text: &'a str,
}

fn plain(text: &str) -> Result<Vec<Line<'_>>, String> {
    if text.contains("{-") {
        return Err("a comment within {- and -} is not understood here".into());
    }
    let lines = text.lines().map(|line| line.split("--").next().unwrap_or("").trim_end());
    let lines = lines.filter(|line| !line.is_empty());
    Ok(lines.map(|line| Line { indent: line.len() - line.trim_start().len(), text: line.trim_start() }).collect())
}

/// Reads the declarations of one module: each begins where the first stands, and has the lines that stand further in.
fn block(lines: &[Line], given: &[String], all: &mut File) -> Result<(), String> {
    let Some(first) = lines.first() else { return Ok(()) };
    // the last signature of this module, to which equations belong
    let mut last = None;
    let mut rest = lines;
    while let Some(head) = rest.first() {
        if head.indent != first.indent {
            return Err(format!("`{}` stands neither in a module nor beside it", head.text));
        }
        let within = |line: &Line| line.indent > head.indent || line.text.starts_with(['}', ')', ']']);
        let more = rest[1..].iter().take_while(|line| within(line)).count();
        let (item, after) = rest.split_at(1 + more);
        rest = after;
        let whole = spaced(item.iter().map(|line| line.text));
        let words: Vec<&str> = whole.split(' ').skip_while(|word| MARKS.contains(word)).collect();
        let computes = head.text.split(' ').take_while(|word| MARKS.contains(word)).any(|word| word != "pub");
        match words[..] {
            ["use", ..] => imports(&whole, &mut all.imports)?,
            ["mod" | "infix" | "infixl" | "infixr" | "unfolding" | "ruleset", ..] => {}
            ["module", ..] => {
                let ends = item.iter().position(|line| line.text == "where" || line.text.ends_with(" where"));
                let ends = ends.ok_or_else(|| format!("`{}` has no `where`", head.text))?;
                let header = spaced(item[..=ends].iter().map(|line| line.text));
                let mut given = given.to_vec();
                given.push(header);
                block(&item[ends + 1..], &given, all)?;
            }
            ["record" | "data", name, ..] => {
                let name = name.to_string();
                let (given, equations) = (given.to_vec(), Vec::new());
                all.declarations.push(Declaration {
                    name,
                    given,
                    statement: words.join(" "),
                    kind: Kind::Type,
                    equations,
                });
            }
            [name, ":", ..] | [name, _, ":", ..] if words[1] == ":" || words[1].starts_with('{') => {
                let kind = if computes { Kind::Definition } else { Kind::Theorem };
                let (given, equations) = (given.to_vec(), Vec::new());
                let statement = words[1..].join(" ");
                all.declarations.push(Declaration { name: name.to_string(), given, statement, kind, equations });
                last = Some(all.declarations.len() - 1);
            }
            _ => match last {
                Some(at) => all.declarations[at].equations.push(whole),
                None => return Err(format!("`{}` is not understood", head.text)),
            },
        }
    }
    Ok(())
}

/// Lines as one, its words apart by one space and without `pub`, which says nothing of what is stated.
fn spaced<'a>(lines: impl Iterator<Item = &'a str>) -> String {
    let words = lines.flat_map(str::split_whitespace).filter(|word| *word != "pub");
    words.collect::<Vec<_>>().join(" ")
}

/// `use module.{name, name as own}`, or `use module as own`.
fn imports(line: &str, all: &mut BTreeMap<String, String>) -> Result<(), String> {
    if let ["use", module, "as", own] = line.split(' ').collect::<Vec<_>>()[..] {
        all.insert(own.to_string(), place(module));
        return Ok(());
    }
    let listed = line.strip_prefix("use ").and_then(|rest| rest.split_once(".{"));
    let (module, names) = listed
        .and_then(|(module, names)| Some((module, names.strip_suffix('}')?)))
        .ok_or_else(|| format!("`{line}` is not understood"))?;
    for name in names.split(',').map(str::trim).filter(|name| !name.is_empty()) {
        let (name, own) = name.split_once(" as ").unwrap_or((name, name));
        all.insert(own.to_string(), format!("{}#{name}", place(module)));
    }
    Ok(())
}

/// The names in a text: its words without brackets and separators, and without the projections of what stands in brackets.
pub fn names(text: &str) -> impl Iterator<Item = &str> {
    let words = text.split(|c: char| c.is_whitespace() || "()[]{},;".contains(c));
    words.filter(|word| !word.starts_with('.')).map(|word| word.trim_end_matches('.')).filter(|word| !word.is_empty())
}

/// What a name with dots may be a projection of, itself first: `whole.Sum.found` of a module's `whole.Sum`, or of `whole`.
pub fn beginnings(name: &str) -> impl Iterator<Item = &str> {
    std::iter::successors(Some(name), |name| Some(name.rsplit_once('.')?.0))
}

#[cfg(test)]
mod tests {
    use super::*;

    const TEXT: &str = "
-- A page. Assumes nothing.
use Rattle.std.specs.Prelude.{◌≡◌, refl}
use Rattle.half.specs.Half.{
  halved,
  paired as pair,
}
use Rattle.half.proofs.Whole as whole
infixl 65 ◌⊕◌

abbrev pub Held : ℕ → Type 0
Held zero = Unit
Held (suc n) = Held n × T (halved n)

-- a record
pub record Near (x : ℕ) : Type 0 where
  pub within : x ≤ 4 -- of four
  pub other :
      x ≡ x

module _ (n : ℕ)
    (h : n < 4) where
  inner : ℕ → ℕ
  inner k = k

  module _ (m : ℕ) where
    pub deep : (k : ℕ) →
        k < m → Near n
    unfolding halved
    deep k l = go k
      where
        go : ℕ → Near n
        go k = absurd k

pub plain : halved 3 ≡ 1
plain = refl
";

    #[test]
    fn declarations() {
        let file = file(TEXT).unwrap();
        let names: Vec<&str> = file.declarations.iter().map(|one| one.name.as_str()).collect();
        assert_eq!(names, ["Held", "Near", "inner", "deep", "plain"]);
        let [held, near, _, deep, plain] = &file.declarations[..] else { panic!() };
        assert_eq!((held.kind, held.equations.len()), (Kind::Definition, 2));
        assert_eq!(near.statement, "record Near (x : ℕ) : Type 0 where within : x ≤ 4 other : x ≡ x");
        assert_eq!(deep.statement, ": (k : ℕ) → k < m → Near n");
        assert_eq!(deep.given, ["module _ (n : ℕ) (h : n < 4) where", "module _ (m : ℕ) where"]);
        assert_eq!((deep.kind, plain.kind), (Kind::Theorem, Kind::Theorem));
        assert_eq!(plain.given, [""; 0]);
        for (name, meant) in [
            ("halved", "crates/half/specs/Half.antt#halved"),
            ("pair", "crates/half/specs/Half.antt#paired"),
            ("refl", "Rattle.std.specs.Prelude#refl"),
            ("whole.Sum", "crates/half/proofs/Whole.antt#Sum"),
            ("Rattle.half.specs.inner.Low.low", "crates/half/specs/inner/Low.antt#low"),
        ] {
            assert_eq!(file.meaning(name).as_deref(), Some(meant), "{name}");
        }
        for name in ["Held", "lib.Dec.T", "Rattle.std.specs.Float.nan", "halved.found"] {
            assert_eq!(file.meaning(name), None, "{name}");
        }
    }

    #[test]
    fn words() {
        let text = "(k : ℕ) → (λ s. s.found) {a, (f b).found}";
        assert_eq!(names(text).collect::<Vec<_>>(), ["k", ":", "ℕ", "→", "λ", "s", "s.found", "a", "f", "b"]);
        assert_eq!(beginnings("whole.Sum.found").collect::<Vec<_>>(), ["whole.Sum.found", "whole.Sum", "whole"]);
        assert_eq!(beginnings("s").collect::<Vec<_>>(), ["s"]);
    }

    #[test]
    fn what_is_not_understood() {
        assert!(file("{- hidden -}\nx : ℕ\n").is_err());
        assert!(file("module _ (n : ℕ)\n  x : ℕ\n").is_err());
        assert!(file("use Rattle.std.specs.Float\n").is_err());
        assert!(file("x = 3\n").is_err());
    }
}
