//! Whether a file declares a name, and does not merely import, call or mention it.

use crate::rattle::without_comments;

/// Whether a name is declared in a file of one of the kinds that pages name.
pub fn declares(path: &str, text: &str, name: &str) -> Result<bool, String> {
    if name.is_empty() {
        return Ok(false);
    }
    match path.rsplit_once('.').map_or("", |(_, kind)| kind) {
        "antt" => Ok(in_antt(text, name)),
        "rt" | "rs" => Ok(in_rust(&without_comments(text), name)),
        "c" | "h" => Ok(in_c(&without_comments(text), name)),
        "awk" => Ok(text.lines().any(|line| opens(line, "function ", name, "("))),
        _ if text.starts_with("#!") => Ok(text.lines().any(|line| opens(line, "", name, "() {"))),
        _ => Err(format!("what {path} declares cannot be told")),
    }
}

/// Whether a line is MARK NAME REST..
fn opens(line: &str, mark: &str, name: &str, rest: &str) -> bool {
    let after = line.trim_start().strip_prefix(mark).and_then(|line| line.strip_prefix(name));
    after.is_some_and(|after| after.trim_start().starts_with(rest.trim_start()))
}

/// A signature `name : ..`, of a declaration, a field or a constructor, with marks before it; a record; a data type.
fn in_antt(text: &str, name: &str) -> bool {
    let mut depth = 0;
    text.lines().any(|line| {
        let line = line.split("--").next().unwrap_or("");
        let (before, inside) = (depth, line.matches("{-").count());
        depth = (depth + inside).saturating_sub(line.matches("-}").count());
        if before > 0 || inside > 0 {
            return false;
        }
        let words = line.split_whitespace().skip_while(|word| ["pub", "abbrev", "unfoldable", "axiom"].contains(word));
        // levels in braces may stand after the name
        let words: Vec<&str> = words.take(8).collect();
        let is =
            |word: &str| word == name || word.strip_prefix('«').and_then(|word| word.strip_suffix('»')) == Some(name);
        match words[..] {
            ["record" | "data", first, ..] => is(first),
            [first, ":", ..] => is(first),
            [first, levels, ..] if levels.starts_with('{') => is(first) && words.contains(&":"),
            _ => false,
        }
    })
}

/// A function, type or constant after its word; a field or variant in the braces of its type.
fn in_rust(text: &str, name: &str) -> bool {
    let words = ["fn", "struct", "enum", "union", "trait", "type", "mod", "const", "static", "macro_rules!"];
    places(text, name).any(|(before, after)| {
        let before = before.trim_end();
        let before = before.strip_suffix(" mut").unwrap_or(before);
        let declared = before.rsplit(|c: char| c.is_whitespace() || c == '(').next().unwrap_or("");
        let ends = match declared {
            "fn" => after.starts_with(['(', '<']),
            // and not a pointer's type
            "const" | "static" => after.starts_with(':'),
            _ => words.contains(&declared),
        };
        ends && words.contains(&declared)
    }) || bodies(text, "struct")
        .chain(bodies(text, "enum"))
        .any(|(_, body)| members(body, ',').any(|one| first(one) == name))
}

/// A function at the start of a line; a macro; a type; an enumerator or field in the braces of its type.
fn in_c(text: &str, name: &str) -> bool {
    let function = |line: &str| {
        line.starts_with(|c: char| c.is_ascii_alphabetic())
            && places(line, name).any(|(before, after)| after.starts_with('(') && !before.contains(['(', '=']))
    };
    let macros = |line: &str| places(line, name).any(|(before, _)| before.trim_end() == "#define");
    text.lines().any(|line| function(line) || macros(line))
        || ["struct", "union", "enum"].into_iter().any(|word| {
            bodies(text, word).any(|(head, body)| {
                let end = body.as_ptr() as usize - text.as_ptr() as usize + body.len() + 1;
                let typedef = text[end..].trim_start().strip_prefix(name);
                let member = match word {
                    "enum" => members(body, ',').any(|one| first(one) == name),
                    _ => members(body, ';').any(|one| last(one) == name),
                };
                head == name || member || typedef.is_some_and(|rest| rest.trim_start().starts_with(';'))
            })
        })
}

/// Each place where a name stands by itself: what is before it and what is after.
fn places<'a>(text: &'a str, name: &'a str) -> impl Iterator<Item = (&'a str, &'a str)> {
    let split = text.match_indices(name).map(move |(at, _)| (&text[..at], &text[at + name.len()..]));
    split.filter(|(before, after)| !before.ends_with(part) && !after.starts_with(part))
}

/// A character of a name.
fn part(c: char) -> bool {
    c.is_alphanumeric() || c == '_'
}

/// The name and the braces' inside of each type that a word opens.
fn bodies<'a>(text: &'a str, word: &'a str) -> impl Iterator<Item = (&'a str, &'a str)> {
    places(text, word).filter_map(|(_, after)| {
        let open = after.find('{')?;
        let head = after[..open].trim();
        let end = after[open..].char_indices().scan(0, |depth, (at, c)| {
            *depth += i32::from(c == '{') - i32::from(c == '}');
            Some((at, *depth))
        });
        let close = open + end.filter(|(_, depth)| *depth == 0).map(|(at, _)| at).next()?;
        // parameters of the type may stand after its name
        let plain = head.chars().all(|c| part(c) || "<>', ".contains(c));
        plain.then(|| (first(head), &after[open + 1..close]))
    })
}

/// What stands between separators, outside brackets.
fn members(body: &str, separator: char) -> impl Iterator<Item = &str> {
    let mut depth = 0;
    body.split(move |c: char| {
        depth += i32::from("([{<".contains(c)) - i32::from(")]}>".contains(c));
        depth == 0 && c == separator
    })
}

/// The first name of a member, after its attributes and marks.
fn first(text: &str) -> &str {
    let mut text = text.trim_start();
    while let Some(rest) = text.strip_prefix("#[").and_then(|rest| rest.split_once(']')) {
        text = rest.1.trim_start();
    }
    let text = text.strip_prefix("pub ").unwrap_or(text).trim_start();
    text.split(|c| !part(c)).next().unwrap_or("")
}

/// The name of a field in C: the last one before its length.
fn last(text: &str) -> &str {
    text.split('[').next().unwrap_or("").trim_end().rsplit(|c| !part(c)).next().unwrap_or("")
}

#[cfg(test)]
mod tests {
    use super::declares;

    fn check(path: &str, text: &str, declared: &[&str], not: &[&str]) {
        for name in declared {
            assert_eq!(declares(path, text, name), Ok(true), "{path}: {name}");
        }
        for name in not {
            assert_eq!(declares(path, text, name), Ok(false), "{path}: {name}");
        }
    }

    #[test]
    fn antt() {
        let text = "
use Rattle.std.specs.Float.{Float, nan}
use Rattle.float.specs.Single.{
    single}
-- mentioned : here
{- also : here
also : there -}
infixl 60 ◌⊕◌

unfoldable pub ◌⊕◌ : Float → Float → Float
x ⊕ y = add x y

abbrev pub met {ℓ} : {A : Type ℓ} → A
met x = other x
  where
  helper : ℕ
pub record Held (x : ℕ) : Type 0 where
  pub within : x ≤ 4
  «data» : ℕ
pub data Way : Type 0 where
  up : Way
plain : ℕ
";
        let declared = ["◌⊕◌", "met", "Held", "within", "data", "Way", "up", "plain", "helper"];
        check(
            "a.antt",
            text,
            &declared,
            &["Float", "single", "nan", "mentioned", "also", "x", "other", "add", "A", ""],
        );
    }

    #[test]
    fn rt_and_rust() {
        let text = "
ghost use Rattle.convert.specs.Convert.{freq_to_cosines};
use float::Lines;
// fn mentioned()
/* struct Gone { x: u32 } */
pub const ALL: [Band; 3] = [Band::Low, Band::High, Band::Mid];
#[repr(C)]
pub struct Held<'a> {
    pub syn: [f32; 10], // of ten
    #[allow(unused)]
    wz: Vec<(u32, &'a str)>,
}
enum Band { Low, High(u32), Mid = 3 }
#[unsafe(no_mangle)]
pub extern \"C\" fn door(p: *const Other, lag: u32) -> u32
    ensures { result ≡ freq_to_cosines p }
{
    let status = 0;
    call(Lines { status: 0, lines })
}
";
        let declared = ["ALL", "Held", "syn", "wz", "Band", "Low", "High", "Mid", "door"];
        let not = [
            "freq_to_cosines",
            "Lines",
            "mentioned",
            "Gone",
            "x",
            "Other",
            "lag",
            "p",
            "status",
            "call",
            "lines",
            "syn_",
        ];
        check("a.rt", text, &declared, &not);
        check("a.rs", text, &declared, &not);
    }

    #[test]
    fn c() {
        let text = "
#include <other.h>
#define SAFE(x) call(x)
#ifdef FLAG
/* uint32_t mentioned(void); */
enum { DONE = 0, /* done */ LENGTH = 1, };
enum role { NONE, SPEECH };
typedef struct state { float past[4]; uint32_t gain; } g_state;
uint32_t g_door(const float *in,
                uint32_t lag);
static int own(struct place *p)
{
    return far(p);
}
";
        let declared =
            ["SAFE", "DONE", "LENGTH", "role", "SPEECH", "state", "past", "gain", "g_state", "g_door", "own"];
        check("a.h", text, &declared, &["FLAG", "mentioned", "call", "lag", "in", "place", "p", "far", "float", "x"]);
    }

    #[test]
    fn scripts() {
        let text = "#!/usr/bin/env bash\nlayout() { rt fmt; }\n    within() {\nstep \"header\" header\nname=1\n";
        check(".ci/run", text, &["layout", "within"], &["header", "name", "step", "rt"]);
        check("a.awk", "function trim(text) {\nx = fail(1)\n", &["trim"], &["fail", "text", "x"]);
        assert!(declares("a.md", "# name", "name").is_err());
    }
}
