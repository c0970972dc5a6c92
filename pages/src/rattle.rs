//! What a .rt file says of its functions: their parameters, their clauses, and what the names in a clause mean.

use std::collections::BTreeMap;

pub struct Function {
    pub name: String,
    pub public: bool,
    /// Whether C can call it by its name: `#[unsafe(no_mangle)]`, and `extern "C"`.
    pub exported: bool,
    /// Whether it leaves types open, with a bound on them or none.
    pub generic: bool,
    pub parameters: Vec<Parameter>,
    /// The type after the arrow; empty where there is none.
    pub result: String,
    pub clauses: Vec<Clause>,
}

pub struct Parameter {
    pub name: String,
    pub way: Way,
}

#[derive(Clone, Copy, PartialEq)]
pub enum Way {
    Value,
    Read,
    Lent,
}

/// `ensures name { text }`.
pub struct Clause {
    pub word: String,
    pub text: String,
}

/// The functions of a file, in its order. `Coder::new` has the name `new_coder`, as its door has.
pub fn functions(text: &str) -> Result<Vec<Function>, String> {
    let text = &without_comments(text);
    let mut all = Vec::new();
    for (at, _) in text.match_indices("fn ") {
        let before = &text[..at];
        if before.chars().next_back().is_some_and(|c| !c.is_whitespace()) {
            continue;
        }
        let line = before.rsplit('\n').next().unwrap_or("");
        let mut found = function(&text[at + 3..])?;
        found.public = line.split_whitespace().next() == Some("pub");
        found.exported = line.ends_with("extern \"C\" ") && attributes(before).any(|one| one == "#[unsafe(no_mangle)]");
        if let Some(of) = type_around(before) {
            found.name = format!("{}_{}", found.name, door_word(of));
        }
        all.push(found);
    }
    Ok(all)
}

/// The attributes of the item in whose first line a text ends, each on a line of its own.
fn attributes(before: &str) -> impl Iterator<Item = &str> {
    before.rsplit('\n').skip(1).map(str::trim).take_while(|line| line.starts_with("#[") || line.is_empty())
}

/// What the doors call a type: its own name in small letters, but for the one whose own name is the Rust's.
fn door_word(of: &str) -> String {
    match of {
        "CombinedMem" => "filter_memory".to_string(),
        _ => of.to_lowercase(),
    }
}

/// The type in whose `impl` block a text ends.
fn type_around(text: &str) -> Option<&str> {
    let block = text.lines().rfind(|line| line.starts_with("impl ") || line.starts_with('}'))?;
    block.strip_prefix("impl ")?.split_whitespace().next()
}

fn function(text: &str) -> Result<Function, String> {
    let ends = text.find(|c: char| !(c.is_alphanumeric() || c == '_')).unwrap_or(text.len());
    let name = text[..ends].to_string();
    let types = if text[ends..].starts_with('<') { angle(&text[ends..]) } else { Some(0) };
    let open = types.map(|long| ends + long).filter(|at| !name.is_empty() && text[*at..].starts_with('('));
    let open = open.ok_or_else(|| format!("{name}: a function has no parameters"))?;
    let mut generic = open > ends;
    let wrong = |what: String| format!("{name}: {what}");
    let close = open + closing(&text[open..]).ok_or_else(|| wrong("its parameters have no end".into()))?;
    let parameters = parts(&text[open + 1..close], ',').iter().map(|part| parameter(part)).collect::<Result<_, _>>();
    generic |= text[open..close].split(|c: char| !c.is_alphanumeric()).any(|word| word == "impl" || word == "dyn");
    let (mut rest, mut clauses) = (&text[close + 1..], Vec::new());
    let mut result = String::new();
    loop {
        let brace = head_end(rest).ok_or_else(|| wrong("it has no body".into()))?;
        let head = &rest[..brace];
        let (before, word, after) = clause_word(head).unwrap_or((head, "", ""));
        // bounds stand before the clauses
        let before = match before.split_whitespace().find(|word| *word == "where" && clauses.is_empty()) {
            Some(bounds) => {
                generic = true;
                &before[..bounds.as_ptr() as usize - before.as_ptr() as usize]
            }
            None => before,
        };
        if let Some(kind) = before.trim().strip_prefix("->").filter(|_| clauses.is_empty()) {
            result = kind.trim().to_string();
        }
        if word.is_empty() {
            if !is_result(before, clauses.is_empty()) {
                return Err(wrong(format!("`{}` is not understood", head.trim())));
            }
            break;
        }
        if !is_result(before, clauses.is_empty()) || after.split_whitespace().count() > 1 {
            return Err(wrong(format!("`{}` is not understood", head.trim())));
        }
        let end = brace + closing(&rest[brace..]).ok_or_else(|| wrong(format!("`{word}` has no end")))?;
        clauses.push(Clause { word: word.to_string(), text: rest[brace + 1..end].trim().to_string() });
        rest = &rest[end + 1..];
    }
    Ok(Function {
        parameters: parameters.map_err(wrong)?,
        name,
        public: false,
        exported: false,
        generic,
        result,
        clauses,
    })
}

/// A parameter, `name: type`.
fn parameter(text: &str) -> Result<Parameter, String> {
    let text = text.trim();
    let (name, kind) = text.split_once(':').unwrap_or((text, text.trim_end_matches("self")));
    let name = name.trim_start_matches("mut ").trim_start_matches(['&', ' ']).trim_start_matches("mut ").trim();
    if name.is_empty() || name.contains(char::is_whitespace) {
        return Err(format!("the parameter `{text}` is not understood"));
    }
    let way = match kind.trim().strip_prefix('&') {
        None => Way::Value,
        // a lifetime may stand first
        Some(kind) if kind.split_whitespace().find(|word| !word.starts_with('\'')) == Some("mut") => Way::Lent,
        Some(_) => Way::Read,
    };
    Ok(Parameter { name: name.to_string(), way })
}

/// Where the brace stands that opens a clause or the body.
fn head_end(text: &str) -> Option<usize> {
    let mut depth = 0;
    for (at, c) in text.char_indices() {
        match c {
            '[' | '(' => depth += 1,
            ']' | ')' => depth -= 1,
            '{' => return Some(at),
            ';' if depth == 0 => return None,
            _ => {}
        }
    }
    None
}

/// What stands before a clause's word, the word, and what stands after it.
fn clause_word(head: &str) -> Option<(&str, &str, &str)> {
    let word = head.split_whitespace().find(|word| ["requires", "ensures", "ghost"].contains(word))?;
    let at = word.as_ptr() as usize - head.as_ptr() as usize;
    Some((&head[..at], word, &head[at + word.len()..]))
}

/// Whether a text is nothing, or `-> type` where that may stand.
fn is_result(text: &str, first: bool) -> bool {
    let text = text.trim();
    let Some(kind) = text.strip_prefix("->").filter(|_| first) else { return text.is_empty() };
    let kind = kind.trim().trim_start_matches('&');
    // a lifetime may stand first
    let kind = match kind.split_once(' ') {
        Some((lifetime, rest)) if lifetime.starts_with('\'') => rest.trim_start(),
        _ => kind,
    };
    parts(kind.trim_start_matches("mut "), ' ').len() == 1
}

/// The place of the bracket that closes the first one.
fn closing(text: &str) -> Option<usize> {
    let mut depth = 0;
    for (at, c) in text.char_indices() {
        match c {
            '(' | '[' | '{' => depth += 1,
            ')' | ']' | '}' => depth -= 1,
            _ => {}
        }
        if depth == 0 {
            return Some(at);
        }
    }
    None
}

/// How long the list of a function's types is, `<..>`.
fn angle(text: &str) -> Option<usize> {
    let (mut depth, mut last) = (0, ' ');
    for (at, c) in text.char_indices() {
        match c {
            '<' => depth += 1,
            '>' if last != '-' => depth -= 1,
            _ => {}
        }
        if depth == 0 {
            return Some(at + 1);
        }
        last = c;
    }
    None
}

/// What stands between separators outside brackets, but for what is empty.
fn parts(text: &str, separator: char) -> Vec<&str> {
    let (mut depth, mut from, mut all) = (0, 0, Vec::new());
    for (at, c) in text.char_indices() {
        match c {
            '(' | '[' | '{' | '<' => depth += 1,
            ')' | ']' | '}' | '>' => depth -= 1,
            _ => {}
        }
        if depth == 0 && (c == separator || separator == ' ' && c.is_whitespace()) {
            all.push(&text[from..at]);
            from = at + c.len_utf8();
        }
    }
    all.push(&text[from..]);
    all.retain(|part| !part.trim().is_empty());
    all
}

/// A source without its comments, its lines kept.
pub fn without_comments(text: &str) -> String {
    let (mut out, mut rest, mut depth) = (String::new(), text, 0);
    while let Some(c) = rest.chars().next() {
        let mut taken = c.len_utf8();
        if rest.starts_with("/*") {
            depth += 1;
            taken = 2;
        } else if depth > 0 && rest.starts_with("*/") {
            depth -= 1;
            taken = 2;
        } else if depth == 0 && rest.starts_with("//") {
            taken = rest.find('\n').unwrap_or(rest.len());
        } else if depth == 0 || c == '\n' {
            out.push(c);
        }
        rest = &rest[taken..];
    }
    out
}

/// What a file's `ghost use` lines bring: each name, and the file and name that it stands for, as
/// `crates/lpc/specs/Analysis.antt#lpc_analysis`; of what is not the repository's, the module and the name.
pub fn imports(text: &str) -> Result<BTreeMap<String, String>, String> {
    let mut all = BTreeMap::new();
    let text = without_comments(text);
    for (at, _) in text.match_indices("ghost use ") {
        let line = text[at + "ghost use ".len()..].split(';').next().unwrap_or("").trim();
        let listed = line.split_once(".{").and_then(|(module, names)| Some((module, names.strip_suffix('}')?)));
        let (module, names) = listed.ok_or(format!("`ghost use {line}` is not understood"))?;
        for name in names.split(',').map(str::trim) {
            let (name, own) = name.split_once(" as ").unwrap_or((name, name));
            let whole = format!("{}#{}", place(module), name.trim());
            if all.insert(own.trim().to_string(), whole).is_some() {
                return Err(format!("{} is imported twice", own.trim()));
            }
        }
    }
    Ok(all)
}

/// The file of a module of this repository; of another, the module. No crate is named as the kit's own library, `std`.
pub fn place(module: &str) -> String {
    let found = module.strip_prefix("Rattle.").and_then(|rest| {
        let (of, path) = rest.split_once('.')?;
        (of != "std").then(|| format!("crates/{of}/{}.antt", path.replace('.', "/")))
    });
    found.unwrap_or(module.to_string())
}

/// A part of a clause: a word, or what stands in brackets. A projection of either is a group too, `f x` and `.part` of `(f x).part`.
#[derive(Clone, Debug, PartialEq)]
pub enum Term {
    Word(String),
    Group(Vec<Term>),
}

impl Term {
    pub fn word(text: &str) -> Term {
        Term::Word(text.to_string())
    }

    pub fn is(&self, text: &str) -> bool {
        matches!(self, Term::Word(word) if word == text)
    }
}

/// Two sides that are said to be equal.
#[derive(Clone, Debug, PartialEq)]
pub struct Equation {
    pub left: Vec<Term>,
    pub right: Vec<Term>,
}

/// The result of a function, and what a clause calls it.
pub const RESULT: &str = "the result";
pub const RESULT_IN_CLAUSES: &str = "result";

/// What a lent parameter holds afterwards.
pub fn after(parameter: &str) -> Term {
    Term::Word(format!("{parameter} afterwards"))
}

/// The names that a clause may use.
pub struct Scope<'a> {
    pub parameters: &'a [Parameter],
    pub imports: &'a BTreeMap<String, String>,
}

impl Scope<'_> {
    /// The equations that a clause states, one or several with `×` between them, each name with what it stands for.
    pub fn equations(&self, clause: &str) -> Result<Vec<Equation>, String> {
        let mut all = Vec::new();
        let found = terms(clause).and_then(|terms| self.conjunction(&terms, &mut all));
        found.ok_or_else(|| format!("`{}` is no equation, and no list of equations", short(clause)))?;
        Ok(all)
    }

    /// The equation that a text states.
    pub fn equation(&self, text: &str) -> Result<Equation, String> {
        match self.equations(text).as_deref() {
            Ok([one]) => Ok(one.clone()),
            _ => Err(format!("`{}` is no equation", short(text))),
        }
    }

    fn conjunction(&self, terms: &[Term], all: &mut Vec<Equation>) -> Option<()> {
        if let [Term::Group(inner)] = terms {
            return self.conjunction(inner, all);
        }
        if terms.iter().any(|term| term.is("×")) {
            return terms.split(|term| term.is("×")).try_for_each(|part| self.conjunction(part, all));
        }
        let mut sides = terms.split(|term| term.is("≡"));
        let (left, right) = (self.plain(sides.next()?), self.plain(sides.next()?));
        if sides.next().is_some() || left.is_empty() || right.is_empty() {
            return None;
        }
        all.push(Equation { left, right });
        Some(())
    }

    /// A term with its names resolved, and `x.now` and `x.old` as x, which is what a caller passes.
    fn plain(&self, terms: &[Term]) -> Vec<Term> {
        let mut out = Vec::new();
        if let Some(one) = self.moment(terms) {
            out.push(one);
        }
        let rest = if out.is_empty() { terms } else { &terms[2..] };
        for term in rest {
            match term {
                Term::Word(word) => out.push(Term::Word(self.meaning(word))),
                Term::Group(inner) => match &self.plain(inner)[..] {
                    [one] => out.push(one.clone()),
                    // f x in brackets, before anything else, needs none
                    many if out.is_empty() => out.extend_from_slice(many),
                    many => out.push(Term::Group(many.to_vec())),
                },
            }
        }
        out
    }

    /// What terms begin with, where that is a parameter at a moment: a reference's is `.now`, and of a lent one `.old` and `.new`.
    fn moment(&self, terms: &[Term]) -> Option<Term> {
        let [Term::Word(name), Term::Word(when), ..] = terms else { return None };
        let one = self.parameters.iter().find(|parameter| parameter.name == *name)?;
        match (when.as_str(), one.way) {
            (".now", Way::Read) | (".old", Way::Lent) => Some(Term::word(name)),
            (".new", Way::Lent) => Some(after(name)),
            _ => None,
        }
    }

    fn meaning(&self, word: &str) -> String {
        if word == RESULT_IN_CLAUSES {
            RESULT.to_string()
        } else if self.parameters.iter().any(|parameter| parameter.name == word) {
            word.to_string()
        } else {
            self.imports.get(word).cloned().unwrap_or(word.to_string())
        }
    }
}

/// A clause's words and brackets. `∗`, `⌜` and `⌝` are no words of a plain clause.
fn terms(text: &str) -> Option<Vec<Term>> {
    let mut open = vec![Vec::new()];
    let mut word = String::new();
    // whether the word stands right behind a closing bracket
    let mut tight = false;
    for c in text.chars().chain([' ']) {
        if !c.is_whitespace() && !"()∗⌜⌝{}".contains(c) {
            // the marks around a name that is a word of the language too
            if !"«»".contains(c) {
                word.push(c);
            }
            continue;
        }
        if !word.is_empty() {
            projected(&std::mem::take(&mut word), tight, open.last_mut()?)?;
        }
        tight = c == ')';
        match c {
            '(' => open.push(Vec::new()),
            '∗' | '⌜' | '⌝' => return None,
            '{' => {
                open.last_mut()?.push(Term::Word(c.to_string()));
                open.push(Vec::new());
            }
            ')' | '}' => {
                let inner = open.pop()?;
                open.last_mut()?.push(Term::Group(inner));
            }
            _ => {}
        }
    }
    let whole = open.pop()?;
    open.is_empty().then_some(whole)
}

/// Adds a word to what is before it: `x.part` is a group of x and `.part`, and `.part` right behind a bracket is in that group.
fn projected(word: &str, tight: bool, all: &mut Vec<Term>) -> Option<()> {
    let (name, parts) = word.split_at(word.find('.').unwrap_or(word.len()));
    let parts: Vec<&str> = parts.split('.').skip(1).collect();
    // `λ x.` and a number have a dot of their own
    if parts.iter().any(|part| part.is_empty()) || name.starts_with(|c: char| c.is_ascii_digit()) {
        all.push(Term::word(word));
        return Some(());
    }
    let parts = parts.iter().map(|part| Term::Word(format!(".{part}")));
    match (name, all.last_mut()) {
        ("", Some(Term::Group(inner))) if tight => inner.extend(parts),
        // a part stands right behind what it is a part of
        ("", _) => return None,
        _ if parts.len() == 0 => all.push(Term::word(name)),
        _ => all.push(Term::Group([Term::word(name)].into_iter().chain(parts).collect())),
    }
    Some(())
}

/// The first words of a text, for a message.
pub fn short(text: &str) -> String {
    let words = text.split_whitespace().collect::<Vec<_>>().join(" ");
    match words.char_indices().nth(120) {
        Some((at, _)) => format!("{} ..", &words[..at]),
        None => words,
    }
}
