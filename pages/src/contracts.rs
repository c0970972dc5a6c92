//! Whether each operation and each door promises what docs/TRUST.md says, and asks nothing of its caller.

use crate::args::fail;
use crate::rattle::{
    after, functions, imports, short, Equation, Function, Scope, Term, Way, RESULT, RESULT_IN_CLAUSES,
};
use crate::{antt, quoted, read};
use std::collections::{BTreeMap, BTreeSet};
use std::fs;
use std::path::{Path, PathBuf};
use std::process::Command;

#[cfg(test)]
mod tests;

pub const PAGE: &str = "docs/TRUST.md";
/// How the paths of the doors' crates begin: their libraries, as crates/c_api, and the static libraries that export them, as crates/c_api_c.
const DOORS: &str = "crates/c_api";
/// What `x ≡ y` says, by its file.
const EQUALITY: (&str, &str) = ("◌≡◌", "Rattle.std.specs.Prelude#◌≡◌");
/// Where the views of answers are proved to forget nothing, and by what claim.
const WHOLE: &str = "crates/answers/proofs/Whole.antt";
const CLAIM: &str = "crates/answers/specs/Claim.antt#Whole";
const LENT: &str = "crates/c_api/specs/Lent.antt#lent";
/// What a door may make of a part that C has in another form.
const FORMS: [&str; 3] = [
    "crates/c_api/specs/Lent.antt#flag",
    "crates/c_api_frame/specs/Frame.antt#lags",
    "crates/c_api_frame/specs/Frame.antt#factors",
];

/// The text of every crates/*/src/*.rt, by its path from the top.
pub fn sources(top: &Path) -> BTreeMap<String, String> {
    let listed = |path: &Path| -> Vec<PathBuf> {
        let all = fs::read_dir(path).unwrap_or_else(|e| fail(&format!("{}: {e}", path.display())));
        all.filter_map(|entry| Some(entry.ok()?.path())).collect()
    };
    let mut folders: Vec<PathBuf> = listed(&top.join("crates")).iter().map(|one| one.join("src")).collect();
    folders.retain(|one| one.is_dir());
    let mut all = BTreeMap::new();
    while let Some(folder) = folders.pop() {
        for path in listed(&folder) {
            if path.is_dir() {
                folders.push(path);
            } else if path.extension().is_some_and(|e| e == "rt") {
                all.insert(path.strip_prefix(top).unwrap_or(&path).display().to_string(), read(&path));
            }
        }
    }
    all
}

/// The theorems about the views of answers.
pub fn views(top: &Path) -> String {
    read(&top.join(WHOLE))
}

/// The table of doors that doors/make prints from the header.
pub fn described(top: &Path) -> String {
    match Command::new(top.join("doors/make")).arg("rust-table").output() {
        Ok(said) if said.status.success() => String::from_utf8_lossy(&said.stdout).into_owned(),
        Ok(said) => fail(&format!("doors/make rust-table: {}", String::from_utf8_lossy(&said.stderr).trim_end())),
        Err(why) => fail(&format!("doors/make: {why}")),
    }
}

/// How many operations and doors there are, and what is wrong.
pub struct Said {
    pub operations: usize,
    pub doors: usize,
    pub faults: Vec<String>,
}

/// Holds each operation to the page, and each door of the table to its operation. An answer may be seen by a view that the theorems of
/// `views` prove to forget nothing.
pub fn check(page: &str, table: &str, texts: &BTreeMap<String, String>, views: &str) -> Said {
    let (mut faults, mut operations, mut sources) = (Vec::new(), BTreeMap::new(), Vec::new());
    let views = shown_whole(views).unwrap_or_else(|what| {
        faults.push(format!("{WHOLE}: {what}"));
        BTreeMap::new()
    });
    // nobody calls a program's functions, whatever their names
    let programs: Vec<&str> = texts.keys().filter_map(|path| path.strip_suffix("main.rt")).collect();
    for (path, text) in texts.iter().filter(|(path, _)| !programs.iter().any(|one| path.starts_with(one))) {
        match functions(text) {
            Ok(functions) => sources.push(Source { path, functions, imports: imports(text) }),
            Err(what) => faults.push(format!("{path}: {what}")),
        }
    }
    let (rows, doors) = (rows(page), doors(table));
    for row in &rows {
        match operation(row, &sources, &views) {
            Ok(found) if operations.contains_key(row.name) => {
                faults.push(format!("{PAGE}: {} has two rows ({})", row.name, found.function.name))
            }
            Ok(found) => drop(operations.insert(row.name, found)),
            Err(what) => faults.push(format!("{}: {what}", row.name)),
        }
    }
    for door in &doors {
        let name = format!("g7231_{}{}", if door.bare { "bare_" } else { "" }, door.name);
        let Some(operation) = operations.get(door.name) else {
            let there = rows.iter().any(|row| row.name == door.name);
            let row = format!("{PAGE} has no row for its operation");
            faults.push(format!("{name}: {}", if there { "its operation is not as it should be" } else { &row }));
            continue;
        };
        for (stand, called) in [(Stand::Export, ""), (Stand::Library, " in its library")] {
            let held = hold(door, &name, operation, &sources, stand);
            faults.extend(held.err().map(|what| format!("{name}{called}: {what}")));
        }
    }
    if rows.is_empty() {
        faults.push(format!("{PAGE} has no table of operations"));
    }
    if doors.is_empty() {
        faults.push("doors/make rust-table has no door".into());
    }
    Said { operations: rows.len(), doors: doors.len(), faults }
}

/// A file: its functions, and what it imports.
struct Source<'a> {
    path: &'a str,
    functions: Vec<Function>,
    imports: Result<BTreeMap<String, String>, String>,
}

/// A row of the page: an operation, its definition as FILE#NAME, and its equations.
struct Row<'a> {
    name: &'a str,
    definition: &'a str,
    contract: Vec<&'a str>,
}

/// The rows of each table whose first columns are an operation or a form, its definition and its contract.
fn rows(page: &str) -> Vec<Row<'_>> {
    let (mut all, mut within) = (Vec::new(), false);
    for line in page.lines() {
        let cells: Vec<&str> =
            line.strip_prefix('|').map_or(Vec::new(), |rest| rest.split('|').map(str::trim).collect());
        match cells[..] {
            ["operation" | "form", "definition", "contract", ..] => within = true,
            [name, definition, contract, ..] if within && !name.starts_with("---") => all.push(Row {
                name: name.trim_matches('`'),
                definition: definition.trim_matches('`'),
                contract: quoted(contract).collect(),
            }),
            [] => within = false,
            _ => {}
        }
    }
    all
}

/// A door of the header: its name, whether it has a bare form, what it may write, and whether it refuses anything.
struct Door<'a> {
    name: &'a str,
    bare: bool,
    written: BTreeSet<&'a str>,
    refuses: bool,
}

fn doors(table: &str) -> Vec<Door<'_>> {
    let mut all: Vec<Door> = Vec::new();
    for line in table.lines().map(str::trim) {
        let value = |name: &str| Some(line.strip_prefix(name)?.trim_end_matches(','));
        if let Some(name) = value("name: ") {
            all.push(Door { name: name.trim_matches('"'), bare: false, written: BTreeSet::new(), refuses: true });
        }
        let Some(door) = all.last_mut() else { continue };
        if let Some(list) = value("refusals: ") {
            door.refuses = list != "&[]";
        }
        if let Some(form) = value("bare: ") {
            door.bare = form.starts_with("bare_");
        }
        if line.contains("way: Way::Made") || line.contains("way: Way::Kept") {
            door.written.extend(line.split('"').nth(1));
        }
    }
    all
}

/// An operation that is as its row says: its function, and the right sides of its equations, for its answer and for what it
/// is lent.
struct Operation<'a> {
    function: &'a Function,
    answer: Vec<Term>,
    lent: BTreeMap<String, Vec<Term>>,
}

/// Where a function stands: with the operations, in a library of doors, or with the exports.
#[derive(Clone, Copy, PartialEq)]
enum Stand {
    Operation,
    Library,
    Export,
}

impl Stand {
    fn of(path: &str) -> Stand {
        match path.strip_prefix(DOORS).and_then(|rest| rest.split('/').next()) {
            None => Stand::Operation,
            Some(rest) if rest.ends_with("_c") => Stand::Export,
            Some(_) => Stand::Library,
        }
    }
}

/// A public function, by its name, and the names that its clauses may use.
fn public<'a>(name: &str, sources: &'a [Source], stand: Stand) -> Result<(&'a Function, Scope<'a>), String> {
    let mut found = Vec::new();
    for source in sources.iter().filter(|source| Stand::of(source.path) == stand) {
        found.extend(source.functions.iter().filter(|one| one.public && one.name == name).map(|one| (source, one)));
    }
    let [(source, function)] = found[..] else {
        return Err(format!("there are {} public functions of this name, and one is wanted", found.len()));
    };
    if stand == Stand::Export && !function.exported {
        return Err("C cannot call it by its name".into());
    }
    // a bound may be a condition, and of a function that may wait for ever nothing is promised
    if function.generic {
        return Err("it leaves a type open, and may leave none".into());
    }
    let imports = source.imports.as_ref().map_err(|what| format!("{}: {what}", source.path))?;
    // words of the clauses' frame mean what the logic has them mean
    for (name, from) in imports {
        let frame = name.contains(['≡', '×', '→', '∗', '⌜', '⌝']) || name == RESULT_IN_CLAUSES;
        if frame && (name.as_str(), from.as_str()) != EQUALITY {
            return Err(format!("{} imports {name} from {from}", source.path));
        }
    }
    if function.parameters.iter().any(|parameter| parameter.name == RESULT_IN_CLAUSES) {
        return Err(format!("a parameter is named {RESULT_IN_CLAUSES}"));
    }
    Ok((function, Scope { parameters: &function.parameters, imports }))
}

/// What a function ensures; it may have no other clause.
fn ensured(function: &Function, scope: &Scope) -> Result<Vec<Equation>, String> {
    let mut all = Vec::new();
    for clause in &function.clauses {
        if clause.word != "ensures" {
            return Err(format!(
                "it has a clause `{} {}`, and may have `ensures` alone",
                clause.word,
                short(&clause.text)
            ));
        }
        all.extend(scope.equations(&clause.text)?);
    }
    for (i, one) in all.iter().enumerate() {
        if all[..i].iter().any(|other| other.left == one.left) {
            return Err(format!("it ensures two things of {}", words(&one.left)));
        }
    }
    if all.is_empty() {
        return Err("it ensures nothing".into());
    }
    Ok(all)
}

/// How a view shows an answer: beside how many parameters, and whether only an answer without a value.
#[derive(Clone, Copy)]
struct View {
    beside: usize,
    valueless: bool,
}

/// The views that theorems show to forget nothing, `Whole VIEW` or `(a : A) → Whole (VIEW a)`, by what their names stand for.
fn shown_whole(text: &str) -> Result<BTreeMap<String, View>, String> {
    let file = antt::file(text)?;
    let stands = |name: &str| file.meaning(name).unwrap_or_default();
    let mut all = BTreeMap::new();
    let theorems = file.declarations.iter().filter(|one| one.kind == antt::Kind::Theorem && one.given.is_empty());
    for one in theorems {
        let statement = one.statement.trim_start_matches([':', ' ']);
        let (bound, claimed) = statement.rsplit_once('→').unwrap_or(("", statement));
        let words: Vec<&str> = antt::names(claimed).collect();
        let [claim, view, beside @ ..] = &words[..] else { continue };
        if stands(claim) != CLAIM {
            continue;
        }
        let valueless = *beside == ["A", "=", "⊤"];
        let beside = if valueless { &[] } else { beside };
        // of any parameters, and with no condition
        let given: Vec<&str> = antt::names(bound).take_while(|word| *word != ":").collect();
        if given == beside && !bound.contains('→') && bound.matches(':').count() == beside.len().min(1) {
            all.insert(stands(view), View { beside: beside.len(), valueless });
        }
    }
    Ok(all)
}

/// Whether the left side of an equation is the answer: `result`, or what a view makes of it beside parameters, as `as_lines result` and
/// `as_frame coder result`, where the code answers a `Result` and the definition a status with values. A view that forgot something
/// would say less than `result` does, so that it must be shown whole.
fn is_answer(left: &[Term], function: &Function, views: &BTreeMap<String, View>) -> bool {
    let given = |term: &Term| function.parameters.iter().any(|parameter| term.is(&parameter.name));
    match left {
        [result] => result.is(RESULT),
        [Term::Word(view), beside @ .., result] => {
            let whole = views.get(view).is_some_and(|one| {
                one.beside == beside.len() && (!one.valueless || function.result.starts_with("Result<(), "))
            });
            result.is(RESULT) && whole && to_be_read(view) && beside.iter().all(given)
        }
        _ => false,
    }
}

/// The first places of a lent buffer, as many as the answer says: all that an operation tells of where it puts so much and no more.
fn front(parameter: &str) -> Vec<Term> {
    vec![Term::word("Rattle.std.specs.Prelude#take"), Term::word(RESULT), after(parameter)]
}

/// Holds an operation to its row.
fn operation<'a>(row: &Row, sources: &'a [Source], views: &BTreeMap<String, View>) -> Result<Operation<'a>, String> {
    let (function, scope) = public(row.name, sources, Stand::Operation)?;
    let ensured = ensured(function, &scope)?;
    let mut wanted = Vec::new();
    for text in &row.contract {
        wanted.push(scope.equation(text).map_err(|what| format!("{PAGE}: {what}"))?);
    }
    // the page itself may not leave out the answer or a lent parameter, nor speak of something else
    let answer = wanted.iter().find(|one| is_answer(&one.left, function, views));
    let mut sides = vec![answer.map_or(vec![Term::word(RESULT)], |one| one.left.clone())];
    let lent = function.parameters.iter().filter(|parameter| parameter.way == Way::Lent);
    sides.extend(lent.map(|parameter| {
        let front = front(&parameter.name);
        if wanted.iter().any(|one| one.left == front) {
            front
        } else {
            vec![after(&parameter.name)]
        }
    }));
    for side in &sides {
        let Some(one) = wanted.iter().find(|one| one.left == *side) else {
            return Err(format!("{PAGE} has no equation for {}", words(side)));
        };
        match ensured.iter().find(|other| other.left == *side) {
            None => return Err(format!("it ensures nothing of {}", words(side))),
            Some(other) if other != one => {
                let (found, said) = (words(&other.right), words(&one.right));
                return Err(format!("by its contract {} is `{found}`, and {PAGE} says `{said}`", words(side)));
            }
            Some(_) if !names(&one.right).contains(row.definition) => {
                return Err(format!("{} is {}, which is not {}", words(side), named(&one.right), row.definition));
            }
            Some(_) if names(&one.right).iter().any(|name| !to_be_read(name)) => {
                return Err(format!("{} is {}, which no reader has read", words(side), named(&one.right)));
            }
            Some(_) => {}
        }
    }
    if wanted.len() != sides.len() || ensured.len() != sides.len() {
        return Err(
            "one equation for the answer and one for each lent parameter is wanted, here and on the page".into()
        );
    }
    let answer = wanted.swap_remove(wanted.iter().position(|one| one.left == sides[0]).unwrap_or(0)).right;
    let lent = function.parameters.iter().filter_map(|parameter| {
        let one = wanted.iter().find(|one| one.left == [after(&parameter.name)])?;
        Some((parameter.name.clone(), one.right.clone()))
    });
    let lent = lent.collect();
    Ok(Operation { function, answer, lent })
}

/// Holds a door to its operation: its export, or the function of that name in a library of doors.
fn hold(door: &Door, name: &str, operation: &Operation, sources: &[Source], stand: Stand) -> Result<(), String> {
    let (function, scope) = public(name, sources, stand)?;
    let mut ensured = ensured(function, &scope)?;
    let lent = function.parameters.iter().filter(|parameter| parameter.way == Way::Lent);
    let lent: BTreeSet<&str> = lent.map(|parameter| parameter.name.as_str()).collect();
    if lent != door.written {
        return Err(format!("it may write {lent:?}, and by the header {:?}", door.written));
    }
    let mut take = |side: Term| match ensured.iter().position(|one| one.left == [side.clone()]) {
        Some(at) => Ok(ensured.swap_remove(at).right),
        None => Err(format!("it ensures nothing of {}", words(&[side]))),
    };
    let status = take(Term::word(RESULT))?;
    if !operation.lent.is_empty() {
        // the operation is lent the buffers itself: its door promises of each what it does
        if status != operation.answer || status.last().and_then(field) != Some(".status") {
            return Err(format!(
                "its status is {}, where its operation's is {}",
                words(&status),
                words(&operation.answer)
            ));
        }
        for name in &lent {
            let held = take(after(name))?;
            if operation.lent.get(*name) != Some(&held) {
                return Err(format!("{name} afterwards is {}, which its operation does not ensure", words(&held)));
            }
        }
        return match ensured.first() {
            None => Ok(()),
            Some(one) => Err(format!("it ensures besides that {} is {}", words(&one.left), named(&one.right))),
        };
    }
    let mut fitting = Fitting { operation, function, parts: BTreeMap::new() };
    let right = match door.refuses {
        true => fitting.parts_of(&status).is_some_and(|parts| parts == [".status"]),
        false => status == [Term::word("0")],
    };
    if !right {
        return Err(format!(
            "its status is {}, where its operation answers {}",
            named(&status),
            named(&operation.answer)
        ));
    }
    let mut seen = BTreeSet::new();
    for name in &lent {
        let held = take(after(name))?;
        let parts = match (&held[..], door.refuses) {
            ([lent, result, before, Term::Group(inner)], true)
                if lent.is(LENT) && result.is(RESULT) && before.is(name) =>
            {
                match &inner[..] {
                    // two forms of a part are two parts
                    [form, Term::Group(inner)] if FORMS.iter().any(|one| form.is(one)) => {
                        let mut parts = fitting.parts_of(inner).filter(|parts| !parts.is_empty());
                        parts.iter_mut().for_each(|parts| parts.extend(word(form).map(String::from)));
                        parts
                    }
                    inner => fitting.parts_of(inner),
                }
            }
            (held, false) => fitting.parts_of(held),
            _ => None,
        };
        match parts {
            Some(parts) if parts.iter().all(|part| part != ".status") && (!parts.is_empty() || !door.refuses) => {
                if !seen.insert(parts) {
                    return Err(format!("{name} afterwards is what another buffer holds"));
                }
            }
            _ => {
                let answer = named(&operation.answer);
                return Err(format!("{name} afterwards is {}, which is no part of {answer}, by `lent`", named(&held)));
            }
        }
    }
    match ensured.first() {
        None => Ok(()),
        Some(one) => Err(format!("it ensures besides that {} is {}", words(&one.left), named(&one.right))),
    }
}

/// How a door's equations have what the operation's has.
struct Fitting<'a> {
    operation: &'a Operation<'a>,
    function: &'a Function,
    /// What the operation takes whole and the door in parts.
    parts: BTreeMap<String, Term>,
}

impl Fitting<'_> {
    /// The parts that a term takes of the operation's answer: `[".set", ".a"]` of `E .set .a`.
    fn parts_of(&mut self, term: &[Term]) -> Option<Vec<String>> {
        let answer = self.operation.answer.clone();
        let (whole, parts) = term.split_at_checked(answer.len())?;
        if !answer.iter().zip(whole).all(|(wanted, found)| self.same(wanted, found)) {
            return None;
        }
        parts.iter().map(|part| Some(field(part)?.to_string())).collect()
    }

    fn same(&mut self, wanted: &Term, found: &Term) -> bool {
        let door_has = |name: &str| self.function.parameters.iter().any(|parameter| parameter.name == name);
        match (wanted, found) {
            (Term::Word(name), Term::Group(inner)) => {
                let whole = self.operation.function.parameters.iter().any(|parameter| parameter.name == *name);
                let built = match &inner[..] {
                    [Term::Word(by), rest @ ..] => {
                        let file = by.strip_prefix(DOORS).and_then(|of| of.split_once('/'));
                        file.is_some_and(|(_, path)| path.starts_with("specs/"))
                            && rest.iter().all(|one| word(one).is_some_and(door_has))
                    }
                    _ => false,
                };
                whole && !door_has(name) && built && self.parts.entry(name.clone()).or_insert(found.clone()) == found
            }
            (Term::Word(name), Term::Word(other)) => name == other,
            (Term::Group(one), Term::Group(other)) => {
                one.len() == other.len() && one.iter().zip(other).all(|(one, other)| self.same(one, other))
            }
            (Term::Group(_), Term::Word(_)) => false,
        }
    }
}

fn word(term: &Term) -> Option<&str> {
    match term {
        Term::Word(word) => Some(word),
        Term::Group(_) => None,
    }
}

/// A projection, as `.status`.
fn field(term: &Term) -> Option<&str> {
    let name = word(term)?;
    let rest = name.strip_prefix('.')?;
    (!rest.is_empty() && rest.chars().all(|c| c.is_alphanumeric() || c == '_')).then_some(name)
}

/// The imported names in a term, each with its file.
fn names(terms: &[Term]) -> BTreeSet<&str> {
    terms
        .iter()
        .flat_map(|term| match term {
            Term::Word(word) => BTreeSet::from_iter(Some(word.as_str()).filter(|word| word.contains('#'))),
            Term::Group(inner) => names(inner),
        })
        .collect()
}

/// Whether a contract may rest on a name: not on one of a proof, nor on one of the code's own in specs/inner.
fn to_be_read(name: &str) -> bool {
    !name.starts_with("crates/") || name.contains("/specs/") && !name.contains("/specs/inner/")
}

/// A term as a reader knows it: an imported name without its file.
fn words(terms: &[Term]) -> String {
    let one = |term: &Term| match term {
        Term::Word(word) => word.rsplit('#').next().unwrap_or(word).to_string(),
        Term::Group(inner) => format!("({})", words(inner)),
    };
    terms.iter().map(one).collect::<Vec<_>>().join(" ")
}

/// The same, with the file of each imported name.
fn named(terms: &[Term]) -> String {
    format!("`{}` ({})", words(terms), Vec::from_iter(names(terms)).join(", "))
}
