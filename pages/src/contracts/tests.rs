//! A sample holds; altered in one place, it is found out. So is the repository with any one `ensures` left out.

use super::*;
use crate::altering;
use crate::args::top;

const SAMPLE: &str = "
| operation | definition | contract | theorem |
|---|---|---|---|
| `halve` | `crates/half/specs/Half.antt#halved` | `result ≡ halved (pair a way) mem` | .. |

| form | definition | contract |
|---|---|---|
| `halve_lent` | `crates/half/specs/Half.antt#halved` | `result ≡ told (halved way mem)`, `mem.new ≡ (halved way mem).mem` |
| `fill` | `crates/half/specs/Fill.antt#filled` | `result ≡ (filled way out).status`, `out.new ≡ (filled way out).out` |
| `put` | `crates/half/specs/Fill.antt#spelt` | `result ≡ length (spelt way)`, `take result out.new ≡ spelt way` |
| `rest` | `crates/half/specs/Rest.antt#resting` | `result ≡ resting` |
| `new_mem` | `crates/half/specs/Rest.antt#new_mem` | `result ≡ new_mem` |
";

const OPERATIONS: &str = "
ghost use Rattle.std.specs.Prelude.{◌≡◌};
ghost use Rattle.half.specs.Half.{halved, pair, told};
ghost use Rattle.std.specs.Prelude.{length, take};
ghost use Rattle.half.specs.Fill.{filled, spelt};
ghost use Rattle.half.specs.Rest.{resting, new_mem};

impl Mem {
    pub fn new() -> Self
        ensures { result ≡ new_mem }
    {
    }
}

pub fn halve(a: &[f32], way: u32, mem: Mem) -> Halved
    ensures { result ≡ halved (pair a.now way) mem }
{
}

pub fn halve_lent(way: u32, mem: &mut Mem) -> Told
    ensures { (result ≡ told (halved way mem.old)) × (mem.new ≡ (halved way mem.old).mem) }
{
}

pub fn fill(way: u32, out: &mut [f32]) -> u32
    ensures status { result ≡ (filled way out.old).status }
    ensures out { out.new ≡ (filled way out.old).out }
{
}

pub fn put(way: u32, out: &mut [u8]) -> usize
    ensures long { result ≡ length (spelt way) }
    ensures front { take result out.new ≡ spelt way }
{
}

pub fn rest() -> [f32; 10]
    ensures { result ≡ resting }
{
}
";

// `r` was the word for the result once, and is a buffer here
const EXPORTS: &str = r#"
ghost use Rattle.std.specs.Prelude.{◌≡◌};
ghost use Rattle.half.specs.Half.{halved, pair};
ghost use Rattle.half.specs.Fill.{filled};
ghost use Rattle.half.specs.Rest.{resting, new_mem};
ghost use Rattle.c_api.specs.Lent.{lent, flag};
ghost use Rattle.c_api.specs.Memory.{memory};
ghost use Rattle.c_api_frame.specs.Frame.{lags, factors};

#[unsafe(no_mangle)]
pub extern "C" fn g7231_bare_halve(a: &[f32], way: u32, r: &mut [f32; 4], data: &mut [f32; 4], lag: &mut [u32; 4], factor: &mut [f32; 4], yes: &mut u32) -> u32
    ensures status { result ≡ (halved (pair a.now way) (memory r.old «data».old)).status }
    ensures low { r.new ≡ lent result r.old (halved (pair a.now way) (memory r.old «data».old)).mem.low }
    ensures high { «data».new ≡ lent result «data».old (halved (pair a.now way) (memory r.old «data».old)).mem.high }
    ensures lags { lag.new ≡ lent result lag.old (lags (halved (pair a.now way) (memory r.old «data».old)).settings) }
    ensures factors { factor.new ≡ lent result factor.old (factors (halved (pair a.now way) (memory r.old «data».old)).settings) }
    ensures told { yes.new ≡ lent result yes.old (flag (halved (pair a.now way) (memory r.old «data».old)).yes) }
{
    half_doors::g7231_bare_halve(a, way, r, data, lag, factor, yes)
}

// its operation is lent the buffer itself
#[unsafe(no_mangle)]
pub extern "C" fn g7231_fill(way: u32, out: &mut [f32]) -> u32
    ensures status { result ≡ (filled way out.old).status }
    ensures out { out.new ≡ (filled way out.old).out }
{
    half_doors::g7231_fill(way, out)
}

#[unsafe(no_mangle)]
pub extern "C" fn g7231_rest(set: &mut [f32; 10]) -> u32
    ensures status { result ≡ 0 }
    ensures lines { set.new ≡ resting }
{
    half_doors::g7231_rest(set)
}

#[unsafe(no_mangle)]
pub extern "C" fn g7231_bare_new_mem(low: &mut [f32; 4]) -> u32
    ensures done { result ≡ 0 }
    ensures lines { low.new ≡ new_mem.low }
{
    half_doors::g7231_bare_new_mem(low)
}
"#;

/// The library of the same doors: its functions are not exported, and do what they promise themselves.
fn library() -> String {
    let plain = EXPORTS.replace("#[unsafe(no_mangle)]\npub extern \"C\" fn", "pub fn");
    plain.lines().filter(|line| !line.contains("half_doors::")).map(|line| format!("{line}\n")).collect()
}

const TABLE: &str = r#"
    Door {
        name: "halve",
        parameters: &[
            Parameter { name: "a", way: Way::Read, element: Element::F32, many: Many::Slice(4), role: "speech" },
            Parameter { name: "r", way: Way::Kept, element: Element::F32, many: Many::Fixed(4), role: "speech" },
            Parameter { name: "data", way: Way::Kept, element: Element::F32, many: Many::Fixed(4), role: "speech" },
            Parameter { name: "lag", way: Way::Made, element: Element::U32, many: Many::Fixed(4), role: "" },
            Parameter { name: "factor", way: Way::Made, element: Element::F32, many: Many::Fixed(4), role: "" },
            Parameter { name: "yes", way: Way::Made, element: Element::U32, many: Many::One, role: "" },
        ],
        refusals: &[1, 5],
        safe: safe_halve,
        bare: bare_halve,
    },
    Door {
        name: "fill",
        parameters: &[
            Parameter { name: "out", way: Way::Made, element: Element::F32, many: Many::Slice(4), role: "" },
        ],
        refusals: &[1],
        safe: safe_fill,
        bare: safe_fill,
    },
    Door {
        name: "rest",
        parameters: &[
            Parameter { name: "set", way: Way::Made, element: Element::F32, many: Many::Fixed(10), role: "" },
        ],
        refusals: &[],
        safe: safe_rest,
        bare: safe_rest,
    },
    Door {
        name: "new_mem",
        parameters: &[
            Parameter { name: "low", way: Way::Made, element: Element::F32, many: Many::Fixed(4), role: "" },
        ],
        refusals: &[],
        safe: safe_new_mem,
        bare: bare_new_mem,
    },
"#;

const VIEWS: &str = "
use Rattle.half.specs.Half.{as_halved, as_kept, as_bare, as_held}
use Rattle.answers.specs.Claim.{Whole}
use Rattle.half.proofs.Half.{as_proved}

pub halved_whole : Whole as_halved
halved_whole = refl

pub kept_whole : (mem : Mem) → Whole (as_kept mem)
kept_whole mem = refl

pub bare_whole : Whole (as_bare {A = ⊤})
bare_whole = refl

pub held_whole : Held → Whole as_held
held_whole h = refl

pub proved_whole : Whole as_proved
proved_whole = refl
";

const HALF: &str = "crates/half/src/lib.rt";
const C_API: &str = "crates/c_api/src/lib.rt";
const C_API_C: &str = "crates/c_api_c/src/lib.rt";

fn faults(page: &str, table: &str, operations: &str, library: &str, exports: &str) -> Vec<String> {
    faults_in(page, table, &[(HALF, operations), (C_API, library), (C_API_C, exports)])
}

fn faults_in(page: &str, table: &str, texts: &[(&str, &str)]) -> Vec<String> {
    let texts = texts.iter().map(|(path, text)| (path.to_string(), text.to_string()));
    check(page, table, &texts.collect(), VIEWS).faults
}

/// Alters one place of one of the texts, and looks for words in what is then said. A fault of an export is looked for in the library of doors
/// too, where it is named as the library's.
fn found(text: &str, old: &str, new: &str, words: &str) {
    let with = altering(text, old, new);
    let library = library();
    let told = |said: Vec<String>, words: &str| {
        assert!(said.iter().any(|fault| fault.contains(words)), "{old} -> {new}: {said:?}");
    };
    told(faults(&with(SAMPLE), &with(TABLE), &with(OPERATIONS), &library, &with(EXPORTS)), words);
    if text == EXPORTS {
        let words = match words.split_once(':') {
            Some((name, what)) => format!("{name} in its library:{what}"),
            None => words.to_string(),
        };
        told(faults(SAMPLE, TABLE, OPERATIONS, &altering(&library, old, new)(&library), EXPORTS), &words);
    }
}

#[test]
fn the_sample_holds() {
    assert_eq!(faults(SAMPLE, TABLE, OPERATIONS, &library(), EXPORTS), [""; 0]);
}

#[test]
fn doors_stand_in_any_crate_named_for_it() {
    let (library, frame, frame_c) = (&library(), "crates/c_api_frame/src/lib.rt", "crates/c_api_frame_c/src/lib.rt");
    let said = |texts: &[(&str, &str)]| faults_in(SAMPLE, TABLE, &[&[(HALF, OPERATIONS)], texts].concat());
    let told =
        |said: Vec<String>, words: &str| assert!(said.iter().any(|fault| fault.contains(words)), "{words}: {said:?}");
    assert_eq!(said(&[(frame, library), (frame_c, EXPORTS)]), [""; 0]);
    assert_eq!(said(&[(C_API, library), (frame_c, EXPORTS)]), [""; 0]);
    let twice = "g7231_fill: there are 2 public functions";
    told(said(&[(C_API, library), (C_API_C, EXPORTS), (frame_c, EXPORTS)]), twice);
    let twice = "g7231_fill in its library: there are 2 public functions";
    told(said(&[(C_API, library), (frame, library), (C_API_C, EXPORTS)]), twice);
    let (none, none_in) =
        ("g7231_fill: there are 0 public functions", "g7231_fill in its library: there are 0 public functions");
    told(said(&[(C_API, library), ("crates/more_c_api_c/src/lib.rt", EXPORTS)]), none);
    told(said(&[("crates/more_c_api/src/lib.rt", library), (C_API_C, EXPORTS)]), none_in);
    // what the library exports stands in no crate of exports, and the other way round
    told(said(&[(C_API, EXPORTS)]), none);
    told(said(&[(C_API_C, EXPORTS)]), none_in);
}

#[test]
fn a_door_that_c_cannot_call() {
    let head = |mark: &str| format!("{mark}g7231_fill(");
    let plain = |old: &str, new: &str| {
        let exports = altering(EXPORTS, &head(old), &head(new))(EXPORTS);
        let said = faults(SAMPLE, TABLE, OPERATIONS, &library(), &exports);
        assert_eq!(said, ["g7231_fill: C cannot call it by its name"], "{new}");
    };
    plain("#[unsafe(no_mangle)]\npub extern \"C\" fn ", "pub fn ");
    plain("#[unsafe(no_mangle)]\npub extern \"C\" fn ", "pub extern \"C\" fn ");
    plain("pub extern \"C\" fn ", "pub fn ");
}

#[test]
fn a_program_has_no_operations() {
    let library = library();
    let three = [(HALF, OPERATIONS), (C_API, library.as_str()), (C_API_C, EXPORTS)];
    let said = |more: &[(&str, &str)]| faults_in(SAMPLE, TABLE, &[&three, more].concat());
    let same = "pub fn halve(a: u32) -> bool {\n}\n";
    assert_eq!(said(&[("crates/play/src/main.rt", ""), ("crates/play/src/more.rt", same)]), [""; 0]);
    let library = said(&[("crates/play/src/lib.rt", ""), ("crates/play/src/more.rt", same)]);
    assert!(library.iter().any(|fault| fault.contains("there are 2 public functions")), "{library:?}");
}

/// The sample where `halve` answers a `Result`, by a view of its answer, and what is said of it.
fn seen(view: &str, import: &str) -> Vec<String> {
    let page = altering(SAMPLE, "`result ≡ halved (pair a way) mem`", &format!("`{view} ≡ halved (pair a way) mem`"))(
        SAMPLE,
    );
    let clause = format!("ensures {{ {view} ≡ halved (pair a.now way) mem }}");
    let is = "ensures { result ≡ halved (pair a.now way) mem }";
    let operations = altering(OPERATIONS, is, &clause)(OPERATIONS);
    faults(&page, TABLE, &format!("{import}\n{operations}"), &library(), EXPORTS)
}

#[test]
fn an_answer_that_is_a_result() {
    let import = "ghost use Rattle.half.specs.Half.{as_halved, as_kept, as_bare, as_held, blind};";
    assert_eq!(seen("as_halved result", import), [""; 0]);
    assert_eq!(seen("as_kept mem result", import), [""; 0]);
    let refused = |said: Vec<String>| {
        let wanted = "no equation for the result";
        assert!(said.iter().any(|fault| fault.contains(wanted)), "{said:?}");
    };
    // by a view that nobody has shown to forget nothing, of any answer and with no condition
    refused(seen("blind result", import));
    refused(seen("blind mem result", import));
    refused(seen("as_held result", import));
    // by one that shows a status alone, of an answer with a value
    refused(seen("as_bare result", import));
    // by a name that no reader has read, by what is no name of specs/, and of something that is not given
    refused(seen("as_proved result", "ghost use Rattle.half.proofs.Half.{as_proved};"));
    refused(seen("as_halved result", "ghost use Rattle.half.specs.inner.Half.{as_halved};"));
    refused(seen("mem result", import));
    refused(seen("as_kept 0 result", import));
    refused(seen("as_halved mem result", import));
    refused(seen("as_kept result", import));
    refused(seen("as_halved result mem", import));
}

#[test]
fn an_answer_without_a_value() {
    let import = "ghost use Rattle.half.specs.Half.{as_bare};";
    let is = "`result ≡ (filled way out).status`, `out.new ≡ (filled way out).out`";
    let seen = "`as_bare result ≡ (filled way out).status`, `out.new ≡ (filled way out).out`";
    let page = altering(SAMPLE, is, seen)(SAMPLE);
    let told = |kind: &str| {
        let operations = altering(
            OPERATIONS,
            "fill(way: u32, out: &mut [f32]) -> u32",
            &format!("fill(way: u32, out: &mut [f32]) -> {kind}"),
        )(OPERATIONS);
        let clause = "ensures status { result ≡ (filled way out.old).status }";
        let operations =
            altering(&operations, clause, "ensures status { as_bare result ≡ (filled way out.old).status }")(
                &operations,
            );
        faults(&page, TABLE, &format!("{import}\n{operations}"), &library(), EXPORTS)
    };
    assert_eq!(told("Result<(), Refusal>"), [""; 0]);
    for kind in ["Result<u32, Refusal>", "u32"] {
        assert!(told(kind).iter().any(|fault| fault.contains("no equation for the result")), "{kind}");
    }
}

#[test]
fn an_operation_that_says_less() {
    let is = "result ≡ halved (pair a.now way) mem";
    let whole = format!("    ensures {{ {is} }}\n");
    found(OPERATIONS, &whole, "", "halve: it ensures nothing");
    found(OPERATIONS, is, "Unit {0}", "halve: `Unit {0}` is no equation");
    found(
        OPERATIONS,
        is,
        "result.status ≡ (halved (pair a.now way) mem).status",
        "halve: it ensures nothing of the result",
    );
    found(OPERATIONS, is, "result ≡ result", "halve: by its contract the result is `the result`");
    found(
        OPERATIONS,
        is,
        "result ≡ halved (pair a.now 0) mem",
        "halve: by its contract the result is `halved (pair a 0) mem`",
    );
    for weaker in [format!("way ≡ 0 → {is}"), format!("(way ≡ 0) → ({is})"), format!("(result ≡ result) ⊎ ({is})")]
    {
        found(OPERATIONS, is, &weaker, "halve: ");
    }
    for more in ["ensures more { way ≡ way }", "assumes { way ≡ way }", "ensures more { result ≡ result }"] {
        found(OPERATIONS, &whole, &format!("{whole}    {more}\n"), "halve: ");
    }
    // clauses of the kinds that hold more than a fact
    for (other, words) in [
        (format!("    ensures* {{ ⌜ {is} ⌝ }}\n"), "ensures*` is not understood"),
        (format!("    ensures {{ ⌜ {is} ⌝ }}\n"), "` is no equation"),
        (format!("    ensures {{ let other = mem in {is} }}\n"), "halve: it ensures nothing of the result"),
        (format!("    ensures {{ (mem : Mem) → {is} }}\n"), "halve: it ensures nothing of the result"),
    ] {
        found(OPERATIONS, &whole, &other, words);
    }
    let second = " × (mem.new ≡ (halved way mem.old).mem)";
    found(OPERATIONS, second, "", "halve_lent: it ensures nothing of mem afterwards");
    found(OPERATIONS, "mem.old).mem", "mem.new).mem", "halve_lent: by its contract mem afterwards is");
    // another part, a part of a part, and a part that does not stand behind its whole
    for part in [").out", ").mem.mem"] {
        found(OPERATIONS, "mem.old).mem", &format!("mem.old{part}"), "halve_lent: by its contract mem afterwards is");
    }
    found(OPERATIONS, "mem.old).mem", "mem.old.mem)", "halve_lent: by its contract mem afterwards is");
    found(OPERATIONS, "mem.old).mem", "mem.old) .mem", "is no equation");
    found(OPERATIONS, "pub fn halve_lent", "fn halve_lent", "halve_lent: there are 0 public functions");
    found(OPERATIONS, "impl Mem", "impl Other", "new_mem: there are 0 public functions");
}

#[test]
fn a_condition() {
    for clause in ["requires { way ≡ 0 }", "requires named { way ≡ 0 }", "ghost top: { ℕ }"] {
        let before = |head: &str| format!("{head}    {clause}\n");
        found(OPERATIONS, "-> Halved\n", &before("-> Halved\n"), "halve: it has a clause");
        found(
            EXPORTS,
            "yes: &mut u32) -> u32\n",
            &before("yes: &mut u32) -> u32\n"),
            "g7231_bare_halve: it has a clause",
        );
        found(EXPORTS, ".mem.low }\n", &before(".mem.low }\n"), "g7231_bare_halve: it has a clause");
    }
}

#[test]
fn an_open_type() {
    let open = "halve: it leaves a type open";
    found(OPERATIONS, "fn halve(", "fn halve<W: Wait>(", open);
    found(OPERATIONS, "fn halve(", "fn halve<F: Fn(u32) -> u32>(", open);
    found(OPERATIONS, "fn halve(", "fn halve(w: &impl Wait, ", open);
    found(OPERATIONS, "-> Halved\n", "-> Halved\nwhere\n    Mem: Wait,\n", open);
    found(EXPORTS, "fn g7231_fill(", "fn g7231_fill<W: Wait>(", "g7231_fill: it leaves a type open");
    // which others may, since nobody's contract is on the page
    let more = |head: &str| format!("{OPERATIONS}\n{head}\n    ensures {{ result ≡ way }}\n{{\n}}\n");
    for head in ["fn most<T: Ord>(way: T) -> T", "pub fn most<T>(way: T) -> T\nwhere\n    T: Ord,\n"] {
        assert_eq!(faults(SAMPLE, TABLE, &more(head), &library(), EXPORTS), [""; 0], "{head}");
    }
}

#[test]
fn another_definition() {
    let other = "halve: the result is `halved (pair a way) mem` (crates/half/specs/Other.antt#halved";
    found(OPERATIONS, "specs.Half.{halved, pair, told}", "specs.Other.{halved, pair, told}", other);
    found(OPERATIONS, "{halved, pair", "{quartered as halved, pair", "crates/half/specs/Half.antt#quartered");
    found(
        OPERATIONS,
        "Rattle.std.specs.Prelude.{◌≡◌}",
        "Rattle.half.specs.Half.{◌≡◌}",
        "imports ◌≡◌ from crates/half/specs/Half.antt",
    );
    let also = |what: &str| format!("Prelude.{{◌≡◌, {what}}}");
    found(OPERATIONS, "Prelude.{◌≡◌}", &also("◌≡◌ as ◌×◌"), "imports ◌×◌ from Rattle.std.specs.Prelude");
    found(OPERATIONS, "Prelude.{◌≡◌}", &also("zero as result"), "imports result from Rattle.std.specs.Prelude");
    let inner = "Half.{halved, told};\nghost use Rattle.half.specs.inner.Half.{pair}";
    found(OPERATIONS, "Half.{halved, pair, told}", inner, "which no reader has read");
    found(OPERATIONS, "halve(a: &[f32]", "halve(halved: Mem, a: &[f32]", "halve: ");
    found(OPERATIONS, "halve(a: &[f32]", "halve(result: Mem, a: &[f32]", "halve: a parameter is named result");
    found(EXPORTS, "Rattle.half.specs.Half", "Rattle.half.specs.Other", "g7231_bare_halve: its status is");
    found(EXPORTS, "Rattle.c_api.specs.Lent", "Rattle.half.specs.Half", "g7231_bare_halve: data afterwards");
    found(EXPORTS, "Rattle.c_api.specs.Memory", "Rattle.half.specs.Half", "g7231_bare_halve: its status is");
    found(EXPORTS, "set.new ≡ resting", "set.new ≡ halved", "g7231_rest: set afterwards");
}

#[test]
fn a_door_that_says_less() {
    for line in EXPORTS.lines().filter(|line| line.contains("ensures")) {
        found(EXPORTS, &format!("{line}\n"), "", ": it ensures nothing of ");
        let (head, _) = line.split_once('{').unwrap();
        found(EXPORTS, line, &format!("{head}{{ Unit }}"), "is no equation");
    }
    found(EXPORTS, "status { result ≡ 0 }", "status { result ≡ result }", "g7231_rest: its status is");
    found(EXPORTS, ").yes) }", ").status) }", "g7231_bare_halve: yes afterwards");
    found(EXPORTS, ".mem.high }", ".mem.low }", "g7231_bare_halve: r afterwards is what another buffer holds");
    found(EXPORTS, "(factors (", "(lags (", "g7231_bare_halve: lag afterwards is what another buffer holds");
    found(EXPORTS, "(factors (", "(memory (", "g7231_bare_halve: factor afterwards");
    found(EXPORTS, "≡ new_mem.low", "≡ new_mem.status", "g7231_bare_new_mem: low afterwards");
    found(EXPORTS, "lent result r.old", "lent 0 r.old", "g7231_bare_halve: r afterwards");
    found(EXPORTS, "lent result r.old", "lent result r.new", "g7231_bare_halve: r afterwards");
    found(EXPORTS, "«data».old)).status", "r.old)).status", "g7231_bare_halve: ");
}

#[test]
fn a_door_of_an_operation_that_is_lent_the_buffer() {
    let of = |s: &str, part: &str| format!("{s} ≡ (filled way out.old){part}");
    let says = |old: String, new: String, words: &str| found(EXPORTS, &old, &new, words);
    says(of("result", ".status"), of("result", ".out"), "g7231_fill: its status is");
    says(of("result", ".status"), "result ≡ 0".into(), "g7231_fill: its status is");
    let held = "out.new";
    says(of(held, ".out"), of(held, ".status"), "g7231_fill: out afterwards is");
    says(of(held, ".out"), format!("{held} ≡ out.old"), "g7231_fill: out afterwards is");
    let line = format!("    ensures out {{ {} }}\n", of(held, ".out"));
    says(line, String::new(), "g7231_fill: it ensures nothing of out afterwards");
}

#[test]
fn the_front_of_a_buffer() {
    let front = "    ensures front { take result out.new ≡ spelt way }\n";
    found(OPERATIONS, front, "", "put: it ensures nothing of take the result out afterwards");
    found(OPERATIONS, "take result out.new", "take way out.new", "put: it ensures nothing of take the result");
    found(OPERATIONS, "length (spelt way)", "length (spelt result)", "put: by its contract the result is");
    found(SAMPLE, ", `take result out.new ≡ spelt way`", "", "put: docs/TRUST.md has no equation for out afterwards");
}

#[test]
fn what_the_page_or_the_header_leaves_out() {
    let row = SAMPLE.lines().find(|line| line.starts_with("| `halve`")).unwrap();
    found(SAMPLE, row, "", "g7231_bare_halve: docs/TRUST.md has no row");
    found(SAMPLE, "`result ≡ halved (pair a way) mem`", "", "halve: docs/TRUST.md has no equation for the result");
    found(SAMPLE, ", `mem.new ≡ (halved way mem).mem`", "", "halve_lent: docs/TRUST.md has no equation for mem");
    found(TABLE, "refusals: &[1, 5]", "refusals: &[]", "g7231_bare_halve: its status is");
    found(
        TABLE,
        "refusals: &[],\n        safe: safe_rest",
        "refusals: &[5],\n        safe: safe_rest",
        "g7231_rest: its status",
    );
    found(TABLE, "\"yes\", way: Way::Made", "\"yes\", way: Way::Read", "g7231_bare_halve: it may write");
}

#[test]
fn the_repository() {
    let top = top();
    let (page, table, texts, views) = (read(&top.join(PAGE)), described(&top), sources(&top), views(&top));
    // a fault that is there already is for the program to tell
    let faults = check(&page, &table, &texts, &views).faults;
    let named: Vec<&str> = rows(&page).iter().map(|row| row.name).collect();
    let mut left_out = 0;
    for (path, text) in &texts {
        let mut name = "";
        for line in text.lines() {
            name = line.find("fn ").map_or(name, |at| line[at + 3..].split('(').next().unwrap_or(""));
            let listed = name.starts_with("g7231_") || named.contains(&name);
            let told = faults.iter().any(|fault| fault.contains(name));
            if listed && !told && line.trim_start().starts_with("ensures") {
                let mut altered = texts.clone();
                altered.insert(path.clone(), text.replace(&format!("{line}\n"), ""));
                assert_ne!(check(&page, &table, &altered, &views).faults, faults, "{path}: {line}");
                left_out += 1;
            }
        }
    }
    assert!(!faults.is_empty() || left_out > named.len(), "{left_out}");
}
