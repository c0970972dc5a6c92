//! Makes the published Rust callable, and the library that it is compared with.
//!
//! - The Rust: tables.rs, spec_tables.rs and spec_lsp.rs are taken whole, the items of `ITEMS` are cut out of
//!   encoder.rs by matching braces. `published` has their text as it stands. `ruled` has the same text with each
//!   call of cos, acos and log10 replaced by document 01's rule (`CALLS`). Each has the items of encoder.rs twice: with the
//!   Rust's own limit of lags, and as `encoder_82` with the gateway's cut in as a number (`SHORTER`). `spec_lsp_in` is
//!   spec_lsp.rs again as it stands, but for where its rows come from (`BUILT_IN`). All are written to cargo's output folder
//!   alone.
//! - The doors: `doors/make` prints their bindings and their table from include/g7231.h.
//! - The library: the archive that ./install wrote.
//!
//! Variables: G7231_RUST names the folder that holds src/encoder.rs, G7231_FOLDER the one that ./install wrote. One that
//! is named and missing fails the build, and so does a library that is nowhere; where the Rust's default folder is
//! missing the programs say so.

use std::env;
use std::fs;
use std::path::{Path, PathBuf};
use std::process::{exit, Command};

/// What is cut out of encoder.rs.
const ITEMS: [&str; 19] = [
    "const WSPEECH_HIST",
    "struct CombinedMem",
    "impl CombinedMem",
    "struct LpcSet",
    "fn lpc_analysis",
    "fn default_a",
    "fn weighting_taps",
    "fn weight_subframe",
    "fn open_loop_pitch",
    "struct HnsParams",
    "impl HnsParams",
    "fn harmonic_noise_shaping",
    "fn run_combined",
    "fn combined_impulse_response",
    "fn lpc_to_lsp",
    "fn cheby_roots",
    "fn lsp_to_lpc",
    "fn interpolate_lsp",
    "fn enforce_lsp_stability",
];

/// A call of the Rust's, or another piece of it, and what takes its place; it must stand exactly once in its item.
#[derive(Clone, Copy)]
struct Call {
    item: &'static str,
    old: &'static str,
    new: &'static str,
}

const CALLS: [Call; 6] = [
    Call {
        item: "fn lsp_freq_to_cosines",
        old: "(std::f32::consts::PI * f / 32_768.0).cos()",
        new: "crate::rule::cosine_of_frequency(f)",
    },
    Call {
        item: "fn lsp_cosines_to_freq",
        old: "c.clamp(-1.0, 1.0).acos() * 32_768.0 / std::f32::consts::PI",
        new: "crate::rule::frequency_of_cosine(c.clamp(-1.0, 1.0))",
    },
    Call {
        item: "fn cheby_roots",
        old: "(std::f64::consts::PI * i as f64 / GRID as f64).cos()",
        new: "crate::rule::grid_point(i)",
    },
    Call {
        item: "fn enforce_lsp_stability",
        old: "lsp_cos[i].clamp(-1.0, 1.0).acos()",
        new: "crate::rule::angle_of_cosine(lsp_cos[i].clamp(-1.0, 1.0))",
    },
    Call { item: "fn enforce_lsp_stability", old: "omega[i].cos()", new: "crate::rule::cosine_of_angle(omega[i])" },
    Call {
        item: "fn harmonic_noise_shaping",
        old: "-10.0 * (1.0 - ratio).log10() >= 2.0",
        new: "crate::rule::gate(1.0 - ratio)",
    },
];

/// Where the cut items have the limit of lags, and the numbers that request E6 has a gateway read there; no other place may
/// name it.
const SHORTER: [Call; 2] = [
    Call { item: "const WSPEECH_HIST", old: "PITCH_MAX + 3", new: "85" },
    Call { item: "fn open_loop_pitch", old: "PITCH_MIN..=PITCH_MAX", new: "PITCH_MIN..=82" },
];
const LIMIT: &str = "PITCH_MAX";

/// Where spec_lsp.rs has its rows from, and what brings in lent ones; it must stand exactly once.
const BUILT_IN: &str = "use crate::spec_tables::{LSP_DC_PREDICTED_FREQ_Q15, LspBand, lsp_codebook_entry};";
const LENT: &str =
    "use crate::own_rows::lsp_codebook_entry;\nuse crate::spec_tables::{LSP_DC_PREDICTED_FREQ_Q15, LspBand};";

fn main() {
    let here = PathBuf::from(env::var("CARGO_MANIFEST_DIR").unwrap());
    let out = PathBuf::from(env::var("OUT_DIR").unwrap());
    let top = here.parent().unwrap_or(&here);
    println!("cargo::rerun-if-changed=build.rs");
    doors(top, &out);
    library(top);
    rust(top, &here, &out);
}

fn fail(why: &str) -> ! {
    eprintln!("oracle: {why}");
    exit(1)
}

fn read(path: &Path) -> String {
    fs::read_to_string(path).unwrap_or_else(|e| fail(&format!("{}: {e}", path.display())))
}

fn write(path: &Path, text: &str) {
    fs::write(path, text).unwrap_or_else(|e| fail(&format!("{}: {e}", path.display())));
}

/// The path that a variable names, or the default; the flag tells which.
fn place(variable: &str, default: PathBuf) -> (PathBuf, bool) {
    println!("cargo::rerun-if-env-changed={variable}");
    match env::var_os(variable) {
        Some(named) if !named.is_empty() => (PathBuf::from(named), true),
        _ => (default, false),
    }
}

/// Writes the module of the doors: their types, their bindings and their table.
fn doors(top: &Path, out: &Path) {
    for name in ["doors", "include/g7231.h"] {
        println!("cargo::rerun-if-changed={}", top.join(name).display());
    }
    let mut text = read(&top.join("doors/door.rs"));
    for what in ["rust", "rust-table"] {
        let make = top.join("doors/make");
        match Command::new(&make).arg(what).output() {
            Ok(said) if said.status.success() => text += &String::from_utf8_lossy(&said.stdout),
            Ok(said) => fail(&format!("doors/make {what}: {}", String::from_utf8_lossy(&said.stderr).trim_end())),
            Err(why) => fail(&format!("{}: {why}", make.display())),
        }
    }
    write(&out.join("doors.rs"), &text);
}

/// Has the programs link the archive, and those of packages that take this one.
fn library(top: &Path) {
    let (folder, named) = place("G7231_FOLDER", top.join("target/g7231"));
    let archive = folder.join("lib/libg7231.a");
    println!("cargo::rerun-if-changed={}", archive.display());
    if !archive.is_file() {
        let why = if named { "G7231_FOLDER names that folder" } else { "./install makes it" };
        fail(&format!("there is no {}: {why}", archive.display()));
    }
    // A door of other parameters than the header's would be called all the same.
    let installed = folder.join("include/g7231.h");
    println!("cargo::rerun-if-changed={}", installed.display());
    if read(&installed) != read(&top.join("include/g7231.h")) {
        fail(&format!("{} is not include/g7231.h: ./install writes both it and the library", installed.display()));
    }
    println!("cargo::rustc-link-search=native={}", folder.join("lib").display());
    println!("cargo::rustc-link-lib=static=g7231");
}

/// Writes the modules `tables`, `spec_tables`, `spec_lsp_in`, `published` and `ruled`, where the Rust's source is.
fn rust(top: &Path, here: &Path, out: &Path) {
    println!("cargo::rustc-check-cfg=cfg(rust)");
    let (folder, named) = place("G7231_RUST", top.join("../shared/docs/src"));
    println!("cargo::rerun-if-changed={}", folder.display());
    let there = folder.join("src/encoder.rs").is_file();
    if named && !there {
        fail(&format!("G7231_RUST names {}, which has no src/encoder.rs", folder.display()));
    }
    println!("cargo::rustc-env=RUST_PATH={}", folder.display());
    if !there {
        return;
    }
    println!("cargo::rustc-cfg=rust");
    let source = |name: &str| {
        let path = folder.join("src").join(name);
        println!("cargo::rerun-if-changed={}", path.display());
        fs::canonicalize(&path).unwrap_or_else(|e| fail(&format!("{}: {e}", path.display())))
    };
    let spec_lsp = read(&source("spec_lsp.rs"));
    let encoder = read(&source("encoder.rs"));
    let reach = here.join("src/reach.rs");
    let mut whole = String::new();
    for name in ["tables", "spec_tables"] {
        whole += &format!("#[allow(dead_code)]\n#[path = {:?}]\npub mod {name};\n", source(&format!("{name}.rs")));
    }
    let over_lent_rows = out.join("spec_lsp_in.rs");
    write(&over_lent_rows, &put(&spec_lsp, BUILT_IN, LENT, "spec_lsp.rs"));
    whole += &format!("#[allow(dead_code, clippy::all)]\n#[path = {over_lent_rows:?}]\npub mod spec_lsp_in;\n");
    for ruled in [false, true] {
        let way = if ruled { "ruled" } else { "published" };
        let lsp = if ruled { replaced_in_file(&spec_lsp) } else { spec_lsp.clone() };
        let rules = if ruled { &CALLS[..] } else { &[] };
        let [mut cut, mut shorter] = [rules.to_vec(), [rules, &SHORTER].concat()].map(|calls| cut(&encoder, &calls));
        if ruled {
            for call in [".cos()", ".acos()", ".log10()"] {
                if [&lsp, &cut, &shorter].into_iter().any(|text| text.contains(call)) {
                    fail(&format!("a call of {call} in the Rust has no rule in CALLS"));
                }
            }
        }
        if shorter.contains(LIMIT) {
            fail(&format!("{LIMIT} stands in the Rust where SHORTER has no number for it"));
        }
        // The cut functions are private: a module below them can still see them.
        for text in [&mut cut, &mut shorter] {
            *text += &format!("#[path = {reach:?}]\npub mod reach;\n");
        }
        whole += &format!("pub mod {way} {{\n");
        for (name, text) in [("spec_lsp", &lsp), ("encoder", &cut), ("encoder_82", &shorter)] {
            let path = out.join(format!("{way}_{name}.rs"));
            write(&path, text);
            whole += &format!("    #[allow(dead_code, clippy::all)]\n    #[path = {path:?}]\n    pub mod {name};\n");
        }
        whole += "}\n";
    }
    write(&out.join("rust.rs"), &whole);
}

/// The items of encoder.rs, with new words in place of some.
fn cut(encoder: &str, calls: &[Call]) -> String {
    let mut text = "use crate::tables::*;\n".to_string();
    for item in ITEMS {
        text += &replaced(item, item_of(encoder, item), calls);
        text += "\n\n";
    }
    text
}

/// The text of one item, from its attributes to its closing brace or semicolon.
fn item_of<'a>(text: &'a str, item: &str) -> &'a str {
    let mut found = Vec::new();
    let mut at = 0;
    let mut attributes = None;
    for line in text.split_inclusive('\n') {
        let bare = line.strip_prefix("pub(crate) ").unwrap_or(line);
        let opens = bare.strip_prefix(item).is_some_and(|rest| rest.starts_with(['(', ' ', ':', '<']));
        if opens {
            found.push((attributes.unwrap_or(at), at));
        }
        attributes = if line.starts_with("#[") { attributes.or(Some(at)) } else { None };
        at += line.len();
    }
    match found[..] {
        [(start, head)] => &text[start..end_of(text, head, item)],
        _ => fail(&format!("the Rust has {} items that open with `{item}`, and one is wanted", found.len())),
    }
}

/// The end of the item whose head stands at `head`: its closing brace, or its semicolon where it has no brace.
/// Braces in comments, strings and character literals do not count.
fn end_of(text: &str, head: usize, item: &str) -> usize {
    let bytes = text.as_bytes();
    let (mut at, mut depth, mut square) = (head, 0usize, 0usize);
    while at < bytes.len() {
        match bytes[at] {
            b'/' if bytes.get(at + 1) == Some(&b'/') => {
                while at < bytes.len() && bytes[at] != b'\n' {
                    at += 1;
                }
            }
            b'"' => {
                at += 1;
                while at < bytes.len() && bytes[at] != b'"' {
                    at += if bytes[at] == b'\\' { 2 } else { 1 };
                }
            }
            // a character, and not a lifetime
            b'\'' if bytes.get(at + 1) == Some(&b'\\') => at += 3,
            b'\'' if bytes.get(at + 2) == Some(&b'\'') => at += 2,
            b'[' => square += 1,
            b']' => square -= 1,
            b';' if depth == 0 && square == 0 => return at + 1,
            b'{' => depth += 1,
            b'}' => {
                depth -= 1;
                if depth == 0 {
                    return at + 1;
                }
            }
            _ => {}
        }
        at += 1;
    }
    fail(&format!("the Rust's `{item}` has no end"))
}

/// The text of an item with new words in place of those of its calls.
fn replaced(item: &str, text: &str, calls: &[Call]) -> String {
    let mut text = text.to_string();
    for call in calls.iter().filter(|call| call.item == item) {
        text = put(&text, call.old, call.new, item);
    }
    text
}

/// The text of an item or a file with new words in place of old ones, which must stand in it once.
fn put(text: &str, old: &str, new: &str, place: &str) -> String {
    match text.matches(old).count() {
        1 => text.replace(old, new),
        n => fail(&format!("`{old}` stands {n} times in the Rust's `{place}`, and once is wanted")),
    }
}

/// The same over spec_lsp.rs, which is taken whole.
fn replaced_in_file(text: &str) -> String {
    let mut text = text.to_string();
    for item in ["fn lsp_freq_to_cosines", "fn lsp_cosines_to_freq"] {
        let old = item_of(&text, item).to_string();
        text = text.replace(&old, &replaced(item, &old, &CALLS));
    }
    text
}
