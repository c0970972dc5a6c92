//! The published Rust as a reference for the library.
//!
//! `shape` says what words an input and an answer have; `inputs` draws them, from what is `likely` and what is `special`,
//! and `doors` calls the library. `rule` is document 01's cosine, step, angle and gate rules; `reference` adds its
//! refusals to the Rust's functions. `chain` is a frame as request E2 has it, over any stages, and `frame` is it over
//! those. `own_rows` is the Rust over the code rows of request E5, and `row_file` a model of their file. `operations` ties
//! these together, `trial` holds a door's answer to the Rust's, `runner` does so turn by turn on several threads, and
//! `shrink` makes an input that shows a fault plain. `losses` is a model of the program of request E7, over the Rust's decoder,
//! and `loss_patterns` has what both are given. build.rs cuts the Rust out of its source; where that is missing nothing is
//! compared.

pub mod args;
pub mod both;
pub mod chain;
pub mod code_rows;
pub mod distances;
pub mod doors;
pub mod frame;
pub mod given;
#[path = "../../examples/rust/src/hash.rs"]
pub mod hash;
pub mod inputs;
pub mod likely;
pub mod line_coder;
pub mod loss_patterns;
pub mod losses;
pub mod makers;
pub mod operations;
#[cfg(rust)]
pub mod own_rows;
pub mod progress;
pub mod random;
pub mod reference;
pub mod row_file;
pub mod rule;
pub mod runner;
pub mod shape;
pub mod shrink;
pub mod sources;
pub mod special;
pub mod special_rows;
pub mod speech;
#[cfg(rust)]
pub mod ties;
pub mod trial;
pub mod words;

#[cfg(rust)]
include!(concat!(env!("OUT_DIR"), "/rust.rs"));

#[cfg(test)]
mod tests {
    use std::collections::{BTreeMap, BTreeSet};
    use std::fs;
    use std::path::Path;

    /// The modules that a module names, by file; the cut Rust is seen through reach.rs.
    fn imports() -> BTreeMap<String, BTreeSet<String>> {
        let mut all = BTreeMap::new();
        for entry in fs::read_dir(Path::new(env!("CARGO_MANIFEST_DIR")).join("src")).unwrap() {
            let path = entry.unwrap().path();
            let name = path.file_stem().unwrap().to_string_lossy().to_string();
            if path.is_file() && name != "lib" {
                let text = fs::read_to_string(&path).unwrap();
                let after = text.split("crate::").skip(1);
                let named = after.map(|rest| rest.split(|c: char| c != '_' && !c.is_alphanumeric()).next().unwrap());
                let named = named.map(|n| if ["published", "ruled"].contains(&n) { "reach" } else { n }.to_string());
                all.insert(name, named.collect());
            }
        }
        all
    }

    #[test]
    fn imports_go_one_way() {
        let mut left = imports();
        assert!(left.len() > 20 && left["operations"].len() > 5, "{left:?}");
        // What imports nothing that is left is taken away, again and again; a circle stays.
        while !left.is_empty() {
            let names: BTreeSet<String> = left.keys().cloned().collect();
            left.retain(|_, imported| !imported.is_disjoint(&names));
            assert!(left.len() < names.len(), "these import one another in a circle: {left:?}");
        }
    }
}
