//! Reads constants and statics out of Rattle sources.

use std::fs;
use std::path::{Path, PathBuf};

/// A `const NAME: [T; N] = [..];` of whole numbers, or a `static` of that form.
pub struct Table {
    pub name: String,
    pub numbers: Vec<i64>,
}

/// Every constant array of numbers in the .rt files of a folder.
pub fn tables(folder: &Path) -> Result<Vec<Table>, String> {
    let mut files: Vec<PathBuf> = fs::read_dir(folder)
        .map_err(|e| format!("{}: {e}", folder.display()))?
        .filter_map(|entry| Some(entry.ok()?.path()))
        .filter(|path| path.extension().is_some_and(|e| e == "rt"))
        .collect();
    files.sort();
    let mut all = Vec::new();
    for file in files {
        let text = fs::read_to_string(&file).map_err(|e| format!("{}: {e}", file.display()))?;
        all.extend(tables_in(&text).map_err(|e| format!("{}: {e}", file.display()))?);
    }
    Ok(all)
}

fn tables_in(text: &str) -> Result<Vec<Table>, String> {
    let plain: String = text.lines().map(|line| line.split("//").next().unwrap_or("")).collect::<Vec<_>>().join("\n");
    let mut found = Vec::new();
    let mut rest = plain.as_str();
    while let Some(end) = ["const ", "static "].iter().filter_map(|word| Some(rest.find(word)? + word.len())).min() {
        rest = &rest[end..];
        let Some((name, after)) = rest.split_once(':') else { continue };
        let Some((kind, value)) = after.split_once('=') else { continue };
        let (Some(kind), Some(value)) = (kind.trim().strip_prefix('['), value.trim_start().strip_prefix('[')) else {
            continue;
        };
        let Some((list, _)) = value.split_once(']') else { continue };
        let Some((element, length)) = kind.trim_end_matches([']', ' ']).split_once(';') else { continue };
        if !["i8", "i16", "i32", "i64", "u8", "u16", "u32", "u64", "usize"].contains(&element.trim()) {
            continue;
        }
        let name = name.trim().to_string();
        let numbers = numbers(list).map_err(|word| format!("{name}: {word} is no number"))?;
        if let Ok(length) = length.trim().parse::<usize>() {
            if length != numbers.len() {
                return Err(format!("{name} has {} numbers and not {length}", numbers.len()));
            }
        }
        found.push(Table { name, numbers });
    }
    Ok(found)
}

fn numbers(list: &str) -> Result<Vec<i64>, String> {
    list.split(',')
        .map(|word| word.split_whitespace().collect::<String>().replace('_', ""))
        .filter(|word| !word.is_empty())
        .map(|word| word.as_str().parse().map_err(|_| word))
        .collect()
}
