//! The tool's own files: no import goes round in a circle, refusals have their numbers elsewhere, and
//! each mapper is the library's of that name.

use crate::run::root;
use std::collections::{BTreeMap, BTreeSet};
use std::fs;
use std::path::{Path, PathBuf};

/// Every source file by its module's path, as `svg::pen`; `main.rs` has the empty one.
fn modules() -> BTreeMap<String, String> {
    let source = root().join("cli/src");
    let mut folders: Vec<PathBuf> = vec![source.clone()];
    let mut found = BTreeMap::new();
    while let Some(folder) = folders.pop() {
        for entry in fs::read_dir(folder).unwrap() {
            let path = entry.unwrap().path();
            match path.is_dir() {
                true => folders.push(path),
                false => {
                    let text = fs::read_to_string(&path).unwrap();
                    found.insert(module(path.strip_prefix(&source).unwrap()), text);
                }
            }
        }
    }
    found
}

fn module(path: &Path) -> String {
    let path = path.with_extension("");
    let parts = path.iter().map(|part| part.to_str().unwrap());
    let parts: Vec<&str> = parts
        .filter(|part| *part != "mod" && *part != "main")
        .collect();
    parts.join("::")
}

/// The modules that a module's `use` lines name: the longest path that is a module, and what a
/// braced list adds to it.
fn imports(name: &str, text: &str, modules: &BTreeMap<String, String>) -> BTreeSet<String> {
    let above = name.rsplit_once("::").map_or("", |(above, _)| above);
    let mut found = BTreeSet::new();
    let uses = text
        .split("\nuse ")
        .skip(1)
        .map(|rest| rest.split(';').next().unwrap());
    for path in uses {
        let path = path.split_whitespace().collect::<String>();
        let full = match (path.strip_prefix("crate::"), path.strip_prefix("super::")) {
            (Some(rest), _) => rest.to_string(),
            (None, Some(rest)) => format!("{above}::{rest}"),
            (None, None) => continue,
        };
        let (head, list) = full.split_once('{').unwrap_or((&full, ""));
        let items = list.trim_end_matches('}').split(',');
        let whole = items.map(|item| format!("{head}{item}"));
        found.extend(whole.filter_map(|path| longest(&path, modules)));
    }
    found
}

fn longest(path: &str, modules: &BTreeMap<String, String>) -> Option<String> {
    let mut path = path.trim_start_matches("::").to_string();
    while !modules.contains_key(&path) {
        path.truncate(path.rfind("::")?);
    }
    Some(path)
}

#[test]
fn no_import_goes_round_in_a_circle() {
    let modules = modules();
    let mut left: BTreeMap<&String, BTreeSet<String>> = modules
        .iter()
        .map(|(name, text)| (name, imports(name, text, &modules)))
        .collect();
    let edges: usize = left.values().map(BTreeSet::len).sum();
    assert!(modules.len() > 30 && edges > 100, "too few: {edges}");
    // What imports nothing that is left can go; a circle never can.
    loop {
        let free = left
            .iter()
            .find(|(_, imports)| imports.iter().all(|import| !left.contains_key(import)));
        let Some((&name, _)) = free else { break };
        left.remove(name);
    }
    assert!(left.is_empty(), "in circles: {left:?}");
}

/// The refusals' numbers are those of `ffi`, which are held to the C header.
#[test]
fn the_tool_has_no_numbers_of_refusals_of_its_own() {
    for (name, text) in modules() {
        for (_, refusal) in clevisroot_sys::refusals::ALL {
            let constant = format!("const {refusal}: u32");
            assert!(!text.contains(&constant), "{name} has {constant}");
        }
    }
}

/// Both give the same answers, so that no call of the tool shows which one gave them.
#[test]
fn each_mapper_is_the_one_it_says() {
    let mapper = &modules()["commands::mapper"];
    for call in ["map_label(bits, label)", "read_point(bits, x, y)"] {
        for (name, prefix) in [("Tuned", ""), ("Plain", "plain_")] {
            let line = format!("Mapper::{name} => library::{prefix}{call},");
            assert!(mapper.contains(&line), "{line}");
        }
    }
}
