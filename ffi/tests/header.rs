//! The C headers say what the Rust side says: version, numbers, names, sizes, and each function's
//! arguments.

use clevisroot_sys::{
    clips, refusals, MAX_FRAME, MAX_SYMBOLS, MAX_TONES, MAX_WORK, NONE_REFUSED, RESET,
};
use std::collections::BTreeMap;

const HEADER: &str = include_str!("../../include/clevisroot.h");
const NAMES: &str = include_str!("../../include/clevisroot_names.h");
const RAW: &str = include_str!("../src/raw.rs");

/// What follows `#define NAME ` in the header.
fn defined(name: &str) -> &'static str {
    let start = format!("#define {name} ");
    let line = HEADER.lines().find_map(|line| line.strip_prefix(&start));
    line.unwrap_or_else(|| panic!("{name} is not defined"))
        .trim()
}

#[test]
fn the_version_is_cargo_s() {
    let part = |name| defined(&format!("CLEVISROOT_VERSION_{name}"));
    let parts = [part("MAJOR"), part("MINOR"), part("PATCH")];
    assert_eq!(parts.join("."), env!("CARGO_PKG_VERSION"));
    let text = format!("\"{}\"", env!("CARGO_PKG_VERSION"));
    assert_eq!(part("TEXT"), text);
}

#[test]
fn the_sizes_and_the_reset_are_the_same() {
    assert_eq!(defined("CLEVISROOT_MAX_TONES"), MAX_TONES.to_string());
    assert_eq!(defined("CLEVISROOT_MAX_FRAME"), MAX_FRAME.to_string());
    assert_eq!(MAX_FRAME, (7 + 15 * MAX_TONES).div_ceil(8));
    assert_eq!(defined("CLEVISROOT_MAX_WORK"), MAX_WORK.to_string());
    assert_eq!(MAX_WORK, 16 * MAX_TONES.div_ceil(2));
    assert_eq!(defined("CLEVISROOT_MAX_SYMBOLS"), MAX_SYMBOLS.to_string());
    assert_eq!(defined("CLEVISROOT_NONE_REFUSED"), NONE_REFUSED.to_string());
    let reset = format!("UINT32_C({RESET})");
    assert_eq!(defined("CLEVISROOT_RESET"), reset);
}

/// The entries of the header's enums whose names have this prefix, and no `CLIP_` behind it.
fn entries(prefix: &str) -> Vec<(u32, &'static str)> {
    let entries = HEADER.lines().filter_map(|line| {
        let (name, number) = line.trim().strip_prefix(prefix)?.split_once(" = ")?;
        Some((number.trim_end_matches(',').parse().ok()?, name))
    });
    entries
        .filter(|(_, name)| !name.starts_with("CLIP_"))
        .collect()
}

#[test]
fn every_number_has_its_name_in_the_enum() {
    assert_eq!(entries("CLEVISROOT_"), refusals::ALL);
    assert_eq!(entries("CLEVISROOT_CLIP_"), clips::ALL);
}

/// The names for logs of what has this prefix, and no `CLIP_` behind it.
fn names(prefix: &str) -> Vec<&'static str> {
    let start = format!("case {prefix}");
    let cases = NAMES.lines().filter_map(|line| {
        let case = line.trim().strip_prefix(&start)?;
        let (name, text) = case.split_once(": return \"")?;
        Some((name, text)).filter(|_| !name.starts_with("CLIP_"))
    });
    let named = cases.map(|(name, text)| {
        assert_eq!(text, format!("{name}\";"));
        name
    });
    named.collect()
}

#[test]
fn every_number_has_its_name_for_logs() {
    let of = |all: &[(u32, &'static str)]| all.iter().map(|(_, name)| *name).collect::<Vec<_>>();
    assert_eq!(names("CLEVISROOT_"), of(refusals::ALL));
    assert_eq!(names("CLEVISROOT_CLIP_"), of(clips::ALL));
}

#[test]
fn a_number_that_is_none_is_unknown() {
    assert_eq!(refusals::name(refusals::TRELLIS), "TRELLIS");
    assert_eq!(refusals::name(refusals::RANGE), "RANGE");
    assert_eq!(refusals::name(9), "UNKNOWN");
    assert_eq!(refusals::name(22), "FULL");
    assert_eq!(refusals::name(17), "UNKNOWN");
    assert_eq!(refusals::name(99), "UNKNOWN");
    assert_eq!(clips::name(clips::CANT_TELL), "CANT_TELL");
    assert_eq!(clips::name(0), "UNKNOWN");
    assert_eq!(clips::name(5), "UNKNOWN");
    let unknown = NAMES.matches("default: return \"UNKNOWN\";");
    assert_eq!(unknown.count(), 2);
}

/// The functions that are declared between two texts, by name: each argument as `written` has it.
fn declared(
    text: &str,
    before: &str,
    after: &str,
    written: fn(&str) -> String,
) -> BTreeMap<String, Vec<String>> {
    let functions = text.split(before).skip(1).map(|rest| {
        let (name, rest) = rest.split_once('(').expect("arguments");
        let (arguments, _) = rest.split_once(after).expect("an end");
        let arguments = arguments.split(',').map(str::trim);
        let arguments = arguments.filter(|one| !["", "void"].contains(one));
        let arguments = arguments.map(written);
        (name.to_string(), arguments.collect())
    });
    functions.collect()
}

/// An argument such as `const uint8_t *bits` as `raw.rs` writes it.
fn in_rust(argument: &str) -> String {
    let (kind, name) = argument.rsplit_once(' ').expect("a type and a name");
    let (pointer, kind) = match kind.strip_prefix("const ") {
        Some(kind) => ("*const", kind),
        None => ("*mut", kind),
    };
    let kind = match kind {
        "size_t" => "usize".to_string(),
        "clevisroot_tally" => "Tally".to_string(),
        fixed => fixed
            .replace("int", "i")
            .replace("ui", "u")
            .replace("_t", ""),
    };
    match name.strip_prefix('*') {
        Some(name) => format!("{name}: {pointer} {kind}"),
        None => format!("{name}: {kind}"),
    }
}

#[test]
fn every_function_has_the_header_s_arguments() {
    let of = |answer| {
        let before = format!("\nclevisroot_{answer} clevisroot_");
        declared(HEADER, &before, ");", in_rust)
    };
    let header: BTreeMap<_, _> = [
        "answer", "nearest", "clip", "point", "label", "drawn", "tally", "tallied",
    ]
    .into_iter()
    .flat_map(of)
    .collect();
    let raw = declared(RAW, "pub fn clevisroot_", ") ->", str::to_string);
    assert_eq!(header.len(), 16);
    assert_eq!(header, raw);
}
