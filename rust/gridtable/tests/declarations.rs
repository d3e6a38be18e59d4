//! The declarations of `src/ffi.rs` and `include/gridtable.h` against the
//! project's source of the calls, and where `unsafe` stands.

use std::collections::BTreeMap;
use std::fs;
use std::path::{Path, PathBuf};

fn project() -> PathBuf {
    Path::new(env!("CARGO_MANIFEST_DIR")).join("../..")
}

fn text(path: &str) -> String {
    let path = project().join(path);
    fs::read_to_string(&path).unwrap_or_else(|e| panic!("{}: {e}", path.display()))
}

/// All Rattle files under a folder, as one text.
fn sources(folder: &Path) -> String {
    let mut all = String::new();
    let entries = fs::read_dir(folder).unwrap_or_else(|e| panic!("{}: {e}", folder.display()));
    for entry in entries {
        let path = entry.unwrap().path();
        if path.is_dir() {
            all += &sources(&path);
        } else if path.extension().is_some_and(|extension| extension == "rt") {
            all += &fs::read_to_string(&path).unwrap();
        }
    }
    all
}

/// Runs of white space as one space, none beside a bracket, no closing comma.
fn squeezed(text: &str) -> String {
    let mut text = text.split_whitespace().collect::<Vec<_>>().join(" ");
    for (from, to) in [
        ("( ", "("),
        (" )", ")"),
        (",)", ")"),
        (" *", "*"),
        ("* ", "*"),
    ] {
        text = text.replace(from, to);
    }
    text
}

type Arguments = Vec<(String, String)>;

/// Each exported call: its arguments with their types, and its answer's type.
fn calls() -> BTreeMap<String, (Arguments, String)> {
    let source = sources(&project().join("crates/gridtable/src"));
    let mut calls = BTreeMap::new();
    for part in source.split("pub extern \"C\" fn ").skip(1) {
        let (name, rest) = part.split_once('(').unwrap();
        let (arguments, rest) = rest.split_once(')').unwrap();
        let answer = rest.trim_start().strip_prefix("->").unwrap();
        let answer = answer.split_whitespace().next().unwrap();
        let arguments = arguments.split(',').filter_map(|argument| {
            let (name, of) = argument.split_once(':')?;
            Some((name.trim().to_string(), of.trim().to_string()))
        });
        let call = (arguments.collect(), answer.to_string());
        calls.insert(name.to_string(), call);
    }
    calls
}

/// The fields of the structs that cross: name and type of each.
fn structs() -> BTreeMap<String, Arguments> {
    let source = sources(&project().join("crates"));
    let mut structs = BTreeMap::new();
    let head = "#[repr(C)]\n#[derive(Clone, Copy)]\npub struct ";
    for part in source.split(head).skip(1) {
        let (name, rest) = part.split_once(" {").unwrap();
        let (fields, _) = rest.split_once('}').unwrap();
        let fields = fields.split(',').filter_map(|field| {
            let (name, of) = field.split_once(':')?;
            let name = name.trim().strip_prefix("pub ").unwrap();
            Some((name.to_string(), of.trim().to_string()))
        });
        structs.insert(name.to_string(), fields.collect());
    }
    structs
}

/// A slice's element, and whether it is written.
fn slice(of: &str) -> Option<(&str, bool)> {
    let element = of.strip_prefix('&')?;
    let (element, written) = match element.strip_prefix("mut ") {
        Some(element) => (element, true),
        None => (element, false),
    };
    Some((element.strip_prefix('[')?.strip_suffix(']')?, written))
}

#[test]
fn the_crate_declares_the_calls_as_they_are() {
    let declared = squeezed(&text("rust/gridtable/src/ffi.rs"));
    let calls = calls();
    assert!(!calls.is_empty());
    for (name, (arguments, answer)) in &calls {
        let arguments: Vec<String> = arguments
            .iter()
            .map(|(name, of)| match slice(of) {
                Some((of, true)) => format!("{name}:*mut {of}, {name}_len: usize"),
                Some((of, false)) => format!("{name}:*const {of}, {name}_len: usize"),
                None => format!("{name}: {of}"),
            })
            .collect();
        let call = format!("fn {name}({}) -> {answer};", arguments.join(", "));
        assert!(declared.contains(&call), "{call}");
    }
    for part in declared.split("fn grid_").skip(1) {
        let (name, _) = part.split_once('(').unwrap();
        assert!(calls.contains_key(&format!("grid_{name}")), "grid_{name}");
    }
}

#[test]
fn the_crate_has_the_structs_as_they_are() {
    let declared = squeezed(&text("rust/gridtable/src/ffi.rs"));
    let structs = structs();
    for (_, answer) in calls().values() {
        let Some(fields) = structs.get(answer) else {
            assert!(["bool", "usize"].contains(&answer.as_str()), "{answer}");
            continue;
        };
        let fields: Vec<String> = fields
            .iter()
            .map(|(n, of)| format!("pub {n}: {of},"))
            .collect();
        let whole = format!(
            "#[repr(C)] #[derive(Clone, Copy, Debug)] pub struct {answer} {{ {} }}",
            fields.join(" ")
        );
        assert!(declared.contains(&whole), "{whole}");
    }
}

fn c_type(of: &str) -> &str {
    match of {
        "usize" => "size_t",
        "u8" => "uint8_t",
        "u16" => "uint16_t",
        "u32" => "uint32_t",
        "f64" => "double",
        "bool" => "bool",
        _ => panic!("{of}"),
    }
}

/// `LayoutReply` is `gridtable_layout_reply`.
fn c_struct(name: &str) -> String {
    let mut snake = String::from("gridtable");
    for letter in name.chars() {
        if letter.is_uppercase() {
            snake.push('_');
        }
        snake.extend(letter.to_lowercase());
    }
    snake
}

#[test]
fn the_header_declares_the_calls_as_they_are() {
    let header = squeezed(&text("include/gridtable.h"));
    let structs = structs();
    for (name, (arguments, answer)) in &calls() {
        let arguments: Vec<String> = arguments
            .iter()
            .map(|(name, of)| match slice(of) {
                Some((of, true)) => format!("{}*{name}, size_t {name}_len", c_type(of)),
                Some((of, false)) => format!("const {}*{name}, size_t {name}_len", c_type(of)),
                None => format!("{} {name}", c_type(of)),
            })
            .collect();
        let arguments = match arguments.is_empty() {
            true => "void".to_string(),
            false => arguments.join(", "),
        };
        let of = match structs.contains_key(answer) {
            true => c_struct(answer),
            false => c_type(answer).to_string(),
        };
        let call = format!("{of} {name}({arguments});");
        assert!(header.contains(&call), "{call}");
        if let Some(fields) = structs.get(answer) {
            let fields: Vec<String> = fields
                .iter()
                .map(|(n, of)| format!("{} {n};", c_type(of)))
                .collect();
            let whole = format!("typedef struct {{ {} }} {of};", fields.join(" "));
            assert!(header.contains(&whole), "{whole}");
        }
    }
}

/// What must be believed of the crate: one block that declares the calls, and
/// one that calls them.
#[test]
fn unsafe_stands_in_two_places() {
    let folder = project().join("rust/gridtable/src");
    for entry in fs::read_dir(folder).unwrap() {
        let path = entry.unwrap().path();
        let text = fs::read_to_string(&path).unwrap();
        let code = text.lines().map(|line| line.split("//").next().unwrap());
        let count = code
            .filter(|line| {
                line.split(|c: char| !c.is_alphanumeric() && c != '_')
                    .any(|word| word == "unsafe")
            })
            .count();
        let expected = if path.ends_with("ffi.rs") { 2 } else { 0 };
        assert_eq!(count, expected, "{}", path.display());
    }
}
