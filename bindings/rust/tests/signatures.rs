//! No linker compares types across languages. This test does: each function that the port exports is declared with the
//! same parameters, names and types, in `soahkimal.h` and in `raw.rs`, and these declare no others.

use std::collections::BTreeMap;
use std::fs;
use std::path::Path;

/// A function's parameters and answer, each type in Rust's words.
type Signatures = BTreeMap<String, Vec<String>>;

fn read(path: &str) -> String {
    let path = Path::new(env!("CARGO_MANIFEST_DIR")).join(path);
    fs::read_to_string(&path).unwrap_or_else(|e| panic!("{}: {e}", path.display()))
}

/// The text between two marks and the text after.
fn between<'a>(s: &'a str, open: &str, close: &str) -> (&'a str, &'a str) {
    let from = s.find(open).expect(open) + open.len();
    let till = from + s[from..].find(close).expect(close);
    (&s[from..till], &s[till + close.len()..])
}

fn parameters(list: &str) -> Vec<String> {
    let words = list.split(',').map(|p| p.split_whitespace().collect::<Vec<_>>().join(" "));
    words.filter(|p| !p.is_empty()).collect()
}

/// Functions in Rust's form after each `mark`, `fn` before the name; `close` ends the answer's type.
fn rust_form(source: &str, mark: &str, close: char) -> Vec<(String, Vec<String>, String)> {
    let functions = source.split(mark).skip(1).map(|s| {
        let (list, rest) = between(s, "(", ")");
        let answer = between(rest, "->", &close.to_string()).0.trim();
        (s[..s.find('(').unwrap()].to_string(), parameters(list), answer.to_string())
    });
    functions.collect()
}

/// The exports: a slice is a pointer and a length.
fn exported() -> Signatures {
    let mut all = Signatures::new();
    for file in ["lib", "builds", "packs"] {
        let source = read(&format!("../../crates/exports/src/{file}.rt"));
        for (name, list, answer) in rust_form(&source, "pub extern \"C\" fn ", '\n') {
            let mut expanded: Vec<String> = list.iter().flat_map(|p| expand(p)).collect();
            expanded.push(answer.split_whitespace().next().unwrap().to_string());
            all.insert(name, expanded);
        }
    }
    all
}

fn expand(parameter: &str) -> Vec<String> {
    let (name, kind) = parameter.split_once(": ").expect("a name and a type");
    let element = |open: &str| kind.strip_prefix(open).and_then(|t| t.strip_suffix(']'));
    let slice = |pointer: &str, t: &str| vec![format!("{name}: *{pointer} {t}"), format!("{name}_length: usize")];
    match (element("&["), element("&mut [")) {
        (Some(t), _) => slice("const", t),
        (_, Some(t)) => slice("mut", t),
        _ => vec![parameter.to_string()],
    }
}

fn declared_in_rust() -> Signatures {
    let functions = rust_form(&read("src/raw.rs"), "pub fn ", ';');
    functions.into_iter().map(|(name, list, answer)| (name, [list, vec![answer]].concat())).collect()
}

/// The header's declarations: each name `sk_..` that a bracket follows, outside comments.
fn declared_in_c() -> Signatures {
    let header = without_comments(&read("../include/soahkimal.h"));
    let mut all = Signatures::new();
    for (at, _) in header.match_indices(" sk_") {
        let name: String = header[at + 1..].chars().take_while(|c| c.is_alphanumeric() || *c == '_').collect();
        let rest = &header[at + 1 + name.len()..];
        if rest.starts_with('(') {
            let answer = header[..at].split_whitespace().last().expect("a type");
            let mut types: Vec<String> = parameters(between(rest, "(", ")").0).iter().map(|p| from_c(p)).collect();
            types.push(c_type(answer).to_string());
            all.insert(name, types);
        }
    }
    all
}

fn without_comments(source: &str) -> String {
    let parts = source.split("/*").map(|part| part.split_once("*/").map_or(part, |(_, after)| after));
    parts.collect()
}

fn from_c(parameter: &str) -> String {
    let (kind, name) = parameter.rsplit_once(' ').expect("a type and a name");
    match (kind.strip_prefix("const "), name.strip_prefix('*')) {
        (Some(t), Some(name)) => format!("{name}: *const {}", c_type(t)),
        (None, Some(name)) => format!("{name}: *mut {}", c_type(kind)),
        _ => format!("{name}: {}", c_type(kind)),
    }
}

fn c_type(t: &str) -> &str {
    match t {
        "uint8_t" => "u8",
        "uint16_t" => "u16",
        "uint32_t" => "u32",
        "uint64_t" => "u64",
        "size_t" => "usize",
        "double" => "f64",
        "bool" => "bool",
        _ => panic!("the type {t}"),
    }
}

#[test]
fn declarations_are_those_of_the_exports() {
    let exported = exported();
    assert_eq!(exported.len(), 19);
    assert_eq!(declared_in_rust(), exported);
    assert_eq!(declared_in_c(), exported);
}
