//! The C declarations against the source of the exports and of the structs that they answer.
use crate::page::blocks;
use std::collections::BTreeSet;
use std::path::Path;
use std::sync::OnceLock;

const STRUCTS: [&str; 5] = [
    include_str!("../../../../crates/exchange/src/answer.rt"),
    include_str!("../../../../crates/reading/src/answer.rt"),
    include_str!("../../../../crates/reading/src/merged.rt"),
    include_str!("../../../../crates/reading/src/page.rt"),
    include_str!("../../../../crates/writing/src/answer.rt"),
];

/// An export: its name, its parameters by name and type, and the type of its answer.
pub struct Export {
    pub name: &'static str,
    pub parameters: Vec<(&'static str, &'static str)>,
    pub answer: &'static str,
}

/// All files of the crate that exports.
fn source() -> &'static str {
    static SOURCE: OnceLock<String> = OnceLock::new();
    SOURCE.get_or_init(|| {
        let folder = Path::new(env!("CARGO_MANIFEST_DIR")).join("../../crates/journal/src");
        let files = std::fs::read_dir(folder).expect("the crate is there");
        let text = |file: std::io::Result<std::fs::DirEntry>| {
            std::fs::read_to_string(file.expect("a file").path()).expect("text")
        };
        files.map(text).collect()
    })
}

pub fn exports() -> Vec<Export> {
    let export = |text: &'static str| {
        let (name, rest) = text.split_once('(').expect("parameters");
        let (parameters, rest) = rest.split_once(')').expect("their end");
        let answer = rest.strip_prefix(" -> ").expect("an answer");
        let pair = |it: &'static str| it.trim().split_once(": ").expect("a type");
        let parameters = parameters.split(',').filter(|it| !it.trim().is_empty());
        Export {
            name,
            parameters: parameters.map(pair).collect(),
            answer: answer.lines().next().expect("a line"),
        }
    };
    let texts = source().split("pub extern \"C\" fn ").skip(1);
    texts.map(export).collect()
}

/// `MergedPage` is `struct journal_merged_page`.
fn tag(name: &str) -> String {
    let mut tag = "struct journal".to_string();
    for letter in name.chars() {
        if letter.is_ascii_uppercase() {
            tag.push('_');
        }
        tag.push(letter.to_ascii_lowercase());
    }
    tag
}

fn parameter(&(name, kind): &(&str, &str)) -> String {
    match kind {
        "u64" => format!("uint64_t {name}"),
        "&[u8]" => format!("const uint8_t *{name}, size_t {name}_len"),
        "&mut [u8]" => format!("uint8_t *{name}, size_t {name}_len"),
        "&[u8; 16]" => format!("const uint8_t {name}[16]"),
        "&[u8; 64]" => format!("const uint8_t {name}[64]"),
        _ => panic!("{kind} has no type in C here"),
    }
}

/// What has to be declared.
fn expected() -> BTreeSet<String> {
    let functions = exports().into_iter().map(|export| {
        let answer = match export.answer {
            "u64" => "uint64_t".to_string(),
            name => tag(name),
        };
        let parameters: Vec<String> = export.parameters.iter().map(parameter).collect();
        format!("{answer} {}({})", export.name, parameters.join(", "))
    });
    let structs = STRUCTS
        .iter()
        .flat_map(|text| text.split("#[repr(C)]\n#[derive(Clone, Copy)]\npub struct ").skip(1));
    let structs = structs.map(|text| {
        let (name, rest) = text.split_once(" {\n").expect("a name");
        let (fields, _) = rest.split_once("\n}").expect("an end");
        let field = |line: &'static str| {
            let (name, kind) = line.trim().split_once(": ").expect("a type");
            assert!(["u64,", "usize,"].contains(&kind), "{line}");
            name.strip_prefix("pub ").expect("a public field")
        };
        let fields: Vec<&str> = fields.lines().map(field).collect();
        format!("{} {{ uint64_t {}; }}", tag(name), fields.join(", "))
    });
    functions.chain(structs).collect()
}

/// What is declared: each ends with a semicolon that is not in a struct.
fn declared() -> BTreeSet<String> {
    let lines = blocks()[0].lines().filter(|line| !line.starts_with('#'));
    let text: String = lines.flat_map(|line| [line, " "]).collect();
    let words: Vec<&str> = text.split_whitespace().collect();
    let text = words.join(" ").replace("; }", "\0}");
    let whole = |it: &str| it.trim().replace('\0', "; ");
    let all = text.split(';').map(whole);
    all.filter(|it| !it.is_empty()).collect()
}

#[test]
fn every_export() {
    let expected = expected();
    assert_eq!(expected.len(), 33 + 12);
    assert_eq!(declared(), expected);
}
