//! What the source of the plain reader uses: no hash table, no list of a FIELD and no array. Only the
//! judging, which is a call, does.
use std::path::Path;

/// Parts of names that stand for a hash table, a list of a FIELD or an array, and for reading a word at
/// any place.
const NAMES: [&str; 21] = [
    "hash",
    "cell",
    "table",
    "chain",
    "bucket",
    "index",
    "next_field",
    "head_data",
    "field_list",
    "find_",
    "field_object",
    "array",
    "n_entries",
    "entry_offset",
    "committed",
    "_tail",
    "data_tail",
    "tail_entry",
    "u64_at",
    "u32_at",
    "offset_at",
];

/// What is taken from other crates: the walk, the parts of an ENTRY and of a DATA, a comparison of bytes,
/// types, and the judging.
const TAKEN: [&str; 23] = [
    "entry_lookup::items::payload_part",
    "format::layout::DATA_OBJECT",
    "format::layout::ENTRY_OBJECT",
    "format::refusal::Refusal",
    "format::units::Offset",
    "format::units::Realtime",
    "format::units::Seqnum",
    "lookup::lookups::settled",
    "marks::names::name_length",
    "object::header::first_object",
    "object::header::is_compact",
    "object::header::tail_object_offset",
    "object::objects::next",
    "object::refusal::same",
    "object_parts::items::entry_item",
    "object_parts::items::item_count",
    "object_parts::items::payload",
    "object_parts::stamps::realtime_at",
    "object_parts::stamps::realtime_below",
    "object_parts::stamps::seqnum_at",
    "object_parts::stamps::seqnum_below",
    "readiness::agreed::agreed",
    "reading::answer::Part",
];

/// What is wrong with a line of code, if something is. Comments are no code, and what stands behind
/// `ghost` or in a contract is none either.
fn fault(line: &str) -> Option<String> {
    let code = line.split("//").next().expect("a part").trim();
    if ["ghost ", "requires ", "ensures ", "× "]
        .iter()
        .any(|it| code.starts_with(it))
    {
        return None;
    }
    let lower = code.to_lowercase();
    if let Some(name) = NAMES.iter().find(|name| lower.contains(**name)) {
        return Some(format!("{name} in: {code}"));
    }
    let is_word = |it: char| it.is_alphanumeric() || it == '_' || it == ':';
    let paths = code
        .split(|it: char| !is_word(it))
        .filter(|it| it.contains("::"));
    let own = |path: &str| path.starts_with("crate::");
    let mut others = paths.filter(|path| !own(path) && !TAKEN.contains(path));
    others.next().map(|path| format!("{path} in: {code}"))
}

/// Whether a byte is read at a place that is no object's: `image[at]` is its type.
fn reads_elsewhere(line: &str) -> bool {
    let code = line.split("//").next().expect("a part");
    code.split("image[")
        .skip(1)
        .any(|it| !it.starts_with("at]"))
}

/// The lines of a file, with one of its own for each name that a `use` takes.
fn taken_apart(text: &str) -> Vec<String> {
    let mut lines = Vec::new();
    let mut rest = text.lines();
    while let Some(line) = rest.next() {
        let mut line = line.to_string();
        while line.starts_with("use ") && !line.ends_with(';') {
            line += rest.next().expect("the end of the item").trim();
        }
        let group = line.strip_suffix("};").and_then(|it| it.split_once("::{"));
        match group {
            Some((path, names)) if line.starts_with("use ") => {
                let names = names.split(',').map(str::trim);
                lines.extend(
                    names
                        .filter(|it| !it.is_empty())
                        .map(|it| format!("{path}::{it};")),
                );
            }
            _ => lines.push(line),
        }
    }
    lines
}

/// The lines of all files.
fn lines() -> Vec<String> {
    let folder = Path::new(env!("CARGO_MANIFEST_DIR")).join("../../crates/plain/src");
    let mut lines = Vec::new();
    for file in std::fs::read_dir(folder).expect("the crate is there") {
        let path = file.expect("a file").path();
        assert!(path.extension().is_some_and(|it| it == "rt"), "{path:?}");
        let text = std::fs::read_to_string(path).expect("text");
        lines.extend(taken_apart(&text));
    }
    lines
}

#[test]
fn nothing_of_an_index() {
    let lines = lines();
    assert!(lines.len() > 200, "{}", lines.len());
    for line in &lines {
        assert_eq!(fault(line), None);
        assert!(!reads_elsewhere(line), "{line}");
    }
    // Nothing is named that is not used: what the reader is made of is all of this.
    for path in TAKEN {
        let used = |line: &&String| line.starts_with(&format!("use {path};"));
        assert!(lines.iter().any(|it| used(&it)), "{path}");
    }
}

/// A line with any such name is caught, wherever it stands.
#[test]
fn such_a_line_is_caught() {
    for line in [
        "use format::layout::NEXT_HASH;",
        "    let d = u64_at(image, f + HEAD_DATA) as usize;",
        "        d = u64_at(image, d + NEXT_FIELD) as usize; // the next one",
        "    let a = u64_at(image, ENTRY_ARRAY_OFFSET) as usize;",
        "        a = u64_at(image, a + NEXT_ARRAY) as usize;",
        "    let n = u64_at(image, N_ENTRIES);",
        "    let n = u64_at(image, d + DATA_N_ENTRIES);",
        "    let e = array_item(image, compact, a, i);",
        "    while i < array_room(image, compact, a) {",
        "    let d = find_data(image, payload);",
        "use lookup::fields::find_field;",
        "    let c = cell_of(image, hash);",
        "    if committed(image, at) {",
        "use number::number::u64_at;",
        "use hash::siphash::siphash24;",
        "use format::layout::FIELD_OBJECT;",
        "use entry_lookup::search::entry_from;",
        "    lookup::lookups::by_payload(image, payload, place)",
        "    index::open::open(image)",
    ] {
        assert!(fault(line).is_some(), "{line}");
    }
    for line in [
        "    let b = image[152];",
        "    image[d + 56] == 0",
        "    same(&image[at..], bytes)",
    ] {
        assert!(reads_elsewhere(line), "{line}");
    }
    // And lines that are as they have to be are not.
    for line in [
        "    // It reads no hash table, no list of a FIELD and no array.",
        "ghost use Rattle·format.specs.Kinds.{ENTRY-ARRAY};",
        "    let tail = tail_object_offset(image).0;",
        "    if image[at] == ENTRY_OBJECT {",
    ] {
        assert_eq!(fault(line), None);
        assert!(!reads_elsewhere(line), "{line}");
    }
}
