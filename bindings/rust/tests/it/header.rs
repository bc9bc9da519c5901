//! The crate's declarations are those of twine.h.

use std::collections::BTreeMap;

use twine::query::Kind;
use twine::{ErrorKind, Mode};

const HEADER: &str = include_str!("../../../c/twine.h");
const DECLARED: &str = include_str!("../../src/c.rs");

/// Functions by name, each with the types of its parameters and its answer as Rust spells them.
type Functions = BTreeMap<String, (Vec<String>, bool)>;

/// The text between the first `from` and the next `to` after it.
fn between<'a>(text: &'a str, from: &str, to: &str) -> &'a str {
    let rest = text.split_once(from).expect(from).1;
    rest.split_once(to).expect(to).0
}

/// The header without its comments.
fn header() -> String {
    let mut pieces = HEADER.split("/*");
    let first = pieces.next().unwrap_or_default();
    let rest = pieces.map(|piece| piece.split_once("*/").expect("the end of a comment").1);
    std::iter::once(first).chain(rest).collect()
}

/// A parameter of C as Rust's type.
fn rust_type(parameter: &str) -> String {
    let (constant, rest) = match parameter.strip_prefix("const ") {
        Some(rest) => (true, rest),
        None => (false, parameter),
    };
    let base = match rest.split_once(' ').expect("a type and a name").0 {
        "uint8_t" | "char" => "u8",
        "uint32_t" => "u32",
        "uint64_t" => "u64",
        "int64_t" => "i64",
        "size_t" => "usize",
        "bool" => "bool",
        other => panic!("{other}"),
    };
    match (rest.contains(['*', '[']), constant) {
        (true, true) => format!("*const {base}"),
        (true, false) => format!("*mut {base}"),
        (false, _) => base.to_string(),
    }
}

fn of_header() -> Functions {
    let header = header();
    // the version's function by its name
    let version = between(&header, "#define TWINE_ABI ", "\n");
    let text = header.lines().filter(|line| !line.starts_with('#')).collect::<Vec<_>>().join("\n");
    let text = text.replace("TWINE_ABI_NAME(TWINE_ABI)", &format!("twine_abi_{version}"));
    let declared = text.split(';').filter(|statement| statement.contains('(') && statement.contains(" twine_"));
    declared
        .filter(|statement| !statement.contains("static "))
        .map(|statement| {
            let (head, parameters) = statement.split_once('(').expect("parameters");
            let (before, name) = head.rsplit_once(' ').expect("a name");
            let parameters = parameters.trim_end_matches(')').split(',').filter(|parameter| *parameter != "void");
            let types = parameters.map(|parameter| rust_type(parameter.trim()));
            (name.to_string(), (types.collect(), before.ends_with("uint32_t")))
        })
        .collect()
}

fn of_crate() -> Functions {
    let block = between(DECLARED, "extern \"C\" {", "\n    }\n");
    let declared = block.split(';').filter_map(|statement| statement.split_once("fn "));
    declared
        .map(|(_, declaration)| {
            let (name, parameters) = declaration.split_once('(').expect("parameters");
            let (parameters, answer) = parameters.split_once(')').expect("parameters");
            let types = parameters.split(',').filter_map(|parameter| parameter.split_once(": "));
            (name.to_string(), (types.map(|(_, name)| name.to_string()).collect(), answer == " -> u32"))
        })
        .collect()
}

#[test]
fn functions() {
    let declared = of_header();
    assert!(declared.contains_key("twine_close"));
    assert_eq!(of_crate(), declared);
}

#[test]
fn numbers() {
    let header = header();
    let defined = |line: String| assert_eq!(header.matches(&line).count(), 1, "{line}");
    defined(format!("#define TWINE_LIMIT {}\n", twine::LIMIT));
    for size in ["STATE", "NAME"] {
        let value = between(DECLARED, &format!("pub const {size}: usize = "), ";");
        defined(format!("#define TWINE_{size} {value}\n"));
    }

    let listed = |from, prefix| between(&header, from, "};").matches(prefix).count();
    for (mode, end) in [(Mode::Strict, ","), (Mode::Tolerant, "\n")] {
        defined(format!(" TWINE_{} = {}{end}", format!("{mode:?}").to_uppercase(), mode as u32));
    }
    assert_eq!(listed("enum twine_mode {", " TWINE_"), 2);
    for kind in ErrorKind::ALL {
        let end = if Some(&kind) == ErrorKind::ALL.last() { "\n" } else { "," };
        defined(format!(" TWINE_{} = {}{end}", kind.name(), kind.number()));
    }
    assert_eq!(listed("enum twine_error {", " TWINE_"), 1 + ErrorKind::ALL.len());

    let kinds = [
        Kind::Scalar,
        Kind::Integer,
        Kind::Negative,
        Kind::Float,
        Kind::Text,
        Kind::Bytes,
        Kind::Array,
        Kind::Map,
        Kind::Tag,
        Kind::Variant,
        Kind::Variant1,
        Kind::VariantN,
        Kind::Reference,
        Kind::Pointer,
    ];
    for kind in kinds {
        let end = if kind == Kind::Pointer { "\n" } else { "," };
        defined(format!(" TWINE_KIND_{} = {}{end}", format!("{kind:?}").to_uppercase(), kind as u32));
    }
    assert_eq!(listed("enum twine_kind {", " TWINE_KIND_"), kinds.len());
}
