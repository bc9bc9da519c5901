//! Tests of the crate against the archive.

mod header;
mod mode;
mod prune;
mod queries;
mod random;
mod samples;
mod text;
mod writer;

use std::fmt::Debug;

use twine::{Error, ErrorKind, Mode, Node, Value};

/// The bytes of a row in hex.
fn hex(row: &str) -> Vec<u8> {
    row.split_whitespace().map(|byte| u8::from_str_radix(byte, 16).expect("hex")).collect()
}

/// An error of a check or a query.
fn error(kind: ErrorKind, place: usize) -> Error {
    Error { kind, place: Some(place) }
}

/// An error of the writer.
fn refused(kind: ErrorKind) -> Error {
    Error { kind, place: None }
}

/// The answers in strict and in tolerant mode: the same, unless the strict one is OVERLONG, which the tolerant one never is.
fn both<T: Debug + PartialEq>(ask: impl Fn(Mode) -> Result<T, Error>) -> [Result<T, Error>; 2] {
    let is_overlong = |answer: &Result<T, Error>| matches!(answer, Err(Error { kind: ErrorKind::Overlong, .. }));
    let [strict, tolerant] = [Mode::Strict, Mode::Tolerant].map(ask);
    assert!(!is_overlong(&tolerant));
    if !is_overlong(&strict) {
        assert_eq!(strict, tolerant);
    }
    [strict, tolerant]
}

/// The strict answer, compared with the tolerant one.
fn strict<T: Debug + PartialEq>(ask: impl Fn(Mode) -> Result<T, Error>) -> Result<T, Error> {
    let [strict, _] = both(ask);
    strict
}

/// A value without its items, as the call that writes it. Floats are bits, targets offsets.
#[derive(Clone, Debug, PartialEq)]
enum Part {
    Null,
    Bool(bool),
    Integer(i64),
    Float32(u32),
    Float64(u64),
    Text(Vec<u8>),
    Bytes(Vec<u8>),
    Array(u64),
    Map(u64),
    Tag(u64),
    Variant(u32),
    Variant1(u32),
    VariantN(u32, u64),
    Reference(usize),
    Pointer(usize),
}

impl Part {
    fn has_items(&self) -> bool {
        matches!(self, Part::Array(_) | Part::Map(_) | Part::Tag(_) | Part::Variant1(_) | Part::VariantN(..))
    }
}

/// What a node is, and its items.
fn part(node: Node<'_>) -> (Part, Vec<usize>) {
    let offsets = |items: twine::Items<'_>| items.map(Node::offset).collect::<Vec<_>>();
    match node.value() {
        Value::Null => (Part::Null, vec![]),
        Value::Bool(value) => (Part::Bool(value), vec![]),
        Value::Integer(value) => (Part::Integer(value), vec![]),
        Value::Float32(value) => (Part::Float32(value.to_bits()), vec![]),
        Value::Float64(value) => (Part::Float64(value.to_bits()), vec![]),
        Value::Text(text) => (Part::Text(text.to_str().expect("UTF-8").into()), vec![]),
        Value::Bytes(bytes) => (Part::Bytes(bytes.to_vec()), vec![]),
        Value::Array(items) => (Part::Array(items.len() as u64), offsets(items)),
        Value::Map(pairs) => {
            let count = pairs.len();
            let both: Vec<_> = pairs.flat_map(|(key, value)| [key.offset(), value.offset()]).collect();
            assert_eq!(both.len(), 2 * count);
            (Part::Map(count as u64), both)
        }
        Value::Tag(tag, item) => (Part::Tag(tag), vec![item.offset()]),
        Value::Variant(index) => (Part::Variant(index), vec![]),
        Value::Variant1(index, item) => (Part::Variant1(index), vec![item.offset()]),
        Value::VariantN(index, items) => (Part::VariantN(index, items.len() as u64), offsets(items)),
        Value::Reference(target) => (Part::Reference(target.offset()), vec![]),
        Value::Pointer(target) => (Part::Pointer(target.offset()), vec![]),
    }
}

/// All values and items of a checked file, in order, each with its offset.
fn parts(file: &twine::File<'_>) -> Vec<(usize, Part)> {
    let mut all = Vec::new();
    let mut end = 0;
    for node in file.values() {
        assert_eq!(node.offset(), end);
        end = node.end();
        let (own, items) = part(node);
        let has_items = own.has_items();
        all.push((node.offset(), own));
        // the same items by all three ways
        if has_items {
            let listed: Vec<_> = node.items().unwrap().collect();
            assert_eq!(listed.iter().map(|item| item.offset()).collect::<Vec<_>>(), items);
            for (index, item) in listed.iter().enumerate() {
                assert_eq!(node.item(index).unwrap().offset(), item.offset());
                all.push((item.offset(), part(*item).0));
            }
            assert_eq!(node.item(items.len()).unwrap_err(), error(ErrorKind::NoItem, node.offset()));
        } else {
            assert_eq!(node.items().unwrap_err(), error(ErrorKind::WrongKind, node.offset()));
            assert_eq!(node.item(0).unwrap_err(), error(ErrorKind::WrongKind, node.offset()));
        }
    }
    assert_eq!(end, file.bytes().len() - 1);
    all
}
