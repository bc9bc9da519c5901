//! What the archive answers, as the crate returns it: an error by its kind, with its place if it has one.

use crate::c;
use crate::error::{Error, ErrorKind};
use crate::mode::Mode;

/// The words of a writer's state: written, count, pending, start, closed.
pub(crate) type State = [u64; c::STATE];

/// The error of a number, or none for 0.
///
/// Every answer comes by here, so that whatever calls the archive also refers to the function that is named by the version of its
/// interface: an archive of another version does not link. Unlike a `#[used]` static, code that is called is kept by every linker.
fn kind(number: u32) -> Option<ErrorKind> {
    let kind = ErrorKind::from_number(number);
    if kind.is_none() && number != 0 {
        panic!("libtwine.a of version {} answers {number}, which no error has", c::version());
    }
    kind
}

/// What a check or a query answers: its words, or an error, whose place is the first of them.
fn ask<const N: usize>(question: impl FnOnce(&mut [u64; N]) -> u32) -> Result<[u64; N], Error> {
    let mut out = [0; N];
    match kind(question(&mut out)) {
        None => Ok(out),
        Some(kind) => Err(Error { kind, place: Some(out[0] as usize) }),
    }
}

/// The letters of an error's name, and zeros after them.
#[cfg(test)]
pub(crate) fn error_name(number: u32) -> [u8; c::NAME] {
    let mut name = [0; c::NAME];
    c::error_name(number, &mut name);
    name
}

/// The count of values and the offset of the entry.
pub(crate) fn check(file: &[u8], mode: Mode, starts: &mut [u32]) -> Result<[u64; 2], Error> {
    ask(|out| c::check(file, mode as u32, starts, out))
}

/// As `check`, with the depths.
pub(crate) fn depths(file: &[u8], mode: Mode, starts: &mut [u32], depths: &mut [u32]) -> Result<[u64; 2], Error> {
    ask(|out| c::depths(file, mode as u32, starts, depths, out))
}

/// Kind, number, first, count.
pub(crate) fn read(file: &[u8], mode: Mode, at: usize) -> Result<[u64; 4], Error> {
    ask(|out| c::read(file, mode as u32, at, out))
}

/// The offset just after the value, and 0.
pub(crate) fn skip(file: &[u8], mode: Mode, at: usize) -> Result<[u64; 2], Error> {
    ask(|out| c::skip(file, mode as u32, at, out))
}

/// The offset of the item, and 0.
pub(crate) fn item(file: &[u8], mode: Mode, at: usize, index: usize) -> Result<[u64; 2], Error> {
    ask(|out| c::item(file, mode as u32, at, index, out))
}

/// The offset of the value that is not a pointer, and the pointers met.
pub(crate) fn follow(file: &[u8], mode: Mode, at: usize) -> Result<[u64; 2], Error> {
    ask(|out| c::follow(file, mode as u32, at, out))
}

/// The offset of the key's value, and 0.
pub(crate) fn lookup(file: &[u8], mode: Mode, at: usize, key: &[u8]) -> Result<[u64; 2], Error> {
    ask(|out| c::lookup(file, mode as u32, at, key, out))
}

/// The offset of the body's first byte, and its length.
pub(crate) fn body(file: &[u8], mode: Mode, at: usize) -> Result<[u64; 2], Error> {
    ask(|out| c::body(file, mode as u32, at, out))
}

/// The length of the new file, the count of its values and the offset of its entry. An error of check has its place, and one of the writer
/// has none.
pub(crate) fn prune(file: &[u8], out: &mut [u8], old_starts: &mut [u32], new_starts: &mut [u32]) -> Result<[u64; 3], Error> {
    let words = old_starts.len();
    ask(|told| c::prune(file, out, old_starts, new_starts, told)).map_err(|error| match error {
        // check never gives the first, and the second at 0 only without a word for the first value
        Error { kind: ErrorKind::NoRoom, .. } => Error { place: None, ..error },
        Error { kind: ErrorKind::Full, place: Some(0) } if words > 0 => Error { place: None, ..error },
        error => error,
    })
}

/// The state of a writer that has written nothing.
pub(crate) fn new_state() -> State {
    let mut state = [0; c::STATE];
    assert_eq!(kind(c::writer_new(&mut state)), None, "libtwine.a refuses a new writer");
    state
}

/// A call of the writer.
#[derive(Clone, Copy)]
pub(crate) enum Call<'a> {
    Null,
    Bool(bool),
    Integer(i64),
    Float32(u32),
    Float64(u64),
    Text(&'a [u8]),
    Bytes(&'a [u8]),
    Variant(u32),
    Reference(usize),
    Pointer(usize),
    OpenArray(u64),
    OpenMap(u64),
    OpenTag(u64),
    OpenVariant1(u32),
    OpenVariantN(u32, u64),
    Close(usize),
}

/// Makes a call: the error, or none and `state` is the next one.
pub(crate) fn call(state: &mut State, call: Call<'_>, out: &mut [u8], starts: &mut [u32]) -> Option<ErrorKind> {
    kind(match call {
        Call::Null => c::write_null(state, out, starts),
        Call::Bool(value) => c::write_bool(state, value, out, starts),
        Call::Integer(value) => c::write_integer(state, value, out, starts),
        Call::Float32(bits) => c::write_float32(state, bits, out, starts),
        Call::Float64(bits) => c::write_float64(state, bits, out, starts),
        Call::Text(text) => c::write_text(state, text, out, starts),
        Call::Bytes(bytes) => c::write_bytes(state, bytes, out, starts),
        Call::Variant(index) => c::write_variant(state, index, out, starts),
        Call::Reference(at) => c::write_reference(state, at, out, starts),
        Call::Pointer(at) => c::write_pointer(state, at, out, starts),
        Call::OpenArray(items) => c::open_array(state, items, out, starts),
        Call::OpenMap(pairs) => c::open_map(state, pairs, out, starts),
        Call::OpenTag(tag) => c::open_tag(state, tag, out, starts),
        Call::OpenVariant1(index) => c::open_variant1(state, index, out, starts),
        Call::OpenVariantN(index, items) => c::open_variant_n(state, index, items, out, starts),
        Call::Close(at) => c::close(state, at, out, starts),
    })
}
