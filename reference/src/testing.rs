//! Helpers of the unit tests.

use std::fmt::Debug;

use crate::call::Call;
use crate::error::{Error, ErrorKind};
use crate::kind::Scalar;
use crate::leb128::Mode;

/// What a table holds before it is lent.
pub const JUNK: u32 = 0xaaaa_aaaa;

/// The file of document 001.
pub const DOCUMENT_001: &str = "45 68 65 6c 6c 6f 61 f6 62 f8 f3 72 41 61 f5 41 78 01 06";

/// The calls that write it.
pub const WRITES_DOCUMENT_001: [Call<'static>; 12] = [
    Call::Text(b"hello"),
    Call::Array(1),
    Call::Pointer(0),
    Call::Array(2),
    Call::Pointer(0),
    Call::Pointer(6),
    Call::Map(2),
    Call::Text(b"a"),
    Call::Pointer(8),
    Call::Text(b"x"),
    Call::Scalar(Scalar::True),
    Call::Close(11),
];

/// The bytes of a row of hex digits; spaces do not count.
pub fn hex(text: &str) -> Vec<u8> {
    let digits: Vec<u8> =
        text.chars().filter(|digit| *digit != ' ').map(|digit| digit.to_digit(16).expect("a hex digit") as u8).collect();
    assert!(digits.len().is_multiple_of(2), "an odd number of digits: {text}");
    digits.chunks_exact(2).map(|pair| pair[0] << 4 | pair[1]).collect()
}

/// The bytes at which the rule of texts may change its mind: the borders of RFC 3629's ranges, and the bytes beside them.
pub fn border_bytes() -> Vec<u8> {
    let borders = hex("00 7f 80 8f 90 9f a0 bf c0 c1 c2 df e0 e1 ec ed ee ef f0 f1 f3 f4 f5 ff");
    (0..=255_u8).filter(|byte| borders.iter().any(|border| border.abs_diff(*byte) <= 1)).collect()
}

/// The refusal of a name at a place.
pub fn refusal(kind: ErrorKind, place: u64) -> Error {
    Error { kind, place }
}

/// The strict answer. If it is not OVERLONG, the tolerant one is the same; that is never OVERLONG.
pub fn in_both<T: PartialEq + Debug>(ask: impl Fn(Mode) -> Result<T, Error>) -> Result<T, Error> {
    let is_overlong = |answer: &Result<T, Error>| matches!(answer, Err(Error { kind: ErrorKind::Overlong, .. }));
    let [strict, tolerant] = Mode::ALL.map(ask);
    assert!(strict == tolerant || is_overlong(&strict), "strict {strict:?}, tolerant {tolerant:?}");
    assert!(!is_overlong(&tolerant), "{tolerant:?}");
    strict
}
