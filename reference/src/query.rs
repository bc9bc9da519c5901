//! Questions at an offset of a file that need not be checked.
//!
//! "All work on unchecked files: EMPTY, `TOO_LONG`, OUTSIDE, the order above, then `WRONG_KIND`."

use crate::error::{Error, ErrorKind};
use crate::file;
use crate::kind::{
    Scalar, ARRAY, BYTES, FLOAT, MAP, NEGATIVE, POINTER, POSITIVE, SCALAR, TAG, TEXT, VARIANT0, VARIANT1, VARIANT_N,
};
use crate::leb128::Mode;
use crate::token::{self, Token};

/// A value as its header, its numbers and its fixed body describe it.
#[derive(Clone, Copy, Debug, PartialEq, Eq)]
pub enum Value {
    /// False, true or null.
    Scalar(Scalar),
    /// "The integer n" or "the integer -n-1".
    Integer(i64),
    /// The bits of a float of 32 bits.
    Float32(u32),
    /// The bits of a float of 64 bits.
    Float64(u64),
    /// The bytes of a text, which are not looked at.
    Text(Body),
    /// The bytes of a byte string.
    Bytes(Body),
    /// An array.
    Array {
        /// How many items follow.
        items: u64,
        /// Where they begin.
        first: usize,
    },
    /// A map.
    Map {
        /// How many pairs follow.
        pairs: u64,
        /// Where they begin.
        first: usize,
    },
    /// A tag.
    Tag {
        /// The tag.
        tag: u64,
        /// Where the tagged item begins.
        first: usize,
    },
    /// A variant without an argument.
    Variant0 {
        /// The variant index.
        index: u32,
    },
    /// A variant of one argument.
    Variant1 {
        /// The variant index.
        index: u32,
        /// Where the argument begins.
        first: usize,
    },
    /// A variant of many arguments.
    VariantN {
        /// The variant index.
        index: u32,
        /// How many arguments follow.
        arguments: u64,
        /// Where they begin.
        first: usize,
    },
    /// A reference.
    Reference {
        /// The offset it targets.
        target: usize,
    },
    /// A pointer.
    Pointer {
        /// The offset it targets.
        target: usize,
    },
}

/// Where the body of a text or byte string is.
#[derive(Clone, Copy, Debug, PartialEq, Eq)]
pub struct Body {
    /// Its first offset.
    pub first: usize,
    /// Its length.
    pub length: usize,
}

/// Where pointers lead.
#[derive(Clone, Copy, Debug, PartialEq, Eq)]
pub struct Followed {
    /// The offset of the first value that is not a pointer.
    pub offset: usize,
    /// The pointers met.
    pub hops: u64,
}

/// The region of a file and an asked offset in it.
fn asked(file: &[u8], at: u64) -> Result<(&[u8], usize), Error> {
    let (region, _) = file::split(file)?;
    match usize::try_from(at) {
        Ok(offset) if offset < region.len() => Ok((region, offset)),
        _ => Err(Error { kind: ErrorKind::Outside, place: at }),
    }
}

/// Reads the value at an offset.
///
/// "Reading one value looks at neither its items nor text bytes, and of a target only that it is not below 0."
pub fn read(file: &[u8], mode: Mode, at: u64) -> Result<Value, Error> {
    let (region, at) = asked(file, at)?;
    let token = token::read(region, mode, at)?;
    Ok(value(region, token))
}

fn value(region: &[u8], token: Token) -> Value {
    let first = token.first;
    let body = Body { first, length: token.end - first };
    // The bound of n makes these exact.
    let integer = token.n as i64;
    let index = token.n as u32;
    match token.kind {
        SCALAR => Value::Scalar(match token.n {
            0 => Scalar::False,
            1 => Scalar::True,
            _ => Scalar::Null,
        }),
        POSITIVE => Value::Integer(integer),
        NEGATIVE => Value::Integer(-1 - integer),
        FLOAT => {
            let bits = region[token.first..token.end].iter().rev().fold(0, |bits, &byte| bits << 8 | u64::from(byte));
            if token.n == 0 {
                Value::Float32(bits as u32)
            } else {
                Value::Float64(bits)
            }
        }
        TEXT => Value::Text(body),
        BYTES => Value::Bytes(body),
        ARRAY => Value::Array { items: token.n, first },
        MAP => Value::Map { pairs: token.n, first },
        TAG => Value::Tag { tag: token.n, first },
        VARIANT0 => Value::Variant0 { index },
        VARIANT1 => Value::Variant1 { index, first },
        VARIANT_N => Value::VariantN { index, arguments: token.items, first },
        kind => {
            // A token that was read has its target before it, and not below 0.
            let target = token.at - 1 - token.n as usize;
            if kind == POINTER {
                Value::Pointer { target }
            } else {
                Value::Reference { target }
            }
        }
    }
}

/// Where the value at an offset ends.
///
/// "Skipping tells where the value ends and does examine items, but neither text nor targets beyond 0."
pub fn skip(file: &[u8], mode: Mode, at: u64) -> Result<usize, Error> {
    let (region, at) = asked(file, at)?;
    let token = token::read(region, mode, at)?;
    skip_items(region, mode, token.end, token.items)
}

/// Passes items: "the items before it are examined as skipping does".
fn skip_items(region: &[u8], mode: Mode, first: usize, count: u64) -> Result<usize, Error> {
    let mut at = first;
    for _ in 0..count {
        at = token::read_item(region, mode, at)?.end;
    }
    Ok(at)
}

/// An item's offset "only has to start in the region (TRUNC)".
fn start_of_item(region: &[u8], at: usize) -> Result<usize, Error> {
    if at < region.len() {
        Ok(at)
    } else {
        Err(ErrorKind::Trunc.at(region.len()))
    }
}

/// The offset of an item of the value at an offset, which is not followed.
///
/// "`NO_ITEM` first; then the items before it are examined as skipping does; the item itself only has to start in the
/// region (TRUNC)."
pub fn item(file: &[u8], mode: Mode, at: u64, index: u64) -> Result<usize, Error> {
    let (region, at) = asked(file, at)?;
    let token = token::read(region, mode, at)?;
    if !matches!(token.kind, ARRAY | MAP | TAG | VARIANT1 | VARIANT_N) {
        return Err(ErrorKind::WrongKind.at(at));
    }
    if index >= token.items {
        return Err(ErrorKind::NoItem.at(at));
    }
    let offset = skip_items(region, mode, token.end, index)?;
    start_of_item(region, offset)
}

/// Follows the pointers from an offset on.
///
/// "Following goes from pointer to pointer until a value of another kind; references stop it. Each value met is read, the
/// last too."
pub fn follow(file: &[u8], mode: Mode, at: u64) -> Result<Followed, Error> {
    let (region, at) = asked(file, at)?;
    let (token, hops) = follow_in(region, mode, at)?;
    Ok(Followed { offset: token.at, hops })
}

/// The value that pointers lead to, and the pointers met.
fn follow_in(region: &[u8], mode: Mode, at: usize) -> Result<(Token, u64), Error> {
    let mut token = token::read(region, mode, at)?;
    let mut hops = 0;
    while let (POINTER, Some(target)) = (token.kind, token.target()) {
        token = token::read(region, mode, target)?;
        hops += 1;
    }
    Ok((token, hops))
}

/// The offset of the value of a key in the map at an offset, which is not followed.
///
/// "Pair by pair the key is examined as skipping the map does (TRUNC and NESTED too), then followed; the first text key with
/// equal bytes gives its value item's offset, which has to be in the region (TRUNC); else the value is examined likewise.
/// The first fault is the answer."
pub fn lookup(file: &[u8], mode: Mode, at: u64, key: &[u8]) -> Result<usize, Error> {
    let (region, at) = asked(file, at)?;
    let map = token::read(region, mode, at)?;
    if map.kind != MAP {
        return Err(ErrorKind::WrongKind.at(at));
    }
    let mut next = map.end;
    for _ in 0..map.n {
        let held = token::read_item(region, mode, next)?;
        let (met, _) = follow_in(region, mode, held.at)?;
        if met.kind == TEXT && region[met.first..met.end] == *key {
            return start_of_item(region, held.end);
        }
        next = token::read_item(region, mode, held.end)?.end;
    }
    Err(ErrorKind::NoItem.at(at))
}

/// Hands back the body of the text or byte string that pointers lead to from an offset.
///
/// "The body of a text or byte string, after following, is handed back as a part of the lent file itself; a refusal hands
/// back an empty part."
#[must_use]
pub fn body(file: &[u8], mode: Mode, at: u64) -> &[u8] {
    match body_place(file, mode, at) {
        Ok(Body { first, length }) => &file[first..first + length],
        Err(_) => &[],
    }
}

/// "A second question on the same offset tells the body's first offset and length, or the refusal."
pub fn body_place(file: &[u8], mode: Mode, at: u64) -> Result<Body, Error> {
    let (region, at) = asked(file, at)?;
    let (token, _) = follow_in(region, mode, at)?;
    if !matches!(token.kind, TEXT | BYTES) {
        return Err(ErrorKind::WrongKind.at(token.at));
    }
    Ok(Body { first: token.first, length: token.end - token.first })
}

#[cfg(test)]
mod tests {
    use super::*;
    use crate::error::ErrorKind::*;
    use crate::leb128::Mode::{Strict, Tolerant};
    use crate::testing::{hex, in_both, refusal, DOCUMENT_001};
    use crate::MAX_LEN;

    fn read_at(at: u64, file: &str) -> Result<Value, Error> {
        in_both(|mode| read(&hex(file), mode, at))
    }

    fn skip_at(at: u64, file: &str) -> Result<usize, Error> {
        in_both(|mode| skip(&hex(file), mode, at))
    }

    fn item_at(at: u64, index: u64, file: &str) -> Result<usize, Error> {
        in_both(|mode| item(&hex(file), mode, at, index))
    }

    fn follow_at(at: u64, file: &str) -> Result<(usize, u64), Error> {
        in_both(|mode| follow(&hex(file), mode, at)).map(|Followed { offset, hops }| (offset, hops))
    }

    fn lookup_at(at: u64, key: &str, file: &str) -> Result<usize, Error> {
        in_both(|mode| lookup(&hex(file), mode, at, &hex(key)))
    }

    fn body_at(at: u64, file: &str) -> Result<(usize, usize), Error> {
        in_both(|mode| body_in(mode, at, file))
    }

    /// Both questions on a body.
    fn body_in(mode: Mode, at: u64, file: &str) -> Result<(usize, usize), Error> {
        let file = hex(file);
        let place = body_place(&file, mode, at);
        let part = body(&file, mode, at);
        match place {
            Ok(Body { first, length }) => assert_eq!(part, &file[first..first + length]),
            Err(_) => assert!(part.is_empty()),
        }
        place.map(|Body { first, length }| (first, length))
    }

    #[test]
    fn lengths_and_offsets_that_are_refused() {
        let long = vec![0; MAX_LEN + 1];
        for at in [0, 1, u64::MAX] {
            assert_eq!(read_at(at, ""), Err(refusal(Empty, 0)));
            assert_eq!(skip(&long, Strict, at), Err(refusal(TooLong, 0)));
            assert_eq!(skip(&long, Tolerant, at), Err(refusal(TooLong, 0)));
            assert_eq!(item_at(at, 0, "00"), Err(refusal(Outside, at)));
            assert_eq!(follow_at(at, "00"), Err(refusal(Outside, at)));
            assert_eq!(lookup_at(at, "", "00"), Err(refusal(Outside, at)));
            assert_eq!(body_at(at, "00"), Err(refusal(Outside, at)));
        }
        assert_eq!(read_at(1, "10 00"), Err(refusal(Outside, 1)));
    }

    #[test]
    fn values_of_each_kind() {
        let cases = [
            ("00 00", Value::Scalar(Scalar::False)),
            ("01 00", Value::Scalar(Scalar::True)),
            ("02 00", Value::Scalar(Scalar::Null)),
            ("1f 1b 00", Value::Integer(42)),
            ("21 00", Value::Integer(-2)),
            ("2f f0 ff ff ff ff ff ff ff 7f 09", Value::Integer(i64::MIN)),
            ("1f f0 ff ff ff ff ff ff ff 7f 09", Value::Integer(i64::MAX)),
            ("30 00 00 80 3f 00", Value::Float32(0x3f80_0000)),
            ("31 00 00 00 00 00 40 45 40 00", Value::Float64(0x4045_4000_0000_0000)),
            ("41 ff 00", Value::Text(Body { first: 1, length: 1 })),
            ("50 00", Value::Bytes(Body { first: 1, length: 0 })),
            ("61 90 00", Value::Array { items: 1, first: 1 }),
            ("71 90 90 00", Value::Map { pairs: 1, first: 1 }),
            ("8f 01 00", Value::Tag { tag: 16, first: 2 }),
            ("a5 00", Value::Variant0 { index: 5 }),
            ("b5 00", Value::Variant1 { index: 5, first: 1 }),
            ("c5 01 90 00", Value::VariantN { index: 5, arguments: 1, first: 2 }),
        ];
        for (file, value) in cases {
            assert_eq!(read_at(0, file), Ok(value), "{file}");
        }
        assert_eq!(read_at(2, "1f 1b f0 00"), Ok(Value::Pointer { target: 1 }));
        assert_eq!(read_at(1, "10 e0 00"), Ok(Value::Reference { target: 0 }));
        assert_eq!(read_at(1, "1f 1b 00"), Ok(Value::Integer(11)));
    }

    #[test]
    fn reading_compares_a_count_with_the_bytes_left() {
        assert_eq!(read_at(0, "63 10 00"), Err(refusal(LongList, 1)));
        assert_eq!(read_at(0, "f0 00"), Err(refusal(BadTarget, 0)));
        assert_eq!(read_at(0, "03 00"), Err(refusal(Reserved, 0)));
    }

    #[test]
    fn skipping() {
        assert_eq!(skip_at(3, "61 1f 1b 64 f3 11 12 13 04"), Ok(8));
        assert_eq!(skip_at(11, DOCUMENT_001), Ok(18));
        assert_eq!(skip_at(0, "81 00"), Err(refusal(Trunc, 1)));
        assert_eq!(skip_at(0, "41 ff 00"), Ok(2));
        assert_eq!(skip_at(2, "1f 1b f0 00"), Ok(3));
        assert_eq!(skip_at(0, "61 f1 00"), Err(refusal(BadTarget, 1)));
        assert_eq!(skip_at(0, "61 f0 00"), Ok(2));
        assert_eq!(skip_at(1, "61 61 10 00"), Ok(3));
        assert_eq!(skip_at(0, "61 61 10 00"), Err(refusal(Nested, 1)));
        assert_eq!(skip_at(0, "62 41 61 00"), Err(refusal(Trunc, 3)));
    }

    #[test]
    fn items() {
        let file = "61 1f 1b 64 f3 11 12 13 04";
        assert_eq!(item_at(3, 3, file), Ok(7));
        assert_eq!(item_at(3, 4, file), Err(refusal(NoItem, 3)));
        assert_eq!(item_at(0, 0, "81 00"), Err(refusal(Trunc, 1)));
        assert_eq!(item_at(0, 0, "41 ff 00"), Err(refusal(WrongKind, 0)));
        assert_eq!(item_at(2, 0, "1f 1b f0 00"), Err(refusal(WrongKind, 2)));
        assert_eq!(item_at(0, 0, "f0 00"), Err(refusal(BadTarget, 0)));
        assert_eq!(item_at(0, 2, "62 90 90 00"), Err(refusal(NoItem, 0)));
        assert_eq!(item_at(0, 1, "62 90 90 00"), Err(refusal(Reserved, 1)));
        assert_eq!(item_at(0, 0, "61 60 00"), Ok(1));
        assert_eq!(item_at(0, 1, "62 41 61 00"), Err(refusal(Trunc, 3)));
        assert_eq!(item_at(0, 9, "6f 80 00 00"), Err(refusal(Overlong, 0)));
        assert_eq!(item_at(0, u64::MAX, "10 00"), Err(refusal(WrongKind, 0)));
        assert_eq!(item_at(0, 3, "72 10 11 12 13 14 00"), Ok(4));
        assert_eq!(item_at(0, 4, "72 10 11 12 13 14 00"), Err(refusal(NoItem, 0)));
        assert_eq!(item_at(0, 1, "c0 02 10 11 00"), Ok(3));
        assert_eq!(item_at(0, 0, "b3 10 00"), Ok(1));
        assert_eq!(item_at(0, 1, "b3 10 00"), Err(refusal(NoItem, 0)));
    }

    #[test]
    fn following() {
        assert_eq!(follow_at(10, DOCUMENT_001), Ok((6, 1)));
        assert_eq!(follow_at(3, "10 f0 f0 f0 00"), Ok((0, 3)));
        assert_eq!(follow_at(3, "41 ff e1 f0 00"), Ok((2, 1)));
        assert_eq!(follow_at(1, "90 f0 00"), Err(refusal(Reserved, 0)));
        assert_eq!(follow_at(1, "f0 f0 00"), Err(refusal(BadTarget, 0)));
        assert_eq!(follow_at(0, "41 ff 00"), Ok((0, 0)));
        assert_eq!(follow_at(2, "1f 1b f0 00"), Ok((1, 1)));
    }

    #[test]
    fn looking_up() {
        assert_eq!(lookup_at(11, "61", DOCUMENT_001), Ok(14));
        assert_eq!(lookup_at(11, "78", DOCUMENT_001), Ok(17));
        assert_eq!(lookup_at(11, "79", DOCUMENT_001), Err(refusal(NoItem, 11)));
        assert_eq!(lookup_at(1, "61", "90 71 10 f2 00"), Err(refusal(NoItem, 1)));
        assert_eq!(lookup_at(0, "ff", "71 41 ff 10 00"), Ok(3));
        assert_eq!(lookup_at(0, "ed a0 80", "71 43 ed a0 80 10 00"), Ok(5));
        let file = "72 41 61 10 90 90 00";
        assert_eq!(lookup_at(0, "61", file), Ok(3));
        assert_eq!(lookup_at(0, "62", file), Err(refusal(Reserved, 4)));
        assert_eq!(lookup_at(0, "61", "71 51 61 10 00"), Err(refusal(NoItem, 0)));
        assert_eq!(lookup_at(2, "61", "41 61 71 f2 10 00"), Ok(4));
        assert_eq!(lookup_at(3, "61", "41 61 e1 71 f1 10 00"), Err(refusal(NoItem, 3)));
        assert_eq!(lookup_at(0, "61", "71 41 61 00"), Err(refusal(Trunc, 3)));
        assert_eq!(lookup_at(0, "62", "71 41 61 00"), Err(refusal(Trunc, 3)));
        assert_eq!(lookup_at(1, "61", "90 71 f1 10 00"), Err(refusal(Reserved, 0)));
        assert_eq!(lookup_at(0, "61", "71 60 10 00"), Err(refusal(Nested, 1)));
        let file = "72 41 61 60 41 62 10 ff";
        assert_eq!(lookup_at(0, "61", file), Ok(3));
        assert_eq!(lookup_at(0, "62", file), Err(refusal(Nested, 3)));
        assert_eq!(lookup_at(1, "61", "70 f0 00"), Err(refusal(WrongKind, 1)));
        assert_eq!(lookup_at(0, "", "71 40 10 00"), Ok(2));
    }

    #[test]
    fn bodies() {
        assert_eq!(body_at(7, DOCUMENT_001), Ok((1, 5)));
        assert_eq!(body_at(14, DOCUMENT_001), Err(refusal(WrongKind, 8)));
        assert_eq!(body_at(0, "41 ff 00"), Ok((1, 1)));
        assert_eq!(body_at(0, "43 ed a0 80 00"), Ok((1, 3)));
        assert_eq!(body_at(0, "40 00"), Ok((1, 0)));
        assert_eq!(body_at(3, "41 61 e1 f0 00"), Err(refusal(WrongKind, 2)));
        assert_eq!(body_at(0, "42 61 00"), Err(refusal(LongBody, 1)));
    }

    #[test]
    fn the_body_is_a_part_of_the_file() {
        let file = hex(DOCUMENT_001);
        assert!(std::ptr::eq(body(&file, Strict, 0), &file[1..6]));
    }

    /// "Every caller that passes a refusal on passes the new ones", with their place.
    #[test]
    fn long_bodies_and_lists_are_passed_on() {
        // At the asked value: a text, a byte string, an array, a map, and a variant of many.
        for (file, kind, place) in [
            ("10 44 61 61 00", LongBody, 2),
            ("10 5f 80 01 61 00", LongBody, 4),
            ("10 64 61 61 00", LongList, 2),
            ("10 72 61 61 61 00", LongList, 2),
            ("10 cf 00 80 01 10 00", LongList, 5),
        ] {
            let expected = refusal(kind, place);
            assert_eq!(read_at(1, file), Err(expected), "{file}");
            assert_eq!(skip_at(1, file), Err(expected), "{file}");
            assert_eq!(follow_at(1, file), Err(expected), "{file}");
            assert_eq!(body_at(1, file), Err(expected), "{file}");
            // Before WRONG_KIND and before NO_ITEM.
            assert_eq!(item_at(1, 0, file), Err(expected), "{file}");
            assert_eq!(item_at(1, u64::MAX, file), Err(expected), "{file}");
            assert_eq!(lookup_at(1, "61", file), Err(expected), "{file}");
        }
        // At the end of pointers.
        for (file, kind, place) in [("4e f0 f0 f0 00", LongBody, 1), ("cf 00 0f f2 f0 f0 00", LongList, 3)] {
            let last = hex(file).len() as u64 - 2;
            let expected = refusal(kind, place);
            assert_eq!(follow_at(last, file), Err(expected), "{file}");
            assert_eq!(body_at(last, file), Err(expected), "{file}");
            assert!(matches!(read_at(last, file), Ok(Value::Pointer { .. })), "{file}");
            assert_eq!(skip_at(last, file), Ok(last as usize + 1), "{file}");
        }
        // In an item.
        let file = "63 10 4f 00 61 10 00";
        assert!(read_at(0, file).is_ok());
        assert_eq!(skip_at(0, file), Err(refusal(LongBody, 4)));
        assert_eq!(item_at(0, 0, file), Ok(1));
        assert_eq!(item_at(0, 1, file), Ok(2), "not examined");
        assert_eq!(item_at(0, 2, file), Err(refusal(LongBody, 4)));
        assert_eq!(item_at(0, 3, file), Err(refusal(NoItem, 0)));
        assert_eq!(skip_at(0, "81 52 00 00"), Err(refusal(LongBody, 2)));
        assert_eq!(skip_at(0, "bf 00 52 00 00"), Err(refusal(LongBody, 3)));
        assert_eq!(skip_at(0, "c0 01 52 00 00"), Err(refusal(LongBody, 3)));
    }

    #[test]
    fn lookups_pass_long_bodies_and_lists_on() {
        // The key, the value before the wanted key, and the wanted key's own value, which is not examined.
        assert_eq!(lookup_at(0, "61", "71 45 61 10 00"), Err(refusal(LongBody, 2)));
        let file = "72 41 61 45 41 62 10 ff";
        assert_eq!(lookup_at(0, "61", file), Ok(3));
        assert_eq!(lookup_at(0, "62", file), Err(refusal(LongBody, 4)));
        // A key that is followed: to a text, to an array.
        assert_eq!(lookup_at(1, "61", "45 71 f1 10 00"), Err(refusal(LongBody, 1)));
        assert_eq!(lookup_at(1, "61", "65 71 f1 10 00"), Err(refusal(LongList, 1)));
        // The same as a value, which is not followed.
        assert_eq!(lookup_at(1, "61", "45 71 10 f2 00"), Err(refusal(NoItem, 1)));
    }

    /// "All reading calls .. take the choice, one a call": each question of a value with padded numbers, and of its items.
    #[test]
    fn padded_numbers_are_read_in_the_tolerant_mode() {
        for (file, value, end) in [
            ("10 1f 9b 80 80 80 00 00", Value::Integer(42), 7),
            ("10 2f 80 00 00", Value::Integer(-16), 4),
            ("10 af 81 80 00 00", Value::Variant0 { index: 16 }, 5),
            ("10 8f 80 00 11 00", Value::Tag { tag: 15, first: 4 }, 5),
            ("10 bf 80 00 11 00", Value::Variant1 { index: 15, first: 4 }, 5),
            ("10 cf 80 00 01 11 00", Value::VariantN { index: 15, arguments: 1, first: 5 }, 6),
            ("10 cf 00 81 00 11 00", Value::VariantN { index: 15, arguments: 1, first: 5 }, 6),
            ("10 c2 82 80 00 11 12 00", Value::VariantN { index: 2, arguments: 2, first: 5 }, 7),
        ] {
            assert_eq!(read_at(1, file), Err(refusal(Overlong, 1)), "{file}");
            assert_eq!(read(&hex(file), Tolerant, 1), Ok(value), "{file}");
            assert_eq!(skip_at(1, file), Err(refusal(Overlong, 1)), "{file}");
            assert_eq!(skip(&hex(file), Tolerant, 1), Ok(end), "{file}");
            assert_eq!(follow_at(1, file), Err(refusal(Overlong, 1)), "{file}");
            assert_eq!(follow(&hex(file), Tolerant, 1), Ok(Followed { offset: 1, hops: 0 }), "{file}");
            assert_eq!(body_at(1, file), Err(refusal(Overlong, 1)), "{file}");
            assert_eq!(body_in(Tolerant, 1, file), Err(refusal(WrongKind, 1)), "{file}");
        }
        // The items before the asked one are examined, the asked one is not.
        let file = "63 10 1f 80 00 13 00";
        assert_eq!(item_at(0, 1, file), Ok(2));
        assert_eq!(item_at(0, 2, file), Err(refusal(Overlong, 2)));
        assert_eq!(item(&hex(file), Tolerant, 0, 2), Ok(5));
        let file = format!("6f 80 00 {} 00", "10".repeat(15));
        assert_eq!(item_at(0, 14, &file), Err(refusal(Overlong, 0)));
        assert_eq!(item(&hex(&file), Tolerant, 0, 14), Ok(17));
        assert_eq!(item(&hex(&file), Tolerant, 0, 15), Err(refusal(NoItem, 0)));
    }

    /// "A reference or pointer whose header is at q targets q - n - 1", however many bytes its number takes.
    #[test]
    fn padded_distances() {
        for size in 2..=10 {
            let distance = format!("{} 00", "80".repeat(size - 1));
            let file = hex(&format!("4f 80 00 {} ef {distance} ff {distance} 00", "61".repeat(15)));
            assert_eq!(file.len(), 18 + 2 * (1 + size) + 1);
            let (reference, pointer) = (18, 18 + 1 + size as u64);
            assert_eq!(read(&file, Tolerant, reference), Ok(Value::Reference { target: 2 }));
            assert_eq!(read(&file, Tolerant, pointer), Ok(Value::Pointer { target: pointer as usize - 16 }));
            assert_eq!(skip(&file, Tolerant, pointer), Ok(pointer as usize + 1 + size));
        }
        // A padded pointer to a padded pointer to a padded text.
        let file = format!("4f 80 00 {} ff 82 00 {} ff 82 80 80 80 00 00", "61".repeat(15), "10".repeat(15));
        for (at, hops) in [(0, 0), (18, 1), (36, 2)] {
            assert_eq!(follow_at(at, &file), Err(refusal(Overlong, at)));
            assert_eq!(follow(&hex(&file), Tolerant, at), Ok(Followed { offset: 0, hops }), "{at}");
            assert_eq!(body_in(Tolerant, at, &file), Ok((3, 15)));
        }
        assert_eq!(read(&hex("ff 80 00 00"), Tolerant, 0), Err(refusal(BadTarget, 0)));
    }

    #[test]
    fn lookups_of_padded_keys() {
        let key = "61".repeat(15);
        let is_padded = |at: u64, overlong: u64, found: usize, file: &str| {
            assert_eq!(lookup_at(at, &key, file), Err(refusal(Overlong, overlong)), "{file}");
            assert_eq!(lookup(&hex(file), Tolerant, at, &hex(&key)), Ok(found), "{file}");
        };
        // The key itself, what it points at, the value before it, and the map's own number.
        is_padded(0, 1, 19, &format!("71 4f 80 00 {key} 10 00"));
        is_padded(18, 0, 21, &format!("4f 80 00 {key} 71 ff 03 10 00"));
        is_padded(17, 18, 23, &format!("4f 00 {key} 71 ff 82 80 80 00 10 00"));
        is_padded(0, 2, 22, &format!("72 10 1f 80 00 4f 00 {key} 10 00"));
        let pairs = "10 11".repeat(14);
        is_padded(0, 0, 48, &format!("7f 80 00 {pairs} 4f 00 {key} 10 00"));
        // The value of the wanted key is not examined.
        assert_eq!(lookup_at(0, "61", "71 41 61 1f 80 00 00"), Ok(3));
        assert_eq!(lookup_at(0, "62", "71 41 61 1f 80 00 00"), Err(refusal(Overlong, 3)));
        assert_eq!(lookup(&hex("71 41 61 1f 80 00 00"), Tolerant, 0, b"b"), Err(refusal(NoItem, 0)));
    }
}
